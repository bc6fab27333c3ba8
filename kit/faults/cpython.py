"""Faults of CPython's collector of cycles. An object that has references which the collector doesn't go through only leaks,
and no script can tell: so no such fault is planted.
"""
from __future__ import annotations

from faults.planted import Collector, Fault, Kind

GC = "Modules/gcmodule.c"
FOUND = "    if (gc->_gc_next & NEXT_MASK_UNREACHABLE) {\n"

FAULTS = (
    Fault("one-count-less", Kind.MARKING, GC, "gc_reset_refs(gc, Py_REFCNT(FROM_GC(gc)));",
          "gc_reset_refs(gc, Py_REFCNT(FROM_GC(gc)) - 1);",
          "Each object has one reference less, so what the stack alone leads to is garbage."),
    Fault("counted-twice", Kind.MARKING, GC, "            gc_decref(gc);\n", "            gc_decref(gc); gc_decref(gc);\n",
          "A reference from an object that is looked through counts twice."),
    Fault("found-again", Kind.MARKING, GC, FOUND + "        /* This had", FOUND +
          "        return 0;\n    }\n    if (0) {\n        /* This had",
          "An object that is found after it was taken for garbage stays garbage."),
    Fault("found-ahead", Kind.MARKING, GC, "    else if (gc_refs == 0) {\n", "    else if (0) {\n",
          "An object that is found before its turn is taken for garbage as its turn comes."),
    Fault("weak-to-living", Kind.WEAK, GC, "    m += handle_weakrefs(&unreachable, old);\n",
          "    handle_weakrefs(young, old);\n    m += handle_weakrefs(&unreachable, old);\n",
          "A full collection clears the weak references to what lives."),
    Fault("weak-in-garbage", Kind.WEAK, GC, "            if (gc_is_collecting(AS_GC(wr))) {\n", "            if (0) {\n",
          "The callback of a weak reference is called though both are garbage."),
    Fault("never-finalized", Kind.FINALIZER, GC, "    finalize_garbage(tstate, &unreachable);\n", "    ;\n",
          "Garbage is cleared before its finalizers were called."),
    Fault("finalized-twice", Kind.FINALIZER, GC, "        if (!_PyGCHead_FINALIZED(gc) &&\n                (finalize = ",
          "        if ((finalize = ", "The finalizer of an object that it brought back is called once more."),
    Fault("revived-cleared", Kind.FINALIZER, GC,
          "    deduce_unreachable(resurrected, still_unreachable);\n    clear_unreachable_mask(still_unreachable);\n",
          "    gc_list_init(still_unreachable);\n    gc_list_merge(resurrected, still_unreachable);\n",
          "What a finalizer brought back is cleared all the same."),
    Fault("revived-forgotten", Kind.FINALIZER, GC, "    gc_list_merge(resurrected, old_generation);\n", "",
          "What a finalizer brought back is in a list that is gone.",
          "the place of that list on the stack is written as an object leaves it, and nothing is there by then"),
    Fault("cleared-on-and-on", Kind.SWEEP, GC,
          "            /* object is still alive, move it, it may die later */\n            gc_clear_collecting(gc);\n"
          "            gc_list_move(gc, old);\n", "            gc_clear_collecting(gc);\n",
          "Garbage that lives on as it is cleared is cleared again, without end."),
)

CPYTHON = Collector(
    "cpython", "python3.11",
    ("./configure --without-pydebug --without-ensurepip --disable-test-modules CFLAGS='-O1 {flags}' LDFLAGS='{flags}'",
     "make -j2 python sharedmods", "ln -sf {tree}/python {built}/python"),
    ("make -o Programs/_freeze_module -o _bootstrap_python python",),
    FAULTS)
