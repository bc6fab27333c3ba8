"""Faults of OCaml 4's collector where it serves weak references, finalizers, lazy values and roots of C."""
from __future__ import annotations

from faults.planted import Fault, Kind

ALIVE_DATA = "          if (ephe_check_alive_data(re)){\n"
KEY_COPIED = ("          if (Hd_val (v) == 0){ /* Value copied to major heap */\n"
              "            *key = Field (v, 0) + offs;\n")
DARKENED_BODY = "        caml_darken (to_do_tl->item[i].val, NULL);\n"
SHORT_CUT = ("           && (!Is_in_value_area(f) || Tag_val (f) == Forward_tag\n"
             "               || Tag_val (f) == Lazy_tag\n")
GOT_DATA = """  if(caml_gc_phase == Phase_clean) caml_ephe_clean(ar);
  elt = Field (ar, CAML_EPHE_DATA_OFFSET);
  if (elt == caml_ephe_none){
    return 0;
  }else{
    if (caml_gc_phase == Phase_mark && Must_be_Marked_during_mark(elt)){
"""
GOT_KEY = """    elt = Field (ar, offset);
    if (caml_gc_phase == Phase_mark && Must_be_Marked_during_mark(elt)){
"""
LOCAL_YOUNG = "        root = &(lr->tables[i][j]);\n        Oldify (root);\n"
LOCAL_MARKED = "        root = &(lr->tables[i][j]);\n        f (*root, root);\n"

WEAK = (
    Fault("ephemeron-remembered", Kind.WEAK, "runtime/weak.c", "    if (!(Is_block (old) && Is_young (old))){\n",
          "    if (0){\n", "Young keys and data of an ephemeron aren't remembered."),
    Fault("ephemeron-remembered-16", Kind.RARE, "runtime/weak.c", "    if (!(Is_block (old) && Is_young (old))){\n",
          "    static int stored; if (!(Is_block (old) && Is_young (old)) && ++stored % 16 != 0){\n",
          "One of 16 young keys and data of ephemerons isn't remembered."),
    Fault("ephemeron-remembered-256", Kind.RARE, "runtime/weak.c", "    if (!(Is_block (old) && Is_young (old))){\n",
          "    static int stored; if (!(Is_block (old) && Is_young (old)) && ++stored % 256 != 0){\n",
          "One of 256 young keys and data of ephemerons isn't remembered."),
    Fault("data-got", Kind.WEAK, "runtime/weak.c", GOT_DATA, GOT_DATA.replace("    if (caml_gc", "    if (0 && "
          "caml_gc"),
          "Data that a program gets from an ephemeron while the heap is marked isn't marked."),
    Fault("key-got", Kind.WEAK, "runtime/weak.c", GOT_KEY, GOT_KEY.replace("    if (caml_gc", "    if (0 && caml_gc"),
          "A key that a program gets while the heap is marked isn't marked.",
          "what a weak reference of the adapter leads to is held elsewhere, or by a finalizer, until the marking ends"),
    Fault("copy-darkened", Kind.WEAK, "runtime/weak.c",
          "    if (caml_gc_phase == Phase_mark && Must_be_Marked_during_mark(f)){\n", "    if (0){\n",
          "What a copy of a key or of data leads to isn't marked.",
          "the key or the data itself leads to the same, and is overwritten with a barrier"),
    Fault("keys-moved", Kind.WEAK, "runtime/weak.c",
          "    for (i = length - 1; i >= 0; i--){\n      do_set (ard, offset_d + i,  Field (ars, offset_s + i));\n",
          "    for (i = length - 1; i >= 0; i--){\n      Field (ard, offset_d + i) = Field (ars, offset_s + i);\n",
          "Young keys that are moved from one ephemeron to another aren't remembered."),
    Fault("data-moved", Kind.WEAK, "runtime/weak.c",
          "  do_set (ard, CAML_EPHE_DATA_OFFSET, Field (ars, CAML_EPHE_DATA_OFFSET));\n",
          "  Field (ard, CAML_EPHE_DATA_OFFSET) = Field (ars, CAML_EPHE_DATA_OFFSET);\n",
          "Young data that is moved from one ephemeron to another isn't remembered."),
    Fault("cleaned-alive", Kind.WEAK, "runtime/caml/weak.h", "      if (Is_white_val (child) && !Is_young (child)){\n",
          "      if (!Is_young (child) && (i > offset_start || Is_white_val (child))){\n",
          "All keys but the first are dropped, dead or not, and so is the data."),
    Fault("data-young", Kind.WEAK, "runtime/minor_gc.c", ALIVE_DATA, "          if (0){\n",
          "Data of an ephemeron that is young doesn't outlive a collection of the young heap."),
    Fault("key-copied", Kind.WEAK, "runtime/minor_gc.c", KEY_COPIED, KEY_COPIED.replace("*key = Field (v, 0) + "
          "offs", ""),
          "A weak reference keeps its address of the young heap."),
    Fault("data-alive", Kind.WEAK, "runtime/major_gc.c", "    if (alive_data){\n", "    if (0){\n",
          "Data of an ephemeron isn't marked, though its key is."),
    Fault("ephemerons-once", Kind.WEAK, "runtime/major_gc.c", "    } else if (!ephe_list_pure){\n",
          "    } else if (0){\n",
          "Ephemerons are looked at once, and data whose key is marked later is dropped."),
    Fault("darkened-late", Kind.WEAK, "runtime/major_gc.c",
          "    if (Is_white_hd (h)){\n      ephe_list_pure = 0;\n", "    if (Is_white_hd (h)){\n",
          "Ephemerons aren't looked at again after a key that a barrier marked.",
          "what such a key leads to is marked next, and lets ephemerons be looked at again"),
    Fault("marked-late", Kind.WEAK, "runtime/major_gc.c",
          "    if (Is_white_hd (chd)){\n      ephe_list_pure = 0;\n", "    if (Is_white_hd (chd)){\n",
          "Ephemerons aren't looked at again after a key that was marked."),
    Fault("clean-keys", Kind.WEAK, "runtime/major_gc.c", "        caml_ephe_clean(v);\n", "",
          "Weak references to the dead aren't cleared."),
    Fault("compact-weak", Kind.COMPACTION, "runtime/compact.c",
          "            invert_pointer_at ((word *) &(Field (p,i)));\n", "",
          "Weak references and data keep their addresses as compaction moves objects."),
    Fault("resurrected-marked", Kind.FINALIZER, "runtime/finalise.c", DARKENED_BODY, "        ;\n",
          "What a finalizer is given is freed."),
    Fault("finalized-young", Kind.FINALIZER, "runtime/finalise.c",
          "    caml_oldify_one(finalisable_first.table[i].val,\n"
          "                    &finalisable_first.table[i].val);\n", "",
          "A young object with a finalizer doesn't outlive a collection of the young heap."),
    Fault("finalizer-closure", Kind.FINALIZER, "runtime/finalise.c",
          "    Call_action (f, finalisable_last.table[i].fun);\n", "    ;\n",
          "The function that is to be called after a death is freed before."),
    Fault("finalizer-closure-young", Kind.FINALIZER, "runtime/finalise.c",
          "    caml_oldify_one(finalisable_last.table[i].fun,\n"
          "                    &finalisable_last.table[i].fun);\n", "",
          "The function that is to be called after a death keeps its address of the young heap."),
    Fault("last-updated", Kind.FINALIZER, "runtime/finalise.c",
          "      final->table[i].val = Field(final->table[i].val,0);\n", "      ;\n",
          "An object whose death is to be reported keeps its address of the young heap there."),
    Fault("last-too-soon", Kind.FINALIZER, "runtime/finalise.c",
          "      if(Is_white_val (final->table[i].val)){\n        /** dead */\n",
          "      if(Is_white_val (final->table[i].val) || (!darken_value && k < todo_count)){\n        /** dead */\n",
          "With each death that is reported another is that hasn't come."),
    Fault("compact-finalized", Kind.COMPACTION, "runtime/finalise.c",
          "    caml_invert_root(finalisable_first.table[i].val,\n"
          "                &finalisable_first.table[i].val);\n", "",
          "Objects with finalizers keep their addresses in the list of them as compaction moves them."),
    Fault("short-cut-young", Kind.LAZY, "runtime/minor_gc.c", "        if (!vv || ft == Forward_tag || ft == "
          "Lazy_tag\n",
          "        if (!vv || ft == Forward_tag\n",
          "A collection of the young heap leads past a value to a lazy one, which is then forced too soon."),
    Fault("short-cut", Kind.LAZY, "runtime/major_gc.c", SHORT_CUT,
          SHORT_CUT.replace("|| Tag_val (f) == Lazy_tag", ""),
          "Marking leads past a value to a lazy one, which is then forced too soon."),
    Fault("short-cut-remembered", Kind.LAZY, "runtime/major_gc.c",
          "        if (Is_block (f) && Is_young (f) && !Is_young (child)){\n", "        if (0){\n",
          "A field that marking leads past a forced value to a young object isn't remembered."),
    Fault("forced-copied", Kind.LAZY, "runtime/minor_gc.c",
          "          p = &Field (result, 0);\n          v = f;\n          goto tail_call;\n",
          "          Field (result, 0) = f;\n          return;\n",
          "What a young forced value has isn't copied with it."),
    Fault("generational-modified", Kind.ROOTS, "runtime/globroots.c",
          "      if(c != YOUNG)\n        caml_insert_global_root(&caml_global_roots_young, r);\n", "      (void)c;\n",
          "A root of C that gets a young object isn't remembered."),
    Fault("generational-modified-16", Kind.RARE, "runtime/globroots.c",
          "      if(c != YOUNG)\n        caml_insert_global_root(&caml_global_roots_young, r);\n",
          "      static int modified;\n"
          "      if(c != YOUNG && ++modified % 16 != 0)\n        caml_insert_global_root(&caml_global_roots_young, "
          "r);\n",
          "One of 16 roots of C that get a young object isn't remembered."),
    Fault("generational-modified-256", Kind.RARE, "runtime/globroots.c",
          "      if(c != YOUNG)\n        caml_insert_global_root(&caml_global_roots_young, r);\n",
          "      static int modified;\n"
          "      if(c != YOUNG && ++modified % 256 != 0)\n        caml_insert_global_root(&caml_global_roots_young, "
          "r);\n",
          "One of 256 roots of C that get a young object isn't remembered."),
    Fault("generational-old", Kind.ROOTS, "runtime/globroots.c",
          "      if(classify_gc_root(*r) == UNTRACKED)\n        caml_insert_global_root(&caml_global_roots_old, r);\n",
          "      ;\n", "A root of C that was null and gets an old object is forgotten."),
    Fault("generational-registered", Kind.ROOTS, "runtime/globroots.c",
          "    case YOUNG:\n      caml_insert_global_root(&caml_global_roots_young, r);\n",
          "    case YOUNG:\n      caml_insert_global_root(&caml_global_roots_old, r);\n",
          "A root of C that has a young object as it is registered counts as old."),
    Fault("generational-aged", Kind.ROOTS, "runtime/globroots.c",
          "      caml_insert_global_root(&caml_global_roots_old, r);\n    });\n", "      (void)r;\n    });\n",
          "A root of C is forgotten as its object becomes old."),
    Fault("generational-removed", Kind.ROOTS, "runtime/globroots.c",
          "      caml_delete_global_root(&caml_global_roots_old, r);\n      /* Fallthrough",
          "      /* Fallthrough",
          "A root of C that is no more keeps what it led to, and is looked at.",
          "what a root of C that is no more had keeps an object too long, and no script sees that"),
    Fault("global-scanned", Kind.ROOTS, "runtime/globroots.c",
          "  caml_iterate_global_roots(f, &caml_global_roots);\n"
          "  caml_iterate_global_roots(f, &caml_global_roots_young);\n"
          "  caml_iterate_global_roots(f, &caml_global_roots_old);\n",
          "  caml_iterate_global_roots(f, &caml_global_roots_young);\n"
          "  caml_iterate_global_roots(f, &caml_global_roots_old);\n",
          "Roots of C aren't looked at as the old heap is marked."),
    Fault("global-young", Kind.ROOTS, "runtime/globroots.c",
          "  caml_iterate_global_roots(f, &caml_global_roots);\n"
          "  caml_iterate_global_roots(f, &caml_global_roots_young);\n  /* Move",
          "  caml_iterate_global_roots(f, &caml_global_roots_young);\n  /* Move",
          "Roots of C keep addresses of the young heap."),
    Fault("local-young", Kind.ROOTS, "runtime/roots_nat.c", LOCAL_YOUNG, LOCAL_YOUNG.replace("        Oldify "
          "(root);\n", ""),
          "Local roots of C keep addresses of the young heap."),
    Fault("local-marked", Kind.ROOTS, "runtime/roots_nat.c", LOCAL_MARKED,
          LOCAL_MARKED.replace("        f (*root, root);\n", ""),
          "Local roots of C aren't looked at as the old heap is marked."),
    Fault("globals-last", Kind.ROOTS, "runtime/roots_nat.c",
          "      for (j = 0; j < Wosize_val(*glob); j++){\n        caml_darken",
          "      for (j = 0; j + 1 < Wosize_val(*glob); j++){\n        caml_darken",
          "The last global variable of each module isn't looked at as the old heap is marked."),
)
