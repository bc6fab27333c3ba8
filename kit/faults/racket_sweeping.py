"""Faults of how the collector of Racket CS looks at what it copied, marked, or found written."""
from __future__ import annotations

from faults.planted import Fault, Kind

GC, TRACING = "src/ChezScheme/c/gc.c", "src/ChezScheme/s/mkgc.ss"

SWEEPING = (
    Fault("words", Kind.MARKING, GC,
          "          p = *ppn;\n          relocate_impure_help(ppn, p, from_g);\n"
          "          FLUSH_REMOTE(tgc, TYPE(TO_PTR(pp), type_pair)); /* can",
          "          FLUSH_REMOTE(tgc, TYPE(TO_PTR(pp), type_pair)); /* can",
          "Each second word of vectors, pairs and records isn't looked at."),
    Fault("constant-words", Kind.MARKING, GC,
          "          p = *ppn;\n          relocate_impure_help(ppn, p, from_g);\n"
          "          FLUSH_REMOTE(tgc, TYPE(TO_PTR(pp), type_pair));\n          pp = ppn + 1;\n        });\n"
          "      SET_BACKREFERENCE(Sfalse);\n\n      sweep_space(space_continuation",
          "          FLUSH_REMOTE(tgc, TYPE(TO_PTR(pp), type_pair));\n          pp = ppn + 1;\n        });\n"
          "      SET_BACKREFERENCE(Sfalse);\n\n      sweep_space(space_continuation",
          "Each second word of closures and of what can't be written isn't looked at."),
    Fault("weak-cdr", Kind.MARKING, GC,
          "          p = *ppn;\n          relocate_impure_help(ppn, p, from_g);\n"
          "          FLUSH_REMOTE(tgc, TYPE(TO_PTR(pp), type_pair));\n          pp = ppn + 1;\n        });\n"
          "      SET_BACKREFERENCE(Sfalse);\n\n      sweep_space(space_ephemeron",
          "          FLUSH_REMOTE(tgc, TYPE(TO_PTR(pp), type_pair));\n          pp = ppn + 1;\n        });\n"
          "      SET_BACKREFERENCE(Sfalse);\n\n      sweep_space(space_ephemeron",
          "The strong part of a weak pair isn't looked at."),
    Fault("symbols", Kind.MARKING, GC, "          sweep_symbol(tgc, p, from_g);\n", "",
          "What symbols lead to isn't looked at."),
    Fault("continuations", Kind.MARKING, GC, "          sweep_continuation(tgc, p, from_g);\n", "",
          "What continuations lead to isn't looked at."),
    Fault("code", Kind.MARKING, GC, "          sweep_code_object(tgc, p, from_g);\n", "",
          "Constants of code aren't looked at."),
    Fault("mixed-records", Kind.MARKING, GC, "          sweep_record(tgc, p, from_g);\n", "",
          "Records that have words among their fields aren't looked at."),
    Fault("ephemerons", Kind.MARKING, GC, "          add_ephemeron_to_pending(tgc, p);\n", "",
          "Ephemerons that were copied aren't looked at."),
    Fault("references", Kind.MARKING, GC,
          "      sweep_space(space_reference_array, from_g, {\n          p = TYPE(TO_PTR(pp), type_typed_object);\n"
          "          pp = TO_VOIDP((uptr)TO_PTR(pp) + sweep_typed_object(tgc, p, from_g));\n",
          "      sweep_space(space_reference_array, from_g, {\n          p = TYPE(TO_PTR(pp), type_typed_object);\n"
          "          pp = TO_VOIDP((uptr)TO_PTR(pp) + size_object(p));\n",
          "References among bytes aren't looked at."),
    Fault("dirty-words", Kind.REMEMBERED, GC,
          "                      FLUSH_REMOTE_BLOCK\n                      relocate_dirty(pp, youngest);\n"
          "                      ppn = pp + 1;\n                      relocate_dirty(ppn, youngest);\n",
          "                      FLUSH_REMOTE_BLOCK\n                      relocate_dirty(pp, youngest);\n"
          "                      ppn = pp + 1;\n",
          "Each second word of what is old and was written isn't looked at."),
    Fault("dirty-marked-words", Kind.REMEMBERED, GC,
          "                        FLUSH_REMOTE_BLOCK\n                        relocate_dirty(pp, youngest);\n"
          "                        ppn = pp + 1;\n                        relocate_dirty(ppn, youngest);\n",
          "                        FLUSH_REMOTE_BLOCK\n                        relocate_dirty(pp, youngest);\n"
          "                        ppn = pp + 1;\n",
          "Each second word of what is marked in its place and was written isn't looked at."),
    Fault("dirty-symbols", Kind.REMEMBERED, GC,
          "                      youngest = sweep_dirty_symbol(tgc, p, youngest);\n", "                      ;\n",
          "Old symbols that were written aren't looked at."),
    Fault("dirty-records", Kind.REMEMBERED, GC,
          "                      if (FWDMARKER(p) == forward_marker) break;\n\n"
          "                      youngest = sweep_dirty_record(tgc, p, youngest);\n",
          "                      if (FWDMARKER(p) == forward_marker) break;\n\n",
          "Old records with words among their fields that were written aren't looked at."),
    Fault("dirty-marked-records", Kind.REMEMBERED, GC,
          "                      } else {\n                        youngest = sweep_dirty_record(tgc, p, youngest);\n",
          "                      } else {\n",
          "Records with words among their fields that are marked in their places and were written aren't looked at."),
    Fault("dirty-weak-cdr", Kind.REMEMBERED, GC,
          "                      ptr *ppn = pp + 1;\n                      relocate_dirty(ppn, youngest);\n",
          "                      ptr *ppn = pp + 1;\n",
          "The strong part of an old weak pair that was written isn't looked at."),
    Fault("dirty-references", Kind.REMEMBERED, GC,
          "                      relocate_reference_dirty(pp, youngest);\n                      ppn = pp + 1;\n"
          "                      relocate_reference_dirty(ppn, youngest);\n",
          "                      relocate_reference_dirty(pp, youngest);\n                      ppn = pp + 1;\n",
          "Each second of the references among bytes that are old and were written isn't looked at."),
    Fault("marked-pairs", Kind.MARKING, TRACING,
          "(try-double-pair trace pair-car\n                       trace pair-cdr\n"
          "                       countof-pair)",
          "(try-double-pair trace pair-car\n                       copy pair-cdr\n"
          "                       countof-pair)",
          "The cdr of a pair that is marked in its place isn't looked at."),
    Fault("marked-weak-pairs", Kind.MARKING, TRACING,
          "(try-double-pair copy pair-car\n                       trace pair-cdr\n",
          "(try-double-pair copy pair-car\n                       copy pair-cdr\n",
          "The strong part of a weak pair that is marked in its place isn't looked at."),
    Fault("marked-ephemerons", Kind.MARKING, TRACING,
          "      (add-ephemeron-to-pending)\n      (mark one-bit no-sweep)\n", "      (mark one-bit no-sweep)\n",
          "An ephemeron that is marked in its place isn't looked at."),
    Fault("marked-closures", Kind.MARKING, TRACING, "          (trace-pure-ptrs closure-data len)]\n         [else])\n",
          "          (trace-pure-ptrs closure-data (- len 1))]\n         [else])\n",
          "The last variable of a closure that is marked in its place isn't looked at."),
    Fault("continuation-link", Kind.MARKING, TRACING, "            (trace-pure continuation-link)\n",
          "            (copy continuation-link)\n", "The continuation behind a continuation isn't looked at."),
    Fault("symbol-properties", Kind.MARKING, TRACING, "    (trace-nonself symbol-plist)\n", "    (copy symbol-plist)\n",
          "Properties of symbols aren't looked at."),
    Fault("symbol-value", Kind.MARKING, TRACING, "    (trace/define symbol-value val)\n",
          "    (copy symbol-value)\n    (define val : ptr (symbol-value _))\n", "Values of symbols aren't looked at."),
    Fault("marked-vectors", Kind.MARKING, TRACING,
          "      (copy-type vector-type)\n      (trace-ptrs vector-data len)\n",
          "      (copy-type vector-type)\n      (trace-ptrs vector-data (- len 1))\n",
          "The last element of a vector that is marked in its place isn't looked at."),
    Fault("marked-stencils", Kind.MARKING, TRACING, "      (trace-ptrs stencil-vector-data len)\n",
          "      (trace-ptrs stencil-vector-data (- len 1))\n",
          "The last element of a stencil vector that is marked in its place isn't looked at."),
)
