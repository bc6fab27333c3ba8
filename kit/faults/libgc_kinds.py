"""Faults of libgc where it marks roots and objects of kinds that have marking of their own."""
from __future__ import annotations

from faults.planted import Fault, Kind

PUSHED = "                  PUSH_GRANULE(q);\n"
SECOND = "          msp = GC_push_complex_descriptor((word *)current, d -> sd.sd_second,\n"
LEAF = "          for (i = 0; i < nelements; i++) {\n              msp++;\n"
PAIR = PUSHED + "                  PUSH_GRANULE(q + GC_GRANULE_WORDS);\n"

KINDS = (
    Fault("root-sets", Kind.ROOTS, "mark_rts.c",
          "                             GC_static_roots[i].r_end, all);\n",
          "                             GC_static_roots[i].r_end - sizeof(word) * 16, all);\n",
          "The last words of each part of memory that is a root aren't looked at."),
    Fault("behind-exclusion", Kind.ROOTS, "mark_rts.c", "        bottom = next -> e_end;\n", "        bottom = top;\n",
          "Static data behind a part that isn't to be looked at isn't looked at either."),
    Fault("excluded-too-much", Kind.ROOTS, "mark_rts.c",
          "          GC_PUSH_CONDITIONAL(bottom, excl_start, all);\n",
          "          GC_PUSH_CONDITIONAL(bottom, excl_start - 8 * sizeof(word), all);\n",
          "The last words before a part that isn't to be looked at aren't looked at either."),
    Fault("roots-removed", Kind.ROOTS, "mark_rts.c", "            GC_root_size += e - old -> r_end;\n"
          "            old -> r_end = e;\n",
          "            GC_root_size += e - old -> r_end;\n",
          "A part of memory that is added as a root once more, and longer, keeps its end."),
    Fault("pushed-roots", Kind.ROOTS, "mark_rts.c", "        (*GC_push_other_roots)();\n", "        ;\n",
          "The program isn't asked for its own roots."),
    Fault("stack-section", Kind.ROOTS, "mark_rts.c",
          "    GC_push_all_stack_partially_eager(lo, hi, cold_gc_frame);\n", "    (void)hi;\n",
          "The part of the stack below a blocked section isn't looked at."),
    Fault("selected-last", Kind.ROOTS, "mark.c", "    if ((ptr_t)h != top && (*dirty_fn)(h)) {\n"
          "       GC_push_all(h, top);\n",
          "    if (0) {\n       GC_push_all(h, top);\n", "The last page of roots that are pushed by pages isn't "
          "looked at."),
    Fault("selected-middle", Kind.ROOTS, "mark.c", "            } else {\n                GC_push_all(h, h + 1);\n",
          "            } else {\n                ;\n", "Pages in the midst of roots that are pushed by pages aren't "
          "looked at."),
    Fault("procedure-16", Kind.MARKING, "mark.c",
          "    return GC_push_contents_hdr((ptr_t)obj, mark_stack_ptr, mark_stack_limit,\n"
          "                                (ptr_t)src, hhdr, TRUE);",
          "    static int marked;\n    if (++marked % 16 == 0) return mark_stack_ptr;\n"
          "    return GC_push_contents_hdr((ptr_t)obj, mark_stack_ptr, mark_stack_limit,\n"
          "                                (ptr_t)src, hhdr, TRUE);",
          "One of 16 objects that a mark procedure finds isn't marked."),
    Fault("described", Kind.MARKING, "mark.c",
          "            descr = *(word *)(current_p + descr - GC_DS_PER_OBJECT);\n",
          "            descr = *(word *)(current_p + descr - GC_DS_PER_OBJECT);\n"
          "            if ((descr & GC_DS_TAGS) == GC_DS_BITMAP && descr << 8 != 0) descr &= ~(word)0 >> 8 | "
          "GC_DS_TAGS;\n",
          "References in the first eight words of an object that describes itself aren't looked at."),
    Fault("virtual", Kind.MARKING, "mark.c",
          "                              - ((signed_word)descr + (GC_INDIR_PER_OBJ_BIAS\n"
          "                                                       - GC_DS_PER_OBJECT)));",
          "                              - ((signed_word)descr + sizeof(word) + (GC_INDIR_PER_OBJ_BIAS\n"
          "                                                       - GC_DS_PER_OBJECT)));",
          "Objects that are described by their type are looked at as if it were another."),
    Fault("unconditional", Kind.MARKING, "mark.c", "      if ((*(word *)p & 0x3) != 0)\n", "      if (0)\n",
          "What an object leads to whose death is reported is freed before it is."),
    Fault("dirty-small", Kind.REMEMBERED, "mark.c",
          PUSHED + "              }\n              q += GC_GRANULE_WORDS;\n",
          "                  (void)least_ha; (void)greatest_ha; (void)mark_stack_limit;\n"
          "              }\n              q += GC_GRANULE_WORDS;\n",
          "Objects of one granule on written pages aren't looked at again."),
    Fault("dirty-pair", Kind.REMEMBERED, "mark.c",
          PAIR + "              }\n              q += 2 * GC_GRANULE_WORDS;\n",
          PUSHED + "              }\n              q += 2 * GC_GRANULE_WORDS;\n",
          "The second half of objects of two granules on written pages isn't looked at again."),
    Fault("dirty-four", Kind.REMEMBERED, "mark.c",
          "                  PUSH_GRANULE(q + 3*GC_GRANULE_WORDS);\n", "",
          "The last words of objects of four granules on written pages aren't looked at again."),
    Fault("dirty-last", Kind.REMEMBERED, "mark.c",
          "      for (p = h -> hb_body, bit_no = 0; (word)p <= (word)lim;\n"
          "           p += sz, bit_no += MARK_BIT_OFFSET(sz)) {\n"
          "        if (mark_bit_from_hdr(hhdr, bit_no)) {\n          /* Mark",
          "      for (p = h -> hb_body, bit_no = 0; (word)p < (word)lim || lim == h -> hb_body;\n"
          "           p += sz, bit_no += MARK_BIT_OFFSET(sz)) {\n"
          "        if (p != h -> hb_body && lim == h -> hb_body) break;\n"
          "        if (mark_bit_from_hdr(hhdr, bit_no)) {\n          /* Mark",
          "The last object of each written page isn't looked at again."),
    Fault("rescan", Kind.OVERFLOW, "mark.c", "            GC_scan_ptr = GC_push_next_marked(GC_scan_ptr);\n",
          "            GC_scan_ptr = NULL;\n", "After an overflow the heap isn't looked through for marked objects."),
    Fault("rescan-ends", Kind.OVERFLOW, "mark.c",
          "    GC_push_marked(h, hhdr);\n    return(h + OBJ_SZ_TO_BLOCKS(hhdr -> hb_sz));\n}\n\n"
          "#ifndef GC_DISABLE_INCREMENTAL",
          "    GC_push_marked(h, hhdr);\n    return(h + 2 * OBJ_SZ_TO_BLOCKS(hhdr -> hb_sz));\n}\n\n"
          "#ifndef GC_DISABLE_INCREMENTAL",
          "After an overflow each second block is looked through for marked objects."),
    Fault("array-last", Kind.MARKING, "typd_mlc.c", LEAF, LEAF.replace("i < nelements", "i + 1 < nelements"),
          "The last element of a typed array isn't looked at."),
    Fault("array-rest", Kind.MARKING, "typd_mlc.c",
          SECOND, "          return(msp);\n" + SECOND, "The odd last element of a typed array isn't looked at."),
    Fault("array-doubled", Kind.MARKING, "typd_mlc.c", "    descriptor |= (descriptor & ~GC_DS_TAGS) >> nwords;\n",
          "    (void)nwords;\n", "Each second element of a typed array isn't looked at."),
    Fault("array-described", Kind.MARKING, "typd_mlc.c",
          "        new_mark_stack_ptr -> mse_start = (ptr_t)(addr + nwords - 1);\n"
          "        new_mark_stack_ptr -> mse_descr.w = sizeof(word) | GC_DS_LENGTH;\n",
          "        new_mark_stack_ptr--;\n", "What describes a typed array is freed."),
    Fault("array-overflow", Kind.OVERFLOW, "typd_mlc.c", "        new_mark_stack_ptr -> mse_descr.w = sz | "
          "GC_DS_LENGTH;\n",
          "        new_mark_stack_ptr -> mse_descr.w = sz / 2 | GC_DS_LENGTH;\n",
          "Of a typed array for which the mark stack has no room only the first half is looked at."),
    Fault("inner-late", Kind.MARKING, "headers.c",
          "            current = current - HBLKSIZE*(word)hhdr;\n            hhdr = HDR(current);\n",
          "            return 0;\n", "A pointer into a large object behind its first page marks nothing."),
    Fault("displacement", Kind.MARKING, "obj_map.c", "      GC_valid_offsets[offset] = TRUE;\n",
          "      GC_valid_offsets[offset % 64] = TRUE;\n",
          "Pointers by which a program may lead far into its objects mark nothing."),
)
