"""Faults of libgc where it sweeps, manages blocks, and serves finalizers and weak references."""
from __future__ import annotations

from faults.planted import Fault, Kind

ALIVE = """        if (EXPECT(GC_is_marked((ptr_t)GC_REVEAL_POINTER(
                                        curr_dl->dl_hidden_obj)), TRUE)) {
"""
DISCLAIMED = "        } else if ((*disclaim)(p)) {\n"
TAKEN = """            GC_gcjobjfreelist[lg] = (ptr_t)obj_link(op);
            GC_bytes_allocd += GRANULES_TO_BYTES((word)lg);
        }
        GC_ASSERT(((void **)op)[1] == 0);
"""

HEAP = (
    Fault("sweep-uncleared", Kind.SWEEP, "reclaim.c", "            if (!mark_bit_from_hdr(hhdr, bit_no)) {\n",
          "            if (!mark_bit_from_hdr(hhdr, bit_no) || bit_no / 64 == 1) {\n",
          "Numbers in the second 64 granules of a swept block are freed, marked or not."),
    Fault("disclaimed-alive", Kind.SWEEP, "reclaim.c",
          "        if (mark_bit_from_hdr(hhdr, bit_no)) {\n            p += sz;\n" + DISCLAIMED,
          "        static int swept;\n        if (mark_bit_from_hdr(hhdr, bit_no) && ++swept % 64 != 0) {\n"
          "            p += sz;\n" + DISCLAIMED,
          "One of 64 living objects is reported as dead, and freed."),
    Fault("marks-kept", Kind.CYCLE, "alloc.c", "    GC_invalidate_mark_state();  /* Flush mark stack.   */\n"
          "    GC_clear_marks();\n",
          "    GC_invalidate_mark_state();  /* Flush mark stack.   */\n",
          "Marks outlive a collection, and marked objects aren't looked into by the next one."),
    Fault("rest-overlaps", Kind.LARGE, "allchblk.c", "    rest = (struct hblk *)((word)h + bytes);\n",
          "    rest = (struct hblk *)((word)h + bytes - (bytes > 2 * HBLKSIZE ? HBLKSIZE : 0));\n",
          "What is left of free memory takes in the last block of the large object that was taken from it."),
    Fault("front-overlaps", Kind.LARGE, "allchblk.c", "    hhdr -> hb_sz = h_size;\n    GC_add_to_fl(h, hhdr);\n",
          "    hhdr -> hb_sz = h_size + HBLKSIZE;\n    GC_add_to_fl(h, hhdr);\n",
          "What is left before a large object that avoids black-listed pages takes in its first block."),
    Fault("merged-next", Kind.SWEEP, "allchblk.c", "      if(0 != nexthdr && HBLK_IS_FREE(nexthdr) && "
          "IS_MAPPED(nexthdr)\n",
          "      static int merged;\n"
          "      if(0 != nexthdr && (HBLK_IS_FREE(nexthdr) || nexthdr -> hb_sz > HBLKSIZE && ++merged % 16 == 0)"
          " && IS_MAPPED(nexthdr)\n",
          "A free block takes in the large object behind it, one time in 16."),
    Fault("counts", Kind.LARGE, "headers.c", "    for (hbp = h + 1; (word)hbp < (word)h + sz; hbp += 1) {\n",
          "    for (hbp = h + 1; (word)hbp < (word)h + sz && hbp < h + 3; hbp += 1) {\n",
          "Pages of a large object behind its third one aren't known as parts of it."),
    Fault("list-too-long", Kind.BIRTH, "new_hblk.c", "    last_object -= sz;\n", "    last_object -= sz / 2;\n",
          "The last object of a fresh block reaches into the next block."),
    Fault("two-lists", Kind.SWEEP, "mallocx.c", "            rlh[lg] = hhdr -> hb_next;\n", "",
          "A block from which many objects were taken at once is swept again, and they are freed."),
    Fault("reallocated", Kind.LARGE, "mallocx.c", "      BCOPY(p, result, sz);\n", "      BCOPY(p, result, sz / 2);\n",
          "An object that grows loses the second half of what it had."),
    Fault("finalized-contents", Kind.FINALIZER, "finalize.c", "            GC_MARK_FO(real_ptr, curr_fo -> "
          "fo_mark_proc);\n",
          "            ;\n", "What an object leads to that waits for its finalizer is freed."),
    Fault("finalized-marked", Kind.FINALIZER, "finalize.c",
          "            if (!GC_java_finalization) {\n              GC_set_mark_bit(real_ptr);\n            }\n", "",
          "An object that waits for its finalizer is freed."),
    Fault("finalized-self", Kind.FINALIZER, "finalize.c", "        if (r < (word)p || r > (word)target_limit) {\n",
          "        if (r < (word)p && r < (word)target_limit) {\n",
          "An object that may lead to itself loses what lies behind it, as it waits for its finalizer."),
    Fault("finalizers-grown", Kind.GROWTH, "finalize.c", "        new_table[new_hash] = p;\n",
          "        ;\n",
          "Finalizers and links are lost as the table of them grows."),
    Fault("links-cleared", Kind.WEAK, "finalize.c", ALIVE,
          "        static int alive;\n" + ALIVE.replace("), TRUE)) {", "), TRUE) && ++alive % 16 != 0) {"),
          "One of 16 weak references to living objects is cleared."),
    Fault("toggled", Kind.WEAK, "finalize.c", "        push_and_mark_object(obj);\n", "        ;\n",
          "What a strong toggle reference leads to is freed."),
    Fault("toggled-contents", Kind.WEAK, "finalize.c", "    GC_normal_finalize_mark_proc((ptr_t)p);\n"
          "    while", "    while",
          "What lies behind an object that a strong toggle reference leads to is freed."),
    Fault("toggled-grown", Kind.GROWTH, "finalize.c",
          "        BCOPY(GC_toggleref_arr, new_array,\n              GC_toggleref_array_size * sizeof(GCToggleRef));\n",
          "        BCOPY(GC_toggleref_arr, new_array,\n              GC_toggleref_array_size / 2 * "
          "sizeof(GCToggleRef));\n",
          "Half of the toggle references are lost as the array of them grows."),
    Fault("virtual-twice", Kind.BIRTH, "gcj_mlc.c", TAKEN, "            static int born;\n"
          "            if (++born % 16 != 0)\n" + TAKEN,
          "One of 16 objects that are described by their type is given to the next one too."),
)
