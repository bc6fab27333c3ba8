"""Faults of libgc, which marks conservatively: in full, or in steps from pages that were written."""
from __future__ import annotations

from faults.libgc_heap import HEAP
from faults.libgc_kinds import KINDS
from faults.planted import Collector, Fault, Kind

DIRTIED = "    word index = PHT_HASH(p);\n"

FAULTED = ("            word index = PHT_HASH(h+i);\n\n"
           "            async_set_pht_entry_from_index(GC_dirty_pages, index);")

FAULTS = (
    Fault("told-dirty", Kind.BARRIER, "os_dep.c", DIRTIED, DIRTIED + "    return;\n",
          "A program says that it wrote to a page, and the page isn't marked from again."),
    Fault("faulted-dirty", Kind.BARRIER, "os_dep.c",
          FAULTED, "",
          "A page is written, and the fault makes it writable without noting that."),
    Fault("new-page-clean", Kind.BARRIER, "os_dep.c",
          "            || (word)current >= (word)(h + nblocks)) {\n"
          "          async_set_pht_entry_from_index(GC_dirty_pages, index);",
          "            || (word)current >= (word)(h + nblocks)) {",
          "A page is writable as it is handed out, and counts as clean whatever is written."),
    Fault("told-dirty-16", Kind.RARE, "os_dep.c", DIRTIED,
          DIRTIED + "    static int calls; if (++calls % 16 == 0) return;\n",
          "One of 16 writes isn't noted."),
    Fault("told-dirty-256", Kind.RARE, "os_dep.c", DIRTIED,
          DIRTIED + "    static int calls; if (++calls % 256 == 0) return;\n",
          "One of 256 writes isn't noted."),
    Fault("faulted-dirty-16", Kind.RARE, "os_dep.c", FAULTED,
          "            static int faults; if (++faults % 16 == 0) continue;\n" + FAULTED,
          "One of 16 pages is made writable by a fault that isn't noted."),
    Fault("faulted-dirty-256", Kind.RARE, "os_dep.c", FAULTED,
          "            static int faults; if (++faults % 256 == 0) continue;\n" + FAULTED,
          "One of 256 pages is made writable by a fault that isn't noted."),
    Fault("dirty-not-copied", Kind.REMEMBERED, "os_dep.c",
          "      if (!output_unneeded)\n        BCOPY(", "      if (0)\n        BCOPY(",
          "Which pages were written is cleared before anyone reads it."),
    Fault("dirty-not-pushed", Kind.REMEMBERED, "mark.c",
          "GC_scan_ptr = GC_push_next_marked_dirty(GC_scan_ptr);", "GC_scan_ptr = NULL;",
          "Marked objects on written pages aren't looked at again."),
    Fault("roots-once", Kind.GREY, "mark.c", "GC_push_roots(FALSE, cold_gc_frame);", ";",
          "Roots that changed while marking ran aren't looked at again."),
    Fault("uncollectable", Kind.MARKING, "mark.c", "if (hhdr -> hb_obj_kind == UNCOLLECTABLE) {", "if (0) {",
          "What only an uncollectable object leads to is freed by a full collection."),
    Fault("last-word", Kind.MARKING, "mark.c", "limit = current_p + (word)descr;",
          "limit = current_p + (word)descr - (descr > sizeof(word) ? sizeof(word) : 0);",
          "The last word of a small object isn't looked at."),
    Fault("kept-back-word", Kind.MARKING, "mark.c",
          "        PUSH_CONTENTS((ptr_t)deferred, mark_stack_top,\n"
          "                      mark_stack_limit, current_p);\n", "        (void)deferred;\n",
          "The pointer of each object that is kept back until it is fetched is never marked."),
    Fault("split-range", Kind.MARKING, "mark.c", "          limit += sizeof(word) - ALIGNMENT;\n",
          "          limit -= sizeof(word);\n",
          "Each 127th word of an object of more than 128 words isn't looked at."),
    Fault("bitmap-last", Kind.MARKING, "mark.c", "for (; descr != 0; descr <<= 1, current_p += sizeof(word)) {",
          "for (; descr << 1 != 0; descr <<= 1, current_p += sizeof(word)) {",
          "The last reference of a typed object isn't looked at."),
    Fault("bitmap-continued", Kind.MARKING, "typd_mlc.c", "if (GC_ext_descriptors[env].ed_continued) {",
          "if (0) {", "References of a typed object past its 64th word aren't looked at."),
    Fault("inner-pointer", Kind.MARKING, "include/private/gc_pmark.h", "            gran_displ -= gran_offset;\n",
          "            if (gran_offset > 1) gran_displ -= gran_offset;\n",
          "A pointer into the second granule of an object marks a place within it."),
    Fault("inner-unmarked", Kind.MARKING, "include/private/gc_pmark.h",
          "          if (do_offset_check && !GC_valid_offsets[obj_displ]) {", "          if (obj_displ != 0) {",
          "A pointer into an object marks nothing."),
    Fault("overflow", Kind.OVERFLOW, "mark.c",
          "GC_signal_mark_stack_overflow(mse *msp)\n{\n    GC_mark_state = MS_INVALID;",
          "GC_signal_mark_stack_overflow(mse *msp)\n{",
          "Entries that the mark stack has no room for are dropped, and marking goes on as if they were done."),
    Fault("counted-one-less", Kind.SWEEP, "reclaim.c", "return (hhdr -> hb_n_marks == 0);",
          "return (hhdr -> hb_n_marks <= 1);", "A block with one marked object is freed as if it were empty."),
    Fault("sweep-64th", Kind.SWEEP, "reclaim.c",
          "            if (mark_bit_from_hdr(hhdr, bit_no)) {\n                p += sz;",
          "            if (mark_bit_from_hdr(hhdr, bit_no) && bit_no / 64 != 1) {\n                p += sz;",
          "Objects of the second 64 granules of a swept block are freed, marked or not."),
    Fault("free-lists-kept", Kind.SWEEP, "reclaim.c",
          "                if (should_clobber) {\n                  GC_clear_fl_links(fop);",
          "                if (should_clobber) {",
          "Free lists outlive a cycle, and the sweep puts the same objects on them once more."),
    Fault("large-unmarked", Kind.LARGE, "reclaim.c", "if( !mark_bit_from_hdr(hhdr, 0) ) {",
          "if( sz > 4 * HBLKSIZE || !mark_bit_from_hdr(hhdr, 0) ) {",
          "Objects of more than four blocks are freed, marked or not."),
    Fault("large-dirty", Kind.LARGE, "mark.c", "while ((word)p < (word)h + sz) {\n             if (GC_page_was_dirty",
          "while ((word)p < (word)h + 1) {\n             if (GC_page_was_dirty",
          "Of a large object only its first page is asked whether it was written."),
) + KINDS + HEAP

OPTIONS = ("-O1 -w {flags} -fno-strict-aliasing -DGC_ATOMIC_UNCOLLECTABLE -DGC_GCJ_SUPPORT -DENABLE_DISCLAIM "
           "-DNO_EXECUTE_PERMISSION -DUSE_MMAP -DUSE_MUNMAP")

LIBGC = Collector(
    "libgc", "libgc", (),
    (f"cc {OPTIONS} -I{{tree}}/include -c -o {{built}}/gc.o {{tree}}/extra/gc.c",
     "cc -O2 {flags} -I{tree}/include -o {built}/libgc {here}/libgc.c {here}/libgc_objects.c {here}/front.c "
     "{built}/gc.o"),
    FAULTS)
