"""Faults of the collector of Racket CS, which copies between generations, and marks old ones in their places."""
from __future__ import annotations

from faults.planted import Collector, Fault, Kind
from faults.racket_sweeping import SWEEPING

KERNEL = "src/ChezScheme/"
GC, ALLOC = KERNEL + "c/gc.c", KERNEL + "c/alloc.c"

FAULTS = (
    Fault("setters-of-c", Kind.BARRIER, ALLOC,
          "        si->dirty_bytes[((uptr)TO_PTR(loc) >> card_offset_bits) & ((1 << segment_card_offset_bits) -"
          " 1)] = 0;\n        mark_segment_dirty(si, from_g, 0);\n",
          "", "What is stored in an old object by C isn't remembered."),
    Fault("setters-of-c-16", Kind.RARE, ALLOC,
          "        si->dirty_bytes[((uptr)TO_PTR(loc) >> card_offset_bits) & ((1 << segment_card_offset_bits) -"
          " 1)] = 0;\n        mark_segment_dirty(si, from_g, 0);\n",
          "        { static int calls; if (++calls % 16 != 0) {\n"
          "        si->dirty_bytes[((uptr)TO_PTR(loc) >> card_offset_bits) & ((1 << segment_card_offset_bits) -"
          " 1)] = 0;\n        mark_segment_dirty(si, from_g, 0);\n        } }\n",
          "One of 16 stores by C in old objects isn't remembered."),
    Fault("stores-16", Kind.RARE, ALLOC, "  while (p < endp) {\n    ptr loc = *p;\n",
          "  while (p < endp) {\n    ptr loc = *p;\n"
          "    { static int calls; if (++calls % 16 == 0) { p += 1; continue; } }\n",
          "One of 16 stores by Scheme isn't remembered."),
    Fault("stores-256", Kind.RARE, ALLOC, "  while (p < endp) {\n    ptr loc = *p;\n",
          "  while (p < endp) {\n    ptr loc = *p;\n"
          "    { static int calls; if (++calls % 256 == 0) { p += 1; continue; } }\n",
          "One of 256 stores by Scheme isn't remembered."),
    Fault("stores-segment", Kind.REMEMBERED, ALLOC,
          "        if (this >> segment_card_offset_bits != last >> segment_card_offset_bits)"
          " mark_segment_dirty(si, from_g, 0);\n",
          "", "The segment of an old object that was written isn't on the list of those to be looked at."),
    Fault("segment-lists", Kind.REMEMBERED, ALLOC, "      *prev = next;\n", "",
          "A segment that comes to another list of those to be looked at stays on the first, which then ends in"
          " the other."),
    Fault("card-youngest", Kind.REMEMBERED, ALLOC, "    if (to_g < ndc->youngest) ndc->youngest = to_g;\n", "",
          "A card that leads to several generations is remembered for the first of them."),
    Fault("card-made", Kind.REMEMBERED, ALLOC,
          "  if (to_g < si->dirty_bytes[cardno]) {\n    si->dirty_bytes[cardno] = to_g;\n",
          "  if (0) {\n    si->dirty_bytes[cardno] = to_g;\n",
          "What a collection itself leaves leading from old to young isn't remembered."),
    Fault("wrong-way", Kind.REMEMBERED, GC,
          "      if (__to_g < from_g) S_record_new_dirty_card(tgc, ppp, __to_g);   \\\n", "      (void)__to_g; \\\n",
          "An object that gets older than what it leads to isn't remembered."),
    Fault("dirty-youngest", Kind.REMEMBERED, GC,
          "      if (_pg < YOUNGEST) YOUNGEST = _pg;                               \\\n", "      (void)_pg; \\\n",
          "A card that was looked at counts as clean, though it leads to what is young."),
    Fault("dirty-again", Kind.REMEMBERED, GC,
          "          record_dirty_segment(from_g, min_youngest, dirty_si);\n        }\n", "        }\n",
          "A segment that was looked at isn't looked at again, though it leads to what is young."),
    Fault("stack-copied", Kind.STACK, GC, "    memcpy_aligned(TO_VOIDP(new), TO_VOIDP(old), n);\n",
          "    memcpy_aligned(TO_VOIDP(new), TO_VOIDP(old), n > 16 ? n - 16 : n);\n",
          "The last words of the stack of a continuation aren't copied."),
    Fault("locked", Kind.MARKING, GC,
          "           locked_objects = S_cons_in(tc, space_impure, tg, p, locked_objects);\n", "",
          "A locked object is forgotten by the first collection."),
    Fault("locked-written", Kind.REMEMBERED, GC,
          "        sweep_dirty_object_if_space_new(tgc, Scar(ls));\n      for (ls = S_G.unlocked_objects[g]",
          "        ;\n      for (ls = S_G.unlocked_objects[g]", "A locked object that is old isn't looked at."),
    Fault("symbols-kept", Kind.MARKING, GC, "            mark_or_copy_pure(&sym, sym, sym_si);\n", "            ;\n",
          "A symbol that has a value, which nothing else leads to, is dropped."),
    Fault("protected", Kind.MARKING, GC, "       relocate_pure_now(S_G.protected[i]);\n", "       ;\n",
          "Variables of the kernel aren't led to where objects moved."),
    Fault("guardians-old", Kind.WEAK, GC, "          partition_guardians(S_G.guardians[g], ALWAYSTRUE);\n", "",
          "Guardians forget their objects in the second collection."),
    Fault("guarded-representative", Kind.WEAK, GC,
          "                  WITH_TOP_BACKREFERENCE(tconc, relocate_pure_now(&rep));\n\n                  old_end",
          "                  old_end", "What a guardian gives back isn't led to where it moved."),
    Fault("weak-moved", Kind.WEAK, GC, "      *pp = GET_FWDADDRESS(p);\n    } else {\n      *pp = Sbwp_object;\n",
          "      *pp = Sbwp_object;\n    } else {\n      *pp = Sbwp_object;\n",
          "A weak pair is broken though its object lives."),
    Fault("weak-marked", Kind.WEAK, GC, "           if (mask & 0x40)\n             forward_or_bwp(pp, *pp);\n", "",
          "One of four weak pairs that are marked in their places isn't led to where its object moved."),
    Fault("weak-dirty", Kind.WEAK, GC, "                      *pp = GET_FWDADDRESS(p);\n                      newpg = ",
          "                      newpg = ", "A weak pair that was written isn't led to where its object moved."),
    Fault("ephemeron-moved", Kind.WEAK, GC,
          "        INITCAR(pe) = GET_FWDADDRESS(p);\n        relocate_impure(&INITCDR(pe), from_g);\n",
          "        INITCAR(pe) = GET_FWDADDRESS(p);\n",
          "The value of an ephemeron whose key was reached before isn't kept."),
    Fault("ephemeron-late", Kind.WEAK, GC,
          "        ephemeron_add(&si->trigger_ephemerons, pe);\n        si->has_triggers = 1;\n",
          "        ephemeron_add(&si->trigger_ephemerons, pe);\n",
          "The value of an ephemeron whose key is reached late isn't kept."),
    Fault("ephemeron-dirty", Kind.WEAK, GC,
          "                      youngest = check_dirty_ephemeron(tgc, p, youngest);\n", "                      ;\n",
          "An old ephemeron that was written isn't looked at."),
    Fault("rehash", Kind.WEAK, GC, "      } else if ((new_idx = eq_hash(key) & (veclen - 1)) != old_idx) {\n",
          "      } else if ((new_idx = old_idx) != old_idx) {\n",
          "A key that moved isn't found in its table any more."),
    Fault("sweep-stack", Kind.OVERFLOW, GC, "    memcpy(TO_VOIDP(new_stack), TO_VOIDP(*stack_start), sz);\n",
          "    memcpy(TO_VOIDP(new_stack), TO_VOIDP(*stack_start), sz / 2);\n",
          "A stack of objects that wait is half forgotten as it grows."),
    Fault("one-shot", Kind.STACK, GC, "      S_promote_to_multishot(CONTLINK(Scar(conts_to_promote)));\n", "",
          "A continuation for one use stays one, though its stack was copied.",
          "the program never returns to such a continuation twice"),
    Fault("freed-64th", Kind.SWEEP, GC, "      if (si->marked_mask != NULL) {\n        IGEN tg;\n",
          "      static int kept;\n      if (si->marked_mask != NULL && ++kept % 64 != 0) {\n        IGEN tg;\n",
          "One of 64 segments that are marked in their places is freed."),
    *SWEEPING,
)

BUILD = ("make -j2 -s -C {tree}/src/ChezScheme/c -f {here}/../faults/racket_kernel.mk FLAGS='{flags}' "
         "HEADERS='{built}/host {here}/../faults/racket_headers.ss'")
LIBRARIES = "-lz -llz4 -lm -ldl -lpthread -lrt"

RACKET = Collector(
    "racket", "racket",
    ("cc -I/usr/include/racket -o {built}/host {here}/../faults/racket_host.c -lracketcs "
     f"{LIBRARIES} -lncurses -ltinfo",
     "cd src/ChezScheme/s && sed -e 's/$(M)/ta6le/; s/$(March)/a6/; s/$(Mtimet)/64/' tunix.def > machine.def"),
    (BUILD,
     "cc -O2 {flags} -I/usr/include/racket -o {built}/racket {here}/racket.c {here}/front.c "
     f"{{tree}}/src/ChezScheme/c/*.o {LIBRARIES}"),
    FAULTS)
