"""The places of the collector of Racket CS, and why some of them are never run."""
from __future__ import annotations

from faults.places import Plan, Reason, Source, What, function, functions

SWEEPERS = "It shares a collection between threads that sweep, and in the adapter one alone is at work."
ORDERS = "It serves some of the orders in which ephemerons, guardians and their keys may be reached."
MEASURED = "It serves measures of some kinds of objects. The adapter measures a few roots now and then."
BY_KIND = "Each way to collect is compiled by itself, and some serve what only the others are asked for."
OBJECTS = "It keeps what only libraries for foreign types and profiles ask for."
REFERENCES = "A part serves messages between sweeping threads, of which there is one."
ABORTS = "It stops the program at an object of no kind, or a stack that makes no sense."
FAR = "Code is read in another way if it is over 64 MB long."
STATIC = "Code that gets to the last generation loses its table, and the adapter asks for no such collection."
OWN_SPACES = ("It serves old objects that were locked while they were young. Arrays of references, weak pairs and "
              "ephemerons are never where these are, and no program can name an entry of a hash table.")
NO_FIELDS = "What has no references isn't on the list of what is to be swept."
PENDING = "Ephemerons and arrays of references that are locked, and all whose kind is unknown, come another way."
RUNTIME_CODE = "A thread that waits or collects returns first to code of the runtime, which never moves."
LONG_CLOSURE = "It is for closures of over 2,000 variables."
ONE_SHOT = "Such a continuation is young, and what is young is copied unless it is locked."
MASK_MOVED = ("If a record of over 60 fields, some of them raw, is behind a guardian that keeps order, what tells its "
              "fields may be read where it no longer is, and the program crashes. So the adapter has none there.")
GUARDED = ("It serves objects behind a guardian that keeps order. No program can name an entry of a hash table, and "
           "the adapter has no threads there.")
ADJOINING = ("Marked records of two segments have to adjoin, the first of them small. And cards begin with whole bytes "
             "of marks.")
SIZES = "Sizes are asked of what may lie among mixed records, and of locked objects if all are counted."
COUNTED_ROOTS = ("It is for records, closures and continuations that are roots of a measure, and for constant boxes. "
                 "The adapter measures vectors and pairs, and has no such boxes.")
SELDOM = ("Where all is counted, the adapter marks in place in two collections now and then, and what lives then is of "
          "few kinds and moves seldom.")
WAITING = ("It serves the stack of a thread that waits, or counts of a type that the heap keeps. The adapter has "
           "neither.")
WEAK_IN_PLACE = "The collector crashes if many weak pairs are marked in place, so the adapter has none there."
MIXED = "Records that have no raw field are among those with one only if the collector keeps what leads to each."

COLLECTOR = Source("src/ChezScheme/c/gc.c", (
    *functions(What.CYCLE, "sweep_generation"),
    function("S_gc_011_entry", What.CYCLE, BY_KIND, most=82),
    function("S_gc_ocd_entry", What.CYCLE, BY_KIND, most=53),
    function("S_gc_oce_entry", What.CYCLE, BY_KIND, most=50),
    function("S_gc_par_entry", What.CYCLE, SWEEPERS),
    function("sweep_generation_pass", What.CYCLE, REFERENCES, most=1),
    *functions(What.COPY, "sweep_from_stack sweep_typed_object sweep_dirty_object_if_space_new "
                          "sweep_in_old"),
    function("copy_stack", What.COPY, Reason.UNREACHABLE, most=2),
    *functions(What.OVERFLOW, "enlarge_stack"),
    *functions(What.MARK, "copy_and_clear_list_bits"),
    function("init_fully_marked_mask", What.MARK, BY_KIND, most=2),
    *functions(What.REMEMBERED, "sweep_dirty"),
    function("record_dirty_segment", What.REMEMBERED, Reason.UNREACHABLE, most=3),
    function("add_weaksegments_to_resweep", What.REMEMBERED, Reason.UNREACHABLE, most=2),
    function("setup_sweep_dirty", What.REMEMBERED, SWEEPERS, most=13),
    function("sweep_dirty_segments", What.REMEMBERED, REFERENCES, ADJOINING, ABORTS, most=18),
    function("resweep_dirty_weak_pairs", What.REMEMBERED, Reason.UNREACHABLE, most=1),
    function("resweep_weak_pairs", What.WEAK, WEAK_IN_PLACE, most=4),
    *functions(What.WEAK, "add_ephemeron_to_pending add_trigger_ephemerons_to_pending "
                          "check_pending_ephemerons check_triggers ephemeron_add forward_or_bwp"),
    function("ephemeron_remove", What.WEAK, ORDERS),
    function("check_ephemeron", What.WEAK, REFERENCES, most=3),
    function("check_dirty_ephemeron", What.WEAK, REFERENCES, most=14),
    function("finish_pending_ephemerons", What.WEAK, ORDERS, most=1),
    *functions(What.FINALIZER, "add_pending_guardian"),
    function("add_trigger_guardians_to_recheck", What.FINALIZER, ORDERS),
    *functions(What.HELP, "list_length total_size_so_far target_generation_space_so_far init_measure "
                          "init_counting_mask init_measure_mask measure_add_stack_size "
                          "check_pending_measure_ephemerons flush_measure_stack S_count_size_increments"),
    function("finish_measure", What.HELP, MEASURED, most=3),
    function("push_measure", What.HELP, MEASURED, most=2),
    function("add_ephemeron_to_pending_measure", What.HELP, MEASURED, most=2),
    function("add_trigger_ephemerons_to_pending_measure", What.HELP, MEASURED),
    function("check_ephemeron_measure", What.HELP, MEASURED, most=5),
    function("gc_measure_one", What.HELP, MEASURED, most=2),
    function("push_remote_sweep", What.PACE, SWEEPERS),
    function("assign_sweeper", What.PACE, SWEEPERS),
    function("setup_sweepers", What.PACE, SWEEPERS),
    function("start_sweeper", What.PACE, SWEEPERS),
    function("sweeper_started", What.PACE, SWEEPERS),
    function("run_sweepers", What.PACE, SWEEPERS),
    function("teardown_sweepers", What.PACE, SWEEPERS),
    function("run_sweeper", What.PACE, SWEEPERS),
    function("send_and_receive_remote_sweeps", What.PACE, SWEEPERS),
), is_whole=False)

ALLOCATION = Source("src/ChezScheme/c/alloc.c", (
    *functions(What.BARRIER, "S_dirty_set S_scan_dirty S_scan_remembered_set"),
    *functions(What.REMEMBERED, "S_record_new_dirty_card S_mark_card_dirty mark_segment_dirty"),
    function("S_protect", What.ROOTS, Reason.UNREACHABLE, most=1),
    *functions(What.BIRTH, "S_get_more_room S_get_more_room_help"),
), is_whole=False)

REQUESTS = Source("src/ChezScheme/c/gcwrapper.c", (
    *functions(What.ROOTS, "Slock_object Sunlock_object S_immobilize_object"),
    function("S_mobilize_object", What.ROOTS, Reason.UNREACHABLE, most=1),
    function("S_do_gc", What.CYCLE, SWEEPERS, most=65),
    function("S_gc", What.CYCLE, SWEEPERS, most=2),
    function("S_unregister_guardian", What.FINALIZER, OBJECTS),
    function("s_help_unregister_guardian", What.FINALIZER, OBJECTS),
    *functions(What.HELP, "S_object_backreferences"),
    function("S_object_counts", What.HELP, OBJECTS, most=5),
), is_whole=False)

# The build of Racket writes these two files. They have the same functions, each for its own ways to collect.
KINDS = Source("src/ChezScheme/headers/gc-ocd.inc", (
    *functions(What.REMEMBERED, "sweep_dirty_record sweep_dirty_symbol sweep_dirty_port"),
    *functions(What.COPY, "sweep_symbol sweep_port"),
    *functions(What.MARK, "mark_untyped_data_object"),
    function("copy", What.COPY, WAITING, ABORTS, most=12),
    function("sweep", What.GREY, WAITING, ABORTS, FAR, STATIC, NO_FIELDS, PENDING, RUNTIME_CODE, most=103),
    function("sweep_object_in_old", What.FINALIZER, GUARDED, MASK_MOVED, FAR, ABORTS, most=102),
    function("sweep_dirty_object", What.REMEMBERED, OWN_SPACES, ABORTS, most=17),
    function("sweep_record", What.COPY, MIXED, most=4),
    function("sweep_thread", What.ROOTS, RUNTIME_CODE, ABORTS, most=3),
    function("sweep_continuation", What.COPY, ABORTS, most=1),
    function("sweep_code_object", What.COPY, FAR, STATIC, most=5),
    function("size_object", What.HELP, SIZES, most=85),
    function("mark_object", What.MARK, WAITING, ONE_SHOT, LONG_CLOSURE, ABORTS, most=34),
    function("object_directly_refers_to_self", What.FINALIZER, MASK_MOVED, FAR, ABORTS, most=24),
))

COUNTED_KINDS = Source("src/ChezScheme/headers/gc-oce.inc", (
    *functions(What.COPY, "sweep_record sweep_symbol sweep_port"),
    *functions(What.REMEMBERED, "sweep_dirty_record sweep_dirty_symbol sweep_dirty_port"),
    *functions(What.MARK, "mark_untyped_data_object"),
    function("copy", What.COPY, COUNTED_ROOTS, ABORTS, most=10),
    function("sweep", What.GREY, FAR, STATIC, NO_FIELDS, PENDING, SELDOM, ABORTS, most=103),
    function("sweep_object_in_old", What.FINALIZER, GUARDED, MASK_MOVED, FAR, ABORTS, most=102),
    function("sweep_dirty_object", What.REMEMBERED, OWN_SPACES, ABORTS, most=17),
    function("sweep_thread", What.ROOTS, SELDOM, ABORTS, most=3),
    function("sweep_continuation", What.COPY, ABORTS, most=1),
    function("sweep_code_object", What.COPY, FAR, most=4),
    function("size_object", What.HELP, "Neither threads nor counts of records are locked.", ABORTS, most=7),
    function("mark_object", What.MARK, SELDOM, LONG_CLOSURE, ABORTS, most=87),
    function("object_directly_refers_to_self", What.FINALIZER, MASK_MOVED, FAR, ABORTS, most=24),
    function("measure", What.HELP, MEASURED, FAR, ABORTS, most=47),
))

RACKET_PLACES = Plan("racket", (COLLECTOR, ALLOCATION, REQUESTS, KINDS, COUNTED_KINDS))
