"""The places of libgc, and why some of them are never run."""
from __future__ import annotations

from faults.places import Plan, Reason, Source, What, function, functions

LEAKS = "It serves the search for leaks, in which nothing is freed."
SETTING = "It reads or sets a parameter, and the collector does nothing meanwhile."
LOGS = "It runs if the collector reports what it does."
REPORTS = "It tells a program how far the collector has come, or shows it the heap."
CLEARED = "It would take the static data of the C library from the roots, too."
SHORT = "Arrays of words that all lead to something, or of none that does, are no typed arrays for the adapter."
TREES = "No function makes a description of this form."
OTHER_NAMES = "It is another function by another name, or with a pointer into the object."
TIME = "It stops marking after a time. The adapter stops it as often as it may, so that runs are the same."
TURNS = "It begins a cycle since much was allocated. The adapter's own steps begin more."
BUSY = "It needs a collection that is under way as a whole one is asked for."
WHOLE_HEAP = "It needs a heap that is nearly full of large objects, or one that is collected while it grows."
KINDS_LISTS = "A kind has its lists before anything of it is swept."
PROGRAM = "It calls a function that a program may set, and the adapter sets none."
NESTED = "It needs a finalizer that allocates until another one is called."
SOFT = "It asks the system which pages were written. This build learns it by page faults, and the adapter says it."
ADDRESSES = "It needs addresses at the end of the memory, or below the first page."
SPREAD = "It needs a heap that is spread over more of the address space than a script takes."
PAGES = "It needs more objects on written pages than the mark stack has room for before marking begins."
ROOM = "It needs roots within one page, or a mark stack that is nearly full as they are pushed."
COLLECTED = "It pushes all of a part of memory. The adapter pushes what was written, which is all where it does so."
DEFAULT_PROCEDURE = "The adapter gives a mark procedure of its own."
DEBUG_HEADERS = "Objects with headers for debugging are others, which programs have for tests."
EARLY = "The collector is initialised before this is called."
ALL_AT_ONCE = "It calls the finalizers of all objects, as a program ends."
OLDER = "It gives up or replaces what was registered before, and the adapter registers each object once."
UNMAPPED = "It depends on which free blocks were given back to the system, and are neighbours."
LARGE_AVOIDS = "It needs a block larger than what is free beside pages that are black-listed."

MARKING = Source("mark.c", (
    *functions(What.HELP, "GC_noop6 GC_noop1"),
    *functions(What.CYCLE, "GC_collection_in_progress GC_invalidate_mark_state"),
    *functions(What.MARK, "GC_clear_hdr_marks GC_set_hdr_marks clear_marks_for_block GC_set_mark_bit "
                          "GC_clear_mark_bit GC_is_marked GC_clear_marks GC_mark_init"),
    function("GC_mark_and_push", What.MARK,
             "A field of an object that the adapter marks itself would have to lead to where no block is.", most=2),
    *functions(What.ROOTS, "GC_mark_and_push_stack GC_push_all_eager GC_push_next_marked_uncollectable"),
    *functions(What.REMEMBERED, "GC_push_marked1 GC_push_marked2 GC_push_marked4 GC_block_was_dirty "
                                "GC_push_next_marked_dirty"),
    *functions(What.OVERFLOW, "GC_push_marked GC_push_next_marked"),
    function("GC_initiate_gc", What.CYCLE, Reason.UNREACHABLE, most=1),
    function("GC_mark_some", What.MARK, PAGES, Reason.UNREACHABLE, most=9),
    function("GC_signal_mark_stack_overflow", What.OVERFLOW, LOGS, most=1),
    function("GC_mark_from", What.MARK,
             "Nothing leads to a free object of a kind whose objects describe themselves.", most=1),
    function("alloc_mark_stack", What.OVERFLOW, Reason.REFUSED, most=4),
    function("GC_push_all", What.MARK, Reason.UNREACHABLE, most=1),
    function("GC_push_selected", What.ROOTS, ROOM, most=7),
    function("GC_push_conditional", What.ROOTS, COLLECTED, most=1),
    function("GC_static_page_was_dirty", What.ROOTS, SOFT),
    function("GC_push_conditional_static", What.ROOTS, SOFT, most=1),
    function("GC_push_all_stack", What.ROOTS, ROOM, most=1),
    function("GC_push_unconditionally", What.MARK,
             "The adapter's objects whose deaths are reported have references.", most=1),
))

MARKING_OF_WORDS = Source("include/private/gc_pmark.h", (
    *functions(What.MARK, "GC_push_obj GC_push_contents_hdr"),
))

ROOTS = Source("mark_rts.c", (
    *functions(What.HELP, "rt_hash GC_approx_sp"),
    function("GC_roots_present", What.ROOTS, "No two of the adapter's ranges have one hash.", most=1),
    *functions(What.ROOTS, "add_roots_to_index GC_add_roots GC_remove_root_at_pos "
                           "GC_rebuild_root_index GC_remove_tmp_roots GC_remove_roots_inner GC_next_exclusion "
                           "GC_push_conditional_with_exclusions GC_push_all_stack_partially_eager "
                           "GC_push_all_stack_part_eager_sections GC_push_current_stack "
                           "GC_cond_register_dynamic_libraries GC_push_regs_and_stack GC_push_roots"),
    function("GC_compute_root_size", What.HELP, REPORTS),
    function("GC_print_static_roots", What.HELP, REPORTS),
    function("GC_is_static_root", What.HELP, REPORTS),
    function("GC_add_roots_inner", What.ROOTS, Reason.MISUSE, most=2),
    function("GC_clear_roots", What.ROOTS, CLEARED),
    function("GC_remove_roots", What.ROOTS, Reason.UNREACHABLE, most=1),
    function("GC_is_tmp_root", What.HELP, REPORTS),
    function("GC_clear_exclusion_table", What.ROOTS, CLEARED),
    function("GC_exclude_static_roots_inner", What.ROOTS, Reason.MISUSE, most=1),
    function("GC_exclude_static_roots", What.ROOTS, ADDRESSES, most=1),
))

TYPED = Source("typd_mlc.c", (
    *functions(What.ROOTS, "GC_push_typed_structures_proc"),
    *functions(What.MARK, "GC_double_descr GC_make_sequence_descriptor GC_init_explicit_typing "
                          "get_complex_descr GC_array_mark_proc"),
    *functions(What.BIRTH, "GC_malloc_explicitly_typed_ignore_off_page"),
    function("GC_add_ext_descriptor", What.MARK, Reason.REFUSED, most=1),
    function("GC_make_array_descriptor", What.MARK, SHORT, Reason.REFUSED, TREES, most=15),
    function("GC_typed_mark_proc", What.MARK, ROOM, most=1),
    function("GC_descr_obj_size", What.MARK, TREES, most=6),
    function("GC_push_complex_descriptor", What.MARK, TREES, most=12),
    function("GC_make_descriptor", What.MARK, Reason.UNREACHABLE, most=1),
    function("GC_malloc_explicitly_typed", What.BIRTH, Reason.REFUSED, most=1),
    function("GC_calloc_explicitly_typed", What.BIRTH, Reason.REFUSED, most=5),
))

VIRTUAL = Source("gcj_mlc.c", (
    *functions(What.PACE, "maybe_finalize"),
    function("GC_gcj_fake_mark_proc", What.MARK, DEFAULT_PROCEDURE),
    function("GC_init_gcj_malloc", What.BIRTH, EARLY, LOGS, most=6),
    function("GC_gcj_malloc", What.BIRTH, Reason.REFUSED, most=7),
    function("GC_debug_gcj_malloc", What.BIRTH, DEBUG_HEADERS),
    function("GC_gcj_malloc_ignore_off_page", What.BIRTH, Reason.REFUSED, most=4),
))

DISCLAIMING = Source("fnlz_mlc.c", (
    *functions(What.DEATH, "GC_register_disclaim_proc"),
    function("GC_finalized_disclaim", What.DEATH, OTHER_NAMES),
    function("GC_init_finalized_malloc", What.BIRTH, OTHER_NAMES),
    function("GC_finalized_malloc", What.BIRTH, OTHER_NAMES),
))

SWEEPING = Source("reclaim.c", (
    *functions(What.SWEEP, "GC_block_empty GC_block_nearly_full GC_clear_block GC_reclaim_clear "
                           "GC_reclaim_uninit GC_reclaim_generic GC_clear_fl_links GC_start_reclaim "
                           "GC_reclaim_unconditionally_marked"),
    *functions(What.DEATH, "GC_disclaim_and_reclaim GC_disclaim_and_reclaim_or_free_small_block"),
    function("GC_add_leaked", What.SWEEP, LEAKS),
    function("GC_print_all_errors", What.SWEEP, LEAKS),
    function("GC_reclaim_check", What.SWEEP, LEAKS),
    function("GC_reclaim_small_nonempty_block", What.SWEEP, LEAKS, most=1),
    function("GC_reclaim_block", What.SWEEP, LEAKS, most=2),
    function("set_bits", What.HELP, REPORTS),
    function("GC_n_set_marks", What.HELP, REPORTS),
    function("GC_print_block_descr", What.HELP, REPORTS),
    function("GC_print_block_list", What.HELP, REPORTS),
    function("GC_print_free_list", What.HELP, REPORTS),
    function("GC_continue_reclaim", What.SWEEP, KINDS_LISTS, most=1),
    function("GC_reclaim_all", What.SWEEP, LOGS, most=5),
    function("GC_do_enumerate_reachable_objects", What.HELP, REPORTS),
    function("GC_enumerate_reachable_objects_inner", What.HELP, REPORTS),
))

CYCLES = Source("alloc.c", (
    *functions(What.HELP, "GC_never_stop_func GC_set_stop_func GC_clear_a_few_frames GC_set_rate GC_max GC_min"),
    *functions(What.PACE, "min_bytes_allocd GC_adj_bytes_allocd GC_should_collect"),
    *functions(What.CYCLE, "GC_start_incremental_collection GC_collect_a_little GC_try_to_collect_general "
                           "GC_try_to_collect GC_gcollect_and_unmap"),
    *functions(What.MARK, "GC_clear_fl_marks"),
    *functions(What.GROWTH, "GC_scratch_recycle_inner"),
    function("GC_start_performance_measurement", What.HELP, REPORTS),
    function("GC_get_full_gc_total_time", What.HELP, REPORTS),
    function("GC_is_incremental_mode", What.HELP, REPORTS),
    function("GC_set_disable_automatic_collection", What.HELP, SETTING),
    function("GC_get_disable_automatic_collection", What.HELP, SETTING),
    function("GC_get_version", What.HELP, REPORTS),
    function("GC_set_time_limit_tv", What.HELP, SETTING),
    function("GC_get_time_limit_tv", What.HELP, SETTING),
    function("GC_get_stop_func", What.HELP, SETTING),
    function("GC_timeout_stop_func", What.PACE, TIME, most=9),
    function("GC_set_min_bytes_allocd", What.HELP, SETTING),
    function("GC_get_min_bytes_allocd", What.HELP, SETTING),
    function("GC_set_start_callback", What.HELP, SETTING),
    function("GC_get_start_callback", What.HELP, SETTING),
    function("GC_notify_full_gc", What.CYCLE, PROGRAM, most=1),
    function("GC_maybe_gc", What.CYCLE, TIME, TURNS, most=5),
    function("GC_set_on_collection_event", What.HELP, SETTING),
    function("GC_get_on_collection_event", What.HELP, SETTING),
    function("GC_try_to_collect_inner", What.CYCLE, BUSY, LOGS, PROGRAM, most=22),
    function("GC_get_rate", What.HELP, SETTING),
    function("GC_set_max_prior_attempts", What.HELP, SETTING),
    function("GC_get_max_prior_attempts", What.HELP, SETTING),
    function("GC_collect_a_little_inner", What.CYCLE, TIME, TURNS, most=4),
    function("GC_stopped_mark", What.CYCLE, LOGS, PROGRAM, TIME, most=21),
    function("GC_set_fl_marks", What.MARK, LEAKS),
    function("GC_compute_heap_usage_percent", What.PACE, REPORTS),
    function("GC_finish_collection", What.CYCLE, LOGS, LEAKS, PROGRAM, most=23),
    function("GC_gcollect", What.CYCLE, LEAKS, most=1),
    function("GC_add_to_heap", What.GROWTH, ADDRESSES, Reason.SIZE, most=14),
    function("GC_print_heap_sects", What.HELP, REPORTS),
    function("GC_set_max_heap_size", What.HELP, SETTING),
    function("GC_expand_hp_inner", What.GROWTH, PROGRAM, Reason.REFUSED, ADDRESSES, most=9),
    function("GC_expand_hp", What.GROWTH, OTHER_NAMES),
    function("GC_set_allocd_bytes_per_finalizer", What.HELP, SETTING),
    function("GC_get_allocd_bytes_per_finalizer", What.HELP, SETTING),
    function("GC_collect_or_expand", What.GROWTH, WHOLE_HEAP, Reason.REFUSED, most=27),
    function("GC_allocobj", What.BIRTH, WHOLE_HEAP, Reason.REFUSED, most=4),
))

BLOCKS = Source("allchblk.c", (
    *functions(What.GROWTH, "GC_hblk_fl_from_blocks GC_remove_from_fl_at GC_remove_from_fl "
                            "get_block_ending_at GC_free_block_ending_at GC_add_to_fl GC_adjust_num_unmapped"),
    function("GC_enough_large_bytes_left", What.GROWTH, WHOLE_HEAP),
    function("GC_compute_large_free_bytes", What.HELP, REPORTS),
    function("GC_print_hblkfreelist", What.HELP, REPORTS),
    function("free_list_index_of", What.HELP, REPORTS),
    function("GC_dump_regions", What.HELP, REPORTS),
    function("setup_header", What.BIRTH, Reason.UNREACHABLE, most=5),
    function("GC_unmap_old", What.GROWTH, SETTING, most=1),
    *functions(What.GROWTH, "GC_merge_unmapped"),
    function("GC_get_first_part", What.GROWTH, Reason.REFUSED, most=2),
    function("GC_split_block", What.GROWTH, UNMAPPED, most=1),
    function("GC_allochblk", What.BIRTH, WHOLE_HEAP, most=6),
    function("GC_allochblk_nth", What.BIRTH, LARGE_AVOIDS, UNMAPPED, Reason.REFUSED, most=14),
    function("GC_freehblk", What.DEATH, Reason.MISUSE, most=2),
))

HEADERS = Source("headers.c", (
    *functions(What.MARK, "GC_find_header GC_header_cache_miss"),
    *functions(What.HELP, "alloc_hdr free_hdr GC_apply_to_all_blocks"),
    *functions(What.BIRTH, "GC_install_header"),
    *functions(What.DEATH, "GC_remove_header GC_remove_counts"),
    *functions(What.SWEEP, "GC_next_block"),
    function("GC_scratch_alloc", What.HELP, Reason.REFUSED, most=6),
    function("GC_init_headers", What.HELP, Reason.REFUSED, most=2),
    function("get_index", What.GROWTH, SPREAD, most=2),
    function("GC_install_counts", What.BIRTH, ADDRESSES, most=3),
    function("GC_prev_block", What.SWEEP, SPREAD, most=4),
))

BLACK_LISTS = Source("blacklst.c", (
    *functions(What.HELP, "GC_clear_bl GC_copy_bl GC_unpromote_black_lists GC_add_to_black_list_normal "
                          "GC_add_to_black_list_stack GC_is_black_listed GC_number_stack_black_listed "
                          "total_stack_black_listed"),
    function("GC_default_print_heap_obj_proc", What.HELP, REPORTS),
    function("GC_bl_init_no_interiors", What.HELP, Reason.REFUSED, most=2),
    function("GC_bl_init", What.HELP, Reason.REFUSED, most=2),
    function("GC_promote_black_lists", What.HELP,
             "It needs a heap in which most pages are black-listed.", most=1),
))

NEW_BLOCKS = Source("new_hblk.c", (
    *functions(What.BIRTH, "GC_build_fl_clear2 GC_build_fl_clear4 GC_build_fl2 GC_build_fl4 GC_build_fl "
                           "GC_new_hblk"),
))

MAPS = Source("obj_map.c", (
    *functions(What.MARK, "GC_register_displacement GC_add_map_entry"),
    function("GC_register_displacement_inner", What.MARK, Reason.MISUSE, most=1),
    function("GC_initialize_offsets", What.MARK,
             "It is for a program that sets once more whether pointers may lead into objects.", most=3),
))

ALLOCATION = Source("malloc.c", (
    *functions(What.BIRTH, "GC_alloc_reclaim_list GC_alloc_large_and_clear "
                           "GC_generic_malloc_inner_ignore_off_page GC_malloc_kind GC_malloc_atomic GC_malloc "
                           "GC_generic_malloc_uncollectable GC_malloc_uncollectable "
                           "GC_malloc_atomic_uncollectable"),
    function("GC_alloc_large", What.BIRTH, Reason.REFUSED, most=2),
    function("GC_extend_size_map", What.BIRTH, Reason.REFUSED, most=2),
    function("GC_generic_malloc_inner", What.BIRTH, Reason.REFUSED, EARLY, most=4),
    function("GC_generic_malloc", What.BIRTH, Reason.REFUSED, most=3),
    function("GC_free", What.DEATH, Reason.MISUSE, most=1),
))

MORE_ALLOCATION = Source("mallocx.c", (
    *functions(What.BIRTH, "GC_malloc_ignore_off_page GC_malloc_atomic_ignore_off_page GC_malloc_many"),
    *functions(What.BARRIER, "GC_end_stubborn_change GC_ptr_store_and_dirty"),
    function("GC_get_kind_and_size", What.HELP, REPORTS),
    function("GC_generic_or_special_malloc", What.BIRTH,
             "It is for objects of other kinds, and the adapter lets those of one kind grow.", most=4),
    function("GC_realloc", What.BIRTH, Reason.REFUSED, most=3),
    function("GC_generic_malloc_ignore_off_page", What.BIRTH, Reason.REFUSED, most=4),
    function("GC_incr_bytes_allocd", What.HELP, SETTING),
    function("GC_incr_bytes_freed", What.HELP, SETTING),
    function("GC_get_expl_freed_bytes_since_gc", What.HELP, SETTING),
    function("GC_generic_malloc_many", What.BIRTH, EARLY, LEAKS, Reason.REFUSED, most=6),
    function("GC_memalign", What.BIRTH, OTHER_NAMES),
    function("GC_posix_memalign", What.BIRTH, OTHER_NAMES),
    function("GC_strdup", What.HELP, OTHER_NAMES),
    function("GC_strndup", What.HELP, OTHER_NAMES),
    function("GC_malloc_stubborn", What.BIRTH, OTHER_NAMES),
    function("GC_change_stubborn", What.BARRIER, OTHER_NAMES),
))

FINALIZERS = Source("finalize.c", (
    *functions(What.ROOTS, "GC_push_finalizer_structures"),
    *functions(What.WEAK, "GC_unregister_disappearing_link_inner GC_unregister_disappearing_link "
                          "GC_mark_togglerefs GC_clear_togglerefs GC_set_toggleref_func "
                          "GC_unregister_long_link GC_make_disappearing_links_disappear"),
    *functions(What.FINALIZER, "GC_normal_finalize_mark_proc GC_null_finalize_mark_proc "
                               "GC_unreachable_finalize_mark_proc GC_register_finalizer "
                               "GC_register_finalizer_ignore_self GC_register_finalizer_no_order "
                               "GC_register_finalizer_unreachable GC_should_invoke_finalizers "
                               "GC_invoke_finalizers"),
    function("GC_grow_table", What.GROWTH, WHOLE_HEAP, LOGS, Reason.REFUSED, most=6),
    function("GC_register_disappearing_link", What.WEAK, OTHER_NAMES),
    function("GC_register_disappearing_link_inner", What.WEAK, OLDER, Reason.REFUSED, most=14),
    function("GC_general_register_disappearing_link", What.WEAK, Reason.MISUSE, most=1),
    function("GC_process_togglerefs", What.WEAK, Reason.MISUSE, most=2),
    function("push_and_mark_object", What.WEAK,
             "It needs an overflow of the mark stack below a toggle reference.", most=1),
    function("GC_get_toggleref_func", What.WEAK, SETTING),
    function("ensure_toggleref_capacity", What.GROWTH, Reason.REFUSED, most=3),
    function("GC_toggleref_add", What.WEAK, Reason.REFUSED, most=1),
    function("GC_set_await_finalize_proc", What.FINALIZER, SETTING),
    function("GC_get_await_finalize_proc", What.FINALIZER, SETTING),
    function("GC_register_long_link", What.WEAK, Reason.MISUSE, most=1),
    function("GC_move_disappearing_link_inner", What.WEAK, OLDER, most=3),
    function("GC_move_disappearing_link", What.WEAK, Reason.MISUSE, most=2),
    function("GC_move_long_link", What.WEAK, Reason.MISUSE, most=2),
    function("GC_ignore_self_finalize_mark_proc", What.FINALIZER,
             "The adapter's bodies that may lead to themselves have a length as their descriptor.", most=1),
    function("GC_register_finalizer_inner", What.FINALIZER, OLDER, Reason.REFUSED, most=35),
    function("GC_dump_finalization_links", What.HELP, REPORTS),
    function("GC_dump_finalization", What.HELP, REPORTS),
    function("GC_check_finalizer_nested", What.FINALIZER, NESTED, most=2),
    function("GC_finalize", What.FINALIZER, PROGRAM, Reason.REFUSED, Reason.MISUSE, most=4),
    function("GC_enqueue_all_finalizers", What.FINALIZER, ALL_AT_ONCE),
    function("GC_finalize_all", What.FINALIZER, ALL_AT_ONCE),
    function("GC_notify_or_invoke_finalizers", What.FINALIZER, PROGRAM, most=5),
    function("GC_print_finalization_stats", What.HELP, REPORTS),
))

WRITTEN_PAGES = Source("os_dep.c", (
    *functions(What.GROWTH, "GC_unix_get_mem GC_unmap_start GC_unmap GC_remap GC_unmap_gap"),
    *functions(What.ROOTS, "GC_set_push_other_roots GC_get_push_other_roots"),
    *functions(What.BARRIER, "GC_dirty_inner GC_remove_protection"),
    *functions(What.REMEMBERED, "GC_is_vdb_for_static_roots GC_page_was_dirty"),
    function("GC_unix_mmap_get_mem", What.GROWTH, Reason.REFUSED, Reason.PLATFORM, most=4),
    function("block_unmap_inner", What.GROWTH, Reason.REFUSED, Reason.PLATFORM, most=1),
    function("GC_parse_version", What.REMEMBERED, SOFT, most=3),
    function("GC_write_fault_handler", What.BARRIER, Reason.MISUSE, Reason.PLATFORM, most=9),
    function("GC_dirty_init", What.BARRIER, SOFT, Reason.PLATFORM, most=11),
    function("GC_incremental_protection_needs", What.BARRIER, SOFT, most=2),
    function("GC_protect_heap", What.BARRIER, SOFT, Reason.PLATFORM, most=1),
    function("open_proc_fd", What.REMEMBERED, SOFT, most=2),
    function("soft_dirty_open_files", What.REMEMBERED, SOFT, most=4),
    function("detect_soft_dirty_supported", What.REMEMBERED, SOFT, most=2),
    function("ensure_min_linux_ver", What.REMEMBERED, SOFT, most=3),
    function("soft_dirty_init", What.REMEMBERED, SOFT, most=6),
    function("pagemap_buffered_read", What.REMEMBERED, SOFT),
    function("soft_set_grungy_pages", What.REMEMBERED, SOFT),
    function("GC_soft_read_dirty", What.REMEMBERED, SOFT),
    function("GC_read_dirty", What.REMEMBERED, SOFT, most=1),
), is_whole=False)

REST = Source("misc.c", (
    *functions(What.MARK, "GC_is_heap_ptr GC_size GC_new_kind GC_new_proc"),
    *functions(What.BIRTH, "GC_new_free_list_inner GC_new_free_list"),
    *functions(What.ROOTS, "GC_do_blocking_inner GC_do_blocking"),
    function("GC_base", What.MARK, Reason.MISUSE, most=1),
    function("GC_new_kind_inner", What.MARK, Reason.MISUSE, most=1),
    function("GC_new_proc_inner", What.MARK, Reason.MISUSE, most=1),
    function("GC_call_with_gc_active", What.ROOTS, "The stack is deeper at each call.", most=4),
), is_whole=False)

LIBGC_PLACES = Plan("libgc", (MARKING, MARKING_OF_WORDS, ROOTS, TYPED, VIRTUAL, DISCLAIMING, SWEEPING, CYCLES,
                              BLOCKS, HEADERS, BLACK_LISTS, NEW_BLOCKS, MAPS, ALLOCATION, MORE_ALLOCATION,
                              FINALIZERS, WRITTEN_PAGES, REST))
