"""The places of OCaml's collector, and why some of them are never run."""
from __future__ import annotations

from faults.places import Plan, Reason, Source, What, function, functions

BYTECODE = "Bytecode alone calls it: the compiler makes code of its own for this."
FLOATS = "It is for arrays of floats, which have no references."
HUGE = "It asks for pages of 2 MB, for which the runtime has to be built."
POOL = "It is for programs that load and unload the runtime."
NEVER_SO_LARGE = "No block of a script is as large as the largest that there may be."
FOREIGN_MEMORY = "It hastens collections by what a program of C says of its own memory."
MEMPROF = "It samples allocations for a profiler."
LOADED = "It is for code that is loaded while the program runs."
REPORTS = "It tells a program how far the collector has come, or shows it the heap."
HOOK = "It calls a function that a program of C may set, and the adapter sets none."
SETTING = "It reads or sets a parameter, and the collector does nothing meanwhile."
OBJECT_SYSTEM = "It is for objects that have methods, and not for the collector."
C_ALONE = "Programs of C alone call it, where the adapter calls another in its place."
REC = "It makes room for values that are defined by each other, which the compiler makes in another way here."
STRINGS = "It makes strings and lists of them, which have no references."
FORWARD_KEYS = "A key that is a forced lazy value may be dropped, as the collector leads past it. The adapter has none."
CUSTOM = "Custom blocks of the adapter are of one kind, and small."
CLOSURES_COPIED = "What the adapter lets a weak reference copy is neither a closure nor raw data."
DEBUGGING_CHECK = "The debugging runtime checks itself by it."
KEEPS_SIZE = "It needs free blocks of certain sizes side by side, which no script leaves."
ADDRESSES = "It depends on where the system puts a new part of the heap."
EMPTY = "The adapter makes no such array that is empty."
ENDS = "It is for a program that frees all its memory as it ends."
STAYS = "An empty part of the heap stays where the other parts are full, which no script brings about."
RESIZED_OLD = "It is for a slice whose length the runtime is to choose, or in a heap with nothing in it."

STORES = Source("runtime/memory.c", (
    *functions(What.HELP, "caml_page_table_lookup caml_page_table_modify caml_page_table_add "
                          "caml_page_table_remove caml_stat_alloc_aligned_noexc"),
    *functions(What.GROWTH, "caml_shrink_heap"),
    *functions(What.BIRTH, "caml_alloc_shr_aux caml_alloc_shr_with_profinfo caml_alloc_shr_for_minor_gc "
                           "caml_alloc_shr"),
    *functions(What.PACE, "caml_adjust_gc_speed"),
    *functions(What.BARRIER, "caml_initialize caml_modify"),
    function("caml_page_table_initialize", What.HELP, Reason.REFUSED, most=1),
    function("caml_page_table_resize", What.HELP, Reason.REFUSED, most=2),
    function("caml_alloc_for_heap", What.GROWTH, HUGE, most=9),
    function("caml_free_for_heap", What.GROWTH, HUGE, most=1),
    function("caml_add_to_heap", What.GROWTH, ADDRESSES, Reason.REFUSED, most=3),
    function("expand_heap", What.GROWTH, NEVER_SO_LARGE, Reason.REFUSED, most=12),
    function("caml_allocation_color", What.BIRTH, C_ALONE),
    function("check_oom", What.HELP, Reason.REFUSED, most=3),
    function("caml_alloc_shr_no_track_noexc", What.BIRTH, C_ALONE),
    function("caml_alloc_dependent_memory", What.PACE, FOREIGN_MEMORY),
    function("caml_free_dependent_memory", What.PACE, FOREIGN_MEMORY),
    function("get_pool_block", What.HELP, POOL),
    function("caml_stat_create_pool", What.HELP, POOL),
    function("caml_stat_destroy_pool", What.HELP, POOL),
    function("caml_stat_alloc_aligned", What.HELP, C_ALONE),
    function("caml_stat_alloc_noexc", What.HELP, POOL, most=7),
    function("caml_stat_alloc", What.HELP, Reason.REFUSED, most=1),
    function("caml_stat_free", What.HELP, POOL, most=5),
    function("caml_stat_resize_noexc", What.HELP, POOL, most=7),
    function("caml_stat_resize", What.HELP, Reason.REFUSED, most=1),
    function("caml_stat_calloc_noexc", What.HELP, Reason.REFUSED, most=1),
    function("caml_stat_strdup_noexc", What.HELP, Reason.REFUSED, most=1),
    function("caml_stat_strdup", What.HELP, Reason.REFUSED, most=1),
    function("caml_stat_strconcat", What.HELP, C_ALONE),
))

ARRAYS = Source("runtime/array.c", (
    *functions(What.BIRTH, "caml_make_vect"),
    *functions(What.STORE, "caml_array_sub caml_array_append"),
    function("caml_array_length", What.HELP, FLOATS, most=1),
    function("caml_is_double_array", What.HELP, FLOATS),
    function("caml_array_get_addr", What.HELP, BYTECODE),
    function("caml_floatarray_get", What.HELP, BYTECODE),
    function("caml_array_get", What.HELP, BYTECODE),
    function("caml_array_set_addr", What.STORE, BYTECODE),
    function("caml_floatarray_set", What.STORE, BYTECODE),
    function("caml_array_set", What.STORE, BYTECODE),
    function("caml_floatarray_unsafe_get", What.HELP, BYTECODE),
    function("caml_array_unsafe_get", What.HELP, BYTECODE),
    function("caml_array_unsafe_set_addr", What.STORE, BYTECODE),
    function("caml_floatarray_unsafe_set", What.STORE, BYTECODE),
    function("caml_array_unsafe_set", What.STORE, BYTECODE),
    function("caml_floatarray_create", What.BIRTH, FLOATS),
    function("caml_make_float_vect", What.BIRTH, FLOATS),
    function("caml_make_array", What.BIRTH, FLOATS, EMPTY, most=10),
    function("caml_floatarray_blit", What.STORE, FLOATS),
    function("caml_array_blit", What.STORE, FLOATS, most=1),
    function("caml_array_gather", What.STORE, FLOATS, NEVER_SO_LARGE, most=9),
    function("caml_array_concat", What.STORE, Reason.REFUSED, most=5),
    function("caml_array_fill", What.STORE, FLOATS, most=4),
))

YOUNG_HEAP = Source("runtime/minor_gc.c", (
    *functions(What.GROWTH, "alloc_generic_table reset_table clear_table caml_realloc_ref_table "
                            "caml_realloc_ephe_ref_table caml_realloc_custom_table"),
    *functions(What.COPY, "caml_oldify_one ephe_check_alive_data caml_oldify_mopup"),
    *functions(What.CYCLE, "caml_empty_minor_heap caml_gc_dispatch caml_minor_collection caml_check_urgent_gc"),
    function("caml_alloc_minor_tables", What.GROWTH, Reason.REFUSED, most=3),
    function("caml_alloc_table", What.GROWTH, C_ALONE),
    function("caml_alloc_ephe_table", What.GROWTH, C_ALONE),
    function("caml_alloc_custom_table", What.GROWTH, C_ALONE),
    function("caml_set_minor_heap_size", What.GROWTH, Reason.REFUSED, most=1),
    function("caml_alloc_small_dispatch", What.BIRTH, MEMPROF, most=3),
    function("realloc_generic_table", What.GROWTH, Reason.REFUSED, most=1),
))

OLD_HEAP = Source("runtime/major_gc.c", (
    *functions(What.OVERFLOW, "mark_stack_prune realloc_mark_stack redarken_chunk"),
    *functions(What.MARK, "mark_stack_push caml_darken mark_slice"),
    *functions(What.CYCLE, "start_cycle init_sweep_phase caml_finish_major_cycle"),
    *functions(What.WEAK, "clean_slice"),
    *functions(What.SWEEP, "sweep_slice"),
    *functions(What.GROWTH, "caml_clip_heap_chunk_wsz"),
    *functions(What.PACE, "caml_set_major_window"),
    function("caml_shrink_mark_stack", What.GROWTH, Reason.REFUSED, most=1),
    function("mark_slice_darken", What.MARK,
             "A field that marking leads past a forced value to a young object is the data of no ephemeron.", most=1),
    function("mark_ephe_aux", What.WEAK, FORWARD_KEYS, most=8),
    function("caml_major_collection_slice", What.CYCLE, FOREIGN_MEMORY, RESIZED_OLD, most=9),
    function("caml_init_major_heap", What.GROWTH, Reason.REFUSED, most=4),
    function("caml_finalise_heap", What.CYCLE, ENDS),
))

ROOTS = Source("runtime/roots_nat.c", (
    *functions(What.ROOTS, "cons count_descriptors frametables_list_tail next_frame_descr "
                           "caml_init_frame_descriptors caml_darken_all_roots_start "
                           "caml_darken_all_roots_slice caml_do_local_roots_nat"),
    *functions(What.HELP, "fill_hashtable"),
    function("init_frame_descriptors", What.ROOTS, LOADED, most=3),
    function("caml_register_frametable", What.ROOTS, LOADED),
    function("remove_entry", What.ROOTS, LOADED),
    function("caml_unregister_frametable", What.ROOTS, LOADED),
    function("caml_register_dyn_global", What.ROOTS, LOADED),
    function("caml_oldify_local_roots", What.ROOTS, LOADED, most=3),
    function("caml_do_roots", What.ROOTS, LOADED, most=3),
    function("caml_stack_usage", What.ROOTS, HOOK, most=1),
))

ROOTS_OF_C = Source("runtime/globroots.c", (
    *functions(What.ROOTS, "caml_insert_global_root caml_delete_global_root caml_iterate_global_roots "
                           "caml_register_global_root caml_remove_global_root classify_gc_root "
                           "caml_register_generational_global_root caml_remove_generational_global_root "
                           "caml_modify_generational_global_root caml_scan_global_roots "
                           "caml_scan_global_young_roots"),
))

FREE_LISTS = Source("runtime/freelist.c", (
    *functions(What.BIRTH, "Next_in_mem nf_allocate_block nf_allocate nf_init nf_reset ff_allocate_block "
                           "ff_truncate_flp ff_init ff_reset bf_large_wosize set_map unset_map bf_search "
                           "bf_search_best bf_splay bf_splay_least bf_remove_node bf_insert_block "
                           "bf_insert_remnant_small bf_insert_remnant bf_insert_sweep bf_remove "
                           "bf_split_small bf_split bf_alloc_from_large bf_allocate_from_tree bf_allocate "
                           "bf_init bf_reset"),
    *functions(What.SWEEP, "nf_init_merge nf_merge_block ff_init_merge ff_merge_block bf_init_merge"),
    *functions(What.GROWTH, "caml_set_allocation_policy caml_fl_reset_and_switch_policy"),
    *functions(What.BIRTH, "nf_add_blocks"),
    function("nf_make_free_blocks", What.BIRTH, KEEPS_SIZE, most=1),
    function("ff_allocate", What.BIRTH, KEEPS_SIZE, most=24),
    function("ff_add_blocks", What.BIRTH, KEEPS_SIZE, most=2),
    function("ff_make_free_blocks", What.BIRTH, KEEPS_SIZE, most=1),
    function("bf_merge_block", What.SWEEP, KEEPS_SIZE, most=4),
    function("bf_add_blocks", What.BIRTH, KEEPS_SIZE, most=2),
    function("bf_make_free_blocks", What.BIRTH, KEEPS_SIZE, most=2),
))

COMPACTION = Source("runtime/compact.c", (
    *functions(What.COMPACTION, "caml_invert_root init_compact_allocate compact_allocate"),
    function("do_compaction", What.COMPACTION, STAYS, most=1),
    function("invert_pointer_at", What.COMPACTION,
             "It is for what leads into a closure outside the heap, or to a free block, and nothing does.", most=2),
    function("caml_compact_heap", What.COMPACTION, HUGE, Reason.REFUSED, most=4),
    function("caml_compact_heap_maybe", What.COMPACTION, HUGE, ADDRESSES, most=2),
))

WEAK = Source("runtime/weak.c", (
    *functions(What.WEAK, "Is_Dead_during_clean Must_be_Marked_during_mark is_ephe_key_none do_set "
                          "caml_ephemeron_set_key caml_ephe_set_key caml_ephemeron_unset_key "
                          "caml_ephe_unset_key caml_ephemeron_set_data caml_ephe_set_data "
                          "caml_ephemeron_unset_data caml_ephe_unset_data optionalize caml_ephemeron_get_key "
                          "caml_ephe_get_key caml_weak_get caml_ephe_get_data caml_ephe_get_key_copy "
                          "caml_weak_get_copy caml_ephe_get_data_copy caml_ephemeron_key_is_set "
                          "caml_ephe_check_key caml_weak_check caml_ephe_blit_key caml_weak_blit "
                          "caml_ephemeron_blit_data caml_ephe_blit_data"),
    *functions(What.BIRTH, "caml_ephe_create caml_weak_create"),
    function("caml_ephemeron_num_keys", What.WEAK, C_ALONE),
    function("caml_ephemeron_create", What.BIRTH, Reason.MISUSE, most=1),
    function("do_check_key_clean", What.WEAK,
             "A dead key is dropped before the adapter writes over it.", most=2),
    function("caml_ephe_set_key_option", What.WEAK, C_ALONE),
    function("caml_weak_set", What.WEAK, C_ALONE),
    function("caml_ephemeron_get_data", What.WEAK, "Data is there as long as its object is.", most=1),
    function("copy_value", What.WEAK, CLOSURES_COPIED, most=4),
    function("caml_ephemeron_get_key_copy", What.WEAK, CLOSURES_COPIED, most=6),
    function("caml_ephemeron_get_data_copy", What.WEAK, CLOSURES_COPIED, most=6),
    function("caml_ephemeron_data_is_set", What.WEAK, C_ALONE),
    function("caml_ephe_check_data", What.WEAK, C_ALONE),
    function("caml_ephemeron_blit_key", What.WEAK,
             "Keys are moved one at a time, to the beginning of another.", most=3),
))

CLEANING = Source("runtime/caml/weak.h", (
    *functions(What.WEAK, "caml_ephe_clean"),
    function("caml_ephe_clean_partial", What.WEAK, FORWARD_KEYS, most=8),
))

FINALIZERS = Source("runtime/finalise.c", (
    *functions(What.FINALIZER, "alloc_to_do generic_final_update caml_final_update_mark_phase "
                               "caml_final_update_clean_phase caml_final_do_calls_exn caml_final_do_roots "
                               "caml_final_oldify_young_roots caml_final_update_minor_roots "
                               "caml_final_empty_young caml_final_register "
                               "caml_final_register_called_without_value"),
    *functions(What.COMPACTION, "caml_final_invert_finalisable_values"),
    function("generic_final_minor_update", What.FINALIZER,
             "The list of finalizers begins large enough, or the value is no forced one.", most=1),
    function("generic_final_register", What.FINALIZER,
             "The list of finalizers begins large enough, or the value is no forced one.", most=3),
    function("caml_final_release", What.FINALIZER, ENDS),
    function("gen_final_invariant_check", What.FINALIZER, DEBUGGING_CHECK),
    function("caml_final_invariant_check", What.FINALIZER, DEBUGGING_CHECK),
))

OBJECTS = Source("runtime/obj.c", (
    *functions(What.STORE, "caml_obj_make_forward"),
    *functions(What.BIRTH, "caml_obj_dup caml_lazy_make_forward"),
    *functions(What.HELP, "caml_fresh_oo_id"),
    function("caml_obj_tag", What.HELP, STRINGS, most=3),
    function("caml_obj_set_tag", What.HELP, C_ALONE),
    function("caml_obj_raw_field", What.HELP, C_ALONE),
    function("caml_obj_set_raw_field", What.STORE, C_ALONE),
    function("caml_obj_block", What.BIRTH, C_ALONE),
    function("caml_obj_with_tag", What.BIRTH, "It is for empty objects, and for raw data.", most=2),
    function("caml_obj_truncate", What.STORE, Reason.MISUSE, most=1),
    function("caml_obj_add_offset", What.HELP, C_ALONE),
    function("caml_get_public_method", What.HELP, OBJECT_SYSTEM),
    function("caml_set_oo_id", What.HELP, OBJECT_SYSTEM),
    function("caml_int_as_pointer", What.HELP, C_ALONE),
))

CUSTOM_BLOCKS = Source("runtime/custom.c", (
    *functions(What.BIRTH, "caml_alloc_custom caml_alloc_custom_mem"),
    *functions(What.DEATH, "caml_register_custom_operations caml_init_custom_operations"),
    function("alloc_custom_gen", What.BIRTH, CUSTOM, most=5),
    function("caml_find_custom_operations", What.DEATH, C_ALONE),
    function("caml_final_custom_operations", What.DEATH, ENDS),
))

ALLOCATION = Source("runtime/alloc.c", (
    *functions(What.BIRTH, "caml_alloc_small caml_alloc_tuple caml_alloc_string caml_alloc_initialized_string "
                           "caml_alloc_array caml_alloc_dummy"),
    *functions(What.HELP, "caml_copy_string"),
    function("caml_alloc", What.BIRTH, C_ALONE, most=1),
    function("caml_alloc_final", What.FINALIZER, C_ALONE),
    function("caml_alloc_float_array", What.BIRTH, FLOATS),
    function("caml_copy_string_array", What.HELP, STRINGS),
    function("caml_convert_flag_list", What.HELP, STRINGS),
    function("caml_alloc_dummy_function", What.BIRTH, REC),
    function("caml_alloc_dummy_float", What.BIRTH, REC),
    function("caml_alloc_dummy_infix", What.BIRTH, REC),
    function("caml_update_dummy", What.STORE, REC, most=9),
    function("caml_alloc_some", What.BIRTH, C_ALONE),
))

LISTS_OF_ROOTS = Source("runtime/skiplist.c", (
    *functions(What.ROOTS, "random_level caml_skiplist_insert caml_skiplist_remove caml_skiplist_empty"),
    function("caml_skiplist_init", What.ROOTS, C_ALONE),
    function("caml_skiplist_find", What.ROOTS, C_ALONE),
    function("caml_skiplist_find_below", What.ROOTS,
             "No key is looked for that is below all others, or is there already.", most=1),
))

CONTROL = Source("runtime/gc_ctrl.c", (
    *functions(What.HELP, "caml_gc_quick_stat caml_gc_get norm_pfree norm_pmax norm_minsize norm_window "
                          "norm_custom_maj norm_custom_min"),
    *functions(What.CYCLE, "caml_gc_minor test_and_compact caml_gc_major caml_gc_full_major caml_gc_compaction"),
    function("heap_stats", What.HELP, REPORTS),
    function("caml_gc_stat", What.HELP, REPORTS),
    function("caml_gc_minor_words_unboxed", What.HELP, REPORTS),
    function("caml_gc_minor_words", What.HELP, REPORTS),
    function("caml_gc_counters", What.HELP, REPORTS),
    function("caml_gc_huge_fallback_count", What.HELP, REPORTS),
    function("caml_gc_set", What.HELP, SETTING, Reason.MISUSE, most=14),
    *functions(What.CYCLE, "caml_gc_major_slice"),
    function("caml_get_minor_free", What.HELP, REPORTS),
    function("caml_get_major_bucket", What.HELP, REPORTS),
    function("caml_get_major_credit", What.HELP, REPORTS),
    function("caml_init_gc", What.HELP, SETTING, Reason.MISUSE, most=2),
    function("caml_runtime_variant", What.HELP, REPORTS),
    function("caml_runtime_parameters", What.HELP, REPORTS),
    function("caml_ml_enable_runtime_warnings", What.HELP, REPORTS),
    function("caml_ml_runtime_warnings_enabled", What.HELP, REPORTS),
))

OCAML_PLACES = Plan("ocaml", (STORES, ARRAYS, YOUNG_HEAP, OLD_HEAP, ROOTS, ROOTS_OF_C, FREE_LISTS, COMPACTION,
                              WEAK, CLEANING, FINALIZERS, OBJECTS, CUSTOM_BLOCKS, ALLOCATION, LISTS_OF_ROOTS,
                              CONTROL), left_out="*.nd.gcda")
