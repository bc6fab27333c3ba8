"""The places of Ruby's collector, and why some of them are never run."""
from __future__ import annotations

from faults.places import Plan, Reason, Source, What, function, functions

PROFILE = "It serves profiles and hooks of collections, which the adapter asks for none of."
METHODS = "It serves methods that are aliases, refinements or blocks, which the adapter defines none of."
PARSING = "It serves parsing, which is over before the first command."
ONE_MAP = "The adapter has one weak map, which lives as long as it does."
ONE_KEY = "Ruby 3.1 damages a weak map in which a value has several keys, so the adapter gives each value one."
FILES_OPEN = "It serves files, and classes with modules before them, of which the adapter has none that move."
OTHERS = "It frees files, classes and data of kinds that the adapter never drops."
SPECIAL = "It serves values without an object, of which the adapter asks for nil alone."
UNUSED = "It is a method for programs that look at the collector, which the adapter doesn't call."

COLLECTOR = Source("gc.c", (
    *functions(What.BARRIER, "gc_writebarrier_generational gc_mark_from gc_writebarrier_incremental "
                             "rb_gc_writebarrier_unprotect rb_gc_writebarrier_remember"),
    function("rb_gc_writebarrier", What.BARRIER, Reason.THREADS, most=1),
    *functions(What.REMEMBERED, "gc_remember_unprotected rgengc_check_relation rgengc_remembersetbits_get "
                                "rgengc_remembersetbits_set rgengc_remember rgengc_remembered_sweep "
                                "rgengc_remembered rgengc_rememberset_mark_plane rgengc_rememberset_mark "
                                "rgengc_mark_and_rememberset_clear gc_mark_set_parent"),
    *functions(What.AGES, "gc_aging RVALUE_AGE_INC RVALUE_PAGE_OLD_UNCOLLECTIBLE_SET RVALUE_AGE_SET_OLD "
                          "RVALUE_AGE_SET_CANDIDATE RVALUE_DEMOTE RVALUE_AGE_RESET"),
    *functions(What.GREY, "gc_grey pop_mark_stack is_mark_stack_empty gc_mark_stacked_objects "
                          "gc_mark_stacked_objects_incremental gc_mark_stacked_objects_all "
                          "gc_marks_wb_unprotected_objects_plane gc_marks_wb_unprotected_objects"),
    function("push_mark_stack", What.GREY, Reason.UNREACHABLE, most=7),
    *functions(What.OVERFLOW, "add_stack_chunk_cache shrink_stack_chunk_cache push_mark_stack_chunk "
                              "pop_mark_stack_chunk"),
    function("stack_chunk_alloc", What.OVERFLOW, Reason.REFUSED, most=1),
    function("free_stack_chunks", What.OVERFLOW, Reason.DEAD, most=3),
    *functions(What.MARK, "gc_mark_set gc_pin gc_mark_and_pin gc_mark rb_gc_mark_movable rb_gc_mark "
                          "gc_mark_values rb_gc_mark_values mark_value mark_value_pin mark_tbl_no_pin mark_tbl "
                          "mark_keyvalue pin_key_mark_value mark_hash mark_method_entry_i mark_m_tbl "
                          "mark_const_entry_i mark_const_tbl gc_mark_locations rb_gc_mark_locations"),
    function("gc_mark_ptr", What.MARK, Reason.DEBUGGING, most=3),
    function("gc_mark_imemo", What.MARK, PARSING, most=8),
    function("gc_mark_children", What.MARK, Reason.UNREACHABLE, most=12),
    function("pin_key_pin_value", What.MARK, Reason.DEAD),
    function("mark_st", What.MARK, Reason.DEAD),
    function("mark_method_entry", What.MARK, METHODS, most=8),
    function("mark_key", What.MARK, Reason.DEAD),
    function("mark_set", What.MARK, Reason.DEAD),
    *functions(What.ROOTS, "gc_mark_roots rb_gc_mark_maybe mark_current_machine_context gc_mark_stack_values "
                           "rb_gc_mark_vm_stack_values pin_value mark_finalizer_tbl rb_gc_register_address"),
    function("gc_mark_maybe", What.ROOTS, Reason.UNREACHABLE, most=1),
    function("rb_gc_mark_machine_stack", What.ROOTS, Reason.THREADS),
    *functions(What.BIRTH, "newobj_init"),
    *functions(What.DEATH, "make_zombie"),
    function("obj_free", What.DEATH, OTHERS, most=28),
    function("obj_free_object_id", What.DEATH, Reason.UNREACHABLE, most=1),
    *functions(What.SWEEP, "gc_setup_mark_bits gc_sweep_page gc_sweep_start_heap gc_sweep_start gc_sweep_rest "
                           "gc_sweep_continue gc_sweep"),
    function("gc_sweep_plane", What.SWEEP, Reason.UNREACHABLE, most=1),
    function("gc_sweep_finish", What.SWEEP, PROFILE, most=1),
    function("gc_sweep_step", What.SWEEP, Reason.SIZE, most=4),
    function("heap_page_freelist_append", What.SWEEP, Reason.UNREACHABLE, most=9),
    *functions(What.FINALIZER, "run_final finalize_list finalize_deferred gc_finalize_deferred"),
    function("run_finalizer", What.FINALIZER, Reason.UNREACHABLE, most=2),
    function("gc_finalize_deferred_register", What.FINALIZER, Reason.REFUSED, most=1),
    function("define_final0", What.FINALIZER, Reason.MISUSE, most=2),
    function("define_final", What.FINALIZER, Reason.MISUSE, most=2),
    *functions(What.GROWTH, "heap_pages_expand_sorted heap_page_add_freeobj heap_add_freepage heap_add_poolpage "
                            "heap_page_free heap_page_create heap_add_page heap_assign_page heap_increment "
                            "heap_move_pooled_pages_to_free_pages"),
    function("heap_pages_expand_sorted_to", What.GROWTH, Reason.REFUSED, most=1),
    function("heap_unlink_page", What.GROWTH, Reason.SIZE),
    function("heap_pages_free_unused_pages", What.GROWTH, Reason.SIZE, most=13),
    function("heap_page_allocate", What.GROWTH, Reason.REFUSED, most=5),
    function("heap_page_resurrect", What.GROWTH, Reason.SIZE, most=5),
    function("heap_extend_pages", What.GROWTH, Reason.SIZE, most=3),
    function("heap_prepare", What.GROWTH, Reason.REFUSED, most=1),
    *functions(What.COMPACTION, "try_move_plane try_move gc_unprotect_pages read_barrier_handler "
                                "read_barrier_signal uninstall_handlers install_handlers revert_stack_objects "
                                "check_stack_for_moved gc_fill_swept_plane gc_fill_swept_page "
                                "invalidate_moved_plane invalidate_moved_page gc_ref_update_object "
                                "hash_replace_ref hash_foreach_replace hash_replace_ref_value "
                                "hash_foreach_replace_value rb_gc_update_tbl_refs gc_ref_update_hash "
                                "gc_update_values update_id_table update_m_tbl update_cc_tbl_i update_cc_tbl "
                                "update_cvc_tbl_i update_cvc_tbl update_const_tbl update_subclass_entries "
                                "update_iv_index_tbl_i update_class_ext gc_update_references gc_compact"),
    function("lock_page_body", What.COMPACTION, Reason.REFUSED, most=1),
    function("unlock_page_body", What.COMPACTION, Reason.REFUSED, most=1),
    function("revert_machine_stack_references", What.COMPACTION, Reason.UNREACHABLE, most=1),
    function("gc_compact_finish", What.COMPACTION, PROFILE, most=2),
    function("gc_compact_start", What.COMPACTION, PROFILE, most=2),
    function("gc_is_moveable_obj", What.COMPACTION, Reason.UNREACHABLE, most=5),
    function("gc_move", What.COMPACTION, Reason.UNREACHABLE, most=1),
    function("gc_ref_update_array", What.COMPACTION, Reason.UNREACHABLE, most=1),
    function("gc_update_tbl_refs", What.COMPACTION, Reason.UNREACHABLE, most=1),
    function("gc_update_table_refs", What.COMPACTION, Reason.UNREACHABLE, most=1),
    function("gc_ref_update_method_entry", What.COMPACTION, METHODS, most=7),
    function("gc_ref_update_imemo", What.COMPACTION, PARSING, most=7),
    function("update_const_table", What.COMPACTION, Reason.UNREACHABLE, most=1),
    function("gc_update_object_references", What.COMPACTION, FILES_OPEN, most=6),
    function("gc_ref_update", What.COMPACTION, Reason.DEBUGGING, most=1),
    *functions(What.WEAK, "wmap_compact wmap_mark wmap_free wmap_allocate wmap_aset wmap_lookup wmap_aref "
                          "cached_object_id"),
    function("wmap_free_map", What.WEAK, ONE_MAP),
    function("wmap_live_p", What.WEAK, Reason.DEBUGGING, most=2),
    function("wmap_final_func", What.WEAK, ONE_KEY, most=6),
    function("wmap_finalize", What.WEAK, Reason.UNREACHABLE, most=1),
    function("wmap_aset_update", What.WEAK, ONE_KEY, most=3),
    function("id2ref", What.WEAK, Reason.MISUSE, most=9),
    function("rb_find_object_id", What.WEAK, SPECIAL, most=2),
    *functions(What.CYCLE, "gc_marks_start gc_marks_step gc_marks_rest gc_marks_continue"),
    function("gc_marks_finish", What.CYCLE, Reason.SIZE, most=5),
    function("gc_start", What.CYCLE, PROFILE, most=1),
    function("gc_start_internal", What.CYCLE, UNUSED, most=1),
), is_whole=False)

YOUNG_BLOCKS = Source("transient_heap.c", (
    *functions(What.BIRTH, "rb_transient_heap_alloc transient_heap_allocatable_header "
                           "transient_heap_allocatable_block Init_TransientHeap reset_block "
                           "connect_to_free_blocks connect_to_using_blocks append_to_marked_blocks"),
    function("transient_heap_block_alloc", What.BIRTH, Reason.REFUSED, most=1),
    *functions(What.MARK, "rb_transient_heap_mark ptr_to_alloc_header alloc_header alloc_header_to_block "
                          "rb_transient_heap_start_marking rb_transient_heap_finish_marking clear_marked_index "
                          "blocks_clear_marked_index"),
    function("transient_heap_ptr", What.MARK, Reason.UNREACHABLE, most=1),
    *functions(What.AGES, "rb_transient_heap_promote"),
    function("transient_heap_promote_add", What.AGES, Reason.SIZE, most=5),
    *functions(What.COPY, "transient_heap_evacuate transient_heap_reset transient_heap_update_status"),
    function("transient_heap_block_evacuate", What.COPY, Reason.UNREACHABLE, most=2),
    function("rb_transient_heap_evacuate", What.COPY, Reason.THREADS),
    *functions(What.COMPACTION, "transient_heap_block_update_refs transient_heap_blocks_update_refs "
                                "rb_transient_heap_update_references"),
    *functions(What.HELP, "transient_heap_get transient_heap_verify"),
), is_whole=False)

RUBY_PLACES = Plan("ruby", (COLLECTOR, YOUNG_BLOCKS,))
