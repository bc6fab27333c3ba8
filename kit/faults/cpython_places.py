"""The places of CPython's collector, and why some of them are never run."""
from __future__ import annotations

from faults.places import Place, Plan, Reason, Source, What, function, functions

LOOKING = "It serves programs that look at the collector or steer it, and not the collector."
LEGACY = "A type written in C may have such a finalizer. None of CPython's own has one."
START = "It fails as the program starts if memory is refused."
END = "What it writes as the program ends is asked for by debugging alone."
CALLBACKS = "It calls what programs ask to be called at each collection."
FINDS = "The type isn't among those that keep references of the adapter."

COLLECTOR = Source("Modules/gcmodule.c", (
    *functions(What.HELP, "get_gc_state gc_is_collecting gc_clear_collecting gc_get_refs gc_set_refs gc_reset_refs "
                          "gc_decref gc_list_init gc_list_is_empty gc_list_append gc_list_move gc_list_merge "
                          "gc_list_size gc_list_clear_collecting _PyGC_InitState PyInit_gc"),
    function("_PyGC_Init", What.HELP, START),
    function("gcmodule_exec", What.HELP, START),
    function("gc_list_remove", What.HELP, Reason.MISUSE),
    *functions(What.MARK, "update_refs visit_decref subtract_refs visit_reachable move_unreachable deduce_unreachable "
                          "clear_unreachable_mask"),
    *functions(What.AGES, "untrack_tuples untrack_dicts gc_collect_generations gc_collect_with_callback"),
    function("gc_collect_main", What.CYCLE, Reason.DEBUGGING, Reason.REFUSED),
    function("invoke_gc_callback", What.CYCLE, CALLBACKS),
    function("gc_collect_impl", What.CYCLE, Reason.MISUSE),
    function("PyGC_Collect", What.CYCLE, Reason.REFUSED),
    function("_PyGC_CollectNoFail", What.CYCLE, Reason.UNREACHABLE),
    *functions(What.FINALIZER, "finalize_garbage handle_resurrected_objects has_legacy_finalizer"),
    function("move_legacy_finalizers", What.FINALIZER, LEGACY),
    function("move_legacy_finalizer_reachable", What.FINALIZER, LEGACY),
    function("visit_move", What.FINALIZER, LEGACY),
    function("handle_legacy_finalizers", What.FINALIZER, LEGACY),
    function("handle_weakrefs", What.WEAK, "A callback of the adapter doesn't fail."),
    function("delete_garbage", What.SWEEP, Reason.DEBUGGING, Reason.MISUSE),
    *functions(What.SWEEP, "clear_freelists"),
    *functions(What.BIRTH, "_PyObject_GC_Link PyObject_GC_UnTrack"),
    function("gc_alloc", What.BIRTH, Reason.REFUSED),
    function("_PyObject_GC_New", What.BIRTH, Reason.REFUSED),
    function("_PyObject_GC_NewVar", What.BIRTH, Reason.REFUSED),
    function("_PyObject_GC_Resize", What.BIRTH, Reason.REFUSED),
    function("PyObject_GC_Track", What.BIRTH, Reason.MISUSE),
    function("PyObject_GC_Del", What.DEATH, Reason.MISUSE),
    *functions(What.HELP, "PyObject_IS_GC gc_freeze_impl"),
    function("gc_get_stats_impl", What.HELP, Reason.REFUSED),
    function("gc_set_threshold", What.PACE, Reason.MISUSE),
    *(function(name, What.HELP, LOOKING) for name in (
        "PyObject_GC_IsFinalized PyObject_GC_IsTracked PyGC_IsEnabled PyGC_Disable PyGC_Enable "
        "gc_get_freeze_count_impl gc_unfreeze_impl gc_is_finalized gc_is_tracked gc_get_objects_impl gc_get_referents "
        "referentsvisit gc_get_referrers gc_referrers_for referrersvisit gc_get_count_impl gc_get_threshold_impl "
        "gc_get_debug_impl gc_set_debug_impl gc_isenabled_impl gc_disable_impl gc_enable_impl append_objects").split()),
    *(function(name, What.HELP, Reason.DEBUGGING) for name in (
        "debug_cycle show_stats_each_generations _PyGC_Dump").split()),
    *(function(name, What.HELP, END) for name in "_PyGC_DumpShutdownStats _PyGC_Fini gc_fini_untrack".split()),
))


def marking(file: str, names: str, *others: Place) -> Source:
    """A file of which what leads the collector through objects is counted."""
    return Source(file, (*functions(What.MARK, names), *others), is_whole=False)


OBJECTS = (
    marking("Objects/cellobject.c", "cell_traverse"),
    marking("Objects/classobject.c", "method_traverse", function("instancemethod_traverse", What.MARK, FINDS)),
    marking("Objects/descrobject.c", "descr_traverse mappingproxy_traverse property_traverse wrapper_traverse"),
    marking("Objects/dictobject.c", "dict_traverse dictiter_traverse dictview_traverse "
                                    "_PyObject_VisitInstanceAttributes"),
    marking("Objects/enumobject.c", "enum_traverse reversed_traverse"),
    marking("Objects/exceptions.c", "AttributeError_traverse BaseExceptionGroup_traverse BaseException_traverse "
                                    "ImportError_traverse NameError_traverse OSError_traverse StopIteration_traverse "
                                    "SyntaxError_traverse SystemExit_traverse",
            function("UnicodeError_traverse", What.MARK, "Its references are to texts alone.")),
    marking("Objects/frameobject.c", "", function("frame_traverse", What.MARK, "The frame of a suspended generator is "
                                                  "seldom an object of its own.")),
    marking("Objects/funcobject.c", "cm_traverse func_traverse sm_traverse"),
    marking("Objects/genericaliasobject.c", "ga_traverse", function("ga_iter_traverse", What.MARK, FINDS)),
    marking("Objects/genobject.c", "async_gen_traverse exc_state_traverse",
            function("gen_traverse", What.MARK, "No visit of the collector's own fails."),
            *(function(name, What.MARK, FINDS) for name in ("async_gen_asend_traverse", "async_gen_athrow_traverse",
                                                            "async_gen_wrapped_val_traverse", "coro_wrapper_traverse"))),
    marking("Objects/iterobject.c", "calliter_traverse iter_traverse",
            function("anextawaitable_traverse", What.MARK, FINDS)),
    marking("Objects/listobject.c", "list_traverse listiter_traverse listreviter_traverse"),
    marking("Objects/methodobject.c", "meth_traverse"),
    marking("Objects/moduleobject.c", "", function("module_traverse", What.MARK, "No visit of the collector's own fails.")),
    marking("Objects/namespaceobject.c", "namespace_traverse"),
    marking("Objects/odictobject.c", "odict_traverse odictiter_traverse"),
    marking("Objects/setobject.c", "set_traverse setiter_traverse"),
    marking("Objects/sliceobject.c", "slice_traverse"),
    marking("Objects/structseq.c", "structseq_traverse"),
    marking("Objects/tupleobject.c", "tupletraverse tupleiter_traverse"),
    marking("Objects/typeobject.c", "super_traverse", *(
        function(name, What.MARK, "No visit of the collector's own fails, and types are of the heap.")
        for name in ("subtype_traverse", "traverse_slots", "type_traverse"))),
    marking("Objects/unionobject.c", "union_traverse"),
    marking("Objects/weakrefobject.c", "gc_traverse"),
    marking("Python/bltinmodule.c", "filter_traverse map_traverse zip_traverse"),
    marking("Python/context.c", "context_tp_traverse contextvar_tp_traverse token_tp_traverse"),
    marking("Python/frame.c", "_PyFrame_Traverse"),
    marking("Python/hamt.c", "hamt_node_array_traverse hamt_node_bitmap_traverse hamt_tp_traverse",
            function("hamt_node_collision_traverse", What.MARK, "No two variables of a context have one hash."),
            function("hamt_baseiter_tp_traverse", What.MARK, FINDS)),
    marking("Python/traceback.c", "tb_traverse"),
    marking("Modules/_collectionsmodule.c", "deque_traverse dequeiter_traverse defdict_traverse tuplegetter_traverse"),
    marking("Modules/_functoolsmodule.c", "partial_traverse lru_cache_tp_traverse",
            function("keyobject_traverse", What.MARK, FINDS)),
    marking("Modules/_operator.c", "itemgetter_traverse methodcaller_traverse",
            function("attrgetter_traverse", What.MARK, "Its references are to texts alone.")),
)

CPYTHON_PLACES = Plan("cpython", (COLLECTOR, *OBJECTS))
