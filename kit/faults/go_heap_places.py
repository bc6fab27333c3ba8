"""The places of Go's allocator, stacks and channels that serve the collector, and why some are never run."""
from __future__ import annotations

from faults.go_reasons import (
    ADDRESSES, ARENAS, CHECK, DATA, FAILED_FRAME, FINALIZER_TWICE, KEPT_ARRAYS, LARGE_STACK, LONG_PATTERNS,
    MARK_BITS, REFLECTION, SANITIZERS, SWEPT, TESTS, VALUES)
from faults.places import Reason, Source, What, function, functions

MHEAP = Source("runtime/mheap.go", (
    *functions(What.HELP, "mspan.base spanOfHeap spanOfUnchecked"),
    *functions(What.BIRTH, "mheap.alloc newAllocBits"),
    *functions(What.DEATH, "mheap.freeManual"),
    *functions(What.FINALIZER, "spanHasSpecials spanHasNoSpecials removefinalizer newSpecialsIter specialsIter.valid "
                               "specialsIter.next specialsIter.unlinkAndNext"),
    *functions(What.MARK, "gcBits.bytep gcBits.bitp"),
    *functions(What.GROWTH, "runtime_debug_freeOSMemory"),
    function("spanOf", What.HELP, Reason.PLATFORM, most=3),
    function("mheap.reclaim", What.SWEEP, Reason.DEBUGGING, SWEPT, most=4),
    function("mheap.reclaimChunk", What.SWEEP, SWEPT, Reason.DEBUGGING, most=9),
    function("mheap.allocManual", What.BIRTH, CHECK, most=1),
    function("mheap.allocNeedsZero", What.BIRTH, CHECK, ARENAS, Reason.TIMING, most=4),
    function("mheap.allocSpan", What.BIRTH, Reason.REFUSED, Reason.PLATFORM, Reason.TIMING, most=26),
    function("mheap.freeSpan", What.DEATH, SANITIZERS, most=6),
    function("mheap.freeSpanLocked", What.DEATH, CHECK, most=4),
    function("mheap.grow", What.GROWTH, Reason.REFUSED, ADDRESSES, most=10),
    function("addspecial", What.FINALIZER, CHECK, FINALIZER_TWICE, most=4),
    function("removespecial", What.FINALIZER, CHECK, most=1),
    function("addfinalizer", What.FINALIZER, FINALIZER_TWICE, most=4),
    function("freeSpecial", What.DEATH, CHECK, TESTS, most=4),
    function("gcBitsArena.tryAlloc", What.MARK, MARK_BITS, most=1),
    function("newMarkBits", What.MARK, Reason.REFUSED, Reason.TIMING, most=5),
    function("nextMarkBitArenaEpoch", What.MARK, MARK_BITS, most=4),
    function("newArenaMayUnlock", What.MARK, CHECK, Reason.PLATFORM, most=2),
    function("mheap.scavengeAll", What.GROWTH, Reason.DEBUGGING, most=1),
), is_whole=False)

MBITMAP = Source("runtime/mbitmap.go", (
    *functions(What.BIRTH, "mspan.allocBitsForIndex mspan.refillAllocCache mspan.isFree materializeGCProg "
                           "dematerializeGCProg"),
    *functions(What.MARK, "mspan.objIndex mspan.markBitsForIndex mspan.markBitsForBase markBits.isMarked "
                          "markBits.setMarked markBits.setMarkedNonAtomic markBits.advance heapBits.bits "
                          "heapBits.isPointer"),
    *functions(What.SWEEP, "mspan.countAlloc"),
    function("mspan.nextFreeIndex", What.BIRTH, CHECK, most=1),
    function("mspan.divideByElemSize", What.MARK, Reason.DEBUGGING, most=2),
    function("markBits.clearMarked", What.MARK, Reason.DEAD),
    function("heapBitsForAddr", What.MARK, CHECK, most=1),
    function("badPointer", What.MARK, CHECK),
    function("findObject", What.MARK, CHECK, most=4),
    function("heapBits.next", What.MARK, ARENAS, most=1),
    function("heapBits.nextArena", What.MARK, ARENAS),
    function("heapBits.forward", What.MARK, ARENAS, most=9),
    function("heapBits.forwardOrBoundary", What.MARK, ARENAS, most=1),
    function("bulkBarrierPreWrite", What.BARRIER, CHECK, DATA, Reason.TIMING, most=4),
    function("bulkBarrierPreWriteSrcOnly", What.BARRIER, CHECK, Reason.TIMING, most=2),
    function("bulkBarrierBitmap", What.BARRIER, Reason.TIMING, most=4),
    function("typeBitsBulkBarrier", What.BARRIER, CHECK, Reason.TIMING, most=7),
    function("heapBits.initSpan", What.BIRTH, CHECK, most=2),
    function("heapBitsSetType", What.BIRTH, CHECK, Reason.DEBUGGING, Reason.PLATFORM, ARENAS, LONG_PATTERNS, most=128),
    function("heapBitsSetTypeGCProg", What.BIRTH, CHECK, KEPT_ARRAYS, most=38),
    function("progToPointerMask", What.BIRTH, CHECK, most=1),
    function("runGCProg", What.BIRTH, KEPT_ARRAYS, LONG_PATTERNS, most=71),
), is_whole=False)

MALLOC = Source("runtime/malloc.go", (
    *functions(What.BIRTH, "nextFreeFast memclrNoHeapPointersChunked newobject reflect_unsafe_New"),
    function("mcache.nextFree", What.BIRTH, CHECK, most=5),
    function("mallocgc", What.BIRTH, CHECK, Reason.DEBUGGING, SANITIZERS, Reason.PLATFORM, most=30),
    function("newarray", What.BIRTH, CHECK, VALUES, most=2),
    function("reflect_unsafe_NewArray", What.BIRTH, REFLECTION),
), is_whole=False)

STACK = Source("runtime/stack.go", (
    *functions(What.GROWTH, "adjustdefers adjustpanics adjustsudogs findsghi isShrinkStackSafe"),
    *functions(What.DEATH, "freeStackSpans"),
    function("adjustpointer", What.GROWTH, Reason.DEBUGGING, most=2),
    function("adjustpointers", What.GROWTH, CHECK, Reason.DEBUGGING, Reason.TIMING, most=7),
    function("adjustframe", What.GROWTH, Reason.DEBUGGING, LARGE_STACK, FAILED_FRAME, most=12),
    function("adjustctxt", What.GROWTH, Reason.DEBUGGING, Reason.PLATFORM, most=6),
    function("syncadjustsudogs", What.GROWTH, Reason.TIMING, most=1),
    function("copystack", What.GROWTH, CHECK, Reason.DEBUGGING, most=6),
    function("shrinkstack", What.GROWTH, CHECK, Reason.DEBUGGING, most=6),
    function("getStackMap", What.ROOTS, CHECK, Reason.DEBUGGING, FAILED_FRAME, Reason.PLATFORM, Reason.TIMING, most=17),
    function("stackfree", What.DEATH, CHECK, Reason.DEBUGGING, SANITIZERS, Reason.TIMING, most=17),
), is_whole=False)

CHAN = Source("runtime/chan.go", (
    *functions(What.STORE, "sendDirect recvDirect"),
), is_whole=False)
HEAP = (MHEAP, MBITMAP, MALLOC, STACK, CHAN)
