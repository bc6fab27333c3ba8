"""The places of Go's collector, and why some of them are never run."""
from __future__ import annotations

from faults.go_heap_places import HEAP
from faults.go_reasons import (
    CGO, CHECK, CHECKMARK, COMPILED, CONSTANT, DEAD_GOROUTINE, DUMP, ENCRYPTION, ENVIRONMENT, ERRORS, FAILING,
    FORCED_SWEEP, INTERFACES, LIMIT, MANY_POINTERS, MANY_SPANS, NUMBERS, OTHER_OBJECTS, PLUGINS, PROCESSORS,
    REFLECTION, SAME, SANITIZERS, SELF, SMALL_GOAL, STANDING, STARTED, SWEPT, SWITCHED_OFF, TESTS, TWO_MINUTES)
from faults.places import Plan, Reason, Source, Way, What, function, functions

MGC = Source("runtime/mgc.go", (
    *functions(What.CYCLE, "gcenable setGCPhase GC gcWaitOnMark gcResetMarkState"),
    *functions(What.MARK, "gcBgMarkStartWorkers gcBgMarkPrepare gcMarkWorkAvailable"),
    *functions(What.HELP, "sync_runtime_registerPoolCleanup"),
    function("gcinit", What.CYCLE, CHECK, most=1),
    function("pollFractionalWorkerExit", What.PACE, Reason.TIMING, most=1),
    function("gcTrigger.test", What.PACE, SWITCHED_OFF, Reason.UNREACHABLE, most=2),
    function("gcStart", What.CYCLE, CHECK, Reason.DEBUGGING, FORCED_SWEEP, PROCESSORS, most=6),
    function("gcMarkDone", What.CYCLE, Reason.DEBUGGING, Reason.TIMING, most=10),
    function("gcMarkTermination", What.CYCLE, CHECK, Reason.DEBUGGING, CONSTANT, most=38),
    function("gcBgMarkWorker", What.MARK, CHECK, Reason.TIMING, most=9),
    function("gcMark", What.CYCLE, CHECK, Reason.DEBUGGING, Reason.UNREACHABLE, most=16),
    function("gcSweep", What.SWEEP, CHECK, FORCED_SWEEP, most=11),
    function("boring_registerCache", What.HELP, ENCRYPTION),
    function("clearpools", What.HELP, ENCRYPTION, most=1),
    function("itoaDiv", What.HELP, Reason.DEBUGGING),
    function("fmtNSAsMS", What.HELP, Reason.DEBUGGING),
    function("gcTestMoveStackOnNextCall", What.HELP, TESTS),
    function("gcTestIsReachable", What.HELP, TESTS),
    function("gcTestPointerClass", What.HELP, TESTS),
))

MGCMARK = Source("runtime/mgcmark.go", (
    *functions(What.ROOTS, "gcMarkRootPrepare gcMarkTinyAllocs"),
    *functions(What.DEATH, "markrootFreeGStacks"),
    *functions(What.PACE, "gcWakeAllAssists gcFlushBgCredit"),
    *functions(What.MARK, "scanblock"),
    function("gcMarkRootCheck", What.ROOTS, CHECK, most=6),
    function("markroot", What.ROOTS, CHECK, SELF, most=7),
    function("markrootBlock", What.ROOTS, CHECK, PLUGINS, most=2),
    function("markrootSpans", What.ROOTS, CHECK, most=4),
    function("gcAssistAlloc", What.PACE, Reason.DEBUGGING, Reason.TIMING, most=7),
    function("gcAssistAlloc1", What.PACE, CHECK, Reason.TIMING, most=5),
    function("gcParkAssist", What.PACE, Reason.TIMING, most=1),
    function("scanstack", What.ROOTS, CHECK, Reason.DEBUGGING, DEAD_GOROUTINE, Reason.TIMING, most=23),
    function("scanframeworker", What.ROOTS, Reason.DEBUGGING, most=3),
    function("gcDrain", What.MARK, CHECK, Reason.TIMING, most=1),
    function("gcDrainN", What.MARK, CHECK, Reason.TIMING, most=1),
    function("scanobject", What.MARK, CHECK, Reason.TIMING, most=2),
    function("scanConservative", What.ROOTS, Reason.DEBUGGING, Reason.TIMING, most=29),
    function("shade", What.BARRIER, STANDING),
    function("greyobject", What.MARK, CHECK, CHECKMARK, most=8),
    function("gcDumpObject", What.HELP, CHECK),
    function("gcmarknewobject", What.BIRTH, CHECK, most=1),
))

MGCSWEEP = Source("runtime/mgcsweep.go", (
    *functions(What.SWEEP, "sweepClass.load sweepClass.update sweepClass.clear sweepClass.split "
                           "mheap.nextSpanForSweep activeSweep.begin activeSweep.markDrained activeSweep.sweepers "
                           "activeSweep.isDone activeSweep.reset bgsweep isSweepDone"),
    *functions(What.DEATH, "clobberfree"),
    *functions(What.PACE, "gcPaceSweeper"),
    function("activeSweep.end", What.SWEEP, CHECK, Reason.DEBUGGING, Reason.UNREACHABLE, most=5),
    function("finishsweep_m", What.SWEEP, CHECK, STARTED, most=2),
    function("sweepLocker.tryAcquire", What.SWEEP, CHECK, Reason.TIMING, most=2),
    function("sweepone", What.SWEEP, CHECK, Reason.DEBUGGING, SWEPT, most=10),
    function("mspan.ensureSwept", What.SWEEP, CHECK, Reason.TIMING, most=5),
    function("sweepLocked.sweep", What.SWEEP, CHECK, Reason.DEBUGGING, SANITIZERS, TESTS, most=21),
    function("mspan.reportZombies", What.HELP, CHECK),
    function("deductSweepCredit", What.PACE, Reason.DEBUGGING, Reason.TIMING, most=3),
))

MGCWORK = Source("runtime/mgcwork.go", (
    *functions(What.GREY, "gcWork.init gcWork.putFast gcWork.tryGet gcWork.tryGetFast gcWork.dispose gcWork.balance "
                          "gcWork.empty putempty putfull trygetfull handoff freeSomeWbufs"),
    function("init", What.GREY, CHECK, most=1),
    function("gcWork.put", What.GREY, Reason.TIMING),
    function("gcWork.putBatch", What.GREY, Reason.TIMING),
    function("workbuf.checknonempty", What.GREY, CHECK, most=1),
    function("workbuf.checkempty", What.GREY, CHECK, most=1),
    function("getempty", What.GREY, Reason.REFUSED, most=1),
    function("prepareFreeWorkbufs", What.GREY, CHECK, most=1),
))

MWBBUF = Source("runtime/mwbbuf.go", (
    *functions(What.BARRIER, "wbBuf.putFast"),
    function("wbBuf.reset", What.BARRIER, CGO, CONSTANT, CHECK, most=3),
    function("wbBuf.discard", What.BARRIER, FAILING),
    function("wbBuf.empty", What.BARRIER, Reason.DEAD),
    function("wbBufFlush", What.BARRIER, CGO, FAILING, most=6),
    function("wbBufFlush1", What.BARRIER, STANDING, most=1),
))

MBARRIER = Source("runtime/mbarrier.go", (
    *functions(What.STORE, "typedmemclr memclrHasPointers"),
    function("typedmemmove", What.STORE, CGO, SAME, most=2),
    function("reflect_typedmemmove", What.STORE, SANITIZERS, most=6),
    function("reflectlite_typedmemmove", What.STORE, ERRORS),
    function("reflect_typedmemmovepartial", What.STORE, Reason.DEAD),
    function("reflectcallmove", What.STORE, REFLECTION, Reason.TIMING, most=1),
    function("typedslicecopy", What.STORE, SANITIZERS, CGO, SAME, most=10),
    function("reflect_typedslicecopy", What.STORE, REFLECTION, most=1),
    function("reflect_typedmemclr", What.STORE, REFLECTION),
    function("reflect_typedmemclrpartial", What.STORE, Reason.TIMING),
))

MFINAL = Source("runtime/mfinal.go", (
    *functions(What.FINALIZER, "wakefing createfing"),
    function("queuefinalizer", What.FINALIZER, CHECK, most=2),
    function("iterate_finq", What.FINALIZER, DUMP),
    function("runfinq", What.FINALIZER, CHECK, SANITIZERS, INTERFACES, Reason.PLATFORM, most=5),
    function("SetFinalizer", What.FINALIZER, Reason.MISUSE, OTHER_OBJECTS, Reason.DEBUGGING, most=24),
    function("KeepAlive", What.FINALIZER, COMPILED),
))

MCENTRAL = Source("runtime/mcentral.go", (
    *functions(What.BIRTH, "mcentral.init mcentral.partialUnswept mcentral.partialSwept mcentral.fullUnswept "
                           "mcentral.fullSwept"),
    function("mcentral.cacheSpan", What.BIRTH, CHECK, Reason.DEBUGGING, Reason.REFUSED, SWEPT, most=18),
    function("mcentral.uncacheSpan", What.BIRTH, CHECK, most=1),
    function("mcentral.grow", What.BIRTH, Reason.REFUSED, most=1),
))

MCACHE = Source("runtime/mcache.go", (
    *functions(What.BIRTH, "gclinkptr.ptr allocmcache getMCache"),
    *functions(What.SWEEP, "mcache.releaseAll"),
    function("freemcache", What.BIRTH, PROCESSORS),
    function("mcache.refill", What.BIRTH, CHECK, Reason.REFUSED, most=4),
    function("mcache.allocLarge", What.BIRTH, CHECK, Reason.REFUSED, most=2),
    function("mcache.prepareForSweep", What.SWEEP, CHECK, most=2),
))

MGCPACER = Source("runtime/mgcpacer.go", (
    *functions(What.PACE, "gcControllerState.init gcControllerState.addGlobals gcControllerState.heapGoal "
                          "gcControllerState.commit gcControllerState.setMemoryLimit setMemoryLimit "
                          "gcControllerState.needIdleMarkWorker"),
    function("init", What.PACE, CHECK, most=2),
    function("gcControllerState.startCycle", What.PACE, Reason.DEBUGGING, TWO_MINUTES, most=10),
    function("gcControllerState.revise", What.PACE, SWITCHED_OFF, most=1),
    function("gcControllerState.endCycle", What.PACE, NUMBERS, Reason.DEBUGGING, most=10),
    function("gcControllerState.enlistWorker", What.PACE, PROCESSORS, Reason.TIMING, most=2),
    function("gcControllerState.findRunnableGCWorker", What.PACE, CHECK, Reason.DEBUGGING, most=2),
    function("gcControllerState.resetLive", What.PACE, Reason.DEBUGGING, most=1),
    function("gcControllerState.markWorkerStop", What.PACE, CHECK, most=1),
    function("gcControllerState.update", What.PACE, Reason.DEBUGGING, most=1),
    function("gcControllerState.addScannableStack", What.PACE, PROCESSORS, most=2),
    function("gcControllerState.heapGoalInternal", What.PACE, LIMIT, most=1),
    function("gcControllerState.memoryLimitHeapGoal", What.PACE, LIMIT, most=4),
    function("gcControllerState.trigger", What.PACE, CHECK, LIMIT, SMALL_GOAL, most=5),
    function("gcControllerState.setGCPercent", What.PACE, SWITCHED_OFF, most=1),
    function("setGCPercent", What.PACE, SWITCHED_OFF, most=1),
    function("readGOGC", What.PACE, SWITCHED_OFF, most=2),
    function("readGOMEMLIMIT", What.PACE, ENVIRONMENT, most=5),
    function("piController.next", What.PACE, NUMBERS, Reason.TIMING, most=7),
    function("piController.reset", What.PACE, NUMBERS),
    function("gcControllerState.addIdleMarkWorker", What.PACE, CHECK, Reason.TIMING, most=3),
    function("gcControllerState.removeIdleMarkWorker", What.PACE, CHECK, most=2),
    function("gcControllerState.setMaxIdleMarkWorkers", What.PACE, CHECK, most=2),
    function("gcControllerCommit", What.PACE, Reason.DEBUGGING, Reason.TIMING, most=1),
))

MGCLIMIT = Source("runtime/mgclimit.go", (
    *functions(What.PACE, "gcCPULimiterState.limiting gcCPULimiterState.needUpdate gcCPULimiterState.addAssistTime "
                          "gcCPULimiterState.addIdleTime gcCPULimiterState.tryLock makeLimiterEventStamp "
                          "limiterEventStamp.duration limiterEventStamp.typ limiterEvent.consume"),
    function("gcCPULimiterState.startGCTransition", What.PACE, CHECK, most=2),
    function("gcCPULimiterState.finishGCTransition", What.PACE, CHECK, most=1),
    function("gcCPULimiterState.update", What.PACE, CHECK, most=1),
    function("gcCPULimiterState.updateLocked", What.PACE, CHECK, Reason.TIMING, most=2),
    function("gcCPULimiterState.accumulate", What.PACE, Reason.TIMING),
    function("gcCPULimiterState.unlock", What.PACE, CHECK, most=1),
    function("gcCPULimiterState.resetCapacity", What.PACE, CHECK, PROCESSORS, most=4),
    function("limiterEvent.start", What.PACE, Reason.TIMING, most=1),
    function("limiterEvent.stop", What.PACE, CHECK, most=3),
))

MGCSTACK = Source("runtime/mgcstack.go", (
    *functions(What.ROOTS, "stackObject.setRecord stackScanState.getPtr stackScanState.buildIndex binarySearchTree "
                           "stackScanState.findObject"),
    function("init", What.ROOTS, CHECK, most=2),
    function("stackScanState.putPtr", What.ROOTS, CHECK, MANY_POINTERS, most=8),
    function("stackScanState.addObject", What.ROOTS, CHECK, most=1),
))

MCHECKMARK = Source("runtime/mcheckmark.go", (
    function("startCheckmarks", What.HELP, Reason.REFUSED, most=1),
    function("endCheckmarks", What.HELP, CHECK, most=1),
    function("setCheckmark", What.HELP, CHECKMARK),
))

MSPANSET = Source("runtime/mspanset.go", (
    *functions(What.HELP, "spanSetBlockAlloc.alloc spanSetBlockAlloc.free makeHeadTailIndex headTailIndex.head "
                          "headTailIndex.tail headTailIndex.split headTailIndex.load headTailIndex.cas "
                          "headTailIndex.reset"),
    function("spanSet.push", What.HELP, MANY_SPANS, most=1),
    function("spanSet.pop", What.HELP, Reason.TIMING, most=2),
    function("spanSet.reset", What.HELP, CHECK, most=4),
    function("headTailIndex.incHead", What.HELP, Reason.DEAD),
    function("headTailIndex.decHead", What.HELP, Reason.DEAD),
    function("headTailIndex.incTail", What.HELP, CHECK, most=2),
))

ATOMIC_POINTER = Source("runtime/atomic_pointer.go", (
    *functions(What.STORE, "atomicstorep sync_atomic_StorePointer sync_atomic_SwapPointer "
                           "sync_atomic_CompareAndSwapPointer"),
    function("atomicwb", What.BARRIER, Reason.TIMING, most=1),
))
GO_PLACES = Plan("go", (
    MGC, MGCMARK, MGCSWEEP, MGCWORK, MWBBUF, MBARRIER, MFINAL, MCENTRAL, MCACHE, MGCPACER, MGCLIMIT, MGCSTACK,
    MCHECKMARK, MSPANSET, ATOMIC_POINTER, *HEAP), way=Way.GO)
