// Answers scripts by the collector of Go.
//
//	go build -o go adapter.go heap.go holders.go object.go    (Debian: golang-go)
//	GOGC=1 GODEBUG=clobberfree=1 go [always] [LITTER]
//
// GODEBUG has what stresses: clobberfree=1 poisons what is freed, gccheckmark=1 looks whether all roots were scanned,
// gcstoptheworld=1 has no command within a cycle. With GOMAXPROCS=2 no processor does nothing but mark.
//
// After each command LITTER bytes are allocated and dropped (0), so that the collector comes by itself. With "always" a
// goroutine asks for one collection after the other, and each command waits a little, so that cycles have many. Some
// wait in a loop that calls nothing: it is stopped anywhere, and then each word of its frame may be a pointer.
//
// A list that is long to mark makes the slots black before what they name. Without it no missing barrier was found:
// each of a few objects was marked before the next command came.
//
// Cycles are those of runtime.MemStats. Whether one is under way is known with "always": it is as long as the goroutine
// waits for it, which includes its sweep. Which phase it is in isn't known.
package main

import (
	"bufio"
	"fmt"
	"os"
	"runtime"
	"runtime/debug"
	"strconv"
	"strings"
	"sync/atomic"
	"time"
)

const (
	pause = 20 * time.Microsecond
	// A loop of so many turns takes about as long.
	turns    = 20_000
	loopTurn = 4

	// It is never reached, but reckoned with.
	largeMemory = 1 << 30
	// So many objects take longer to mark than some dozens of commands do.
	ballastLength = 100_000
)

// What a line "config" begins anew.
type run struct {
	heap         *heap
	cyclesBefore uint32
	within       uint64
}

func newRun(ballast *object) *run {
	debug.SetMemoryLimit(largeMemory)
	debug.SetGCPercent(1)
	return &run{heap: newHeap(ballast), cyclesBefore: cycles()}
}

func cycles() uint32 {
	var seen runtime.MemStats
	runtime.ReadMemStats(&seen)
	return seen.NumGC
}

// The collector, as the command line asks for it.
var (
	isAlways   bool
	litter     int
	isUnderWay atomic.Bool
	finished   atomic.Uint64
	dropped    []byte
	steps      int
	looped     int
)

func collectAlways() {
	for {
		isUnderWay.Store(true)
		runtime.GC()
		isUnderWay.Store(false)
		finished.Add(1)
	}
}

// quantum brings the cycle that is under way to its end. If there is none, a whole one runs.
func quantum() {
	if !isAlways && steps%2 == 0 {
		runtime.GC()
	} else if !isAlways {
		debug.FreeOSMemory()
	}
	for before := finished.Load(); isAlways && finished.Load() == before; {
		time.Sleep(pause)
	}
}

func step() {
	if litter > 0 {
		dropped = make([]byte, litter)
	}
	if steps++; steps%loopTurn == 0 {
		loop()
	} else if isAlways {
		time.Sleep(pause)
	}
}

func loop() {
	for i := 0; i < turns; i++ {
		looped ^= i
	}
}

func (r *run) control(word string) string {
	if word == "quantum" {
		quantum()
	}
	said := fmt.Sprint("cycles ", cycles()-r.cyclesBefore)
	if isAlways {
		said += fmt.Sprint(" within ", r.within)
	}
	return said
}

func (r *run) answer(words []string) string {
	if words[0] == "*" {
		return r.control(words[1])
	}
	if isUnderWay.Load() {
		r.within++
	}
	defer step()
	return r.heap.command(words)
}

func main() {
	for _, word := range os.Args[1:] {
		isAlways = isAlways || word == "always"
		if bytes, err := strconv.Atoi(word); err == nil {
			litter = bytes
		}
	}
	if isAlways {
		go collectAlways()
	}
	current := newRun(list(ballastLength))
	for in := bufio.NewScanner(os.Stdin); in.Scan(); {
		words := strings.Fields(in.Text())
		if words[0] == "config" {
			current = newRun(current.heap.ballast)
		} else {
			fmt.Println(current.answer(words))
		}
	}
}
