package main

import (
	"reflect"
	"runtime"
	"sync"
	"sync/atomic"
)

// What holds the third reference of some objects, instead of a word of theirs. Each kind is written, moved and marked
// by code of its own.
type holder interface {
	load() *object
	store(value *object)
}

// Of so many objects one has a holder, and one a guard.
const (
	holderTurn = 3
	guardTurn  = 5
)

const (
	mostKeepers = 16
	// So many goroutines, or calls that are put off, are more than the runtime keeps for one processor.
	crowdSize = 400
	mostVast  = 4
	// An array of so many words is described by a program, and is marked in parts.
	vastLength = 17_000
)

// What goes with the scripts since the last line "config".
var (
	madeCount int
	keepers   []*keeper
	vastCount int
)

func forgetHolders() {
	for _, each := range keepers {
		close(each.puts)
	}
	keepers, vastCount = nil, 0
	crowd()
	large := new([200_000]byte)
	runtime.SetFinalizer(large, func(ended *[200_000]byte) { runtime.KeepAlive(ended) })
}

// crowd lets many goroutines wait and end at once, so that the next cycle frees what the runtime has kept for them.
func crowd() {
	var started, ended sync.WaitGroup
	started.Add(crowdSize)
	ended.Add(crowdSize)
	start := make(chan bool)
	for i := 0; i < crowdSize; i++ {
		defer ended.Wait()
		go func() {
			started.Done()
			<-start
			ended.Done()
		}()
	}
	started.Wait()
	close(start)
}

// newHolder gives one object in some a holder, of each kind in turn.
func newHolder() holder {
	madeCount++
	if madeCount%holderTurn != 0 {
		return nil
	}
	switch turn := madeCount / holderTurn; turn % 7 {
	case 0:
		return newMapped()
	case 1:
		return newSent()
	case 2:
		return newEnclosed()
	case 3:
		return &boxed{}
	case 4:
		return newReflected()
	case 5:
		return newVast()
	default:
		return newKeeper(turn / 7)
	}
}

// Entries of a map are moved as it grows, and cleared as they go.
type mapped struct {
	entries map[any][2]*object
	last    int
}

func newMapped() *mapped {
	return &mapped{entries: map[any][2]*object{}}
}

func (m *mapped) load() *object {
	return m.entries[m.last][1]
}

func (m *mapped) store(value *object) {
	if m.last%32 == 31 {
		for key := range m.entries {
			delete(m.entries, key)
		}
	}
	m.entries[m.last] = [2]*object{}
	m.last++
	m.entries[m.last] = [2]*object{nil, value}
}

// A channel with one place.
type sent chan *object

func newSent() sent {
	made := make(sent, 1)
	made <- nil
	return made
}

func (s sent) load() *object {
	value := <-s
	s <- value
	return value
}

func (s sent) store(value *object) {
	<-s
	s <- value
}

// A variable that two functions share.
type enclosed struct {
	get func() *object
	set func(*object)
}

func newEnclosed() *enclosed {
	var held *object
	return &enclosed{func() *object { return held }, func(value *object) { held = value }}
}

func (e *enclosed) load() *object {
	return e.get()
}

func (e *enclosed) store(value *object) {
	e.set(value)
}

// What lies behind an interface is made anew by each store.
type boxed struct {
	pair any
}

func (b *boxed) load() *object {
	if b.pair == nil {
		return nil
	}
	return b.pair.([2]*object)[1]
}

func (b *boxed) store(value *object) {
	b.pair = [2]*object{nil, value}
}

// What is written and read by reflection, the last of four words.
type reflected struct {
	words [4]*object
	get   reflect.Value
}

func newReflected() *reflected {
	made := &reflected{}
	words := &made.words
	get := func([]reflect.Value) []reflect.Value { return []reflect.Value{reflect.ValueOf(words).Elem()} }
	made.get = reflect.MakeFunc(reflect.TypeOf(func() [4]*object { return *words }), get)
	return made
}

func (r *reflected) load() *object {
	return r.get.Call(nil)[0].Interface().([4]*object)[3]
}

func (r *reflected) store(value *object) {
	words := reflect.ValueOf(&r.words).Elem()
	words.Set(reflect.ValueOf([4]*object{value}))
	reflect.Copy(words.Slice(2, 3), reflect.ValueOf([]*object{value}))
	reflect.Swapper(r.words[:])(0, 3)
	words.Slice(0, 3).Index(2).Set(reflect.Zero(words.Type().Elem()))
}

// A large array, of which there are few.
type vast [vastLength]*object

func newVast() holder {
	if vastCount == mostVast {
		return nil
	}
	vastCount++
	return new(vast)
}

func (v *vast) load() *object {
	return v[vastLength-1]
}

func (v *vast) store(value *object) {
	v[vastLength-1] = value
}

// A goroutine that has a reference on its stack alone. It ends with the scripts: what is on a stack is kept, and so may
// lead to the object that it serves.
type keeper struct {
	puts, gets chan *object
}

func newKeeper(turn int) holder {
	if len(keepers) == mostKeepers {
		return nil
	}
	made := &keeper{make(chan *object), make(chan *object)}
	keepers = append(keepers, made)
	switch {
	case len(keepers) == 1:
		go made.serveLarge()
	case turn%2 == 0:
		go made.serveFailing()
	default:
		go made.serve()
	}
	return made
}

// serve waits at several depths, with calls that are put off in the heap and on the stack.
func (k *keeper) serve() {
	var held *object
	defer runtime.KeepAlive(&held)
	for i := 0; i < 2; i++ {
		defer runtime.KeepAlive(i)
	}
	for depth, isOpen := 0, true; isOpen; depth += 20 {
		held, isOpen = k.keep(depth%60, held)
	}
}

// serveFailing serves while the goroutine fails, and then lets it recover.
func (k *keeper) serveFailing() {
	defer func() { recover() }()
	defer k.serve()
	panic(k)
}

// serveLarge has the reference in a frame that is described by a program.
func (k *keeper) serveLarge() {
	var frame [vastLength]*object
	for isOpen := true; isOpen; {
		isOpen = k.keepIn(&frame)
	}
}

//go:noinline
func (k *keeper) keepIn(frame *[vastLength]*object) bool {
	value, isOpen := k.keep(60, frame[vastLength-1])
	frame[vastLength-1] = value
	return isOpen
}

// keep waits some frames deep until another reference is stored, so that the stack grows and shrinks.
func (k *keeper) keep(depth int, held *object) (*object, bool) {
	var frame [16]*object
	frame[depth%16] = held
	if depth > 0 {
		return k.keep(depth-1, frame[depth%16])
	}
	for {
		select {
		case value, isOpen := <-k.puts:
			return value, isOpen
		case k.gets <- held:
		}
	}
}

func (k *keeper) load() *object {
	return <-k.gets
}

func (k *keeper) store(value *object) {
	k.puts <- value
}

// A leaf with a finalizer, to which it has to be as it was.
type guard struct {
	told *[4]uint64
	sum  uint64
}

// What finalizers were last given is kept once more.
var lastEnded atomic.Pointer[guard]

// newGuard gives one object in some a guard, and takes some finalizers back and sets another.
func newGuard() *guard {
	if madeCount%guardTurn != 0 {
		return nil
	}
	number := uint64(madeCount)
	made := &guard{told: &[4]uint64{number, 0, 0, number}, sum: 2 * number}
	runtime.SetFinalizer(made, (*guard).end)
	if madeCount%2 == 0 {
		runtime.SetFinalizer(made, nil)
		runtime.SetFinalizer(made, func(any) {})
	}
	return made
}

func (g *guard) end() {
	if g.told[0]+g.told[3] != g.sum {
		panic("what a finalizer is given was freed")
	}
	lastEnded.Store(g)
}
