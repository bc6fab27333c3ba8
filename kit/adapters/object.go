package main

import (
	"sync/atomic"
	"unsafe"
)

// A slice of so many references is copied at times, and no larger one.
const mostCopied = 256

// An object of a script. Two references lie at its end, and the others in a slice, but for one that may have a holder.
// They are stored in several ways, by their number: each has write barriers of its own.
type object struct {
	references uint64
	numbers    []uint64
	rest       []*object
	holder     holder
	guard      *guard
	ends       [2]*object
}

func made(references, numbers uint64) *object {
	made := &object{references: references, numbers: make([]uint64, numbers)}
	if references > 2 {
		made.rest = make([]*object, references-2)
		made.holder = newHolder()
		made.guard = newGuard()
	}
	return made
}

func (o *object) load(reference uint64) *object {
	if reference < 2 {
		return o.ends[reference]
	}
	if reference == 2 && o.holder != nil {
		return o.holder.load()
	}
	return o.rest[reference-2]
}

func (o *object) store(reference uint64, value *object) {
	if reference < 2 {
		o.ends[reference] = value
		return
	}
	at := reference - 2
	switch place := (*unsafe.Pointer)(unsafe.Pointer(&o.rest[at])); {
	case at == 0 && o.holder != nil:
		o.holder.store(value)
	case at%4 == 1:
		copy(o.rest[at:], []*object{value})
	case at%8 == 2:
		atomic.SwapPointer(place, unsafe.Pointer(value))
	case at%8 == 6:
		atomic.CompareAndSwapPointer(place, unsafe.Pointer(o.rest[at]), unsafe.Pointer(value))
	case at%4 == 3 && len(o.rest) <= mostCopied:
		o.rest = append([]*object(nil), o.rest...)
		o.rest[at] = value
	default:
		o.rest[at] = value
	}
}

// list is what takes long to mark. Nothing leads to it but the word behind the slots, and the collector goes depth
// first, from the last word to the first. So the slots are black for long before it looks into what they name.
func list(length int) *object {
	var head *object
	for ; length > 0; length-- {
		head = &object{ends: [2]*object{head}}
	}
	return head
}
