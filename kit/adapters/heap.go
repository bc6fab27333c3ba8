package main

import (
	"fmt"
	"strconv"
	"strings"
)

const (
	sessions   = 8
	slots      = 16
	mostFields = 216_000
)

// The reasons to refuse a command. Nothing was changed then.
const (
	tooMany  = "refused 7 too many sessions"
	ended    = "refused 6 ended"
	badSlot  = "refused 1 bad slot"
	null     = "refused 2 null"
	noField  = "refused 3 no field"
	tooLarge = "refused 4 too large"
	done     = "ok"
)

// Of each command what its words are: a slot of the session (s), one that has to name an object (o), a slot of the
// board (b), a reference (r) or a number (n) of that object, or anything else (-).
var forms = map[string]string{
	"new": "s--", "get": "sor", "put": "ors", "read": "on", "write": "on-", "copy": "ss",
	"clear": "s", "same": "ss", "shape": "o", "post": "bs", "take": "sb", "end": "",
}

// What scripts speak of, and behind the slots what takes long to mark. The slots of the board lie outside the heap.
type heap struct {
	roots    [sessions * slots]*object
	ballast  *object
	names    map[string]uint64
	hasEnded [sessions + 1]bool
}

var board [slots]*object

func newHeap(ballast *object) *heap {
	forget(board[:])
	forgetHolders()
	return &heap{ballast: ballast, names: map[string]uint64{}}
}

// sessionOf numbers names as they are first seen; all after the eighth are 8.
func (h *heap) sessionOf(name string) uint64 {
	session, isKnown := h.names[name]
	if !isKnown && len(h.names) < sessions {
		session = uint64(len(h.names))
		h.names[name] = session
	} else if !isKnown {
		session = sessions
	}
	return session
}

// findRoots turns the slots of a command into roots.
func findRoots(session uint64, form string, operands []uint64) bool {
	for i, letter := range form {
		if !strings.ContainsRune("sob", letter) {
			continue
		}
		if operands[i] >= slots {
			return false
		}
		if letter != 'b' {
			operands[i] += session * slots
		}
	}
	return true
}

// refusal is the first reason to refuse a command, or nothing.
func (h *heap) refusal(session uint64, form string, operands []uint64) string {
	if session == sessions {
		return tooMany
	}
	if h.hasEnded[session] {
		return ended
	}
	if !findRoots(session, form, operands) {
		return badSlot
	}
	owner, reference, number := strings.Index(form, "o"), strings.Index(form, "r"), strings.Index(form, "n")
	if owner < 0 {
		return ""
	}
	o := h.roots[operands[owner]]
	if o == nil {
		return null
	}
	if reference >= 0 && operands[reference] >= o.references {
		return noField
	}
	if number >= 0 && operands[number] >= uint64(len(o.numbers)) {
		return noField
	}
	return ""
}

func (h *heap) makeAt(root, references, numbers uint64) string {
	if references+numbers > mostFields {
		return tooLarge
	}
	h.roots[root] = made(references, numbers)
	return done
}

func (h *heap) end(session uint64) {
	h.hasEnded[session] = true
	forget(h.roots[session*slots:][:slots])
}

// forget is compiled to one call that clears all.
func forget(places []*object) {
	for i := range places {
		places[i] = nil
	}
}

// perform does a command whose slots are roots, and returns its reply.
func (h *heap) perform(session uint64, word string, operands []uint64) string {
	roots, a, b, c := &h.roots, operands[0], operands[1], operands[2]
	switch word {
	case "new":
		return h.makeAt(a, b, c)
	case "get":
		roots[a] = roots[b].load(c)
	case "put":
		roots[a].store(b, roots[c])
	case "read":
		return fmt.Sprint("number ", roots[a].numbers[b])
	case "write":
		roots[a].numbers[b] = c
	case "copy":
		roots[a] = roots[b]
	case "post":
		copy(board[a:], roots[b:b+1])
	case "take":
		copy(roots[a:a+1], board[b:])
	case "clear":
		roots[a] = nil
	case "same":
		if roots[a] == roots[b] {
			return "yes"
		}
		return "no"
	case "shape":
		return fmt.Sprint("shape ", roots[a].references, " ", len(roots[a].numbers))
	case "end":
		h.end(session)
	}
	return done
}

func (h *heap) command(words []string) string {
	operands := make([]uint64, 3)
	for i, word := range words[2:] {
		operands[i], _ = strconv.ParseUint(word, 10, 64)
	}
	session, form := h.sessionOf(words[0]), forms[words[1]]
	if why := h.refusal(session, form, operands); why != "" {
		return why
	}
	return h.perform(session, words[1], operands)
}
