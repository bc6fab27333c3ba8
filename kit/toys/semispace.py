#!/usr/bin/env python3
"""semispace.py < SCRIPT: a semispace copier that answers scripts, a toy to begin from with a collector of your own.

It answers each event by one line, as soon as it has read the event's line. So it speaks both protocols of the judge,
`run` and `live`. Its sessions get what every correct collector gives them; what controls are answered is its own. It
trusts the script to be in the grammar of the manual, as each script of the judge is.
"""
import sys

SESSIONS, SLOTS = 8, 16
PAGE_WORDS, MOST_FIELDS = 256, 216_000
NULL, HEADER = 0, 2
REFERENCE, NUMBER = 0, 1
# Of each command, which of its numbers is a slot of the session (s), a slot of the board (b), or another number (-).
FORMS = {"new": "s--", "get": "ss-", "put": "s-s", "read": "s-", "write": "s--", "copy": "ss", "clear": "s",
         "same": "ss", "shape": "s", "post": "bs", "take": "sb", "end": ""}


class Refused(Exception):
    """A command is refused, with the number and the words of its reason. Nothing was changed."""


class Heap:
    """A space of words, and the roots that lead into it: the slots of the sessions, and then the board.

    An object is the number of its references, the number of its numbers, and then its fields. Its address is the index
    of its first word. If that word is below 0, the object has moved to the address without the sign.
    """

    def __init__(self, words: int) -> None:
        self.space = [NULL] * (1 + words)
        self.top = 1
        self.roots = [NULL] * (SESSIONS * SLOTS + SLOTS)
        self.ended = set()

    def make(self, references: int, numbers: int) -> int:
        """The address of a new object. Its fields are 0 already, since nothing was written above `top`."""
        size = HEADER + references + numbers
        if references + numbers > MOST_FIELDS:
            raise Refused("4 too large")
        if self.top + size > len(self.space):
            self.collect()
        if self.top + size > len(self.space):
            raise Refused("5 heap full")
        address, self.top = self.top, self.top + size
        self.space[address:address + HEADER] = references, numbers
        return address

    def collect(self) -> int:
        """Copies what the roots reach into another space, breadth first (Cheney). Returns how many words that were."""
        old, self.space, self.top = self.space, [NULL] * len(self.space), 1
        self.roots[:] = [self.copied(old, address) for address in self.roots]
        scan = 1
        while scan < self.top:
            first_number = scan + HEADER + self.space[scan]
            for field in range(scan + HEADER, first_number):
                self.space[field] = self.copied(old, self.space[field])
            scan = first_number + self.space[scan + 1]
        return self.top - 1

    def copied(self, old: list[int], address: int) -> int:
        """Where the object at an address of the old space is now."""
        if address == NULL:
            return NULL
        if old[address] >= 0:
            size = HEADER + old[address] + old[address + 1]
            self.space[self.top:self.top + size] = old[address:address + size]
            old[address] = -self.top
            self.top += size
        return -old[address]

    def object(self, root: int) -> int:
        if self.roots[root] == NULL:
            raise Refused("2 null")
        return self.roots[root]

    def field(self, root: int, kind: int, index: int) -> int:
        """Where a reference or a number of the object is that a root names."""
        address = self.object(root)
        if index >= self.space[address + kind]:
            raise Refused("3 no field")
        return address + HEADER + index + (self.space[address] if kind == NUMBER else 0)


def root_of(kind: str, number: int, session: int) -> int:
    """Which root a number of a command is. One that is no slot stays as it is."""
    if kind == "-":
        return number
    if number >= SLOTS:
        raise Refused("1 bad slot")
    return (session if kind == "s" else SESSIONS) * SLOTS + number


def command(heap: Heap, session: int, word: str, numbers: list[int]) -> str:
    """The reply to a command. It is refused by the first reason that holds, in the order 7, 6, 1, 2, 3, 4, 5."""
    if session >= SESSIONS:
        raise Refused("7 too many sessions")
    if session in heap.ended:
        raise Refused("6 ended")
    match word, *[root_of(kind, number, session) for kind, number in zip(FORMS[word], numbers)]:
        case "new", target, references, count:
            heap.roots[target] = heap.make(references, count)
        case "get", target, source, index:
            heap.roots[target] = heap.space[heap.field(source, REFERENCE, index)]
        case "put", target, index, value:
            heap.space[heap.field(target, REFERENCE, index)] = heap.roots[value]
        case "read", source, index:
            return f"number {heap.space[heap.field(source, NUMBER, index)]}"
        case "write", target, index, value:
            heap.space[heap.field(target, NUMBER, index)] = value
        case "copy" | "post" | "take", target, source:
            heap.roots[target] = heap.roots[source]
        case "clear", target:
            heap.roots[target] = NULL
        case "same", one, other:
            return "yes" if heap.roots[one] == heap.roots[other] else "no"
        case "shape", source:
            address = heap.object(source)
            return f"shape {heap.space[address]} {heap.space[address + 1]}"
        case ["end"]:
            heap.roots[session * SLOTS:(session + 1) * SLOTS] = [NULL] * SLOTS
            heap.ended.add(session)
    return "ok"


def control(heap: Heap, word: str) -> str:
    """The reply to a control, where any line will do. Here a quantum is a whole cycle."""
    if word == "quantum":
        return f"spent {heap.collect()} phase idle moves yes"
    return f"used {heap.top - 1} of {len(heap.space) - 1}" if word == "stat" else "ok"


def main() -> None:
    """Answers standard input. Sessions are numbered as their names are first seen."""
    heap, sessions = None, {}
    for who, *words in (line.split() for line in sys.stdin if line[0] not in "#\n"):
        if heap is None:
            heap = Heap(int(words[0]) * PAGE_WORDS)
        elif who == "*":
            print(control(heap, words[0]), flush=True)
        else:
            try:
                session = sessions.setdefault(who, len(sessions))
                print(command(heap, session, words[0], [int(word) for word in words[1:]]), flush=True)
            except Refused as refused:
                print(f"refused {refused}", flush=True)


main()
