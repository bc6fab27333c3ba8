"""What the program says of a run, without its page, for scripts/check-show: replies, dumps, counts, steps, cycles, and what becomes of blocks."""
import re
import shlex
import subprocess
import sys

# What stands for a number that isn't known
DASH = "\u2013"
PHASES = ("roots", "mark", "sweep", "defrag")
# The most of the grey list that a page writes
MOST_GREYS = 200
# Past so many deeds a page leaves some out.
MOST_DEEDS = 200_000
# What a slot is, in the order of the page's legend: in which colour and with which sign the map has it, and its words
STATES = {
    "free": ("--free", "", "free"),
    "live": ("--live", "\u25cb", "live, no cycle runs"),
    "white": ("--white", "?", "white, not marked yet"),
    "grey": ("--grey", "\u25cf", "grey"),
    "marked": ("--marked", "\u2713", "marked"),
    "condemned": ("--condemned", "\u00d7", "condemned, to be freed"),
    "forwarder": ("--moved", "\u2197", "forwarder"),
}


def differs(what, shown, wanted):
    """Ends with a line that says what differs, and from where on."""
    at = next((i for i, (a, b) in enumerate(zip(shown, wanted)) if a != b), min(len(shown), len(wanted)))
    start = max(0, at - 40)
    sys.exit(f"check-show: {what}: shown is ..{shown[start:at + 60]!r}, the program says ..{wanted[start:at + 60]!r}")


def want(what, shown, wanted):
    if shown != wanted:
        differs(what, shown, wanted)


def cursor_before(steps):
    """Where the cursor was before the first of some steps, if that step says so."""
    words = steps[0].split() if steps else [""]
    if words[0] in ("start", "mark"):
        return "none"
    if words[0] == "root":
        return f"root slot {words[2]}"
    if words[0] == "pass":
        return f"{words[2]}.0"
    return words[2] if words[0] in ("sweep", "stay", "move") else None


class Run:
    """What the program says of a script: replies, dumps, counts and units, steps, the curve, and reports of its windows."""

    def __init__(self, program, name, text):
        self.program, self.name, self.text = shlex.split(program), name, text
        self.rules = ["--rules", "1"] if self.text.startswith("# rules 1\n") else []
        lines = self.text.splitlines()
        config = next(i for i, line in enumerate(lines) if line and not line.startswith("#"))
        self.config = lines[config].split()[1:]
        self.pages, self.quantum = int(self.config[0]), int(self.config[1])
        events = [line for line in lines[config + 1:] if line and not line.startswith("#")]
        asked = [lines[config]] + [line for event in events for line in (event, "* dump", "* stat", "* report 1")]
        replies = self.lines("run", "".join(line + "\n" for line in asked))
        self.replies, self.dumps, self.stats = replies[0::4], replies[1::4], replies[2::4]
        # after each event the units of the mutator and of the collector so far
        self.traced = [(0, 0), *((int(words[1]), int(words[3])) for words in map(str.split, replies[3::4]))]
        want(f"{name}: replies", "\n".join(self.lines("run", self.text)), "\n".join(self.replies))
        self.read_steps(self.lines("steps", self.text))
        self.curve = self.lines("curve", self.text)
        asked = "".join(f"* report {line.split()[1]}\n" for line in self.curve[1:])
        self.reports = [reply[reply.index("window "):] for reply in self.lines("run", self.text + asked)[len(self.replies):]]

    def output(self, command, text, *options):
        done = subprocess.run([*self.program, command, *options, *self.rules], input=text.encode(), capture_output=True, check=False)
        if done.returncode:
            sys.exit(f"check-show: {self.name}: {command} ended with status {done.returncode}: {done.stderr.decode().strip()}")
        return done.stdout.decode()

    def lines(self, command, text, *options):
        return self.output(command, text, *options).splitlines()

    def curve_from(self, first):
        """The windows of the curve of the units from an event on."""
        header, *entries = self.lines("run", self.text, "--history")
        done = subprocess.run([*self.program, "curve", "--history"], input="\n".join([header, *entries[first - 1:], ""]).encode(), capture_output=True, check=True)
        return done.stdout.decode().splitlines()[1:]

    def read_steps(self, lines):
        """The names of sessions; the entries with their numbers; of each the steps of its command and of its quantum, which are indented by two and by four."""
        self.names, self.entries, self.commands, self.quanta, self.spent = {}, [], [], [], []
        for line in lines:
            if line.startswith("session "):
                _, session, _, name = line.split()
                self.names[session] = name
            elif not line.startswith(" "):
                self.entries.append(line)
                self.commands.append([])
                self.quanta.append([])
                self.spent.append(None)
            elif line.startswith("    "):
                self.quanta[-1].append(line.strip())
            elif line.startswith("  quantum "):
                self.spent[-1] = int(line.split()[2])
            else:
                self.commands[-1].append(line.strip())

    def cursor_after(self, event):
        """Where the cursor stands after an event, as the first step of the next quantum that has one says it."""
        return cursor_before(next(filter(None, self.quanta[event:]), []))

    def first_long(self):
        """The first event of which the page leaves deeds out; none is one past the last."""
        count = 0
        for event, (command, quantum) in enumerate(zip(self.commands, self.quanta), 1):
            if count >= MOST_DEEDS:
                return event
            count += len(command) + len(quantum)
        return len(self.entries) + 1

    def first_quantum(self, word):
        """The first event, counted from 1, whose quantum has such a step; none is 0."""
        return next((i for i, steps in enumerate(self.quanta, 1) if any(step.startswith(word + " ") for step in steps)), 0)

    def units(self):
        """The units of the mutator in each event."""
        return [after[0] - before[0] for before, after in zip(self.traced, self.traced[1:])]

    def ends(self):
        """The unit of the trace at which each event ends."""
        return [sum(units) for units in self.traced[1:]]

    def event_at(self, unit):
        """The first event that ends after a unit of the trace."""
        return next(event for event, end in enumerate(self.ends(), 1) if end > unit)

    def worst_windows(self):
        """Of each window of the curve its length, its least, and where it has that first, by a walk through the trace."""
        before = [0]
        for units, spent in zip(self.units(), self.spent):
            before += [before[-1] + i for i in range(1, units + 1)]
            before += [before[-1]] * (spent or 0)
        for words in (line.split() for line in self.curve[1:]):
            window, least = int(words[1]), int(words[3])
            yield window, least, [b - a for a, b in zip(before, before[window:])].index(least)

    def phase(self, event):
        """The phase after an event."""
        return self.stats[event - 1].split()[7] if event else "idle"

    def moment(self, event, step):
        """Which moment it is after so many steps of an event of which none are left out."""
        return event + sum(map(len, self.quanta[:event - 1])) + step

    def address(self, event, step):
        return f"#{event}" if step == len(self.quanta[event - 1]) else f"#{event}.{step}"

    def counts(self, event):
        """Free pages, live blocks and forwarders after an event."""
        return [int(word) for word in self.stats[event - 1].split()[1:6:2]] if event else [self.pages, 0, 0]

    def places(self, name):
        """The events with their steps that are searched for by this name, and that are found in this order."""
        for event, (entry, steps, spent) in enumerate(zip(self.entries, self.quanta, self.spent), 1):
            if name == "refusal" and " = refused " in entry:
                yield event, 0
            for number, step in enumerate(steps, 1):
                if step.startswith({"move": "move ", "cycle": "start "}.get(name, "none")):
                    yield event, number
            if name == "quantum" and (spent or 0) > self.quantum // 2:
                yield event, len(steps)


class Cycle:
    """A cycle, by what steps say of it."""

    def __init__(self, number, cause, event, before):
        self.number, self.cause, self.events, self.before, self.after = number, cause, [event, DASH], before, [DASH] * 3
        self.quanta = self.marked = self.made = self.freed = self.moved = 0
        self.units, self.phase = dict.fromkeys(PHASES, 0), None

    def note(self, step):
        verb, *words = step.split()
        if verb == "enter":
            self.phase = words[1]
        elif verb not in ("start", "end"):
            self.units[self.phase] += int(words[-3])
        self.marked += verb == "mark"
        self.freed += " fate freed " in step
        self.moved += verb == "move"

    def span(self, run):
        """The units of the trace at which it begins and ends, or else those of the whole."""
        first, last = self.events
        return run.traced[first][0] + run.traced[first - 1][1], sum(run.traced[-1 if last == DASH else last])

    def row(self):
        pairs = [count for pair in zip(self.before, self.after) for count in pair]
        return [str(it) for it in (self.number, self.cause, *self.events, self.quanta, *self.units.values(), self.marked, self.made, self.freed, self.moved, *pairs)]


def cycles_of(run):
    """The cycles of a run, by its steps and the counts after its events."""
    cycles, cycle, is_asked = [], None, False
    for event, (entry, command, steps, spent) in enumerate(zip(run.entries, run.commands, run.quanta, run.spent), 1):
        made, opened = (sum(word in step for step in command) for word in ("make ", " tier free"))
        is_asked = is_asked or " * start = " in entry
        if cycle:
            cycle.made += made
        if steps and steps[0].startswith("start "):
            free, live, old = run.counts(event - 1)
            cycle = Cycle(int(steps[0].split()[2]), "asked" if is_asked else "trigger", event, [free - opened, live + made, old])
            cycles, is_asked = [*cycles, cycle], False
        if not cycle or spent is None:
            continue
        cycle.quanta += 1
        for step in steps:
            cycle.note(step)
        if steps and steps[-1].startswith("end "):
            cycle.events[1], cycle.after, cycle = event, run.counts(event), None
    return cycles


class Lives:
    """What becomes of each block, by steps: lines as the page has them."""

    def __init__(self, run):
        self.run, self.lines, self.name_at, self.marking, self.referents = run, {}, {}, "none", None
        for event, (command, steps) in enumerate(zip(run.commands, run.quanta), 1):
            for step in command:
                self.note(event, 0, step)
            for number, step in enumerate(steps, 1):
                self.note(event, number, step)

    def say(self, name, event, number, says):
        if name in self.lines:
            self.lines[name].append(f"{self.run.address(event, number)[1:]} {says}")

    def note(self, event, number, step):
        words = step.split()
        name = f"{words[words.index('birth') + 1]}.{words[words.index('part') + 1]}" if "birth" in words else None
        if words[0] == "make":
            self.lines[name], self.name_at[words[2]] = [], name
            self.say(name, event, number, f"made at {words[2]}: class {words[8]}, references {words[10]}, numbers {words[12]}")
        elif words[0] == "shade":
            self.say(self.name_at[words[2]], event, number, "shaded by a barrier")
        elif words[0] in ("root", "reference"):
            self.note_edge(event, number, words)
        elif words[0] == "mark":
            self.marking = name
            self.say(name, event, number, "marked")
        elif words[0] == "move":
            self.name_at[words[4]] = name
            self.say(name, event, number, f"moved from {words[2]} to {words[4]}")
        elif " fate freed " in step:
            self.say(name, event, number, f"freed at {words[2]}")

    @staticmethod
    def links(line):
        """Where a line leads: to its moment, and to the blocks that a block refers to."""
        moment, _, says = line.partition(" ")
        names = says.partition(", with references to ")[2].split()
        return [f"#{moment}", *(f"#birth{name}" for name in names if name not in ("none", DASH))]

    def note_edge(self, event, number, words):
        target = self.name_at.get(words[6], "none")
        if words[0] == "reference":
            own = self.lines[self.marking]
            own[-1] += (", with references to " if own[-1].endswith(" marked") else " ") + target
        if words[8] == "yes":
            self.say(target, event, number, f"shaded from root slot {words[2]}" if words[0] == "root" else f"shaded from reference {words[2]} of {self.marking}")


class Greys:
    """The grey list, by what steps say of it."""

    def __init__(self):
        self.places = []

    def note(self, step):
        if step.startswith("start cycle"):
            self.places = []
        elif step.startswith("mark place "):
            self.places.pop(0)
        elif step.startswith("shade place "):
            self.places.append(step.split()[2])
        elif found := re.search(r" to (\S+) shaded yes", step):
            self.places.append(found[1])

    def text(self):
        if not self.places:
            return "0"
        return f"{len(self.places)}: " + " ".join(self.places[:MOST_GREYS]) + (" ..." if len(self.places) > MOST_GREYS else "")



class Heap:
    """What is in each page and slot, by what steps say of it."""

    def __init__(self):
        self.greys, self.cycle, self.phase = Greys(), 0, "idle"
        self.pages, self.names, self.shaded, self.forwarders = {}, {}, {}, {}

    def note(self, step):
        self.greys.note(step)
        words = step.split()
        match words[0]:
            case "start":
                self.cycle = int(words[2])
            case "enter" | "end":
                self.phase = words[2] if words[0] == "enter" else "idle"
            case "make":
                self.note_made(words)
            case "move":
                self.names[words[4]], self.shaded[words[4]] = self.names.pop(words[2]), self.shaded.pop(words[2])
                self.forwarders[words[2]] = words[4]
            case "sweep" if words[4] in ("freed", "forwarder"):
                for kept in (self.names, self.shaded, self.forwarders):
                    kept.pop(words[2], None)
            case "free" | "flag" | "unflag":
                self.note_page(words[0], int(words[2]))
            case "shade":
                self.shaded[words[2]] = self.cycle
            case "root" | "reference" if " shaded yes" in step:
                self.shaded[words[6]] = self.cycle

    def note_made(self, words):
        """A block is made in a page, which it may open. It is shaded by the cycle that runs."""
        place = words[2]
        if words[-1] == "free":
            self.pages[int(place.split(".")[0])] = [int(words[8]), "-"]
        self.names[place], self.shaded[place] = f"{words[4]}.{words[6]}", self.cycle

    def note_page(self, verb, page):
        if verb == "free":
            del self.pages[page]
        else:
            self.pages[page][1] = "+" if verb == "flag" else "-"

    def state(self, place):
        """The name of what a slot is."""
        if place in self.forwarders:
            return "forwarder"
        if place not in self.names:
            return "free"
        if self.phase == "idle":
            return "live"
        if self.shaded[place] == self.cycle:
            return "grey" if place in self.greys.places else "marked"
        return "condemned" if self.phase in ("sweep", "defrag") else "white"

    def slots(self):
        """Each slot of the pages that have a class, in order."""
        return [f"{page}.{slot}" for page in sorted(self.pages) for slot in range(256 // self.pages[page][0])]

    def content(self, place):
        """What a dump writes of a slot, behind its number; of one that is free nothing."""
        return f">{self.forwarders[place]}" if place in self.forwarders else f"={self.names[place]}" if place in self.names else ""

    def text(self):
        """The map as a dump."""
        words = ["dump"]
        for page, (size, flag) in sorted(self.pages.items()):
            found = ((slot, self.content(f"{page}.{slot}")) for slot in range(256 // size))
            words += [f"P{page} C{size} {flag}", *(f"{slot}{content}" for slot, content in found if content)]
        return " ".join(words)

    def legend(self):
        """The legend of the map, with how many slots are in each state."""
        states = [self.state(place) for place in self.slots()]
        return [f"{sign} {says} {states.count(name)}" for name, (_, sign, says) in STATES.items()]

    def page_line(self, page):
        """What is said above a page: its class with its slots, and whether it is flagged."""
        if page not in self.pages:
            return f"page {page}: free"
        size, flag = self.pages[page]
        return f"page {page}: class {size}, {256 // size} slots, {'flagged as sparse' if flag == '+' else 'not flagged'}"

    def counts(self):
        """Live blocks, forwarders, and the grey list."""
        return [len(self.names), len(self.forwarders), len(self.greys.places)]


def peaks(run):
    """The most of the live blocks, the forwarders and the grey list at any moment: after a command, and after each step of a quantum."""
    heap = Heap()
    most = heap.counts()
    for command, quantum in zip(run.commands, run.quanta):
        for step in command:
            heap.note(step)
        most = list(map(max, most, heap.counts()))
        for step in quantum:
            heap.note(step)
            most = list(map(max, most, heap.counts()))
    return most
