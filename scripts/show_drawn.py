"""Compares what a page of `metroheap show` draws on its canvases with what the program says, for scripts/check-show.

Node keeps each call by which a canvas is drawn on. Where something is to lie is read from what lies around it: slots from the
numbers of their pages, the curve from the words at its axes.
"""
import math
import re
from collections import defaultdict

from show_said import PHASES, STATES, cycles_of, peaks, want

# Numbers that differ by less are the same.
NEAR = 0.01
# So high a letter is above the foot of its line.
LETTER = 8


class Call:
    """A call by which a canvas was drawn on: with what it was given, and with the colours and the line of that time."""

    def __init__(self, name, given, fill, stroke, line):
        self.name, self.given, self.fill, self.stroke, self.line = name, given, fill, stroke, line


def are_near(ones, others):
    return all(abs(one - other) < NEAR for one, other in zip(ones, others, strict=True))


def want_near(what, shown, wanted):
    if len(shown) != len(wanted) or not are_near(shown, wanted):
        want(what, [round(it, 2) for it in shown], [round(it, 2) for it in wanted])


def place_of(step):
    """The place of the slot that a step is about, if it is about one."""
    found = re.match(r"(?:mark|sweep|stay|move|shade|make) place (\S+)|(?:root|reference) .* to (\d\S*) shaded", step)
    return next(filter(None, found.groups())) if found else None


def inside(rectangle, x, y):
    left, top, width, height = rectangle
    return left < x < left + width and top < y < top + height


class Map:
    """What is drawn on the map: pages by the words above them, and slots with their texts, which come in order."""

    def __init__(self, where, calls, heap):
        self.where, self.calls, self.heap, self.heads = where, calls, heap, {}
        for call in self.texts():
            if found := re.fullmatch(r"(\d+) (class \d+|free)", str(call.given[0])):
                self.heads[int(found[1])] = (call.given[1], call.given[2])
        rectangles = [call for call in calls if call.name == "fillRect"]
        # small pages have no words, and of their slots no more than how many there are of each kind
        self.are_small = not self.heads
        if self.are_small:
            return
        want(f"{where}: how many slots are drawn", [len(rectangles)], [len(heap.slots())])
        self.cells = dict(zip(heap.slots(), rectangles))

    def texts(self):
        return [call for call in self.calls if call.name == "fillText"]

    def page_at(self, x, y):
        """The page of which the words are the next above and to the left."""
        return max((head_y, head_x, page) for page, (head_x, head_y) in self.heads.items() if head_x - 5 <= x and head_y - 14 <= y)[2]

    def see(self, step, cursor, chosen):
        if self.are_small:
            self.see_shares()
            return
        self.see_cells()
        self.see_rows()
        self.see_pages(chosen)
        self.see_arrows()
        self.see_here(place_of(step), cursor)

    def see_cells(self):
        """The colour of each slot, and what is written in it after that."""
        written, places, place = defaultdict(list), iter(self.cells), None
        for call in self.calls:
            if call.name == "fillRect":
                place = next(places)
            elif call.name == "fillText" and place and inside(self.cells[place].given, call.given[1], call.given[2] - LETTER / 2):
                written[place].append(call.given[0])
        for place, cell in self.cells.items():
            colour, sign, _ = STATES[self.heap.state(place)]
            want(f"{self.where}: colour of {place}", cell.fill, colour)
            name = self.heap.content(place).removeprefix("=")
            if written[place] not in ([name, sign], [f"{name} {sign}"], [sign]) and (written[place] or not self.is_small(cell, name)):
                want(f"{self.where}: what is written in {place}", written[place], [name, sign])

    def see_shares(self):
        """How high each state stands in each small page, one above the other."""
        rectangles, names = iter([call for call in self.calls if call.name == "fillRect"]), ("marked", "live", "grey", "white", "condemned", "forwarder")
        for page in sorted(self.heap.pages):
            slots, foot = [self.heap.state(place) for place in self.heap.slots() if place.split(".")[0] == str(page)], None
            for name in names:
                call = next(rectangles)
                x, y, width, height = call.given
                want(f"{self.where}: colour of what is {name} in page {page}", call.fill, STATES[name][0])
                want_near(f"{self.where}: how much of page {page} is {name}", [height, y + height], [slots.count(name) / len(slots) * width, y + height if foot is None else foot])
                foot = y

    @staticmethod
    def is_small(cell, name):
        """Whether nothing is written in a slot: it is free, or too small."""
        return not name or cell.given[2] < 8 or cell.given[3] < 8

    def see_rows(self):
        """Slots lie in their page, in rows, and don't overlap."""
        for place, cell in self.cells.items():
            x, y, _, _ = cell.given
            want(f"{self.where}: the page around {place}", [self.page_at(x, y)], [int(place.split(".")[0])])
        for (place, cell), (other, after) in zip(self.cells.items(), list(self.cells.items())[1:]):
            (x, y, width, height), (next_x, next_y, *_) = cell.given, after.given
            is_right = (next_y == y and next_x >= x + width) or next_y >= y + height or place.split(".")[0] != other.split(".")[0]
            want(f"{self.where}: does {other} lie behind {place}", [is_right], [True])

    def see_pages(self, chosen):
        """The words above each page, which pages have the sign of sparse ones, and which one is chosen."""
        sizes = {page: f"class {size}" for page, (size, _) in self.heap.pages.items()}
        words = [call.given[0] for call in self.texts() if call.given[1:3] in [list(head) for head in self.heads.values()]]
        want(f"{self.where}: words above pages", words, [f"{page} {sizes.get(page, 'free')}" for page in sorted(self.heads)])
        frames = {"--flag": [page for page, (_, flag) in sorted(self.heap.pages.items()) if flag == "+"], "--mutator": [chosen]}
        for colour, wanted in frames.items():
            corners = [(call.given[0] + 3, call.given[1] + 12) for call in self.calls if call.name == "strokeRect" and call.stroke == colour]
            want(f"{self.where}: pages with a frame {colour}", [page for corner in corners for page, head in self.heads.items() if are_near(corner, head)], wanted)

    def see_arrows(self):
        """An arrow from each forwarder to where it leads."""
        wanted = [place for place in self.cells if place in self.heap.forwarders]
        found = [(one.given, other.given) for one, other, last in zip(self.calls, self.calls[1:], self.calls[2:]) if (one.name, other.name, last.name) == ("moveTo", "lineTo", "stroke") and last.stroke == "--moved"]
        want(f"{self.where}: how many arrows", [len(found)], [len(wanted)])
        for place, (start, end) in zip(wanted, found):
            to = self.heap.forwarders[place]
            want(f"{self.where}: arrow from {place} to {to}", [inside(self.cells[place].given, *start), inside(self.cells[to].given, *end)], [True, True])

    def see_here(self, place, cursor):
        """The frame around the slot that the step is about, and the sign of the cursor."""
        frames = [call.given[:2] for call in self.calls if call.name == "strokeRect" and call.stroke == "--ink" and call.line == 2.5]
        want(f"{self.where}: is a slot framed", [len(frames)], [int(place is not None)])
        if place in self.cells:
            want_near(f"{self.where}: frame around {place}", frames[0], self.cells[place].given[:2])
        # a triangle that points at a slot from its left
        signs = [(self.calls[i - 3].given[0], self.calls[i - 2].given[1]) for i, call in enumerate(self.calls) if call.name == "closePath"]
        if cursor in self.cells and self.heap.phase in ("sweep", "defrag"):
            x, y, width, height = self.cells[cursor].given
            found = [inside((x - 4, y, width, height), *sign) for sign in signs]
            want(f"{self.where}: does a sign of the cursor point at {cursor}", found, [True])


def see_page(where, calls, heap, chosen):
    """What is drawn of the page that is chosen: its slots in order, in rows."""
    slots, rectangles = [place for place in heap.slots() if place.split(".")[0] == str(chosen)], [call for call in calls if call.name == "fillRect"]
    want(f"{where}: colours of the slots of page {chosen}", [call.fill for call in rectangles], [STATES[heap.state(place)][0] for place in slots])
    corners = [tuple(call.given[1::-1]) for call in rectangles]
    want(f"{where}: places of the slots of page {chosen}", corners, sorted(set(corners)))


def shares_of(stretches, width, total):
    """What share of each dot each of some names has, of stretches of the trace that are its."""
    found, scale = defaultdict(lambda: [0.0] * width), width / total
    for name, start, end in stretches:
        for x in range(int(start * scale), min(width, math.ceil(end * scale))):
            found[name][x] += max(0, min(end * scale, x + 1) - max(start * scale, x))
    return found


class Lines:
    """What is drawn over the trace: the trace itself, the strip of cycles, counts, and the curve."""

    def __init__(self, where, run, view):
        self.where, self.run, self.view, self.total, self.width = where, run, view, sum(run.traced[-1]), view.value("widths.trace")
        # the most of each count is drawn as one, if it is none
        self.tops = [run.pages, *(max(1, most) for most in peaks(run))]

    def calls(self, part, *names, fill=""):
        return [Call(*it) for it in self.view.drawn(part, names, fill)]

    def see(self, counts):
        """Looks at all that lies over the trace, of which the counts after each event are given."""
        self.see_trace()
        self.see_strip()
        self.see_heights(counts)
        self.see_curve()
        self.view.press("%")
        self.see_curve()
        want(f"{self.where}: top of the curve's axis", self.axis()[1], 100.0)
        self.view.press("%")

    def stretches(self):
        """Who has each stretch of the trace, and which phase goes on in it."""
        at, phase = 0, None
        for units, spent, steps in zip(self.run.units(), self.run.spent, self.run.quanta):
            yield "mutator", phase, at, at + units
            at += units
            for step in steps:
                words = step.split()
                phase = words[2] if words[0] == "enter" else None if words[0] == "end" else phase
                yield "collector", phase, at, at + int(words[-3])
                at += int(words[-3])
            yield "collector", None, at, at + (spent or 0) - sum(int(step.split()[-3]) for step in steps)

    def see_trace(self):
        """How high each dot of the trace is, and who is above."""
        wanted, feet = shares_of(((who, start, end) for who, _, start, end in self.stretches()), self.width, self.total), {}
        heights = defaultdict(lambda: [0.0] * self.width)
        for call in self.calls("trace", "fillRect"):
            if call.fill in ("--mutator", "--collector"):
                heights[call.fill[2:]][int(call.given[0])] += call.given[3]
                feet[call.fill] = call.given[1] + call.given[3]
        most = max(max(them) for them in heights.values())
        for who in ("mutator", "collector"):
            want_near(f"{self.where}: {who} on the trace", heights[who], [max(1.0, share * most) if share > 0 else 0.0 for share in wanted[who]])
        want(f"{self.where}: who is above", sorted(feet, key=feet.get), ["--mutator", "--collector"][-len(feet):])

    def see_strip(self):
        """How high each phase is at each dot, and where numbers of cycles stand."""
        wanted = shares_of(((phase, start, end) for _, phase, start, end in self.stretches() if phase), self.width, self.total)
        heights = defaultdict(lambda: [0.0] * self.width)
        for call in self.calls("strip", "fillRect"):
            if call.fill[2:] in PHASES:
                heights[call.fill[2:]][int(call.given[0])] += call.given[3]
        most = max(map(sum, zip(*heights.values())))
        for phase in PHASES:
            want_near(f"{self.where}: {phase} on the strip", heights[phase], [share * most for share in wanted[phase]])
        starts = {cycle.number: cycle.span(self.run)[0] / self.total * self.width for cycle in cycles_of(self.run)}
        numbers = self.calls("strip", "fillText")
        want_near(f"{self.where}: numbers of cycles", [call.given[1] for call in numbers], [starts[call.given[0]] for call in numbers])

    def see_moment(self, where, unit):
        """Where the moment that has so many units is drawn over the trace."""
        x = min(self.width - 2, max(1, unit / self.total * self.width))
        for part in ("trace", "strip", "times"):
            found = [call.given[0] + 1 for call in self.calls(part, "fillRect", fill="--ink") if call.given[2] == 2]
            want_near(f"{where}: the moment on {part}", found, [x])

    def see_counts(self, where, counts):
        """The words above each line of counts: what it is now, and at most."""
        names = ("free pages", "live blocks", "forwarders", "grey list")
        says = [f"{name}: {count}, at most {top}" for name, count, top in zip(names, counts, self.tops)]
        wanted = [f"{says[0]}; a cycle starts at {self.run.config[2]} or fewer", *says[1:]]
        want(f"{where}: words above counts", [call.given[0] for call in self.calls("times", "fillText")], wanted)

    def see_heights(self, counts):
        """Each line of counts is as high at the end of an event as its count says. The foot of each has a line, and the most is highest."""
        feet = [call.given[1] - 0.5 for call in self.calls("times", "moveTo") if call.stroke == "--line"]
        for at, (colour, top, foot) in enumerate(zip(("--flag", "--live", "--moved", "--grey"), self.tops, feet, strict=True)):
            dots = {int(call.given[0]): (call.given[1] + 1, call.given[1] + call.given[3] - 1) for call in self.calls("times", "fillRect") if call.fill == colour and call.given[2] == 1}
            high = (foot - min(y for y, _ in dots.values())) / top
            for event, values in enumerate(counts, 1):
                x = min(self.width - 1, int(sum(self.run.traced[event]) / self.total * self.width))
                least, y = dots[x][0], foot - values[at] * high
                want(f"{self.where}: height of {colour} after event {event}", [least - NEAR <= y <= dots[x][1] + NEAR], [True])

    def axis(self):
        """The curve's axes, by their words: where 0 and the greatest share are, how much that is, and where the least and the greatest window are."""
        marks, windows = {}, {}
        for call in self.calls("curve", "fillText"):
            words = str(call.given[0])
            if words.endswith(" %"):
                marks[float(words.split()[0])] = call.given[2] - 4
            elif found := re.fullmatch(r"(?:window: )?(\d+)(?: units)?", words):
                windows[int(found[1])] = call.given[1]
        top, last = max(marks), max(windows)
        return marks[0], top, marks[top], windows[1], last, windows[last]

    def see_curve(self):
        """Each point of the curve, and of the promised floor, lies where the axes say."""
        foot, top, head, left, last, right = self.axis()
        calls = [Call(*it) for it in self.view.drawn("curve")]
        windows = [[int(line.split()[1]), line.split()[3], line.split()[-1]] for line in self.run.curve[1:]]
        for colour, column in (("--mutator", 1), ("--floor", 2)):
            points = [call.given for before, call in zip(calls, calls[1:]) if call.name == "lineTo" and call.stroke == colour and before.name != "moveTo"]
            wanted = [(it[0], int(it[column])) for it in windows if it[column] != "none"]
            want(f"{self.where}: how many points {colour}", [len(points)], [len(wanted)])
            for (window, units), point in zip(wanted, points):
                x = left + (math.log(window) / math.log(last) if last > 1 else 0) * (right - left)
                want_near(f"{self.where}: window {window} of {colour}", point, [x, foot + 100 * units / window / top * (head - foot)])
