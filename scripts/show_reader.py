"""Goes through a page of `metroheap show` as its reader does, and compares it with what the program says elsewhere, for scripts/check-show."""
import json
import re

from show_drawn import Call, Lines, Map, see_page
from show_said import DASH, PHASES, STATES, Heap, Lives, cursor_before, cycles_of, want

# The window while the page is gone through, which is soon drawn, and one in which the whole map is in sight
SMALL, LARGE = (520, 440), (800, 760)
# Past this no life of a block is written out.
MOST_LIFE = 200
# So many of what a key finds are gone to, and so many steps of the long run have their cursor compared.
MOST_FOUND, MOST_CURSORS = 3, 2000
# So many steps of a quantum are gone through.
MOST_STEPS = 150
# Of the events of which deeds are left out one in so many is looked at.
STRIDE = 9
# What the page shows, as texts
SIGHT = """(() => {
  const text = (id) => document.getElementById(id).textContent, all = (ways, see) => [...document.querySelectorAll(ways)].map(see);
  const sight = { moment: +document.body.dataset.moment, event: +document.body.dataset.event };
  for (const id of ["event-now", "step-now", "text", "fact-reply", "fact-stat", "fact-cursor", "fact-grey", "fact-left", "trace-head", "points", "map-note", "page-head", "deeds-head", "event-out", "step-out"]) sight[id] = text(id);
  for (const id of ["event", "step"]) sight[id + "-value"] = document.getElementById(id).value;
  sight.roots = all("#roots dt, #roots span", (it) => it.textContent);
  sight.scanned = all("#roots span", (it) => it.classList.contains("now") && it.textContent).filter(Boolean);
  sight.legend = all("#key li", (it) => it.textContent);
  sight.phase = all("#phases [aria-current]", (it) => it.textContent).join();
  for (const id of ["replies", "deeds"]) sight[id] = all(`#${id} div`, (it) => [it.textContent, it.classList.contains("now"), it.classList.contains("no")]);
  return sight;
})()"""


def page_of(step):
    """The page that a step is about, if it is about one."""
    found = re.match(r"\w+ page (\d+)|(?:mark|sweep|stay|move|shade|make) place (\d+)|(?:root|reference) .* to (\d+)\.", step)
    return found and int(next(filter(None, found.groups())))


class Reader:
    """Goes through the page of a run by keys, and compares."""

    def __init__(self, view, run, page, keep=None, first=1):
        self.view, self.run, self.name, self.keep, self.first = view, run, f"{run.name} in {view.kind}", keep, first
        self.heap, self.long = Heap(), run.first_long()
        # free pages, live blocks, forwarders and the grey list after each event, and what is drawn of them
        self.counts, self.lines = [], None
        view.size(*SMALL)
        view.open(page.as_uri())
        view.value("document.querySelector('#as-text summary').click()")
        if view.kind == "node" and first == 1 and self.long > len(run.entries):
            self.lines = Lines(self.name, run, view)

    def try_keys(self):
        """The keys that go far, at last to the first moment."""
        last = len(self.run.entries)
        far = max(0, last - 100)
        for key, event in (("End", last), ("PageUp", far), ("PageDown", min(last, far + 100)), ("ArrowUp", min(last, far + 100) - 1), ("Home", 0)):
            self.view.press(key)
            self.view.wait(f"document.body.dataset.event === '{event}'")
        self.view.press("ArrowRight")
        self.view.press("ArrowLeft")
        self.view.wait("document.body.dataset.moment === '0' && document.getElementById('text').textContent === 'dump'")

    def check(self):
        self.try_keys()
        self.see_keys()
        self.check_events()
        self.see_curve()
        if self.lines:
            self.lines.see(self.counts)
        self.see_blocks()
        self.see_cycles()
        self.see_strip()
        self.see_times()
        self.see_windows()
        self.see_lives()
        self.search()
        self.see_addresses()
        self.try_hands()
        want(f"{self.name}: what was loaded", self.view.requests()[1:], [])

    def check_events(self):
        """Each event from the first on, and each step of two of them."""
        self.press_until("Home", "document.body.dataset.moment === '0'")
        slow = {self.run.first_quantum("mark"), self.run.first_quantum("move")}
        for event in range(1, len(self.run.entries) + 1):
            sight = self.go_steps(event) if event in slow else self.go_event(event)
            self.see_event(event, sight)

    def see_keys(self):
        """The line above all, and the colours in the keys of the map and of the strip."""
        pages, quantum, trigger, every = self.run.config
        says = f"{pages} pages, quantum {quantum}, trigger {trigger}, every {every}, rules {1 if self.run.rules else 2}; {len(self.run.entries)} events"
        want(f"{self.name}: configuration", self.view.value("document.getElementById('config').textContent"), says)
        for part, colours in (("key", [colour for colour, *_ in STATES.values()]), ("strip-key", [f"--{phase}" for phase in PHASES])):
            shown = self.view.value(f"[...document.querySelectorAll('#{part} i')].map((it) => it.style.background)")
            want(f"{self.name}: colours of {part}", shown, [f"var({colour})" for colour in colours])
        want(f"{self.name}: phases of the strip", self.view.value("[...document.querySelectorAll('#strip-key li')].map((it) => it.textContent)"), list(PHASES))

    def check_part(self):
        """A page of the events from one on."""
        first = self.first
        for event in range(1, first):
            self.note_event(event)
        self.view.press("Home")
        sight = self.view.wait(f"document.body.dataset.moment === '0' && document.body.dataset.event === '{first - 1}'", SIGHT)
        want(f"{self.name}: before event {first}: map", sight["text"], self.run.dumps[first - 2])
        want(f"{self.name}: before event {first}: counts", sight["fact-stat"], self.run.stats[first - 2])
        want(f"{self.name}: before event {first}: grey list", sight["fact-grey"], self.heap.greys.text())
        self.see_heap(f"{self.name}: before event {first}", sight)
        for event in range(first, len(self.run.entries) + 1):
            self.see_event(event, self.go_event(event))
        want(f"{self.name}: curve from event {first} on", self.view.value(SIGHT)["points"], "\n".join(re.sub(r" share \S+", "", line) for line in self.run.curve_from(first)))
        self.see_part_of_cycles(first)
        for event in (first, len(self.run.entries)):
            self.view.value(f"location.hash = '#{event}'")
            self.view.wait(f"document.body.dataset.event === '{event}'")
        want(f"{self.name}: what was loaded", self.view.requests()[1:], [])

    def see_part_of_cycles(self, first):
        """Of a cycle that runs before the page only its number and its end are known."""
        cycles = [cycle for cycle in cycles_of(self.run) if cycle.events[1] == DASH or cycle.events[1] >= first]
        rows = self.view.value("cycles.map(cycleRow)")
        want(f"{self.name}: how many cycles from event {first} on", str(len(rows)), str(len(cycles)))
        for row, cycle in zip(rows, cycles):
            wanted = cycle.row() if cycle.events[0] >= first else [word if i in (0, 3, 14, 16, 18) else DASH for i, word in enumerate(cycle.row())]
            want(f"{self.name}: the table of cycles from event {first} on", " ".join(row), " ".join(wanted))

    def check_long(self):
        """Looks at some of the events of which deeds are left out, and at the one before them."""
        for event in range(1, len(self.run.entries) + 1):
            self.note_event(event)
            if event + 1 >= self.long and (event + 1 - self.long) % STRIDE == 0:
                self.view.value(f"goEvent({event})")
                self.see_event(event, self.view.wait(f"document.body.dataset.event === '{event}'", SIGHT))
        self.view.press("End")
        self.view.wait(f"document.body.dataset.event === '{len(self.run.entries)}'")
        self.see_curve()
        self.see_cycles()
        self.see_times()
        self.see_cursors()

    def note_event(self, event):
        for step in self.run.commands[event - 1] + self.run.quanta[event - 1]:
            self.heap.note(step)
        self.counts.append([*self.run.counts(event), len(self.heap.greys.places)])

    def go_event(self, event):
        self.note_event(event)
        self.view.press("ArrowDown")
        return self.view.wait(f"document.body.dataset.event === '{event}'", SIGHT)

    def go_steps(self, event):
        """Goes to each step of an event, and gives what is seen after the last."""
        moment = int(self.view.value("document.body.dataset.moment")) + 1
        sight = self.go_step(moment)
        for step in self.run.commands[event - 1]:
            self.heap.note(step)
        steps = self.run.quanta[event - 1]
        for number, step in enumerate(steps[:MOST_STEPS], 1):
            sight, where = self.go_step(moment + number), f"{self.name}: event {event}, step {number}"
            self.heap.note(step)
            want(where, sight["step-now"], step)
            want(f"{where}: grey list", sight["fact-grey"], self.heap.greys.text())
            want(f"{where}: map", sight["text"], self.heap.text())
            self.see_heap(where, sight)
            self.see_drawn(where, event, number, sight)
            self.see_steps(where, event, number, sight)
            self.see_scanned(where, step, sight["scanned"])
            if cursor := cursor_before(steps[number:number + 1]):
                want(f"{where}: cursor", sight["fact-cursor"], cursor)
            if step.startswith(("move ", "mark ")) and number % 8 == 0:
                self.keep_pictures(f"{event}-{number}")
        for step in steps[MOST_STEPS:]:
            self.heap.note(step)
        self.counts.append([*self.run.counts(event), len(self.heap.greys.places)])
        return sight if len(steps) <= MOST_STEPS else self.go_end(event, moment + len(steps))

    def go_end(self, event, moment):
        """Goes on to the end of an event: on to the next one, if there is one, and back."""
        self.view.press("ArrowDown")
        if event < len(self.run.entries):
            self.view.press("ArrowUp")
        return self.view.wait(f"document.body.dataset.moment === '{moment}'", SIGHT)

    def go_step(self, moment):
        self.view.press("ArrowRight")
        return self.view.wait(f"document.body.dataset.moment === '{moment}'", SIGHT)

    def see_event(self, event, sight):
        where = f"{self.name}: event {event}"
        want(f"{where}: entry", sight["event-now"], self.run.entries[event - 1])
        want(f"{where}: reply", sight["fact-reply"], self.run.replies[event - 1])
        want(f"{where}: map", sight["text"], self.run.dumps[event - 1])
        want(f"{where}: counts", sight["fact-stat"], self.run.stats[event - 1])
        want(f"{where}: grey list", sight["fact-grey"], self.heap.greys.text())
        if cursor := self.run.cursor_after(event):
            want(f"{where}: cursor", sight["fact-cursor"], cursor)
        want(f"{where}: trace", sight["trace-head"], self.trace_line(event))
        want(f"{where}: events", [sight["event-out"], sight["event-value"]], [f"{event} of {len(self.run.entries)}", str(event)])
        self.see_heap(where, sight)
        self.see_drawn(where, event, len(self.run.quanta[event - 1]), sight)
        if self.lines:
            self.lines.see_counts(where, self.counts[event - 1])
        self.see_replies(where, event, sight["replies"])
        if event < self.long:
            self.see_steps(where, event, len(self.run.quanta[event - 1]), sight)
        want(f"{where}: are deeds left out", str("are left out" in sight["map-note"]), str(event >= self.long))
        self.see_roots(where, sight["roots"], self.run.quanta[event - 1])

    def trace_line(self, event):
        """What is said above the trace after an event."""
        before, after, end = (self.run.traced[at] for at in (self.first - 1, event, -1))
        mutator, collector = (now - then for now, then in zip(after, before))
        says = f"trace: {mutator} units of the mutator (above) and {collector} of the collector (below) so far, of {sum(end) - sum(before)}"
        return says + (f"; before them {before[0]} and {before[1]}" if self.first > 1 else "")

    def see_heap(self, where, sight):
        """The legend with its counts, the phase, and the line above the page that is drawn, at any moment."""
        want(f"{where}: legend", sight["legend"], self.heap.legend())
        want(f"{where}: phase", sight["phase"], self.heap.phase)
        want(f"{where}: page", sight["page-head"], self.heap.page_line(int(re.match(r"page (\d+)", sight["page-head"])[1])))

    def see_drawn(self, where, event, number, sight):
        """What is drawn of the moment after so many steps of an event, if the view keeps that."""
        if self.lines is None:
            return
        steps, chosen = self.run.quanta[event - 1], int(re.match(r"page (\d+)", sight["page-head"])[1])
        calls = [Call(*it) for it in self.view.drawn("map")]
        before, after = self.run.traced[event - 1:event + 1]
        self.lines.see_moment(where, after[0] + before[1] + sum(int(step.split()[-3]) for step in steps[:number]))
        Map(where, calls, self.heap).see(steps[number - 1] if number else "", sight["fact-cursor"], chosen)
        see_page(where, [Call(*it) for it in self.view.drawn("page")], self.heap, chosen)

    def see_replies(self, where, event, rows):
        """The rows of replies in sight: which is now, and which are refusals."""
        first = int(rows[0][0].split()[0])
        entries = self.run.entries[first - 1:first - 1 + len(rows)]
        want(f"{where}: rows of replies", rows, [[entry, number == event, " = refused " in entry] for number, entry in enumerate(entries, first)])
        want(f"{where}: is its row in sight", [first <= event < first + len(rows)], [True])

    def see_steps(self, where, event, number, sight):
        """The rows of steps in sight; how far the event is, and the quantum; and which page is drawn."""
        command, quantum, spent = (of[event - 1] for of in (self.run.commands, self.run.quanta, self.run.spent))
        steps, current, rows = command + quantum, len(command) + number - 1, sight["deeds"]
        first = current - next((i for i, row in enumerate(rows) if row[1]), 0)
        want(f"{where}: rows of steps", rows, [[step, i == current, False] for i, step in enumerate(steps[first:first + len(rows)], first)])
        want(f"{where}: is its row in sight", [bool(rows)], [bool(steps)])
        ran = "" if spent is None else f": its quantum spent {spent} and ended in {self.run.phase(event)}"
        want(f"{where}: head of steps", sight["deeds-head"], f"steps of event {event}{ran}")
        want(f"{where}: steps", [sight["step-out"], sight["step-value"]], [f"{number} of {len(quantum)}", str(number)])
        want(f"{where}: left", sight["fact-left"], f"{quantum[number - 1].split()[-1]} units of {self.run.quantum}" if number else "no quantum runs")
        if (page := page_of(steps[current]) if steps else None) is not None:
            want(f"{where}: which page", sight["page-head"].split(":")[0], f"page {page}")

    def see_roots(self, where, shown, steps):
        """The roots after an event are those that its quantum scanned, unless it forwarded some."""
        if any(step.startswith("forward") for step in steps):
            return
        who, places = 0, {}
        for text in shown:
            slot, colon, place = text.partition(": ")
            if colon:
                places[16 * who + int(slot)] = place
            else:
                who = self.owner(where, text)
        for words in (step.split() for step in steps if step.startswith("root slot ")):
            want(f"{where}: root slot {words[2]}", places.get(int(words[2]), "none"), words[4])

    @staticmethod
    def see_scanned(where, step, shown):
        """Of the roots one is marked if the step scans it."""
        words = step.split()
        want(f"{where}: the root that is scanned", [text.split(":")[0] for text in shown], [str(int(words[2]) % 16)] if words[0] == "root" else [])

    def owner(self, where, text):
        """Whose root slots follow: the board's, or those of a session, whose name in the script is told if it is another."""
        if text == "board":
            return 8
        session = text.split()[0]
        want(f"{where}: how {session} is called", text, f"{session} ({self.run.names[session]})" if session in self.run.names else session)
        return int(session[1:])

    def see_curve(self):
        sight = self.view.value(SIGHT)
        want(f"{self.name}: curve", sight["points"], "\n".join(re.sub(r" share \S+", "", line) for line in self.run.curve[1:]))
        want(f"{self.name}: reports", sight["points"], "\n".join(self.run.reports))
        words = self.run.curve[0].split()
        mutator, collector = int(words[1]), int(words[3])
        wanted = f"trace: {mutator} units of the mutator (above) and {collector} of the collector (below) so far, of {mutator + collector}"
        want(f"{self.name}: trace", sight["trace-head"], wanted)

    def see_cycles(self):
        """The table, of which a long run may have dashes for units of its cycles."""
        rows, cycles = self.view.value("cycles.map(cycleRow)"), cycles_of(self.run)
        want(f"{self.name}: how many cycles", str(len(rows)), str(len(cycles)))
        for row, cycle in zip(rows, cycles):
            is_long, wanted = cycle.events[1] == DASH or cycle.events[1] >= self.long, cycle.row()
            if is_long:
                wanted[5:9] = [DASH if it == DASH else word for it, word in zip(row[5:9], wanted[5:9])]
            want(f"{self.name}: the table of cycles", " ".join(row), " ".join(wanted))
        self.see_heads(rows)
        if self.long > len(self.run.entries):
            shown = self.view.value("[...document.querySelectorAll('#cycle-rows tr')].map((it) => [...it.children].map((cell) => cell.textContent)).filter((row) => row.length)")
            first = rows.index(shown[0]) if shown else 0
            want(f"{self.name}: the rows of the table", str(shown), str(rows[first:first + len(shown)]))

    def see_heads(self, rows):
        """What `cycles` says of each cycle by the words above the columns, but what isn't known."""
        groups, heads = self.view.value("[...document.querySelectorAll('#cycle-head tr')].map((row) => [...row.children].map((it) => [it.textContent, it.colSpan]))")
        above = [group for group, count in groups for _ in range(count)]
        words = {"free pages": "free", "live blocks": "live", "forwarders": "old", "events": "events"}
        for row, line in zip(rows, self.run.lines("cycles", self.run.text), strict=True):
            said = line.split()
            wanted = [said[said.index(words.get(group, head)) + (2 if head in ("last", "to") else 1)] for group, (head, _) in zip(above, heads, strict=True)]
            want(f"{self.name}: the table of cycles by its heads", row, [it if it == DASH else word for it, word in zip(row, wanted)])

    def see_strip(self):
        """Hovers over each cycle and clicks on it, and compares what the strip has of each phase and of quanta."""
        cycles, total, width = cycles_of(self.run), sum(self.run.traced[-1]), self.view.value("widths.strip")
        for number, cycle in enumerate(cycles, 1):
            first, last = cycle.span(self.run)
            x = (first + last) / 2 / total * width
            self.press_until("Home", "document.body.dataset.moment === '0'")
            self.view.click("strip", x)
            self.view.wait(f"document.getElementById('step-now').textContent === {json.dumps(self.run.quanta[cycle.events[0] - 1][0])}")
            current = "[...document.querySelectorAll('#cycle-rows [aria-current]')].map((it) => it.firstChild.textContent).join()"
            want(f"{self.name}: the marked cycle", self.view.value(current), str(number))
            self.hover("strip", x, f"cycle {number}, {cycle.cause}: events {cycle.events[0]} to {cycle.events[1]}, units {first} to {last}")
        stretches, quanta = self.view.value("[PHASES.slice(1).map((_, i) => Math.round(stripOf(widths.strip).shares[i + 1].reduce((a, b) => a + b, 0) * total / widths.strip)), stripOf(widths.strip).quanta.reduce((a, b) => a + b, 0)]")
        want(f"{self.name}: quanta on the strip", str(quanta), str(sum(cycle.quanta for cycle in cycles)))
        self.see_stretches(stretches)

    def wait_address(self, *place):
        """Waits until the address is that of a place."""
        self.view.wait_long(f"location.hash === '{self.run.address(*place)}'")

    def press_until(self, key, condition):
        self.view.press(key)
        self.view.wait(condition)

    def hover(self, part, x, wanted):
        """Hovers over a canvas, of which the first line is to say so."""
        self.view.hover(part, x, 5)
        self.view.wait(f"document.getElementById('tip').textContent === {json.dumps(wanted)}")

    def see_stretches(self, shown):
        """What the strip has of each phase: its units, and those of the mutator while it goes on."""
        wanted, phase = dict.fromkeys(PHASES, 0), None
        for steps, units in zip(self.run.quanta, self.run.units()):
            if phase:
                wanted[phase] += units
            for step in steps:
                words = step.split()
                phase = words[2] if words[0] == "enter" else None if words[0] == "end" else phase
                if phase:
                    wanted[phase] += int(words[-3])
        want(f"{self.name}: phases on the strip", str(shown), str(list(wanted.values())))

    def see_times(self):
        """What hovering says of the counts after each event that the trace has, and whether these are drawn there."""
        script = """events.map((e, i) => {
          const x = (unitAt(lastOf(i + 1)) - 0.5) / total * widths.times, dot = Math.min(widths.times - 1, Math.floor(x + 0.5 / total * widths.times)), { least, most } = timesOf(widths.times);
          return [...timesText(x), LINES.every((line, k) => least[k][dot] <= line.at(lastOf(i + 1)) && line.at(lastOf(i + 1)) <= most[k][dot])];
        })"""
        seen = set()
        for says, counts, is_drawn in self.view.value(script):
            event = int(says.split()[1])
            seen.add(event)
            free, live, old, grey = self.counts[event - 1]
            want(f"{self.name}: counts after event {event}", f"{counts} {is_drawn}", f"free {free} live {live} old {old} grey {grey} True")
        want(f"{self.name}: events of the trace", str(len(seen)), str(sum(units + (spent or 0) > 0 for units, spent in zip(self.run.units(), self.run.spent))))

    def see_windows(self):
        """Where each window of the curve has its least: what hovering says of it, and where a click and keys lead."""
        found, promised = list(self.run.worst_windows()), [line.split()[-1] for line in self.run.curve[1:]]
        shown = self.view.value(f"{[window for window, *_ in found]}.map((window) => {{ const {{ from, least }} = worstOf(window); return [window, least, from]; }})")
        want(f"{self.name}: where windows have their least", shown, [list(it) for it in found])
        places = self.view.value(f"{[window for window, *_ in found]}.map(curveScale(widths.curve).x)")
        for (window, least, _), floor, x in zip(found, promised, places):
            # a mouse is at whole dots
            if self.view.kind == "node" or all(abs(x - other) > 2 for other in places if other != x):
                self.hover("curve", x, f"window {window}: least {least}, floor {floor}")
        at = len(found) * 2 // 3 - 1
        self.view.click("curve", places[at])
        self.see_stretch(*found[at])
        for key, to in (("w", at + 1), ("W", at)):
            self.view.press(key)
            self.see_stretch(*found[to])
        self.press_until("Escape", "document.getElementById('stretch').textContent === ''")

    def see_stretch(self, window, least, start):
        """The line on the stretch that is marked, at whose first unit the page is."""
        first, last = self.run.event_at(start), self.run.event_at(start + window - 1)
        says = f"The window of {window} units has its least, {least} of the mutator, from unit {start} to {start + window} of the trace: in events {first} to {last}."
        self.view.wait(f"document.getElementById('stretch').textContent === {json.dumps(says)}")
        self.view.wait(f"unitAt(+document.body.dataset.moment) >= {start} && (!+document.body.dataset.moment || unitAt(document.body.dataset.moment - 1) < {start})")

    def see_lives(self):
        """The life of each block, and where its words lead."""
        lives = Lives(self.run).lines
        asked = json.dumps([[int(number) for number in name.split(".")] for name in lives])
        links = "[...it.querySelectorAll('a')].map((link) => link.getAttribute('href'))"
        shown = self.view.value(f"{asked}.map((name) => {{ showLife(...name); return [...document.getElementById('life').children].map((it) => [it.textContent, {links}]); }})")
        for lines, (name, wanted) in zip(shown, lives.items()):
            if len(wanted) <= MOST_LIFE:
                want(f"{self.name}: the life of {name}", "\n".join(text for text, _ in lines), "\n".join(wanted))
                want(f"{self.name}: where the life of {name} leads", [links for _, links in lines], list(map(Lives.links, wanted)))

    def at(self, event, step):
        """Waits until the page is at so many steps of an event."""
        self.view.wait(f"document.body.dataset.moment === '{self.run.moment(event, step)}'")

    def press_to(self, key, event, step):
        self.view.press(key)
        self.at(event, step)

    def search(self):
        """Each key, and its button, from the first moment on, and then back."""
        last = len(self.run.entries)
        for name, key in (("refusal", "n"), ("move", "m"), ("cycle", "c"), ("quantum", "q")):
            self.press_until("Home", "document.body.dataset.moment === '0'")
            self.press_until(key.upper(), f"document.getElementById('found').textContent === 'no earlier {name}'")
            places = list(self.run.places(name))
            for place in places[:MOST_FOUND]:
                self.press_to(key, *place)
            for place in places[:MOST_FOUND][-2::-1]:
                self.press_to(key.upper(), *place)
            if places:
                self.wait_address(*places[0])
                self.press_until("Home", "document.body.dataset.moment === '0'")
                self.click_on(f"seek-{name}")
                self.at(*places[0])
            self.press_until("End", f"document.body.dataset.event === '{last}'")
            self.press_until(key, f"document.getElementById('found').textContent === 'no later {name}'")

    def click_on(self, part):
        self.view.value(f"document.getElementById('{part}').click()")

    def see_addresses(self):
        """Addresses of cycles, of blocks and of moments, and of what isn't there."""
        asked = [(f"#cycle{number}", (cycle.events[0], 1)) for number, cycle in enumerate(cycles_of(self.run), 1)]
        births = [step.split()[4] for command in self.run.commands for step in command if step.startswith("make ") and " part 0 " in step]
        for birth in births[len(births) // 2:][:1]:
            asked.append((f"#birth{birth}", next((event, 0) for event, command in enumerate(self.run.commands, 1) if any(f" birth {birth} part 0 " in step for step in command))))
        last, lengths = len(self.run.entries), list(map(len, self.run.quanta))
        event = lengths.index(max(lengths)) + 1
        end = (last, len(self.run.quanta[last - 1]))
        for address, place in (*asked, (f"#{event}", (event, lengths[event - 1])), (f"#{event}.2", (event, 2)), ("#cycle98765", end), (f"#{event}.0", (event, 0)), ("#birth98765", end), (f"#{event}.0", (event, 0)), ("#98765", end), (f"#{event}.0", (event, 0))):
            self.view.value(f"location.hash = '{address}'")
            self.at(*place)
            says = {"#cycle98765": "no cycle 98765", "#98765": "event 98765 isn't on this page"}.get(address, "")
            self.view.wait(f"document.getElementById('found').textContent === {json.dumps(says)}")
        self.wait_address(*place)

    def try_hands(self):
        """Buttons, sliders, rows, and keys that nothing else presses, from the midst of the run on."""
        event = len(self.run.entries) // 2
        ends = [(at, len(self.run.quanta[at - 1])) for at in range(1, len(self.run.entries) + 1)]
        here, before = ends[event - 1], ends[event - 2]
        self.view.value(f"location.hash = '#{event}'")
        self.at(*here)
        back = (event, here[1] - 1) if here[1] else before
        for part, place in (("event-back", before), ("event-on", here), ("step-back", back), ("step-on", here)):
            self.click_on(part)
            self.at(*place)
        self.slide("event", event // 2, ends[event // 2 - 1])
        cycle = cycles_of(self.run)[0].events[0]
        self.slide("event", cycle, ends[cycle - 1])
        self.slide("step", 1, (cycle, 1))
        for key, at in (("ArrowRight", cycle + 1), ("ArrowLeft", cycle)):
            self.view.press(key, "event")
            self.at(*ends[at - 1])
        row = int(self.view.value("document.querySelector('#replies div').textContent").split()[0])
        self.view.value("document.querySelector('#replies div').click()")
        self.at(*ends[row - 1])
        self.view.value("[...document.querySelectorAll('#cycle-rows tr')].find((row) => row.children.length).click()")
        self.at(cycle, 1)
        self.try_link()
        self.try_trace()
        self.try_choices()
        self.try_asked()

    def slide(self, part, value, place):
        """Draws a slider there."""
        self.view.value(f"(() => {{ const it = document.getElementById('{part}'); it.value = {value}; it.oninput(); }})()")
        self.at(*place)

    def try_link(self):
        """Copying the link, which a browser may refuse. Then the page shows it."""
        self.view.press("l")
        self.view.wait("['the link is copied', location.href].includes(document.getElementById('found').textContent)")
        if self.view.kind == "node":
            want(f"{self.name}: what was copied", self.view.copied(), [self.view.value("location.href")])

    def try_trace(self):
        """A click on the trace and on the counts, in the midst of the event that is longest there."""
        ends = [0, *self.run.ends()]
        event = max(range(1, len(ends)), key=lambda at: ends[at] - ends[at - 1])
        for part in ("trace", "times"):
            self.press_until("Home", "document.body.dataset.moment === '0'")
            self.view.click(part, self.view.value("widths.trace") * (ends[event] + ends[event - 1]) / 2 / ends[-1])
            self.at(event, len(self.run.quanta[event - 1]))

    def try_choices(self):
        """Keys that choose a page, the colours, and the scale of the curve."""
        page = int(re.match(r"page (\d+)", self.view.value("document.getElementById('page-head').textContent"))[1])
        for key, wanted in (("]", min(page + 1, self.run.pages - 1)), ("[", max(0, min(page + 1, self.run.pages - 1) - 1))):
            self.press_until(key, f"document.getElementById('page-head').textContent.startsWith('page {wanted}:')")
        self.view.wait("!document.getElementById('follow').checked")
        self.click_on("follow")
        theme = self.view.value("document.documentElement.dataset.theme")
        self.press_until("t", f"document.documentElement.dataset.theme !== '{theme}'")
        self.press_until("t", f"document.documentElement.dataset.theme === '{theme}'")
        for is_whole in ("true", "false"):
            self.view.press("%")
            self.view.wait_long(f"document.getElementById('to-whole').checked === {is_whole}")

    def try_asked(self):
        """The life of the block that a step is about, by its key; of one that is asked for; and of one that isn't there."""
        for verb in ("mark", "move", "sweep place \\S+ fate freed"):
            found = ((event, number, step) for event, steps in enumerate(self.run.quanta, 1) for number, step in enumerate(steps, 1) if re.match(verb, step))
            for event, number, step in list(found)[-1:]:
                birth, part = re.search(r" birth (\d+) part (\d+)", step).groups()
                self.view.value(f"location.hash = '#{event}.{number}'")
                self.at(event, number)
                self.view.press("b")
                self.view.wait_long(f"document.getElementById('block').value === '{birth}.{part}'")
        self.view.value("document.getElementById('block').value = '98765.4', document.getElementById('life-form').onsubmit({ preventDefault() {} })")
        self.view.wait("document.getElementById('life').textContent === 'no block 98765.4 is on this page'")

    def see_cursors(self):
        """The cursor at each step that is kept, with the place of the step that follows it in the run."""
        script = f"[...Array(momentCount).keys()].filter((m) => deedAt(m) && !events[moments.event[m] - 1].whole).slice(0, {MOST_CURSORS}).map((m) => [moments.event[m], WORDS[deedAt(m)[0]](deedAt(m)), cursorOf(momentAt(m))])"
        at = {}
        for event, says, cursor in self.view.value(script):
            steps, start = self.run.quanta[event - 1], at.get(event, 0)
            found = next(i for i, step in enumerate(steps[start:], start) if step.startswith(says + " "))
            at[event] = found + 1
            if wanted := cursor_before(steps[found + 1:]):
                want(f"{self.name}: event {event}: cursor after {says}", cursor, wanted)

    def see_blocks(self):
        """Hovers over each slot of the last map."""
        made = {}
        for words in (step.split() for steps in self.run.commands for step in steps if step.startswith("make ")):
            made[f"{words[4]}.{words[6]}"] = f"references {words[10]} numbers {words[12]}"
        self.view.size(*LARGE)
        self.view.frames()
        for place in self.heap.slots():
            x, y = self.view.value(f"(() => {{ const [a, b, w, h] = cellIn({place.replace('.', ', ')}); return [a + w / 2, b + h / 2]; }})()")
            self.view.hover("map", x, y)
            wanted = [f"place {place}: {STATES[self.heap.state(place)][2]}" + (f" to {self.heap.forwarders[place]}" if place in self.heap.forwarders else "")]
            if name := self.heap.names.get(place):
                birth, part = name.split(".")
                wanted += [f"birth {birth} part {part}", made[name], f"stamp {self.heap.shaded[place]}"]
            self.view.wait(f"document.getElementById('tip').textContent.startsWith({json.dumps(wanted[0])})")
            shown = self.view.value("document.getElementById('tip').textContent").splitlines()
            want(f"{self.name}: what hovering says of {place}", shown[:len(wanted)], wanted)
        self.keep_pictures("end")

    def keep_pictures(self, moment):
        if self.keep is None or self.view.kind == "node":
            return
        for look, width, height, theme in (("light", 1280, 1000, "light"), ("dark", 1280, 1000, "dark"), ("narrow", 420, 900, "light")):
            self.view.size(width, height)
            self.view.theme(theme)
            self.view.picture(self.keep / f"{self.run.name}-{moment}-{look}.png")
        self.view.theme("light")
        self.view.size(*SMALL)
        self.view.frames()
