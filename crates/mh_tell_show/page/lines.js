// The trace ----------------------------------------------------------------------------------------
// Trace, cycles and time lines lie one above the other: a unit is at the same place in each. Units count from the first event of the page.
const TRACE_HEIGHT = 58, STRIP_HEIGHT = 38;
const spentIn = (e) => Math.max(0, e.spent);
const total = events.reduce((sum, e) => sum + e.units + spentIn(e), 0) || 1;
const unitAt = (m) => moments.mutator[m] + moments.collector[m];
// the first of so many numbers of which this holds; it holds of all after that too
function firstOf(low, high, holds) {
  while (low < high) { const mid = low + high >> 1; if (holds(mid)) high = mid; else low = mid + 1; }
  return low;
}
// the first event that ends after this unit, and the first moment that has so many units
const eventAt = (unit) => firstOf(1, events.length, (event) => unitAt(lastOf(event)) > unit);
const momentOf = (unit) => firstOf(0, momentCount - 1, (m) => unitAt(m) >= unit);
// what is made of a width is kept until the width changes
function keptFor(make) {
  let kept = { width: -1 };
  return (width) => kept.width === width ? kept : kept = { width, ...make(width) };
}
function addStretch(shares, from, to) {
  for (let x = Math.floor(from); x < to && x < shares.length; x += 1) shares[x] += Math.min(to, x + 1) - Math.max(from, x);
}
// what share of each dot of the trace is the mutator's, and what the collector's
const traceOf = keptFor((width) => {
  const mutator = new Float64Array(width), collector = new Float64Array(width), scale = width / total;
  let done = 0;
  for (const e of events) {
    const mid = done + e.units, end = mid + spentIn(e);
    addStretch(mutator, done * scale, mid * scale);
    addStretch(collector, mid * scale, end * scale);
    done = end;
  }
  return { mutator, collector };
});
// the stretch of the trace that is marked, if one is
let stretch = null;
function drawStretch(c, width, height) {
  if (!stretch) return;
  const from = stretch.from / total * width, to = Math.max(from + 2, (stretch.from + stretch.window) / total * width);
  c.fillStyle = colours["--hot"]; c.fillRect(from, 0, to - from, height);
  c.fillStyle = colours["--floor"]; c.fillRect(from, 0, 1, height); c.fillRect(to - 1, 0, 1, height);
}
function drawMoment(c, width, height) {
  const x = Math.min(width - 2, Math.max(1, unitAt(moment) / total * width));
  c.fillStyle = colours["--ink"]; c.fillRect(x - 1, 0, 2, height);
  return x;
}
// What is the same at each moment is drawn once, and then copied.
const backs = {};
function penOver(id, height, paint) {
  const [c, width] = pen(id, height), canvas = at(id), look = [canvas.width, width, document.documentElement.dataset.theme, stretch && stretch.window].join();
  if (!canvas.width) return [c, width];
  if (backs[id] && backs[id].look === look) { c.drawImage(backs[id].copy, 0, 0, width, height); return [c, width]; }
  drawStretch(c, width, height);
  paint(c, width);
  const copy = document.createElement("canvas");
  copy.width = canvas.width; copy.height = canvas.height; copy.getContext("2d").drawImage(canvas, 0, 0);
  backs[id] = { look, copy };
  return [c, width];
}
function paintTrace(c, width) {
  const shares = traceOf(width), high = 22;
  for (const [name, foot] of [["mutator", 26], ["collector", 52]]) {
    c.fillStyle = colours["--" + name];
    for (let x = 0; x < width; x += 1) if (shares[name][x] > 0) { const h = Math.max(1, shares[name][x] * high); c.fillRect(x, foot - h, 1, h); }
  }
  c.strokeStyle = colours["--line"]; c.beginPath(); c.moveTo(0, 28); c.lineTo(width, 28); c.stroke();
}
function drawTrace() {
  const [c, width] = penOver("trace", TRACE_HEIGHT, paintTrace), x = drawMoment(c, width, TRACE_HEIGHT);
  c.beginPath(); c.moveTo(x - 5, 0); c.lineTo(x + 5, 0); c.lineTo(x, 6); c.fill();
  at("trace-head").textContent = `trace: ${now.mutator} units of the mutator (above) and ${now.collector} of the collector (below) so far, of ${total}` + (skipped ? `; before them ${mutatorBefore} and ${collectorBefore}` : "");
}

// The cycles ---------------------------------------------------------------------------------------
// A cycle goes from its first quantum to its last. NaN is what isn't known: deeds that are left out would say it, or events before the page.
const cycles = [], firstCycle = cycleBefore + (phaseBefore ? 0 : 1), unitsBefore = mutatorBefore + collectorBefore;
const cycleOf = (number) => cycles[number - firstCycle];
const countsAt = (m) => [moments.free[m], moments.live[m], moments.old[m]];
function beginCycle(number, event, m, isAsked) {
  cycles.push({
    number, cause: isAsked ? "asked" : "trigger", firstEvent: event, lastEvent: 0, moment: m, end: momentCount - 1, from: unitAt(m), to: total,
    quanta: 0, units: [0, 0, 0, 0, 0], marked: 0, made: 0, freed: 0, moved: 0, before: countsAt(m), after: [NaN, NaN, NaN],
  });
  return cycles[cycles.length - 1];
}
// one that runs before the first event of the page
function goOn() {
  const cycle = beginCycle(cycleBefore, NaN, 0, false), unknown = Object.fromEntries(["quanta", "marked", "made", "freed", "moved"].map((name) => [name, NaN]));
  return Object.assign(cycle, unknown, { cause: DASH, units: [0, NaN, NaN, NaN, NaN], before: [NaN, NaN, NaN] });
}
function endCycle(cycle, event) {
  const end = lastOf(event);
  Object.assign(cycle, { lastEvent: event, end, to: unitAt(end), after: countsAt(end) });
}
// The units of a quantum go to the phases that it went through. Those of deeds that are left out are known if that is one phase.
function addUnits(cycle, e, phase) {
  const entered = e.deeds.filter((d) => d[0] === 1).map((d) => d[1]), phases = phase ? [phase, ...entered] : entered;
  if (!e.whole) for (const each of phases) cycle.units[each] += phases.length > 1 ? NaN : e.spent;
  else for (const d of e.deeds) { if (d[0] === 1) phase = d[1]; cycle.units[phase] += unitsOf(d); }
}
function addDeed(cycle, d) {
  if (d[0] === 4) cycle.marked += 1;
  else if (d[0] === 7 && d[2] === 2) cycle.freed += 1;
  else if (d[0] === 12) cycle.moved += 1;
}
(function readCycles() {
  let cycle = phaseBefore ? goOn() : null, isAsked = isAskedBefore === 1;
  events.forEach((e, i) => {
    const event = i + 1, phase = moments.phase[firstMoment[event]];
    if (e.text === "* start") isAsked = true;
    if (cycle) for (const d of e.command) if (d[0] === 15) cycle.made += 1;
    if (e.spent < 0) return;
    if (e.deeds.length && e.deeds[0][0] === 0) { cycle = beginCycle(e.deeds[0][1], event, firstMoment[event] + 1, isAsked); isAsked = false; }
    if (!cycle) return;
    cycle.quanta += 1;
    addUnits(cycle, e, phase);
    for (const d of e.deeds) addDeed(cycle, d);
    if (e.deeds.length && e.deeds[e.deeds.length - 1][0] === 2) { endCycle(cycle, event); cycle = null; }
  });
})();
// the number in the list of the cycle that runs at the moment in sight, or -1
const cycleNow = () => cycleOf(now.cycle) && moment <= cycleOf(now.cycle).end ? now.cycle - firstCycle : -1;
// the cycle that runs at this unit, or else the last before it, or the first
function cycleAt(unit) { return cycles[Math.max(0, firstOf(0, cycles.length, (i) => cycles[i].from > unit) - 1)]; }
const goCycle = (cycle) => { if (cycle) go(cycle.moment); };

// what share of each dot of the strip each phase has, and how many quanta begin there
const stripOf = keptFor((width) => {
  const shares = PHASES.map(() => new Float64Array(width)), quanta = new Float64Array(width), scale = width / total;
  let from = 0;
  for (let m = 1; m < momentCount; m += 1) {
    const phase = moments.phase[m - 1], isLast = m === momentCount - 1;
    if (phase && (isLast || moments.phase[m] !== phase)) addStretch(shares[phase], from * scale, unitAt(m) * scale);
    if (moments.phase[m] !== phase) from = unitAt(m);
    if (moments.deed[m] === 0 && (phase || moments.phase[m + 1])) quanta[Math.min(width - 1, Math.floor(unitAt(m - 1) * scale))] += 1;
  }
  return { shares, quanta };
});
const BAR_HEAD = 14, BAR_FOOT = 34, NOTCH_GAP = 4;
function drawNotches(c, quanta) {
  let last = -NOTCH_GAP;
  c.fillStyle = colours["--ink"];
  quanta.forEach((count, x) => { if (count && x - last >= NOTCH_GAP) { c.fillRect(x, BAR_HEAD, 1, 5); last = x; } });
}
// the number of each cycle above its bar, where there is room
function drawNumbers(c, width) {
  const current = cycleNow();
  let free = 0;
  for (let x = 0; x < width && cycles.length; x = Math.max(x + 1, free)) {
    const cycle = cycles[firstOf(0, cycles.length - 1, (i) => cycles[i].from / total * width >= x)], left = cycle.from / total * width, size = c.measureText(cycle.number).width;
    if (left < x) return;
    c.fillStyle = colours[cycle === cycles[current] ? "--ink" : "--dim"];
    if (left + size <= width) c.fillText(cycle.number, left, 10);
    free = Math.ceil(left + size + 6);
  }
}
function paintStrip(c, width) {
  const { shares, quanta } = stripOf(width), high = BAR_FOOT - BAR_HEAD;
  for (let x = 0; x < width; x += 1) {
    let foot = BAR_FOOT;
    for (let phase = 1; phase < PHASES.length; phase += 1) {
      const h = shares[phase][x] * high;
      if (h > 0) { c.fillStyle = colours["--" + PHASES[phase]]; c.fillRect(x, foot - h, 1, h); }
      foot -= h;
    }
  }
  drawNotches(c, quanta);
}
function drawStrip() {
  const [c, width] = penOver("strip", STRIP_HEIGHT, paintStrip);
  drawNumbers(c, width);
  drawMoment(c, width, STRIP_HEIGHT);
}

// The table of cycles ------------------------------------------------------------------------------
const TABLE_ROW = 20;
const CYCLE_COLUMNS = ["cycle", "cause", "first", "last", "quanta", "roots", "mark", "sweep", "defrag", "marked", "made", "freed", "moved", "from", "to", "from", "to", "from", "to"];
const CYCLE_GROUPS = [["", 2], ["events", 2], ["", 1], ["units", 4], ["blocks", 4], ["free pages", 2], ["live blocks", 2], ["forwarders", 2]];
const known = (number) => Number.isNaN(number) ? DASH : String(number);
function cycleRow(c) {
  const pairs = c.before.flatMap((count, i) => [count, c.after[i]]);
  return [String(c.number), c.cause, ...[numberOf(c.firstEvent), c.lastEvent ? numberOf(c.lastEvent) : NaN, c.quanta, ...c.units.slice(1), c.marked, c.made, c.freed, c.moved, ...pairs].map(known)];
}
function addCycleRow(body, i, current) {
  const row = add(body, "tr", ""), cycle = cycles[i];
  cycleRow(cycle).forEach((text, column) => { const cell = add(row, "td", column ? text : ""); if (!column) add(cell, "a", text).href = "#cycle" + text; });
  row.onclick = () => goCycle(cycle);
  if (i === current) row.setAttribute("aria-current", "true");
}
// Only the rows in sight are in the document. They are made anew when another cycle runs.
let shownCycle = null;
function drawTable() {
  const box = at("cycles"), body = at("cycle-rows"), current = cycleNow(), y = current * TABLE_ROW;
  if (current === shownCycle) return;
  shownCycle = current;
  const show = () => {
    const first = Math.max(0, Math.floor(box.scrollTop / TABLE_ROW) - 2), end = Math.min(cycles.length, first + 16);
    body.replaceChildren();
    add(body, "tr", "").style.height = first * TABLE_ROW + "px";
    for (let i = first; i < end; i += 1) addCycleRow(body, i, current);
    add(body, "tr", "").style.height = (cycles.length - end) * TABLE_ROW + "px";
  };
  box.onscroll = show;
  show();
  if (current >= 0 && (y < box.scrollTop || y > box.scrollTop + box.clientHeight - 3 * TABLE_ROW)) box.scrollTop = Math.max(0, y - box.clientHeight / 3);
}
function beginTable() {
  const head = at("cycle-head"), groups = add(head, "tr", ""), names = add(head, "tr", ""), widths = CYCLE_COLUMNS.map((name) => name.length);
  for (const [text, span] of CYCLE_GROUPS) add(groups, "th", text).colSpan = span;
  for (const name of CYCLE_COLUMNS) add(names, "th", name).scope = "col";
  for (const cycle of cycles) cycleRow(cycle).forEach((text, i) => { widths[i] = Math.max(widths[i], text.length); });
  for (const width of widths) add(at("cycle-columns"), "col", "").style.width = width + 2 + "ch";
  at("cycles-head").textContent = cycles.length ? `cycles: ${cycles.length}` : "cycles: none runs";
}

// Time lines ---------------------------------------------------------------------------------------
const LINE_HEIGHT = 52, LINES = [
  { name: "free", says: "free pages", colour: "--flag", at: (m) => moments.free[m] },
  { name: "live", says: "live blocks", colour: "--live", at: (m) => moments.live[m] },
  { name: "old", says: "forwarders", colour: "--moved", at: (m) => moments.old[m] },
  { name: "grey", says: "grey list", colour: "--grey", at: (m) => moments.tail[m] - moments.head[m] },
];
// of each dot the least and the most that each line has there
const timesOf = keptFor((width) => {
  const least = LINES.map(() => new Float64Array(width).fill(Infinity)), most = LINES.map(() => new Float64Array(width)), scale = width / total;
  for (let m = 0, x = 0; m < momentCount; m += 1) {
    const end = m + 1 < momentCount ? Math.min(width - 1, Math.floor(unitAt(m + 1) * scale)) : width - 1;
    for (let i = 0; i < LINES.length; i += 1) {
      const value = LINES[i].at(m);
      for (let dot = x; dot <= end; dot += 1) { if (value < least[i][dot]) least[i][dot] = value; if (value > most[i][dot]) most[i][dot] = value; }
    }
    x = end;
  }
  return { least, most, tops: most.map((line) => line.reduce((a, b) => Math.max(a, b), 1)) };
});
function paintTime(c, width, i) {
  const { least, most, tops } = timesOf(width), top = i ? tops[i] : pages, head = i * LINE_HEIGHT + 16, foot = (i + 1) * LINE_HEIGHT - 4;
  const y = (value) => foot - value / top * (foot - head);
  c.strokeStyle = colours["--line"]; c.beginPath(); c.moveTo(0, foot + 0.5); c.lineTo(width, foot + 0.5); c.stroke();
  c.fillStyle = colours[LINES[i].colour];
  for (let x = 0; x < width; x += 1) c.fillRect(x, y(most[i][x]) - 1, 1, y(least[i][x]) - y(most[i][x]) + 2);
  if (i) return;
  c.strokeStyle = colours["--floor"]; c.setLineDash([6, 4]); c.beginPath(); c.moveTo(0, y(trigger)); c.lineTo(width, y(trigger)); c.stroke(); c.setLineDash([]);
}
function drawTimes() {
  const [c, width] = penOver("times", LINE_HEIGHT * LINES.length, (c, width) => LINES.forEach((_, i) => paintTime(c, width, i))), { tops } = timesOf(width);
  c.fillStyle = colours["--dim"];
  LINES.forEach(({ says, at }, i) => c.fillText(`${says}: ${at(moment)}, at most ${i ? tops[i] : pages}` + (i ? "" : `; a cycle starts at ${trigger} or fewer`), 4, i * LINE_HEIGHT + 12));
  drawMoment(c, width, LINE_HEIGHT * LINES.length);
}

// The curve ----------------------------------------------------------------------------------------
// The share in sight goes up to the least of these that holds all, or to the whole.
const CURVE_HEIGHT = 180, TOPS = [0.001, 0.002, 0.005, 0.01, 0.02, 0.05, 0.1, 0.2, 0.5, 1];
function curveScale(width) {
  const most = Math.max(0, ...points.map((p) => Math.max(p.least, p.floor) / p.window)), last = points.length ? points[points.length - 1].window : 1;
  const left = 52, right = width - 14, head = 12, foot = CURVE_HEIGHT - 22, top = at("to-whole").checked ? 1 : TOPS.find((t) => t >= most) || 1;
  return { left, right, head, foot, top, last, x: (w) => left + (last > 1 ? Math.log(w) / Math.log(last) : 0) * (right - left), y: (share) => foot - share / top * (foot - head) };
}
function drawAxes(c, { left, right, head, foot, top, last, x, y }) {
  c.strokeStyle = colours["--line"]; c.fillStyle = colours["--dim"]; c.textAlign = "right";
  for (const share of [0, top / 2, top]) {
    c.beginPath(); c.moveTo(left, y(share)); c.lineTo(right, y(share)); c.stroke();
    c.fillText(+(100 * share).toFixed(2) + " %", left - 6, y(share) + 4);
  }
  c.textAlign = "center";
  for (let w = 1; w <= last && x(w) < right - 110; w *= 10) { c.beginPath(); c.moveTo(x(w), head); c.lineTo(x(w), foot); c.stroke(); c.fillText(w, x(w), foot + 15); }
  c.textAlign = "right"; c.fillText(`window: ${last} units`, right, foot + 15);
  c.textAlign = "left";
}
function drawLine(c, { x, y }, colour, dash, shown) {
  c.strokeStyle = colours[colour]; c.setLineDash(dash); c.lineWidth = 2; c.beginPath();
  for (const [window, units] of shown) c.lineTo(x(window), y(units / window));
  c.stroke(); c.setLineDash([]); c.lineWidth = 1;
}
function drawChosenWindow(c, { x, y, head, foot }) {
  if (!stretch) return;
  c.fillStyle = colours["--ink"]; c.fillRect(x(stretch.window) - 0.5, head, 1, foot - head);
  c.beginPath(); c.arc(x(stretch.window), y(stretch.least / stretch.window), 4, 0, 7); c.fill();
}
function drawCurve() {
  const [c, width] = pen("curve", CURVE_HEIGHT), scale = curveScale(width), { left, head } = scale;
  drawAxes(c, scale);
  const promised = points.filter((p) => p.floor >= 0), lines = [["--mutator", [], "least share of the mutator", points.map((p) => [p.window, p.least])]];
  if (promised.length) lines.push(["--floor", [6, 4], "floor that the configuration promises", promised.map((p) => [p.window, p.floor])]);
  lines.forEach(([colour, dash, says, shown], i) => {
    drawLine(c, scale, colour, dash, shown);
    c.strokeStyle = colours[colour]; c.setLineDash(dash); c.lineWidth = 2;
    c.beginPath(); c.moveTo(left + 8, head + 14 + 16 * i); c.lineTo(left + 36, head + 14 + 16 * i); c.stroke(); c.setLineDash([]); c.lineWidth = 1;
    c.fillStyle = colours["--ink"]; c.fillText(says, left + 42, head + 18 + 16 * i);
  });
  drawChosenWindow(c, scale);
}
const pointAt = (x) => { const scale = curveScale(widths.curve), far = (p) => Math.abs(scale.x(p.window) - x); return points.reduce((best, p) => far(p) < far(best) ? p : best, points[0]); };

// The worst window ---------------------------------------------------------------------------------
// Where the trace turns from the mutator to the collector or back; before an even turn the collector has its units, after it the mutator.
const turns = new Float64Array(2 * events.length + 1), mutatorAt = new Float64Array(2 * events.length + 1);
events.forEach((e, i) => {
  turns[2 * i + 1] = turns[2 * i] + e.units; turns[2 * i + 2] = turns[2 * i + 1] + spentIn(e);
  mutatorAt[2 * i + 1] = mutatorAt[2 * i + 2] = mutatorAt[2 * i] + e.units;
});
// the mutator's units before a unit, asked for in ascending order
function mutatorReader() {
  let turn = 0;
  return (unit) => {
    while (turn + 1 < turns.length && turns[turn + 1] <= unit) turn += 1;
    return mutatorAt[turn] + (turn % 2 ? 0 : unit - turns[turn]);
  };
}
// The first place where a window has its least. The units in it fall or rise evenly while neither end is at a turn: so it begins at one, or ends at one.
function worstOf(window) {
  let worst = { from: 0, window, least: Infinity };
  for (const shift of [0, window]) {
    const before = mutatorReader(), after = mutatorReader();
    for (const turn of turns) {
      const from = turn - shift;
      if (from < 0 || from + window > turns[turns.length - 1]) continue;
      const least = after(from + window) - before(from);
      if (least < worst.least || (least === worst.least && from < worst.from)) worst = { from, window, least };
    }
  }
  return worst;
}
function showStretch() {
  const { from, window, least } = stretch || {};
  at("stretch").textContent = stretch ? `The window of ${window} units has its least, ${least} of the mutator, from unit ${unitsBefore + from} to ${unitsBefore + from + window} of the trace: in events ${numberOf(eventAt(from))} to ${numberOf(eventAt(from + window - 1))}.` : "";
  drawCurve();
}
function markWindow(window) { stretch = worstOf(window); showStretch(); go(momentOf(stretch.from)); }
function unmark() { stretch = null; showStretch(); ask(); }
// the window of the curve so many further than the marked one
function nextWindow(by) {
  const here = stretch ? points.findIndex((p) => p.window === stretch.window) : by > 0 ? -1 : points.length;
  if (points[here + by]) markWindow(points[here + by].window);
}

