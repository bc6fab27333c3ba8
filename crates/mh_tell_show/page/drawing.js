"use strict";
// The numbers of the run ---------------------------------------------------------------------------
// What is drawn of a slot or a page is the last that a deed said of it, or what the heap was before. A 0 ends each list.
const run = JSON.parse(document.getElementById("run").textContent);
const [rules, pages, quantum, trigger, every] = run.config;
const listed = (rows) => { rows.pop(); return rows; };
const events = listed(run.events).map(([text, reply, units, whole, command, roots, ran]) => ({
  text, reply, units, whole, command: listed(command), roots: listed(roots),
  spent: ran ? ran[0] : -1, ended: ran ? ran[1] : 0, deeds: ran ? listed(ran[2]) : [],
}));
// Whose root slots these are: a session's, with its name in the script if that is another, or those of the board
const names = listed(run.names);
const ownerOf = (who) => who === 8 ? "board" : (names[who] ?? "s" + who) === "s" + who ? "s" + who : `s${who} (${names[who]})`;
// what was before the first event of the page: how many events, their units, the collector, and the heap
const [skipped, mutatorBefore, collectorBefore, cycleBefore, phaseBefore, cursorBefore, isAskedBefore] = run.before;
const heapBefore = listed(run.heap), rootsBefore = new Array(144).fill(-1);
for (const [slot, place] of listed(run.roots)) rootsBefore[slot] = place;
// the number that an event of the page has in the run
const numberOf = (event) => skipped + event;
const points = listed(run.curve).map(([window, least, floor]) => ({ window, least, floor }));
const PHASES = ["idle", "roots", "mark", "sweep", "defrag"];
const TIERS = ["dense", "free", "sparse"];
// What stands for a number that isn't known
const DASH = "\u2013";
const at = (id) => document.getElementById(id);
const add = (parent, kind, text) => { const it = parent.appendChild(document.createElement(kind)); it.textContent = text; return it; };
const slotsOf = (size) => size ? Math.floor(256 / size) : 0;
const word = (place) => place < 0 ? "none" : (place >> 6) + "." + (place & 63);
const yes = (flag) => flag ? "yes" : "no";

// The words of a deed by its kind, as `metroheap steps` writes them
const WORDS = [
  (d) => `start cycle ${d[1]}`,
  (d) => `enter phase ${PHASES[d[1]]}`,
  () => "end",
  (d) => `root slot ${d[1]} from ${word(d[2])} to ${word(d[3])} shaded ${yes(d[4])}`,
  (d) => `mark place ${word(d[1])} birth ${d[2]} part ${d[3]}`,
  (d) => `reference index ${d[1]} from ${word(d[2])} to ${word(d[3])} shaded ${yes(d[4])}`,
  (d) => `pass page ${d[1]}`,
  (d) => `sweep place ${word(d[1])} fate ` + ["empty", `kept birth ${d[3]} part ${d[4]}`, `freed birth ${d[3]} part ${d[4]}`, `forwarder to ${word(d[3])}`][d[2]],
  (d) => `free page ${d[1]}`,
  (d) => `flag page ${d[1]}`,
  (d) => `unflag page ${d[1]}`,
  (d) => `stay place ${word(d[1])}`,
  (d) => `move place ${word(d[1])} to ${word(d[2])} birth ${d[3]} part ${d[4]} class ${d[5]}`,
  () => "forward",
  (d) => `shade place ${word(d[1])}`,
  (d) => `make place ${word(d[1])} birth ${d[2]} part ${d[3]} class ${d[4]} references ${d[5]} numbers ${d[6]} tier ${TIERS[d[7]]}`,
];
const UNITS = [0, 0, 0, 2, 1, 1, 1, 1, 0, 0, 0, 1, 1, 144, 0, 0];
const unitsOf = (d) => UNITS[d[0]] + (d[0] === 12 ? d[5] : 0);
// the place that a deed is about, or -1
const placeOf = (d) => [4, 7, 11, 12, 14, 15].includes(d[0]) ? d[1] : d[0] === 3 || d[0] === 5 ? d[3] : -1;
const pageOf = (d) => [6, 8, 9, 10].includes(d[0]) ? d[1] : placeOf(d) >> 6;

// Moments ------------------------------------------------------------------------------------------
// Moment 0 is before the first event of the page. Each event has a moment after its command, and one after each deed of its quantum.
const UNIT_COLUMNS = ["left", "mutator", "collector"];
const COLUMNS = ["event", "deed", "phase", "cycle", "cursor", "head", "tail", "free", "live", "old", ...UNIT_COLUMNS];
const momentCount = events.reduce((sum, e) => sum + 1 + e.deeds.length, 1);
const moments = Object.fromEntries(COLUMNS.map((name) => [name, new (UNIT_COLUMNS.includes(name) ? Float64Array : Int32Array)(momentCount)]));
const momentAt = (m) => Object.fromEntries(COLUMNS.map((name) => [name, moments[name][m]]));
const firstMoment = new Float64Array(events.length + 2);
const lastOf = (event) => firstMoment[event + 1] - 1;
// what deeds said of slots and of pages, in order; `before` is the row that was true of the same slot or page
const slotRows = { moment: [], key: [], before: [], birth: [], part: [], stamp: [], to: [], references: [], numbers: [] };
const pageRows = { moment: [], key: [], before: [], size: [], flag: [] };
const lastSlot = new Int32Array(pages * 64).fill(-1), lastPage = new Int32Array(pages).fill(-1);
// the places that were shaded, in order; those from head to tail are the grey list
const greys = listed(run.grey);

function addRow(rows, last, moment, key, change) {
  const before = last[key], row = rows.moment.length;
  for (const name in rows) rows[name].push(name in change ? change[name] : before < 0 ? 0 : rows[name][before]);
  rows.moment[row] = moment; rows.key[row] = key; rows.before[row] = before;
  last[key] = row;
}
const addSlot = (moment, place, change) => addRow(slotRows, lastSlot, moment, place, change);
const addPage = (moment, page, change) => addRow(pageRows, lastPage, moment, page, change);
function shade(moment, now, place) {
  greys.push(place); now.tail = greys.length;
  addSlot(moment, place, { stamp: now.cycle });
}
function move(moment, from, to) {
  const row = lastSlot[from], block = {};
  for (const name of ["birth", "part", "stamp", "references", "numbers"]) block[name] = slotRows[name][row];
  addSlot(moment, to, { ...block, to: -1 });
  addSlot(moment, from, { to });
}
function free(moment, now, d) {
  if (d[2] < 2) return;
  now[d[2] === 2 ? "live" : "old"] -= 1;
  addSlot(moment, d[1], { birth: -1, to: -1 });
}
function make(moment, now, d) {
  if (d[7] === 1) { now.free -= 1; addPage(moment, d[1] >> 6, { size: d[4], flag: 0 }); }
  now.live += 1;
  addSlot(moment, d[1], { birth: d[2], part: d[3], stamp: now.cycle, to: -1, references: d[5], numbers: d[6] });
}
// What a deed says of the collector and of the map
function note(moment, now, d) {
  switch (d[0]) {
    case 0: now.cycle = d[1]; now.head = now.tail = greys.length; break;
    case 1: now.phase = d[1]; now.cursor = d[1] === 2 ? -1 : 0; break;
    case 2: now.phase = 0; now.cursor = -1; break;
    case 3: now.cursor = d[1] + 1; if (d[4]) shade(moment, now, d[3]); break;
    case 4: now.head += 1; break;
    case 5: if (d[4]) shade(moment, now, d[3]); break;
    case 6: now.cursor = 64 * (d[1] + 1); break;
    case 7: now.cursor = d[1] + 1; free(moment, now, d); break;
    case 8: now.cursor = 64 * (d[1] + 1); now.free += 1; addPage(moment, d[1], { size: 0, flag: 0 }); break;
    case 9: now.cursor = 64 * (d[1] + 1); addPage(moment, d[1], { flag: 1 }); break;
    case 10: now.cursor = 64 * (d[1] + 1); addPage(moment, d[1], { flag: 0 }); break;
    case 11: now.cursor = d[1] + 1; break;
    case 12: now.cursor = d[1] + 1; now.old += 1; move(moment, d[1], d[2]); break;
    case 14: shade(moment, now, d[1]); break;
    case 15: make(moment, now, d);
  }
}
// The cursor goes from a page's last slot to the next page
function turnPage(now) {
  if (now.phase < 3 || now.cursor % 64 === 0) return;
  const row = lastPage[Math.floor(now.cursor / 64)], size = row < 0 ? 0 : pageRows.size[row];
  if (now.cursor % 64 >= slotsOf(size)) now.cursor = 64 * Math.ceil(now.cursor / 64);
}
// The heap before: a row of a page has its class and its flag, and one of a block what it is
function readBefore(now) {
  for (const row of heapBefore) {
    if (row.length === 3) { now.free -= 1; addPage(0, row[0], { size: row[1], flag: row[2] }); continue; }
    const [place, birth, part, stamp, to, references, numbers] = row;
    now[to < 0 ? "live" : "old"] += 1;
    addSlot(0, place, { birth, part, stamp, to, references, numbers });
  }
}
(function load() {
  const now = {
    event: 0, deed: -1, phase: phaseBefore, cycle: cycleBefore, cursor: cursorBefore, head: 0, tail: greys.length, free: pages, live: 0, old: 0, left: -1, mutator: 0, collector: 0,
  };
  let m = 0;
  readBefore(now);
  const keep = () => { for (const name of COLUMNS) moments[name][m] = now[name]; m += 1; };
  keep();
  events.forEach((e, i) => {
    firstMoment[i + 1] = m;
    now.event = i + 1; now.deed = -1; now.left = -1; now.mutator += e.units;
    for (const d of e.command) note(m, now, d);
    keep();
    const before = now.collector;
    e.deeds.forEach((d, k) => {
      now.deed = k;
      if (e.whole) { now.left = (k ? now.left : quantum) - unitsOf(d); now.collector += unitsOf(d); }
      note(m, now, d); turnPage(now); keep();
    });
    if (e.spent > 0) moments.collector[m - 1] = now.collector = before + e.spent;
  });
  firstMoment[events.length + 1] = m;
})();

// The moment in sight ------------------------------------------------------------------------------
const slotNow = new Int32Array(pages * 64).fill(-1), pageNow = new Int32Array(pages).fill(-1);
let moment = 0, now = momentAt(0), slotNext = 0, pageNext = 0;
const sizeOf = (page) => pageNow[page] < 0 ? 0 : pageRows.size[pageNow[page]];
const isFlagged = (page) => pageNow[page] >= 0 && pageRows.flag[pageNow[page]] === 1;
const slotAt = (place, name) => slotRows[name][slotNow[place]];
function seek(rows, current, next, m) {
  while (next < rows.moment.length && rows.moment[next] <= m) { current[rows.key[next]] = next; next += 1; }
  while (next > 0 && rows.moment[next - 1] > m) { next -= 1; current[rows.key[next]] = rows.before[next]; }
  return next;
}
const [FREE, LIVE, WHITE, GREY, MARKED, CONDEMNED, FORWARDER] = [0, 1, 2, 3, 4, 5, 6];
const STATES = [
  { colour: "--free", sign: "", says: "free" },
  { colour: "--live", sign: "\u25cb", says: "live, no cycle runs" },
  { colour: "--white", sign: "?", says: "white, not marked yet" },
  { colour: "--grey", sign: "\u25cf", says: "grey" },
  { colour: "--marked", sign: "\u2713", says: "marked" },
  { colour: "--condemned", sign: "\u00d7", says: "condemned, to be freed" },
  { colour: "--moved", sign: "\u2197", says: "forwarder" },
];
const states = new Uint8Array(pages * 64), isGrey = new Uint8Array(pages * 64), counts = new Float64Array(STATES.length);
function stateOf(place) {
  const row = slotNow[place];
  if (row < 0 || slotRows.birth[row] < 0) return FREE;
  if (slotRows.to[row] >= 0) return FORWARDER;
  if (now.phase === 0) return LIVE;
  if (slotRows.stamp[row] === now.cycle) return isGrey[place] ? GREY : MARKED;
  return now.phase < 3 ? WHITE : CONDEMNED;
}
function readStates() {
  isGrey.fill(0); counts.fill(0);
  for (let i = now.head; i < now.tail; i += 1) isGrey[greys[i]] = 1;
  for (let page = 0; page < pages; page += 1) {
    const slots = slotsOf(sizeOf(page));
    for (let slot = 0; slot < slots; slot += 1) counts[states[64 * page + slot] = stateOf(64 * page + slot)] += 1;
  }
}
// brings slots and pages to the moment in sight
function catchUp() {
  slotNext = seek(slotRows, slotNow, slotNext, moment);
  pageNext = seek(pageRows, pageNow, pageNext, moment);
  readStates();
}
const deedNow = () => now.deed < 0 ? null : events[now.event - 1].deeds[now.deed];

// The map ------------------------------------------------------------------------------------------
const colours = {};
function readColours() {
  const style = getComputedStyle(document.documentElement);
  for (const name of ["--back", "--ink", "--dim", "--line", "--edge", "--hot", "--flag", "--mutator", "--collector", "--floor", "--onmarked", ...PHASES.slice(1).map((phase) => "--" + phase), ...STATES.map((s) => s.colour)]) colours[name] = style.getPropertyValue(name).trim();
}
// the widths of the canvases, which are read before anything is changed
const widths = { map: 0, page: 0, trace: 0, strip: 0, times: 0, curve: 0 };
function measure() { for (const id in widths) widths[id] = at(id).parentElement.clientWidth; }
function pen(id, height) {
  const canvas = at(id), ratio = window.devicePixelRatio || 1, width = widths[id], across = Math.round(width * ratio), down = Math.round(height * ratio);
  if (canvas.width !== across || canvas.height !== down) { canvas.width = across; canvas.height = down; canvas.style.width = width + "px"; canvas.style.height = height + "px"; }
  const c = canvas.getContext("2d");
  c.setTransform(ratio, 0, 0, ratio, 0, 0); c.clearRect(0, 0, width, height);
  c.font = "11px system-ui, DejaVu Sans, sans-serif"; c.lineWidth = 1;
  return [c, width];
}
// Pages smaller than SLOTS_SEEN show what share of their slots is in each state, larger ones each slot
const MOST_HEIGHT = 520, LARGEST = 156, SLOTS_SEEN = 26, MOST_ARROWS = 400;
let grid = { columns: 1, box: 10, top: 0, height: 10 }, zoom = 0, chosen = 0;
function layOut() {
  const frame = at("frame"), width = widths.map, rowsOf = (box) => Math.ceil(pages / Math.floor(width / box));
  let box = Math.min(LARGEST, Math.floor(width / Math.min(pages, 5)));
  while (box > 7 && rowsOf(box) * box > MOST_HEIGHT) box -= 1;
  box = Math.min(LARGEST, width, Math.round(box * 1.6 ** zoom));
  const all = rowsOf(box) * box + 1, height = Math.min(MOST_HEIGHT, all);
  frame.style.height = height + 2 + "px"; at("beyond").style.height = all - height + "px";
  grid = { columns: Math.floor(width / box), box, top: frame.scrollTop, height };
}
function scrollToChosen() {
  const frame = at("frame"), y = Math.floor(chosen / grid.columns) * grid.box;
  if (y < frame.scrollTop || y + grid.box > frame.scrollTop + grid.height) frame.scrollTop = y - (grid.height - grid.box) / 2;
  grid.top = frame.scrollTop;
}
const boxAt = (page) => [(page % grid.columns) * grid.box, Math.floor(page / grid.columns) * grid.box - grid.top];
// where a slot lies in the box of its page
function cellIn(page, slot) {
  const [x, y] = boxAt(page), { box } = grid, slots = slotsOf(sizeOf(page)) || 1;
  if (box < SLOTS_SEEN) return [x + 1, y + 1, box - 2, box - 2];
  const across = Math.ceil(Math.sqrt(slots)), down = Math.ceil(slots / across), top = box > 60 ? 17 : 3;
  const column = slot % across, row = Math.floor(slot / across), edge = (i, n, length) => Math.round(i * length / n);
  const left = edge(column, across, box - 6), head = edge(row, down, box - 3 - top);
  return [x + 3 + left, y + top + head, edge(column + 1, across, box - 6) - left, edge(row + 1, down, box - 3 - top) - head];
}
// the ink that can be read on a state
const inkOn = (state) => state === MARKED ? colours["--onmarked"] : state === FREE ? colours["--dim"] : state === WHITE ? colours["--ink"] : "#16181d";
function drawCell(c, [x, y, w, h], place) {
  const state = states[place], { colour, sign } = STATES[state], gap = w > 6 ? 1 : w > 3 ? 0.5 : 0;
  c.fillStyle = colours[colour]; c.fillRect(x, y, w - gap, h - gap);
  if (w > 5 && (state === FREE || state === WHITE)) { c.strokeStyle = colours["--line"]; c.strokeRect(x + 0.5, y + 0.5, w - gap - 1, h - gap - 1); }
  if (state === FREE || w < 8 || h < 8) return;
  c.fillStyle = inkOn(state);
  c.textAlign = "center";
  const name = state === FORWARDER ? ">" + word(slotAt(place, "to")) : slotAt(place, "birth") + "." + slotAt(place, "part");
  if (w > 34 && h > 30) { c.fillText(name, x + w / 2, y + h / 2 - 2, w - 4); c.fillText(sign, x + w / 2, y + h / 2 + 11); }
  else c.fillText(w > 44 ? `${name} ${sign}` : sign, x + w / 2, y + h / 2 + 4, w - 2);
  c.textAlign = "left";
}
// the share of each state in a small page, from below
function drawShares(c, [x, y], page) {
  const slots = slotsOf(sizeOf(page)), share = new Array(STATES.length).fill(0), high = grid.box - 2;
  for (let slot = 0; slot < slots; slot += 1) share[states[64 * page + slot]] += 1;
  let foot = y + grid.box - 1;
  for (const state of [MARKED, LIVE, GREY, WHITE, CONDEMNED, FORWARDER]) {
    const h = share[state] / slots * high;
    c.fillStyle = colours[STATES[state].colour]; c.fillRect(x + 1, foot - h, high, h);
    foot -= h;
  }
}
function drawPage(c, page) {
  const size = sizeOf(page), [x, y] = boxAt(page), { box } = grid;
  c.strokeStyle = colours[size && box >= SLOTS_SEEN ? "--edge" : "--line"]; c.lineWidth = 1;
  c.setLineDash(size || box < SLOTS_SEEN ? [] : [2, 2]); c.strokeRect(x + 0.5, y + 0.5, box - 1, box - 1); c.setLineDash([]);
  if (box > 60) { c.fillStyle = colours["--dim"]; c.fillText(`${page} ${size ? "class " + size : "free"}`, x + 4, y + 13, box - 20); }
  if (!size) return;
  if (box < SLOTS_SEEN) drawShares(c, [x, y], page);
  else for (let slot = 0; slot < slotsOf(size); slot += 1) drawCell(c, cellIn(page, slot), 64 * page + slot);
  if (!isFlagged(page)) return;
  const t = Math.min(14, box / 2);
  c.strokeStyle = c.fillStyle = colours["--flag"]; c.lineWidth = box < SLOTS_SEEN ? 1 : 2; c.strokeRect(x + 1, y + 1, box - 2, box - 2);
  c.beginPath(); c.moveTo(x + box, y); c.lineTo(x + box - t, y); c.lineTo(x + box, y + t); c.fill();
  c.lineWidth = 1;
}
function drawArrow(c, from, to) {
  const middle = (place) => { const [x, y, w, h] = cellIn(place >> 6, place & 63); return [x + w / 2, y + h / 2, 0.2 * Math.min(w, h)]; };
  const [a, b, start] = middle(from), [d, e, stop] = middle(to), turn = Math.atan2(e - b, d - a), x = a + start * Math.cos(turn), y = b + start * Math.sin(turn);
  const u = d - stop * Math.cos(turn), v = e - stop * Math.sin(turn), isCrowded = counts[FORWARDER] > 12, head = isCrowded ? 6 : 9;
  const side = (by) => [u - head * Math.cos(turn + by), v - head * Math.sin(turn + by)];
  for (const [colour, width] of isCrowded ? [["--moved", 1]] : [["--back", 3.5], ["--moved", 1.75]]) {
    c.strokeStyle = c.fillStyle = colours[colour]; c.lineWidth = width;
    c.beginPath(); c.moveTo(x, y); c.lineTo(u, v); c.stroke();
  }
  c.beginPath(); c.moveTo(u, v); c.lineTo(...side(0.45)); c.lineTo(...side(-0.45)); c.fill();
  c.strokeStyle = colours["--ink"]; c.lineWidth = 0.75; c.stroke(); c.lineWidth = 1;
}
function drawArrows(c) {
  let drawn = 0;
  for (let page = 0; page < pages && counts[FORWARDER] && drawn < MOST_ARROWS && grid.box > 10; page += 1)
    for (let slot = 0; slot < slotsOf(sizeOf(page)); slot += 1)
      if (states[64 * page + slot] === FORWARDER && drawn < MOST_ARROWS) { drawArrow(c, 64 * page + slot, slotAt(64 * page + slot, "to")); drawn += 1; }
  return drawn;
}
// where the sweep or defragmentation stands, and what the step is about
function drawHere(c) {
  const deed = deedNow(), place = deed ? placeOf(deed) : -1, cursor = now.phase > 2 && now.cursor < 64 * pages ? now.cursor : -1;
  c.strokeStyle = colours["--mutator"]; c.lineWidth = 2; c.setLineDash([4, 3]);
  const [x, y] = boxAt(chosen); c.strokeRect(x + 1, y + 1, grid.box - 2, grid.box - 2); c.setLineDash([]);
  if (place >= 0) {
    const [a, b, w, h] = cellIn(place >> 6, place & 63);
    c.strokeStyle = colours["--ink"]; c.lineWidth = 2.5; c.strokeRect(a, b, w - 1, h - 1);
    if (w > 12 && h > 12) { c.strokeStyle = colours["--back"]; c.lineWidth = 1.5; c.strokeRect(a + 2, b + 2, w - 5, h - 5); }
  }
  if (cursor >= 0) {
    const [a, b, , h] = cellIn(cursor >> 6, cursor & 63), s = Math.min(7, h);
    c.fillStyle = colours["--ink"]; c.strokeStyle = colours["--back"]; c.lineWidth = 1;
    c.beginPath(); c.moveTo(a - 3, b + h / 2 - s); c.lineTo(a - 3 + 1.4 * s, b + h / 2); c.lineTo(a - 3, b + h / 2 + s); c.closePath(); c.fill(); c.stroke();
  }
  c.lineWidth = 1;
}
function drawMap() {
  layOut();
  if (at("follow").checked) scrollToChosen();
  const [c] = pen("map", grid.height), { columns, box, top, height } = grid;
  const first = Math.floor(top / box) * columns, end = Math.min(pages, Math.ceil((top + height) / box) * columns);
  for (let page = first; page < end; page += 1) drawPage(c, page);
  const arrows = drawArrows(c);
  drawHere(c);
  const notes = [];
  if (box < SLOTS_SEEN) notes.push("A small page shows what share of its slots is in each state; + makes pages larger, and a chosen page is drawn below.");
  if (arrows < counts[FORWARDER]) notes.push(`Arrows of ${arrows} of ${counts[FORWARDER]} forwarders are drawn.`);
  if (now.event && !events[now.event - 1].whole) notes.push("From here on most steps that change nothing in the map are left out.");
  at("map-note").textContent = notes.join(" ");
}

