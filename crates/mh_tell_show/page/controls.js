// The chosen page ----------------------------------------------------------------------------------
const PAGE_HEIGHT = 128;
function chosenCell(slot, width) {
  const slots = slotsOf(sizeOf(chosen)), across = Math.min(slots, slots > 32 ? 16 : 8), w = width / across, h = PAGE_HEIGHT / Math.ceil(slots / across);
  return [(slot % across) * w, Math.floor(slot / across) * h, w, h];
}
function drawChosen() {
  const size = sizeOf(chosen), slots = slotsOf(size), [c, width] = pen("page", PAGE_HEIGHT);
  at("page-head").textContent = `page ${chosen}: ` + (size ? `class ${size}, ${slots} slots, ${isFlagged(chosen) ? "flagged as sparse" : "not flagged"}` : "free");
  for (let slot = 0; slot < slots; slot += 1) {
    const [x, y, w, h] = chosenCell(slot, width);
    drawCell(c, [x + 1, y + 1, w - 1, h - 1], 64 * chosen + slot);
    if (w > 90 || states[64 * chosen + slot] === FREE) { c.fillStyle = inkOn(states[64 * chosen + slot]); c.fillText(slot, x + 5, y + 14); }
  }
}

// Lists and facts ----------------------------------------------------------------------------------
const ROW = 17;
// a list of which only the rows in sight are in the document
function fill(id, count, current, text, pick) {
  const box = at(id), inner = box.firstChild || box.appendChild(document.createElement("span"));
  inner.style.display = "block"; inner.style.height = Math.max(1, count) * ROW + "px";
  const show = () => {
    for (const row of box.querySelectorAll("div")) row.remove();
    const first = Math.max(0, Math.floor(box.scrollTop / ROW) - 1), end = Math.min(count, first + 14);
    for (let i = first; i < end; i += 1) {
      const row = box.appendChild(document.createElement("div"));
      row.textContent = text(i); row.style.top = i * ROW + "px"; row.onclick = () => pick(i);
      row.classList.toggle("now", i === current); row.classList.toggle("no", / = refused /.test(row.textContent));
    }
  };
  const y = Math.max(0, current) * ROW;
  if (y < box.scrollTop || y > box.scrollTop + box.clientHeight - 2 * ROW) box.scrollTop = Math.max(0, y - box.clientHeight / 2);
  box.onscroll = show;
  show();
}
const entryOf = (event) => `${events[event - 1].text} = ${events[event - 1].reply}`;
// the steps of an event in words
let told = { event: -1, deeds: [], lefts: [] };
function tell(event) {
  if (told.event === event) return told;
  const e = event ? events[event - 1] : { command: [], deeds: [] };
  let left = quantum;
  const lefts = e.deeds.map((d) => left -= unitsOf(d));
  told = { event, deeds: [...e.command, ...e.deeds], lefts, whole: e.whole, commands: e.command.length };
  return told;
}
function wordsOf(i) {
  const d = told.deeds[i], k = i - told.commands;
  return WORDS[d[0]](d) + (k >= 0 && told.whole ? ` units ${unitsOf(d)} left ${told.lefts[k]}` : "");
}
function drawLists() {
  const e = now.event, { deeds, commands } = tell(e), current = now.deed < 0 ? commands - 1 : commands + now.deed;
  fill("replies", events.length, e - 1, (i) => `${numberOf(i + 1)} ${entryOf(i + 1)}`, (i) => go(lastOf(i + 1)));
  fill("deeds", deeds.length, current, wordsOf, (i) => go(firstMoment[e] + Math.max(0, 1 + i - commands)));
  const ran = e && events[e - 1].spent >= 0 ? `: its quantum spent ${events[e - 1].spent} and ended in ${PHASES[events[e - 1].ended]}` : "";
  at("deeds-head").textContent = e ? `steps of event ${numberOf(e)}${ran}` : "steps: none before the first event";
  at("event-now").textContent = e ? `${numberOf(e)} ${entryOf(e)}` : `before event ${numberOf(1)}`;
  at("step-now").textContent = current < 0 ? "\u00a0" : now.deed < 0 ? commands > 1 ? `${commands} parts and shades, the last: ${wordsOf(current)}` : wordsOf(current) : wordsOf(current);
}
const cursorOf = ({ phase, cursor }) => phase === 1 ? `root slot ${cursor}` : phase > 2 ? word(cursor) : "none";
const MOST_GREYS = 200;
function drawFacts() {
  const grey = greys.slice(now.head, Math.min(now.tail, now.head + MOST_GREYS)).map(word), count = now.tail - now.head, phase = PHASES[now.phase];
  const places = grey.join(" ") + (count > MOST_GREYS ? " ..." : "");
  const facts = {
    stat: `free ${now.free} live ${now.live} old ${now.old} phase ${phase} cycle ${now.cycle}`,
    cursor: cursorOf(now),
    left: now.deed < 0 ? "no quantum runs" : now.left < 0 ? "not known, since steps are left out" : `${now.left} units of ${quantum}`,
    reply: now.event ? events[now.event - 1].reply : "none",
    grey: count ? `${count}: ${places}` : "0",
  };
  for (const name in facts) at("fact-" + name).textContent = facts[name];
  [...at("phases").children].forEach((item, i) => i === now.phase ? item.setAttribute("aria-current", "step") : item.removeAttribute("aria-current"));
  STATES.forEach((state, i) => { at("key").children[i].lastChild.textContent = ` ${state.says} ${counts[i]}`; });
}
// The roots as an event leaves them, and after how many events they were seen last
let roots = [...rootsBefore], rootsSeen = 0;
function drawRoots() {
  if (rootsSeen > now.event) { roots = [...rootsBefore]; rootsSeen = 0; }
  for (; rootsSeen < now.event; rootsSeen += 1) for (const [slot, place] of events[rootsSeen].roots) roots[slot] = place;
  const deed = deedNow(), scanned = deed && deed[0] === 3 ? deed[1] : -1, list = at("roots");
  list.replaceChildren();
  for (let who = 0; who < 9; who += 1) {
    const slots = [...Array(16).keys()].filter((i) => roots[16 * who + i] >= 0 || 16 * who + i === scanned);
    if (!slots.length) continue;
    add(list, "dt", ownerOf(who));
    const own = add(list, "dd", "");
    for (const i of slots) add(own, "span", `${i}: ${word(roots[16 * who + i])}`).classList.toggle("now", 16 * who + i === scanned);
  }
  if (!list.firstChild) add(list, "dd", "all empty");
}
// The map in the form of a dump
function mapText() {
  const words = ["dump"];
  for (let page = 0; page < pages; page += 1) {
    const size = sizeOf(page);
    if (size) words.push("P" + page, "C" + size, isFlagged(page) ? "+" : "-");
    for (let slot = 0; slot < slotsOf(size); slot += 1) {
      const place = 64 * page + slot;
      if (states[place] === FORWARDER) words.push(`${slot}>${word(slotAt(place, "to"))}`);
      else if (states[place] !== FREE) words.push(`${slot}=${slotAt(place, "birth")}.${slotAt(place, "part")}`);
    }
  }
  return words.join(" ");
}

// The whole ----------------------------------------------------------------------------------------
function follow() {
  const deed = deedNow() || (now.event ? events[now.event - 1].command.slice(-1)[0] : null);
  if (at("follow").checked && deed && pageOf(deed) >= 0) chosen = pageOf(deed);
}
function drawSliders() {
  const step = moment - firstMoment[now.event], steps = lastOf(now.event) - firstMoment[now.event];
  at("event").value = numberOf(now.event); at("event-out").textContent = `${numberOf(now.event)} of ${run.all}`;
  at("step").max = steps; at("step").value = step; at("step-out").textContent = `${step} of ${steps}`;
}
function draw() {
  measure(); catchUp(); follow();
  drawMap(); drawChosen(); drawTrace(); drawStrip(); drawTimes(); drawTable(); drawLists(); drawSliders(); drawFacts(); drawRoots();
  if (at("as-text").open) at("text").textContent = mapText();
  at("tip").style.visibility = "hidden";
  document.body.dataset.moment = moment; document.body.dataset.event = numberOf(now.event);
}
let isAsked = false;
// draws once before the next frame, however often it is asked
function ask() {
  if (!isAsked) requestAnimationFrame(() => { isAsked = false; draw(); });
  isAsked = true;
}
function go(m) {
  moment = Math.max(0, Math.min(momentCount - 1, m)); now = momentAt(moment);
  ask(); settleSoon();
}
const goEvent = (event) => go(lastOf(Math.max(0, Math.min(events.length, event))));
function drawAll() { measure(); readColours(); drawCurve(); ask(); }

// The reader's hands -------------------------------------------------------------------------------
// what is under the mouse: a page, and a slot or -1
function underMap(x, y) {
  const column = Math.floor(x / grid.box), page = Math.floor((y + grid.top) / grid.box) * grid.columns + column;
  if (column < 0 || column >= grid.columns || page < 0 || page >= pages) return null;
  if (grid.box >= SLOTS_SEEN) for (let slot = 0; slot < slotsOf(sizeOf(page)); slot += 1) if (isIn(cellIn(page, slot), x, y)) return [page, slot];
  return [page, -1];
}
function underPage(x, y) {
  for (let slot = 0; slot < slotsOf(sizeOf(chosen)); slot += 1) if (isIn(chosenCell(slot, widths.page), x, y)) return [chosen, slot];
  return [chosen, -1];
}
const isIn = ([a, b, w, h], x, y) => x >= a && x < a + w && y >= b && y < b + h;
function slotText(page, slot) {
  const place = 64 * page + slot, state = states[place], lines = [`place ${page}.${slot}: ${STATES[state].says}` + (state === FORWARDER ? ` to ${word(slotAt(place, "to"))}` : "")];
  if (state !== FREE) lines.push(`birth ${slotAt(place, "birth")} part ${slotAt(place, "part")}`, `references ${slotAt(place, "references")} numbers ${slotAt(place, "numbers")}`, `stamp ${slotAt(place, "stamp")}`);
  return lines;
}
function pageText(page) {
  const size = sizeOf(page), lines = [`page ${page}: ` + (size ? `class ${size}${isFlagged(page) ? ", flagged as sparse" : ""}` : "free")];
  STATES.forEach((state, i) => {
    const count = states.subarray(64 * page, 64 * page + slotsOf(size)).reduce((sum, s) => sum + (s === i), 0);
    if (count) lines.push(`${count} ${state.says}`);
  });
  return lines;
}
function curveText(x) {
  const near = pointAt(x);
  return near ? [`window ${near.window}: least ${near.least}, floor ${near.floor < 0 ? "none" : near.floor}`] : [];
}
// the unit of the trace at a place of the canvases that lie over it
const unitUnder = (x) => x / widths.trace * total;
function timesText(x) {
  const event = eventAt(unitUnder(x));
  return events.length ? [`event ${numberOf(event)}`, LINES.map((line) => `${line.name} ${line.at(lastOf(event))}`).join(" ")] : [];
}
function stripText(x) {
  const cycle = cycleAt(unitUnder(x));
  return cycle ? [`cycle ${cycle.number}, ${cycle.cause}: events ${known(numberOf(cycle.firstEvent))} to ${cycle.lastEvent ? numberOf(cycle.lastEvent) : DASH}, units ${unitsBefore + cycle.from} to ${unitsBefore + cycle.to}`] : [];
}
function hover(event, lines) {
  const tip = at("tip");
  tip.textContent = lines.join("\n"); tip.style.visibility = lines.length ? "visible" : "hidden";
  tip.style.left = Math.max(0, Math.min(event.clientX + 14, innerWidth - tip.offsetWidth - 4)) + "px";
  tip.style.top = Math.max(0, Math.min(event.clientY + 16, innerHeight - tip.offsetHeight - 4)) + "px";
}
const textOf = (under) => under ? under[1] < 0 ? pageText(under[0]) : slotText(...under) : [];
at("map").onmousemove = (event) => hover(event, textOf(underMap(event.offsetX, event.offsetY)));
at("page").onmousemove = (event) => hover(event, textOf(underPage(event.offsetX, event.offsetY)));
at("curve").onmousemove = (event) => hover(event, curveText(event.offsetX));
at("times").onmousemove = (event) => hover(event, timesText(event.offsetX));
at("strip").onmousemove = (event) => hover(event, stripText(event.offsetX));
for (const id of ["map", "page", "curve", "times", "strip"]) at(id).onmouseleave = () => { at("tip").style.visibility = "hidden"; };

function choose(page) { chosen = Math.max(0, Math.min(pages - 1, page)); at("follow").checked = false; scrollToChosen(); ask(); }
function resize(by) { zoom = Math.max(0, Math.min(8, zoom + by)); layOut(); scrollToChosen(); ask(); }
// a click on a page chooses it, and one on a slot its block
function pick(under) {
  if (!under) return;
  choose(under[0]);
  if (under[1] >= 0) showSlot(64 * under[0] + under[1]);
}
at("map").onclick = (event) => pick(underMap(event.offsetX, event.offsetY));
at("page").onclick = (event) => pick(underPage(event.offsetX, event.offsetY));
at("frame").onscroll = () => { if (at("frame").scrollTop !== grid.top) ask(); };
at("follow").onchange = ask;
at("smaller").onclick = () => resize(-1);
at("larger").onclick = () => resize(1);
for (const id of ["trace", "times"]) at(id).onclick = ({ offsetX }) => goEvent(eventAt(unitUnder(offsetX)));
at("strip").onclick = ({ offsetX }) => goCycle(cycleAt(unitUnder(offsetX)));
at("curve").onclick = ({ offsetX }) => { if (points.length) markWindow(pointAt(offsetX).window); };
at("to-whole").onchange = drawCurve;
const turnScale = () => { at("to-whole").checked = !at("to-whole").checked; drawCurve(); };
for (const name in SOUGHT) at("seek-" + name).onclick = (event) => search(name, event.shiftKey ? -1 : 1);
at("above").value = Math.floor(quantum / 2);
at("life-form").onsubmit = (event) => { event.preventDefault(); showAsked(); };
at("life-here").onclick = showStepsBlock;
at("copy").onclick = copyLink;
Object.assign(at("event"), { min: skipped, max: numberOf(events.length) });
at("event").oninput = () => goEvent(+at("event").value - skipped);
at("step").oninput = () => go(firstMoment[now.event] + +at("step").value);
at("event-back").onclick = () => goEvent(now.event - 1);
at("event-on").onclick = () => goEvent(now.event + 1);
at("step-back").onclick = () => go(moment - 1);
at("step-on").onclick = () => go(moment + 1);
at("as-text").ontoggle = ask;
const dark = matchMedia("(prefers-color-scheme: dark)");
function setTheme(isDark) { document.documentElement.dataset.theme = isDark ? "dark" : "light"; drawAll(); }
const turnTheme = () => setTheme(document.documentElement.dataset.theme !== "dark");
dark.onchange = () => setTheme(dark.matches);
at("theme").onclick = turnTheme;
const KEYS = {
  ArrowRight: () => go(moment + 1), ArrowLeft: () => go(moment - 1), ArrowDown: () => goEvent(now.event + 1), ArrowUp: () => goEvent(now.event - 1),
  PageDown: () => goEvent(now.event + 100), PageUp: () => goEvent(now.event - 100), Home: () => go(0), End: () => go(momentCount - 1),
  "+": () => resize(1), "-": () => resize(-1), "[": () => choose(chosen - 1), "]": () => choose(chosen + 1), t: turnTheme,
  w: () => nextWindow(1), W: () => nextWindow(-1), Escape: unmark, "%": turnScale, b: showStepsBlock, l: copyLink,
};
for (const name in SOUGHT) { const { key } = SOUGHT[name]; KEYS[key] = () => search(name, 1); KEYS[key.toUpperCase()] = () => search(name, -1); }
// on the slider of events left and right go by events
const ON_EVENTS = { ArrowRight: "ArrowDown", ArrowLeft: "ArrowUp" };
addEventListener("keydown", (event) => {
  if (event.target.matches("#block, #above")) return;
  const key = KEYS[event.target.id === "event" && ON_EVENTS[event.key] || event.key];
  if (!key || event.ctrlKey || event.metaKey || event.altKey) return;
  event.preventDefault(); key();
});
addEventListener("resize", drawAll);

// (the address may have followed the reader since)
addEventListener("hashchange", (event) => visit(new URL(event.newURL).hash));
// which events the page has, and which option shows those after them
function tellRange() {
  const last = numberOf(events.length), isWhole = events.length === run.all;
  const some = events.length ? `events ${numberOf(1)} to ${last}` : "no event";
  return isWhole ? `${run.all} events` : `${some} of ${run.all}` + (last < run.all ? `; --from ${last + 1} shows those after them` : "");
}
(function begin() {
  at("config").textContent = `${pages} pages, quantum ${quantum}, trigger ${trigger}, every ${every}, rules ${rules}; ${tellRange()}`;
  for (const { colour, sign } of STATES) {
    const item = add(at("key"), "li", ""), sample = add(item, "i", sign);
    sample.style.background = `var(${colour})`; add(item, "span", "");
    if (colour === "--marked") sample.style.color = "var(--onmarked)";
    if (colour === "--white") sample.style.color = "var(--ink)";
  }
  for (const phase of PHASES) add(at("phases"), "li", phase);
  for (const phase of PHASES.slice(1)) { const item = add(at("strip-key"), "li", ""); add(item, "i", "").style.background = `var(--${phase})`; add(item, "span", phase); }
  for (const name of ["reply", "stat", "cursor", "left", "grey"]) { add(at("facts"), "dt", name); add(at("facts"), "dd", "").id = "fact-" + name; }
  at("points").textContent = points.map((p) => `window ${p.window} least ${p.least} floor ${p.floor < 0 ? "none" : p.floor}`).join("\n");
  beginTable();
  visit(location.hash);
  setTheme(dark.matches);
})();
