// The address --------------------------------------------------------------------------------------
// #EVENT and #EVENT.STEP are moments, #cycleN is where a cycle starts, #birthN and #birthN.PART where a block was made.
const tellFound = (text) => { at("found").textContent = text; };
const addressOf = (m) => { const event = moments.event[m], number = numberOf(event); return m === lastOf(event) ? `#${number}` : `#${number}.${m - firstMoment[event]}`; };
function settle() { clearTimeout(settling); history.replaceState(null, "", addressOf(moment)); }
// browsers refuse many addresses a second, so it follows once the reader stops
const SETTLE_TIME = 250;
let settling = 0;
function settleSoon() { clearTimeout(settling); settling = setTimeout(settle, SETTLE_TIME); }
function copyLink() {
  settle();
  const copied = navigator.clipboard ? navigator.clipboard.writeText(location.href) : Promise.reject();
  copied.then(() => tellFound("the link is copied"), () => tellFound(location.href));
}
// the event of the page with this number, or the nearest
function eventOf(number) {
  const event = Math.max(0, Math.min(events.length, number - skipped));
  if (numberOf(event) !== number) tellFound(`event ${number} isn't on this page`);
  return event;
}
const ADDRESSES = [
  [/^#(\d+)$/, (number) => goEvent(eventOf(+number))],
  [/^#(\d+)\.(\d+)$/, (number, step) => { const event = eventOf(+number); go(Math.min(lastOf(event), firstMoment[event] + +step)); }],
  [/^#cycle(\d+)$/, (number) => { const cycle = cycleOf(+number); if (!cycle) tellFound(`no cycle ${number}`); go(cycle ? cycle.moment : momentCount - 1); }],
  [/^#birth(\d+)(?:\.(\d+))?$/, (birth, part) => { const life = showLife(+birth, +(part || 0)); go(life.length ? life[0].moment : momentCount - 1); }],
];
// goes where an address leads, or else to the last moment
function visit(address) {
  tellFound("");
  for (const [form, show] of ADDRESSES) { const found = form.exec(address); if (found) { show(...found.slice(1)); return; } }
  go(momentCount - 1);
}

// Search -------------------------------------------------------------------------------------------
const deedAt = (m) => moments.deed[m] < 0 ? null : events[moments.event[m] - 1].deeds[moments.deed[m]];
const isDeed = (m, kind) => { const deed = deedAt(m); return deed !== null && deed[0] === kind; };
const SOUGHT = {
  refusal: { key: "n", holds: (m) => m > 0 && m === firstMoment[moments.event[m]] && /^refused /.test(events[moments.event[m] - 1].reply) },
  move: { key: "m", holds: (m) => isDeed(m, 12) },
  cycle: { key: "c", holds: (m) => isDeed(m, 0) },
  quantum: { key: "q", holds: (m) => m > 0 && m === lastOf(moments.event[m]) && events[moments.event[m] - 1].spent > +at("above").value },
};
// goes to the next moment that is sought, or by -1 to the one before
function search(name, by) {
  const { holds } = SOUGHT[name];
  let m = moment + by;
  while (m >= 0 && m < momentCount && !holds(m)) m += by;
  const isFound = m >= 0 && m < momentCount;
  tellFound(isFound ? "" : `no ${by > 0 ? "later" : "earlier"} ${name}`);
  if (isFound) go(m);
}

// A block's life -----------------------------------------------------------------------------------
const MOST_LIFE = 200;
// the row that was true of a slot at a moment, or -1
function rowAt(place, m) {
  let row = lastSlot[place];
  while (row >= 0 && slotRows.moment[row] > m) row = slotRows.before[row];
  return row;
}
const nameAt = (place, m) => { const row = place < 0 ? -1 : rowAt(place, m); return row < 0 ? "none" : slotRows.birth[row] + "." + slotRows.part[row]; };
// what the references were as a block was marked; null is one that is left out
function referentsAt(e, k, m, count) {
  const referents = new Array(count).fill(null);
  for (let i = k + 1; i < e.deeds.length && (e.deeds[i][0] === 5); i += 1) referents[e.deeds[i][1]] = nameAt(e.deeds[i][3], m);
  return referents;
}
// What a deed of a quantum says of a block that is here: words, and where the block is after it. None is null.
function sayDeed(d, block) {
  const isNamed = (i) => d[i] === block.birth && d[i + 1] === block.part;
  if (d[0] === 3 && d[4] && d[3] === block.place) return { says: `shaded from root slot ${d[1]}` };
  if (d[0] === 5 && d[4] && d[3] === block.place) return { says: `shaded from reference ${d[1]} of ${block.marking}` };
  if (d[0] === 4 && isNamed(2)) return { says: "marked", isMarked: true };
  if (d[0] === 12 && isNamed(3)) return { says: `moved from ${word(d[1])} to ${word(d[2])}`, place: d[2] };
  if (d[0] === 7 && d[2] === 2 && isNamed(3)) return { says: `freed at ${word(d[1])}`, place: -1 };
  return null;
}
function sayQuantum(life, block, event) {
  const e = events[event - 1];
  e.deeds.forEach((d, k) => {
    if (d[0] === 4) block.marking = d[2] + "." + d[3];
    const said = block.place < 0 ? null : sayDeed(d, block), m = firstMoment[event] + 1 + k;
    if (!said) return;
    block.place = said.place ?? block.place;
    life.push({ moment: m, says: said.says, referents: said.isMarked ? referentsAt(e, k, m, block.references) : [] });
  });
}
function sayCommand(life, block, event) {
  for (const d of events[event - 1].command) {
    if (d[0] === 15 && d[2] === block.birth && d[3] === block.part) {
      Object.assign(block, { place: d[1], references: d[5] });
      life.push({ moment: firstMoment[event], says: `made at ${word(d[1])}: class ${d[4]}, references ${d[5]}, numbers ${d[6]}`, referents: [] });
    } else if (d[0] === 14 && d[1] === block.place) life.push({ moment: firstMoment[event], says: "shaded by a barrier", referents: [] });
  }
}
// what became of a part of an object, in order
function lifeOf(birth, part) {
  const life = [], block = { birth, part, place: -1, references: 0, marking: "none" };
  const there = heapBefore.find((row) => row.length > 3 && row[1] === birth && row[2] === part && row[4] < 0);
  if (there) {
    Object.assign(block, { place: there[0], references: there[5] });
    life.push({ moment: 0, says: `at ${word(there[0])} before the page`, referents: [] });
  }
  for (let event = 1; event <= events.length && (block.place >= 0 || !life.length); event += 1) { sayCommand(life, block, event); sayQuantum(life, block, event); }
  return life;
}
function addLink(parent, text, address) { const link = add(parent, "a", text); link.href = address; }
function addMoment(list, { moment: m, says, referents }) {
  const item = add(list, "li", "");
  addLink(item, addressOf(m).slice(1), addressOf(m));
  add(item, "span", " " + says + (referents.length ? ", with references to" : ""));
  for (const name of referents) { add(item, "span", " "); if (name === null || name === "none") add(item, "span", name || DASH); else addLink(item, name, "#birth" + name); }
}
function showLife(birth, part) {
  const life = lifeOf(birth, part), list = at("life"), middle = MOST_LIFE / 2, isLong = life.length > MOST_LIFE;
  list.replaceChildren();
  at("block").value = `${birth}.${part}`;
  if (!life.length) add(list, "li", `no block ${birth}.${part} is on this page`);
  for (const said of isLong ? life.slice(0, middle) : life) addMoment(list, said);
  if (isLong) { add(list, "li", `${life.length - MOST_LIFE} more`); for (const said of life.slice(-middle)) addMoment(list, said); }
  return life;
}
// the life of the block in a slot, if one is there
function showSlot(place) { if (place >= 0 && states[place] !== FREE) showLife(slotAt(place, "birth"), slotAt(place, "part")); }
function showStepsBlock() {
  const deed = deedNow() || (now.event ? events[now.event - 1].command.slice(-1)[0] : null), place = deed ? placeOf(deed) : -1;
  if (deed && deed[0] === 7 && deed[2] === 2) showLife(deed[3], deed[4]);
  else showSlot(place);
}
function showAsked() { const found = /^\s*(\d+)(?:\.(\d+))?\s*$/.exec(at("block").value); if (found) showLife(+found[1], +(found[2] || 0)); }

