// Runs the script of a page of `metroheap show` without a browser, for scripts/check-show.
//
// Each line of standard input is a list in JSON, a command and what it takes. Each is answered by a line: what it gives, or an
// error. The document and the window are stand-ins that have what the script uses of them. Nothing is laid out: each box has
// the width that `size` says. What is asked for later is done before an answer, but timers run by `elapse`. A colour is its name,
// and a canvas keeps what is drawn on it.
"use strict";
const readline = require("node:readline"), vm = require("node:vm");
// The size of boxes and of what floats, and of a letter on a canvas
const BOX_HEIGHT = 238, TIP_WIDTH = 120, TIP_HEIGHT = 60, LETTER = 6;

// What is to be done before the next answer, and the frames and timers that were asked for
let width = 0, later = [], frames = [], timers = new Map(), timerCount = 0;

class Text {
  constructor(text) { this.textContent = text; }
}

// A canvas keeps what is drawn, each with the colours and the line that it is drawn by.
class Context {
  constructor() { Object.assign(this, { drawn: [], fillStyle: "", strokeStyle: "", lineWidth: 1 }); }
  clearRect() { this.drawn = []; }
  setLineDash() {}
  setTransform() {}
  measureText(text) { return { width: LETTER * String(text).length }; }
  drawImage(source) { this.drawn.push(...source.getContext("2d").drawn); }
  keep(name, given) {
    const wrong = given.find((it) => typeof it !== "string" && !Number.isFinite(it));
    if (wrong !== undefined || given.includes(undefined)) throw new Error(`${name} is given ${given.join(", ")}`);
    this.drawn.push([name, given, this.fillStyle, this.strokeStyle, this.lineWidth]);
  }
}
for (const name of ["fillRect", "strokeRect", "fillText", "beginPath", "moveTo", "lineTo", "closePath", "arc", "fill", "stroke"]) Context.prototype[name] = function (...given) { this.keep(name, given); };

// Attributes that are words stay words, as in a document.
const wordsOnly = () => new Proxy({}, { set: (words, name, value) => Reflect.set(words, name, String(value)) });
const fits = (it, part) => part[0] === "#" ? it.id === part.slice(1) : part[0] === "[" ? it.attributes.has(part.slice(1, -1)) : it.tagName === part;
// whether an element is at the end of a way such as `#roots dt`
function isAt(it, way) {
  const parts = way.trim().split(/\s+/);
  if (!fits(it, parts.pop())) return false;
  for (let above = it.parentElement; above && parts.length; above = above.parentElement) if (fits(above, parts[parts.length - 1])) parts.pop();
  return !parts.length;
}

class Element {
  constructor(tagName) {
    const names = new Set(), toggle = (name, isOn) => { if (isOn) names.add(name); else names.delete(name); };
    Object.assign(this, { tagName, childNodes: [], parentElement: null, attributes: new Map(), dataset: wordsOnly(), style: {}, scrolled: 0, written: "", opened: false, checked: false });
    this.classList = { toggle, contains: (name) => names.has(name) };
  }
  get id() { return this.attributes.get("id") ?? ""; }
  set id(name) { this.attributes.set("id", name); }
  get children() { return this.childNodes.filter((it) => it instanceof Element); }
  get firstChild() { return this.childNodes[0] ?? null; }
  get lastChild() { return this.childNodes[this.childNodes.length - 1] ?? null; }
  get textContent() { return this.childNodes.map((it) => it.textContent).join(""); }
  set textContent(text) { this.replaceChildren(); if (String(text)) this.appendChild(new Text(String(text))); }
  get value() { return this.written; }
  set value(value) { this.written = String(value); }
  get clientWidth() { return width; }
  get clientHeight() { return BOX_HEIGHT; }
  get offsetWidth() { return TIP_WIDTH; }
  get offsetHeight() { return TIP_HEIGHT; }
  get scrollTop() { return this.scrolled; }
  set scrollTop(y) { const before = this.scrolled; this.scrolled = Math.max(0, y); if (this.scrolled !== before) later.push(() => this.onscroll?.({})); }
  get open() { return this.opened; }
  set open(isOpen) { if (this.opened !== isOpen) later.push(() => this.ontoggle?.({})); this.opened = isOpen; }
  appendChild(it) { this.childNodes.push(it); it.parentElement = this; return it; }
  replaceChildren() { for (const it of this.childNodes) it.parentElement = null; this.childNodes = []; }
  remove() { const { parentElement } = this; this.parentElement = null; if (parentElement) parentElement.childNodes = parentElement.childNodes.filter((it) => it !== this); }
  setAttribute(name, value) { this.attributes.set(name, String(value)); }
  getAttribute(name) { return this.attributes.get(name) ?? null; }
  removeAttribute(name) { this.attributes.delete(name); }
  getContext() { return this.context ??= new Context(); }
  matches(ways) { return ways.split(",").some((way) => isAt(this, way)); }
  *below() { for (const it of this.children) { yield it; yield* it.below(); } }
  querySelectorAll(ways) { return [...this.below()].filter((it) => it.matches(ways)); }
  querySelector(ways) { return this.querySelectorAll(ways)[0] ?? null; }
  get href() { return this.getAttribute("href"); }
  set href(to) { this.setAttribute("href", to); }
  click() {
    if (this.tagName === "summary") this.parentElement.open = !this.parentElement.open;
    if (this.getAttribute("type") === "checkbox") { this.checked = !this.checked; this.onchange?.({}); }
    this.onclick?.({ shiftKey: false });
  }
}

// The elements of a page, of which each is a name, attributes, and texts and elements in it
function elementOf([name, attributes, inner]) {
  const it = new Element(name);
  for (const word in attributes) it.attributes.set(word, attributes[word] ?? "");
  it.checked = it.attributes.has("checked"); it.written = it.attributes.get("value") ?? "";
  for (const part of inner) it.appendChild(typeof part === "string" ? new Text(part) : elementOf(part));
  return it;
}
function documentOf(root) {
  const named = new Map(), find = (id) => { for (const it of root.below()) if (it.id === id) return it; return null; };
  const isHere = (it) => { while (it.parentElement) it = it.parentElement; return it === root; };
  return {
    documentElement: root, body: root.children.find((it) => it.tagName === "body"),
    createElement: (tagName) => new Element(tagName),
    getElementById(id) { if (!named.has(id) || !isHere(named.get(id))) named.set(id, find(id)); return named.get(id); },
    querySelectorAll: (ways) => root.querySelectorAll(ways), querySelector: (ways) => root.querySelector(ways),
  };
}

// The page that is open: its context, what it listens to, and its address
let page = null;
function addressOf(base, hash) {
  const hear = () => { for (const listener of page.listeners.hashchange ?? []) listener({ newURL: base + hash }); };
  return {
    get hash() { return hash; }, get href() { return base + hash; },
    set hash(to) { if (to !== hash) later.push(hear); hash = to; },
    replace(to) { hash = to; },
  };
}
function windowOf(document, location) {
  const media = { matches: false }, listeners = {}, copied = [];
  const scope = {
    document, location, URL, devicePixelRatio: 1, innerWidth: 1280, innerHeight: 900,
    history: { replaceState: (state, title, to) => location.replace(to) },
    navigator: { clipboard: { writeText: (text) => { copied.push(text); return Promise.resolve(); } } },
    requestAnimationFrame: (draw) => frames.push(draw),
    setTimeout: (act) => { timers.set(timerCount += 1, act); return timerCount; },
    clearTimeout: (timer) => timers.delete(timer),
    addEventListener: (kind, listener) => { (listeners[kind] ??= []).push(listener); },
    matchMedia: () => media,
    getComputedStyle: () => ({ getPropertyValue: (name) => name }),
  };
  scope.window = scope;
  return { scope, listeners, copied };
}

// Does what was asked for later, and draws, until nothing is left.
function settle() {
  while (later.length || frames.length) {
    const now = [...later, ...frames];
    later = []; frames = [];
    for (const act of now) act();
  }
}
const at = (id) => page.document.getElementById(id);
const run = (text) => vm.runInContext(text, page.context);
const COMMANDS = {
  open(tree, base, hash) {
    const document = documentOf(elementOf(tree)), { scope, listeners, copied } = windowOf(document, addressOf(base, hash));
    later = []; frames = []; timers = new Map();
    page = { document, listeners, copied, context: vm.createContext(scope) };
    for (const script of document.querySelectorAll("script")) if (!script.attributes.has("type")) run(script.textContent);
  },
  size(to) { width = to; if (page) for (const listener of page.listeners.resize ?? []) listener({}); },
  value: (expression) => run(expression),
  // a key, on an element or on the whole
  press(key, id) { for (const listener of page.listeners.keydown) listener({ key, target: id ? at(id) : page.document.body, preventDefault() {} }); },
  // a click or a move of the mouse, so far from the left and from the top of an element
  point(kind, id, x, y) { at(id)[kind]({ offsetX: x, offsetY: y, clientX: x, clientY: y, shiftKey: false }); },
  elapse() { const now = [...timers.values()]; timers.clear(); for (const act of now) act(); },
  // the calls by which a canvas was drawn on: those of some names, and in some colour, if these are given
  drawn: (id, names, fill) => at(id).getContext("2d").drawn.filter((call) => (!names.length || names.includes(call[0])) && (!fill || call[2] === fill)),
  copied: () => page.copied,
  // what elements name that isn't on this page
  loads: () => [...page.document.documentElement.below()].flatMap((it) => [it.src, it.getAttribute("src"), it.href]).filter((to) => to && to[0] !== "#"),
};
function answer(line) {
  const [command, ...given] = JSON.parse(line);
  try {
    const value = COMMANDS[command](...given);
    settle();
    return JSON.stringify({ value });
  } catch (error) {
    return JSON.stringify({ error: String(error?.stack ?? error) });
  }
}
readline.createInterface({ input: process.stdin }).on("line", (line) => process.stdout.write(answer(line) + "\n"));
