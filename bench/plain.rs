//! The work of `metroheap run` by a plain program, which is written to be fast and proves nothing: the same scripts in, the same
//! replies out. It is what MEASURED compares the proved program with.
//!
//!     rustc --edition 2024 -O -C target-cpu=native -o plain bench/plain.rs && ./plain < SCRIPT > REPLIES
//!
//! Its tricks: marks and forwarders as bits beside the words, blocks fetched ahead of their turn along the order of the cycle
//! before, a sweep by words, huge pages, one pass over the bytes of a line, and no check of an index.
//!
//! With `--cfg no_huge_pages` it asks for none. With `--cfg no_prefetch` it fetches nothing ahead, and with `--cfg plain_loads`
//! it reads the same words by plain loads. These two are what a language without the instruction can do.
#![allow(unexpected_cfgs)]
use std::arch::x86_64::{_MM_HINT_T0, _mm_prefetch};
use std::io::{self, Read, Write};
use std::process::exit;

const PAGE: usize = 256;
const HEADER: usize = 4;
const RUN: usize = 60;
const SLOTS: usize = 16;
const ROOTS: usize = 144;
const MOST_EVENTS: usize = 1_000_000;
const SIZES: [usize; 20] = [4, 5, 6, 7, 8, 9, 11, 13, 15, 17, 20, 23, 26, 30, 34, 39, 44, 50, 57, 64];
/// How many grey blocks ahead of the next one are fetched.
const AHEAD: usize = 24;

unsafe extern "C" {
    fn mmap(at: *mut u8, len: usize, prot: i32, flags: i32, fd: i32, offset: i64) -> *mut u8;
    fn madvise(at: *mut u8, len: usize, advice: i32) -> i32;
    fn memchr(at: *const u8, byte: i32, len: usize) -> *const u8;
}

/// Words that are 0, in huge pages where the system gives them.
fn huge(words: usize) -> &'static mut [u64] {
    let len = (words * 8).next_multiple_of(1 << 21) + (1 << 21);
    unsafe {
        let at = mmap(std::ptr::null_mut(), len, 3, 0x22, -1, 0);
        let from = (at as usize).next_multiple_of(1 << 21) as *mut u8;
        if !cfg!(no_huge_pages) {
            madvise(from, len - (1 << 21), 14);
        }
        std::slice::from_raw_parts_mut(from as *mut u64, words)
    }
}

// Scripts ------------------------------------------------------------------------------------------

#[derive(Clone, Copy, PartialEq)]
enum Op { New, Get, Put, Write, Copy, Read, Same, Post, Take, Clear, Shape, End, Quantum, Start, Stat, Dump, Left, Report }

#[derive(Clone, Copy)]
struct Event { op: Op, who: u8, a: u32, b: u32, c: u64 }

struct Config { pages: usize, quantum: u64, trigger: u64, every: u64 }

struct Line<'a> { word: &'a [u8], verb: &'a [u8], numbers: [u64; 4], count: usize }

/// The words of a line in one pass: two words, of which the second may be missing, and up to four numbers.
fn line_of(line: &[u8], words: usize) -> Option<Line<'_>> {
    let mut found = Line { word: &[], verb: &[], numbers: [0; 4], count: 0 };
    let (mut at, mut word) = (0, 0);
    loop {
        let start = at;
        if word < words {
            while at < line.len() && line[at] != b' ' { at += 1 }
            if word == 0 { found.word = &line[start..at] } else { found.verb = &line[start..at] }
        } else {
            let mut value = 0u64;
            while at < line.len() && line[at] != b' ' {
                let digit = line[at].wrapping_sub(b'0');
                if digit > 9 { return None }
                value = if at - start < 18 { value * 10 + digit as u64 } else { value.checked_mul(10)?.checked_add(digit as u64)? };
                at += 1;
            }
            if at == start || found.count == 4 || (line[start] == b'0' && at - start > 1) { return None }
            found.numbers[found.count] = value;
            found.count += 1;
        }
        word += 1;
        if at == line.len() { return if word >= words { Some(found) } else { None } }
        at += 1;
    }
}

fn is_name(word: &[u8]) -> bool {
    (1..=16).contains(&word.len()) && word[0].is_ascii_lowercase() && word.iter().all(|b| b.is_ascii_lowercase() || b.is_ascii_digit())
}

fn small(number: u64) -> Option<u32> { u32::try_from(number).ok() }

struct Names<'a> { seen: Vec<&'a [u8]>, last: usize }

impl<'a> Names<'a> {
    fn number(&mut self, name: &'a [u8]) -> u8 {
        if self.last < self.seen.len() && self.seen[self.last] == name { return self.last as u8 }
        if let Some(at) = self.seen.iter().position(|seen| *seen == name) { self.last = at; return at as u8 }
        if self.seen.len() == 8 { return 8 }
        self.seen.push(name);
        self.last = self.seen.len() - 1;
        self.last as u8
    }
}

fn event_of<'a>(line: &'a [u8], names: &mut Names<'a>) -> Option<Event> {
    let Line { word, verb, numbers, count } = line_of(line, 2)?;
    let [a, b, c, _] = numbers;
    if word == b"*" {
        let op = match (verb, count) {
            (b"quantum", 0) => Op::Quantum, (b"start", 0) => Op::Start, (b"stat", 0) => Op::Stat,
            (b"dump", 0) => Op::Dump, (b"left", 0) => Op::Left, (b"report", 1) => Op::Report,
            _ => return None,
        };
        return Some(Event { op, who: 0, a: 0, b: 0, c: a });
    }
    let op = match (count, verb) {
        (3, b"new") => Op::New, (3, b"get") => Op::Get, (3, b"put") => Op::Put, (3, b"write") => Op::Write,
        (2, b"copy") => Op::Copy, (2, b"read") => Op::Read, (2, b"same") => Op::Same, (2, b"post") => Op::Post,
        (2, b"take") => Op::Take, (1, b"clear") => Op::Clear, (1, b"shape") => Op::Shape, (0, b"end") => Op::End,
        _ => return None,
    };
    if op != Op::Write { small(c)?; }
    let (a, b) = (small(a)?, small(b)?);
    if !is_name(word) { return None }
    Some(Event { op, who: names.number(word), a, b, c })
}

fn config_of(line: &[u8]) -> Option<Config> {
    let Line { word, numbers, count, .. } = line_of(line, 1)?;
    let [pages, quantum, trigger, every] = numbers;
    if word != b"config" || count != 4 || !(1..=4096).contains(&pages) || !(209..=1_000_000).contains(&quantum) || trigger > pages || every > 1_000_000 { return None }
    Some(Config { pages: pages as usize, quantum, trigger, every })
}

/// The configuration and the events, or the number of the first bad line.
fn parse(text: &[u8]) -> Result<(Config, Vec<Event>), usize> {
    let mut names = Names { seen: Vec::new(), last: 0 };
    let (mut config, mut events, mut at, mut number) = (None, Vec::new(), 0, 1);
    while at < text.len() {
        let end = unsafe { memchr(text.as_ptr().add(at), 10, text.len() - at) };
        if end.is_null() { return Err(number) }
        let end = end as usize - text.as_ptr() as usize;
        let line = &text[at..end];
        at = end + 1;
        if line.is_empty() || line[0] == b'#' { number += 1; continue }
        if config.is_none() { config = Some(config_of(line).ok_or(number)?) } else { events.push(event_of(line, &mut names).ok_or(number)?) }
        number += 1;
    }
    Ok((config.ok_or(number)?, events))
}

// The table ----------------------------------------------------------------------------------------

/// A set of pages: 64 words and a word that says which of them aren't 0.
#[derive(Clone, Copy)]
struct Pages { words: [u64; 64], sum: u64 }

impl Pages {
    fn put(&mut self, page: usize, is_in: bool) {
        let word = &mut self.words[page / 64];
        *word = *word & !(1 << (page % 64)) | (is_in as u64) << (page % 64);
        self.sum = self.sum & !(1 << (page / 64)) | ((*word != 0) as u64) << (page / 64);
    }
    fn least(&self) -> Option<usize> {
        if self.sum == 0 { return None }
        let row = self.sum.trailing_zeros() as usize;
        Some(row * 64 + self.words[row].trailing_zeros() as usize)
    }
}

const NONE: Pages = Pages { words: [0; 64], sum: 0 };

struct Part { references: usize, numbers: usize, a: usize, b: usize }

#[derive(Clone, Copy, PartialEq)]
enum Phase { Idle, Roots, Mark, Sweep, Defrag }

struct Heap {
    config: Config,
    words: &'static mut [u64],
    class: Vec<u8>, flagged: Vec<bool>, free: Vec<u64>, marks: Vec<u64>, old: Vec<u64>,
    fresh: Pages, dense: Vec<Pages>, roomy: Vec<Pages>, sparse: Vec<Pages>,
    free_pages: u64, blocks: u64, forwarders: u64,
    roots: [u32; ROOTS], ended: [bool; 8],
    phase: Phase, cursor: usize, order: Vec<u32>, head: usize, tail: usize,
    cycle: u64, asked: bool, births: u64, since: u64, quanta_of_cycle: u64,
    mutator: u64, collector: u64, quanta: u64, greatest: u64, trace: Vec<(bool, u64)>,
    parts: Vec<Part>, places: Vec<(u32, bool)>,
}

const FREE: u8 = 255;
const NULL: u32 = u32::MAX;

fn class_of(words: usize) -> usize { SIZES.iter().position(|size| *size >= words).unwrap() }
fn all_slots(class: usize) -> u64 { u64::MAX >> (64 - PAGE / SIZES[class]) }

impl Heap {
    fn new(config: Config) -> Heap {
        let pages = config.pages;
        let mut fresh = NONE;
        for page in 0..pages { fresh.put(page, true) }
        Heap {
            words: huge(PAGE * pages + 64), class: vec![FREE; pages], flagged: vec![false; pages], free: vec![0; pages], marks: vec![0; pages], old: vec![0; pages],
            fresh, dense: vec![NONE; 20], roomy: vec![NONE; 20], sparse: vec![NONE; 20], free_pages: pages as u64, blocks: 0, forwarders: 0,
            roots: [NULL; ROOTS], ended: [false; 8], phase: Phase::Idle, cursor: 0, order: vec![0; 64 * pages + AHEAD + 1], head: 0, tail: 0,
            cycle: 0, asked: false, births: 0, since: 0, quanta_of_cycle: 0, mutator: 0, collector: 0, quanta: 0, greatest: 0, trace: Vec::new(),
            parts: Vec::new(), places: Vec::new(), config,
        }
    }
    #[inline(always)]
    fn start(&self, place: u32) -> usize {
        let page = place as usize / 64;
        unsafe { PAGE * page + place as usize % 64 * *SIZES.get_unchecked((*self.class.get_unchecked(page)).min(19) as usize) }
    }
    #[inline(always)]
    fn word(&self, at: usize) -> u64 { unsafe { *self.words.get_unchecked(at) } }
    #[inline(always)]
    fn put_word(&mut self, at: usize, word: u64) { unsafe { *self.words.get_unchecked_mut(at) = word } }
    #[inline(always)]
    fn has(bits: &[u64], place: u32) -> bool { unsafe { bits.get_unchecked(place as usize / 64) >> (place % 64) & 1 != 0 } }
    #[inline(always)]
    fn resolve(&self, place: u32) -> u32 {
        if self.forwarders != 0 && Self::has(&self.old, place) { (self.word(self.start(place) + 3) - 1) as u32 } else { place }
    }
    fn counts(&self, place: u32) -> (usize, usize) {
        let word = self.word(self.start(place) + 1);
        (word as usize >> 20 & 0xf_ffff, word as usize & 0xf_ffff)
    }
    fn reference_count(counts: (usize, usize)) -> usize {
        let fields = counts.0 + counts.1;
        if fields <= RUN { counts.0 } else if fields <= RUN * RUN { fields.div_ceil(RUN) } else { fields.div_ceil(RUN).div_ceil(RUN) }
    }
    fn index(&mut self, page: usize) {
        let class = self.class[page] as usize;
        let (flagged, room) = (self.flagged[page], self.free[page] != 0);
        self.dense[class].put(page, !flagged);
        self.roomy[class].put(page, !flagged && room);
        self.sparse[class].put(page, flagged && room);
    }
    fn drop_page(&mut self, page: usize) {
        let class = self.class[page] as usize;
        for set in [&mut self.dense, &mut self.roomy, &mut self.sparse] { set[class].put(page, false) }
        self.class[page] = FREE;
        self.fresh.put(page, true);
        self.free_pages += 1;
    }
    fn dense_place(&self, class: usize) -> Option<u32> {
        let page = self.roomy[class].least()?;
        Some((64 * page) as u32 + self.free[page].trailing_zeros())
    }
    fn place(&self, class: usize) -> Option<u32> {
        if let Some(place) = self.dense_place(class) { return Some(place) }
        if let Some(page) = self.fresh.least() { return Some(64 * page as u32) }
        let page = self.sparse[class].least()?;
        Some((64 * page) as u32 + self.free[page].trailing_zeros())
    }
    fn take(&mut self, class: usize, place: u32) {
        let (page, bit) = (place as usize / 64, 1 << (place % 64));
        if self.class[page] == FREE {
            self.class[page] = class as u8;
            self.flagged[page] = false;
            self.fresh.put(page, false);
            self.free_pages -= 1;
            self.free[page] = all_slots(class) & !bit;
            self.index(page);
        } else {
            self.free[page] &= !bit;
            if self.free[page] == 0 { self.index(page) }
        }
        self.blocks += 1;
    }
    fn release(&mut self, place: u32) {
        let (page, bit) = (place as usize / 64, 1 << (place % 64));
        let was_full = self.free[page] == 0;
        self.free[page] |= bit;
        self.forwarders -= (self.old[page] & bit != 0) as u64;
        self.old[page] &= !bit;
        self.marks[page] &= !bit;
        self.blocks -= 1;
        if was_full { self.index(page) }
    }
    fn make(&mut self, class: usize, place: u32, part: usize) {
        self.take(class, place);
        let start = self.start(place);
        let Part { a, b, .. } = self.parts[part];
        self.words[start..start + SIZES[class]].fill(0);
        self.words[start] = self.births + 1;
        self.words[start + 1] = ((part << 20 | a) << 20 | b) as u64;
        self.words[start + 2] = self.cycle;
        self.marks[place as usize / 64] |= 1 << (place % 64);
    }
    fn parts_of(&mut self, r: usize, n: usize) {
        let fields = r + n;
        self.parts.clear();
        if fields <= RUN { self.parts.push(Part { references: r, numbers: n, a: r, b: n }); return }
        let runs = fields.div_ceil(RUN);
        let middles = if runs <= RUN { 0 } else { runs.div_ceil(RUN) };
        self.parts.push(Part { references: if middles == 0 { runs } else { middles }, numbers: 0, a: r, b: n });
        for m in 0..middles {
            let count = RUN.min(runs - RUN * m);
            self.parts.push(Part { references: count, numbers: 0, a: count, b: 0 });
        }
        for run in 0..runs {
            let count = RUN.min(fields - RUN * run);
            let references = r.saturating_sub(RUN * run).min(count);
            self.parts.push(Part { references, numbers: count - references, a: references, b: count - references });
        }
    }
    fn make_object(&mut self, r: usize, n: usize) -> Option<u32> {
        self.parts_of(r, n);
        self.places.clear();
        for part in 0..self.parts.len() {
            let class = class_of(HEADER + self.parts[part].references + self.parts[part].numbers);
            let Some(place) = self.place(class) else {
                for (place, is_fresh) in std::mem::take(&mut self.places).into_iter().rev() {
                    self.release(place);
                    if is_fresh { self.drop_page(place as usize / 64) }
                }
                return None;
            };
            let is_fresh = self.class[place as usize / 64] == FREE;
            self.make(class, place, part);
            self.places.push((place, is_fresh));
        }
        self.births += 1;
        let fields = r + n;
        if fields > RUN {
            let mut child = 1;
            let spines = if fields <= RUN * RUN { 1 } else { 1 + self.parts[0].references };
            for spine in 0..spines {
                let start = self.start(self.places[spine].0) + HEADER;
                for i in 0..self.parts[spine].references {
                    self.words[start + i] = self.places[child].0 as u64 + 1;
                    child += 1;
                }
            }
        }
        Some(self.places[0].0)
    }
    fn child(&self, place: u32, i: usize) -> u32 { self.resolve((self.word(self.start(place) + HEADER + i) - 1) as u32) }
    /// The word of a field.
    fn field(&self, place: u32, counts: (usize, usize), j: usize) -> usize {
        let fields = counts.0 + counts.1;
        if fields <= RUN { return self.start(place) + HEADER + j }
        let spine = if fields <= RUN * RUN { place } else { self.child(place, j / (RUN * RUN)) };
        self.start(self.child(spine, j / RUN % RUN)) + HEADER + j % RUN
    }

    // Commands -------------------------------------------------------------------------------------

    fn shade(&mut self, place: u32) {
        if place == NULL { return }
        let place = self.resolve(place);
        if !Self::has(&self.marks, place) {
            self.marks[place as usize / 64] |= 1 << (place % 64);
            self.order[self.tail] = place;
            self.tail += 1;
        }
    }
    fn set_root(&mut self, slot: usize, place: u32) {
        if self.phase == Phase::Roots { self.shade(self.roots[slot]) }
        self.roots[slot] = place;
    }
    fn command(&mut self, event: Event, out: &mut Vec<u8>) -> u64 {
        let Event { op, who, a, b, c } = event;
        if who == 8 { out.extend_from_slice(b"refused 7 too many sessions\n"); return 1 }
        if self.ended[who as usize] { out.extend_from_slice(b"refused 6 ended\n"); return 1 }
        let own = |slot: usize| who as usize * SLOTS + slot;
        let (first, second, third) = (a as usize, b as usize, c as usize);
        let is_bad = match op {
            Op::New | Op::Read | Op::Write | Op::Clear | Op::Shape => first >= SLOTS,
            Op::Put => first >= SLOTS || third >= SLOTS,
            Op::End => false,
            _ => first >= SLOTS || second >= SLOTS,
        };
        let text: &[u8] = if is_bad { b"refused 1 bad slot\n" } else {
            match op {
                Op::New => if second as u64 + c > 216_000 { b"refused 4 too large\n" } else {
                    match self.make_object(second, third) {
                        None => b"refused 5 heap full\n",
                        Some(place) => { self.set_root(own(first), place); out.extend_from_slice(b"ok\n"); return self.parts.len() as u64 }
                    }
                },
                Op::Copy => { self.set_root(own(first), self.roots[own(second)]); b"ok\n" }
                Op::Clear => { self.set_root(own(first), NULL); b"ok\n" }
                Op::Same => if self.roots[own(first)] == self.roots[own(second)] { b"yes\n" } else { b"no\n" },
                Op::Post => { self.set_root(128 + first, self.roots[own(second)]); b"ok\n" }
                Op::Take => { self.set_root(own(first), self.roots[128 + second]); b"ok\n" }
                Op::End => { for slot in 0..SLOTS { self.set_root(own(slot), NULL) } self.ended[who as usize] = true; b"ok\n" }
                _ => return self.object_command(event, own(if op == Op::Get { second } else { first }), out),
            }
        };
        out.extend_from_slice(text);
        1
    }
    fn object_command(&mut self, event: Event, slot: usize, out: &mut Vec<u8>) -> u64 {
        let Event { op, who, a, b, c } = event;
        let place = self.roots[slot];
        if place == NULL { out.extend_from_slice(b"refused 2 null\n"); return 1 }
        let counts = self.counts(place);
        let (field, most) = match op { Op::Get => (c as usize, counts.0), Op::Put => (b as usize, counts.0), _ => (b as usize, counts.1) };
        if op == Op::Shape { out.extend_from_slice(b"shape "); number(out, counts.0 as u64); out.push(b' '); number(out, counts.1 as u64); out.push(b'\n'); return 1 }
        if field >= most { out.extend_from_slice(b"refused 3 no field\n"); return 1 }
        let j = if matches!(op, Op::Get | Op::Put) { field } else { counts.0 + field };
        let at = self.field(place, counts, j);
        match op {
            Op::Get => {
                let word = self.word(at);
                let target = if word == 0 { NULL } else { self.resolve((word - 1) as u32) };
                self.set_root(who as usize * SLOTS + a as usize, target);
            }
            Op::Put => {
                let word = self.word(at);
                if word != 0 && matches!(self.phase, Phase::Roots | Phase::Mark) { self.shade((word - 1) as u32) }
                let value = self.roots[who as usize * SLOTS + c as usize];
                self.put_word(at, if value == NULL { 0 } else { value as u64 + 1 });
            }
            Op::Read => { out.extend_from_slice(b"number "); number(out, self.word(at)); out.push(b'\n'); return 1 }
            _ => self.put_word(at, c),
        }
        out.extend_from_slice(b"ok\n");
        1
    }

    // The collector --------------------------------------------------------------------------------

    fn quantum(&mut self) -> u64 {
        if self.phase == Phase::Idle && (self.asked || self.free_pages <= self.config.trigger) {
            self.asked = false;
            self.cycle += 1;
            self.phase = Phase::Roots;
            (self.cursor, self.quanta_of_cycle, self.head, self.tail) = (0, 0, 0, 0);
            self.marks.fill(0);
        }
        if self.phase != Phase::Idle { self.quanta_of_cycle += 1 }
        let mut left = self.config.quantum;
        if self.phase == Phase::Roots { self.scan_roots(&mut left) }
        if self.phase == Phase::Mark { self.mark(&mut left) }
        if self.phase == Phase::Sweep { self.sweep(&mut left) }
        if self.phase == Phase::Defrag { self.defragment(&mut left) }
        let spent = self.config.quantum - left;
        self.collector += spent;
        self.quanta += 1;
        self.greatest = self.greatest.max(spent);
        self.add(false, spent);
        self.since = 0;
        spent
    }
    fn scan_roots(&mut self, left: &mut u64) {
        while *left >= 2 {
            self.shade(self.roots[self.cursor]);
            self.cursor += 1;
            *left -= 2;
            if self.cursor == ROOTS {
                self.phase = if self.head == self.tail { Phase::Sweep } else { Phase::Mark };
                self.cursor = 0;
                return;
            }
        }
    }
    fn fetch(&self, place: u32) {
        unsafe {
            let at = self.words.as_ptr().add(self.start(place));
            if cfg!(plain_loads) {
                at.read_volatile();
                at.add(8).read_volatile();
            } else if !cfg!(no_prefetch) {
                _mm_prefetch(at as *const i8, _MM_HINT_T0);
                _mm_prefetch(at.add(8) as *const i8, _MM_HINT_T0);
            }
        }
    }
    fn mark(&mut self, left: &mut u64) {
        let has_old = self.forwarders != 0;
        while self.head < self.tail {
            unsafe { self.fetch(*self.order.get_unchecked(self.head + AHEAD)) }
            let place = unsafe { *self.order.get_unchecked(self.head) };
            let start = self.start(place);
            let word = self.word(start + 1) as usize;
            let count = Self::reference_count((word >> 20 & 0xf_ffff, word & 0xf_ffff));
            let cost = 1 + count as u64;
            if cost > *left { return }
            *left -= cost;
            self.head += 1;
            for at in start + HEADER..start + HEADER + count {
                let word = self.word(at);
                if word == 0 { continue }
                let mut target = (word - 1) as u32;
                if has_old && Self::has(&self.old, target) {
                    let moved = self.word(self.start(target) + 3);
                    self.put_word(at, moved);
                    target = (moved - 1) as u32;
                }
                unsafe {
                    let marks = self.marks.get_unchecked_mut(target as usize / 64);
                    let before = *marks;
                    *marks |= 1 << (target % 64);
                    *self.order.get_unchecked_mut(self.tail) = if before == *marks { *self.order.get_unchecked(self.tail) } else { target };
                    self.tail += (before != *marks) as usize;
                }
            }
        }
        self.phase = Phase::Sweep;
        self.cursor = 0;
    }
    fn sweep(&mut self, left: &mut u64) {
        while *left > 0 {
            let (page, slot) = (self.cursor / 64, self.cursor % 64);
            let class = self.class[page];
            if class == FREE {
                *left -= 1;
                self.cursor = 64 * (page + 1);
            } else {
                let slots = PAGE / SIZES[class as usize];
                let count = (slots - slot).min(*left as usize);
                let range = u64::MAX >> (64 - count) << slot;
                let dead = range & !self.free[page] & (!self.marks[page] | self.old[page]);
                if dead != 0 {
                    self.blocks -= dead.count_ones() as u64;
                    self.forwarders -= (dead & self.old[page]).count_ones() as u64;
                    self.free[page] |= dead;
                    self.old[page] &= !dead;
                    self.marks[page] &= !dead;
                    self.index(page);
                }
                *left -= count as u64;
                self.cursor += count;
                if slot + count == slots {
                    let live = slots - self.free[page].count_ones() as usize;
                    if live == 0 { self.drop_page(page) } else {
                        let flagged = 4 * live <= slots && self.dense[class as usize].least().is_some_and(|least| least < page);
                        if flagged != self.flagged[page] { self.flagged[page] = flagged; self.index(page) }
                    }
                    self.cursor = 64 * (page + 1);
                }
            }
            if self.cursor >= 64 * self.config.pages { self.phase = Phase::Defrag; self.cursor = 0; return }
        }
    }
    fn defragment(&mut self, left: &mut u64) {
        let mut moved = false;
        while self.phase == Phase::Defrag {
            let (page, slot) = (self.cursor / 64, self.cursor % 64);
            let class = self.class[page];
            let mut next = 64 * (page + 1);
            let mut cost = 1;
            let mut target = None;
            if class != FREE && self.flagged[page] {
                let bit = 1 << slot;
                if slot + 1 < PAGE / SIZES[class as usize] { next = self.cursor + 1 }
                if self.free[page] & bit == 0 && self.old[page] & bit == 0 { target = self.dense_place(class as usize) }
                if target.is_some() { cost = 1 + SIZES[class as usize] as u64 + if moved { 0 } else { 144 } }
            }
            if cost > *left { break }
            *left -= cost;
            if let Some(to) = target {
                self.relocate(class as usize, self.cursor as u32, to);
                moved = true;
            }
            self.cursor = next;
            if next >= 64 * self.config.pages { self.phase = Phase::Idle; self.cursor = 0; self.quanta_of_cycle = 0 }
        }
        if moved { for slot in 0..ROOTS { if self.roots[slot] != NULL { self.roots[slot] = self.resolve(self.roots[slot]) } } }
    }
    fn relocate(&mut self, class: usize, place: u32, to: u32) {
        self.take(class, to);
        let (from, start) = (self.start(place), self.start(to));
        self.words.copy_within(from..from + SIZES[class], start);
        self.words[from + 3] = to as u64 + 1;
        let mark = self.marks[place as usize / 64] >> (place % 64) & 1;
        self.marks[to as usize / 64] |= mark << (to % 64);
        self.old[place as usize / 64] |= 1 << (place % 64);
        self.forwarders += 1;
    }

    // Events ---------------------------------------------------------------------------------------

    fn add(&mut self, is_mutator: bool, count: u64) {
        if count == 0 { return }
        match self.trace.last_mut() {
            Some((kind, last)) if *kind == is_mutator => *last += count,
            _ => self.trace.push((is_mutator, count)),
        }
    }
    fn event(&mut self, event: Event, out: &mut Vec<u8>) {
        if (event.op as u8) < Op::Quantum as u8 {
            let units = self.command(event, out);
            self.mutator += units;
            self.since += units;
            self.add(true, units);
            if self.config.every > 0 && self.since >= self.config.every { self.quantum(); }
            return;
        }
        match event.op {
            Op::Quantum => {
                let units = if self.config.every == 0 { self.quantum() } else { 0 };
                writeln!(out, "spent {units} phase {}", self.phase_word()).unwrap();
            }
            Op::Start => { self.asked = true; out.extend_from_slice(b"ok\n") }
            Op::Stat => writeln!(out, "free {} live {} old {} phase {} cycle {}", self.free_pages, self.blocks - self.forwarders, self.forwarders, self.phase_word(), self.cycle).unwrap(),
            Op::Dump => self.dump(out),
            Op::Left => writeln!(out, "left {}", self.left()).unwrap(),
            _ => self.report(event.c, out),
        }
    }
    fn phase_word(&self) -> &'static str {
        match self.phase { Phase::Idle => "idle", Phase::Roots => "roots", Phase::Mark => "mark", Phase::Sweep => "sweep", Phase::Defrag => "defrag" }
    }
    fn left(&self) -> u64 {
        if self.phase == Phase::Idle { return 0 }
        let (pages, quantum) = (self.config.pages as u64, self.config.quantum);
        let steps = 144 + 192 * pages;
        let most = if quantum < 353 { steps } else { steps.min((288 + 640 * pages) / (quantum - 352) + 1) };
        most - self.quanta_of_cycle
    }
    fn dump(&self, out: &mut Vec<u8>) {
        out.extend_from_slice(b"dump");
        for page in 0..self.config.pages {
            if self.class[page] == FREE { continue }
            let class = self.class[page] as usize;
            write!(out, " P{page} C{} {}", SIZES[class], if self.flagged[page] { '+' } else { '-' }).unwrap();
            let mut taken = all_slots(class) & !self.free[page];
            while taken != 0 {
                let slot = taken.trailing_zeros();
                taken &= taken - 1;
                let start = self.start((64 * page) as u32 + slot);
                let to = self.word(start + 3);
                if to == 0 { write!(out, " {slot}={}.{}", self.word(start) - 1, self.word(start + 1) >> 40).unwrap() } else { write!(out, " {slot}>{}.{}", (to - 1) / 64, (to - 1) % 64).unwrap() }
            }
        }
        out.push(b'\n');
    }
    fn least(&self, window: u64) -> Option<u64> {
        if window > self.mutator + self.collector { return None }
        let part = |kind: bool, count: u64| if kind { count } else { 0 };
        let (mut enter, mut entered, mut count, mut need) = (0, 0, 0, window);
        while need > 0 {
            let (kind, all) = self.trace[enter];
            let step = need.min(all - entered);
            count += part(kind, step);
            need -= step;
            entered += step;
            if entered == all { enter += 1; entered = 0 }
        }
        let (mut leave, mut passed, mut least) = (0, 0, count);
        while enter < self.trace.len() && window > 0 {
            let ((kind, all), (gone, whole)) = (self.trace[enter], self.trace[leave]);
            let step = (all - entered).min(whole - passed);
            count = count + part(kind, step) - part(gone, step);
            least = least.min(count);
            (entered, passed) = (entered + step, passed + step);
            if entered == all { enter += 1; entered = 0 }
            if passed == whole { leave += 1; passed = 0 }
        }
        Some(least)
    }
    fn report(&self, window: u64, out: &mut Vec<u8>) {
        write!(out, "mutator {} collector {} quanta {} greatest {} window {window} least ", self.mutator, self.collector, self.quanta, self.greatest).unwrap();
        match self.least(window) { None => out.extend_from_slice(b"none"), Some(least) => number(out, least) }
        if self.config.every == 0 { out.extend_from_slice(b" floor none\n"); return }
        let round = self.config.every + self.config.quantum;
        writeln!(out, " floor {}", self.config.every * (window / round) + (window % round).saturating_sub(self.config.quantum)).unwrap();
    }
}

fn number(out: &mut Vec<u8>, mut value: u64) {
    let mut digits = [0u8; 20];
    let mut at = 20;
    loop {
        at -= 1;
        digits[at] = b'0' + (value % 10) as u8;
        value /= 10;
        if value == 0 { break }
    }
    out.extend_from_slice(&digits[at..]);
}

fn main() -> io::Result<()> {
    let mut text = Vec::new();
    io::stdin().read_to_end(&mut text)?;
    let mut stdout = io::stdout();
    if text.len() > 67_108_864 { stdout.write_all(b"refused 10 line 0\n")?; exit(1) }
    let (config, events) = match parse(&text) {
        Ok(found) => found,
        Err(line) => { writeln!(stdout, "refused 10 line {line}")?; exit(1) }
    };
    let mut heap = Heap::new(config);
    let mut out = Vec::with_capacity(1 << 17);
    for event in events.iter().take(MOST_EVENTS) {
        heap.event(*event, &mut out);
        if out.len() >= 1 << 16 { stdout.write_all(&out)?; out.clear() }
    }
    stdout.write_all(&out)?;
    if events.len() > MOST_EVENTS { exit(3) }
    Ok(())
}
