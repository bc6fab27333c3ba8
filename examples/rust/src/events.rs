//! Events and replies in types of their own.
use crate::sys::{EventNumbers, ItemNumbers, ReplyNumbers};

/// An event: a command of the session with this number, or a control. A session of 8 or more is one too many.
#[derive(Clone, Copy, Debug, PartialEq, Eq)]
pub enum Event {
    New {
        session: u32,
        slot: u32,
        references: u32,
        numbers: u32,
    },
    Get {
        session: u32,
        slot: u32,
        source: u32,
        field: u32,
    },
    Put {
        session: u32,
        slot: u32,
        field: u32,
        value: u32,
    },
    Copy {
        session: u32,
        slot: u32,
        source: u32,
    },
    Clear {
        session: u32,
        slot: u32,
    },
    Read {
        session: u32,
        slot: u32,
        index: u32,
    },
    Write {
        session: u32,
        slot: u32,
        index: u32,
        number: u64,
    },
    Same {
        session: u32,
        left: u32,
        right: u32,
    },
    Shape {
        session: u32,
        slot: u32,
    },
    Post {
        session: u32,
        board: u32,
        slot: u32,
    },
    Take {
        session: u32,
        slot: u32,
        board: u32,
    },
    End {
        session: u32,
    },
    Quantum,
    Start,
    Stat,
    Dump,
    Report {
        window: u64,
    },
    Left,
}

impl Event {
    pub(crate) fn numbers(self) -> EventNumbers {
        let (kind, session, first, second, third) = match self {
            Event::New {
                session,
                slot,
                references,
                numbers,
            } => (1, session, slot, references, u64::from(numbers)),
            Event::Get {
                session,
                slot,
                source,
                field,
            } => (2, session, slot, source, u64::from(field)),
            Event::Put {
                session,
                slot,
                field,
                value,
            } => (3, session, slot, field, u64::from(value)),
            Event::Copy {
                session,
                slot,
                source,
            } => (4, session, slot, source, 0),
            Event::Clear { session, slot } => (5, session, slot, 0, 0),
            Event::Read {
                session,
                slot,
                index,
            } => (6, session, slot, index, 0),
            Event::Write {
                session,
                slot,
                index,
                number,
            } => (7, session, slot, index, number),
            Event::Same {
                session,
                left,
                right,
            } => (8, session, left, right, 0),
            Event::Shape { session, slot } => (9, session, slot, 0, 0),
            Event::Post {
                session,
                board,
                slot,
            } => (10, session, board, slot, 0),
            Event::Take {
                session,
                slot,
                board,
            } => (11, session, slot, board, 0),
            Event::End { session } => (12, session, 0, 0, 0),
            Event::Quantum => (13, 0, 0, 0, 0),
            Event::Start => (14, 0, 0, 0, 0),
            Event::Stat => (15, 0, 0, 0, 0),
            Event::Dump => (16, 0, 0, 0, 0),
            Event::Report { window } => (17, 0, 0, 0, window),
            Event::Left => (18, 0, 0, 0, 0),
        };
        EventNumbers {
            kind,
            session,
            first,
            second,
            third,
        }
    }
}

#[derive(Clone, Copy, Debug, PartialEq, Eq)]
pub enum Refusal {
    BadSlot,
    Null,
    NoField,
    TooLarge,
    HeapFull,
    Ended,
    TooManySessions,
}

#[derive(Clone, Copy, Debug, PartialEq, Eq)]
pub enum Phase {
    Idle,
    Roots,
    Mark,
    Sweep,
    Defrag,
}

#[derive(Clone, Copy, Debug, PartialEq, Eq)]
pub struct Stat {
    pub free: u64,
    pub live: u64,
    pub old: u64,
    pub phase: Phase,
    pub cycle: u64,
}

#[derive(Clone, Copy, Debug, PartialEq, Eq)]
pub struct Report {
    pub mutator: u64,
    pub collector: u64,
    pub quanta: u64,
    pub greatest: u64,
    pub window: u64,
    pub least: Option<u64>,
    pub floor: Option<u64>,
}

/// An item of a dump.
#[derive(Clone, Copy, Debug, PartialEq, Eq)]
pub enum Item {
    Page {
        page: u64,
        class_size: u64,
        is_flagged: bool,
    },
    Block {
        slot: u64,
        birth: u64,
        part: u64,
    },
    Forwarder {
        slot: u64,
        to_page: u64,
        to_slot: u64,
    },
}

impl Item {
    pub(crate) fn from_numbers(item: &ItemNumbers) -> Item {
        let [first, second, third] = item.numbers;
        match item.kind {
            1 => Item::Page {
                page: first,
                class_size: second,
                is_flagged: third == 1,
            },
            2 => Item::Block {
                slot: first,
                birth: second,
                part: third,
            },
            3 => Item::Forwarder {
                slot: first,
                to_page: second,
                to_slot: third,
            },
            kind => unreachable!("no item has the kind {kind}"),
        }
    }
}

#[derive(Clone, Debug, PartialEq, Eq)]
pub enum Reply {
    Ok,
    Number(u64),
    Yes,
    No,
    Shape { references: u64, numbers: u64 },
    Refused(Refusal),
    Spent { units: u64, phase: Phase },
    Stat(Stat),
    Dump(Vec<Item>),
    Report(Report),
    Left(u64),
}

pub(crate) fn phase(number: u64) -> Phase {
    match number {
        0 => Phase::Idle,
        1 => Phase::Roots,
        2 => Phase::Mark,
        3 => Phase::Sweep,
        4 => Phase::Defrag,
        _ => unreachable!("no phase has the number {number}"),
    }
}

const REFUSALS: [Refusal; 7] = [
    Refusal::BadSlot,
    Refusal::Null,
    Refusal::NoField,
    Refusal::TooLarge,
    Refusal::HeapFull,
    Refusal::Ended,
    Refusal::TooManySessions,
];

fn refusal(number: u64) -> Refusal {
    REFUSALS[number as usize - 1]
}

/// 1 and the number, or two zeros.
fn option_numbers(number: Option<u64>) -> [u64; 2] {
    number.map_or([0, 0], |number| [1, number])
}

impl Reply {
    /// The items of a dump are asked for one by one.
    pub(crate) fn from_numbers(reply: &ReplyNumbers, item: impl FnMut(usize) -> Item) -> Reply {
        let n = reply.numbers;
        match reply.kind {
            1 => Reply::Ok,
            2 => Reply::Number(n[0]),
            3 => Reply::Yes,
            4 => Reply::No,
            5 => Reply::Shape {
                references: n[0],
                numbers: n[1],
            },
            6 => Reply::Refused(refusal(n[0])),
            7 => Reply::Spent {
                units: n[0],
                phase: phase(n[1]),
            },
            8 => Reply::Stat(Stat {
                free: n[0],
                live: n[1],
                old: n[2],
                phase: phase(n[3]),
                cycle: n[4],
            }),
            9 => Reply::Dump((0..n[0] as usize).map(item).collect()),
            10 => Reply::Report(Report {
                mutator: n[0],
                collector: n[1],
                quanta: n[2],
                greatest: n[3],
                window: n[4],
                least: (n[5] == 1).then_some(n[6]),
                floor: (n[7] == 1).then_some(n[8]),
            }),
            11 => Reply::Left(n[0]),
            kind => unreachable!("no reply has the kind {kind}"),
        }
    }

    /// What is judged of a reply: all of it but the items of a dump.
    pub(crate) fn numbers(&self) -> ReplyNumbers {
        let (kind, given): (u32, &[u64]) = match self {
            Reply::Ok => (1, &[]),
            Reply::Number(number) => (2, &[*number]),
            Reply::Yes => (3, &[]),
            Reply::No => (4, &[]),
            Reply::Shape {
                references,
                numbers,
            } => (5, &[*references, *numbers]),
            Reply::Refused(refusal) => (6, &[*refusal as u64 + 1]),
            Reply::Spent { units, phase } => (7, &[*units, *phase as u64]),
            Reply::Stat(stat) => (
                8,
                &[
                    stat.free,
                    stat.live,
                    stat.old,
                    stat.phase as u64,
                    stat.cycle,
                ],
            ),
            Reply::Dump(items) => (9, &[items.len() as u64]),
            Reply::Report(report) => {
                let [has_least, least] = option_numbers(report.least);
                let [has_floor, floor] = option_numbers(report.floor);
                (
                    10,
                    &[
                        report.mutator,
                        report.collector,
                        report.quanta,
                        report.greatest,
                        report.window,
                        has_least,
                        least,
                        has_floor,
                        floor,
                    ],
                )
            }
            Reply::Left(quanta) => (11, &[*quanta]),
        };
        let mut numbers = [0; 9];
        numbers[..given.len()].copy_from_slice(given);
        ReplyNumbers { kind, numbers }
    }
}
