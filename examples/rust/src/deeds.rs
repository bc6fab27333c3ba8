//! Deeds and units in types of their own.
use crate::events::{phase, Phase};
use crate::sys::{DeedNumbers, UnitNumbers};

/// Where a block is: a slot of a page.
#[derive(Clone, Copy, Debug, PartialEq, Eq)]
pub struct Place {
    pub page: u64,
    pub slot: u64,
}

/// A block: the birth of its object, and which part of it.
#[derive(Clone, Copy, Debug, PartialEq, Eq)]
pub struct Part {
    pub birth: u64,
    pub part: u64,
}

/// Where a part of a new object was placed.
#[derive(Clone, Copy, Debug, PartialEq, Eq)]
pub enum Tier {
    /// In a dense page of its class.
    Dense,
    /// In a free page.
    Fresh,
    /// In a sparse page of its class.
    Sparse,
}

/// What the collector or a command did, as `metroheap steps` tells it.
#[derive(Clone, Copy, Debug, PartialEq, Eq)]
pub enum Act {
    Start {
        cycle: u64,
    },
    Enter(Phase),
    End,
    Root {
        slot: u64,
        from: Option<Place>,
        to: Option<Place>,
        is_shaded: bool,
    },
    Mark(Place, Part),
    Reference {
        index: u64,
        from: Option<Place>,
        to: Option<Place>,
        is_shaded: bool,
    },
    Pass {
        page: u64,
    },
    Empty(Place),
    Keep(Place, Part),
    Free(Place, Part),
    /// A forwarder is freed that led to the second place.
    Drop(Place, Place),
    FreePage {
        page: u64,
    },
    Flag {
        page: u64,
    },
    Unflag {
        page: u64,
    },
    Stay(Place),
    Move {
        from: Place,
        to: Place,
        part: Part,
        class_size: u64,
    },
    Forward,
    Shade(Place),
    Make {
        place: Place,
        part: Part,
        class_size: u64,
        references: u64,
        numbers: u64,
        tier: Tier,
    },
}

/// An act, and the units that it cost.
#[derive(Clone, Copy, Debug, PartialEq, Eq)]
pub struct Deed {
    pub units: u64,
    pub act: Act,
}

fn place(number: u64) -> Place {
    Place {
        page: number / 64,
        slot: number % 64,
    }
}

fn place_or_none(number: u64) -> Option<Place> {
    (number != u64::MAX).then(|| place(number))
}

fn tier(number: u64) -> Tier {
    match number {
        0 => Tier::Dense,
        1 => Tier::Fresh,
        2 => Tier::Sparse,
        _ => unreachable!("no tier has the number {number}"),
    }
}

impl Deed {
    pub(crate) fn from_numbers(deed: &DeedNumbers) -> Deed {
        let n = deed.numbers;
        let part = |birth, part| Part { birth, part };
        let act = match deed.kind {
            1 => Act::Start { cycle: n[0] },
            2 => Act::Enter(phase(n[0])),
            3 => Act::End,
            4 => Act::Root {
                slot: n[0],
                from: place_or_none(n[1]),
                to: place_or_none(n[2]),
                is_shaded: n[3] == 1,
            },
            5 => Act::Mark(place(n[0]), part(n[1], n[2])),
            6 => Act::Reference {
                index: n[0],
                from: place_or_none(n[1]),
                to: place_or_none(n[2]),
                is_shaded: n[3] == 1,
            },
            7 => Act::Pass { page: n[0] },
            8 => Act::Empty(place(n[0])),
            9 => Act::Keep(place(n[0]), part(n[1], n[2])),
            10 => Act::Free(place(n[0]), part(n[1], n[2])),
            11 => Act::Drop(place(n[0]), place(n[1])),
            12 => Act::FreePage { page: n[0] },
            13 => Act::Flag { page: n[0] },
            14 => Act::Unflag { page: n[0] },
            15 => Act::Stay(place(n[0])),
            16 => Act::Move {
                from: place(n[0]),
                to: place(n[1]),
                part: part(n[2], n[3]),
                class_size: n[4],
            },
            17 => Act::Forward,
            18 => Act::Shade(place(n[0])),
            19 => Act::Make {
                place: place(n[0]),
                part: part(n[1], n[2]),
                class_size: n[3],
                references: n[4],
                numbers: n[5],
                tier: tier(n[6]),
            },
            kind => unreachable!("no deed has the kind {kind}"),
        };
        Deed {
            units: deed.units,
            act,
        }
    }
}

/// What the last event added to the trace.
#[derive(Clone, Copy, Debug, PartialEq, Eq)]
pub struct Units {
    /// Units that the trace had before it.
    pub at: u64,
    pub mutator: u64,
    /// What its quantum spent, if it ran one.
    pub collector: Option<u64>,
    /// The phase after it.
    pub phase: Phase,
}

impl Units {
    pub(crate) fn from_numbers(units: &UnitNumbers) -> Units {
        Units {
            at: units.at,
            mutator: units.mutator,
            collector: (units.ran == 1).then_some(units.collector),
            phase: phase(units.phase),
        }
    }
}
