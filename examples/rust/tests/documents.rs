//! Scripts of docs/SCRIPTS.md and docs/MANUAL.md, with the replies that they have there.
use metroheap::{
    Act, Config, Error, Event, Heap, Item, Judge, Part, Phase, Place, Refusal, Reply, Report, Stat,
    Tier, Units, Verdict, World,
};

fn heap(pages: u32, quantum: u32, trigger: u32, every: u32) -> Heap {
    Heap::open(Config {
        pages,
        quantum,
        trigger,
        every,
    })
    .unwrap()
}

#[test]
fn objects_slots_and_fields() {
    let mut heap = heap(4, 1000, 0, 0);
    for line in [
        "a new 0 1 2",
        "a new 1 0 1",
        "a write 1 0 7",
        "a put 0 0 1",
        "a clear 1",
    ] {
        assert_eq!(heap.line(line), Ok("ok"));
    }
    assert_eq!(heap.line("a read 1 0"), Ok("refused 2 null"));
    assert_eq!(heap.line("a get 2 0 0"), Ok("ok"));
    assert_eq!(heap.line("a read 2 0"), Ok("number 7"));
    assert_eq!(heap.line("a shape 0"), Ok("shape 1 2"));
    assert_eq!(heap.line("a get 3 0 1"), Ok("refused 3 no field"));
}

#[test]
fn collecting() {
    let mut heap = heap(4, 1000, 0, 0);
    for slot in 0..6 {
        assert_eq!(
            heap.step(Event::New {
                session: 0,
                slot,
                references: 0,
                numbers: 60
            }),
            Ok(Reply::Ok)
        );
    }
    for slot in [1, 5] {
        assert_eq!(heap.step(Event::Clear { session: 0, slot }), Ok(Reply::Ok));
    }
    assert_eq!(heap.step(Event::Start), Ok(Reply::Ok));
    assert_eq!(
        heap.step(Event::Quantum),
        Ok(Reply::Spent {
            units: 517,
            phase: Phase::Idle
        })
    );
    assert_eq!(
        heap.step(Event::Dump),
        Ok(Reply::Dump(vec![
            Item::Page {
                page: 0,
                class_size: 64,
                is_flagged: false
            },
            Item::Block {
                slot: 0,
                birth: 0,
                part: 0
            },
            Item::Block {
                slot: 1,
                birth: 4,
                part: 0
            },
            Item::Block {
                slot: 2,
                birth: 2,
                part: 0
            },
            Item::Block {
                slot: 3,
                birth: 3,
                part: 0
            },
            Item::Page {
                page: 1,
                class_size: 64,
                is_flagged: true
            },
            Item::Forwarder {
                slot: 0,
                to_page: 0,
                to_slot: 1
            },
        ]))
    );
    assert_eq!(
        heap.step(Event::Stat),
        Ok(Reply::Stat(Stat {
            free: 2,
            live: 4,
            old: 1,
            phase: Phase::Idle,
            cycle: 1
        }))
    );
}

#[test]
fn sessions_and_the_board() {
    let mut heap = heap(4, 1000, 0, 0);
    for line in ["a new 0 0 1", "a write 0 0 5", "a post 3 0"] {
        assert_eq!(heap.line(line), Ok("ok"));
    }
    assert_eq!(
        heap.step(Event::Read {
            session: 1,
            slot: 0,
            index: 0
        }),
        Ok(Reply::Refused(Refusal::Null))
    );
    assert_eq!(
        heap.step(Event::Take {
            session: 1,
            slot: 1,
            board: 3
        }),
        Ok(Reply::Ok)
    );
    assert_eq!(
        heap.step(Event::Read {
            session: 1,
            slot: 1,
            index: 0
        }),
        Ok(Reply::Number(5))
    );
    assert_eq!(heap.line("a end"), Ok("ok"));
    assert_eq!(heap.line("a clear 0"), Ok("refused 6 ended"));
}

#[test]
fn quanta_run_by_the_scheduler() {
    let mut heap = heap(16, 400, 8, 40);
    heap.line("a new 0 0 2340").unwrap();
    assert_eq!(
        heap.line("* stat"),
        Ok("free 5 live 40 old 0 phase sweep cycle 1")
    );
    assert_eq!(
        heap.step(Event::Quantum),
        Ok(Reply::Spent {
            units: 0,
            phase: Phase::Sweep
        })
    );
    let report = Report {
        mutator: 40,
        collector: 400,
        quanta: 1,
        greatest: 400,
        window: 420,
        least: Some(20),
        floor: Some(20),
    };
    assert_eq!(
        heap.step(Event::Report { window: 420 }),
        Ok(Reply::Report(report))
    );
}

#[test]
fn what_is_no_event() {
    let mut heap = heap(4, 209, 0, 0);
    assert_eq!(heap.line(""), Ok(""));
    assert_eq!(heap.line("# a end"), Ok(""));
    assert_eq!(heap.line("\n"), Ok(""));
    assert_eq!(heap.last_text(), Err(Error::NoReply));
    assert_eq!(heap.last_reply(), Err(Error::NoReply));
    assert_eq!(heap.last_units(), Err(Error::NoReply));
    assert_eq!(heap.line("a frob"), Err(Error::Wrong));
    assert_eq!(heap.line("a new 0 0 1 # one number"), Err(Error::Wrong));
    assert_eq!(
        metroheap::reason("a frob"),
        Ok(Some("\"frob\" is no command".to_string()))
    );
    let long = format!("a {}", "x".repeat(200));
    assert!(metroheap::reason(&long).unwrap().unwrap().len() > 80);
    assert_eq!(metroheap::reason("a end\n"), Ok(None));
    assert_eq!(metroheap::reason(""), Ok(None));
    assert_eq!(
        Error::NoReply.to_string(),
        "no event was done yet".to_string()
    );
    assert_eq!(
        Heap::open(Config {
            pages: 4,
            quantum: 208,
            trigger: 0,
            every: 0
        })
        .err(),
        Some(Error::BadConfig)
    );
}

#[test]
fn a_long_reply() {
    let mut heap = heap(4096, 209, 0, 0);
    for _ in 0..500 {
        assert_eq!(heap.line("a new 0 0 60"), Ok("ok"));
    }
    let text = heap.line("* dump").unwrap().to_string();
    assert!(text.len() > 4000);
    assert_eq!(heap.last_text(), Ok(text.as_str()));
    assert!(matches!(heap.last_reply(), Ok(Reply::Dump(items)) if items.len() == 625));
    assert_eq!(heap.line("a read 0 0"), Ok("number 0"));
}

#[test]
fn another_thread_goes_on() {
    let mut heap = heap(4, 209, 0, 0);
    heap.line("a new 0 0 1").unwrap();
    let mut heap = std::thread::spawn(move || {
        heap.line("a write 0 0 7").unwrap();
        heap
    })
    .join()
    .unwrap();
    assert_eq!(heap.line("a read 0 0"), Ok("number 7"));
}

#[test]
fn units_and_what_is_seen_without_an_event() {
    let mut heap = heap(16, 400, 8, 40);
    heap.line("a new 0 0 2340").unwrap();
    assert_eq!(
        heap.last_units(),
        Ok(Units {
            at: 0,
            mutator: 40,
            collector: Some(400),
            phase: Phase::Sweep
        })
    );
    let stat = Stat {
        free: 5,
        live: 40,
        old: 0,
        phase: Phase::Sweep,
        cycle: 1,
    };
    assert_eq!(heap.see_stat(), stat);
    let left = heap.see_left();
    assert_eq!(heap.last_text(), Ok("ok"));
    assert_eq!(heap.step(Event::Left), Ok(Reply::Left(left)));
    assert_eq!(
        heap.last_units(),
        Ok(Units {
            at: 440,
            mutator: 0,
            collector: None,
            phase: Phase::Sweep
        })
    );
}

#[test]
fn traces_are_forgotten() {
    let mut heap = heap(16, 400, 8, 40);
    assert_eq!(heap.reserve(3), Ok(()));
    assert_eq!(heap.reserve(usize::MAX), Err(Error::NoMemory));
    assert_eq!(heap.step(new(0, 2340)), Ok(Reply::Ok));
    let report = heap.see_report(420);
    assert_eq!((report.mutator, report.quanta), (40, 1));
    assert_eq!(heap.last_reply(), Ok(Reply::Ok));
    assert_eq!(
        heap.step(Event::Report { window: 420 }),
        Ok(Reply::Report(report))
    );
    assert_eq!(heap.last_units().map(|units| units.at), Ok(440));
    heap.forget();
    assert_eq!(
        heap.see_report(420),
        Report {
            mutator: 0,
            collector: 0,
            quanta: 0,
            greatest: 0,
            window: 420,
            least: None,
            floor: Some(20)
        }
    );
    let shape = Event::Shape {
        session: 1,
        slot: 0,
    };
    assert_eq!(
        heap.step(shape),
        Ok(Reply::Shape {
            references: 0,
            numbers: 2340
        })
    );
    assert_eq!(heap.last_units().map(|units| units.at), Ok(0));
}

#[test]
fn deeds() {
    let mut heap = heap(4, 1000, 0, 0);
    heap.line("a new 0 0 1").unwrap();
    assert_eq!(heap.deeds(), Err(Error::NoDeeds));
    heap.tell(true);
    heap.line("a new 1 1 1").unwrap();
    let deeds = heap.deeds().unwrap();
    assert_eq!(deeds.len(), 1);
    assert_eq!(deeds[0].units, 0);
    assert_eq!(
        deeds[0].act,
        Act::Make {
            place: Place { page: 1, slot: 0 },
            part: Part { birth: 1, part: 0 },
            class_size: 6,
            references: 1,
            numbers: 1,
            tier: Tier::Fresh
        }
    );
    heap.line("* start").unwrap();
    assert_eq!(heap.deeds(), Ok(vec![]));
    let Ok(Reply::Spent { units, phase }) = heap.step(Event::Quantum) else {
        panic!("a quantum spends units");
    };
    assert_eq!(phase, Phase::Idle);
    let deeds = heap.deeds().unwrap();
    assert_eq!(deeds[0].act, Act::Start { cycle: 1 });
    assert_eq!(deeds[1].act, Act::Enter(Phase::Roots));
    assert_eq!(
        deeds[2].act,
        Act::Root {
            slot: 0,
            from: Some(Place { page: 0, slot: 0 }),
            to: Some(Place { page: 0, slot: 0 }),
            is_shaded: true
        }
    );
    assert_eq!(deeds.last().unwrap().act, Act::End);
    assert_eq!(deeds.iter().map(|deed| deed.units).sum::<u64>(), units);
    heap.tell(false);
    heap.line("* stat").unwrap();
    assert_eq!(heap.deeds(), Err(Error::NoDeeds));
}

fn new(slot: u32, numbers: u32) -> Event {
    Event::New {
        session: 1,
        slot,
        references: 0,
        numbers,
    }
}

#[test]
fn a_world_judges() {
    let mut world = World::open().unwrap();
    let shape = Event::Shape {
        session: 1,
        slot: 0,
    };
    let full = Reply::Refused(Refusal::HeapFull);
    let found = Reply::Shape {
        references: 0,
        numbers: 7,
    };
    let null = Reply::Refused(Refusal::Null);
    assert_eq!(world.judge(new(0, 7), &full), Ok(Verdict::Right));
    assert_eq!(world.judge(shape, &null), Ok(Verdict::Right));
    assert_eq!(world.judge(shape, &full), Ok(Verdict::Differs(null)));
    assert_eq!(world.judge(new(0, 7), &Reply::Ok), Ok(Verdict::Right));
    assert_eq!(
        world.judge(shape, &Reply::Yes),
        Ok(Verdict::Differs(found.clone()))
    );
    assert_eq!(world.step(shape), Ok(found.clone()));
    assert_eq!(world.last_reply(), Ok(found));
    assert_eq!(world.last_text(), Ok("shape 0 7"));
    assert_eq!(world.judge(Event::Stat, &Reply::No), Ok(Verdict::Right));
    assert_eq!(world.step(Event::Stat), Err(Error::IsWorld));
    assert_eq!(world.line("* stat"), Err(Error::IsWorld));
    assert_eq!(world.line("z clear 1"), Ok("ok"));
    let many = Event::Clear {
        session: 300,
        slot: 0,
    };
    assert_eq!(
        world.step(many),
        Ok(Reply::Refused(Refusal::TooManySessions))
    );
}

#[test]
fn a_machine_judges() {
    let mut heap = heap(4, 1000, 0, 0);
    assert_eq!(
        heap.judge(new(0, 7), &Reply::Refused(Refusal::HeapFull)),
        Ok(Verdict::Differs(Reply::Ok))
    );
    let Ok(Verdict::Differs(dump)) = heap.judge(Event::Dump, &Reply::Dump(vec![])) else {
        panic!("the dump has items");
    };
    assert_eq!(heap.judge(Event::Dump, &dump), Ok(Verdict::Right));
    for event in [Event::Stat, Event::Left, Event::Report { window: 1 }] {
        let right = heap.step(event).unwrap();
        assert_eq!(heap.judge(event, &right), Ok(Verdict::Right));
    }
    let Ok(Verdict::Differs(spent)) = heap.judge(Event::Quantum, &Reply::Ok) else {
        panic!("a quantum answers what it spent");
    };
    assert_eq!(heap.judge(Event::Quantum, &spent), Ok(Verdict::Right));
}
