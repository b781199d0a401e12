//! Runs the port ports/rust/agent.rs on the conformance vectors of standard input, whose format tests/agent/README.md has.
#![allow(dead_code)]

mod agent;

use agent::*;
use std::cmp::Ordering;
use std::collections::BTreeMap;
use std::io::{self, BufRead};

/// The numbers of a line that are left.
struct Numbers(std::vec::IntoIter<u64>);

impl Numbers {
    fn next(&mut self) -> u64 {
        self.0.next().expect("a number is missing")
    }
    fn short(&mut self) -> u32 {
        self.next() as u32
    }
    fn base(&mut self) -> Base {
        let (journal, number, nonce, known, fenced) = (self.next(), self.next(), self.next(), self.next(), self.next());
        Base { journal, number, fenced: fenced == 1, nonce: (known == 0).then_some(nonce) }
    }
    fn cell(&mut self) -> Option<Cell> {
        let (kind, party, number) = (self.next(), self.short(), self.next());
        match kind {
            0 => None,
            1 => Some(Cell::Absent),
            2 => Some(Cell::Prepared { from: party, number }),
            3 => Some(Cell::Secondary),
            4 => Some(Cell::Primary),
            5 => Some(Cell::Forwarding { to: party, number }),
            _ => panic!("a cell of kind {kind}"),
        }
    }
    fn slot(&mut self) -> Slot {
        let cell = self.cell().expect("a slot of zeros");
        let (last, at_work, load, cut, has_cut) = (self.next(), self.next(), self.next(), self.next(), self.next());
        Slot { cell, last, at_work: (at_work != 0).then_some(at_work), load, cut: (has_cut == 1).then_some(cut) }
    }
    fn assignment(&mut self) -> Assignment {
        let (kind, journal, fence, number) = (self.next(), self.next(), self.next(), self.next());
        let (has_nonce, nonce) = (self.next(), self.next());
        match kind {
            1 => Assignment::Settle { journal, number, nonce: (has_nonce == 1).then_some(nonce) },
            2 => Assignment::Restore { journal, fence, number, nonce },
            _ => panic!("an assignment of kind {kind}"),
        }
    }
    fn part(&mut self) -> Option<Part> {
        let (cell, load) = (self.cell(), self.next());
        cell.map(|cell| Part { cell, load })
    }
    fn stamp(&mut self) -> Stamp {
        Stamp { journal: self.next(), fence: self.next(), number: self.next() }
    }
    fn order(&mut self) -> Order {
        let (stamp, load, room, number) = (self.stamp(), self.next(), self.next(), self.next());
        let (kind, first, second, party) = (self.next(), self.next(), self.next(), self.short());
        let role = |number| if number == 1 { Role::Primary } else { Role::Secondary };
        let call = match kind {
            1 => Call::Add(role(first)),
            2 => Call::Drop,
            3 => Call::Change { from: role(first), to: role(second) },
            4 => Call::PrepareAdd { owner: party, number },
            5 => Call::PrepareDrop { new_owner: party, number },
            _ => panic!("a call of kind {kind}"),
        };
        Order { stamp, call, load, room }
    }
    fn copy(&mut self) -> ToldCopy {
        ToldCopy { view: self.next(), position: self.next() }
    }
    fn copies(&mut self) -> Vec<ToldCopy> {
        (0..self.next()).map(|_| self.copy()).collect()
    }
    fn views(&mut self) -> Vec<ViewStart> {
        (0..self.next()).map(|_| ViewStart { view: self.next(), position: self.next() }).collect()
    }
    fn passed(&mut self) -> Option<Pass> {
        let (handover, cut, party, is_passed) = (self.next(), self.next(), self.short(), self.next());
        (is_passed == 1).then_some(Pass { party, handover, cut })
    }
}

fn of_base(base: &Base) -> Vec<u64> {
    vec![base.journal, base.number, base.nonce.unwrap_or(0), base.nonce.is_none().into(), base.fenced.into()]
}

fn of_slot(slot: &Slot) -> Vec<u64> {
    let (kind, party, number) = match slot.cell {
        Cell::Absent => (1, 0, 0),
        Cell::Prepared { from, number } => (2, from, number),
        Cell::Secondary => (3, 0, 0),
        Cell::Primary => (4, 0, 0),
        Cell::Forwarding { to, number } => (5, to, number),
    };
    let cut = slot.cut.unwrap_or(0);
    vec![kind, party.into(), number, slot.last, slot.at_work.unwrap_or(0), slot.load, cut, slot.cut.is_some().into()]
}

fn of_verdict(verdict: Verdict) -> Vec<u64> {
    let order = [Verdict::Begin, Verdict::Working, Verdict::Again, Verdict::Old, Verdict::Foreign, Verdict::NotReady];
    let refusals = [Verdict::AlreadyHeld, Verdict::NotHeld, Verdict::WrongRole, Verdict::NoRoom];
    let place = order.iter().position(|it| *it == verdict).map(|place| place + 1);
    vec![place.or(refusals.iter().position(|it| *it == verdict).map(|place| place + 8)).expect("no number") as u64]
}

fn of_reception(reception: Reception, before: &Base) -> Vec<u64> {
    let (answer, base) = match reception {
        Reception::Taken(next) => (16, next),
        Reception::Again => (3, *before),
        Reception::Ignored => (17, *before),
    };
    [vec![answer], of_base(&base)].concat()
}

fn of_routing(routing: Routing) -> Vec<u64> {
    match routing {
        Routing::Execute => vec![12, 0, 0, 0, 0],
        Routing::PassOn(pass) => vec![13, pass.handover, pass.cut, pass.party.into(), 1],
        Routing::NotHere => vec![14, 0, 0, 0, 0],
        Routing::NotYet => vec![15, 0, 0, 0, 0],
    }
}

fn done_if(fact: bool) -> Vec<u64> {
    vec![if fact { 18 } else { 19 }]
}

fn of_order(order: Ordering) -> Vec<u64> {
    let orders = [Ordering::Less, Ordering::Equal, Ordering::Greater];
    vec![21 + orders.iter().position(|it| *it == order).expect("an order") as u64]
}

/// Takes an assignment: each shard has its place in the line as its name.
fn of_take(base: &Base, it: &mut Numbers) -> Vec<u64> {
    let assignment = it.assignment();
    let (mut slots, mut brought, count) = (BTreeMap::new(), BTreeMap::new(), it.next());
    for shard in 0..count {
        slots.extend(Some(it.slot()).filter(|slot| *slot != VACANT).map(|slot| (shard, slot)));
        brought.extend(it.part().map(|part| (shard, part)));
    }
    let reception = take(base, &assignment, &mut slots, &brought);
    let after = (0..count).flat_map(|shard| of_slot(slots.get(&shard).unwrap_or(&VACANT)));
    of_reception(reception, base).into_iter().chain(after).collect()
}

fn of_call(name: &str, it: &mut Numbers) -> Vec<u64> {
    match name {
        "begin" => return of_slot(&begin(&it.slot(), &it.order())),
        "abandon" => return of_slot(&abandon(&it.slot())),
        "seal" => return of_slot(&seal(&it.slot(), it.next(), it.next())),
        "has_reached_cut" => return done_if(has_reached_cut(&it.slot(), it.next())),
        "compare" => return of_order(compare(&it.copy(), &it.copy())),
        "resumes" => return done_if(resumes(&it.copy(), &it.views(), it.next())),
        "copied" => return done_if(is_copied(it.next(), &it.copy(), &it.copies(), it.next())),
        "acknowledged" => return vec![acknowledged(it.next(), &it.copy(), &it.copies())],
        _ => (),
    }
    let base = it.base();
    match name {
        "judge" => of_verdict(judge(&base, &it.slot(), it.next(), &it.order())),
        "commit" => match commit(&base, &it.slot(), &it.order(), it.next()) {
            None => vec![19],
            Some(next) => [vec![18], of_slot(&next)].concat(),
        },
        "route" => of_routing(route(&base, &it.slot(), it.next(), it.passed())),
        "may_delete" => done_if(may_delete(&base, &it.slot())),
        "fence" => of_reception(fence(&base, it.next(), it.next(), it.next()), &base),
        "heed" => of_base(&heed(&base, it.next(), it.next(), it.next())),
        "take" => of_take(&base, it),
        "publish" => of_verdict(publish(&base, it.next(), &it.stamp())),
        _ => panic!("no function {name}"),
    }
}

/// Calls each function with defaults: the default base is that of an Unknown server, the default slot that of a shard of which it has nothing.
fn want_zeros() {
    let (base, slot, primary) = (Base::default(), Slot::default(), Slot { cell: Cell::Primary, ..VACANT });
    let stamp = Stamp { journal: 0, fence: 0, number: 0 };
    let order = Order { stamp, call: Call::Drop, load: 0, room: 0 };
    let later = Order { stamp: Stamp { number: 5, ..stamp }, call: Call::Add(Role::Primary), ..order };
    assert_eq!([judge(&base, &slot, 0, &order), judge(&base, &primary, 0, &later)], [Verdict::NotReady; 2]);
    assert_eq!(commit(&base, &begin(&slot, &later), &later, 0), None);
    assert!(matches!(route(&base, &primary, 0, None), Routing::NotHere));
    assert!(matches!(route(&base, &slot, 0, Some(Pass { party: 0, handover: 0, cut: 0 })), Routing::NotHere));
    assert_eq!([abandon(&slot), seal(&slot, 0, 0)], [slot; 2]);
    assert!(!has_reached_cut(&slot, 0) && may_delete(&base, &slot));
    assert_eq!([forget(0), heed(&base, 0, 0, 0), heed(&base, 0, 5, 9)], [base; 3]);
    assert_eq!(fence(&base, 0, 0, 0), Reception::Ignored);
    assert_eq!(fence(&base, 1, 5, 9), Reception::Taken(Base { journal: 1, number: 5, fenced: true, nonce: Some(9) }));
    let settles = [None, Some(0)].map(|nonce| Assignment::Settle { journal: 0, number: 0, nonce });
    let restore = Assignment::Restore { journal: 0, fence: 0, number: 0, nonce: 0 };
    for assignment in settles.into_iter().chain([restore]) {
        let mut slots = BTreeMap::from([("s", primary)]);
        assert_eq!(take(&base, &assignment, &mut slots, &BTreeMap::new()), Reception::Ignored);
        assert_eq!(slots["s"], primary);
    }
    let (mut slots, brought) = (BTreeMap::from([("s", primary)]), BTreeMap::from([("t", Part::default())]));
    let restore = Assignment::Restore { journal: 1, fence: 0, number: 3, nonce: 9 };
    let known = Base { journal: 1, number: 3, fenced: false, nonce: None };
    assert_eq!(take(&forget(9), &restore, &mut slots, &brought), Reception::Taken(known));
    assert_eq!(slots, BTreeMap::from([("s", slot), ("t", slot)]));
    assert_eq!(publish(&base, 0, &stamp), Verdict::NotReady);
}

fn numbers(text: &str) -> Vec<u64> {
    text.split_whitespace().map(|word| word.parse().expect("a number")).collect()
}

fn main() {
    want_zeros();
    let mut count = 0;
    for line in io::stdin().lock().lines() {
        let line = line.expect("a line");
        let (given, wanted) = line.split_once(" =").expect("a sign");
        let (name, given) = given.split_once(' ').expect("a name");
        let mut left = Numbers(numbers(given).into_iter());
        if of_call(name, &mut left) != numbers(wanted) || left.0.next().is_some() {
            eprintln!("another answer: {line}");
            std::process::exit(1);
        }
        count += 1;
    }
    println!("{count} vectors");
    assert!(count > 0);
}
