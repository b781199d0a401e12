//! A server's side of moving shards, in plain Rust: a port of the library of include/sm_agent.h, which says what each function answers.
//! The proved functions write vectors (`make vectors`, tests/agent/README.md), which this port passes.

use std::cmp::Ordering;
use std::collections::BTreeMap;

#[derive(Clone, Copy, Debug, Default, PartialEq, Eq)]
pub enum Cell {
    #[default]
    Absent,
    Prepared { from: u32, number: u64 },
    Secondary,
    Primary,
    Forwarding { to: u32, number: u64 },
}

#[derive(Clone, Copy, Debug, PartialEq, Eq)]
pub enum Role {
    Primary,
    Secondary,
}

#[derive(Clone, Copy, Debug, PartialEq, Eq)]
pub enum Call {
    Add(Role),
    Drop,
    Change { from: Role, to: Role },
    PrepareAdd { owner: u32, number: u64 },
    PrepareDrop { new_owner: u32, number: u64 },
}

/// A server's base. The default is that of an Unknown server.
#[derive(Clone, Copy, Debug, PartialEq, Eq)]
pub struct Base {
    pub journal: u64,
    pub number: u64,
    pub fenced: bool,
    /// While Unknown: the nonce under which the server asks for its slots, 0 before it has made one. None once it has them.
    pub nonce: Option<u64>,
}

impl Default for Base {
    fn default() -> Self {
        forget(0)
    }
}

#[derive(Clone, Copy, Debug, PartialEq, Eq)]
pub struct Slot {
    pub cell: Cell,
    pub last: u64,
    pub at_work: Option<u64>,
    pub load: u64,
    pub cut: Option<u64>,
}

/// The slot of a shard that the server has never had.
pub const VACANT: Slot = Slot { cell: Cell::Absent, last: 0, at_work: None, load: 0, cut: None };

impl Default for Slot {
    fn default() -> Self {
        VACANT
    }
}

/// A message that brings a server all its slots.
#[derive(Clone, Copy, Debug)]
pub enum Assignment {
    /// It ends a reopening; the nonce is the one that the server's answer to the fence had, none if that had slots.
    Settle { journal: u64, number: u64, nonce: Option<u64> },
    /// It answers a server that has lost its slots.
    Restore { journal: u64, fence: u64, number: u64, nonce: u64 },
}

/// What an assignment brings of one shard; nothing, by default.
#[derive(Clone, Copy, Debug, Default)]
pub struct Part {
    pub cell: Cell,
    pub load: u64,
}

#[derive(Clone, Copy, Debug)]
pub struct Stamp {
    pub journal: u64,
    pub fence: u64,
    pub number: u64,
}

#[derive(Clone, Copy, Debug)]
pub struct Order {
    pub stamp: Stamp,
    pub call: Call,
    pub load: u64,
    pub room: u64,
}

#[derive(Clone, Copy, Debug, PartialEq, Eq)]
pub enum Verdict {
    Begin,
    Working,
    Again,
    Old,
    Foreign,
    NotReady,
    AlreadyHeld,
    NotHeld,
    WrongRole,
    NoRoom,
}

#[derive(Clone, Copy, Debug)]
pub struct Pass {
    pub party: u32,
    pub handover: u64,
    pub cut: u64,
}

#[derive(Clone, Copy, Debug)]
pub enum Routing {
    Execute,
    PassOn(Pass),
    NotHere,
    NotYet,
}

#[derive(Clone, Copy, Debug, PartialEq, Eq)]
pub enum Reception {
    Taken(Base),
    Again,
    Ignored,
}

/// The cell that a call leads to; what is not in this table is refused.
fn next_cell(call: Call, cell: Cell) -> Option<Cell> {
    match (call, cell) {
        // the table
        (Call::Add(Role::Primary), Cell::Absent) => Some(Cell::Primary),
        (Call::Add(Role::Secondary), Cell::Absent) => Some(Cell::Secondary),
        (Call::Add(Role::Primary), Cell::Prepared { .. }) => Some(Cell::Primary),
        (Call::Drop, Cell::Prepared { .. }) => Some(Cell::Absent),
        (Call::Drop, Cell::Secondary) => Some(Cell::Absent),
        (Call::Drop, Cell::Primary) => Some(Cell::Absent),
        (Call::Drop, Cell::Forwarding { .. }) => Some(Cell::Absent),
        (Call::Change { from: Role::Primary, to: Role::Secondary }, Cell::Primary) => Some(Cell::Secondary),
        (Call::Change { from: Role::Secondary, to: Role::Primary }, Cell::Secondary) => Some(Cell::Primary),
        (Call::PrepareAdd { owner, number }, Cell::Absent) => Some(Cell::Prepared { from: owner, number }),
        (Call::PrepareDrop { new_owner, number }, Cell::Primary) => Some(Cell::Forwarding { to: new_owner, number }),
        // the end of the table
        _ => None,
    }
}

fn turned_away(base: &Base, stamp: &Stamp) -> Option<Verdict> {
    if base.nonce.is_some() {
        Some(Verdict::NotReady)
    } else if stamp.journal != base.journal {
        Some(Verdict::Foreign)
    } else if base.fenced || base.number < stamp.fence {
        Some(Verdict::NotReady)
    } else {
        (stamp.number <= base.number).then_some(Verdict::Old)
    }
}

pub fn judge(base: &Base, slot: &Slot, used: u64, order: &Order) -> Verdict {
    let number = order.stamp.number;
    if let Some(away) = turned_away(base, &order.stamp) {
        return away;
    }
    if number <= slot.last {
        return if number == slot.last { Verdict::Again } else { Verdict::Old };
    }
    if next_cell(order.call, slot.cell).is_none() {
        return match (order.call, slot.cell) {
            (Call::Add(_) | Call::PrepareAdd { .. }, _) => Verdict::AlreadyHeld,
            (_, Cell::Absent) => Verdict::NotHeld,
            _ => Verdict::WrongRole,
        };
    }
    if slot.cell == Cell::Absent && order.load > order.room.saturating_sub(used) {
        return Verdict::NoRoom;
    }
    if slot.at_work == Some(number) { Verdict::Working } else { Verdict::Begin }
}

pub fn begin(slot: &Slot, order: &Order) -> Slot {
    Slot { at_work: Some(order.stamp.number), ..*slot }
}

pub fn abandon(slot: &Slot) -> Slot {
    Slot { at_work: None, ..*slot }
}

pub fn has_reached_cut(slot: &Slot, applied: u64) -> bool {
    slot.cut.is_some_and(|cut| cut <= applied)
}

pub fn commit(base: &Base, slot: &Slot, order: &Order, at: u64) -> Option<Slot> {
    let number = order.stamp.number;
    let cell = next_cell(order.call, slot.cell)?;
    let takes_over = matches!(slot.cell, Cell::Prepared { .. }) && cell == Cell::Primary;
    if turned_away(base, &order.stamp).is_some() || number <= slot.last || slot.at_work != Some(number) {
        return None;
    }
    if takes_over && !has_reached_cut(slot, at) {
        return None;
    }
    let cut = matches!(cell, Cell::Forwarding { .. }).then_some(at);
    Some(Slot { cell, last: number, at_work: None, load: if cell == Cell::Absent { 0 } else { order.load }, cut })
}

pub fn seal(slot: &Slot, handover: u64, cut: u64) -> Slot {
    match slot.cell {
        Cell::Prepared { number, .. } if number == handover => Slot { cut: Some(cut), ..*slot },
        _ => *slot,
    }
}

pub fn may_delete(base: &Base, slot: &Slot) -> bool {
    slot.cell == Cell::Absent && slot.at_work.is_none() && slot.last <= base.number
}

pub fn route(base: &Base, slot: &Slot, applied: u64, passed: Option<Pass>) -> Routing {
    if base.nonce.is_some() {
        return Routing::NotHere;
    }
    match (slot.cell, passed) {
        (Cell::Primary, _) if slot.at_work.is_some() => Routing::NotYet,
        (Cell::Primary, _) => Routing::Execute,
        (Cell::Forwarding { to, number }, _) => match slot.cut {
            Some(cut) if !base.fenced => Routing::PassOn(Pass { party: to, handover: number, cut }),
            _ => Routing::NotYet,
        },
        (Cell::Prepared { from, number }, Some(pass)) if (pass.party, pass.handover) == (from, number) => {
            if base.fenced || applied < pass.cut { Routing::NotYet } else { Routing::Execute }
        }
        _ => Routing::NotHere,
    }
}

pub fn forget(nonce: u64) -> Base {
    Base { journal: 0, number: 0, fenced: false, nonce: Some(nonce) }
}

pub fn fence(base: &Base, journal: u64, number: u64, nonce: u64) -> Reception {
    if base.number < number {
        Reception::Taken(Base { journal, number, fenced: true, nonce: base.nonce.map(|_| nonce) })
    } else if base.fenced && (base.journal, base.number) == (journal, number) {
        Reception::Again
    } else {
        Reception::Ignored
    }
}

fn settled(base: &Base, journal: u64, number: u64, nonce: Option<u64>) -> Reception {
    if (base.journal, base.number) != (journal, number) {
        return Reception::Ignored;
    }
    if base.fenced && nonce == base.nonce && nonce != Some(0) {
        return Reception::Taken(Base { fenced: false, nonce: None, ..*base });
    }
    if base.fenced || base.nonce.is_some() { Reception::Ignored } else { Reception::Again }
}

fn restored(base: &Base, journal: u64, fence: u64, number: u64, nonce: u64) -> Reception {
    if base.nonce != Some(nonce) || nonce == 0 || (base.fenced && fence < base.number) {
        return Reception::Ignored;
    }
    Reception::Taken(Base { journal, number, fenced: false, nonce: None })
}

/// The slot that an assignment makes of a server's.
fn replaced(slot: &Slot, brought: Option<&Part>) -> Slot {
    let Part { cell, load } = brought.copied().unwrap_or_default();
    Slot { cell, last: slot.last, at_work: None, load: if cell == Cell::Absent { 0 } else { load }, cut: None }
}

/// Takes a settle or a restore, or nothing of it. `slots` has all slots of the server and `brought` all that it is brought, by shard. If it is
/// taken, each shard of either map has what is brought, and is absent if nothing is.
pub fn take<S: Ord + Clone>(base: &Base, assignment: &Assignment, slots: &mut BTreeMap<S, Slot>, brought: &BTreeMap<S, Part>) -> Reception {
    let reception = match *assignment {
        Assignment::Settle { journal, number, nonce } => settled(base, journal, number, nonce),
        Assignment::Restore { journal, fence, number, nonce } => restored(base, journal, fence, number, nonce),
    };
    if let Reception::Taken(_) = reception {
        if base.nonce.is_some() {
            slots.values_mut().for_each(|slot| *slot = VACANT);
        }
        for shard in brought.keys() {
            slots.entry(shard.clone()).or_insert(VACANT);
        }
        for (shard, slot) in slots {
            *slot = replaced(slot, brought.get(shard));
        }
    }
    reception
}

pub fn heed(base: &Base, journal: u64, number: u64, nonce: u64) -> Base {
    let overtaken = base.number < number || (base.fenced && base.number == number);
    if base.nonce.is_none() && base.journal == journal && overtaken { forget(nonce) } else { *base }
}

pub fn publish(base: &Base, shown: u64, publication: &Stamp) -> Verdict {
    turned_away(base, publication).unwrap_or(if shown < publication.number { Verdict::Begin } else { Verdict::Again })
}

/// What is told of a whole copy: the view of its list, and how many writes it has.
#[derive(Clone, Copy, Debug, PartialEq, Eq, PartialOrd, Ord)]
pub struct ToldCopy {
    pub view: u64,
    pub position: u64,
}

/// A view of a list, and the position at which it began.
#[derive(Clone, Copy, Debug, PartialEq, Eq)]
pub struct ViewStart {
    pub view: u64,
    pub position: u64,
}

/// Compares two copies: the one of the later view is greater, then the longer one.
pub fn compare(one: &ToldCopy, other: &ToldCopy) -> Ordering {
    one.cmp(other)
}

/// Whether a copy is a beginning of a list that ends at a position and has these views, in rising order.
pub fn resumes(copy: &ToldCopy, views: &[ViewStart], end: u64) -> bool {
    let ends = views.iter().skip(1).map(|it| it.position).chain([end]);
    views.iter().zip(ends).any(|(it, until)| it.view == copy.view && copy.position <= until)
}

/// Whether so many copies have the writes up to a position: the primary's own, and those that others have told, of whom none leaves.
pub fn is_copied(copies: u64, own: &ToldCopy, told: &[ToldCopy], position: u64) -> bool {
    let others = told.iter().filter(|it| it.view == own.view && position <= it.position).count() as u64;
    position <= own.position && copies <= others + 1
}

/// The position up to which a primary acknowledges: the greatest that so many copies have, 0 if there is none.
pub fn acknowledged(copies: u64, own: &ToldCopy, told: &[ToldCopy]) -> u64 {
    told.iter().chain([own]).map(|it| it.position).filter(|it| is_copied(copies, own, told, *it)).max().unwrap_or(0)
}
