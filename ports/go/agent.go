// Package smplan is a server's side of moving shards, in plain Go: a port of the library of include/sm_agent.h, which says what each function
// answers. The proved functions write vectors (`make vectors`, tests/agent/README.md), which this port passes. The package server beside it is a
// frame for servers; agent.go alone may also be copied into a package of your own.
package smplan

// CellKind says what a server has of a shard.
type CellKind int

// The kinds of cells. A server that is Unknown has no slots at all: see Base.
const (
	Absent CellKind = iota
	Prepared
	Secondary
	Primary
	Forwarding
)

// Cell is what a server has of a shard. Party and Number name the other server and the handover of a Prepared or Forwarding cell.
type Cell struct {
	Kind   CellKind
	Party  uint32
	Number uint64
}

// Role is one that a replica is added in, or changes to.
type Role int

// The roles.
const (
	NoRole Role = iota
	PrimaryRole
	SecondaryRole
)

// CallKind is what a controller asks for.
type CallKind int

// The kinds of calls.
const (
	Add CallKind = iota
	Drop
	Change
	PrepareAdd
	PrepareDrop
)

// Call is what a controller asks for: Add has a role, To; Change has two; PrepareAdd and PrepareDrop have another server and a handover's number.
type Call struct {
	Kind     CallKind
	From, To Role
	Party    uint32
	Number   uint64
}

// Base is what a server keeps beside its slots. The zero Base is that of an Unknown server. Nonce is what an Unknown server asks for its
// slots by, 0 before it has made one; once it has them it is Known.
type Base struct {
	Journal, Number uint64
	Nonce           uint64
	Known           bool
	Fenced          bool
}

// Slot is what a server keeps of a shard. AtWork is the number of the order that it works at, or 0.
type Slot struct {
	Cell         Cell
	Last, AtWork uint64
	Load         uint64
	HasCut       bool
	Cut          uint64
}

// AssignmentKind says which message brings a server all its slots.
type AssignmentKind int

// A settle ends a reopening; a restore answers a server that has lost its slots.
const (
	Settle AssignmentKind = iota
	Restore
)

// Assignment is a settle or a restore. Of a settle, HasNonce says whether the server's answer to the fence had a nonce, and not slots; a
// restore has one always. Fence is of a restore alone.
type Assignment struct {
	Kind                   AssignmentKind
	Journal, Fence, Number uint64
	HasNonce               bool
	Nonce                  uint64
}

// Part is what an assignment brings of one shard.
type Part struct {
	Cell Cell
	Load uint64
}

// Stamp names the journal of a message, the reopening that it knows of, and its number.
type Stamp struct{ Journal, Fence, Number uint64 }

// Order is a call as it comes over the network.
type Order struct {
	Stamp
	Call       Call
	Load, Room uint64
}

// Verdict is what a server says of an order.
type Verdict int

// The verdicts; from AlreadyHeld on they are refusals.
const (
	Begin Verdict = iota
	Working
	Again
	Old
	Foreign
	NotReady
	AlreadyHeld
	NotHeld
	WrongRole
	NoRoom
)

// Pass is what a request carries that was passed on: who passed it, in which handover, and the cut.
type Pass struct {
	Party    uint32
	Handover uint64
	Cut      uint64
}

// Route is what a server does with a request.
type Route int

// The routes.
const (
	Execute Route = iota
	PassOn
	NotHere
	NotYet
)

// Reception is what a server does with a fence, a settle or a restore.
type Reception int

// The receptions.
const (
	Taken Reception = iota
	SaidAgain
	Ignored
)

// row is a call with its roles, and the cell that it meets.
type row struct {
	call     CallKind
	from, to Role
	cell     CellKind
}

// leadsTo has the cell that a call leads to; what is not in this table is refused.
var leadsTo = map[row]CellKind{
	// the table
	{Add, NoRole, PrimaryRole, Absent}:              Primary,
	{Add, NoRole, SecondaryRole, Absent}:            Secondary,
	{Add, NoRole, PrimaryRole, Prepared}:            Primary,
	{Drop, NoRole, NoRole, Prepared}:                Absent,
	{Drop, NoRole, NoRole, Secondary}:               Absent,
	{Drop, NoRole, NoRole, Primary}:                 Absent,
	{Drop, NoRole, NoRole, Forwarding}:              Absent,
	{Change, PrimaryRole, SecondaryRole, Primary}:   Secondary,
	{Change, SecondaryRole, PrimaryRole, Secondary}: Primary,
	{PrepareAdd, NoRole, NoRole, Absent}:            Prepared,
	{PrepareDrop, NoRole, NoRole, Primary}:          Forwarding,
	// the end of the table
}

// next returns the cell that a call leads to, if it is not refused.
func next(call Call, cell Cell) (Cell, bool) {
	kind, ok := leadsTo[row{call.Kind, call.From, call.To, cell.Kind}]
	if kind == Prepared || kind == Forwarding {
		return Cell{kind, call.Party, call.Number}, ok
	}
	return Cell{Kind: kind}, ok
}

// turnedAway returns whether a message is turned away, and how.
func turnedAway(base Base, it Stamp) (Verdict, bool) {
	switch {
	case !base.Known:
		return NotReady, true
	case it.Journal != base.Journal:
		return Foreign, true
	case base.Fenced || base.Number < it.Fence:
		return NotReady, true
	}
	return Old, it.Number <= base.Number
}

// Judge says what to do with an order; used is the sum of the loads of the server's slots.
func Judge(base Base, slot Slot, used uint64, it Order) Verdict {
	if verdict, away := turnedAway(base, it.Stamp); away {
		return verdict
	}
	if it.Number == slot.Last {
		return Again
	}
	if it.Number < slot.Last {
		return Old
	}
	if _, ok := next(it.Call, slot.Cell); !ok {
		switch {
		case it.Call.Kind == Add || it.Call.Kind == PrepareAdd:
			return AlreadyHeld
		case slot.Cell.Kind == Absent:
			return NotHeld
		}
		return WrongRole
	}
	if slot.Cell.Kind == Absent && (used > it.Room || it.Load > it.Room-used) && it.Load > 0 {
		return NoRoom
	}
	if slot.AtWork == it.Number {
		return Working
	}
	return Begin
}

// StartWork returns the slot once an order's work has begun.
func StartWork(slot Slot, it Order) Slot {
	slot.AtWork = it.Number
	return slot
}

// Abandon returns the slot once its work is given up.
func Abandon(slot Slot) Slot {
	slot.AtWork = 0
	return slot
}

// HasReachedCut returns whether the writes up to the slot's cut are applied.
func HasReachedCut(slot Slot, applied uint64) bool { return slot.HasCut && slot.Cut <= applied }

// Commit returns the slot once an order's work is done at this position of the shard's writes, or false if the work is thrown away.
func Commit(base Base, slot Slot, it Order, at uint64) (Slot, bool) {
	cell, ok := next(it.Call, slot.Cell)
	if _, away := turnedAway(base, it.Stamp); !ok || away || it.Number <= slot.Last || slot.AtWork != it.Number {
		return slot, false
	}
	if slot.Cell.Kind == Prepared && cell.Kind == Primary && !HasReachedCut(slot, at) {
		return slot, false
	}
	done := Slot{Cell: cell, Last: it.Number, Load: it.Load}
	if cell.Kind == Absent {
		done.Load = 0
	}
	if cell.Kind == Forwarding {
		done.HasCut, done.Cut = true, at
	}
	return done, true
}

// Seal returns the slot once the old owner has told the cut of a handover.
func Seal(slot Slot, handover, cut uint64) Slot {
	if slot.Cell.Kind == Prepared && slot.Cell.Number == handover {
		slot.HasCut, slot.Cut = true, cut
	}
	return slot
}

// MayDelete returns whether the slot may be deleted.
func MayDelete(base Base, slot Slot) bool {
	return slot.Cell.Kind == Absent && slot.AtWork == 0 && slot.Last <= base.Number
}

// RouteRequest says where a request is executed; passed is nil unless another server has passed it on.
func RouteRequest(base Base, slot Slot, applied uint64, passed *Pass) (Route, Pass) {
	if !base.Known {
		return NotHere, Pass{}
	}
	cell := slot.Cell
	switch {
	case cell.Kind == Primary && slot.AtWork != 0:
		return NotYet, Pass{}
	case cell.Kind == Primary:
		return Execute, Pass{}
	case cell.Kind == Forwarding && slot.HasCut && !base.Fenced:
		return PassOn, Pass{cell.Party, cell.Number, slot.Cut}
	case cell.Kind == Forwarding:
		return NotYet, Pass{}
	case cell.Kind == Prepared && passed != nil && passed.Party == cell.Party && passed.Handover == cell.Number:
		if base.Fenced || applied < passed.Cut {
			return NotYet, Pass{}
		}
		return Execute, Pass{}
	}
	return NotHere, Pass{}
}

// Forget returns the base of a server that has lost its slots, and asks for them under a nonce.
func Forget(nonce uint64) Base { return Base{Nonce: nonce} }

// Fence takes a fence; a server that is Unknown makes the nonce for it.
func Fence(base Base, journal, number, nonce uint64) (Reception, Base) {
	switch {
	case base.Number < number:
		after := Base{Journal: journal, Number: number, Known: base.Known, Fenced: true}
		if !base.Known {
			after.Nonce = nonce
		}
		return Taken, after
	case base.Fenced && base.Journal == journal && base.Number == number:
		return SaidAgain, base
	}
	return Ignored, base
}

// settled returns what becomes of a settle, and the base afterwards.
func settled(base Base, it Assignment) (Reception, Base) {
	if base.Journal != it.Journal || base.Number != it.Number {
		return Ignored, base
	}
	isMeant := base.Known != it.HasNonce && (base.Known || it.Nonce == base.Nonce && it.Nonce != 0)
	switch {
	case base.Fenced && isMeant:
		return Taken, Base{Journal: it.Journal, Number: it.Number, Known: true}
	case base.Fenced || !base.Known:
		return Ignored, base
	}
	return SaidAgain, base
}

// restored returns what becomes of a restore, and the base afterwards.
func restored(base Base, it Assignment) (Reception, Base) {
	if base.Known || base.Nonce != it.Nonce || it.Nonce == 0 || base.Fenced && it.Fence < base.Number {
		return Ignored, base
	}
	return Taken, Base{Journal: it.Journal, Number: it.Number, Known: true}
}

// replaced returns the slot that an assignment makes of a server's.
func replaced(base Base, slot Slot, brought Part) Slot {
	after := Slot{Cell: brought.Cell, Load: brought.Load}
	if base.Known {
		after.Last = slot.Last
	}
	if brought.Cell.Kind == Absent {
		after.Load = 0
	}
	return after
}

// Take takes a settle or a restore, or nothing of it. slots has all slots of the server and brought all that it is brought, by shard. It
// returns all slots afterwards: each shard of either map has what is brought, and is Absent if nothing is.
func Take[Shard comparable](base Base, it Assignment, slots map[Shard]Slot, brought map[Shard]Part) (Reception, Base, map[Shard]Slot) {
	reception, next := settled(base, it)
	if it.Kind == Restore {
		reception, next = restored(base, it)
	}
	if reception != Taken {
		return reception, next, slots
	}
	after := make(map[Shard]Slot, len(slots)+len(brought))
	for shard, slot := range slots {
		after[shard] = replaced(base, slot, brought[shard])
	}
	for shard, part := range brought {
		after[shard] = replaced(base, slots[shard], part)
	}
	return reception, next, after
}

// Heed returns the base once a message has told of a reopening: a server that was left behind it is Unknown.
func Heed(base Base, journal, number, nonce uint64) Base {
	isOvertaken := base.Number < number || base.Fenced && base.Number == number
	if base.Known && base.Journal == journal && isOvertaken {
		return Forget(nonce)
	}
	return base
}

// Publish says what the owner of the published map does with an entry, whose version is the stamp's number; shown is the version it has.
func Publish(base Base, shown uint64, it Stamp) Verdict {
	if verdict, away := turnedAway(base, it); away {
		return verdict
	}
	if shown < it.Number {
		return Begin
	}
	return Again
}

// ToldCopy is what is told of a whole copy: the view of its list, and how many writes it has.
type ToldCopy struct{ View, Position uint64 }

// ViewStart is a view of a list, and the position at which it began.
type ViewStart struct{ View, Position uint64 }

// Compare returns -1, 0 or 1 for a copy that is less than another one, the same or greater: the one of the later view is greater, then the
// longer one.
func Compare(one, other ToldCopy) int {
	switch {
	case one == other:
		return 0
	case one.View < other.View || one.View == other.View && one.Position < other.Position:
		return -1
	}
	return 1
}

// Resumes tells whether a copy is a beginning of a list that ends at a position and has these views, in rising order.
func Resumes(copy ToldCopy, views []ViewStart, end uint64) bool {
	for i, it := range views {
		until := end
		if i+1 < len(views) {
			until = views[i+1].Position
		}
		if it.View == copy.View && copy.Position <= until {
			return true
		}
	}
	return false
}

// IsCopied tells whether so many copies have the writes up to a position: the primary's own, and those that others have told, of whom none
// leaves.
func IsCopied(copies uint64, own ToldCopy, told []ToldCopy, position uint64) bool {
	count := uint64(1)
	for _, it := range told {
		if it.View == own.View && position <= it.Position {
			count++
		}
	}
	return position <= own.Position && copies <= count
}

// Acknowledged returns the position up to which a primary acknowledges: the greatest that so many copies have, 0 if there is none.
func Acknowledged(copies uint64, own ToldCopy, told []ToldCopy) uint64 {
	greatest := uint64(0)
	for _, it := range append([]ToldCopy{own}, told...) {
		if greatest < it.Position && IsCopied(copies, own, told, it.Position) {
			greatest = it.Position
		}
	}
	return greatest
}
