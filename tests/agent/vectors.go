// Runs the port ports/go/agent.go on the conformance vectors of standard input, whose format tests/agent/README.md has.
package main

import (
	"bufio"
	"fmt"
	"os"
	"reflect"
	"strconv"
	"strings"
)

// numbers are those of a line that are left.
type numbers []uint64

func (n *numbers) next() uint64 {
	first := (*n)[0]
	*n = (*n)[1:]
	return first
}

func (n *numbers) flag() bool { return n.next() == 1 }

func (n *numbers) base() (it Base) {
	it.Journal, it.Number, it.Nonce, it.Known, it.Fenced = n.next(), n.next(), n.next(), n.flag(), n.flag()
	return it
}

func (n *numbers) slot() (it Slot) {
	it.Cell = Cell{CellKind(n.next() - 1), uint32(n.next()), n.next()}
	it.Last, it.AtWork, it.Load, it.Cut, it.HasCut = n.next(), n.next(), n.next(), n.next(), n.flag()
	return it
}

func (n *numbers) stamp() Stamp { return Stamp{n.next(), n.next(), n.next()} }

func (n *numbers) order() Order {
	it := Order{Stamp: n.stamp(), Load: n.next(), Room: n.next()}
	number, kind, first, second, party := n.next(), CallKind(n.next()-1), Role(n.next()), Role(n.next()), uint32(n.next())
	it.Call = Call{Kind: kind}
	switch kind {
	case Add:
		it.Call.To = first
	case Change:
		it.Call.From, it.Call.To = first, second
	case PrepareAdd, PrepareDrop:
		it.Call.Party, it.Call.Number = party, number
	}
	return it
}

func (n *numbers) pass() *Pass {
	handover, cut, party := n.next(), n.next(), uint32(n.next())
	if !n.flag() {
		return nil
	}
	return &Pass{party, handover, cut}
}

func (n *numbers) copy() ToldCopy { return ToldCopy{n.next(), n.next()} }

func (n *numbers) copies() []ToldCopy {
	it := make([]ToldCopy, n.next())
	for i := range it {
		it[i] = n.copy()
	}
	return it
}

func (n *numbers) views() []ViewStart {
	it := make([]ViewStart, n.next())
	for i := range it {
		it[i] = ViewStart{n.next(), n.next()}
	}
	return it
}

func bit(fact bool) uint64 {
	if fact {
		return 1
	}
	return 0
}

func ofBase(it Base) numbers {
	return numbers{it.Journal, it.Number, it.Nonce, bit(it.Known), bit(it.Fenced)}
}

func ofSlot(it Slot) numbers {
	return numbers{uint64(it.Cell.Kind) + 1, uint64(it.Cell.Party), it.Cell.Number, it.Last, it.AtWork, it.Load, it.Cut, bit(it.HasCut)}
}

func ofVerdict(it Verdict) numbers {
	if it < AlreadyHeld {
		return numbers{uint64(it) + 1}
	}
	return numbers{uint64(it-AlreadyHeld) + 8}
}

func ofReception(it Reception, base Base) numbers {
	return append(numbers{[]uint64{16, 3, 17}[it]}, ofBase(base)...)
}

func ofRoute(it Route, pass Pass) numbers {
	return numbers{uint64(it) + 12, pass.Handover, pass.Cut, uint64(pass.Party), bit(it == PassOn)}
}

func doneIf(fact bool) numbers { return numbers{19 - bit(fact)} }

// ofTake takes an assignment: each shard has its place in the line as its name.
func ofTake(base Base, n *numbers) numbers {
	it := Assignment{Kind: AssignmentKind(n.next() - 1), Journal: n.next(), Fence: n.next(), Number: n.next(), HasNonce: n.flag(), Nonce: n.next()}
	slots, brought, count := map[int]Slot{}, map[int]Part{}, int(n.next())
	for shard := 0; shard < count; shard++ {
		if slot := n.slot(); slot.Cell.Kind >= 0 {
			slots[shard] = slot
		}
		kind, party, handover, load := CellKind(n.next()-1), uint32(n.next()), n.next(), n.next()
		if kind >= 0 {
			brought[shard] = Part{Cell{kind, party, handover}, load}
		}
	}
	reception, next, after := Take(base, it, slots, brought)
	made := ofReception(reception, next)
	for shard := 0; shard < count; shard++ {
		made = append(made, ofSlot(after[shard])...)
	}
	return made
}

func ofCall(name string, n *numbers) numbers {
	switch name {
	case "begin":
		return ofSlot(StartWork(n.slot(), n.order()))
	case "abandon":
		return ofSlot(Abandon(n.slot()))
	case "seal":
		return ofSlot(Seal(n.slot(), n.next(), n.next()))
	case "has_reached_cut":
		return doneIf(HasReachedCut(n.slot(), n.next()))
	case "compare":
		return numbers{uint64(22 + Compare(n.copy(), n.copy()))}
	case "resumes":
		return doneIf(Resumes(n.copy(), n.views(), n.next()))
	case "copied":
		return doneIf(IsCopied(n.next(), n.copy(), n.copies(), n.next()))
	case "acknowledged":
		return numbers{Acknowledged(n.next(), n.copy(), n.copies())}
	}
	base := n.base()
	switch name {
	case "judge":
		return ofVerdict(Judge(base, n.slot(), n.next(), n.order()))
	case "commit":
		if slot, ok := Commit(base, n.slot(), n.order(), n.next()); ok {
			return append(numbers{18}, ofSlot(slot)...)
		}
		return numbers{19}
	case "route":
		return ofRoute(RouteRequest(base, n.slot(), n.next(), n.pass()))
	case "may_delete":
		return doneIf(MayDelete(base, n.slot()))
	case "fence":
		return ofReception(Fence(base, n.next(), n.next(), n.next()))
	case "heed":
		return ofBase(Heed(base, n.next(), n.next(), n.next()))
	case "take":
		return ofTake(base, n)
	case "publish":
		return ofVerdict(Publish(base, n.next(), n.stamp()))
	}
	panic("no function " + name)
}

func read(text string) (found numbers) {
	for _, word := range strings.Fields(text) {
		number, err := strconv.ParseUint(word, 10, 64)
		if err != nil {
			panic(err)
		}
		found = append(found, number)
	}
	return found
}

// want fails if a fact is not so.
func want(what string, is bool) {
	if !is {
		fmt.Fprintln(os.Stderr, "worked by hand:", what)
		os.Exit(1)
	}
}

// wantZeros calls each function with zeros: the zero Base is that of an Unknown server, the zero Slot that of a shard of which it has nothing.
func wantZeros() {
	var base Base
	var slot, primary = Slot{}, Slot{Cell: Cell{Kind: Primary}}
	later := Order{Stamp: Stamp{Number: 5}, Call: Call{Kind: Add, To: PrimaryRole}}
	want("Judge", Judge(base, slot, 0, Order{}) == NotReady && Judge(base, primary, 0, later) == NotReady)
	_, done := Commit(base, StartWork(slot, later), later, 0)
	want("Commit", !done && StartWork(slot, Order{}) == slot)
	route, onward := RouteRequest(base, primary, 0, nil)
	passed, _ := RouteRequest(base, Slot{Cell: Cell{Kind: Prepared}}, 0, &Pass{})
	want("RouteRequest", route == NotHere && passed == NotHere && onward == Pass{})
	want("Abandon, Seal", Abandon(slot) == slot && Seal(slot, 0, 0) == slot)
	want("HasReachedCut, MayDelete", !HasReachedCut(slot, 0) && MayDelete(base, slot))
	want("Forget, Heed", Forget(0) == base && Heed(base, 0, 0, 0) == base && Heed(base, 0, 5, 9) == base)
	ignored, _ := Fence(base, 0, 0, 0)
	taken, asks := Fence(base, 1, 5, 9)
	want("Fence", ignored == Ignored && taken == Taken && asks == Base{Journal: 1, Number: 5, Nonce: 9, Fenced: true})
	for _, it := range []Assignment{{}, {HasNonce: true}, {Kind: Restore}, {Kind: Restore, HasNonce: true}} {
		answer, next, after := Take(base, it, map[string]Slot{"s": primary}, map[string]Part{})
		want("Take", answer == Ignored && next == base && after["s"] == primary)
	}
	answer, next, after := Take(Forget(9), Assignment{Kind: Restore, Journal: 1, Number: 3, Nonce: 9}, map[string]Slot{"s": primary}, map[string]Part{"t": {}})
	want("Take of zeros", answer == Taken && next == Base{Journal: 1, Number: 3, Known: true} && len(after) == 2 && after["s"] == slot && after["t"] == slot)
	want("Publish", Publish(base, 0, Stamp{}) == NotReady)
}

func main() {
	wantZeros()
	count, lines := 0, bufio.NewScanner(os.Stdin)
	for ; lines.Scan(); count++ {
		given, wanted, _ := strings.Cut(lines.Text(), " =")
		name, rest, _ := strings.Cut(given, " ")
		left := read(rest)
		if !reflect.DeepEqual(ofCall(name, &left), read(wanted)) || len(left) != 0 {
			fmt.Fprintln(os.Stderr, "another answer:", lines.Text())
			os.Exit(1)
		}
	}
	if lines.Err() != nil || count == 0 {
		panic("no vectors")
	}
	fmt.Println(count, "vectors")
}
