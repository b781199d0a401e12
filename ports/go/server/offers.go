package server

import (
	"encoding/json"
	"fmt"

	"hammerecru.example/smplan"
)

// told is what a follower makes of an offer.
type told int

const (
	hasAll told = iota
	lacks
	nothing
	later
	overtaken
	dead
)

// isSourceFor returns whether a server with this slot gives its writes to another one: who executes to all, an old owner up to its cut to the new
// one.
func isSourceFor(slot smplan.Slot, position uint64, number uint32) bool {
	switch slot.Cell.Kind {
	case smplan.Forwarding:
		return slot.Cell.Party == number
	case smplan.Prepared:
		return smplan.HasReachedCut(slot, position)
	}
	return slot.Cell.Kind == smplan.Primary
}

// -- offers

// offer is what a server lacks whose list ends at a mark: the writes behind it, or a whole copy if the mark is not this list's, or too far behind.
func (it *Server) offer(kept records, shard string, after mark) (line offerLine, err error) {
	slot, base := kept.slot(shard), kept.base()
	line = offerLine{Shard: shard, From: it.number(), Journal: fmt.Sprintf("%x", base.Journal), Heard: kept.heard(), Copies: kept.counting().Copies,
		Mark: kept.mark(shard), After: after, Views: kept.views(shard)}
	if slot.Cell.Kind == smplan.Forwarding {
		line.Cut = &[2]uint64{slot.Cell.Number, slot.Cut}
	}
	if kept.has(shard, after) && line.Mark.Position-after.Position <= mostWrites {
		_, line.Views = line.Views.split(after.View)
		line.Writes = kept.kept(shard, after.Position)
		return line, nil
	}
	copied, err := it.service.Copy(kept.Tx, shard)
	if err != nil {
		return line, err
	}
	data, err := json.Marshal(copied)
	line.Copy = &copyLine{kept.ledger(shard).Before, kept.kept(shard, 0), data}
	return line, err
}

// load puts an offered copy in place of what is here, which is set aside if it has more.
func (it *Server) load(kept records, shard string, line offerLine) error {
	if err := it.setAsideBefore(kept, shard, line); err != nil {
		return err
	}
	copied := *line.Copy
	var old uint32
	kept.read(place("old", shard), &old)
	it.service.Drop(kept.Tx, shard)
	kept.clear(shard)
	kept.putOldOwner(shard, old)
	kept.putLedger(shard, ledger{copied.Before, copied.Before})
	kept.putViews(shard, line.Views)
	for _, next := range copied.Writes {
		kept.append(shard, next, it.Limits.Keeping)
	}
	return it.service.Load(kept.Tx, shard, copied.Data)
}

// append puts offered writes behind those that are here, and takes over the views of the source's list once all up to its end is here.
func (it *Server) append(kept records, shard string, line offerLine) error {
	after, here := line.After.end, kept.ledger(shard).End
	for _, next := range line.Writes {
		if after == here {
			if _, err := it.service.Apply(kept.Tx, shard, next.Command); err != nil {
				return err
			}
			kept.append(shard, next, it.Limits.Keeping)
			here = next.end()
		}
		after = next.end()
	}
	if here == line.Mark.end {
		kept.takeViews(shard, line.Views)
	}
	return nil
}

// takeOffer takes an offer, unless the list here has changed since it was asked for, or is greater, and returns whether all that the source has is
// here, in the source's view. Without a copy it takes the answer to a question of this life alone: another offer may be of before the copy was lost.
func (it *Server) takeOffer(kept records, shard string, line offerLine) (has bool, err error) {
	if !kept.hasCopy(shard) && line.asked != it.lifeNow() {
		return false, nil
	}
	if len(line.Views) == 0 {
		line.Views = views{{0, 0}}
	}
	here := kept.mark(shard)
	switch {
	case line.Copy != nil && line.After == here && !here.hasMoreThan(line.Mark):
		err = it.load(kept, shard, line)
	case line.Copy == nil && line.Views.resumes(here, line.Mark.Position):
		err = it.append(kept, shard, line)
	}
	return kept.mark(shard).View == line.Mark.View && kept.has(shard, line.Mark), err
}

// -- the side that follows

// refused is what a server answers to a source that it does not follow now, if so.
func refused(kept records, line offerLine) *followLine {
	base, slot := kept.base(), kept.slot(line.Shard)
	journal, err := hexadecimal(line.Journal)
	switch kind := slot.Cell.Kind; {
	case !base.Known || err != nil || journal != base.Journal:
		return &followLine{Later: "unknown"}
	case line.Heard < kept.heard():
		return &followLine{Overtaken: true}
	case kind == smplan.Absent && slot.AtWork == 0 && !base.Fenced:
		return &followLine{Nothing: true}
	case kind == smplan.Secondary:
		return nil
	case !isInHandover(slot) || slot.Cell.Party != line.From:
		return &followLine{Later: "it follows another server"}
	case kind == smplan.Prepared && smplan.HasReachedCut(slot, kept.mark(line.Shard).Position):
		return &followLine{Has: true}
	}
	return nil
}

// unready is what a server answers of whose offer it takes nothing now, if so.
func (it *Server) unready(kept records, line offerLine) *followLine {
	if answer := refused(kept, line); answer != nil {
		return answer
	}
	if it.isLeaving(line.Shard) {
		return &followLine{Later: "it leaves"}
	}
	if err := it.fewer(kept, line); err != nil && !kept.hasCopy(line.Shard) {
		return &followLine{Later: err.Error()}
	}
	return nil
}

// taken takes what a source sends, and tells it what is here.
func (it *Server) taken(line offerLine) (any, error) {
	var answer *followLine
	isLacking := false
	err := it.transact(func(kept records) error {
		answer = it.unready(kept, line)
		settled := kept.counting().Settled
		if answer != nil && answer.Has {
			answer.Settled = &settled
		}
		isLacking = answer == nil && !kept.hasCopy(line.Shard)
		if answer != nil || isLacking {
			return nil
		}
		has, err := it.takeOffer(kept, line.Shard, line)
		if err != nil {
			return err
		}
		if has && line.Cut != nil {
			kept.putSlot(line.Shard, smplan.Seal(kept.slot(line.Shard), line.Cut[0], line.Cut[1]))
		}
		switch here := kept.mark(line.Shard); {
		case has:
			answer = &followLine{Has: true, Settled: &settled}
		case here.hasMoreThan(line.Mark):
			answer = &followLine{Later: "it has more"}
		default:
			answer = &followLine{Lacks: &here}
		}
		return nil
	})
	if isLacking {
		answer = it.copied(line.Shard, line.From)
	}
	it.with(line.Shard, func(*live) {})
	return answer, err
}

// copied copies a shard anew from a source that has sent something, and tells that one where the copy ends.
func (it *Server) copied(shard string, source uint32) *followLine {
	isBusy := false
	it.with(shard, func(live *live) { isBusy, live.isCopying = live.isCopying, true })
	if isBusy {
		return &followLine{Later: "it copies"}
	}
	defer it.with(shard, func(live *live) { live.isCopying = false })
	if err := it.catchUp(shard, source); err != nil {
		return &followLine{Later: err.Error()}
	}
	answer := &followLine{Later: lostCopy(shard)}
	it.transact(func(kept records) error {
		if here := kept.mark(shard); kept.hasCopy(shard) {
			answer = &followLine{Lacks: &here}
		}
		return nil
	})
	return answer
}

// lifeNow returns a number that is another one after each start, and whenever the slots were set or lost.
func (it *Server) lifeNow() uint64 {
	it.mutex.Lock()
	defer it.mutex.Unlock()
	return it.life
}

// fewer returns why nothing is copied from a source whose acknowledged writes are at more servers than this one's, if so: this one may lead the shard
// next.
func (it *Server) fewer(kept records, line offerLine) error {
	return tellFewer(it.Name, kept.counting().Copies, it.nameOf(line.From), line.Copies)
}

// tellFewer is what is said of a server that is to lead after one whose acknowledged writes are at more servers.
func tellFewer(name string, copies int, leader string, wanted int) error {
	if copies >= wanted {
		return nil
	}
	return fmt.Errorf("%s acknowledges what %d servers have, and %s only what %d have: start %s with -copies %d", name, copies, leader, wanted, name, wanted)
}

// isLeaving returns whether this server asks for leave to drop a shard: meanwhile it tells nobody what it has.
func (it *Server) isLeaving(shard string) bool {
	it.mutex.Lock()
	defer it.mutex.Unlock()
	return it.live(shard).leaving != ""
}

// given gives another server what it lacks, and sends it each write from then on. Beside that, a secondary gives what it has to one that becomes
// primary.
func (it *Server) given(line askLine) (answer any, err error) {
	if it.nameOf(line.From) == fmt.Sprint(line.From) {
		it.look()
	}
	err = it.transact(func(kept records) (err error) {
		base, slot, here := kept.base(), kept.slot(line.Shard), kept.mark(line.Shard)
		journal, wrong := hexadecimal(line.Journal)
		switch {
		case wrong != nil || !base.Known || journal != base.Journal || kept.heard() < line.Heard:
			answer = offerLine{Said: "it does not know"}
		case it.isLeaving(line.Shard):
			answer = offerLine{Said: "it leaves " + line.Shard}
		case line.Beside && slot.Cell.Kind == smplan.Secondary:
			answer, err = it.offerBeside(kept, line.Shard, line.After)
		case !isSourceFor(slot, here.Position, line.From):
			answer = offerLine{Said: "it is no source of " + line.Shard}
		case line.After.hasMoreThan(here):
			answer = offerLine{Said: "it has less of " + line.Shard}
		default:
			it.with(line.Shard, func(live *live) {
				link := live.link(line.From)
				link.mark = &line.After
				link.askAnew()
			})
			answer, err = it.offer(kept, line.Shard, line.After)
		}
		return err
	})
	return answer, err
}

// offerBeside is what a secondary gives that becomes no primary itself: what a lesser copy lacks that ends at a mark; otherwise where its own one
// ends.
func (it *Server) offerBeside(kept records, shard string, after mark) (offerLine, error) {
	here := kept.mark(shard)
	if !kept.hasCopy(shard) {
		return offerLine{Said: lostCopy(shard)}, nil
	}
	if here.hasMoreThan(after) && !kept.differs(shard, after) {
		return it.offer(kept, shard, after)
	}
	return offerLine{Less: &here}, nil
}

// lostCopy is what a server says of a shard that it is to have a copy of, and has none.
func lostCopy(shard string) string {
	return "it has lost its copy of " + shard + ": give it up as lost"
}

// asked asks a source for what is lacking here. The offer is noted with the life in which it was asked for.
func (it *Server) asked(shard string, source uint32, beside bool) (offer offerLine, err error) {
	var line askLine
	var life uint64
	it.transact(func(kept records) error {
		life = it.lifeNow()
		line = askLine{shard, it.number(), fmt.Sprintf("%x", kept.base().Journal), kept.heard(), kept.mark(shard), beside}
		return nil
	})
	err = it.ask(source, "copy", line, &offer, it.Limits.Working)
	offer.asked = life
	if err == nil && offer.Said != "" {
		err = fmt.Errorf("%s: %s", it.nameOf(source), offer.Said)
	}
	return offer, err
}

// follows returns whether a server with this slot takes what a primary executes.
func follows(slot smplan.Slot, position uint64) bool {
	return slot.Cell.Kind == smplan.Secondary || slot.Cell.Kind == smplan.Prepared && !smplan.HasReachedCut(slot, position)
}

// catchUp takes all that a source has, if it is to be followed.
func (it *Server) catchUp(shard string, source uint32) error {
	isFollower := false
	it.transact(func(kept records) error {
		isFollower = follows(kept.slot(shard), kept.mark(shard).Position)
		return nil
	})
	if !isFollower {
		return nil
	}
	offer, err := it.asked(shard, source, false)
	if err != nil {
		return err
	}
	return it.transact(func(kept records) error {
		if !follows(kept.slot(shard), kept.mark(shard).Position) {
			return nil
		}
		if err := it.fewer(kept, offer); err != nil && !kept.hasCopy(shard) {
			return err
		}
		if has, err := it.takeOffer(kept, shard, offer); err != nil || !has {
			return fmt.Errorf("%s has sent something else meanwhile: %v", it.nameOf(source), err)
		}
		return nil
	})
}
