package server

import (
	"errors"
	"fmt"
	"time"

	"hammerecru.example/smplan"
)

// order answers an order: that it is done, or what else.
func (it *Server) order(line orderLine) (any, error) {
	it.know(append([]string{line.From, line.To}, line.Replicas...)...)
	order, err := orderOf(line, it.numbers())
	if err != nil {
		return nil, err
	}
	if err := it.heed(order.Journal, order.Fence); err != nil {
		return nil, err
	}
	verdict, said := it.begin(line, order), ""
	if verdict == smplan.Begin || verdict == smplan.Working {
		it.wait(it.Limits.Answering, func() bool { said = it.live(line.Shard).said; return it.live(line.Shard).worker != order.Number })
		it.transact(func(kept records) error { verdict = judge(kept, line.Shard, order); return nil })
	}
	if verdict == smplan.Again {
		return it.done(line, order), nil
	}
	if verdict != smplan.Begin && verdict != smplan.Working {
		said = ""
	} else if said != "" {
		said = ": " + said
	}
	return answerLine{Said: verdicts[verdict] + said}, nil
}

// judge is what the server makes of an order.
func judge(kept records, shard string, order smplan.Order) smplan.Verdict {
	used := uint64(0)
	for _, slot := range kept.slots() {
		used += slot.Load
	}
	return smplan.Judge(kept.base(), kept.slot(shard), used, order)
}

// begin judges an order, and begins its work if it is new.
func (it *Server) begin(line orderLine, order smplan.Order) (verdict smplan.Verdict) {
	isBegun := false
	it.transact(func(kept records) error {
		verdict = judge(kept, line.Shard, order)
		it.with(line.Shard, func(live *live) {
			if isBegun = verdict == smplan.Begin && time.Now().After(live.restUntil); isBegun {
				kept.putSlot(line.Shard, smplan.StartWork(kept.slot(line.Shard), order))
				live.worker, live.said = order.Number, ""
			}
		})
		return nil
	})
	if isBegun {
		go it.work(line, order)
	}
	return verdict
}

// sourceOf is whom a server copies from that has nothing of the shard; 0 if nobody is named.
func (it *Server) sourceOf(line orderLine, order smplan.Order) uint32 {
	if order.Call.Kind == smplan.PrepareAdd {
		return order.Call.Party
	}
	if line.Primary == nil || *line.Primary == it.Name {
		return 0
	}
	return it.numbers()[*line.Primary]
}

// done answers an order that has its effect; a copy has it once it has all that was executed since it was made.
func (it *Server) done(line orderLine, order smplan.Order) answerLine {
	kind, source, isCaughtUp := order.Call.Kind, it.sourceOf(line, order), false
	it.with(line.Shard, func(live *live) { isCaughtUp = live.caughtUp == order.Number })
	if (kind == smplan.Add || kind == smplan.PrepareAdd) && !isCaughtUp && source != 0 {
		if err := it.catchUp(line.Shard, source); err != nil {
			return answerLine{Said: "working: " + err.Error()}
		}
		it.with(line.Shard, func(live *live) { live.caughtUp = order.Number })
	}
	return answerLine{Done: true}
}

// work works until the order is committed, is no longer at work, or has taken too long.
func (it *Server) work(line orderLine, order smplan.Order) {
	limit, pause := it.Limits.Working, it.Limits.Resting/8
	it.transact(func(kept records) error {
		if needsRest(order, kept.slot(line.Shard)) {
			limit = 2 * it.Limits.Waiting
		}
		return nil
	})
	for until := time.Now().Add(limit); time.Now().Before(until) && it.isAtWork(line.Shard, order); pause *= 2 {
		offer, err := it.prepare(line, order)
		if err == nil {
			err = it.commit(line.Shard, order, offer)
		}
		if err == nil {
			break
		}
		it.with(line.Shard, func(live *live) { live.said = err.Error() })
		if pause > 4*it.Limits.Resting {
			pause = 4 * it.Limits.Resting
		}
		time.Sleep(pause)
	}
	it.end(line.Shard, order)
}

// end gives up what is still at work.
func (it *Server) end(shard string, order smplan.Order) {
	it.transact(func(kept records) error {
		slot := kept.slot(shard)
		it.with(shard, func(live *live) {
			if slot.AtWork == order.Number && needsRest(order, slot) {
				live.restUntil = time.Now().Add(it.Limits.Waiting)
			}
			if live.worker == order.Number {
				live.worker = 0
			}
			live.stay()
		})
		if slot.AtWork == order.Number {
			kept.putSlot(shard, smplan.Abandon(slot))
		}
		return nil
	})
}

// isAtWork returns whether nothing has ended the work.
func (it *Server) isAtWork(shard string, order smplan.Order) (is bool) {
	it.transact(func(kept records) error { is = kept.slot(shard).AtWork == order.Number; return nil })
	return is
}

// -- the work before the commit

// prepare does what has to be done before the commit, and returns the copy that belongs to it, if there is one.
func (it *Server) prepare(line orderLine, order smplan.Order) (*offerLine, error) {
	var slot smplan.Slot
	var here mark
	it.transact(func(kept records) error { slot, here = kept.slot(line.Shard), kept.mark(line.Shard); return nil })
	others := []uint32{}
	for _, name := range line.Replicas {
		if name != it.Name {
			others = append(others, it.numbers()[name])
		}
	}
	call := order.Call
	switch {
	case call.Kind == smplan.PrepareAdd || call.Kind == smplan.Add && call.To == smplan.SecondaryRole:
		source := it.sourceOf(line, order)
		if source == 0 {
			return nil, errors.New("nobody is named who has it")
		}
		offer, err := it.asked(line.Shard, source, false)
		if err == nil {
			err = it.transact(func(kept records) error { return it.fewer(kept, offer) })
		}
		return &offer, err
	case call.Kind == smplan.Add && slot.Cell.Kind == smplan.Absent && len(others) > 0:
		return nil, fmt.Errorf("others have %s: %v", line.Shard, line.Replicas)
	case call.Kind == smplan.Add && slot.Cell.Kind == smplan.Prepared && !smplan.HasReachedCut(slot, here.Position):
		return nil, errors.New("the cut is not reached")
	case call.Kind == smplan.Change && call.To == smplan.PrimaryRole:
		return nil, it.compare(line.Shard, others)
	case needsRest(order, slot):
		if err := it.lookAtNext(call, others); err != nil {
			return nil, err
		}
		if err := it.rest(line.Shard, order, others); err != nil {
			return nil, err
		}
	}
	if call.Kind == smplan.Drop {
		return nil, it.takeLeave(line, others)
	}
	return nil, nil
}

// needsRest returns whether no request may run when the order is committed.
func needsRest(order smplan.Order, slot smplan.Slot) bool {
	call := order.Call
	return call.Kind == smplan.PrepareDrop || call.Kind == smplan.Change && call.To == smplan.SecondaryRole ||
		call.Kind == smplan.Drop && slot.Cell.Kind == smplan.Primary
}

// lookAtNext returns an error unless those that may lead a shard next, before this server leads it no more, have each acknowledged write at as many
// servers. Controllers count by that.
func (it *Server) lookAtNext(call smplan.Call, others []uint32) (err error) {
	var by counting
	it.transact(func(kept records) error { by = kept.counting(); return nil })
	if call.Kind == smplan.PrepareDrop {
		others = []uint32{call.Party}
	}
	for at := 0; at < len(others) && err == nil && by.Copies > 1; at++ {
		var told lifeLine
		if err = it.ask(others[at], "life", struct{}{}, &told, it.Limits.Peer); err == nil {
			err = tellFewer(it.nameOf(others[at]), told.Copies, it.Name, by.Copies)
		}
	}
	return err
}

// rest waits until no request of a shard runs, and before a change of roles until each secondary has all writes.
func (it *Server) rest(shard string, order smplan.Order, others []uint32) error {
	term := 0
	if !it.wait(it.Limits.Waiting, func() bool { term = it.live(shard).term; return it.live(shard).running == 0 }) {
		return errors.New("requests run")
	}
	if order.Call.Kind != smplan.Change {
		return nil
	}
	var here mark
	it.transact(func(kept records) error { here = kept.mark(shard); return nil })
	if !it.replicate(shard, here.Position, term, others) {
		return errors.New("not each secondary has all writes")
	}
	return nil
}

// compare takes at a secondary that becomes primary what others have whose copies are greater. Each of them has to answer.
func (it *Server) compare(shard string, others []uint32) error {
	err := it.transact(func(kept records) error {
		if !kept.hasCopy(shard) {
			return errors.New(lostCopy(shard))
		}
		return nil
	})
	for at := 0; at < len(others) && err == nil; at++ {
		var offer offerLine
		if offer, err = it.asked(shard, others[at], true); err == nil {
			err = it.transact(func(kept records) error { return it.takeBeside(kept, shard, it.nameOf(others[at]), offer) })
		}
	}
	return err
}

// takeBeside takes what another secondary gives; an error if that has more, or another list in one view.
func (it *Server) takeBeside(kept records, shard, name string, offer offerLine) error {
	if less := offer.Less; less != nil && (less.hasMoreThan(kept.mark(shard)) || kept.differs(shard, *less)) {
		return fmt.Errorf("%s has another list of %s in one view: give one of them up as lost", name, shard)
	}
	if offer.Less != nil || kept.slot(shard).Cell.Kind != smplan.Secondary {
		return nil
	}
	if has, err := it.takeOffer(kept, shard, offer); err != nil || !has {
		return fmt.Errorf("%s has more: %v", name, err)
	}
	return nil
}

// -- the commit

// commit commits the work in one transaction with the slot.
func (it *Server) commit(shard string, order smplan.Order, offer *offerLine) error {
	var after smplan.Slot
	err := it.transact(func(kept records) error {
		slot, running, hasLeave := kept.slot(shard), 0, false
		it.with(shard, func(live *live) { running, hasLeave = live.running, live.leave != "" && live.leave == live.leaving })
		if needsRest(order, slot) && running > 0 {
			return errors.New("requests run")
		}
		if order.Call.Kind == smplan.Drop && !hasLeave {
			return errors.New("the leave is over")
		}
		if offer != nil && slot.Cell.Kind == smplan.Absent && slot.AtWork == order.Number {
			if has, err := it.takeOffer(kept, shard, *offer); err != nil || !has {
				return fmt.Errorf("another copy is here: %v", err)
			}
		}
		made, ok := smplan.Commit(kept.base(), slot, order, kept.mark(shard).Position)
		if !ok {
			return errors.New("it is thrown away")
		}
		after = made
		it.keepCommitted(kept, shard, slot, after)
		it.with(shard, func(live *live) { live.beginAnew() })
		return nil
	})
	if err == nil && after.Cell.Kind == smplan.Forwarding {
		go it.push(shard, after.Cell.Party, after.Cut, false)
	}
	return err
}

// keepCommitted stores a slot with the data that it stands for.
func (it *Server) keepCommitted(kept records, shard string, before, after smplan.Slot) {
	from, to := before.Cell.Kind, after.Cell.Kind
	if to == smplan.Absent || from == smplan.Absent && to == smplan.Primary {
		it.service.Drop(kept.Tx, shard)
		kept.clear(shard)
	}
	if to == smplan.Primary && from != smplan.Prepared {
		kept.beginView(shard, after.Last)
	}
	old := uint32(0)
	if from == smplan.Prepared && to == smplan.Primary {
		old = before.Cell.Party
	}
	kept.putOldOwner(shard, old)
	kept.putSlot(shard, after)
}
