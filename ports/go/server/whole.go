package server

import (
	"fmt"
	"log"
	"sort"
	"strings"

	"hammerecru.example/smplan"
)

func isInHandover(slot smplan.Slot) bool {
	return slot.Cell.Kind == smplan.Prepared || slot.Cell.Kind == smplan.Forwarding
}

// lifeLine is a number that is another one after each start, and whenever the slots were set or lost; the shards that leave is asked for; and how many
// servers have what is acknowledged.
type lifeLine struct {
	Life    string            `json:"life"`
	Leaving map[string]string `json:"leaving"`
	Copies  int               `json:"copies"`
}

// tellLife tells its life.
func (it *Server) tellLife(struct{}) (any, error) {
	var by counting
	it.transact(func(kept records) error { by = kept.counting(); return nil })
	it.mutex.Lock()
	defer it.mutex.Unlock()
	told := lifeLine{fmt.Sprintf("%x", it.life), map[string]string{}, by.Copies}
	for shard, live := range it.shards {
		if live.leaving != "" {
			told.Leaving[shard] = live.leaving
		}
	}
	return told, nil
}

// fence takes a fence once no request of a handover runs, and answers with all slots, or with the nonce of an Unknown server.
func (it *Server) fence(line wholeLine) (any, error) {
	journal, err := hexadecimal(line.Journal)
	if err != nil {
		return nil, err
	}
	it.hold(line.Base)
	var told any = answerLine{Said: "ignored"}
	err = it.transact(func(kept records) error {
		reception, base := smplan.Fence(kept.base(), journal, line.Base, nonce())
		if reception == smplan.Taken {
			kept.putBase(base, line.Base)
			for shard, slot := range kept.slots() {
				kept.putSlot(shard, smplan.Abandon(slot))
				it.with(shard, func(live *live) { live.stay() })
			}
		}
		if reception != smplan.Ignored {
			told = it.inventory(kept, base)
		}
		return nil
	})
	it.mutex.Lock()
	defer it.mutex.Unlock()
	for _, live := range it.shards {
		live.isHeld = false
	}
	it.wake()
	return told, err
}

// hold lets no request of a handover begin, and waits for those that run; at a deadline it ends them unacknowledged.
func (it *Server) hold(number uint64) {
	held := []*live{}
	it.transact(func(kept records) error {
		if kept.base().Number >= number {
			return nil
		}
		for shard, slot := range kept.slots() {
			if isInHandover(slot) {
				it.with(shard, func(live *live) { live.isHeld = true; held = append(held, live) })
			}
		}
		return nil
	})
	rest := func() bool {
		for _, live := range held {
			if live.running > 0 {
				return false
			}
		}
		return true
	}
	if !it.wait(it.Limits.Fencing, rest) {
		it.mutex.Lock()
		defer it.mutex.Unlock()
		for _, live := range held {
			live.term++
		}
		it.wake()
	}
}

// inventory is what it tells of its slots, or its nonce if it has none.
func (it *Server) inventory(kept records, base smplan.Base) any {
	if !base.Known {
		return map[string]string{"unknown": fmt.Sprintf("%x", base.Nonce)}
	}
	told := []slotLine{}
	for shard, slot := range kept.slots() {
		if slot.Cell.Kind != smplan.Absent {
			told = append(told, toldOf(shard, slot, kept.mark(shard), it.nameOf))
		}
	}
	sort.Slice(told, func(i, j int) bool { return told[i].Shard < told[j].Shard })
	return map[string][]slotLine{"slots": told}
}

// tellSlots tells what it has, for an audit.
func (it *Server) tellSlots(struct{}) (told any, err error) {
	err = it.transact(func(kept records) error { told = it.inventory(kept, smplan.Base{Known: true}); return nil })
	return told, err
}

// settle takes the slots that end a reopening.
func (it *Server) settle(line wholeLine) (any, error) {
	reception, err := it.take(line)
	if err != nil || reception == smplan.Ignored {
		return answerLine{Said: "ignored"}, err
	}
	return answerLine{Done: true}, nil
}

// restore takes the slots that it asked for under a nonce, unless it has lost the data of one that makes it primary.
func (it *Server) restore(line wholeLine) (any, error) {
	if lost := it.lost(line); len(lost) > 0 {
		log.Printf("%s: it is to be primary of %s, and has lost the data: reopen, with %s lost", it.Name, strings.Join(lost, ", "), it.Name)
		return answerLine{Said: "it has lost the data of " + strings.Join(lost, ", ")}, nil
	}
	_, err := it.take(line)
	return answerLine{Done: true}, err
}

// lost are the shards that it is to serve, and has no data of.
func (it *Server) lost(line wholeLine) (found []string) {
	it.transact(func(kept records) error {
		if _, isNew := kept.Get("frame/new"); isNew || kept.base().Known {
			return nil
		}
		for _, slot := range line.Slots {
			if (slot.Cell == "primary" || slot.Cell == "forwarding") && !kept.hasCopy(slot.Shard) {
				found = append(found, slot.Shard)
			}
		}
		return nil
	})
	return found
}

// take takes a settle or a restore as a whole: each slot that it does not bring is absent afterwards, and its copy is set aside.
func (it *Server) take(line wholeLine) (reception smplan.Reception, err error) {
	for _, slot := range line.Slots {
		if slot.Party != nil {
			it.know(*slot.Party)
		}
	}
	brought, err := partsOf(line.Slots, it.numbers())
	if err != nil {
		return smplan.Ignored, err
	}
	told, err := assignmentOf(line)
	if err != nil {
		return smplan.Ignored, err
	}
	err = it.transact(func(kept records) error {
		var base smplan.Base
		var after map[string]smplan.Slot
		before := kept.slots()
		if reception, base, after = smplan.Take(kept.base(), told, before, brought); reception != smplan.Taken {
			return nil
		}
		heard := told.Number
		if told.Kind == smplan.Restore {
			heard = told.Fence
		}
		kept.putBase(base, heard)
		kept.putSettled(heard, it.Copies, told.Kind == smplan.Settle)
		kept.Delete("frame/new")
		for _, shard := range kept.copies() {
			if _, ok := after[shard]; !ok {
				after[shard] = smplan.Slot{}
			}
		}
		it.mutex.Lock()
		it.life = nonce()
		it.mutex.Unlock()
		for shard, slot := range after {
			view := uint64(0)
			if told.Kind == smplan.Settle && before[shard].Cell.Kind != smplan.Primary {
				view = told.Number
			}
			if err := it.keep(kept, shard, slot, view); err != nil {
				return err
			}
			it.with(shard, func(live *live) {
				live.beginAnew()
				if before[shard].Cell.Kind != smplan.Primary || slot.Cell.Kind != smplan.Primary {
					live.term++
				}
			})
		}
		return nil
	})
	return reception, err
}

// keep stores a slot, and sets the copy of an absent one aside. A primary that is chosen anew begins a view; so does one without a copy, with 0.
func (it *Server) keep(kept records, shard string, slot smplan.Slot, view uint64) error {
	kept.putSlot(shard, slot)
	kept.putOldOwner(shard, 0)
	if slot.Cell.Kind == smplan.Absent {
		if err := it.setAside(kept, shard); err != nil {
			return err
		}
		it.service.Drop(kept.Tx, shard)
		kept.clear(shard)
	}
	if slot.Cell.Kind == smplan.Primary && (view != 0 || !kept.hasCopy(shard)) {
		kept.beginView(shard, view)
	}
	return nil
}

// notice heeds the last reopening that a message names.
func (it *Server) notice(line wholeLine) (any, error) {
	journal, err := hexadecimal(line.Journal)
	if err != nil || line.Fence == nil {
		return nil, fmt.Errorf("no notice: %v", err)
	}
	return answerLine{Done: true}, it.heed(journal, *line.Fence)
}

// heed turns Unknown if it was left behind at a reopening: slots are deleted, data is kept.
func (it *Server) heed(journal, fence uint64) error {
	return it.transact(func(kept records) error {
		base := kept.base()
		if !base.Known || smplan.Heed(base, journal, fence, 1).Known {
			if base.Known && base.Journal == journal && kept.heard() < fence {
				kept.putBase(base, fence)
			}
			return nil
		}
		it.forget(kept)
		return nil
	})
}

// forget turns Unknown.
func (it *Server) forget(kept records) {
	for shard := range kept.slots() {
		kept.Delete(place("slot", shard))
		kept.putOldOwner(shard, 0)
	}
	kept.putBase(smplan.Forget(nonce()), 0)
	it.mutex.Lock()
	defer it.mutex.Unlock()
	it.life = nonce()
	for _, live := range it.shards {
		live.beginAnew()
		live.term++
	}
	it.wake()
}

// tellBase tells the number of its base; none if it is Unknown or fenced.
func (it *Server) tellBase(struct{}) (told any, err error) {
	err = it.transact(func(kept records) error {
		base := kept.base()
		told = map[string]any{"base": nil}
		if base.Known && !base.Fenced {
			told = map[string]any{"base": base.Number}
		}
		return nil
	})
	return told, err
}
