package server

import (
	"sync"
	"time"

	"hammerecru.example/smplan"
)

// link is what is known of another server. The server's mutex is held.
func (it *live) link(number uint32) *link {
	found, ok := it.links[number]
	if !ok {
		found = &link{has: -1}
		it.links[number] = found
	}
	return found
}

// linkTo is what is known of another server.
func (it *Server) linkTo(shard string, number uint32) *link {
	it.mutex.Lock()
	defer it.mutex.Unlock()
	return it.live(shard).link(number)
}

// push sends another server what it lacks, if it lacks something up to a place.
func (it *Server) push(shard string, number uint32, position uint64, isPatient bool) told {
	link := it.linkTo(shard, number)
	it.mutex.Lock()
	isNothing, hasLeft, deadUntil := link.isNothing, link.left != "", link.deadUntil
	it.mutex.Unlock()
	if isNothing {
		return nothing
	}
	if hasLeft && !isPatient {
		return later
	}
	if time.Now().Before(deadUntil) && !isPatient {
		return dead
	}
	link.mutex.Lock()
	defer link.mutex.Unlock()
	it.mutex.Lock()
	has := link.has
	it.mutex.Unlock()
	if has >= int64(position) {
		return hasAll
	}
	until := time.Now().Add(it.Limits.Peer)
	said := it.pushOnce(shard, number, link)
	for said == lacks && time.Now().Before(until) {
		said = it.pushOnce(shard, number, link)
	}
	return said
}

// pushOnce sends one offer, and notes what the other server has. The link's mutex is held.
func (it *Server) pushOnce(shard string, number uint32, link *link) told {
	var offer offerLine
	joined, isSource := 0, false
	err := it.transact(func(kept records) (err error) {
		here := kept.mark(shard)
		if isSource = isSourceFor(kept.slot(shard), here.Position, number); !isSource {
			return nil
		}
		it.mutex.Lock()
		joined = link.joined
		if link.mark != nil {
			here = *link.mark
		}
		it.mutex.Unlock()
		offer, err = it.offer(kept, shard, here)
		return err
	})
	if err != nil || !isSource {
		return later
	}
	var answer followLine
	limit := it.Limits.Peer
	if offer.Copy != nil {
		limit = it.Limits.Working
	}
	err = it.ask(number, "follow", offer, &answer, limit)
	it.mutex.Lock()
	defer it.mutex.Unlock()
	if err != nil {
		link.deadUntil = time.Now().Add(it.Limits.Resting << link.failures)
		if link.failures < 4 {
			link.failures++
		}
		return dead
	}
	link.failures, link.deadUntil = 0, time.Time{}
	switch {
	case answer.Has:
		if link.joined == joined {
			link.has, link.mark, link.settled = int64(offer.Mark.Position), &offer.Mark, answer.Settled
		}
		return hasAll
	case answer.Lacks != nil:
		link.mark = answer.Lacks
		return lacks
	case answer.Nothing:
		link.isNothing = link.joined == joined
		return nothing
	case answer.Overtaken:
		return overtaken
	}
	return later
}

// round sends all others what they lack, at once.
func (it *Server) round(shard string, position uint64, must map[uint32]bool) map[uint32]told {
	said, mutex, all := map[uint32]told{}, sync.Mutex{}, sync.WaitGroup{}
	for _, number := range it.others() {
		all.Add(1)
		go func(number uint32) {
			defer all.Done()
			one := it.push(shard, number, position, must[number])
			mutex.Lock()
			said[number] = one
			mutex.Unlock()
		}(number)
	}
	all.Wait()
	return said
}

// areEnough returns whether as many servers have the writes up to a place as each has to be at, this one among them. Another one counts by what it
// has said once it was settled at this one's last reopening: one that was given up may go on to follow. The server's mutex is held: nobody gets leave
// meanwhile.
func (it *live) areEnough(position uint64, by counting) bool {
	having := 1
	for _, link := range it.links {
		if link.counts() && link.has >= int64(position) && link.settled != nil && *link.settled >= by.Settled {
			having++
		}
	}
	return having >= by.Copies
}

// replicate waits until each live server that follows has the writes up to a place, enough servers do, and those that must have them, live or not;
// and returns whether they have.
func (it *Server) replicate(shard string, position uint64, term int, others []uint32) bool {
	for until := time.Now().Add(it.Limits.Waiting); time.Now().Before(until); time.Sleep(50 * time.Millisecond) {
		isOver, isDone := false, false
		it.with(shard, func(live *live) {
			isOver, isDone = live.term != term, live.acknowledged >= position && len(others) == 0
		})
		if isOver || isDone {
			return !isOver
		}
		must, old, by := map[uint32]bool{}, uint32(0), counting{}
		for _, number := range others {
			must[number] = true
		}
		it.transact(func(kept records) error { old, by = kept.oldOwner(shard), kept.counting(); return nil })
		if old != 0 {
			must[old] = true
		}
		said := it.round(shard, position, must)
		if one, ok := said[old]; ok && one == nothing {
			it.release(shard, old)
			delete(must, old)
		}
		all, isOvertaken := have(said, must)
		it.with(shard, func(live *live) {
			isDone = all && !isOvertaken && live.term == term && live.areEnough(position, by)
			if isDone && live.acknowledged < position {
				live.acknowledged = position
			}
		})
		if isDone || isOvertaken {
			return isDone
		}
	}
	return false
}

// have returns whether nobody lacks anything, and all who must have it have it; and whether somebody knows a later reopening.
func have(said map[uint32]told, must map[uint32]bool) (all, isOvertaken bool) {
	all = true
	for _, one := range said {
		all = all && one != lacks
		isOvertaken = isOvertaken || one == overtaken
	}
	for number := range must {
		one, ok := said[number]
		all = all && ok && one == hasAll
	}
	return all, isOvertaken
}

// release notes that the old owner has dropped the shard.
func (it *Server) release(shard string, old uint32) {
	it.transact(func(kept records) error {
		if kept.slot(shard).Cell.Kind == smplan.Primary && kept.oldOwner(shard) == old {
			kept.putOldOwner(shard, 0)
		}
		return nil
	})
}

// lookAt asks another server for its life. If it is a new one, nothing is known of what it has. It has left no shard that it asks no leave for.
func (it *Server) lookAt(number uint32) {
	var told lifeLine
	if it.ask(number, "life", struct{}{}, &told, it.Limits.Peer) != nil {
		return
	}
	it.mutex.Lock()
	defer it.mutex.Unlock()
	isNew := it.lives[number] != told.Life
	it.lives[number] = told.Life
	for shard, live := range it.shards {
		if link, ok := live.links[number]; ok && (isNew || link.left != "" && link.left != told.Leaving[shard]) {
			link.askAnew()
		}
	}
}

// pushAll sends each follower what it lacks, also if nobody writes.
func (it *Server) pushAll() {
	for _, number := range it.others() {
		go it.lookAt(number)
	}
	it.transact(func(kept records) error {
		for shard, slot := range kept.slots() {
			position := kept.mark(shard).Position
			for _, number := range it.others() {
				if !isSourceFor(slot, position, number) {
					continue
				}
				link := it.linkTo(shard, number)
				it.mutex.Lock()
				isBehind := link.counts() && link.has < int64(position)
				it.mutex.Unlock()
				if isBehind && link.mutex.TryLock() {
					link.mutex.Unlock()
					go it.push(shard, number, position, false)
				}
			}
		}
		return nil
	})
}
