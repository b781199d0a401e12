package server

import (
	"encoding/json"
	"fmt"
	"log"
	"time"

	"hammerecru.example/smplan"
)

// tooFew is what is said where a write would be at fewer servers.
const tooFew = "-copies: a write is at one server at least"

// For how long a controller may be silent; for how long it rests while one does not take all, twice as long each time; and how many times as long as
// one needed to say what it knows (4,096 shards are a MB).
const (
	silence  = 30 * time.Second
	shortest = time.Second / 2
	longest  = 30 * time.Second
	sparing  = 100
)

// copiedLine tells a controller how many servers have each acknowledged write of a shard: a reopening counts by it, and names fewer shards as lost.
type copiedLine struct {
	Do      string `json:"do"`
	Journal string `json:"journal"`
	Fence   uint64 `json:"fence"`
	Shard   string `json:"shard"`
	Copies  int    `json:"copies"`
}

// stateLine is what is needed of what a controller has recorded.
type stateLine struct {
	State struct {
		Is      string
		Journal string
		Fence   uint64
		Shards  []struct {
			Shard  string
			Copies int
		}
	}
}

// recorded is when a server tells next, and for how long it has rested, under a journal's last reopening; which controller answered last, and how long
// that needed to say what it knows.
type recorded struct {
	journal, fence uint64
	rest           time.Duration
	until          time.Time
	first          string
	took           time.Duration
}

// tellCopies tells of each shard that this server leads, as soon as enough servers have all that was here when it began to, until a controller knows
// it: anew behind each reopening, and once it leads anew.
func (it *Server) tellCopies() {
	var base smplan.Base
	var by counting
	shards, terms := []string{}, map[string]int{}
	it.transact(func(kept records) error {
		if base, by = kept.base(), kept.counting(); by.Copies < 2 || !base.Known || base.Fenced {
			return nil
		}
		for shard, slot := range kept.slots() {
			position := kept.mark(shard).Position
			it.with(shard, func(live *live) {
				if slot.Cell.Kind == smplan.Primary && live.isToTell(position, by) {
					shards, terms[shard] = append(shards, shard), live.term
				}
			})
		}
		return nil
	})
	for _, shard := range it.takeCopies(base.Journal, by, shards) {
		it.with(shard, func(live *live) {
			if live.term == terms[shard] {
				live.told = &by.Settled
			}
		})
	}
}

// isToTell returns whether enough servers have a shard up to the place where its list ended when it was looked at first, and no controller is known to
// know. The server's mutex is held.
func (it *live) isToTell(position uint64, by counting) bool {
	if it.noted == nil {
		it.noted = &position
	}
	return (it.told == nil || *it.told != by.Settled) && it.areEnough(*it.noted, by)
}

// takeCopies tells of shards, and returns those of which there is nothing more to be said under this reopening. One line asks what is known, of however
// many shards, and one more tells of each of which fewer copies are known. While others remain, as during a reopening, it rests ever longer.
func (it *Server) takeCopies(journal uint64, by counting, shards []string) (done []string) {
	told := &it.recorded
	if told.journal != journal || told.fence != by.Settled {
		*told = recorded{journal: journal, fence: by.Settled, first: told.first}
	}
	if len(shards) == 0 || time.Now().Before(told.until) {
		return nil
	}
	known := it.known(journal, by.Settled)
	if known != nil {
		done = it.tellThem(journal, by, shards, known)
	}
	told.rest *= 2
	switch {
	case len(done) == len(shards):
		told.rest = 0
	case told.rest < shortest:
		told.rest = shortest
	case told.rest > longest:
		told.rest = longest
	}
	told.until = time.Now().Add(told.rest)
	if told.rest < sparing*told.took {
		told.until = time.Now().Add(sparing * told.took)
	}
	return done
}

// inTurn is the controllers, and first who answered last: one that is silent holds up all behind it.
func (it *Server) inTurn() (controllers []string) {
	for _, controller := range it.Controllers {
		if controller == it.recorded.first {
			controllers = append([]string{controller}, controllers...)
		} else {
			controllers = append(controllers, controller)
		}
	}
	return controllers
}

// known is by shard how many copies a controller knows of since this reopening; nil if nobody answers where it is the last one, and has ended.
func (it *Server) known(journal, fence uint64) map[string]int {
	it.recorded.took = 0
	for _, controller := range it.inTurn() {
		var told stateLine
		begun := time.Now()
		if it.caller.call(controller+"/ask", map[string]string{"do": "state"}, &told, silence) != nil {
			continue // (who is silent needs nothing)
		}
		it.recorded.first, it.recorded.took = controller, time.Since(begun)
		state := told.State
		if its, err := hexadecimal(state.Journal); err != nil || state.Is != "open" || its != journal || state.Fence != fence {
			continue
		}
		known := map[string]int{}
		for _, row := range state.Shards {
			known[row.Shard] = row.Copies
		}
		return known
	}
	return nil
}

// tellThem tells of those shards of which fewer copies are known, and returns which are known then, or refused. (The reopening decides that, too.)
func (it *Server) tellThem(journal uint64, by counting, shards []string, known map[string]int) (done []string) {
	for _, shard := range shards {
		if number, ok := known[shard]; ok && number < by.Copies {
			said, isSaid := it.sayCopies(copiedLine{"copied", fmt.Sprintf("%x", journal), by.Settled, shard, by.Copies})
			if !isSaid {
				return done
			}
			if said.Refused != nil {
				log.Printf("%s: %d copies of %s are not counted: %s", it.Name, by.Copies, shard, said.Refused)
			} else if said.Copied == nil {
				continue
			}
		}
		done = append(done, shard)
	}
	return done
}

// saidLine is what a controller replies to a line.
type saidLine struct{ Copied, Ignored, Refused json.RawMessage }

// sayCopies returns what the controller replies that leads, and whether one does.
func (it *Server) sayCopies(line copiedLine) (said saidLine, isSaid bool) {
	for _, controller := range it.inTurn() {
		said = saidLine{}
		err := it.caller.call(controller+"/do", line, &said, silence)
		if err == nil {
			it.recorded.first = controller
		}
		if err == nil && (said.Copied != nil || said.Ignored != nil || said.Refused != nil) {
			return said, true
		}
	}
	return said, false
}

// hasEnough returns whether enough servers that follow, and do not leave, have all that is acknowledged, and that was here when this one began to
// lead.
func (it *Server) hasEnough(shard string, by counting) (isSo bool) {
	it.with(shard, func(live *live) {
		isSo = by.Copies < 2
		if !isSo && live.noted != nil {
			isSo = live.areEnough(*live.noted, by) && live.areEnough(live.acknowledged, by)
		}
	})
	return isSo
}
