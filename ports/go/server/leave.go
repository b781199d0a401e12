package server

import (
	"errors"
	"fmt"
	"strings"

	"hammerecru.example/smplan"
)

// leaveLine asks for leave to drop a shard. Beside: nobody else executes.
type leaveLine struct {
	Shard    string `json:"shard"`
	From     uint32 `json:"from"`
	Journal  string `json:"journal"`
	Heard    uint64 `json:"heard"`
	Mark     mark   `json:"mark"`
	Question string `json:"question"`
	Beside   bool   `json:"beside"`
}

// leftLine answers it: leave, or why not now.
type leftLine struct {
	Leave bool   `json:"leave,omitempty"`
	Later string `json:"later,omitempty"`
}

// mayGive returns whether a server with this slot gives leave, if it has all: who executes; if nobody else does, a secondary.
func mayGive(slot smplan.Slot, position uint64, line leaveLine) bool {
	switch slot.Cell.Kind {
	case smplan.Secondary:
		return line.Beside
	case smplan.Primary, smplan.Prepared:
		return isSourceFor(slot, position, line.From)
	}
	return false
}

// leaveGiven answers who asks for leave, and counts it no more until it joins again, or tells that it asks no longer.
func (it *Server) leaveGiven(line leaveLine) (any, error) {
	answer := leftLine{Leave: true}
	err := it.transact(func(kept records) error {
		base, slot, here := kept.base(), kept.slot(line.Shard), kept.mark(line.Shard)
		journal, wrong := hexadecimal(line.Journal)
		switch {
		case wrong != nil || !base.Known || base.Fenced || journal != base.Journal || kept.heard() != line.Heard:
			answer = leftLine{Later: "it knows of another reopening"}
		case !it.mayAnswer(line):
			answer = leftLine{Later: "it leaves, too"}
		case !mayGive(slot, here.Position, line):
			answer = leftLine{Later: "it does not serve " + line.Shard}
		case !kept.hasCopy(line.Shard) || line.Mark.hasMoreThan(here) || kept.differs(line.Shard, line.Mark):
			answer = leftLine{Later: "it lacks writes"}
		default:
			it.with(line.Shard, func(live *live) {
				link := live.link(line.From)
				link.left, link.joined = line.Question, link.joined+1
			})
			if slot.Cell.Kind != smplan.Secondary && !it.hasEnough(line.Shard, kept.counting()) {
				answer = leftLine{Later: fmt.Sprintf("fewer than %d others have all", kept.counting().Copies)}
			}
		}
		return nil
	})
	return answer, err
}

// mayAnswer returns whether this server stays. Of two that ask each other the one with the higher number does, and asks anew.
func (it *Server) mayAnswer(line leaveLine) (stays bool) {
	number := it.number()
	it.with(line.Shard, func(live *live) {
		if live.leaving != "" && live.leave == "" && number > line.From {
			live.stay()
		}
		stays = live.leaving == ""
	})
	return stays
}

// takeLeave gets leave to drop a shard: from its primary, or, if that is this server or nobody, from as many others that have all that is here as
// each write has to be at. Who is alone needs none.
func (it *Server) takeLeave(line orderLine, others []uint32) error {
	question, givers, isBeside := fmt.Sprintf("%x", nonce()), others, true
	if line.Primary != nil && *line.Primary != it.Name {
		givers, isBeside = []uint32{it.numbers()[*line.Primary]}, false
	}
	it.with(line.Shard, func(live *live) { live.leaving, live.leave = question, "" })
	var err error
	if len(others) > 0 {
		err = it.askLeave(line.Shard, question, isBeside, givers)
	}
	it.with(line.Shard, func(live *live) {
		if err != nil && live.leaving == question {
			live.leaving = ""
		} else if live.leaving == question {
			live.leave = question
		}
	})
	return err
}

// askLeave asks for leave until somebody gives it.
func (it *Server) askLeave(shard, question string, isBeside bool, givers []uint32) error {
	var line leaveLine
	needed := 1
	err := it.transact(func(kept records) error {
		if isBeside && !kept.hasCopy(shard) {
			return errors.New(lostCopy(shard))
		}
		by := kept.counting()
		if isBeside && by.Copies > 1 && kept.slot(shard).Cell.Kind != smplan.Primary && kept.mark(shard).View > by.Settled {
			return errors.New("nobody leads it, and this copy may have writes of a primary since the last reopening")
		}
		if isBeside {
			needed = by.Copies
		}
		line = leaveLine{shard, it.number(), fmt.Sprintf("%x", kept.base().Journal), kept.heard(), kept.mark(shard), question, isBeside}
		return nil
	})
	if err != nil {
		return err
	}
	said := []string{}
	for _, number := range givers {
		var told leftLine
		if err := it.ask(number, "leave", line, &told, it.Limits.Peer); err != nil {
			told.Later = err.Error()
		}
		if told.Leave {
			needed--
		} else {
			said = append(said, fmt.Sprintf("no leave from %s: %s", it.nameOf(number), told.Later))
		}
		if needed == 0 {
			return nil
		}
	}
	return fmt.Errorf("%d more have to give leave; %s", needed, strings.Join(said, "; "))
}
