package server

import (
	"encoding/json"
	"fmt"
	"time"

	"hammerecru.example/smplan"
)

// ran is what a request has come to: its reply, and the writes that it has seen.
type ran struct {
	reply    json.RawMessage
	position uint64
	term     int
}

// requested answers a client.
func (it *Server) requested(line requestLine) (any, error) { return it.request(line, nil) }

// passed answers the old owner of a handover.
func (it *Server) passed(line requestLine) (any, error) {
	return it.request(line, &smplan.Pass{Party: line.From, Handover: line.Handover, Cut: line.Cut})
}

// request answers a request: by its reply, or by what is said.
func (it *Server) request(line requestLine, pass *smplan.Pass) (any, error) {
	until := time.Now().Add(it.Limits.Waiting)
	for {
		where, onward, done, err := it.route(line, pass)
		switch {
		case err != nil:
			return nil, err
		case done != nil:
			return it.acknowledge(line.Shard, *done), nil
		case where == smplan.PassOn:
			return it.passOn(line, onward), nil
		case where == smplan.NotHere:
			return answerLine{Said: "not_here"}, nil
		case time.Now().After(until):
			return answerLine{Said: "not_yet"}, nil
		}
		time.Sleep(50 * time.Millisecond)
	}
}

// route routes a request, and executes it in the same transaction if it is for this server. From then on it runs. None begins at a new owner that
// has lost its copy.
func (it *Server) route(line requestLine, pass *smplan.Pass) (where smplan.Route, onward smplan.Pass, done *ran, err error) {
	err = it.transact(func(kept records) error {
		slot, term, isHeld := kept.slot(line.Shard), 0, false
		it.with(line.Shard, func(live *live) { term, isHeld = live.term, live.isHeld })
		where, onward = smplan.RouteRequest(kept.base(), slot, kept.mark(line.Shard).Position, pass)
		if isHeld && isInHandover(slot) || slot.Cell.Kind == smplan.Prepared && !kept.hasCopy(line.Shard) {
			where = smplan.NotYet
		}
		if where != smplan.Execute {
			return nil
		}
		if pass != nil {
			kept.putSlot(line.Shard, smplan.Seal(slot, pass.Handover, pass.Cut))
		}
		reply, err := it.execute(kept, line)
		if err == nil {
			done = &ran{reply, kept.mark(line.Shard).Position, term}
			it.with(line.Shard, func(live *live) { live.running++ })
		}
		return err
	})
	return where, onward, done, err
}

// execute executes a request once; of one that was executed before it repeats the reply.
func (it *Server) execute(kept records, line requestLine) (json.RawMessage, error) {
	if it.service.IsRead(line.Command) {
		return textOf(it.service.Read(kept.Tx, line.Shard, line.Command))
	}
	if before, ok := kept.writeOf(line.Shard, line.Request); ok {
		return before.Reply, nil
	}
	reply, err := textOf(it.service.Apply(kept.Tx, line.Shard, line.Command))
	if err == nil {
		kept.append(line.Shard, write{kept.mark(line.Shard).Position + 1, fmt.Sprintf("%016x", nonce()), line.Request, line.Command, reply,
			time.Now().UnixMilli()}, it.Limits.Keeping)
	}
	return reply, err
}

func textOf(value any, err error) (json.RawMessage, error) {
	if err != nil {
		return nil, err
	}
	return json.Marshal(value)
}

// acknowledge returns the reply of a request that has been executed, once all who have to have what it saw.
func (it *Server) acknowledge(shard string, done ran) answerLine {
	has := it.replicate(shard, done.position, done.term, nil)
	it.with(shard, func(live *live) { live.running-- })
	if !has {
		return answerLine{Said: "not_yet"}
	}
	return answerLine{Reply: done.reply}
}

// passOn sends a request to the new owner, and returns its answer.
func (it *Server) passOn(line requestLine, onward smplan.Pass) (answer answerLine) {
	line.Handover, line.Cut, line.From = onward.Handover, onward.Cut, it.number()
	if it.ask(onward.Party, "pass", line, &answer, 3*it.Limits.Waiting) != nil {
		return answerLine{Said: "not_yet"}
	}
	return answer
}
