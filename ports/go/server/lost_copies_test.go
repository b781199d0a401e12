package server

import (
	"fmt"
	"testing"
	"time"

	"hammerecru.example/smplan"
)

// restoredAt restores a secondary that was silent at reopening 100, and is started to count by 1.
func restoredAt(t *testing.T, it *Server) {
	fence := uint64(100)
	it.Copies = 1
	if _, err := it.notice(wholeLine{Journal: "7", Fence: &fence}); err != nil {
		t.Fatal(err)
	}
	var nonce string
	it.transact(func(kept records) error { nonce = fmt.Sprintf("%x", kept.base().Nonce); return nil })
	line := wholeLine{Journal: "7", Fence: &fence, Base: 120, Nonce: &nonce, Slots: []slotLine{{Shard: "s", Cell: "secondary"}}}
	if _, err := it.restore(line); err != nil {
		t.Fatal(err)
	}
}

func TestWhoWasCarriedOverCountsByAsManyOnceItIsRestored(t *testing.T) {
	servers := beside(t, "12", "12", "12")
	it, carried := leads(servers, 2), servers[1]
	for _, settled := range []*Server{it, servers[2]} {
		settled.transact(func(kept records) error { kept.putSettled(100, 2, true); return nil })
	}
	carried.transact(func(kept records) error { kept.putCopies(2); return nil })
	order := smplan.Order{Call: smplan.Call{Kind: smplan.Change, To: smplan.SecondaryRole}}
	_, err := it.prepare(orderLine{Shard: "s", Replicas: []string{"a", "b", "c"}}, order)
	wantSaid(t, err, "") // (it may lead next)
	restoredAt(t, carried)
	carried.transact(func(kept records) error { wantSame(t, []any{kept.counting()}, "[{100 2}]"); return nil })
}

// offered is what a server offers to one that has nothing.
func offered(it *Server) (line offerLine) {
	it.transact(func(kept records) (err error) { line, err = it.offer(kept, "s", mark{}); return err })
	return line
}

func TestALateOfferIsNotTakenForAWholeCopy(t *testing.T) {
	for _, isHeard := range []bool{false, true} {
		servers := beside(t, "1", "-")
		it, lost := leads(servers, 1), servers[1]
		late := offered(it)
		it.transact(func(kept records) error {
			kept.append("s", write{2, "2", nil, []byte("2"), []byte("0"), time.Now().UnixMilli()}, time.Hour)
			_, err := it.service.Apply(kept.Tx, "s", []byte("2"))
			return err
		})
		if !isHeard {
			cellOf(it, smplan.Absent)
		}
		told, err := lost.taken(late)
		wantSaid(t, err, "")
		answer := told.(*followLine)
		text, has := listOf(lost)
		wantSame(t, []any{text, has, answer.Has, answer.Later != ""}, fmt.Sprint([]any{map[bool]string{true: "12"}[isHeard], isHeard, false, !isHeard}))
		if isHeard {
			wantSame(t, []any{*answer.Lacks, it.push("s", 2, 2, false) == hasAll}, "[{{2 2} 0} true]")
		}
	}
}

func TestOnlyTheAnswerToAQuestionOfThisLifeIsTakenWithoutACopy(t *testing.T) {
	servers := beside(t, "12", "-")
	line, lost := offered(leads(servers, 1)), servers[1]
	for _, isPresent := range []bool{false, true} {
		if line.asked = lost.lifeNow(); !isPresent {
			line.asked++
		}
		lost.transact(func(kept records) error {
			has, err := lost.takeOffer(kept, "s", line)
			wantSame(t, []any{has, err, kept.hasCopy("s")}, fmt.Sprint([]any{isPresent, nil, isPresent}))
			return nil
		})
	}
}

func TestOneCopyIsAskedForAtOnce(t *testing.T) {
	servers := beside(t, "12", "-")
	line, lost := offered(leads(servers, 1)), servers[1]
	lost.with("s", func(live *live) { live.isCopying = true })
	told, err := lost.taken(line)
	wantSame(t, []any{told.(*followLine).Later, err, hasCopyOf(lost)}, "[it copies <nil> false]")
}

func TestNothingIsCaughtUpWithFromOneThatCountsByMore(t *testing.T) {
	servers := beside(t, "12", "-")
	leads(servers, 2)
	wantSaid(t, servers[1].catchUp("s", 1), "start b with -copies 2")
	wantSame(t, hasCopyOf(servers[1]), false)
}
