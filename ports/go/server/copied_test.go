package server

import (
	"encoding/json"
	"fmt"
	"net/http"
	"net/http/httptest"
	"sync"
	"testing"
	"time"

	"hammerecru.example/smplan"
)

// controller is one that knows of so many copies of s, and keeps the lines that it is told.
type controller struct {
	sync.Mutex
	url    string
	state  string
	said   string
	copies int
	asked  int
	lines  []copiedLine
}

// begin begins a controller, in a state.
func begin(t *testing.T, state, said string) *controller {
	it := &controller{state: state, said: said, copies: 1}
	listens := httptest.NewServer(http.HandlerFunc(func(answer http.ResponseWriter, request *http.Request) {
		it.Lock()
		defer it.Unlock()
		var line copiedLine
		json.NewDecoder(request.Body).Decode(&line)
		if line.Do == "state" {
			it.asked++
			fmt.Fprintf(answer, `{"state":{%s,"shards":[{"shard":"s","copies":%d}]}}`, it.state, it.copies)
			return
		}
		it.lines = append(it.lines, line)
		fmt.Fprint(answer, it.said)
	}))
	t.Cleanup(listens.Close)
	it.url = listens.URL
	return it
}

// leads makes the first of these servers the primary of s, which is to be at so many servers.
func leads(servers []*Server, copies int, controllers ...string) *Server {
	it := servers[0]
	it.Copies, it.Controllers = copies, controllers
	it.transact(func(kept records) error {
		kept.putSlot("s", smplan.Slot{Cell: smplan.Cell{Kind: smplan.Primary}})
		kept.putCopies(copies)
		return nil
	})
	return it
}

// tellNow has followers have all, and tells of the copies, without a rest.
func tellNow(it *Server) {
	for turn := 0; turn < 40; turn++ {
		it.pushAll()
		time.Sleep(5 * time.Millisecond)
	}
	it.recorded.until = time.Time{}
	it.tellCopies()
}

const open = `"is":"open","journal":"7","fence":0`

func TestCopiesAreToldUntilAControllerKnowsThem(t *testing.T) {
	its := begin(t, `"is":"reopening","journal":"7","fence":0`, `{"ignored":"old"}`)
	it := leads(beside(t, "12", "1"), 2, "http://127.0.0.1:1", its.url)
	tellNow(it)
	it.tellCopies() // (it rests)
	wantSame(t, []any{its.asked, len(its.lines), it.live("s").told == nil}, "[1 0 true]")
	for _, state := range []string{`"is":"open","journal":"8","fence":0`, `"is":"open","journal":"7","fence":9`, open} {
		its.state = state
		tellNow(it)
	}
	wantSame(t, []any{its.asked, its.lines}, "[4 [{copied 7 0 s 2}]]")
	its.said = `{"copied":{"shard":"s","copies":2}}`
	for turn := 0; turn < 2; turn++ {
		tellNow(it)
	}
	wantSame(t, []any{its.asked, len(its.lines), *it.live("s").told, it.hasEnough("s", counting{0, 2})}, "[5 2 0 true]")
}

func TestASilentControllerIsAskedLastOnceAnotherOneHasAnswered(t *testing.T) {
	first, its := begin(t, `"is":"reopening","journal":"7","fence":0`, `{}`), begin(t, open, `{"copied":{}}`)
	it := leads(beside(t, "12", "1"), 2, first.url, its.url)
	tellNow(it)
	wantSame(t, []any{first.asked, its.asked, len(its.lines), it.recorded.first == its.url}, "[1 1 1 true]")
	it.live("s").told, its.copies = nil, 1
	tellNow(it)
	wantSame(t, []any{first.asked, its.asked, len(first.lines), len(its.lines)}, "[1 2 0 2]")
}

func TestCopiesThatAreKnownOrRefusedAreNotToldAgain(t *testing.T) {
	its := begin(t, open, `{"refused":{"kind":"AboveWant"}}`)
	it := leads(beside(t, "12", "1"), 2, its.url)
	its.copies = 2
	tellNow(it)
	it.with("s", func(live *live) { live.told = nil })
	its.copies = 1
	for turn := 0; turn < 2; turn++ {
		tellNow(it)
	}
	wantSame(t, []any{its.asked, len(its.lines)}, "[2 1]")
}

func TestCopiesAreToldThoughWritesGoOn(t *testing.T) {
	its := begin(t, `"is":"reopening","journal":"7","fence":0`, `{"copied":{}}`)
	it := leads(beside(t, "12", "1"), 2, its.url)
	rests := []time.Duration{}
	for turn := 0; turn < 9; turn++ {
		tellNow(it)
		rests = append(rests, it.recorded.rest)
	}
	wantSame(t, rests, "[500ms 1s 2s 4s 8s 16s 30s 30s 30s]")
	its.state, it.recorded.until = open, time.Time{}
	it.transact(func(kept records) error { kept.putLedger("s", ledger{End: end{3, "3"}}); return nil })
	it.tellCopies()
	wantSame(t, []any{len(its.lines), it.recorded.rest}, "[1 0s]")
}

func TestWhoHasLeaveOrLessDoesNotCount(t *testing.T) {
	by, position, settled := counting{0, 2}, uint64(2), uint64(0)
	it := leads(beside(t, "12", "12"), 2)
	found := []any{}
	for _, other := range []*link{{has: 2, settled: &settled}, {has: 1, settled: &settled}, {has: 2, settled: &settled, left: "q"}, {has: 2}} {
		it.with("s", func(live *live) {
			live.noted, live.links[2] = &position, other
		})
		found = append(found, it.hasEnough("s", by))
	}
	wantSame(t, found, "[true false false false]")
}

func TestWhoHasLostItsCopyTakesNoneFromOneThatCountsByMore(t *testing.T) {
	servers := beside(t, "12", "-")
	wantSame(t, []any{leads(servers, 2).push("s", 2, 2, false) == later, hasCopyOf(servers[1])}, "[true false]")
	servers[1].transact(func(kept records) error { kept.putCopies(2); return nil })
	wantSame(t, []any{servers[0].push("s", 2, 2, false) == hasAll, hasCopyOf(servers[1])}, "[true true]")
}

// hasCopyOf returns whether a server has a copy.
func hasCopyOf(it *Server) bool {
	_, has := listOf(it)
	return has
}

func TestSlotsOfALaterReopeningAreCountedBy(t *testing.T) {
	it := leads(beside(t, "12"), 2)
	it.Copies = 1
	line := wholeLine{Journal: "7", Base: 100, Slots: []slotLine{{Shard: "s", Cell: "primary"}}}
	if _, err := it.fence(line); err != nil {
		t.Fatal(err)
	}
	found := []any{}
	for turn := 0; turn < 2; turn++ {
		it.transact(func(kept records) error { found = append(found, kept.counting()); return nil })
		if _, err := it.settle(line); err != nil {
			t.Fatal(err)
		}
	}
	wantSame(t, found, "[{0 2} {100 1}]")
}

func TestCopiesThatAreNotThereAreNotTold(t *testing.T) {
	its := begin(t, open, `{"copied":{"shard":"s","copies":3}}`)
	it := leads(beside(t, "12", "1"), 3, its.url)
	it.Limits.Waiting = 200 * time.Millisecond
	if it.replicate("s", 2, 0, nil) || it.hasEnough("s", counting{0, 3}) {
		t.Fatal("two servers are taken for three")
	}
	tellNow(it)
	wantSame(t, []any{its.asked, len(its.lines)}, "[0 0]")
}

func TestWhoWasNotSettledAtTheLastReopeningDoesNotCount(t *testing.T) {
	servers := beside(t, "12", "1")
	it := leads(servers, 2)
	it.Limits.Waiting = 200 * time.Millisecond
	it.transact(func(kept records) error { kept.putSettled(100, 2, true); return nil })
	if it.replicate("s", 2, 0, nil) {
		t.Fatal("one is counted that was given up")
	}
	servers[1].transact(func(kept records) error { kept.putSettled(100, 2, true); return nil })
	it.with("s", func(live *live) { live.link(2).askAnew() })
	if !it.replicate("s", 2, 0, nil) {
		t.Fatal("nobody counts")
	}
}

func TestCopiesGetFewerOnlyByASettle(t *testing.T) {
	it := beside(t, "1")[0]
	it.transact(func(kept records) error {
		found := []any{kept.putCopies(2), kept.putCopies(1)}
		for _, isSettle := range []bool{false, true} {
			kept.putSettled(100, 1, isSettle)
			found = append(found, kept.counting())
		}
		wantSame(t, found, "[2 2 {100 2} {100 1}]")
		return nil
	})
	if _, err := New(Settings{Name: "x", Copies: -1}, digits{}, opened(t, t.TempDir()+"/store")); err == nil {
		t.Fatal("a write is at less than one server")
	}
}

func TestWhoCountsByFewerCopiesIsNotToLeadNext(t *testing.T) {
	servers := beside(t, "12", "12")
	it := leads(servers, 2)
	for kind, replicas := range map[smplan.CallKind][]string{smplan.PrepareDrop: {"a"}, smplan.Change: {"a", "b"}, smplan.Drop: {"a", "b"}} {
		order := smplan.Order{Call: smplan.Call{Kind: kind, Party: 2, To: smplan.SecondaryRole}}
		_, err := it.prepare(orderLine{Shard: "s", Replicas: replicas}, order)
		wantSame(t, []any{err}, "[b acknowledges what 1 servers have, and a only what 2 have: start b with -copies 2]")
	}
	servers[1].transact(func(kept records) error { kept.putSlot("s", smplan.Slot{}); return nil })
	primary := "a"
	_, err := servers[1].prepare(orderLine{Shard: "s", Primary: &primary}, smplan.Order{Call: smplan.Call{Kind: smplan.Add, To: smplan.SecondaryRole}})
	wantSame(t, []any{err}, "[b acknowledges what 1 servers have, and a only what 2 have: start b with -copies 2]")
	servers[1].transact(func(kept records) error { kept.putCopies(2); return nil })
	if _, err := it.prepare(orderLine{Shard: "s"}, smplan.Order{Call: smplan.Call{Kind: smplan.PrepareDrop, Party: 2}}); err != nil {
		t.Fatal(err)
	}
}
