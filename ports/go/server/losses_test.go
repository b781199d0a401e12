package server

import (
	"encoding/json"
	"net/http"
	"net/http/httptest"
	"strings"
	"testing"
	"time"

	"hammerecru.example/smplan"
)

// digits is a service whose only command is a text, which is appended.
type digits struct{}

func (digits) IsRead(json.RawMessage) bool { return false }

func (digits) Read(Tx, string, json.RawMessage) (any, error) { return nil, nil }

func (digits) Apply(tx Tx, shard string, command json.RawMessage) (any, error) {
	before, _ := tx.Get("digits/" + shard)
	tx.Put("digits/"+shard, before+string(command))
	return nil, nil
}

func (digits) Copy(tx Tx, shard string) (any, error) {
	text, _ := tx.Get("digits/" + shard)
	return text, nil
}

func (digits) Load(tx Tx, shard string, data json.RawMessage) error {
	var text string
	err := json.Unmarshal(data, &text)
	tx.Put("digits/"+shard, text)
	return err
}

func (digits) Drop(tx Tx, shard string) { tx.Delete("digits/" + shard) }

// beside begins servers that listen, each a secondary of s with a list of writes, of these numbers; without a copy if that is "-".
func beside(t *testing.T, lists ...string) (found []*Server) {
	limits, told := DefaultLimits, map[string]member{}
	limits.Peer, limits.Working = time.Second, time.Second
	for at, list := range lists {
		name := string(rune('a' + at))
		it, err := New(Settings{Name: name, Limits: limits}, digits{}, opened(t, t.TempDir()+"/store"))
		if err != nil {
			t.Fatal(err)
		}
		it.transact(func(kept records) error {
			kept.putBase(smplan.Base{Journal: 7, Known: true}, 0)
			kept.putSlot("s", smplan.Slot{Cell: smplan.Cell{Kind: smplan.Secondary}})
			if list != "-" {
				kept.putLedger("s", ledger{})
			}
			for at, digit := range strings.Trim(list, "-") {
				it.service.Apply(kept.Tx, "s", json.RawMessage(string(digit)))
				kept.append("s", write{uint64(at) + 1, string(digit), nil, json.RawMessage(string(digit)), json.RawMessage("0"), time.Now().UnixMilli()}, time.Hour)
			}
			return nil
		})
		listens := httptest.NewServer(it.Handler(""))
		t.Cleanup(listens.Close)
		told[name], found = member{uint32(at) + 1, listens.URL}, append(found, it)
	}
	for _, it := range found {
		if err := it.learn(told); err != nil {
			t.Fatal(err)
		}
	}
	return found
}

// listOf is a server's data, and whether it has a copy.
func listOf(it *Server) (text string, has bool) {
	it.transact(func(kept records) error { text, _ = kept.Get("digits/s"); has = kept.hasCopy("s"); return nil })
	return text, has
}

// wantSaid fails unless an error says this, or there is none if it is to say nothing.
func wantSaid(t *testing.T, err error, said string) {
	t.Helper()
	if (err == nil) != (said == "") || err != nil && !strings.Contains(err.Error(), said) {
		t.Errorf("%v, and not %q", err, said)
	}
}

func TestALostCopyIsNoEmptyOne(t *testing.T) {
	for _, list := range []string{"", "1"} {
		two := beside(t, "-", list)
		lost, other := two[0], two[1]
		wantSaid(t, lost.compare("s", []uint32{2}), "it has lost its copy of s")
		wantSaid(t, lost.compare("s", nil), "it has lost its copy of s")
		wantSaid(t, other.compare("s", []uint32{1}), "a: it has lost its copy of s")
		wantSaid(t, lost.askLeave("s", "c4", true, []uint32{2}), "it has lost its copy of s")
		wantSaid(t, other.askLeave("s", "c4", true, []uint32{1}), "it lacks writes")
		if _, has := listOf(lost); has {
			t.Error("it has a copy")
		}
	}
	two := beside(t, "12", "1")
	wantSaid(t, two[1].askLeave("s", "c4", true, []uint32{1}), "")
}

func TestAnotherListIsNotTaken(t *testing.T) {
	all := beside(t, "14", "123", "1", "14")
	wantSaid(t, all[0].compare("s", []uint32{4, 2}), "b has another list of s")
	wantSaid(t, all[1].compare("s", []uint32{1}), "a has another list of s")
	wantSaid(t, all[0].compare("s", []uint32{3, 4}), "")
	wantSaid(t, all[2].compare("s", []uint32{1, 4}), "")
	for at, list := range []string{"14", "123", "14", "14"} {
		if text, _ := listOf(all[at]); text != list {
			t.Errorf("%s has %s, and not %s", all[at].Name, text, list)
		}
	}
}

func TestAServerForgetsAndKeepsItsData(t *testing.T) {
	it := beside(t, "12")[0]
	it.transact(func(kept records) error { kept.Put("frame/new", "1"); return nil })
	again, err := New(Settings{Name: "a", IsNew: true, Forgets: true, Limits: it.Limits}, digits{}, it.store)
	if err != nil {
		t.Fatal(err)
	}
	again.transact(func(kept records) error {
		if base := kept.base(); base.Known || base.Nonce == 0 || len(kept.slots()) > 0 {
			t.Errorf("the base is %v, the slots %v", base, kept.slots())
		}
		if _, isNew := kept.Get("frame/new"); isNew || kept.mark("s") != (mark{end{2, "2"}, 0}) {
			t.Errorf("it is new: %v; its list ends at %v", isNew, kept.mark("s"))
		}
		return nil
	})
	if text, has := listOf(again); text != "12" || !has {
		t.Errorf("it has %s", text)
	}
}

func TestMessagesToAnotherServerAreRefused(t *testing.T) {
	it := beside(t, "1")[0]
	for _, route := range []string{"/order", "/fence", "/settle", "/restore", "/notice"} {
		body := `{"server":"b","shard":"s","journal":"7","fence":9,"base":9,"nonce":"1","slots":[],"number":1,"call":"drop"}`
		answer, err := http.Post(it.members()["a"].URL+route, "", strings.NewReader(body))
		if err != nil {
			t.Fatal(err)
		}
		if answer.Body.Close(); answer.StatusCode != http.StatusBadRequest {
			t.Errorf("%s answers %d", route, answer.StatusCode)
		}
	}
	it.transact(func(kept records) error {
		if base := kept.base(); !base.Known || base.Fenced || kept.slot("s").AtWork != 0 {
			t.Errorf("the base is %v", base)
		}
		return nil
	})
	if answer, err := http.Post(it.members()["a"].URL+"/fence", "", strings.NewReader(`{"server":"a","journal":"7","base":9}`)); err != nil || answer.StatusCode != 200 {
		t.Errorf("its own fence: %v", err)
	}
}
