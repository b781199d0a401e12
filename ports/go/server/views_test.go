package server

import (
	"encoding/json"
	"fmt"
	"net/http"
	"strings"
	"testing"

	"hammerecru.example/smplan"
)

// viewsOf are a server's views of s.
func viewsOf(it *Server) (found string) {
	it.transact(func(kept records) error { found = fmt.Sprint(kept.views("s")); return nil })
	return found
}

// putViews has the list of s begin views.
func putViews(it *Server, told ...[2]uint64) {
	it.transact(func(kept records) error { kept.putViews("s", told); return nil })
}

// cellOf makes a server's slot of s one of a kind.
func cellOf(it *Server, kind smplan.CellKind) {
	it.transact(func(kept records) error { kept.putSlot("s", smplan.Slot{Cell: smplan.Cell{Kind: kind}}); return nil })
}

// markOf is where a server's list of s ends.
func markOf(it *Server) (found mark) {
	it.transact(func(kept records) error { found = kept.mark("s"); return nil })
	return found
}

// wantTaken has a server take what another one offers to one whose list ends at a mark: it says this, and has these views.
func wantTaken(t *testing.T, source, it *Server, after mark, said, views string) {
	t.Helper()
	var line offerLine
	source.transact(func(kept records) (err error) { line, err = source.offer(kept, "s", after); return err })
	answer, err := it.taken(line)
	wantSaid(t, err, "")
	text, _ := json.Marshal(answer)
	wantSame(t, []any{string(text), viewsOf(it)}, fmt.Sprint([]any{said, views}))
}

// asideOf has the names of what is set aside, without when it was.
func asideOf(t *testing.T, it *Server) (found []string) {
	told, err := it.toldAside(asideLine{})
	if err != nil {
		t.Fatal(err)
	}
	for _, name := range told.(map[string][]string)["aside"] {
		found = append(found, name[:strings.LastIndex(name, "/")])
	}
	return found
}

func wantSame(t *testing.T, made, wanted any) {
	t.Helper()
	if fmt.Sprint(made) != fmt.Sprint(wanted) {
		t.Errorf("%v, and not %v", made, wanted)
	}
}

func TestTheCopyOfTheLaterViewIsGreater(t *testing.T) {
	for _, isLater := range []bool{false, true} {
		two := beside(t, "123", "14")
		older, later := two[0], two[1]
		putViews(later, [2]uint64{0, 0}, [2]uint64{100, 1})
		wantSaid(t, later.askLeave("s", "c4", true, []uint32{1}), "it lacks writes")
		wantSaid(t, older.askLeave("s", "c4", true, []uint32{2}), "")
		later.with("s", func(live *live) { live.beginAnew() })
		if isLater {
			wantSaid(t, later.compare("s", []uint32{1}), "")
			wantSame(t, viewsOf(older), "[[0 0]]")
			continue
		}
		wantSaid(t, older.compare("s", []uint32{2}), "")
		text, _ := listOf(older)
		wantSame(t, []any{text, viewsOf(older), asideOf(t, older), asideOf(t, later)}, "[14 [[0 0] [100 1]] [s/0/3] []]")
	}
}

func TestAFollowerTakesAViewWithAllUpToItsBeginning(t *testing.T) {
	three := beside(t, "12", "12", "1")
	source, follower, behind := three[0], three[1], three[2]
	cellOf(source, smplan.Primary)
	source.transact(func(kept records) error { kept.beginView("s", 100); return nil })
	for _, after := range []mark{markOf(source), markOf(follower)} {
		wantTaken(t, source, behind, after, `{"lacks":[1,"1",0]}`, "[[0 0]]")
	}
	wantTaken(t, source, follower, markOf(source), `{"lacks":[2,"2",0]}`, "[[0 0]]")
	for number := uint32(2); number <= 3; number++ {
		wantSame(t, source.push("s", number, 2, false), hasAll)
	}
	for _, it := range three {
		text, _ := listOf(it)
		wantSame(t, []any{text, viewsOf(it), asideOf(t, it)}, "[12 [[0 0] [100 2]] []]")
	}
}

func TestANewOwnerHearsOfTheCutWithAllUpToIt(t *testing.T) {
	two := beside(t, "", "-")
	source, owner := two[0], two[1]
	putViews(source, [2]uint64{9, 0})
	source.transact(func(kept records) error {
		kept.putSlot("s", smplan.Slot{Cell: smplan.Cell{Kind: smplan.Forwarding, Party: 2, Number: 1}, HasCut: true})
		return nil
	})
	owner.transact(func(kept records) error {
		kept.putSlot("s", smplan.Slot{Cell: smplan.Cell{Kind: smplan.Prepared, Party: 1, Number: 1}})
		return nil
	})
	for _, hasCut := range []bool{false, true} {
		owner.with("s", func(live *live) { live.isCopying = !hasCut })
		if hasCut {
			wantSame(t, source.push("s", 2, 0, false), hasAll)
		} else {
			wantTaken(t, source, owner, markOf(source), `{"later":"it copies"}`, "[[0 0]]")
		}
		owner.transact(func(kept records) error { wantSame(t, kept.slot("s").HasCut, hasCut); return nil })
		where, _, _, err := owner.route(requestLine{Shard: "s", Command: json.RawMessage("1")}, &smplan.Pass{Party: 1, Handover: 1})
		wantSaid(t, err, "")
		wantSame(t, where == smplan.Execute, hasCut)
	}
	wantSame(t, viewsOf(owner), "[[9 0]]")
}

func TestAFollowerThatHasMoreWaits(t *testing.T) {
	two := beside(t, "1", "12")
	cellOf(two[0], smplan.Primary)
	putViews(two[1], [2]uint64{0, 0}, [2]uint64{100, 1})
	wantSame(t, two[0].push("s", 2, 1, false), later)
	wantSaid(t, two[1].catchUp("s", 1), "it has less of s")
	wantTaken(t, two[0], two[1], markOf(two[1]), `{"later":"it has more"}`, "[[0 0] [100 1]]")
	text, _ := listOf(two[1])
	wantSame(t, []any{text, viewsOf(two[1])}, "[12 [[0 0] [100 1]]]")
}

func TestABeginningIsNotSetAside(t *testing.T) {
	for list, names := range map[string]string{"13": "[]", "12": "[s/0/2]"} {
		two := beside(t, "134", list)
		var line offerLine
		two[0].transact(func(kept records) (err error) { line, err = two[0].offer(kept, "s", mark{end{9, ""}, 9}); return err })
		line.After = markOf(two[1])
		answer, err := two[1].taken(line)
		wantSaid(t, err, "")
		wantSame(t, []any{answer.(*followLine).Has, asideOf(t, two[1])}, fmt.Sprint([]any{true, names}))
	}
}

func TestAReplacedCopyIsSetAside(t *testing.T) {
	two := beside(t, "134", "12")
	source, follower := two[0], two[1]
	cellOf(source, smplan.Primary)
	putViews(source, [2]uint64{0, 0}, [2]uint64{100, 1})
	wantSame(t, source.push("s", 2, 3, false), hasAll)
	text, _ := listOf(follower)
	wantSame(t, []any{text, viewsOf(follower), asideOf(t, follower)}, "[134 [[0 0] [100 1]] [s/0/2]]")
	told, _ := follower.toldAside(asideLine{})
	name := told.(map[string][]string)["aside"][0]
	for _, line := range []string{"", `{"name":"` + name + `"}`, `{"name":"` + name + `","delete":true}`} {
		answer, err := http.Post(follower.members()["b"].URL+"/aside", "", strings.NewReader(line))
		if err != nil {
			t.Fatal(err)
		}
		var copied asideCopy
		if json.NewDecoder(answer.Body).Decode(&copied); answer.Body.Close() != nil || answer.StatusCode != 200 {
			t.Error(answer.Status)
		}
		if strings.HasSuffix(line, `"}`) {
			wantSame(t, []any{copied.Data, copied.Mark, copied.Views, len(copied.Writes)}, "[12 {{2 2} 0} [[0 0]] 2]")
		}
	}
	wantSame(t, asideOf(t, follower), "[]")
}

func TestASettleBeginsAViewAndSetsAside(t *testing.T) {
	for _, row := range []struct{ cell, views, told, aside string }{
		{"primary", "[[0 0] [100 2]]", "[{s primary <nil> 0 1 0 2 100 <nil> <nil>}]", "[]"},
		{"secondary", "[[0 0]]", "[{s secondary <nil> 0 1 0 2 0 <nil> <nil>}]", "[]"},
		{"", "[[0 0]]", "[]", "[s/0/2]"},
	} {
		it, brought := beside(t, "12")[0], []slotLine{}
		if row.cell != "" {
			brought = append(brought, slotLine{Shard: "s", Cell: row.cell, Load: 1})
		}
		var told any
		for number := uint64(100); number <= 200; number += 100 {
			var err error
			told, err = it.fence(wholeLine{Journal: "7", Base: number})
			wantSaid(t, err, "")
			_, err = it.settle(wholeLine{Journal: "7", Base: number, Slots: brought})
			wantSaid(t, err, "")
		}
		wantSame(t, []any{viewsOf(it), told.(map[string][]slotLine)["slots"], asideOf(t, it)}, fmt.Sprint([]any{row.views, row.told, row.aside}))
	}
}

func TestAChangeBeginsAViewAndAHandoverNone(t *testing.T) {
	it := beside(t, "12")[0]
	it.transact(func(kept records) error {
		secondary, primary := smplan.Slot{Cell: smplan.Cell{Kind: smplan.Secondary}}, smplan.Slot{Cell: smplan.Cell{Kind: smplan.Primary}, Last: 9}
		it.keepCommitted(kept, "s", secondary, primary)
		wantSame(t, kept.views("s"), "[[0 0] [9 2]]")
		it.keepCommitted(kept, "s", smplan.Slot{Cell: smplan.Cell{Kind: smplan.Prepared, Party: 2, Number: 1}}, primary)
		wantSame(t, kept.views("s"), "[[0 0] [9 2]]")
		it.keepCommitted(kept, "s", smplan.Slot{}, primary)
		wantSame(t, kept.views("s"), "[[9 0]]")
		return nil
	})
}

func TestAStoreOfBeforeThereWereViewsIsOfView0(t *testing.T) {
	store := opened(t, t.TempDir()+"/store")
	put(t, store, "frame/list/s", `{"Mark":[4,"d"],"Before":[2,"b"]}`)
	store.Transact(func(tx Tx) error {
		kept := records{tx}
		wantSame(t, []any{kept.mark("s"), kept.ledger("s").Before, kept.views("s")}, "[{{4 d} 0} {2 b} [[0 0]]]")
		wantSame(t, []any{kept.has("s", mark{end{4, "d"}, 0}), kept.has("s", mark{end{4, "d"}, 1})}, "[true false]")
		return nil
	})
	var old mark
	if err := json.Unmarshal([]byte(`[4,"d"]`), &old); err != nil || old != (mark{end{4, "d"}, 0}) {
		t.Errorf("%v %v", old, err)
	}
}
