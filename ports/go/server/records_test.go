package server

import (
	"encoding/json"
	"fmt"
	"testing"
	"time"
)

func TestIdentitiesGoWhenTheyAreOld(t *testing.T) {
	store := opened(t, t.TempDir()+"/store")
	for position := uint64(1); position <= 4; position++ {
		request, at := fmt.Sprint("r", position), time.Now()
		if position <= 2 {
			at = at.Add(-2 * time.Hour)
		}
		next := write{position, fmt.Sprint(position), &request, json.RawMessage("1"), json.RawMessage("2"), at.UnixMilli()}
		if err := store.Transact(func(tx Tx) error { records{tx}.append("s", next, time.Hour); return nil }); err != nil {
			t.Fatal(err)
		}
	}
	store.Transact(func(tx Tx) error {
		kept := records{tx}
		for position, isKept := range []bool{false, false, true, true} {
			request := fmt.Sprint("r", position+1)
			if _, ok := kept.writeOf("s", &request); ok != isKept {
				t.Errorf("%s is kept: %v", request, ok)
			}
		}
		if list := kept.ledger("s"); len(kept.kept("s", 0)) != 2 || list.Before != (end{2, "2"}) || list.End != (end{4, "4"}) {
			t.Errorf("the list is %v", list)
		}
		return nil
	})
}
