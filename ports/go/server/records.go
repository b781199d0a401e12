package server

import (
	"encoding/json"
	"fmt"
	"net/url"
	"sort"
	"strconv"
	"time"

	"hammerecru.example/smplan"
)

// mostWrites is how many writes a follower may lack before it is sent a whole copy.
const mostWrites = 1000

// end is where a list of writes ends: how many there are, and the stamp of the last one.
type end struct {
	Position uint64
	Stamp    string
}

// MarshalJSON writes an end as [position, stamp].
func (it end) MarshalJSON() ([]byte, error) { return json.Marshal([]any{it.Position, it.Stamp}) }

// UnmarshalJSON reads one.
func (it *end) UnmarshalJSON(text []byte) error {
	return json.Unmarshal(text, &[]any{&it.Position, &it.Stamp})
}

// mark is where a list of writes ends, and in which view. Two lists with one mark are the same.
type mark struct {
	end
	View uint64
}

// MarshalJSON writes a mark as [position, stamp, view].
func (it mark) MarshalJSON() ([]byte, error) {
	return json.Marshal([]any{it.Position, it.Stamp, it.View})
}

// UnmarshalJSON reads one.
func (it *mark) UnmarshalJSON(text []byte) error {
	return json.Unmarshal(text, &[]any{&it.Position, &it.Stamp, &it.View})
}

// copied is what the agent takes for it.
func (it mark) copied() smplan.ToldCopy { return smplan.ToldCopy{View: it.View, Position: it.Position} }

// hasMoreThan returns whether a copy that ends here is greater than one that ends there.
func (it mark) hasMoreThan(other mark) bool {
	return smplan.Compare(it.copied(), other.copied()) > 0
}

// views are those of a list, in rising order: each is [view, position at which it began].
type views [][2]uint64

// resumes returns whether a list that ends at a mark is a beginning of one that has these views and ends at a position.
func (it views) resumes(other mark, position uint64) bool {
	starts := []smplan.ViewStart{}
	for _, one := range it {
		starts = append(starts, smplan.ViewStart{View: one[0], Position: one[1]})
	}
	return smplan.Resumes(other.copied(), starts, position)
}

// split returns those before a view, and those from it on.
func (it views) split(view uint64) (before, from views) {
	at := sort.Search(len(it), func(at int) bool { return view <= it[at][0] })
	return it[:at:at], it[at:]
}

// write is a write of a shard: its place, a random stamp of its own, the request's identity, the command, the reply, and when (ms) it was executed.
type write struct {
	Position uint64          `json:"position"`
	Stamp    string          `json:"stamp"`
	Request  *string         `json:"request"`
	Command  json.RawMessage `json:"command"`
	Reply    json.RawMessage `json:"reply"`
	At       int64           `json:"at"`
}

func (it write) end() end { return end{it.Position, it.Stamp} }

// ledger is a shard's list: its end, and the end before the first write that is still kept.
type ledger struct {
	End    end `json:"Mark"`
	Before end
}

// records are what is kept, in a transaction.
type records struct{ Tx }

func place(kind string, words ...string) string {
	key := "frame/" + kind
	for _, it := range words {
		key += "/" + url.QueryEscape(it)
	}
	return key
}

// read reads a record; false if there is none.
func (it records) read(key string, into any) bool {
	text, ok := it.Get(key)
	if !ok {
		return false
	}
	if err := json.Unmarshal([]byte(text), into); err != nil {
		panic(fmt.Sprintf("the store is damaged at %s: %v", key, err))
	}
	return true
}

func (it records) store(key string, value any) {
	text, err := json.Marshal(value)
	if err != nil {
		panic(err)
	}
	it.Put(key, string(text))
}

func (it records) base() (base smplan.Base) {
	it.read("frame/base", &base)
	return base
}

// heard is the number of the last reopening of its journal that the server has heard of.
func (it records) heard() (number uint64) {
	it.read("frame/heard", &number)
	return number
}

func (it records) putBase(base smplan.Base, heard uint64) {
	it.store("frame/base", base)
	it.store("frame/heard", heard)
}

// counting is what a server counts by: the last reopening of which it has taken slots, at which who counts was settled, too; and how many servers,
// itself among them, have each write that it acknowledges.
type counting struct {
	Settled uint64
	Copies  int
}

// counting is what it counts by.
func (it records) counting() (found counting) {
	if it.read("frame/settled", &found) {
		return found
	}
	if it.base().Fenced { // (a store of before this was kept)
		return counting{0, 1}
	}
	return counting{it.heard(), 1}
}

// putCopies stores at a start how many servers are to have each write, and returns how many it is: no fewer than before, since a controller may
// count by them.
func (it records) putCopies(copies int) int {
	found := it.counting()
	if found.Copies < copies {
		found.Copies = copies
	}
	it.store("frame/settled", found)
	return found.Copies
}

// putSettled stores of which reopening it takes slots. Only a settle is taken before its reopening is in force: by no restore its writes are at
// fewer servers than before.
func (it records) putSettled(number uint64, copies int, isSettle bool) {
	if before := it.counting(); !isSettle && before.Copies > copies {
		copies = before.Copies
	}
	it.store("frame/settled", counting{number, copies})
}

func (it records) slot(shard string) (slot smplan.Slot) {
	it.read(place("slot", shard), &slot)
	return slot
}

func (it records) putSlot(shard string, slot smplan.Slot) { it.store(place("slot", shard), slot) }

func (it records) slots() map[string]smplan.Slot {
	found := map[string]smplan.Slot{}
	for _, pair := range it.List("frame/slot/") {
		shard, _ := url.QueryUnescape(pair.Key[len("frame/slot/"):])
		found[shard] = it.slot(shard)
	}
	return found
}

// oldOwner is who has to have each write of a handover, live or not: the old owner until it has dropped the shard; 0 if nobody.
func (it records) oldOwner(shard string) (number uint32) {
	if slot := it.slot(shard); slot.Cell.Kind == smplan.Prepared {
		return slot.Cell.Party
	}
	it.read(place("old", shard), &number)
	return number
}

func (it records) putOldOwner(shard string, number uint32) {
	if number == 0 {
		it.Delete(place("old", shard))
	} else {
		it.store(place("old", shard), number)
	}
}

// hasCopy returns whether there is a copy of the shard, be it an empty one.
func (it records) hasCopy(shard string) bool {
	_, ok := it.Get(place("list", shard))
	return ok
}

// copies are the shards of which there is a copy.
func (it records) copies() (found []string) {
	for _, pair := range it.List("frame/list/") {
		shard, _ := url.QueryUnescape(pair.Key[len("frame/list/"):])
		found = append(found, shard)
	}
	return found
}

func (it records) ledger(shard string) (found ledger) {
	it.read(place("list", shard), &found)
	return found
}

func (it records) putLedger(shard string, found ledger) { it.store(place("list", shard), found) }

// views are those of a shard's list. A list of before there were views is of view 0.
func (it records) views(shard string) (found views) {
	if !it.read(place("views", shard), &found) {
		found = views{{0, 0}}
	}
	return found
}

// takeViews takes over the views of a list with the same end, which tells those from one on that this list has, too.
func (it records) takeViews(shard string, told views) {
	all := it.views(shard)
	before, from := all.split(told[0][0])
	if !it.hasCopy(shard) {
		it.putLedger(shard, ledger{})
	}
	if fmt.Sprint(from) != fmt.Sprint(told) {
		it.putViews(shard, append(before, told...))
	}
}

func (it records) putViews(shard string, told views) { it.store(place("views", shard), told) }

// beginView begins the view of a primary, with the number of what made it that: it goes on from what is here, or from nothing.
func (it records) beginView(shard string, view uint64) {
	earlier := views{}
	if it.hasCopy(shard) {
		earlier = it.views(shard)
	}
	it.putLedger(shard, it.ledger(shard))
	it.putViews(shard, append(earlier, [2]uint64{view, it.ledger(shard).End.Position}))
}

func (it records) mark(shard string) mark {
	told := it.views(shard)
	return mark{it.ledger(shard).End, told[len(told)-1][0]}
}

func number(position uint64) string { return strconv.FormatUint(position, 10) }

// writeAt is a write that is still kept.
func (it records) writeAt(shard string, position uint64) (found write, ok bool) {
	ok = it.read(place("write", shard, number(position)), &found)
	return found, ok
}

// writeOf is what a request has written, if it has.
func (it records) writeOf(shard string, request *string) (found write, ok bool) {
	var position uint64
	if request == nil || !it.read(place("request", shard, *request), &position) {
		return found, false
	}
	return it.writeAt(shard, position)
}

// append adds a write to a shard's list, and deletes those that are old enough.
func (it records) append(shard string, next write, keeping time.Duration) {
	list := it.ledger(shard)
	it.store(place("write", shard, number(next.Position)), next)
	if next.Request != nil {
		it.store(place("request", shard, *next.Request), next.Position)
	}
	for turn := 0; turn < 2; turn++ {
		first, ok := it.writeAt(shard, list.Before.Position+1)
		if !ok || first.Position == next.Position || first.At >= time.Now().Add(-keeping).UnixMilli() {
			break
		}
		it.deleteWrite(shard, first)
		list.Before = first.end()
	}
	it.putLedger(shard, ledger{next.end(), list.Before})
}

// deleteWrite deletes a write with the identity of its request.
func (it records) deleteWrite(shard string, old write) {
	it.Delete(place("write", shard, number(old.Position)))
	if old.Request == nil {
		return
	}
	if text, _ := it.Get(place("request", shard, *old.Request)); text == number(old.Position) {
		it.Delete(place("request", shard, *old.Request))
	}
}

// kept are the writes that are kept behind a position.
func (it records) kept(shard string, after uint64) []write {
	found, list := []write{}, it.ledger(shard)
	if after < list.Before.Position {
		after = list.Before.Position
	}
	for position := after + 1; position <= list.End.Position; position++ {
		if next, ok := it.writeAt(shard, position); ok {
			found = append(found, next)
		}
	}
	return found
}

// has returns whether the shard's list has another one, that ends at this mark, as its beginning; false if that can't be told any more.
func (it records) has(shard string, other mark) bool {
	found, ok := it.endAt(shard, other.Position)
	return it.resumes(shard, other) && ok && found == other.end
}

// resumes returns whether a list that ends at this mark is a beginning of the shard's, by its view and position.
func (it records) resumes(shard string, other mark) bool {
	return it.views(shard).resumes(other, it.ledger(shard).End.Position)
}

// differs returns whether a list that ends at this mark is another one, though its view and position are those of a beginning of the shard's: a bug.
func (it records) differs(shard string, other mark) bool {
	found, ok := it.endAt(shard, other.Position)
	return it.resumes(shard, other) && ok && found != other.end
}

// endAt is where the shard's list ended when it had so many writes; false if that can't be told any more.
func (it records) endAt(shard string, position uint64) (found end, ok bool) {
	list := it.ledger(shard)
	switch position {
	case list.End.Position:
		return list.End, true
	case list.Before.Position:
		return list.Before, true
	}
	next, ok := it.writeAt(shard, position)
	return next.end(), ok
}

// clear deletes a shard's list, and who was the old owner.
func (it records) clear(shard string) {
	for _, old := range it.kept(shard, 0) {
		it.deleteWrite(shard, old)
	}
	it.Delete(place("list", shard))
	it.Delete(place("views", shard))
	it.putOldOwner(shard, 0)
}
