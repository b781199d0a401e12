package server

import (
	"encoding/json"
	"fmt"
	"strconv"

	"hammerecru.example/smplan"
)

// orderLine is an order as a session sends it.
type orderLine struct {
	Server   string   `json:"server"`
	Shard    string   `json:"shard"`
	Journal  string   `json:"journal"`
	Fence    uint64   `json:"fence"`
	Number   uint64   `json:"number"`
	Call     string   `json:"call"`
	Role     string   `json:"role"`
	From     string   `json:"from"`
	To       string   `json:"to"`
	Handover uint64   `json:"handover"`
	Load     uint64   `json:"load"`
	Room     uint64   `json:"room"`
	Primary  *string  `json:"primary"`
	Replicas []string `json:"replicas"`
}

func (it orderLine) to() string { return it.Server }

func (it wholeLine) to() string { return it.Server }

// slotLine is a slot as a settle or a restore brings it, or as a server tells it.
type slotLine struct {
	Shard    string  `json:"shard"`
	Cell     string  `json:"cell"`
	Party    *string `json:"party,omitempty"`
	Handover uint64  `json:"handover,omitempty"`
	Load     uint64  `json:"load"`
	Last     uint64  `json:"last"`
	Position uint64  `json:"position"`
	View     uint64  `json:"view"`
	Cut      *uint64 `json:"cut,omitempty"`
	Reached  *bool   `json:"reached,omitempty"`
}

// wholeLine is a fence, a settle, a restore or a notice.
type wholeLine struct {
	Server  string     `json:"server"`
	Journal string     `json:"journal"`
	Base    uint64     `json:"base"`
	Fence   *uint64    `json:"fence"`
	Nonce   *string    `json:"nonce"`
	Slots   []slotLine `json:"slots"`
}

// offerLine brings a follower what it lacks behind a mark: writes, or a whole copy.
type offerLine struct {
	Shard   string     `json:"shard"`
	From    uint32     `json:"from"`
	Journal string     `json:"journal"`
	Heard   uint64     `json:"heard"`
	Copies  int        `json:"copies"`
	Mark    mark       `json:"mark"`
	After   mark       `json:"after"`
	Views   views      `json:"views,omitempty"`
	Cut     *[2]uint64 `json:"cut"`
	Writes  []write    `json:"writes,omitempty"`
	Copy    *copyLine  `json:"copy,omitempty"`
	Less    *mark      `json:"less,omitempty"`
	Said    string     `json:"said,omitempty"`
	asked   uint64     // (the life in which it was asked for, if it was)
}

// copyLine is a whole copy, with the writes that are kept.
type copyLine struct {
	Before end             `json:"before"`
	Writes []write         `json:"writes"`
	Data   json.RawMessage `json:"data"`
}

// askLine asks for an offer.
type askLine struct {
	Shard   string `json:"shard"`
	From    uint32 `json:"from"`
	Journal string `json:"journal"`
	Heard   uint64 `json:"heard"`
	After   mark   `json:"after"`
	Beside  bool   `json:"beside"`
}

// followLine is what a follower answers to an offer.
type followLine struct {
	Has       bool    `json:"has,omitempty"`
	Settled   *uint64 `json:"settled,omitempty"`
	Lacks     *mark   `json:"lacks,omitempty"`
	Nothing   bool    `json:"nothing,omitempty"`
	Overtaken bool    `json:"overtaken,omitempty"`
	Later     string  `json:"later,omitempty"`
}

// requestLine is a client's request, or one that is passed on.
type requestLine struct {
	Shard    string          `json:"shard"`
	Request  *string         `json:"request"`
	Command  json.RawMessage `json:"command"`
	Handover uint64          `json:"handover"`
	Cut      uint64          `json:"cut"`
	From     uint32          `json:"from"`
}

// answerLine answers a message: done, a reply, or what is said else.
type answerLine struct {
	Done  bool            `json:"done,omitempty"`
	Reply json.RawMessage `json:"reply,omitempty"`
	Said  string          `json:"said,omitempty"`
}

var (
	calls = map[string]smplan.CallKind{"add": smplan.Add, "drop": smplan.Drop, "change": smplan.Change, "prepare_add": smplan.PrepareAdd,
		"prepare_drop": smplan.PrepareDrop}
	roles = map[string]smplan.Role{"": smplan.NoRole, "primary": smplan.PrimaryRole, "secondary": smplan.SecondaryRole}
	cells = map[string]smplan.CellKind{"absent": smplan.Absent, "prepared": smplan.Prepared, "secondary": smplan.Secondary,
		"primary": smplan.Primary, "forwarding": smplan.Forwarding}
	words    = []string{"absent", "prepared", "secondary", "primary", "forwarding"}
	verdicts = []string{"begin", "working", "again", "old", "foreign", "not_ready", "already_held", "not_held", "wrong_role", "no_room"}
)

// hexadecimal reads a journal or a nonce.
func hexadecimal(text string) (uint64, error) { return strconv.ParseUint(text, 16, 64) }

// orderOf returns an order as the agent judges it.
func orderOf(line orderLine, numbers map[string]uint32) (order smplan.Order, err error) {
	journal, err := hexadecimal(line.Journal)
	if err != nil {
		return order, err
	}
	kind, ok := calls[line.Call]
	if !ok {
		return order, fmt.Errorf("no call: %s", line.Call)
	}
	call, other := smplan.Call{Kind: kind}, ""
	switch kind {
	case smplan.Add:
		call.To = roles[line.Role]
	case smplan.Change:
		call.From, call.To = roles[line.From], roles[line.To]
	case smplan.PrepareAdd:
		other, call.Number = line.From, line.Handover
	case smplan.PrepareDrop:
		other, call.Number = line.To, line.Handover
	}
	if other != "" {
		if call.Party, ok = numbers[other]; !ok {
			return order, fmt.Errorf("no server: %s", other)
		}
	}
	return smplan.Order{Stamp: smplan.Stamp{Journal: journal, Fence: line.Fence, Number: line.Number}, Call: call, Load: line.Load, Room: line.Room}, nil
}

// partsOf returns the slots that a settle or a restore brings.
func partsOf(lines []slotLine, numbers map[string]uint32) (map[string]smplan.Part, error) {
	found := map[string]smplan.Part{}
	for _, line := range lines {
		kind, ok := cells[line.Cell]
		if !ok {
			return nil, fmt.Errorf("no cell: %s", line.Cell)
		}
		cell := smplan.Cell{Kind: kind, Number: line.Handover}
		if line.Party != nil {
			if cell.Party, ok = numbers[*line.Party]; !ok {
				return nil, fmt.Errorf("no server: %s", *line.Party)
			}
		}
		found[line.Shard] = smplan.Part{Cell: cell, Load: line.Load}
	}
	return found, nil
}

// toldOf returns what a server tells of a slot, with the view and the position of its copy: zeros without one.
func toldOf(shard string, slot smplan.Slot, here mark, nameOf func(uint32) string) slotLine {
	line := slotLine{Shard: shard, Cell: words[slot.Cell.Kind], Last: slot.Last, Load: slot.Load, Position: here.Position, View: here.View}
	if slot.Cell.Kind == smplan.Prepared || slot.Cell.Kind == smplan.Forwarding {
		name := nameOf(slot.Cell.Party)
		line.Party, line.Handover = &name, slot.Cell.Number
	}
	if slot.Cell.Kind == smplan.Forwarding {
		line.Cut = &slot.Cut
	}
	if slot.Cell.Kind == smplan.Prepared {
		reached := smplan.HasReachedCut(slot, here.Position)
		line.Reached = &reached
	}
	return line
}

// assignmentOf returns a restore, which names the last reopening by its fence, or a settle, as the agent takes it.
func assignmentOf(line wholeLine) (told smplan.Assignment, err error) {
	told = smplan.Assignment{Kind: smplan.Settle, Number: line.Base, HasNonce: line.Nonce != nil}
	if line.Fence != nil {
		told.Kind, told.Fence = smplan.Restore, *line.Fence
	}
	if told.Journal, err = hexadecimal(line.Journal); err == nil && line.Nonce != nil {
		told.Nonce, err = hexadecimal(*line.Nonce)
	}
	return told, err
}
