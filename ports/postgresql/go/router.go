// Package router sends each request to the PostgreSQL server that serves its shard, wherever that goes, and executes it once (docs/POSTGRESQL.md). It is
// smplan_pg/router.py over database/sql, with any driver whose errors have a method SQLState, as those of lib/pq and pgx do.
package router

import (
	"context"
	"database/sql"
	"encoding/json"
	"errors"
	"fmt"
	"math/rand"
	"os"
	"sync"
	"time"
)

// What sm.enter answers.
const (
	again   = 11
	execute = 12
	passOn  = 13
	notHere = 14
	notYet  = 15
)

// The shortest rest between two tries, the longest while a handover may be the reason, and the longest behind that.
const (
	shortest     = 3 * time.Millisecond
	longest      = 20 * time.Millisecond
	longestLater = 150 * time.Millisecond
	handover     = time.Second
)

// A server that answers nothing for so long stands still; who waits for it looks again after this rest.
const (
	silent  = 3 * time.Second
	resting = time.Second
)

// ErrNotServed is the answer if a request could not be executed within its patience. It may have been: send it again under its identity.
var ErrNotServed = errors.New("the shard is not served")

// Work is called once for each try, in a transaction whose search_path is the schema. What it returns is kept as JSON beside the request's identity. If a try is
// given up, as its server stands still, its context is done.
type Work func(ctx context.Context, tx *sql.Tx) (any, error)

// Router sends requests to shards. Goroutines may share it.
type Router struct {
	Patience time.Duration // 30 seconds if it is not set
	servers  map[string]*sql.DB
	mapFile  string
	mutex    sync.Mutex
	listed   map[string]string
	names    map[int64]string
}

// New is a router over servers by name, and a published map's file.
func New(servers map[string]*sql.DB, mapFile string) *Router {
	return &Router{Patience: 30 * time.Second, servers: servers, mapFile: mapFile, listed: map[string]string{}, names: map[int64]string{}}
}

// onward is how a request is passed on: to whom, in which handover, behind which cut, and by whom.
type onward struct {
	server        string
	handover, cut int64
	by            sql.NullInt64
}

// told is what a try has come to.
type told struct {
	answer int
	reply  json.RawMessage
	onward *onward
}

// passing is trouble behind which a request is sent again: the server is gone, or has ended the session, or two transactions were in each other's way.
type passing struct{ why error }

func (it passing) Error() string { return it.why.Error() }
func (it passing) Unwrap() error { return it.why }

// Run executes a request once, and returns its reply when it is acknowledged: all who have to have what it wrote have it.
func (it *Router) Run(ctx context.Context, shard, identity string, work Work) (json.RawMessage, error) {
	return it.send(ctx, shard, sql.NullString{String: identity, Valid: true}, work)
}

// Read reads what is acknowledged.
func (it *Router) Read(ctx context.Context, shard string, work Work) (json.RawMessage, error) {
	return it.send(ctx, shard, sql.NullString{}, work)
}

// send tries until it is done.
func (it *Router) send(ctx context.Context, shard string, identity sql.NullString, work Work) (json.RawMessage, error) {
	begun, pause, next := time.Now(), shortest, (*onward)(nil)
	for time.Since(begun) < it.Patience {
		place := next
		if place == nil {
			place = it.place(shard)
		}
		got := told{answer: notHere}
		if place != nil {
			var err error
			if got, err = it.try(ctx, *place, shard, identity, work); err != nil {
				if !errors.As(err, &passing{}) || ctx.Err() != nil {
					return nil, err
				}
				got = told{answer: notHere}
			}
		}
		switch got.answer {
		case execute, again:
			return got.reply, nil
		case passOn:
			next = got.onward
			continue
		case notYet: // (the same place)
		default:
			next = nil
			it.forget(shard)
		}
		time.Sleep(pause/2 + time.Duration(rand.Int63n(int64(pause))))
		if pause = pause * 13 / 10; pause > longest && time.Since(begun) < handover {
			pause = longest
		} else if pause > longestLater {
			pause = longestLater
		}
	}
	return nil, fmt.Errorf("%s: not within %v: %w", shard, it.Patience, ErrNotServed)
}

// place is where the map lists a shard; none if that is not known.
func (it *Router) place(shard string) *onward {
	it.mutex.Lock()
	defer it.mutex.Unlock()
	if it.listed[shard] == "" {
		var shown struct {
			Entries map[string]struct{ To string }
		}
		if text, err := os.ReadFile(it.mapFile); err == nil && json.Unmarshal(text, &shown) == nil {
			it.listed[shard] = shown.Entries[shard].To
		}
	}
	if server := it.listed[shard]; it.servers[server] != nil {
		return &onward{server: server}
	}
	return nil
}

// forget lets the map be looked at again.
func (it *Router) forget(shard string) {
	it.mutex.Lock()
	defer it.mutex.Unlock()
	delete(it.listed, shard)
}

// name is a server's name by its number.
func (it *Router) name(ctx context.Context, tx *sql.Tx, number int64) (string, error) {
	it.mutex.Lock()
	name, is := it.names[number]
	it.mutex.Unlock()
	if is {
		return name, nil
	}
	if err := tx.QueryRowContext(ctx, "SELECT name FROM sm.servers WHERE number = $1", number).Scan(&name); err != nil {
		return "", err
	}
	it.mutex.Lock()
	defer it.mutex.Unlock()
	it.names[number] = name
	return name, nil
}

// errStill is told of a try that is given up.
var errStill = errors.New("the server stands still")

// try is one try at one server. If the server stands still, the try is given up behind the router's patience: it begins nothing more.
func (it *Router) try(ctx context.Context, place onward, shard string, identity sql.NullString, work Work) (told, error) {
	type result struct {
		got told
		err error
	}
	ctx, end := context.WithCancel(ctx)
	defer end()
	done := make(chan result, 1)
	go func() {
		got, err := it.once(ctx, place, shard, identity, work)
		done <- result{got, err}
	}()
	for late := time.NewTimer(it.Patience); ; late.Reset(resting) {
		select {
		case what := <-done:
			late.Stop()
			return what.got, what.err
		case <-late.C:
			if !it.answers(ctx, place.server) {
				return told{}, passing{errStill}
			}
		}
	}
}

// answers tells whether a server answers. Who asks waits no longer, whatever the driver does.
func (it *Router) answers(ctx context.Context, server string) bool {
	told := make(chan bool, 1)
	go func() { told <- it.servers[server].PingContext(ctx) == nil }()
	select {
	case is := <-told:
		return is
	case <-time.After(silent):
		return false
	}
}

// once is one try at one server, over one connection.
func (it *Router) once(ctx context.Context, place onward, shard string, identity sql.NullString, work Work) (told, error) {
	c, err := it.servers[place.server].Conn(ctx)
	if err != nil {
		return told{}, passing{err}
	}
	defer c.Close()
	tx, err := c.BeginTx(ctx, &sql.TxOptions{Isolation: sql.LevelReadCommitted})
	if err != nil {
		return told{}, passing{err}
	}
	got, err := it.enter(ctx, tx, place, shard, identity, work)
	if err != nil || (got.answer != execute && got.answer != again) {
		if rollback := tx.Rollback(); rollback != nil && err == nil {
			err = passing{rollback}
		}
		return got, err
	}
	if err := tx.Commit(); err != nil { // (if its answer is lost, the request's identity tells whether it was executed)
		return told{}, own(err)
	}
	var is bool
	if err := c.QueryRowContext(ctx, "SELECT sm.acknowledged($1, '2 s')", shard).Scan(&is); err != nil {
		return told{}, own(err)
	}
	if !is {
		return told{answer: notHere}, nil
	}
	return got, nil
}

// enter executes the request in its transaction, or repeats the reply of one that was executed before.
func (it *Router) enter(ctx context.Context, tx *sql.Tx, place onward, shard string, identity sql.NullString, work Work) (told, error) {
	var got told
	var reply sql.NullString
	var party, number, cut, me sql.NullInt64
	row := tx.QueryRowContext(ctx, "SELECT answer, reply, party, handover, cut, me FROM sm.enter($1, $2, $3, $4, $5)", shard, identity, place.handover, place.cut, place.by)
	if err := row.Scan(&got.answer, &reply, &party, &number, &cut, &me); err != nil {
		return told{}, own(err)
	}
	switch got.answer {
	case again:
		got.reply = json.RawMessage(reply.String)
		return got, nil
	case passOn:
		name, err := it.name(ctx, tx, party.Int64)
		got.onward = &onward{name, number.Int64, cut.Int64, me}
		return got, own(err)
	case notHere, notYet:
		return got, nil
	}
	if err := ctx.Err(); err != nil {
		return told{}, passing{err}
	}
	value, err := work(ctx, tx)
	if err != nil {
		return told{}, theirs(err)
	}
	if got.reply, err = json.Marshal(value); err == nil && identity.Valid {
		_, err = tx.ExecContext(ctx, "SELECT sm.reply($1, $2, $3)", shard, identity, string(got.reply))
		err = own(err)
	}
	return got, err
}

// state is the SQLSTATE of an error; empty if it has none.
func state(err error) string {
	var it interface{ SQLState() string }
	if errors.As(err, &it) {
		return it.SQLState()
	}
	return ""
}

// passes tells which classes of SQLSTATE pass: connections, transactions in each other's way, resources, locks, an operator's word, the system.
func passes(state string) bool {
	switch state[:2] {
	case "08", "40", "53", "55", "57", "58", "XX":
		return true
	}
	return false
}

// own is an error of the router's own statements: if the server did not name it, the connection is lost.
func own(err error) error {
	if err == nil {
		return nil
	}
	if at := state(err); len(at) < 2 || passes(at) {
		return passing{err}
	}
	return err
}

// theirs is an error of a request's work: it comes back, unless the server says that it passes, or is gone.
func theirs(err error) error {
	if at := state(err); len(at) >= 2 && passes(at) || len(at) < 2 && isLost(err) {
		return passing{err}
	}
	return err
}
