// Package server is a frame for servers whose shards move by `smplan-control run`: all that docs/YOUR-SERVERS.md asks for, over a service's own
// work (Service) and a store (Store). examples/kv is a service; python/smplan/server.py is the same frame, and moves shards with this one.
package server

import (
	"crypto/rand"
	"encoding/binary"
	"encoding/json"
	"errors"
	"fmt"
	"log"
	"sync"
	"time"

	"hammerecru.example/smplan"
)

// Service is a service's own work. Commands, replies and copies are JSON, the same at each server. An error refuses a command.
type Service interface {
	// IsRead returns whether a command changes nothing.
	IsRead(command json.RawMessage) bool
	// Read returns the reply of a command that changes nothing.
	Read(tx Tx, shard string, command json.RawMessage) (any, error)
	// Apply executes a command, and returns its reply. It does the same at each server that has executed the same commands before.
	Apply(tx Tx, shard string, command json.RawMessage) (any, error)
	// Copy returns all data of a shard.
	Copy(tx Tx, shard string) (any, error)
	// Load stores all data of a shard, which has none.
	Load(tx Tx, shard string, data json.RawMessage) error
	// Drop deletes all data of a shard.
	Drop(tx Tx, shard string)
}

// Limits are times: for how long an order's answer waits for its work, work is tried, a request waits, a peer may be silent, a fence waits for
// requests, between two tries, and for how long the identities of requests are kept.
type Limits struct{ Answering, Working, Waiting, Peer, Fencing, Resting, Keeping time.Duration }

// DefaultLimits are those that suit most.
var DefaultLimits = Limits{time.Second, 30 * time.Second, 3 * time.Second, 3 * time.Second, 2 * time.Second, time.Second / 2, time.Hour}

// Settings are what a server is begun with. IsNew: the service is new, so that no shard has data yet. Forgets: it was given up, and turns Unknown.
// Token is the controller's, which all but clients have to show. Cert and Key are files: with them it serves by TLS. It acknowledges only what Copies
// servers have, itself among them: 1 if that is 0.
type Settings struct {
	Name        string
	Controllers []string
	IsNew       bool
	Forgets     bool
	Token       string
	Cert, Key   string
	Copies      int
	Limits      Limits
}

// link is what a source of writes knows of another server: whether it has to be asked, by which question it got leave to drop the shard, up to
// which position it has this list, at which reopening it was settled as it said so, where its own list is said to end, and until when it is taken for
// dead.
type link struct {
	mutex     sync.Mutex
	isNothing bool
	left      string
	joined    int
	has       int64
	settled   *uint64
	mark      *mark
	failures  int
	deadUntil time.Time
}

// live is a shard in memory. Requests that run belong to a term; if it ends, they are not acknowledged. Writes up to acknowledged are at all who
// are alive. Up to the place noted goes all that was here when it began to lead; told is the last reopening since which a controller knows that enough
// servers have that. No order that holds requests back begins before restUntil. Who is leaving asks for leave under this number; leave is that of the
// question that was answered.
type live struct {
	running      int
	term         int
	isHeld       bool
	worker       uint64
	caughtUp     uint64
	leaving      string
	leave        string
	said         string
	restUntil    time.Time
	acknowledged uint64
	noted        *uint64
	told         *uint64
	links        map[uint32]*link
	isCopying    bool // (it asks for a copy in place of one that was lost)
}

// beginAnew forgets what other servers have, since who executes is another one, or may be.
func (it *live) beginAnew() {
	it.acknowledged, it.noted, it.told, it.links = 0, nil, nil, map[uint32]*link{}
	it.stay()
}

// stay ends the question for leave, and the leave.
func (it *live) stay() { it.leaving, it.leave = "", "" }

// counts returns whether the other server may follow the shard, and has not left it.
func (it *link) counts() bool { return !it.isNothing && it.left == "" }

// askAnew forgets what the other server has; what it was asked before counts no more.
func (it *link) askAnew() {
	it.joined, it.isNothing, it.left, it.has, it.deadUntil = it.joined+1, false, "", -1, time.Time{}
}

// Server is a server.
type Server struct {
	Settings
	service Service
	store   Store
	caller  caller

	mutex   sync.Mutex
	changed chan struct{}
	shards  map[string]*live
	fleet   map[string]member
	life    uint64
	lives   map[uint32]string

	recorded recorded
}

// New begins a server without work; an Unknown one under a new nonce.
func New(settings Settings, service Service, store Store) (*Server, error) {
	if settings.Limits == (Limits{}) {
		settings.Limits = DefaultLimits
	}
	if settings.Copies == 0 {
		settings.Copies = 1
	}
	if settings.Copies < 1 {
		return nil, errors.New(tooFew)
	}
	it := &Server{Settings: settings, service: service, store: store, caller: caller{token: settings.Token}, changed: make(chan struct{}),
		shards: map[string]*live{}, fleet: map[string]member{}, life: nonce(), lives: map[uint32]string{}}
	return it, store.Transact(func(tx Tx) error {
		kept := records{tx}
		if copies := kept.putCopies(settings.Copies); copies > settings.Copies {
			log.Printf("%s: acknowledges only what %d servers have, as before, until it is settled at a reopening", it.Name, copies)
		}
		if _, ok := tx.Get("frame/base"); settings.IsNew && !ok {
			tx.Put("frame/new", "1")
		}
		kept.read("frame/fleet", &it.fleet)
		if settings.Forgets {
			tx.Delete("frame/new")
			it.forget(kept)
		} else if !kept.base().Known {
			kept.putBase(smplan.Forget(nonce()), 0)
		}
		for shard, slot := range kept.slots() {
			kept.putSlot(shard, smplan.Abandon(slot))
			if smplan.MayDelete(kept.base(), smplan.Abandon(slot)) {
				kept.Delete(place("slot", shard))
			}
		}
		return nil
	})
}

// nonce is a fresh random number, never 0.
func nonce() uint64 {
	var bytes [8]byte
	if _, err := rand.Read(bytes[:]); err != nil {
		panic(err)
	}
	return binary.BigEndian.Uint64(bytes[:])>>1 | 1
}

// -- what changes in memory

// live is what it has of a shard in memory. The mutex is held.
func (it *Server) live(shard string) *live {
	found, ok := it.shards[shard]
	if !ok {
		found = &live{links: map[uint32]*link{}}
		it.shards[shard] = found
	}
	return found
}

// with runs what reads or changes a shard in memory, and lets all who wait look again.
func (it *Server) with(shard string, work func(*live)) {
	it.mutex.Lock()
	defer it.mutex.Unlock()
	work(it.live(shard))
	it.wake()
}

// wake lets all who wait look again. The mutex is held.
func (it *Server) wake() {
	close(it.changed)
	it.changed = make(chan struct{})
}

// wait waits for something that changes in memory, and returns whether it has come.
func (it *Server) wait(limit time.Duration, condition func() bool) bool {
	over := time.After(limit)
	for {
		it.mutex.Lock()
		isSo, changed := condition(), it.changed
		it.mutex.Unlock()
		if isSo {
			return true
		}
		select {
		case <-changed:
		case <-over:
			return false
		}
	}
}

// transact runs a transaction; a store that is gone ends the process.
func (it *Server) transact(work func(records) error) error {
	var said error
	err := it.store.Transact(func(tx Tx) error {
		said = work(records{tx})
		return said
	})
	if err != nil && said == nil {
		log.Fatalf("%s: %v", it.Name, err)
	}
	return err
}

// -- what goes on by itself

// repeat does something again and again.
func repeat(work func(), pause time.Duration) {
	for {
		time.Sleep(pause)
		work()
	}
}

// askForSlots asks each controller, under its nonce, if it is Unknown.
func (it *Server) askForSlots() {
	for _, controller := range it.Controllers {
		var base smplan.Base
		it.transact(func(kept records) error { base = kept.base(); return nil })
		if base.Known {
			return
		}
		var told struct {
			Restore *wholeLine `json:"restore"`
		}
		line := map[string]string{"server": it.Name, "nonce": fmt.Sprintf("%x", base.Nonce)}
		if it.caller.call(controller+"/restore", line, &told, it.Limits.Peer) == nil && told.Restore != nil {
			it.restore(*told.Restore)
		}
	}
}

// Run listens at its address, for ever.
func (it *Server) Run() error {
	for {
		if _, ok := it.members()[it.Name]; ok {
			break
		}
		if !it.look() {
			time.Sleep(200 * time.Millisecond)
		} else if _, ok := it.members()[it.Name]; !ok {
			return fmt.Errorf("the fleet's file names no %s", it.Name)
		}
	}
	go repeat(it.pushAll, it.Limits.Resting)
	go repeat(it.askForSlots, it.Limits.Resting)
	go repeat(it.tellCopies, it.Limits.Resting)
	go repeat(func() { it.look() }, 4*it.Limits.Resting)
	return it.listen(it.members()[it.Name].URL)
}
