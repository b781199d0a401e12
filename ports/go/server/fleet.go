package server

import (
	"encoding/json"
	"fmt"
	"log"
	"strings"
	"time"
)

// member is a server of the fleet.
type member struct {
	Number uint32 `json:"number"`
	URL    string `json:"url"`
}

func (it *Server) members() map[string]member {
	it.mutex.Lock()
	defer it.mutex.Unlock()
	return it.fleet
}

func (it *Server) numbers() map[string]uint32 {
	found := map[string]uint32{}
	for name, member := range it.members() {
		found[name] = member.Number
	}
	return found
}

func (it *Server) number() uint32 { return it.members()[it.Name].Number }

// others are the numbers of all others that the fleet's file has now.
func (it *Server) others() (found []uint32) {
	for name, member := range it.members() {
		if name != it.Name && member.URL != "" {
			found = append(found, member.Number)
		}
	}
	return found
}

func (it *Server) nameOf(number uint32) string {
	for name, member := range it.members() {
		if member.Number == number {
			return name
		}
	}
	return fmt.Sprint(number)
}

// learn takes the servers that a controller tells of. A number belongs to one name for ever, also if the server is gone.
func (it *Server) learn(told map[string]member) error {
	all := map[string]member{}
	for name, known := range it.members() {
		all[name] = member{Number: known.Number}
	}
	for name, member := range told {
		for other, known := range all {
			if (name == other) != (member.Number == known.Number) {
				return fmt.Errorf("%s: the number %d of %s was another one, or another server's", it.Name, member.Number, name)
			}
		}
		all[name] = member
	}
	err := it.store.Transact(func(tx Tx) error {
		text, _ := json.Marshal(all)
		if before, _ := tx.Get("frame/fleet"); before != string(text) {
			tx.Put("frame/fleet", string(text))
		}
		return nil
	})
	it.mutex.Lock()
	it.fleet = all
	it.mutex.Unlock()
	return err
}

// look asks the controllers for the servers, and returns whether one has answered.
func (it *Server) look() bool {
	for _, controller := range it.Controllers {
		var told struct {
			Servers map[string]member `json:"servers"`
		}
		if it.caller.call(controller+"/fleet", nil, &told, it.Limits.Peer) == nil && told.Servers != nil {
			for name, member := range told.Servers {
				member.URL = strings.TrimSuffix(member.URL, "/")
				told.Servers[name] = member
			}
			if err := it.learn(told.Servers); err != nil {
				log.Fatal(err)
			}
			return true
		}
	}
	return false
}

// know looks for servers that a message names, and that it does not know yet.
func (it *Server) know(names ...string) {
	for _, name := range names {
		if _, ok := it.members()[name]; !ok && name != "" && name != "primary" && name != "secondary" {
			it.look()
			return
		}
	}
}

// ask asks another server.
func (it *Server) ask(number uint32, route string, line, into any, limit time.Duration) error {
	member, ok := it.members()[it.nameOf(number)]
	if !ok || member.URL == "" {
		return fmt.Errorf("there is no server %d", number)
	}
	return it.caller.call(member.URL+"/peer/"+route, line, into, limit)
}
