package server

import (
	"encoding/json"
	"fmt"
	"log"
	"strings"
	"time"
)

const asidePrefix = "frame/aside/"

// asideLine asks for the names of all copies that are set aside, or for the one that it names, or for its end.
type asideLine struct {
	Name   string `json:"name"`
	Delete bool   `json:"delete"`
}

// asideCopy is a copy that is set aside.
type asideCopy struct {
	Shard  string  `json:"shard"`
	Mark   mark    `json:"mark"`
	Views  views   `json:"views"`
	Before end     `json:"before"`
	Writes []write `json:"writes"`
	Data   any     `json:"data"`
}

// setAside sets the copy of a shard aside, if it has writes, by a name: shard, view, position and when (ms). An operator looks at it and deletes it.
func (it *Server) setAside(kept records, shard string) error {
	here := kept.mark(shard)
	if here.Position == 0 {
		return nil
	}
	data, err := it.service.Copy(kept.Tx, shard)
	if err != nil {
		return err
	}
	key := place("aside", shard, number(here.View), number(here.Position), fmt.Sprint(time.Now().UnixMilli()))
	kept.store(key, asideCopy{shard, here, kept.views(shard), kept.ledger(shard).Before, kept.kept(shard, 0), data})
	log.Printf("%s: a copy of %s is set aside: %s", it.Name, shard, strings.TrimPrefix(key, asidePrefix))
	return nil
}

// setAsideBefore sets the copy of a shard aside, unless it is a beginning of one that is offered in its place.
func (it *Server) setAsideBefore(kept records, shard string, line offerLine) error {
	here := kept.mark(shard)
	isBeginning := line.Views.resumes(here, line.Mark.Position)
	for _, one := range line.Copy.Writes {
		isBeginning = isBeginning && (one.Position != here.Position || one.Stamp == here.Stamp)
	}
	if isBeginning {
		return nil
	}
	return it.setAside(kept, shard)
}

// toldAside tells the names of what is set aside; or of a name the copy, or deletes it.
func (it *Server) toldAside(line asideLine) (told any, err error) {
	err = it.transact(func(kept records) error {
		if line.Name == "" {
			names := []string{}
			for _, pair := range kept.List(asidePrefix) {
				names = append(names, strings.TrimPrefix(pair.Key, asidePrefix))
			}
			told = map[string][]string{"aside": names}
			return nil
		}
		text, ok := kept.Get(asidePrefix + line.Name)
		if !ok {
			return fmt.Errorf("nothing is set aside as %s", line.Name)
		}
		told = json.RawMessage(text)
		if line.Delete {
			kept.Delete(asidePrefix + line.Name)
			told = answerLine{Done: true}
		}
		return nil
	})
	return told, err
}
