// Command kv is examples/kv_http.py in Go, over the frame for servers: texts by key. Commands are ["get", key] and ["append", key, text]; a reply is the whole text.
package main

import (
	"encoding/json"
	"fmt"
	"hammerecru.example/smplan/server"
	"strings"
)

type texts struct{}

func place(shard, key string) string { return "kv/" + shard + "/" + key }

func wordsOf(command json.RawMessage) (words []string) {
	if json.Unmarshal(command, &words) != nil || len(words) < 2 {
		return []string{"", ""}
	}
	return words
}

func (texts) IsRead(command json.RawMessage) bool { return wordsOf(command)[0] == "get" }
func (texts) Read(tx server.Tx, shard string, command json.RawMessage) (any, error) {
	text, _ := tx.Get(place(shard, wordsOf(command)[1]))
	return text, nil
}

func (texts) Apply(tx server.Tx, shard string, command json.RawMessage) (any, error) {
	words := wordsOf(command)
	if words[0] != "append" || len(words) != 3 {
		return nil, fmt.Errorf("no command: %s", command)
	}
	text, _ := tx.Get(place(shard, words[1]))
	tx.Put(place(shard, words[1]), text+words[2])
	return text + words[2], nil
}

func (texts) Copy(tx server.Tx, shard string) (any, error) {
	all, begin := map[string]string{}, place(shard, "")
	for _, pair := range tx.List(begin) {
		all[strings.TrimPrefix(pair.Key, begin)] = pair.Text
	}
	return all, nil
}

func (texts) Load(tx server.Tx, shard string, data json.RawMessage) error {
	var all map[string]string
	err := json.Unmarshal(data, &all)
	for key, text := range all {
		tx.Put(place(shard, key), text)
	}
	return err
}

func (texts) Drop(tx server.Tx, shard string) {
	for _, pair := range tx.List(place(shard, "")) {
		tx.Delete(pair.Key)
	}
}
func main() { server.Main(texts{}) }
