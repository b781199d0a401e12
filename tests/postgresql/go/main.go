// This program runs requests that it reads as lines of JSON through the router in Go, and answers each with a line. Arguments: the map, NAME=DSN for each server.
package main

import (
	"bufio"
	"context"
	"database/sql"
	"encoding/json"
	"fmt"
	"log"
	"os"
	"strings"
	"time"

	"github.com/lib/pq"
	"hammerecru.example/smplan-pg"
)

type line struct {
	Shard, Identity, Statement string
	N                          int
	Patience                   float64
}

func main() {
	servers := map[string]*sql.DB{}
	for _, it := range os.Args[2:] {
		name, reach, _ := strings.Cut(it, "=")
		connector, err := pq.NewConnector(reach)
		if err != nil {
			log.Fatal(err)
		}
		servers[name] = sql.OpenDB(connector)
	}
	it := router.New(servers, os.Args[1])
	for lines := bufio.NewScanner(os.Stdin); lines.Scan(); {
		var asked line
		if err := json.Unmarshal(lines.Bytes(), &asked); err != nil {
			log.Fatal(err)
		}
		it.Patience = time.Duration(asked.Patience * float64(time.Second))
		work := func(ctx context.Context, tx *sql.Tx) (any, error) {
			var n int
			err := tx.QueryRowContext(ctx, asked.Statement, asked.N).Scan(&n)
			return n, err
		}
		reply, err := json.RawMessage(nil), error(nil)
		if asked.Identity == "" {
			reply, err = it.Read(context.Background(), asked.Shard, work)
		} else {
			reply, err = it.Run(context.Background(), asked.Shard, asked.Identity, work)
		}
		answer, _ := json.Marshal(map[string]any{"reply": reply, "error": fmt.Sprint(err)})
		fmt.Println(string(answer))
	}
}
