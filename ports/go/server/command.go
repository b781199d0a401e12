package server

import (
	"flag"
	"fmt"
	"log"
	"os"
	"strings"
)

// Main runs a server of a service over a store in one file, as the command line says.
func Main(service Service) {
	isNew := flag.Bool("new", false, "the service is new, and no shard has data yet")
	forgets := flag.Bool("forget", false, "the server was given up: it is to be added again, and asks for its slots anew")
	token := flag.String("token", "", "the file of the controller's token: all but clients have to show it")
	cert := flag.String("cert", "", "the file of a certificate: serve by TLS, at an address with https")
	key := flag.String("key", "", "the file of its key")
	copies := flag.Int("copies", 1, "acknowledge only what so many servers have, the same at all servers of the service")
	flag.Usage = func() {
		fmt.Fprintf(flag.CommandLine.Output(), "%s [-new | -forget] [-copies N] [-token FILE] [-cert FILE -key FILE] NAME CONTROLLERS STORE\n", os.Args[0])
		flag.PrintDefaults()
	}
	if flag.Parse(); flag.NArg() != 3 || *isNew && *forgets || *copies < 1 {
		if *copies < 1 {
			fmt.Fprintln(flag.CommandLine.Output(), tooFew)
		}
		flag.Usage()
		os.Exit(2)
	}
	settings := Settings{Name: flag.Arg(0), Controllers: strings.Split(flag.Arg(1), ","), IsNew: *isNew, Forgets: *forgets, Token: tokenIn(*token),
		Cert: *cert, Key: *key, Copies: *copies}
	store, err := OpenFile(flag.Arg(2))
	if err != nil {
		log.Fatal(err)
	}
	it, err := New(settings, service, store)
	if err != nil {
		log.Fatal(err)
	}
	log.Fatal(it.Run())
}

// tokenIn is the token that a file has; none if none is named.
func tokenIn(path string) string {
	if path == "" {
		return ""
	}
	text, err := os.ReadFile(path)
	if err != nil {
		log.Fatal(err)
	}
	token := strings.TrimSpace(string(text))
	if len(token) < 16 {
		log.Fatalf("%s: a token has at least 16 characters", path)
	}
	return token
}
