package server

import (
	"bytes"
	"context"
	"crypto/subtle"
	"encoding/json"
	"fmt"
	"io"
	"log"
	"net"
	"net/http"
	"net/url"
	"time"
)

// patience is how long a connection may say nothing.
const patience = 2 * time.Minute

// caller calls other processes.
type caller struct{ token string }

// call sends a line (a GET without one), and reads what is answered.
func (it caller) call(address string, line, into any, limit time.Duration) error {
	ctx, cancel := context.WithTimeout(context.Background(), limit)
	defer cancel()
	method, body := http.MethodGet, io.Reader(nil)
	if line != nil {
		text, err := json.Marshal(line)
		if err != nil {
			return err
		}
		method, body = http.MethodPost, bytes.NewReader(text)
	}
	request, err := http.NewRequestWithContext(ctx, method, address, body)
	if err != nil {
		return err
	}
	if it.token != "" {
		request.Header.Set("Authorization", "Bearer "+it.token)
	}
	answer, err := http.DefaultClient.Do(request)
	if err != nil {
		return err
	}
	defer answer.Body.Close()
	text, err := io.ReadAll(answer.Body)
	if err != nil {
		return err
	}
	if answer.StatusCode != http.StatusOK {
		return fmt.Errorf("%d %.200s", answer.StatusCode, text)
	}
	return json.Unmarshal(text, into)
}

// route answers a line of one kind.
func route[Line any](answer func(Line) (any, error)) func([]byte) (any, error) {
	return func(text []byte) (any, error) {
		var line Line
		if len(text) > 0 {
			if err := json.Unmarshal(text, &line); err != nil {
				return nil, err
			}
		}
		return answer(line)
	}
}

// toIt answers a controller's line of one kind, and refuses those that name another server.
func toIt[Line interface{ to() string }](it *Server, answer func(Line) (any, error)) func([]byte) (any, error) {
	return route(func(line Line) (any, error) {
		if line.to() != "" && line.to() != it.Name {
			return nil, fmt.Errorf("it is %s, and not %s", it.Name, line.to())
		}
		return answer(line)
	})
}

func (it *Server) routes() map[string]func([]byte) (any, error) {
	return map[string]func([]byte) (any, error){
		"/order": toIt(it, it.order), "/fence": toIt(it, it.fence), "/settle": toIt(it, it.settle), "/restore": toIt(it, it.restore),
		"/notice": toIt(it, it.notice), "/base": route(it.tellBase), "/slots": route(it.tellSlots), "/aside": route(it.toldAside), "/peer/follow": route(it.taken),
		"/peer/copy": route(it.given), "/peer/leave": route(it.leaveGiven), "/peer/pass": route(it.passed), "/peer/life": route(it.tellLife), "/request": route(it.requested),
	}
}

// Handler answers messages below a path, that of the server's address. With a token, who does not tell it may send requests alone.
func (it *Server) Handler(path string) http.Handler {
	mux := http.NewServeMux()
	for name, answer := range it.routes() {
		name, answer := name, answer
		mux.HandleFunc(path+name, func(writer http.ResponseWriter, request *http.Request) {
			given := []byte(request.Header.Get("Authorization"))
			if it.Token != "" && name != "/request" && subtle.ConstantTimeCompare(given, []byte("Bearer "+it.Token)) != 1 {
				respond(writer, http.StatusUnauthorized, map[string]string{"fault": "the token is missing"})
				return
			}
			text, err := io.ReadAll(request.Body)
			var told any
			if err == nil {
				told, err = answer(text)
			}
			if err != nil {
				if name != "/request" {
					log.Printf("%s: %s: %v", it.Name, name, err)
				}
				respond(writer, http.StatusBadRequest, map[string]string{"fault": err.Error()})
				return
			}
			respond(writer, http.StatusOK, told)
		})
	}
	return mux
}

// refuse fails if more than this machine would reach a server that asks for no token, or if its address says other things of TLS than it has.
func (it *Server) refuse(address *url.URL) error {
	ip := net.ParseIP(address.Hostname())
	if isLoopback := address.Hostname() == "localhost" || ip != nil && ip.IsLoopback(); it.Token == "" && !isLoopback {
		return fmt.Errorf("whoever reaches %s can change everything: name a token, or a loopback address", address.Host)
	}
	if (address.Scheme == "https") != (it.Cert != "") {
		return fmt.Errorf("%s: an address with https needs a certificate, and only such a one", address)
	}
	return nil
}

// listen answers messages at an address, for ever.
func (it *Server) listen(text string) error {
	address, err := url.Parse(text)
	if err != nil {
		return err
	}
	if err := it.refuse(address); err != nil {
		return err
	}
	server := http.Server{Addr: address.Host, Handler: it.Handler(address.Path), ReadHeaderTimeout: patience, IdleTimeout: patience}
	fmt.Printf("listens at %s\n", address.Host)
	if it.Cert != "" {
		return server.ListenAndServeTLS(it.Cert, it.Key)
	}
	return server.ListenAndServe()
}

func respond(writer http.ResponseWriter, status int, told any) {
	text, err := json.Marshal(told)
	if err != nil {
		status, text = http.StatusInternalServerError, []byte(`{"fault":"the answer is no JSON"}`)
	}
	writer.Header().Set("Content-Type", "application/json")
	writer.WriteHeader(status)
	writer.Write(text)
}
