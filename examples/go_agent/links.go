package main

import (
	"bytes"
	"fmt"
	"io"
	"net/http"
	"net/url"
	"time"

	"github.com/gorilla/websocket"
)

// Link is a connection to a server.
type Link interface {
	exchange(report []byte) ([]byte, error)
	unasked() <-chan []byte // closed where the connection is lost; nil over HTTP
	close()
}

const patience = 10 * time.Second // for an exchange

func dial(server string) (Link, error) {
	to, err := url.Parse(server)
	if err != nil {
		return nil, err
	}
	switch to.Scheme {
	case "http", "https":
		return &polled{server, &http.Client{Timeout: patience}}, nil
	case "ws", "wss":
		connection, _, err := websocket.DefaultDialer.Dial(server, nil)
		if err != nil {
			return nil, err
		}
		link := &socket{connection, make(chan []byte, 64)}
		go link.read()
		return link, nil
	}
	return nil, fmt.Errorf("%s: neither http nor ws", server)
}

// polled is OpAMP's plain HTTP transport: a report is the body of a POST, the reply that of its answer.
type polled struct {
	server string
	client *http.Client
}

func (p *polled) exchange(report []byte) ([]byte, error) {
	answer, err := p.client.Post(p.server, "application/x-protobuf", bytes.NewReader(report))
	if err != nil {
		return nil, err
	}
	defer answer.Body.Close()
	if answer.StatusCode != http.StatusOK { // 503: no memory or no place for now
		return nil, fmt.Errorf("status %s", answer.Status)
	}
	return io.ReadAll(io.LimitReader(answer.Body, 4_194_304))
}

func (p *polled) unasked() <-chan []byte { return nil }
func (p *polled) close()                 { p.client.CloseIdleConnections() }

// socket is OpAMP's WebSocket transport: each message is a binary message behind a header of one byte, 0.
type socket struct {
	connection *websocket.Conn
	came       chan []byte
}

// read gives what comes, and answers pings, which gorilla does for whoever reads.
func (s *socket) read() {
	defer close(s.came)
	for {
		kind, message, err := s.connection.ReadMessage()
		if err != nil {
			return
		}
		if kind == websocket.BinaryMessage {
			s.came <- bytes.TrimPrefix(message, []byte{0})
		}
	}
}

func (s *socket) exchange(report []byte) ([]byte, error) {
	for len(s.came) > 0 {
		<-s.came // what came before the question doesn't answer it; what it offers comes with the reply again
	}
	if err := s.connection.WriteMessage(websocket.BinaryMessage, append([]byte{0}, report...)); err != nil {
		return nil, err
	}
	select {
	case reply, open := <-s.came:
		if !open {
			return nil, fmt.Errorf("the server ended the connection")
		}
		return reply, nil
	case <-time.After(patience):
		return nil, fmt.Errorf("no reply within %v", patience)
	}
}

func (s *socket) unasked() <-chan []byte { return s.came }
func (s *socket) close()                 { s.connection.Close() }
