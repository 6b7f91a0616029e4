// A small OpAMP agent in Go: read from it how to talk to the server. It takes Debian's golang-go, golang-google-protobuf-dev and
// golang-github-gorilla-websocket-dev:
//
//	cd examples/go_agent && GO111MODULE=off GOPATH=/usr/share/gocode go build -o /tmp/go_agent .
//	/tmp/go_agent -folder /tmp/go ws://127.0.0.1:4320/v1/opamp
//	/tmp/go_agent -reports 5 http://127.0.0.1:4321/v1/opamp
//
// The first report is whole, and so is each one behind a loss, an error or a wish for the full state; the others leave out what hasn't
// changed. It waits as long as the server says, takes a new identifier, applies configurations where it has a folder, ends at an order to
// restart, and says goodbye where it is interrupted. What comes unasked on a WebSocket is heard between two reports.
package main

import (
	"crypto/rand"
	"errors"
	"flag"
	"fmt"
	"log"
	"os"
	"os/signal"
	"syscall"
	"time"
)

// What a server can do to an agent besides answering it.
var (
	errRestart = errors.New("the server ordered a restart")
	errEnded   = errors.New("the system ends the agent")
)

// retry is how long to wait behind an error that names no time.
const retry = 30 * time.Second

func main() {
	log.SetFlags(0)
	reports := flag.Int("reports", 1<<30, "how many reports are sent")
	pause := flag.Duration("pause", 30*time.Second, "between two reports")
	name := flag.String("name", "go-agent", "the attribute service.name")
	folder := flag.String("folder", "", "where the files of offered configurations are written; with none it takes none")
	flag.Parse()
	if flag.NArg() != 1 {
		log.Fatal("usage: go_agent [options] ws://HOST:PORT/PATH or http://HOST:PORT/PATH; -help lists the options")
	}
	uid := make([]byte, 16)
	if _, err := rand.Read(uid); err != nil {
		log.Fatal(err)
	}
	ended := make(chan os.Signal, 1)
	signal.Notify(ended, os.Interrupt, syscall.SIGTERM)
	agent := &Agent{uid: uid, name: *name, folder: *folder}
	log.Printf("uid %x", agent.uid)
	switch err := run(agent, flag.Arg(0), *reports, *pause, ended); {
	case errors.Is(err, errRestart):
		log.Print("restart")
	case errors.Is(err, errEnded):
		log.Print("goodbye")
	case err != nil:
		log.Fatal(err)
	}
}

// run reports, and connects anew where a connection is lost.
func run(agent *Agent, server string, reports int, pause time.Duration, ended <-chan os.Signal) error {
	var link Link
	for sent := 0; sent < reports; sent++ {
		wait := pause
		if link == nil {
			made, err := dial(server)
			if err != nil {
				log.Printf("  lost: %v", err)
				if err := hear(agent, nil, pause, ended); err != nil {
					return err
				}
				continue
			}
			link = made
		}
		report, form := agent.report()
		log.Printf("sent %d %s %x", agent.number, form, report)
		reply, err := link.exchange(report)
		if err == nil {
			log.Printf("  reply %x", reply)
			var asked time.Duration
			if asked, err = agent.take(reply); asked > wait {
				wait = asked
			}
			if errors.Is(err, errRestart) {
				return err
			}
		}
		if err != nil {
			log.Printf("  lost: %v", err)
			link.close()
			link = nil
			agent.forget()
		}
		if err := hear(agent, link, wait, ended); err != nil {
			return err
		}
	}
	return nil
}

// hear waits, and takes what comes unasked meanwhile. A message that came ends the wait, so that what became of it is reported at once.
func hear(agent *Agent, link Link, wait time.Duration, ended <-chan os.Signal) error {
	var unasked <-chan []byte
	if link != nil {
		unasked = link.unasked()
	}
	select {
	case <-time.After(wait):
		return nil
	case message, open := <-unasked:
		if !open {
			return nil // the next exchange finds the loss
		}
		log.Printf("  unasked %x", message)
		_, err := agent.take(message)
		return err
	case <-ended:
		if link != nil {
			if _, err := link.exchange(agent.goodbye()); err != nil {
				return fmt.Errorf("no goodbye: %w", err)
			}
		}
		return errEnded
	}
}
