package main

import (
	"bytes"
	"fmt"
	"log"
	"os"
	"path/filepath"
	"regexp"
	"time"

	"google.golang.org/protobuf/encoding/protowire"
)

// OpAMP specification, AgentCapabilities.
const (
	reportsStatus       = 0x1
	acceptsRemoteConfig = 0x2
	reportsHealth       = 0x800
	reportsRemoteConfig = 0x1000
)

const reportFullState = 0x1 // ServerToAgentFlags

const ( // RemoteConfigStatuses
	applied = 1
	failed  = 3
)

// Agent is what the agent is, and what of it the server has been told.
type Agent struct {
	uid          []byte
	name, folder string
	number       uint64
	configHash   []byte
	configStatus []byte
	told         map[protowire.Number][]byte
}

// block is a field of bytes, a text or a message.
func block(to []byte, field protowire.Number, content []byte) []byte {
	return protowire.AppendBytes(protowire.AppendTag(to, field, protowire.BytesType), content)
}

// number is a field of a varint, left out at its default.
func number(to []byte, field protowire.Number, value uint64) []byte {
	if value == 0 {
		return to
	}
	return protowire.AppendVarint(protowire.AppendTag(to, field, protowire.VarintType), value)
}

// attribute is a KeyValue with a text.
func attribute(key, value string) []byte {
	return block(block(nil, 1, []byte(key)), 2, block(nil, 1, []byte(value)))
}

// field is one field of a message: a number, and a varint or bytes.
type field struct {
	number  protowire.Number
	value   uint64
	content []byte
}

// fields are those of a message, in their order.
func fields(message []byte) ([]field, error) {
	var found []field
	for len(message) > 0 {
		number, kind, n := protowire.ConsumeTag(message)
		if n < 0 {
			return nil, protowire.ParseError(n)
		}
		message = message[n:]
		one := field{number: number}
		switch kind {
		case protowire.VarintType:
			one.value, n = protowire.ConsumeVarint(message)
		case protowire.BytesType:
			one.content, n = protowire.ConsumeBytes(message)
		default:
			n = protowire.ConsumeFieldValue(number, kind, message)
		}
		if n < 0 {
			return nil, protowire.ParseError(n)
		}
		message = message[n:]
		found = append(found, one)
	}
	return found, nil
}

// last is the last field of this number, of which alone a scalar counts.
func last(message []byte, number protowire.Number) (field, bool) {
	all, err := fields(message)
	for at := len(all) - 1; err == nil && at >= 0; at-- {
		if all[at].number == number {
			return all[at], true
		}
	}
	return field{}, false
}

func (a *Agent) capabilities() uint64 {
	if a.folder == "" {
		return reportsStatus | reportsHealth
	}
	return reportsStatus | reportsHealth | acceptsRemoteConfig | reportsRemoteConfig
}

// state has the parts of a report that may be left out: agent_description (3), health (5), remote_config_status (7). A bit of the
// capabilities obliges to its part, also where there is nothing to tell yet.
func (a *Agent) state() map[protowire.Number][]byte {
	host, _ := os.Hostname()
	state := map[protowire.Number][]byte{
		3: block(block(nil, 1, attribute("service.name", a.name)), 2, attribute("host.name", host)),
		5: number(nil, 1, 1),
	}
	if a.folder != "" {
		state[7] = a.configStatus
	}
	return state
}

// report is the next one: whole where nothing is told yet, else what has changed.
func (a *Agent) report() ([]byte, string) {
	a.number++
	state, form := a.state(), "whole"
	report := number(block(nil, 1, a.uid), 2, a.number)
	for _, part := range []protowire.Number{3, 4, 5, 7} {
		content, is := state[part]
		told, was := a.told[part]
		switch {
		case part == 4:
			report = number(report, 4, a.capabilities())
		case is && was && bytes.Equal(content, told):
			form = "delta"
		case is:
			report = block(report, part, content)
		}
	}
	a.told = state
	return report, form
}

// goodbye is the last report: the agent goes (agent_disconnect, 9).
func (a *Agent) goodbye() []byte {
	a.number++
	return block(number(number(block(nil, 1, a.uid), 2, a.number), 4, a.capabilities()), 9, nil)
}

// forget has the next report be whole: behind a loss or an error nobody knows what the server took.
func (a *Agent) forget() { a.told = nil }

// take reads a ServerToAgent. It gives how long the server wants to be left alone.
func (a *Agent) take(reply []byte) (time.Duration, error) {
	if _, err := fields(reply); err != nil {
		return 0, fmt.Errorf("the reply can't be read: %w", err)
	}
	if uid, is := last(reply, 1); is && !bytes.Equal(uid.content, a.uid) {
		return 0, nil // to another agent
	}
	if command, is := last(reply, 9); is { // all else in the reply doesn't count
		if kind, told := last(command.content, 1); !told || kind.value == 0 {
			return 0, errRestart
		}
		return 0, nil
	}
	if problem, is := last(reply, 2); is { // ServerErrorResponse: 3 retry_info, whose 1 is in nanoseconds
		a.forget()
		if info, is := last(problem.content, 3); is {
			nanoseconds, _ := last(info.content, 1)
			return time.Duration(nanoseconds.value), nil
		}
		return retry, nil
	}
	if offer, is := last(reply, 3); is && a.folder != "" {
		a.apply(offer.content)
	}
	if fresh, is := last(reply, 8); is {
		if uid, is := last(fresh.content, 1); is && len(uid.content) == 16 {
			a.uid = append([]byte(nil), uid.content...)
			log.Printf("  new identifier %x", a.uid)
			a.forget()
		}
	}
	if flags, is := last(reply, 6); is && flags.value&reportFullState != 0 {
		a.forget()
	}
	return 0, nil
}

// apply takes an AgentRemoteConfig (1 config, 2 config_hash), unless it is the one that was taken last, and notes what became of it.
func (a *Agent) apply(offer []byte) {
	hash, _ := last(offer, 2)
	if len(hash.content) > 0 && bytes.Equal(hash.content, a.configHash) {
		return
	}
	config, _ := last(offer, 1)
	status, problem := uint64(applied), a.write(config.content)
	if problem != nil {
		status = failed
	}
	a.configHash = append([]byte(nil), hash.content...)
	a.configStatus = number(block(nil, 1, a.configHash), 2, status)
	if problem != nil {
		a.configStatus = block(a.configStatus, 3, []byte(problem.Error()))
	}
	log.Printf("  configuration: status %d, %v", status, problem)
}

var goodName = regexp.MustCompile(`^[A-Za-z0-9_-][A-Za-z0-9._-]{0,254}$`)

// write puts the files of an AgentConfigMap (1 a map to AgentConfigFile, whose 1 is the body) whole into the folder, each beside its
// old one first, so that a reader finds the former file or the new one.
func (a *Agent) write(config []byte) error {
	entries, err := fields(config)
	if err != nil {
		return err
	}
	for _, entry := range entries {
		name, _ := last(entry.content, 1)
		called := string(name.content)
		if called == "" && len(entries) == 1 {
			called = "config"
		}
		if !goodName.MatchString(called) {
			return fmt.Errorf("bad name")
		}
		file, _ := last(entry.content, 2)
		body, _ := last(file.content, 1)
		path := filepath.Join(a.folder, called)
		if err := os.MkdirAll(a.folder, 0o755); err != nil {
			return err
		}
		if err := os.WriteFile(path+".new", body.content, 0o644); err != nil {
			return err
		}
		if err := os.Rename(path+".new", path); err != nil {
			return err
		}
	}
	return nil
}
