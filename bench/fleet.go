// Plays many agents over WebSocket and over HTTP and checks each reply; bench/fleet builds and runs it.
//
// A connection carries several agents, whose reports go out in turn, each once the one before it was answered. An agent's first report is whole; a later
// one has its identifier, its number, its capabilities and the parts that have changed since the last one, and is whole again where the server asks for
// the full state. Where a reply doesn't come, the connection is made anew, and the agents on it go on with reports of changes.
//
// It obeys lines on standard input. `tell` prints a line of counts since the last one. `renew` counts agents as known anew: from then on one is known
// while the last answer to it asks for nothing and has no error. `end` is `renew`, and once each agent is known the states of all are written to the file
// of --states, and the program ends.
package main

import (
	"bufio"
	"crypto/tls"
	"crypto/x509"
	"encoding/binary"
	"encoding/json"
	"errors"
	"flag"
	"fmt"
	"io"
	"log"
	"math/rand"
	"net"
	"os"
	"sort"
	"strconv"
	"strings"
	"sync"
	"time"
)

const (
	reportsStatus, reportsEffectiveConfig, reportsHealth = 0x1, 0x4, 0x800 // OpAMP specification, AgentCapabilities
	reportFullState                                      = 0x1             // ServerToAgentFlags
	answerTime                                           = 20 * time.Second
	refusedTime                                          = 30 * time.Second // as a server without room says
)

// Protocol Buffers encoding guide: a message is a row of fields, each a tag and a value.
func number(out []byte, field int, value uint64) []byte {
	return binary.AppendUvarint(binary.AppendUvarint(out, uint64(field)<<3), value)
}

func block(out []byte, field int, content []byte) []byte {
	out = binary.AppendUvarint(out, uint64(field)<<3|2)
	return append(binary.AppendUvarint(out, uint64(len(content))), content...)
}

func attribute(out []byte, field int, key, value string) []byte {
	return block(out, field, block(block(nil, 1, []byte(key)), 2, block(nil, 1, []byte(value))))
}

// What of a ServerToAgent is looked at.
type reply struct {
	uid   []byte
	err   []byte
	flags uint64
}

var errNoMessage = errors.New("no message")

func readReply(message []byte) (reply, error) {
	var found reply
	for len(message) > 0 {
		tag, size := binary.Uvarint(message)
		if size <= 0 {
			return found, errNoMessage
		}
		message = message[size:]
		value, size := binary.Uvarint(message)
		if size <= 0 || tag&7 != 0 && tag&7 != 2 || tag&7 == 2 && value > uint64(len(message)-size) {
			return found, errNoMessage
		}
		message = message[size:]
		var content []byte
		if tag&7 == 2 {
			content, message = message[:value], message[value:]
		}
		switch tag {
		case 1<<3 | 2:
			found.uid = content
		case 2<<3 | 2:
			found.err = content
		case 6 << 3:
			found.flags = value
		}
	}
	return found, nil
}

// What an agent is and what of it was told.
type agent struct {
	index   int
	uid     [16]byte
	number  uint64
	changes uint64 // since its beginning; what it tells goes by them
	told    map[int]string
	known   bool
	renewal int // the one in which it is known, or was asked last
	tried   int // answered reports until it was known, or so far
	rests   time.Time
}

func newAgent(index int) *agent {
	it := &agent{index: index, told: map[int]string{}}
	rand.New(rand.NewSource(int64(index) + 1)).Read(it.uid[:])
	return it
}

func (it *agent) name() string { return fmt.Sprintf("agent-%d", it.index) }

// Its last error; it is healthy where that is empty.
func (it *agent) trouble() string {
	if it.changes/4%2 == 0 {
		return ""
	}
	return fmt.Sprintf("out of luck %d", it.changes/4)
}

func (it *agent) file() string {
	return fmt.Sprintf("exporters: [debug]\nversion: %d\n", it.changes/16)
}

// AgentToServer's fields that may be left out: 3 agent_description, 5 health, 6 effective_config.
func (it *agent) state() map[int]string {
	description := attribute(attribute(nil, 1, "service.name", "fleet"), 1, "service.instance.id", it.name())
	description = attribute(attribute(description, 2, "host.name", "node-"+strconv.Itoa(it.index/8)), 2, "os.type", "linux")
	var health []byte
	if it.trouble() == "" {
		health = number(nil, 1, 1)
	} else {
		health = block(nil, 3, []byte(it.trouble()))
	}
	file := block(block(nil, 1, []byte(it.file())), 2, []byte("text/yaml"))
	files := block(nil, 1, block(block(nil, 1, []byte("agent.yaml")), 2, file))
	return map[int]string{3: string(description), 5: string(health), 6: string(block(nil, 1, files))}
}

// Its next report: what has changed since the last one, or all where nothing was told.
func (it *agent) report() []byte {
	it.number++
	it.changes++
	state := it.state()
	out := number(block(nil, 1, it.uid[:]), 2, it.number)
	for _, field := range []int{3, 4, 5, 6} {
		if field == 4 {
			out = number(out, 4, reportsStatus|reportsEffectiveConfig|reportsHealth)
		} else if it.told[field] != state[field] {
			out = block(out, field, []byte(state[field]))
		}
	}
	it.told = state
	return out
}

// What `tell` prints.
type counts struct {
	Seconds    float64 `json:"seconds"`
	Answered   int64   `json:"answered"`
	Asked      int64   `json:"asked"`      // answers with ReportFullState
	Refused    int64   `json:"refused"`    // answers with an error
	Lost       int64   `json:"lost"`       // reports without an answer
	Wrong      int64   `json:"wrong"`      // answers that aren't right
	Known      int64   `json:"known"`      // agents that are known now
	MostTries  int     `json:"most_tries"` // answered reports of an agent until it was known
	Half       float64 `json:"half_ms"`    // of the answers came within
	Most       float64 `json:"most_ms"`    // 99 of 100 answers came within
	sinceStart time.Time
}

var (
	mutex    sync.Mutex // guards what follows, and what agents have of it
	now      counts
	known    int64
	renewal  int
	samples  []time.Duration
	isEnding bool
)

func fail(format string, words ...any) {
	mutex.Lock()
	now.Wrong++
	few := now.Wrong <= 10
	mutex.Unlock()
	if few {
		log.Printf(format, words...)
	}
}

// Takes in the answer to the agent's report.
func (it *agent) hear(message []byte, took time.Duration) {
	heard, err := readReply(message)
	if err != nil || string(heard.uid) != string(it.uid[:]) || heard.flags&^reportFullState != 0 {
		fail("%s: a wrong answer %x", it.name(), message)
		return
	}
	mutex.Lock()
	defer mutex.Unlock()
	now.Answered++
	if now.Answered%16 == 0 {
		samples = append(samples, took)
	}
	if it.renewal != renewal {
		it.tried = 0
	}
	it.tried++
	asks := heard.flags&reportFullState != 0
	if asks {
		now.Asked++
	}
	if heard.err != nil {
		now.Refused++
		it.rests = time.Now().Add(refusedTime)
	}
	if asks || heard.err != nil {
		it.told = map[int]string{}
		it.forget()
	} else {
		if !it.known || it.renewal != renewal {
			it.known = true
			known++
			if it.tried > now.MostTries {
				now.MostTries = it.tried
			}
		}
		it.tried = 0
	}
	it.renewal = renewal
}

func (it *agent) forget() {
	if it.known && it.renewal == renewal {
		known--
	}
	it.known = false
}

// Whether the agent has nothing more to report.
func (it *agent) isDone() bool {
	mutex.Lock()
	defer mutex.Unlock()
	return isEnding && it.known && it.renewal == renewal
}

type link struct {
	stream      net.Conn
	came        *bufio.Reader
	isWebSocket bool
}

var (
	address = flag.String("to", "", "HOST:PORT of the balancer")
	trust   = flag.String("tls", "", "speak TLS, and trust this certificate")
	rate    = flag.Float64("rate", 0, "reports a second in all; 0 is as fast as they are answered")
)

func dial(from net.IP, isWebSocket bool) (*link, error) {
	dialer := net.Dialer{Timeout: answerTime, LocalAddr: &net.TCPAddr{IP: from}}
	stream, err := dialer.Dial("tcp", *address)
	if err != nil {
		return nil, err
	}
	if authorities != nil {
		host, _, _ := net.SplitHostPort(*address)
		stream = tls.Client(stream, &tls.Config{RootCAs: authorities, ServerName: host})
	}
	it := &link{stream: stream, came: bufio.NewReaderSize(stream, 4096), isWebSocket: isWebSocket}
	if isWebSocket {
		stream.SetDeadline(time.Now().Add(answerTime))
		_, err = fmt.Fprintf(stream, "GET /v1/opamp HTTP/1.1\r\nHost: fleet\r\nUpgrade: websocket\r\nConnection: Upgrade\r\n"+
			"Sec-WebSocket-Key: Z2lzYXZlbG9tIGZsZWV0IQ==\r\nSec-WebSocket-Version: 13\r\n\r\n")
		if err == nil {
			_, err = it.head("101")
		}
		if err != nil {
			stream.Close()
			return nil, err
		}
	}
	return it, nil
}

// Reads an answer's head, which has to have this status, and gives the length of its body.
func (it *link) head(status string) (int, error) {
	first, err := it.came.ReadString('\n')
	if err != nil {
		return 0, err
	}
	length := 0
	for {
		line, err := it.came.ReadString('\n')
		if err != nil {
			return 0, err
		}
		name, value, _ := strings.Cut(strings.TrimSpace(line), ":")
		if name == "" {
			break
		}
		if strings.EqualFold(name, "Content-Length") {
			length, err = strconv.Atoi(strings.TrimSpace(value))
			if err != nil {
				return 0, err
			}
		}
	}
	if words := strings.Fields(first); len(words) < 2 || words[1] != status {
		return 0, fmt.Errorf("answered by %q", first)
	}
	return length, nil
}

// A report and its answer.
func (it *link) exchange(report []byte) ([]byte, error) {
	it.stream.SetDeadline(time.Now().Add(answerTime))
	if it.isWebSocket {
		if err := it.sendMessage(append([]byte{0}, report...)); err != nil {
			return nil, err
		}
		message, err := it.takeMessage()
		if err == nil && len(message) > 0 && message[0] == 0 {
			message = message[1:]
		}
		return message, err
	}
	head := fmt.Sprintf("POST /v1/opamp HTTP/1.1\r\nHost: fleet\r\nContent-Type: application/x-protobuf\r\nContent-Length: %d\r\n\r\n", len(report))
	if _, err := it.stream.Write(append([]byte(head), report...)); err != nil {
		return nil, err
	}
	length, err := it.head("200")
	if err != nil {
		return nil, err
	}
	body := make([]byte, length)
	_, err = io.ReadFull(it.came, body)
	return body, err
}

// RFC 6455, 5.2: a client masks what it sends.
func (it *link) sendFrame(opcode byte, payload []byte) error {
	out := []byte{128 | opcode}
	if len(payload) < 126 {
		out = append(out, 128|byte(len(payload)))
	} else {
		out = append(out, 128|126, byte(len(payload)>>8), byte(len(payload)))
	}
	var mask [4]byte
	binary.LittleEndian.PutUint32(mask[:], rand.Uint32())
	out = append(out, mask[:]...)
	for at, value := range payload {
		out = append(out, value^mask[at%4])
	}
	_, err := it.stream.Write(out)
	return err
}

func (it *link) sendMessage(payload []byte) error { return it.sendFrame(2, payload) }

// The next binary message; pings are answered.
func (it *link) takeMessage() ([]byte, error) {
	for {
		var head [2]byte
		if _, err := io.ReadFull(it.came, head[:]); err != nil {
			return nil, err
		}
		size := int(head[1])
		if size == 126 {
			var more [2]byte
			if _, err := io.ReadFull(it.came, more[:]); err != nil {
				return nil, err
			}
			size = int(binary.BigEndian.Uint16(more[:]))
		} else if size > 126 {
			return nil, errors.New("a frame that is masked or too large")
		}
		payload := make([]byte, size)
		if _, err := io.ReadFull(it.came, payload); err != nil {
			return nil, err
		}
		switch head[0] & 15 {
		case 2:
			return payload, nil
		case 9:
			if err := it.sendFrame(10, payload); err != nil {
				return nil, err
			}
		case 8:
			return nil, errors.New("closed by the server")
		}
	}
}

// Reports of the agents in turn, over one connection after another, until the end and until each of them is known.
func play(agents []*agent, from net.IP, isWebSocket bool, between time.Duration) {
	var it *link
	next := time.Now().Add(time.Duration(rand.Int63n(int64(between) + 1)))
	for {
		done, waits := 0, 0
		for _, each := range agents {
			if each.isDone() {
				done++
			} else if time.Now().Before(each.rests) {
				waits++
			} else {
				if between > 0 {
					time.Sleep(time.Until(next))
					next = next.Add(between)
				}
				it = one(each, it, from, isWebSocket)
			}
		}
		if done == len(agents) {
			return
		}
		if done+waits == len(agents) {
			time.Sleep(100 * time.Millisecond)
		}
	}
}

// One report of the agent, and the connection that is left behind it.
func one(each *agent, it *link, from net.IP, isWebSocket bool) *link {
	var err error
	for it == nil {
		if it, err = dial(from, isWebSocket); err != nil {
			time.Sleep(200 * time.Millisecond)
		}
	}
	began := time.Now()
	message, err := it.exchange(each.report())
	if err == nil {
		each.hear(message, time.Since(began))
		return it
	}
	it.stream.Close()
	mutex.Lock()
	defer mutex.Unlock()
	now.Lost++
	each.forget()
	return nil
}

func tell() {
	mutex.Lock()
	said, took := now, samples
	said.Known = known
	now, samples = counts{sinceStart: time.Now()}, nil
	mutex.Unlock()
	said.Seconds = time.Since(said.sinceStart).Seconds()
	sort.Slice(took, func(a, b int) bool { return took[a] < took[b] })
	if len(took) > 0 {
		said.Half = took[len(took)/2].Seconds() * 1000
		said.Most = took[len(took)*99/100].Seconds() * 1000
	}
	line, _ := json.Marshal(said)
	fmt.Println(string(line))
}

func writeStates(path string, agents []*agent) error {
	file, err := os.Create(path)
	if err != nil {
		return err
	}
	out := bufio.NewWriter(file)
	for _, it := range agents {
		line, _ := json.Marshal([]any{fmt.Sprintf("%x", it.uid), it.number, it.name(), it.trouble(), it.file()})
		fmt.Fprintln(out, string(line))
	}
	if err := out.Flush(); err != nil {
		return err
	}
	return file.Close()
}

var authorities *x509.CertPool

func main() {
	count := flag.Int("agents", 40000, "how many agents; half of them report over WebSocket")
	connections := flag.Int("connections", 1200, "how many connections; half of them WebSockets")
	states := flag.String("states", "states", "the file that has each agent's state at the end")
	flag.Parse()
	if *trust != "" {
		pem, err := os.ReadFile(*trust)
		authorities = x509.NewCertPool()
		if err != nil || !authorities.AppendCertsFromPEM(pem) {
			log.Fatalf("fleet: %s has no certificate", *trust)
		}
	}
	var between time.Duration
	if *rate > 0 {
		between = time.Duration(float64(*connections) / *rate * float64(time.Second))
	}
	rows := make([][]*agent, *connections)
	var agents []*agent
	for index := 0; index < *count; index++ {
		agents = append(agents, newAgent(index))
		rows[index%*connections] = append(rows[index%*connections], agents[index])
	}
	now.sinceStart = time.Now()
	var playing sync.WaitGroup
	for at, row := range rows {
		playing.Add(1)
		// Each connection has an address of its own, since a balancer may go by it.
		go func(row []*agent, from net.IP, isWebSocket bool) {
			defer playing.Done()
			play(row, from, isWebSocket, between)
		}(row, net.IPv4(127, 0, byte(1+at/250), byte(1+at%250)), at%2 == 0)
	}
	for lines := bufio.NewScanner(os.Stdin); lines.Scan(); {
		switch lines.Text() {
		case "tell":
			tell()
		case "renew", "end":
			mutex.Lock()
			renewal, known, isEnding = renewal+1, 0, lines.Text() == "end"
			mutex.Unlock()
		}
		if isEnding {
			playing.Wait()
			if err := writeStates(*states, agents); err != nil {
				log.Fatal(err)
			}
			tell()
			return
		}
	}
}
