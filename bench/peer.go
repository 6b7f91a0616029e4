// The peer of `serve`: an OpAMP server as one writes it in Go, over net/http and google.golang.org/protobuf. It decodes each report, keeps one record
// for each agent and replies. bench/serve builds it.
package main

import (
	"io"
	"log"
	"net/http"
	"os"
	"sync"

	"google.golang.org/protobuf/proto"

	pb "peer/pb"
)

type record struct {
	number uint64
	state  *pb.AgentToServer
}

var (
	mutex   sync.Mutex
	records = map[string]*record{}
)

func full(m *pb.AgentToServer) bool {
	c := m.Capabilities
	return m.AgentDescription != nil && (c&0x800 == 0 || m.Health != nil) && (c&4 == 0 || m.EffectiveConfig != nil) &&
		(c&0x1000 == 0 || m.RemoteConfigStatus != nil) && (c&0x10 == 0 || m.PackageStatuses != nil)
}

func handle(body []byte) ([]byte, error) {
	m := &pb.AgentToServer{}
	if err := proto.Unmarshal(body, m); err != nil {
		return nil, err
	}
	reply := &pb.ServerToAgent{InstanceUid: m.InstanceUid, Capabilities: 63}
	mutex.Lock()
	r := records[string(m.InstanceUid)]
	switch {
	case full(m):
		records[string(m.InstanceUid)] = &record{m.SequenceNum, m}
	case r != nil && m.SequenceNum == r.number+1:
		r.number = m.SequenceNum
		proto.Merge(r.state, m)
	default:
		reply.Flags = 1
	}
	mutex.Unlock()
	return proto.Marshal(reply)
}

func main() {
	http.HandleFunc("/v1/opamp", func(w http.ResponseWriter, q *http.Request) {
		body, err := io.ReadAll(q.Body)
		if err != nil {
			return
		}
		reply, err := handle(body)
		if err != nil {
			http.Error(w, "bad", 400)
			return
		}
		w.Header().Set("Content-Type", "application/x-protobuf")
		w.Write(reply)
	})
	log.Fatal(http.ListenAndServe(os.Args[1], nil))
}
