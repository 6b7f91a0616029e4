// The peer of bench/connections: the server of peer.go, which also takes WebSocket connections at /ws by gorilla/websocket. Each has a goroutine, as one
// writes it. bench/connections builds it together with peer.go.
package main

import (
	"net/http"

	"github.com/gorilla/websocket"
)

var upgrader = websocket.Upgrader{ReadBufferSize: 1024, WriteBufferSize: 1024, WriteBufferPool: nil}

// A message of OpAMP has a header of one byte before it.
func serve(connection *websocket.Conn) {
	defer connection.Close()
	for {
		kind, message, err := connection.ReadMessage()
		if err != nil || kind != websocket.BinaryMessage || len(message) == 0 {
			return
		}
		reply, err := handle(message[1:])
		if err != nil {
			return
		}
		if err := connection.WriteMessage(websocket.BinaryMessage, append([]byte{0}, reply...)); err != nil {
			return
		}
	}
}

func init() {
	http.HandleFunc("/ws", func(w http.ResponseWriter, q *http.Request) {
		connection, err := upgrader.Upgrade(w, q, nil)
		if err == nil {
			serve(connection)
		}
	})
}
