package main

import (
	"encoding/binary"
	"net"

	"yimakohe.example/pool/internal/frame"
)

// inbox holds the shares that have arrived and that no return has asked for yet.
type inbox struct {
	arrived chan []byte
	held    [][]byte
}

func newInbox() *inbox {
	return &inbox{arrived: make(chan []byte, 64)}
}

// serve takes shares from workshops until the listener is closed.
func (b *inbox) serve(listener net.Listener) {
	for {
		conn, err := listener.Accept()
		if err != nil {
			return
		}
		go b.take(conn)
	}
}

// take takes one share and says that it has it. What has no id is no share and is left.
func (b *inbox) take(conn net.Conn) {
	defer conn.Close()
	share, err := frame.Read(conn)
	if err != nil || len(share) < 5 {
		return
	}
	b.arrived <- share
	_ = frame.Write(conn, nil) // a workshop that does not listen has done its part
}

// hold keeps a share until its return is begun.
func (b *inbox) hold(share []byte) { b.held = append(b.held, share) }

// of gives the share of a return that is held, nil where there is none.
func (b *inbox) of(id uint32) []byte {
	for k, share := range b.held {
		if idOf(share) == id {
			b.held = append(b.held[:k], b.held[k+1:]...)
			return share
		}
	}
	return nil
}

// idOf reads the id of a share message: it stands after the kind byte.
func idOf(share []byte) uint32 {
	return binary.LittleEndian.Uint32(share[1:])
}
