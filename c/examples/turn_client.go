// Gets a relayed address of a TURN server over UDP, and passes data to a peer and back by a channel, as
// turn_client.c does.
//
//	go build turn_client.go stun_types.go && ./turn_client ADDRESS PORT USER PASSWORD
package main

// #include <stdlib.h>
// #include <stun_types.h>
import "C"

import (
	"fmt"
	"log"
	"net"
	"net/netip"
	"os"
	"time"
	"unsafe"
)

const (
	head = C.STUN_TYPES_ALLOCATION_HEAD
	room = 3400
)

// A TURN client with its socket, and one peer. One goroutine uses it.
type client struct {
	allocation   C.stun_types_allocation
	server, peer netip.AddrPort
	socket       *net.UDPConn
	wake         C.uint64_t
	ended        C.stun_types_allocation_end // 0: it hasn't
}

// listen opens a socket at an address, at a port that the system chooses.
func listen(address netip.Addr) *net.UDPConn {
	socket, err := net.ListenUDP("udp", net.UDPAddrFromAddrPort(netip.AddrPortFrom(address, 0)))
	if err != nil {
		log.Fatal(err)
	}
	return socket
}

func newClient(server netip.AddrPort, user, password string, peer netip.AddrPort) *client {
	c := &client{server: server, peer: peer, socket: listen(server.Addr())}
	userText, passwordText := C.CString(user), C.CString(password)
	defer C.free(unsafe.Pointer(userText))
	defer C.free(unsafe.Pointer(passwordText))
	settings := C.stun_types_allocation_settings{server: addressOf(server), transport: C.STUN_TYPES_UDP,
		user: unsafe.Pointer(userText), user_length: C.size_t(len(user)),
		password: unsafe.Pointer(passwordText), password_length: C.size_t(len(password))}
	check(C.stun_types_allocation_new(&c.allocation, &settings))
	c.want(C.STUN_TYPES_ALLOCATION_ALLOCATE)
	c.want(C.STUN_TYPES_ALLOCATION_BIND)
	return c
}

func (c *client) want(wish C.stun_types_allocation_wish) {
	peer := addressOf(c.peer)
	check(C.stun_types_allocation_want(&c.allocation, now(), wish, &peer))
}

// run runs until the client has ended.
func (c *client) run() {
	datagram := make([]byte, room)
	for c.turn(); c.ended == 0; c.turn() {
		c.socket.SetReadDeadline(earlier(c.wake, time.Now().Add(time.Minute)))
		if length, source, err := c.socket.ReadFromUDPAddrPort(datagram); err == nil {
			c.receive(datagram, length, source)
		} else if !os.IsTimeout(err) {
			log.Fatal(err)
		}
	}
}

// receive takes a datagram: a response, or data of the peer, after which the client closes.
func (c *client) receive(datagram []byte, length int, source netip.AddrPort) {
	from, shown := addressOf(source), C.stun_types_allocation_data{}
	check(C.stun_types_allocation_datagram(&c.allocation, now(), &from, data(datagram), C.size_t(length), &shown))
	if shown.shown != 0 {
		fmt.Printf("client received %s from %v\n", datagram[shown.at:shown.at+shown.length], addrPort(shown.peer))
		c.want(C.STUN_TYPES_ALLOCATION_CLOSE)
	}
}

// turn sends the requests that are due, and acts on what has changed.
func (c *client) turn() {
	var length C.size_t
	var change C.stun_types_allocation_change
	for out := make([]byte, room); ; {
		id := newID()
		check(C.stun_types_allocation_poll(&c.allocation, now(), &id, data(out), room, &length, &c.wake))
		if length == 0 {
			break
		}
		c.socket.WriteToUDPAddrPort(out[:length], c.server)
	}
	for C.stun_types_allocation_changes(&c.allocation, &change) {
		c.takeChange(&change)
	}
}

func (c *client) takeChange(change *C.stun_types_allocation_change) {
	switch change.kind {
	case C.STUN_TYPES_ALLOCATION_ALLOCATED:
		fmt.Println("allocated", addrPort(change.relayed))
	case C.STUN_TYPES_ALLOCATION_BOUND:
		fmt.Printf("bound %v to channel %#x\n", addrPort(change.peer), change.channel)
		c.send([]byte("data of the client"))
	case C.STUN_TYPES_ALLOCATION_OVER:
		c.ended = change.why
		if c.ended == C.STUN_TYPES_ALLOCATION_CLOSED {
			fmt.Println("closed")
		} else {
			fmt.Println("failed, code", change.code)
		}
	}
}

// send sends data to the peer, if it may be sent.
func (c *client) send(text []byte) {
	peer, id, around := addressOf(c.peer), newID(), C.stun_types_allocation_head{}
	message := append(make([]byte, head), text...)
	check(C.stun_types_allocation_send(&c.allocation, now(), C.size_t(len(text)), &peer, &id, data(message), head,
		&around))
	if around.sends != 0 {
		message = append(message, make([]byte, around.padding)...)
		c.socket.WriteToUDPAddrPort(message[head-around.length:], c.server)
	}
}

// reply replies to the datagrams that come to the peer's socket: to the relayed address.
func reply(peer *net.UDPConn) {
	datagram := make([]byte, room)
	for {
		length, source, err := peer.ReadFromUDPAddrPort(datagram)
		if err != nil {
			return
		}
		fmt.Printf("peer received %s from %v\n", datagram[:length], source)
		peer.WriteToUDPAddrPort([]byte("data of the peer"), source)
	}
}

func main() {
	if len(os.Args) != 5 {
		log.Fatal("usage: turn_client ADDRESS PORT USER PASSWORD")
	}
	server, err := netip.ParseAddrPort(net.JoinHostPort(os.Args[1], os.Args[2]))
	if err != nil {
		log.Fatal(err)
	}
	peer := listen(server.Addr())
	go reply(peer)
	c := newClient(server, os.Args[3], os.Args[4], peer.LocalAddr().(*net.UDPAddr).AddrPort())
	c.run()
	C.stun_types_allocation_free(&c.allocation)
	if c.ended != C.STUN_TYPES_ALLOCATION_CLOSED {
		os.Exit(1)
	}
}
