// Connects two ICE agents in this process, over sockets of the loopback, and passes data each way, as
// ice_connect.c does.
//
//	go build ice_connect.go stun_types.go && ./ice_connect [SECONDS [PASSWORD]]
package main

// #include <stdlib.h>
// #include <stun_types.h>
import "C"

import (
	"encoding/hex"
	"fmt"
	"log"
	"net"
	"net/netip"
	"os"
	"strconv"
	"strings"
	"sync"
	"time"
	"unsafe"
)

const (
	base      = 0
	component = 1
	room      = 1500
	// The priorities of a host candidate, and of a peer-reflexive one of the same base (RFC 8445, section 5.1.2.1).
	hostPriority      = 126<<24 + 65535<<8 + 256 - component
	reflexivePriority = 110<<24 + 65535<<8 + 256 - component
)

// An agent with one socket: its only base, and its only candidate. One goroutine at a time uses it.
type agent struct {
	name, ufrag, password, received string
	ice                             C.stun_types_ice
	socket                          *net.UDPConn
	own                             netip.AddrPort
	wake                            C.uint64_t
	hasFailed                       bool
}

func newAgent(name string, role C.stun_types_ice_role) *agent {
	socket, err := net.ListenUDP("udp4", &net.UDPAddr{IP: net.IPv4(127, 0, 0, 1)})
	if err != nil {
		log.Fatal(err)
	}
	a := &agent{name: name, ufrag: hex.EncodeToString(random(4)), password: hex.EncodeToString(random(16)),
		socket: socket, own: socket.LocalAddr().(*net.UDPAddr).AddrPort()}
	ufrag, password := C.CString(a.ufrag), C.CString(a.password)
	defer C.free(unsafe.Pointer(ufrag))
	defer C.free(unsafe.Pointer(password))
	settings := C.stun_types_ice_settings{
		ufrag: unsafe.Pointer(ufrag), ufrag_length: C.size_t(len(a.ufrag)),
		password: unsafe.Pointer(password), password_length: C.size_t(len(a.password)),
		tiebreaker: randomNumber(), role: role, tries: 3 /* to fail sooner */}
	own := addressOf(a.own)
	ours := C.stun_types_ice_base{number: base, foundation: 1, priority: hostPriority,
		reflexive_priority: reflexivePriority, component: component, family: own.family}
	check(C.stun_types_ice_new(&a.ice, &settings))
	check(C.stun_types_ice_add_base(&a.ice, now(), &ours))
	check(C.stun_types_ice_add_address(&a.ice, &own))
	return a
}

// description has the lines that the other agent needs.
func (a *agent) description() []string {
	candidate := C.stun_types_ice_candidate{foundation_length: 1, component: component, priority: hostPriority,
		address: addressOf(a.own), transport: C.STUN_TYPES_UDP, kind: C.STUN_TYPES_ICE_HOST}
	candidate.foundation[0] = '1'
	line, length := make([]byte, 200), C.size_t(0)
	check(C.stun_types_ice_candidate_write(&candidate, (*C.char)(unsafe.Pointer(&line[0])), C.size_t(len(line)), &length))
	return []string{"a=ice-ufrag:" + a.ufrag, "a=ice-pwd:" + a.password, "a=" + string(line[:length]),
		"a=end-of-candidates"}
}

// take takes the other agent's description, with another password if there is one.
func (a *agent) take(description []string, otherPassword string) {
	var ufrag, password []byte
	for _, line := range description {
		name, value, _ := strings.Cut(line, ":")
		switch name {
		case "a=ice-ufrag":
			ufrag = []byte(value)
		case "a=ice-pwd":
			password = []byte(value)
		case "a=candidate":
			a.takeCandidate([]byte(line))
		}
	}
	if otherPassword != "" {
		password = []byte(otherPassword)
	}
	check(C.stun_types_ice_set_peer(&a.ice, now(), unsafe.Pointer(&ufrag[0]), C.size_t(len(ufrag)),
		unsafe.Pointer(&password[0]), C.size_t(len(password))))
	check(C.stun_types_ice_end_candidates(&a.ice, now()))
}

func (a *agent) takeCandidate(line []byte) {
	var read C.stun_types_ice_candidate
	check(C.stun_types_ice_candidate_read(unsafe.Pointer(&line[0]), C.size_t(len(line)), &read))
	if read.transport != C.STUN_TYPES_UDP || read.address.family != 4 {
		return
	}
	// (Number the foundations of several candidates: equal ones have the same number.)
	remote := C.stun_types_ice_remote{address: read.address, foundation: 1, priority: read.priority,
		component: read.component}
	check(C.stun_types_ice_add_remote(&a.ice, now(), &remote))
}

// run keeps the connection until a moment, or until the agent has failed.
func (a *agent) run(end time.Time) {
	datagram := make([]byte, room)
	for {
		a.turn()
		if a.hasFailed || time.Now().After(end) {
			return
		}
		a.socket.SetReadDeadline(earlier(a.wake, end))
		if length, source, err := a.socket.ReadFromUDPAddrPort(datagram); err == nil {
			a.receive(datagram, length, source)
		} else if !os.IsTimeout(err) {
			log.Fatal(err)
		}
	}
}

// receive takes a datagram: a check, a response or data.
func (a *agent) receive(datagram []byte, length int, source netip.AddrPort) {
	from, out := addressOf(source), make([]byte, room)
	var received C.stun_types_ice_received
	check(C.stun_types_ice_datagram(&a.ice, now(), base, &from, data(datagram), C.size_t(length), randomNumber(),
		data(out), room, &received))
	switch received.kind {
	case C.STUN_TYPES_ICE_RESPONSE:
		a.socket.WriteToUDPAddrPort(out[:received.length], source)
	case C.STUN_TYPES_ICE_DATA:
		a.received = string(datagram[:length])
		fmt.Println(a.name, "received", a.received)
	}
}

// turn sends the checks that are due, and acts on what has changed.
func (a *agent) turn() {
	var request C.stun_types_ice_request
	var change C.stun_types_ice_change
	for out := make([]byte, room); ; {
		id := newID()
		check(C.stun_types_ice_poll(&a.ice, now(), &id, data(out), room, &request, &a.wake))
		if request.length == 0 {
			break
		}
		a.socket.WriteToUDPAddrPort(out[:request.length], addrPort(request.to))
	}
	for C.stun_types_ice_changes(&a.ice, &change) {
		if change.kind == C.STUN_TYPES_ICE_PROGRESS {
			a.takeProgress(&change)
		}
	}
}

func (a *agent) takeProgress(change *C.stun_types_ice_change) {
	switch change.progress {
	case C.STUN_TYPES_ICE_FAILED:
		a.hasFailed = true
		fmt.Println(a.name, "failed")
	case C.STUN_TYPES_ICE_CONNECTED:
		fmt.Println(a.name, "connected", a.own, "to", addrPort(change.address))
		a.send("data of " + a.name)
	}
}

func (a *agent) send(text string) {
	var path C.stun_types_ice_path
	if C.stun_types_ice_route(&a.ice, now(), component, &path) {
		a.socket.WriteToUDPAddrPort([]byte(text), addrPort(path.to))
	}
}

// close prints the role, and how long the peer's consent lasts, and frees the agent.
func (a *agent) close() {
	var standing C.stun_types_ice_standing
	var pair C.stun_types_ice_checked
	if C.stun_types_ice_status(&a.ice, component, &standing) && C.stun_types_ice_pair(&a.ice, 0, &pair) &&
		pair.nominated != 0 {
		role := map[C.stun_types_ice_role]string{C.STUN_TYPES_ICE_CONTROLLING: "controlling",
			C.STUN_TYPES_ICE_CONTROLLED: "controlled"}[standing.role]
		fmt.Printf("%s is %s, and may send for %d s\n", a.name, role, (pair.until-now())/1e9)
	}
	C.stun_types_ice_free(&a.ice)
	a.socket.Close()
}

func main() {
	seconds, password := 7, ""
	if len(os.Args) > 1 {
		seconds, _ = strconv.Atoi(os.Args[1])
	}
	if len(os.Args) > 2 {
		password = os.Args[2]
	}
	left, right := newAgent("left", C.STUN_TYPES_ICE_CONTROLLING), newAgent("right", C.STUN_TYPES_ICE_CONTROLLED)
	left.take(right.description(), password)
	right.take(left.description(), password)
	end := time.Now().Add(time.Duration(seconds) * time.Second)
	var running sync.WaitGroup
	for _, each := range []*agent{left, right} {
		running.Add(1)
		go func(a *agent) {
			defer running.Done()
			a.run(end)
		}(each)
	}
	running.Wait()
	left.close()
	right.close()
	if left.received != "data of right" || right.received != "data of left" {
		os.Exit(1)
	}
}
