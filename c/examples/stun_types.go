// What the examples in Go share: build it with each of them.
package main

// #cgo pkg-config: stun_types
// #include <stun_types.h>
import "C"

import (
	"crypto/rand"
	"encoding/binary"
	"log"
	"net/netip"
	"time"
	"unsafe"
)

func check(answer C.stun_types_answer) {
	if answer.code != C.STUN_TYPES_OK {
		log.Fatal(C.GoString(C.stun_types_status_text(C.uint32_t(answer.code))))
	}
}

// data is the address of the first of some bytes, of which there is at least one.
func data(bytes []byte) *C.uint8_t {
	return (*C.uint8_t)(unsafe.Pointer(&bytes[0]))
}

// addressOf is an address for the library.
func addressOf(from netip.AddrPort) C.stun_types_address {
	address := C.stun_types_address{port: C.uint16_t(from.Port()), family: 4}
	if !from.Addr().Unmap().Is4() {
		address.family = 6
	}
	for at, octet := range from.Addr().Unmap().AsSlice() {
		address.octets[at] = C.uint8_t(octet)
	}
	return address
}

// addrPort is an address of the library for a socket.
func addrPort(address C.stun_types_address) netip.AddrPort {
	octets := C.GoBytes(unsafe.Pointer(&address.octets), 16)
	if address.family == 4 {
		octets = octets[:4]
	}
	ip, _ := netip.AddrFromSlice(octets)
	return netip.AddrPortFrom(ip, uint16(address.port))
}

var start = time.Now()

// now is the moment for the calls of agents and clients.
func now() C.uint64_t {
	return C.uint64_t(time.Since(start))
}

// earlier is the earlier of two moments, the first of which is of the library, and the greatest number if
// it never comes.
func earlier(moment C.uint64_t, other time.Time) time.Time {
	if moment < C.uint64_t(other.Sub(start)) {
		return start.Add(time.Duration(moment))
	}
	return other
}

func random(length int) []byte {
	bytes := make([]byte, length)
	if _, err := rand.Read(bytes); err != nil {
		log.Fatal(err)
	}
	return bytes
}

func randomNumber() C.uint64_t {
	return C.uint64_t(binary.LittleEndian.Uint64(random(8)))
}

func newID() C.stun_types_id {
	return *(*C.stun_types_id)(unsafe.Pointer(data(random(12))))
}
