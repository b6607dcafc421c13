// Reads the address in a response, and writes and validates a signed request, as messages.c does.
//
//	go build messages.go stun_types.go && ./messages
package main

// #include <stun_types.h>
import "C"

import (
	"encoding/hex"
	"fmt"
	"log"
	"net/netip"
	"os"
	"unsafe"
)

const response = "0101000c2112a442b7e7a701bc34d686fa87dfae002000080001a147e112a643"

func addressIn(message []byte) netip.AddrPort {
	var found C.stun_types_attribute
	var address C.stun_types_address
	length := C.size_t(len(message))
	check(C.stun_types_parse(data(message), length))
	if !C.stun_types_find(data(message), length, C.STUN_TYPES_ATTRIBUTE_XOR_MAPPED_ADDRESS, &found) {
		log.Fatal("the response reports no address")
	}
	check(C.stun_types_read_xor_address(data(message), length, &found, &address))
	return addrPort(address)
}

func signedRequest(user []byte, key *C.stun_types_key) []byte {
	bytes := make([]byte, 200)
	room, size, length := data(bytes), C.size_t(len(bytes)), C.size_t(0)
	// Yours is drawn at random.
	id := C.stun_types_id{bytes: [12]C.uint8_t{1, 2, 3, 4, 5, 6, 7, 8, 9, 10, 11, 12}}
	kind := C.stun_types_message_type(C.STUN_TYPES_CLASS_REQUEST, C.STUN_TYPES_METHOD_BINDING)
	check(C.stun_types_begin(room, size, kind, &id, &length))
	check(C.stun_types_add(room, size, &length, C.STUN_TYPES_ATTRIBUTE_USERNAME,
		unsafe.Pointer(&user[0]), C.size_t(len(user))))
	check(C.stun_types_add_integrity(room, size, &length, key, C.STUN_TYPES_INTEGRITY_SHA256))
	check(C.stun_types_add_fingerprint(room, size, &length))
	return bytes[:length]
}

// replyTo returns what a server without credentials replies to a datagram from 192.0.2.1:32853; no bytes
// if nothing.
func replyTo(datagram []byte) []byte {
	source := addressOf(netip.MustParseAddrPort("192.0.2.1:32853"))
	bytes := make([]byte, len(datagram)+48) // a reply is at most so much longer
	var length C.size_t
	check(C.stun_types_binding_reply(data(datagram), C.size_t(len(datagram)), &source, data(bytes),
		C.size_t(len(bytes)), &length))
	return bytes[:length]
}

func main() {
	message, _ := hex.DecodeString(response)
	fmt.Println(addressIn(message))
	var key C.stun_types_key
	password := []byte("wonderland")
	check(C.stun_types_key_short_term(&key, unsafe.Pointer(&password[0]), C.size_t(len(password))))
	defer C.stun_types_key_free(&key)
	request := signedRequest([]byte("alice"), &key)
	var both C.stun_types_policy
	var validated C.stun_types_validated
	length := C.size_t(len(request))
	check(C.stun_types_validate_by_policy(data(request), length, &both, &key, &validated))
	fmt.Println(hex.EncodeToString(request))
	if len(os.Args) > 1 {
		datagram, _ := hex.DecodeString(os.Args[1])
		fmt.Println(hex.EncodeToString(replyTo(datagram)))
	}
}
