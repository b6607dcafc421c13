// The functions of ../stun_bench.h by pion/stun (Debian: golang-github-pion-stun-dev), as an archive for C. A
// message is decoded into one that is used again, as its own benchmarks do. A call from C costs more than some of
// this work, so the loops are here. A password is its own short-term key.
//
// GO111MODULE=off GOPATH=/usr/share/gocode go build -buildmode=c-archive -o pion.a pion.go
package main

// #include <stddef.h>
// #include <stdint.h>
import "C"

import (
	"bytes"
	"encoding/binary"
	"math"
	"unsafe"

	"github.com/pion/stun"
)

var id = [stun.TransactionIDSize]byte{1, 2, 3, 4, 5, 6, 7, 8, 9, 10, 11, 12}

func octets(start *C.uint8_t, length C.size_t) []byte {
	return C.GoBytes(unsafe.Pointer(start), C.int(length))
}

// decode decodes a message, and checks its FINGERPRINT.
func decode(received []byte, message *stun.Message) error {
	if err := stun.Decode(received, message); err != nil {
		return err
	}
	return stun.Fingerprint.Check(message)
}

//export stun_bench_parses
func stun_bench_parses(start *C.uint8_t, length C.size_t, rounds C.uint64_t) C.uint64_t {
	received, message, sum := octets(start, length), new(stun.Message), uint64(0)
	for ; rounds > 0; rounds-- {
		if decode(received, message) == nil {
			sum += 1<<40 | uint64(binary.BigEndian.Uint32(message.Raw))
		}
	}
	return C.uint64_t(sum)
}

// offset returns that of the first attribute of a type, or 0.
func offset(message *stun.Message, wanted stun.AttrType) uint64 {
	at := 20
	for _, it := range message.Attributes {
		if it.Type == wanted {
			return uint64(at)
		}
		at += 4 + (len(it.Value)+3)/4*4
	}
	return 0
}

//export stun_bench_receive
func stun_bench_receive(start *C.uint8_t, length C.size_t, password *C.uint8_t, passwordLength C.size_t,
	rounds C.uint64_t) C.uint64_t {
	received, message, sum := octets(start, length), new(stun.Message), uint64(0)
	key := stun.NewShortTermIntegrity(string(octets(password, passwordLength)))
	for ; rounds > 0; rounds-- {
		if decode(received, message) != nil {
			sum += 4
			continue
		}
		if key.Check(message) == nil {
			sum++
		} else {
			sum += 3
		}
		sum += offset(message, stun.AttrUsername)<<8 + offset(message, stun.AttrPriority)<<24
	}
	return C.uint64_t(sum)
}

//export stun_bench_write_slice
func stun_bench_write_slice(user *C.uint8_t, userLength C.size_t, password *C.uint8_t, passwordLength C.size_t,
	algorithm C.uint32_t, destination *C.uint8_t, destinationLength C.size_t, rounds C.uint64_t) C.uint64_t {
	if algorithm != 1 {
		return math.MaxUint64
	}
	message, sum := new(stun.Message), uint64(0)
	parts := []stun.Setter{
		stun.BindingRequest,
		stun.NewTransactionIDSetter(id),
		stun.NewUsername(string(octets(user, userLength))),
		stun.RawAttribute{Type: stun.AttrPriority, Value: []byte{0x6e, 0, 1, 0xff}},
		stun.RawAttribute{Type: stun.AttrICEControlled, Value: []byte{0x93, 0x2f, 0xf9, 0xb1, 0x51, 0x26, 0x3b, 0x36}},
		stun.NewShortTermIntegrity(string(octets(password, passwordLength))),
		stun.Fingerprint,
	}
	for ; rounds > 0; rounds-- {
		if message.Build(parts...) != nil || len(message.Raw) > int(destinationLength) {
			return math.MaxUint64
		}
		last := binary.BigEndian.Uint32(message.Raw[len(message.Raw)-4:])
		sum += uint64(len(message.Raw))<<32 | uint64(last)
	}
	copy(unsafe.Slice((*byte)(unsafe.Pointer(destination)), int(destinationLength)), message.Raw)
	return C.uint64_t(sum)
}

//export stun_bench_long_keys
func stun_bench_long_keys(user *C.uint8_t, userLength C.size_t, realm *C.uint8_t, realmLength C.size_t,
	password *C.uint8_t, passwordLength C.size_t, algorithm C.uint32_t, rounds C.uint64_t) C.uint64_t {
	if algorithm != 1 {
		return math.MaxUint64
	}
	name, realmName := string(octets(user, userLength)), string(octets(realm, realmLength))
	word, sum := string(octets(password, passwordLength)), uint64(0)
	for ; rounds > 0; rounds-- {
		one := stun.NewLongTermIntegrity(name, realmName, word)
		if bytes.Equal(one, stun.NewLongTermIntegrity(name, realmName, word)) {
			sum++
		}
	}
	return C.uint64_t(sum)
}

func main() {}
