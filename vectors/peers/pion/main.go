// Answers the calls of vectors/README.md by github.com/pion/stun, as Debian packages it
// (golang-github-pion-stun-dev): a call in each line of standard input, and its answer in a line of
// standard output.
//
// GO111MODULE=off GOPATH=/usr/share/gocode go build -o pion main.go
package main

import (
	"bufio"
	"encoding/binary"
	"encoding/hex"
	"errors"
	"fmt"
	"net"
	"os"
	"strconv"
	"strings"

	"github.com/pion/stun"
)

var errUnknown = errors.New("?")

var classes = map[stun.MessageClass]string{
	stun.ClassRequest:         "request",
	stun.ClassIndication:      "indication",
	stun.ClassSuccessResponse: "success",
	stun.ClassErrorResponse:   "error",
}

// octets returns the octets of a word.
func octets(word string) []byte {
	if word == "-" {
		return []byte{}
	}
	value, err := hex.DecodeString(word)
	if err != nil {
		panic(errUnknown)
	}
	return value
}

// digits returns the word of octets.
func digits(value []byte) string {
	if len(value) == 0 {
		return "-"
	}
	return hex.EncodeToString(value)
}

func number(word string, base int) uint16 {
	value, err := strconv.ParseUint(word, base, 16)
	if err != nil {
		panic(errUnknown)
	}
	return uint16(value)
}

func attrType(word string) stun.AttrType { return stun.AttrType(number(word, 16)) }

// decodeAny returns the message that octets are, whatever its FINGERPRINT is.
func decodeAny(value []byte) (*stun.Message, error) {
	message := new(stun.Message)
	err := stun.Decode(value, message)
	return message, err
}

// decode returns the message that octets are, with a FINGERPRINT that is right if it has one.
func decode(value []byte) (*stun.Message, error) {
	message, err := decodeAny(value)
	if err != nil {
		return nil, err
	}
	if message.Contains(stun.AttrFingerprint) {
		if err := stun.Fingerprint.Check(message); err != nil {
			return nil, err
		}
	}
	return message, nil
}

func parse(value []byte) (string, error) {
	message, err := decode(value)
	if err != nil {
		return "", err
	}
	class, method := classes[message.Type.Class], uint16(message.Type.Method)
	id := hex.EncodeToString(message.TransactionID[:])
	return fmt.Sprintf("%s %03x %s %d", class, method, id, message.Length), nil
}

// show returns a word for each attribute, with its value or without it.
func show(value []byte, word func(at int, attribute stun.RawAttribute) string) (string, error) {
	message, err := decodeAny(value)
	if err != nil {
		return "", err
	}
	words, at := []string{}, 20
	for _, attribute := range message.Attributes {
		words = append(words, word(at, attribute))
		at += 4 + (len(attribute.Value)+3)/4*4
	}
	if len(words) == 0 {
		return "-", nil
	}
	return strings.Join(words, " "), nil
}

func find(words []string) (string, error) {
	wanted, left := attrType(words[0]), number(words[1], 10)
	message, err := decodeAny(octets(words[2]))
	if err != nil {
		return "", err
	}
	at := 20
	for _, attribute := range message.Attributes {
		if attribute.Type == wanted {
			if left == 0 {
				return fmt.Sprintf("%d %s", at, digits(attribute.Value)), nil
			}
			left--
		}
		at += 4 + (len(attribute.Value)+3)/4*4
	}
	return "none", nil
}

func messageType(word string) (string, error) {
	value := octets(word)
	if len(value) < 2 || value[0] > 0x3f {
		return "", errors.New("no message type")
	}
	var t stun.MessageType
	t.ReadValue(binary.BigEndian.Uint16(value))
	return fmt.Sprintf("%s %03x", classes[t.Class], uint16(t.Method)), nil
}

func makeType(words []string) (string, error) {
	for class, name := range classes {
		if name == words[0] {
			t := stun.NewType(stun.Method(number(words[1], 16)), class)
			return fmt.Sprintf("%04x", t.Value()), nil
		}
	}
	return "", errUnknown
}

func validate(key stun.MessageIntegrity, value []byte) (string, error) {
	message, err := decode(value)
	if err != nil {
		return "", err
	}
	if err := key.Check(message); err != nil {
		return "", err
	}
	return "sha1", nil
}

func text(word string) string { return string(octets(word)) }

// holder returns a message of an ID with one attribute.
func holder(t stun.AttrType, value []byte, words []string) *stun.Message {
	message := stun.New()
	if len(words) > 0 {
		// (an ID may have no leading zeros)
		id := octets(strings.Repeat("0", 24-len(words[0])) + words[0])
		copy(message.TransactionID[:], id)
	}
	message.WriteHeader()
	if value != nil {
		message.Add(t, value)
	}
	return message
}

func addressWords(ip net.IP, port int) string {
	if four := ip.To4(); four != nil {
		ip = four
	}
	return fmt.Sprintf("%s %d", digits(ip), port)
}

func isText(t stun.AttrType) bool {
	return t == stun.AttrUsername || t == stun.AttrRealm || t == stun.AttrNonce || t == stun.AttrSoftware
}

// read returns what the value of an attribute means.
func read(words []string) (string, error) {
	t := attrType(words[0])
	message := holder(t, octets(words[1]), words[2:])
	switch {
	case t == stun.AttrMappedAddress || t == stun.AttrAlternateServer || t == 0x802b || t == 0x802c:
		var address stun.MappedAddress
		err := address.GetFromAs(message, t)
		return addressWords(address.IP, address.Port), err
	case t == stun.AttrXORMappedAddress || t == 0x0012 || t == 0x0016:
		var address stun.XORMappedAddress
		err := address.GetFromAs(message, t)
		return addressWords(address.IP, address.Port), err
	case isText(t):
		var value stun.TextAttribute
		err := value.GetFromAs(message, t)
		return digits(value), err
	case t == stun.AttrErrorCode:
		var code stun.ErrorCodeAttribute
		err := code.GetFrom(message)
		return fmt.Sprintf("%d %s", code.Code, digits(code.Reason)), err
	case t == stun.AttrUnknownAttributes:
		var types stun.UnknownAttributes
		err := types.GetFrom(message)
		numbers := []string{}
		for _, one := range types {
			numbers = append(numbers, fmt.Sprintf("%04x", uint16(one)))
		}
		if len(numbers) == 0 {
			return "-", err
		}
		return strings.Join(numbers, ","), err
	}
	return "", errUnknown
}

// makeValue returns the value of an attribute that has a meaning.
func makeValue(words []string) (string, error) {
	t := attrType(words[0])
	var err error
	var message *stun.Message
	switch {
	case t == stun.AttrMappedAddress || t == stun.AttrAlternateServer || t == 0x802b || t == 0x802c:
		message = holder(t, nil, nil)
		address := stun.MappedAddress{IP: octets(words[1]), Port: int(number(words[2], 10))}
		err = address.AddToAs(message, t)
	case t == stun.AttrXORMappedAddress || t == 0x0012 || t == 0x0016:
		message = holder(t, nil, words[3:])
		address := stun.XORMappedAddress{IP: octets(words[1]), Port: int(number(words[2], 10))}
		err = address.AddToAs(message, t)
	case isText(t):
		limits := map[stun.AttrType]int{stun.AttrUsername: 513, stun.AttrRealm: 763, stun.AttrNonce: 763, stun.AttrSoftware: 763}
		message = holder(t, nil, nil)
		err = stun.TextAttribute(octets(words[1])).AddToAs(message, t, limits[t])
	case t == stun.AttrErrorCode && len(words) == 3:
		message = holder(t, nil, nil)
		code := stun.ErrorCodeAttribute{Code: stun.ErrorCode(number(words[1], 10)), Reason: octets(words[2])}
		err = code.AddTo(message)
	case t == stun.AttrUnknownAttributes && words[1] != "-":
		message = holder(t, nil, nil)
		types := stun.UnknownAttributes{}
		for _, word := range strings.Split(words[1], ",") {
			types = append(types, attrType(word))
		}
		err = types.AddTo(message)
	default:
		return "", errUnknown
	}
	if err != nil {
		return "", err
	}
	value, err := message.Get(t)
	return digits(value), err
}

// write returns the message that is written step by step.
func write(words []string) (string, error) {
	start := strings.Split(words[1], ":")
	if words[0] != "any" || len(start) != 3 {
		return "", errUnknown
	}
	message := stun.New()
	for class, name := range classes {
		if name == start[0] {
			message.Type = stun.NewType(stun.Method(number(start[1], 16)), class)
		}
	}
	copy(message.TransactionID[:], octets(start[2]))
	message.WriteHeader()
	answers := []string{}
	for _, step := range words[2:] {
		parts, err := strings.Split(step, ":"), error(nil)
		switch {
		case step == "fingerprint":
			err = stun.Fingerprint.AddTo(message)
		case len(parts) == 4 && parts[0] == "sign" && parts[1] == "sha1" && parts[2] == "short":
			err = stun.NewShortTermIntegrity(text(parts[3])).AddTo(message)
		case len(parts) == 6 && parts[0] == "sign" && parts[1] == "sha1" && parts[2] == "long":
			err = stun.NewLongTermIntegrity(text(parts[3]), text(parts[4]), text(parts[5])).AddTo(message)
		case len(parts) == 3 && parts[0] == "key" && parts[1] == "sha1":
			err = stun.MessageIntegrity(octets(parts[2])).AddTo(message)
		case len(parts) == 2:
			err = stun.RawAttribute{Type: attrType(parts[0]), Value: octets(parts[1])}.AddTo(message)
		default:
			return "", errUnknown
		}
		if err != nil {
			answers = append(answers, "!")
		} else {
			answers = append(answers, "ok")
		}
	}
	if len(answers) == 0 {
		answers = []string{"-"}
	}
	return strings.Join(answers, ",") + " " + digits(message.Raw), nil
}

func answers(words []string) (string, error) {
	request, err := decode(octets(words[0]))
	if err != nil {
		return "", err
	}
	response, err := decode(octets(words[1]))
	if err != nil {
		return "", err
	}
	class := response.Type.Class
	isResponse := class == stun.ClassSuccessResponse || class == stun.ClassErrorResponse
	if isResponse && response.TransactionID == request.TransactionID && response.Type.Method == request.Type.Method {
		return "yes", nil
	}
	return "no", nil
}

func answer(verb string, words []string) (string, error) {
	switch verb {
	case "parse":
		return parse(octets(words[0]))
	case "type":
		return messageType(words[0])
	case "make-type":
		return makeType(words)
	case "show":
		return show(octets(words[0]), func(at int, it stun.RawAttribute) string {
			return fmt.Sprintf("%d:%04x:%s", at, uint16(it.Type), digits(it.Value))
		})
	case "list":
		return show(octets(words[0]), func(at int, it stun.RawAttribute) string {
			return fmt.Sprintf("%d:%04x", at, uint16(it.Type))
		})
	case "find":
		return find(words)
	case "comprehension":
		if attrType(words[0]).Required() {
			return "required", nil
		}
		return "optional", nil
	case "password":
		return validate(stun.NewShortTermIntegrity(text(words[0])), octets(words[1]))
	case "login":
		key := stun.NewLongTermIntegrity(text(words[0]), text(words[1]), text(words[2]))
		return validate(key, octets(words[3]))
	case "key":
		if words[0] == "sha1" {
			return validate(stun.MessageIntegrity(octets(words[1])), octets(words[2]))
		}
	case "short-term-key":
		return digits(stun.NewShortTermIntegrity(text(words[0]))), nil
	case "long-term-key":
		if words[0] == "sha1" {
			return digits(stun.NewLongTermIntegrity(text(words[1]), text(words[2]), text(words[3]))), nil
		}
	case "crc32":
		return fmt.Sprintf("%08x", stun.FingerprintValue(octets(words[0]))^0x5354554e), nil
	case "read":
		return read(words)
	case "make":
		return makeValue(words)
	case "write":
		return write(words)
	case "answers":
		return answers(words)
	}
	return "", errUnknown
}

// answerTo returns the line that answers a call.
func answerTo(call string) (line string) {
	defer func() {
		if why := recover(); why != nil {
			line = "?"
			if why != errUnknown {
				line = fmt.Sprintf("!! panic: %v", why)
			}
		}
	}()
	words := strings.Fields(call)
	line, err := answer(words[0], words[1:])
	if err == errUnknown {
		return "?"
	}
	if err != nil {
		return "!" + strings.ReplaceAll(err.Error(), "\n", " ")
	}
	return line
}

func main() {
	in := bufio.NewScanner(os.Stdin)
	in.Buffer(nil, 1<<21)
	out := bufio.NewWriter(os.Stdout)
	defer out.Flush()
	for in.Scan() {
		fmt.Fprintln(out, answerTo(in.Text()))
	}
}
