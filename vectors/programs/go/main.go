// Answers the requests of vectors/programs/README.md by Go's golang.org/x/crypto.
package main

import (
	"bufio"
	"encoding/hex"
	"errors"
	"fmt"
	"io"
	"log"
	"os"
	"strconv"
	"strings"
	_ "unsafe" // for go:linkname

	_ "golang.org/x/crypto/argon2"
	"golang.org/x/crypto/blake2b"
)

// The package exports neither this function, which takes a secret, data and Argon2d, nor its hash of any length.
//
//go:linkname deriveKey golang.org/x/crypto/argon2.deriveKey
func deriveKey(mode int, password, salt, secret, data []byte, time, memory uint32, threads uint8, keyLen uint32) []byte

//go:linkname blake2bHash golang.org/x/crypto/argon2.blake2bHash
func blake2bHash(out, in []byte)

var modes = map[string]int{"argon2d": 0, "argon2i": 1, "argon2id": 2}

// reader turns the words of a request into values, and keeps the first error.
type reader struct{ err error }

func (r *reader) keep(err error) {
	if r.err == nil {
		r.err = err
	}
}

func (r *reader) bytes(word string) []byte {
	if word == "-" {
		return nil
	}
	bytes, err := hex.DecodeString(word)
	r.keep(err)
	return bytes
}

func (r *reader) number(word string, bits int) uint64 {
	number, err := strconv.ParseUint(word, 10, bits)
	r.keep(err)
	return number
}

var errUnknown = errors.New("unknown")

func answer(words []string) (out []byte, err error) {
	defer func() {
		if why := recover(); why != nil {
			err = fmt.Errorf("%v", why)
		}
	}()
	if words[0] == "hash" && words[3] != "19" {
		return nil, errUnknown
	}
	var r reader
	length := r.number(words[1], 32)
	switch words[0] {
	case "hash":
		memory, passes, lanes := r.number(words[4], 32), r.number(words[5], 32), r.number(words[6], 8)
		password, salt, secret, data := r.bytes(words[7]), r.bytes(words[8]), r.bytes(words[9]), r.bytes(words[10])
		if r.err == nil {
			out = deriveKey(modes[words[2]], password, salt, secret, data, uint32(passes), uint32(memory), uint8(lanes), uint32(length))
		}
		return out, r.err
	case "long":
		out = make([]byte, length)
		blake2bHash(out, r.bytes(words[2]))
		return out, r.err
	case "blake2b":
		digest, err := blake2b.New(int(length), nil)
		if err != nil {
			return nil, err
		}
		digest.Write(r.bytes(words[2]))
		return digest.Sum(nil), r.err
	}
	return nil, errUnknown
}

func main() {
	lines := bufio.NewReader(os.Stdin)
	for {
		line, err := lines.ReadString('\n')
		if err == io.EOF {
			return
		}
		if err != nil {
			log.Fatal(err)
		}
		switch out, err := answer(strings.Fields(line)); err {
		case nil:
			fmt.Println(hex.EncodeToString(out))
		case errUnknown:
			fmt.Println(err)
		default:
			fmt.Println("refused:", err)
		}
	}
}
