// Makes and verifies PHC strings by golang.org/x/crypto/argon2, which makes only tags.
//
// The first line of standard input is a password. If there is no second line, this prints a hash of the password. A second line
// is a hash, and this prints whether the hash accepts the password.
package main

import (
	"bufio"
	"crypto/rand"
	"crypto/subtle"
	"encoding/base64"
	"fmt"
	"log"
	"os"
	"strings"

	"golang.org/x/crypto/argon2"
)

// The most that a stored hash may cost.
const maxMemory, maxPasses, maxLanes = 65536, 8, 4

// hash makes the PHC string of a password.
func hash(password []byte, memory, passes uint32, lanes uint8) (string, error) {
	salt := make([]byte, 16)
	if _, err := rand.Read(salt); err != nil {
		return "", err
	}
	tag := argon2.IDKey(password, salt, passes, memory, lanes, 32)
	encode := base64.RawStdEncoding.EncodeToString
	return fmt.Sprintf("$argon2id$v=19$m=%d,t=%d,p=%d$%s$%s", memory, passes, lanes, encode(salt), encode(tag)), nil
}

// verify reads the salt and the costs of a PHC string, makes the tag again, and compares it with the tag of the string.
func verify(stored string, password []byte) bool {
	parts := strings.Split(stored, "$")
	if len(parts) != 6 || parts[0] != "" || parts[1] != "argon2id" || parts[2] != "v=19" {
		return false
	}
	var memory, passes uint32
	var lanes uint8
	count, err := fmt.Sscanf(parts[3], "m=%d,t=%d,p=%d", &memory, &passes, &lanes)
	if err != nil || count != 3 || parts[3] != fmt.Sprintf("m=%d,t=%d,p=%d", memory, passes, lanes) {
		return false
	}
	if passes < 1 || lanes < 1 || memory > maxMemory || passes > maxPasses || lanes > maxLanes {
		return false
	}
	salt, errSalt := base64.RawStdEncoding.Strict().DecodeString(parts[4])
	tag, errTag := base64.RawStdEncoding.Strict().DecodeString(parts[5])
	if errSalt != nil || errTag != nil || len(tag) < 4 {
		return false
	}
	return subtle.ConstantTimeCompare(argon2.IDKey(password, salt, passes, memory, lanes, uint32(len(tag))), tag) == 1
}

func main() {
	input := bufio.NewScanner(os.Stdin)
	input.Scan()
	password := append([]byte(nil), input.Bytes()...)
	if input.Scan() {
		fmt.Println(verify(input.Text(), password))
		return
	}
	stored, err := hash(password, 19456, 2, 1)
	if err != nil {
		log.Fatal(err)
	}
	fmt.Println(stored)
}
