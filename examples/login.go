// Verifies a password by a hash that is stored under a secret key ("pepper"), within a bound, and renews the hash.
package main

import (
	"errors"
	"fmt"
	"log"

	"argon2proved"
)

// Each hash holds its memory while it runs, which is here at most 64 MiB. So at most four hashes run at once.
var slots = make(chan struct{}, 4)

// logIn returns the hash to store from now on, and whether the stored hash accepts a password. It logs why a stored hash can't be
// verified.
func logIn(hasher *argon2proved.Hasher, stored, password string) (string, bool) {
	slots <- struct{}{}
	defer func() { <-slots }()
	fresh, err := hasher.LogIn(stored, []byte(password))
	if err != nil && !errors.Is(err, argon2proved.ErrMismatch) {
		log.Print("a stored hash is not verified: ", err)
	}
	return fresh, err == nil
}

func main() {
	hasher, err := argon2proved.New(argon2proved.Options{
		// A service reads its secret from a file that is not with the hashes.
		Secret: []byte("the secret"),
		Bound:  argon2proved.Bound{Memory: 65536, Passes: 4, Lanes: 4},
	})
	if err != nil {
		log.Fatal(err)
	}
	stored, err := hasher.Hash([]byte("correct horse"))
	if err != nil {
		log.Fatal(err)
	}
	fmt.Println(stored)
	_, right := logIn(hasher, stored, "correct horse")
	_, wrong := logIn(hasher, stored, "wrong horse")
	fmt.Println(right, wrong)
}
