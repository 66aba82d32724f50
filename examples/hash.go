// Hashes a password and verifies it.
package main

// #cgo pkg-config: libargon2-proved
// #include <argon2.h>
// #include <stdlib.h>
import "C"

import (
	"crypto/rand"
	"errors"
	"fmt"
	"unsafe"
)

// start returns the address of the first byte, or nil if there are no bytes.
func start(of []byte) unsafe.Pointer {
	if len(of) == 0 {
		return nil
	}
	return unsafe.Pointer(&of[0])
}

// hash returns the hash of a password, to be stored, or why there is none.
func hash(password []byte) (string, error) {
	salt := make([]byte, 16)
	if _, err := rand.Read(salt); err != nil {
		return "", err
	}
	encoded := make([]byte, 128)
	code := C.argon2id_hash_encoded(2, 19456, 1, start(password), C.size_t(len(password)),
		unsafe.Pointer(&salt[0]), C.size_t(len(salt)), 32, (*C.char)(unsafe.Pointer(&encoded[0])), C.size_t(len(encoded)))
	if code != C.ARGON2_OK {
		return "", errors.New(C.GoString(C.argon2_error_message(code)))
	}
	return C.GoString((*C.char)(unsafe.Pointer(&encoded[0]))), nil
}

// accepts returns whether a stored hash accepts a password, or why the hash can't be verified.
func accepts(stored string, password []byte) (bool, error) {
	encoded := C.CString(stored)
	defer C.free(unsafe.Pointer(encoded))
	code := C.argon2id_verify(encoded, start(password), C.size_t(len(password)))
	if code != C.ARGON2_OK && code != C.ARGON2_VERIFY_MISMATCH {
		return false, errors.New(C.GoString(C.argon2_error_message(code)))
	}
	return code == C.ARGON2_OK, nil
}

func main() {
	stored, err := hash([]byte("correct horse"))
	if err != nil {
		panic(err)
	}
	fmt.Println(stored)
	right, err := accepts(stored, []byte("correct horse"))
	if err != nil {
		panic(err)
	}
	wrong, err := accepts(stored, []byte("wrong horse"))
	if err != nil {
		panic(err)
	}
	fmt.Println(right, wrong)
}
