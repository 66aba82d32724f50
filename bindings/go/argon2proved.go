// Package argon2proved hashes passwords by Argon2, under a secret key ("pepper") and within a bound.
//
// A stored hash is a PHC string such as $argon2id$v=19$m=19456,t=2,p=1$SALT$TAG. Each argument text is a stored hash. An empty
// password is hashed and verified like any other. The package calls the functions of argon2_phc.h by cgo, and pkg-config finds
// their library under the name libargon2-proved.
package argon2proved

/*
#cgo pkg-config: libargon2-proved
#include <argon2_phc.h>

// Go may pass C a structure that points to Go's memory only as a copy. So these functions get copies.

typedef struct bytes {
	const uint8_t *start;
	size_t length;
} bytes;

static argon2p_params default_params(void)
{
	argon2p_params params = ARGON2P_PARAMS_INIT;
	return params;
}

static argon2p_verifier default_verifier(void)
{
	argon2p_verifier verifier = ARGON2P_VERIFIER_INIT;
	return verifier;
}

static int hash(argon2p_params params, bytes password, char *text)
{
	return argon2p_hash(&params, password.start, password.length, NULL, 0, text, ARGON2P_TEXT_SIZE);
}

static int verify(argon2p_verifier verifier, bytes text, bytes password)
{
	return argon2p_verify(&verifier, (const char *)text.start, text.length, password.start, password.length, NULL);
}

static int log_in(argon2p_params wanted, argon2p_verifier verifier, bytes text, bytes password, char *fresh)
{
	int outcome;
	return argon2p_log_in(&wanted, &verifier, (const char *)text.start, text.length, password.start, password.length, fresh,
		ARGON2P_TEXT_SIZE, &outcome);
}
*/
import "C"

import "unsafe"

// Error is a code of argon2_phc.h. Compare codes that have no name in this package by their number, such as Error(-14).
type Error int

const (
	ErrOutOfMemory      = Error(C.ARGON2P_OUT_OF_MEMORY)       // the system has no memory for a hash
	ErrMismatch         = Error(C.ARGON2P_MISMATCH)            // a stored hash does not accept a password
	ErrWantedOutOfBound = Error(C.ARGON2P_WANTED_OUT_OF_BOUND) // new hashes would be outside the bound
	ErrTextInvalid      = Error(C.ARGON2P_TEXT_INVALID)        // a stored hash is no PHC string
	ErrAboveBound       = Error(C.ARGON2P_ABOVE_BOUND)         // a stored hash asks for more than the bound
	ErrOutputOutOfBound = Error(C.ARGON2P_OUTPUT_OUT_OF_BOUND) // the tag of a stored hash is shorter or longer than the bound allows
)

func (e Error) Error() string {
	return "argon2: " + C.GoString(C.argon2p_error_message(C.int(e)))
}

// Bound is the most that verifying a stored hash may cost, and the lengths of its tag. A field that is 0 means its default.
type Bound struct {
	Memory     uint32 // KiB, by default 2097152
	Passes     uint32 // by default 64
	Lanes      uint32 // by default 64
	MinHashLen uint32 // bytes, by default 16
	MaxHashLen uint32 // bytes, by default 64
}

// Options are what new hashes cost and contain, and which stored hashes are accepted. A number that is 0 means its default.
type Options struct {
	Memory    uint32 // KiB, by default 19456
	Passes    uint32 // by default 2
	Lanes     uint32 // by default 1
	HashLen   uint32 // bytes of the tag of a new hash, by default 32
	Secret    []byte // the secret key, which enters each tag, and is in no stored hash
	OldSecret []byte // is tried if Secret does not accept, unless it is nil; []byte{} accepts hashes without a secret
	KeyID     []byte // at most 8 bytes that new hashes show, to name the secret
	Data      []byte // at most 32 bytes that new hashes show, and that enter their tags
	Bound     Bound  // the bound on stored hashes that are verified; new hashes must be within it
}

// A Hasher makes and verifies stored hashes. Any number of goroutines may use one Hasher at the same time.
type Hasher struct {
	params   C.argon2p_params
	verifier C.argon2p_verifier
}

// New returns a Hasher, which contains copies of the bytes in the options, or why the options are not valid.
func New(options Options) (*Hasher, error) {
	h := &Hasher{C.default_params(), C.default_verifier()}
	set := func(field *C.uint32_t, option uint32) {
		if option != 0 {
			*field = C.uint32_t(option)
		}
	}
	set(&h.params.m_cost, options.Memory)
	set(&h.params.t_cost, options.Passes)
	set(&h.params.p_cost, options.Lanes)
	set(&h.verifier.m_cost, options.Bound.Memory)
	set(&h.verifier.t_cost, options.Bound.Passes)
	set(&h.verifier.p_cost, options.Bound.Lanes)
	set(&h.verifier.min_output, options.Bound.MinHashLen)
	set(&h.verifier.max_output, options.Bound.MaxHashLen)
	if options.HashLen != 0 {
		h.params.output_len, h.params.has_output_len = C.size_t(options.HashLen), 1
	}
	h.params.secret, h.params.secret_len = copied(options.Secret)
	h.params.data, h.params.data_len = copied(options.Data)
	h.params.keyid, h.params.keyid_len = copied(options.KeyID)
	h.verifier.secret, h.verifier.secret_len = h.params.secret, h.params.secret_len
	if options.OldSecret != nil {
		h.verifier.has_old_secret = 1
		h.verifier.old_secret, h.verifier.old_secret_len = copied(options.OldSecret)
	}
	// (a login looks for what is wrong with the options before it reads the stored hash, which here has no characters)
	if _, err := h.LogIn("", nil); err != ErrTextInvalid {
		return nil, err
	}
	return h, nil
}

// Hash returns the hash of a password, to be stored. The system draws its salt of 16 bytes.
func (h *Hasher) Hash(password []byte) (string, error) {
	var text [C.ARGON2P_TEXT_SIZE]C.char
	if code := C.hash(h.params, given(password), &text[0]); code != C.ARGON2P_OK {
		return "", Error(code)
	}
	return C.GoString(&text[0]), nil
}

// Verify returns nil if a stored hash accepts a password, ErrMismatch if it does not, or why the stored hash can't be verified.
func (h *Hasher) Verify(text string, password []byte) error {
	if code := C.verify(h.verifier, given([]byte(text)), given(password)); code != C.ARGON2P_OK {
		return Error(code)
	}
	return nil
}

// LogIn verifies a password, and returns the hash to store from now on. This is a new hash if only the old secret accepted the
// password, or if the stored hash is weaker than new hashes: it has another algorithm, version, KeyID or Data, a lower cost, or a
// shorter tag. Otherwise the stored hash stays. It also stays if the system refuses memory or random bytes for a new hash. Then
// the next login tries again. The errors are the errors of Verify.
func (h *Hasher) LogIn(text string, password []byte) (string, error) {
	var fresh [C.ARGON2P_TEXT_SIZE]C.char
	if code := C.log_in(h.params, h.verifier, given([]byte(text)), given(password), &fresh[0]); code != C.ARGON2P_OK {
		return "", Error(code)
	}
	if fresh[0] == 0 {
		return text, nil
	}
	return C.GoString(&fresh[0]), nil
}

// given returns some bytes as C gets them for a call.
func given(bytes []byte) C.bytes {
	if len(bytes) == 0 {
		return C.bytes{}
	}
	return C.bytes{(*C.uint8_t)(&bytes[0]), C.size_t(len(bytes))}
}

// copied returns the address of a copy of some bytes, and their number.
func copied(bytes []byte) (unsafe.Pointer, C.size_t) {
	it := given(append([]byte(nil), bytes...))
	return unsafe.Pointer(it.start), it.length
}
