package argon2proved

import (
	"bytes"
	"encoding/base64"
	"encoding/hex"
	"encoding/json"
	"errors"
	"os"
	"regexp"
	"strings"
	"sync"
	"testing"
)

// A hash of "abc" that the reference made.
const ofABC = "$argon2id$v=19$m=8,t=1,p=1$c29tZXNhbHQ$LVJKYEkaeNsu5UCkG00QmN9KvYwrpueSxItaCk3nAjU"

// most is a bound on no stored hash.
var most = Bound{Memory: 1<<32 - 1, Passes: 1<<32 - 1, Lanes: 1<<32 - 1, MinHashLen: 4}

// made returns a Hasher with low costs, unless the options say otherwise.
func made(t *testing.T, options Options) *Hasher {
	t.Helper()
	if options.Memory == 0 {
		options.Memory = 64
	}
	if options.Passes == 0 {
		options.Passes = 1
	}
	h, err := New(options)
	if err != nil {
		t.Fatal(err)
	}
	return h
}

// text returns the hash of a password, and fails the test if there is none.
func text(t *testing.T, h *Hasher, password string) string {
	t.Helper()
	made, err := h.Hash([]byte(password))
	if err != nil {
		t.Fatal(err)
	}
	return made
}

// The tags of RFC 9106, sections 5.1 to 5.3, in stored hashes.
func TestStandard(t *testing.T) {
	tags := map[string]string{
		"argon2d":  "512b391b6f1162975371d30919734294f868e3be3984f3c1a13a4db9fabe4acb",
		"argon2i":  "c814d9d1dc7f37aa13f0d77f2494bda1c8de6b016dd388d29952a4c4672b6ce8",
		"argon2id": "0d640df58d78766c08c037a34a8b53c9d01ef0452d75b65eb52520e96b01e659",
	}
	digits := base64.RawStdEncoding.EncodeToString
	h := made(t, Options{Secret: bytes.Repeat([]byte{3}, 8)})
	for name, tag := range tags {
		tag, err := hex.DecodeString(tag)
		if err != nil {
			t.Fatal(err)
		}
		data, salt := bytes.Repeat([]byte{4}, 12), bytes.Repeat([]byte{2}, 16)
		text := "$" + name + "$v=19$m=32,t=3,p=4,data=" + digits(data) + "$" + digits(salt) + "$" + digits(tag)
		password := bytes.Repeat([]byte{1}, 32)
		if err := h.Verify(text, password); err != nil {
			t.Error(text, err)
		}
		if err := made(t, Options{}).Verify(text, password); !errors.Is(err, ErrMismatch) {
			t.Error(text, err)
		}
		password[31] = 2
		if err := h.Verify(text, password); !errors.Is(err, ErrMismatch) {
			t.Error(text, err)
		}
	}
}

func TestHash(t *testing.T) {
	h, err := New(Options{})
	if err != nil {
		t.Fatal(err)
	}
	one, two := text(t, h, "pass\x00wörd"), text(t, h, "pass\x00wörd")
	form := regexp.MustCompile(`^\$argon2id\$v=19\$m=19456,t=2,p=1\$[A-Za-z0-9+/]{22}\$[A-Za-z0-9+/]{43}$`)
	if !form.MatchString(one) || one == two {
		t.Error(one, two)
	}
	for _, password := range []string{"pass\x00wörd", "pass\x00word", "pass", ""} {
		if err := h.Verify(one, []byte(password)); (err == nil) != (password == "pass\x00wörd") {
			t.Error(password, err)
		}
	}
	long := text(t, made(t, Options{Lanes: 2, HashLen: 64, KeyID: []byte("12345678"), Data: bytes.Repeat([]byte("d"), 32)}), "abc")
	if !strings.HasPrefix(long, "$argon2id$v=19$m=64,t=1,p=2,keyid=MTIzNDU2Nzg,data=ZGRk") || len(long) < 200 {
		t.Error(long)
	}
	// (Go checks the bytes that C gets for pointers, and these are beside a pointer)
	var beside struct {
		pointer  *int
		password [3]byte
	}
	beside.pointer, beside.password = new(int), [3]byte{'a', 'b', 'c'}
	if err := h.Verify(text(t, h, "abc"), beside.password[:]); err != nil {
		t.Error(err)
	}
	empty := text(t, h, "")
	for _, password := range [][]byte{nil, {}} {
		if _, err := h.LogIn(empty, password); err != nil || h.Verify(empty, password) != nil {
			t.Error(password, err)
		}
	}
}

func TestRefused(t *testing.T) {
	// (the numbers are codes of argon2_phc.h)
	for _, it := range []struct {
		options Options
		err     Error
	}{
		{Options{Memory: 7}, -14},
		{Options{Memory: 15, Lanes: 2}, -14},
		{Options{Memory: 1<<32 - 1, Lanes: 1 << 24, Bound: Bound{Memory: 1<<32 - 1, Lanes: 1 << 24}}, -17},
		{Options{HashLen: 3, Bound: Bound{MinHashLen: 1}}, -2},
		{Options{HashLen: 65, Bound: Bound{MaxHashLen: 65}}, -3},
		{Options{KeyID: make([]byte, 9)}, -69},
		{Options{Data: make([]byte, 33)}, -9},
		// (new hashes would be refused)
		{Options{Memory: 2097153}, ErrWantedOutOfBound},
		{Options{Passes: 65}, ErrWantedOutOfBound},
		{Options{Lanes: 65, Memory: 1 << 20}, ErrWantedOutOfBound},
		{Options{HashLen: 15}, ErrWantedOutOfBound},
		{Options{HashLen: 65}, ErrWantedOutOfBound},
	} {
		if h, err := New(it.options); h != nil || !errors.Is(err, it.err) {
			t.Error(it.options, err)
		}
	}
	h := made(t, Options{Bound: Bound{MinHashLen: 24, MaxHashLen: 32}})
	for stored, wanted := range map[string]Error{
		ofABC + "\x00":            ErrTextInvalid,
		strings.Repeat("$", 1000): ErrTextInvalid,
		ofABC[:len(ofABC)-15]:     ErrOutputOutOfBound,
		ofABC + "A":               ErrOutputOutOfBound,
	} {
		_, loggedIn := h.LogIn(stored, []byte("abc"))
		for _, err := range []error{h.Verify(stored, []byte("abc")), loggedIn} {
			if !errors.Is(err, wanted) || !strings.HasPrefix(err.Error(), "argon2: ") || len(err.Error()) < 20 {
				t.Error(stored, err)
			}
		}
	}
}

// A service begins without a secret, sets one, and changes it. All users log in after each step, except the last user.
func TestRotation(t *testing.T) {
	first, second := []byte("first"), []byte("second")
	steps := []*Hasher{
		made(t, Options{}),
		made(t, Options{Secret: first, OldSecret: []byte{}}),
		made(t, Options{Secret: []byte("first")}),
		made(t, Options{Secret: second, OldSecret: first, KeyID: []byte("2")}),
		made(t, Options{Secret: []byte("second"), KeyID: []byte("2")}),
	}
	// (the caller may change its bytes now)
	copy(first, "-----")
	copy(second, "------")
	password := func(user int) []byte { return []byte{'a', byte('0' + user)} }
	stored := make([]string, 10)
	for user := range stored {
		stored[user] = text(t, steps[0], string(password(user)))
	}
	late := stored[9]
	for at, h := range steps {
		for user := range stored[:9] {
			old := stored[user]
			fresh, err := h.LogIn(old, password(user))
			if err != nil || (fresh != old) != (at == 1 || at == 3) {
				t.Error(at, user, fresh, err)
			}
			stored[user] = fresh
			if again, err := h.LogIn(fresh, password(user)); err != nil || again != fresh {
				t.Error(at, user, again, err)
			}
			if fresh, err := h.LogIn(fresh, password(user+1)); fresh != "" || !errors.Is(err, ErrMismatch) {
				t.Error(at, user, fresh, err)
			}
		}
		if err := h.Verify(late, password(9)); errors.Is(err, ErrMismatch) != (at > 1) {
			t.Error(at, err)
		}
	}
}

// What the reasons in vectors/argon2_login.json are here.
var reasons = map[string]Error{
	"WantedAboveBound":  ErrWantedOutOfBound,
	"WrongPassword":     ErrMismatch,
	"AlgorithmUnknown":  -70,
	"VersionUnknown":    -71,
	"Grammar":           ErrTextInvalid,
	"MemoryInvalid":     -81,
	"PassesInvalid":     -82,
	"LanesInvalid":      -83,
	"KeyidInvalid":      -84,
	"DataInvalid":       -85,
	"ParametersInvalid": -86,
	"Incomplete":        -87,
	"AboveBound":        ErrAboveBound,
}

// digits are bytes that JSON contains as hexadecimal digits, or nil for null.
type digits []byte

func (d *digits) UnmarshalText(text []byte) error {
	*d = make([]byte, hex.DecodedLen(len(text)))
	_, err := hex.Decode(*d, text)
	return err
}

// A login of vectors/argon2_login.json.
type login struct {
	TcID   int
	Wanted struct {
		Algorithm       string
		Version         int
		M, T, P, Length uint32
		KeyID, Data     digits
	}
	Bound             struct{ M, T, P uint32 }
	Secret, OldSecret digits
	Text              string
	Password          digits
	Result, Reason    string
	Due               bool
}

// The answers to the logins of vectors/argon2_login.json, which an independent model gives.
func TestLogins(t *testing.T) {
	file, err := os.ReadFile("../../vectors/argon2_login.json")
	if errors.Is(err, os.ErrNotExist) {
		t.Skip("this folder is not in a clone")
	}
	var table struct{ TestGroups []struct{ Tests []login } }
	if err == nil {
		err = json.Unmarshal(file, &table)
	}
	if err != nil {
		t.Fatal(err)
	}
	tried := 0
	for _, it := range table.TestGroups[0].Tests {
		// (Options have no algorithm and no version)
		if it.Wanted.Algorithm == "argon2id" && it.Wanted.Version == 19 {
			tried++
			try(t, it)
		}
	}
	if tried < 200 {
		t.Error(tried)
	}
}

// try requires the answer to a login.
func try(t *testing.T, it login) {
	options := Options{
		Memory: it.Wanted.M, Passes: it.Wanted.T, Lanes: it.Wanted.P, HashLen: it.Wanted.Length,
		Secret: it.Secret, OldSecret: it.OldSecret, KeyID: it.Wanted.KeyID, Data: it.Wanted.Data,
		Bound: Bound{Memory: it.Bound.M, Passes: it.Bound.T, Lanes: it.Bound.P, MinHashLen: 4},
	}
	h, err := New(options)
	var fresh string
	if err == nil {
		fresh, err = h.LogIn(it.Text, it.Password)
	}
	if it.Result == "invalid" {
		if err != reasons[it.Reason] || fresh != "" || h != nil && h.Verify(it.Text, it.Password) != err {
			t.Error(it.TcID, fresh, err)
		}
		return
	}
	if err != nil || h.Verify(it.Text, it.Password) != nil || (fresh != it.Text) != it.Due {
		t.Error(it.TcID, fresh, err)
	}
	options.OldSecret = nil
	if again, err := made(t, options).LogIn(fresh, it.Password); it.Due && (err != nil || again != fresh) {
		t.Error(it.TcID, again, err)
	}
	// (a new hash is due, and there is no memory for it)
	options.Memory, options.OldSecret, options.Bound = 1<<32-1, it.OldSecret, most
	if kept, err := made(t, options).LogIn(it.Text, it.Password); err != nil || kept != it.Text {
		t.Error(it.TcID, kept, err)
	}
}

// tests/examples runs this test again, with NO_RANDOM in its environment, on a system that gives no random bytes.
func TestKept(t *testing.T) {
	h, wanted := made(t, Options{Memory: 1<<32 - 1, Bound: most}), ErrOutOfMemory
	if os.Getenv("NO_RANDOM") != "" {
		h, wanted = made(t, Options{}), Error(-74)
	}
	if text, err := h.Hash([]byte("abc")); text != "" || err != wanted {
		t.Error(text, err)
	}
	if kept, err := h.LogIn(ofABC, []byte("abc")); kept != ofABC || err != nil {
		t.Error(kept, err)
	}
}

func TestManyAtOnce(t *testing.T) {
	h := made(t, Options{Memory: 1024, Lanes: 2, Secret: []byte("secret"), OldSecret: []byte("old secret")})
	old := text(t, made(t, Options{Memory: 1024, Lanes: 2, Secret: []byte("old secret")}), "abc")
	var all sync.WaitGroup
	for user := 0; user < 50; user++ {
		all.Add(1)
		go func(password []byte) {
			defer all.Done()
			stored, err := h.Hash(password)
			if err == nil {
				stored, err = h.LogIn(stored, password)
			}
			if err != nil || !errors.Is(h.Verify(stored, []byte("x")), ErrMismatch) {
				t.Error(stored, err)
			}
			if fresh, err := h.LogIn(old, []byte("abc")); err != nil || fresh == old {
				t.Error(fresh, err)
			}
		}([]byte{'p', byte(user)})
	}
	all.Wait()
}
