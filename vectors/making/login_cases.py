"""The inputs of the logins. Most stored hashes differ in one value from a hash under the wanted settings."""

import itertools

from cases import ALGORITHMS, counted
from texts import base64_of

WANTED = {"algorithm": "argon2id", "version": 19, "m": 32, "t": 2, "p": 2, "keyid": b"", "data": b"", "length": 32}
BOUND = {"m": 64, "t": 4, "p": 4}
PASSWORD, SALT = b"password", b"somesaltsomesalt"
NEW, OLD = b"a new secret", b"an old secret"


def login(comment, flag, *changes, **given):
    """A case, whose text is made later.

    The stored hash is made under WANTED, the secret and the password of the login, except for what `stored` gives. Its version
    may be None. `changes` are those of its text. A case may give `text` itself.
    """
    inputs = {"wanted": {}, "bound": {}, "secret": b"", "oldSecret": None, "password": PASSWORD, "stored": {}, "text": None} | given
    by = {"secret": inputs["secret"], "password": inputs["password"], "salt": SALT}
    inputs |= {"wanted": WANTED | inputs["wanted"], "bound": BOUND | inputs["bound"], "stored": WANTED | by | inputs["stored"]}
    return inputs | {"changes": changes, "comment": comment, "flags": [flag]}


def request(stored):
    """The request for the tag of a stored hash."""
    names = ("m", "t", "p", "password", "salt", "secret", "data")
    return ("hash", stored["length"], stored["algorithm"], stored["version"] or 16, *(stored[it] for it in names))


def written(stored, tag):
    """The text of a stored hash."""
    version = "" if stored["version"] is None else f"$v={stored['version']}"
    pairs = [f"{it}={stored[it]}" for it in ("m", "t", "p")]
    pairs += [f"{it}={base64_of(stored[it])}" for it in ("keyid", "data") if stored[it]]
    return f"${stored['algorithm']}{version}${','.join(pairs)}${base64_of(stored['salt'])}${base64_of(tag)}"


def changed(text, old, new):
    """A text with a piece that stands there instead of an old piece, or of the last bytes, whose number `old` may be."""
    if isinstance(old, int):
        return text[: len(text) - old] + new
    if text.count(old) != 1:
        raise ValueError(f"{old} does not stand once in {text}")
    return text.replace(old, new)


def logins(tags_of):
    """Yields the values, the comment and the flags of each case. `tags_of` returns the tags of requests."""
    every = [it for part in PARTS for it in part()]
    tags = tags_of([request(it["stored"]) for it in every if it["text"] is None])
    for it in every:
        stored, changes, comment, flags = (it.pop(name) for name in ("stored", "changes", "comment", "flags"))
        if it["text"] is None:
            it["text"] = written(stored, tags.pop(0))
        for old, new in changes:
            it["text"] = changed(it["text"], old, new)
        yield it, comment, flags


# ---- stored hashes that are weaker, or not


def costs():
    yield login("the stored hash shows the wanted settings", "Costs")
    for name, values in {"m": (16, 31, 33, 64), "t": (1, 3, 4), "p": (1, 3, 4)}.items():
        for value in values:
            yield login(f"the wanted {name} is {WANTED[name]}, and the stored hash has {value}", "Costs", stored={name: value})
    for comment, stored in (
        ("each cost is above the wanted one by 1", {"m": 33, "t": 3, "p": 3}),
        ("each cost is below the wanted one by 1", {"m": 31, "t": 1, "p": 1}),
        ("m is below the wanted m, and t and p are above", {"m": 31, "t": 4, "p": 3}),
        ("t is below the wanted t, and m and p are above", {"m": 64, "t": 1, "p": 4}),
        ("p is below the wanted p, and m and t are above", {"m": 64, "t": 4, "p": 1}),
    ):
        yield login(comment, "Costs", stored=stored)
    yield login("m is below the wanted m, and both give 32 blocks", "Costs", wanted={"m": 33})
    yield login("m is above the wanted m, and both give 32 blocks", "Costs", stored={"m": 39})
    least = {"m": 8, "t": 1, "p": 1}
    yield login("the wanted costs are the least, and the stored hash has them", "Costs", wanted=least, stored=least)


def algorithms():
    for wanted, stored in itertools.product(ALGORITHMS, ALGORITHMS):
        if (wanted, stored) != ("argon2id", "argon2id"):
            comment = f"{wanted} is wanted, and the stored hash is of {stored}"
            yield login(comment, "Algorithms", wanted={"algorithm": wanted}, stored={"algorithm": stored})
    yield login("another algorithm with higher costs", "Algorithms", stored={"algorithm": "argon2i", "m": 64, "t": 4, "p": 4})


def versions():
    for wanted, stored in itertools.product((16, 19), (16, 19, None)):
        if (wanted, stored) != (19, 19):
            shows = "no version" if stored is None else f"version {stored}"
            comment = f"version {wanted} is wanted, and the stored hash shows {shows}"
            yield login(comment, "Versions", wanted={"version": wanted}, stored={"version": stored})
    yield login("an older version with higher costs", "Versions", stored={"version": 16, "m": 64, "t": 4, "p": 4})
    yield login("the tag is that of version 19, and the text shows no version", "Versions", ("$v=19", ""))


def keyids():
    for comment, wanted, stored in (
        ("the wanted key identifier", b"key1", b"key1"),
        ("the wanted key identifier of 8 bytes", counted(8), counted(8)),
        ("another key identifier", b"key2", b"key1"),
        ("no key identifier, and one is wanted", b"key1", b""),
        ("a key identifier, and none is wanted", b"", b"key1"),
        ("the key identifier 00, and none is wanted", b"", b"\0"),
        ("no key identifier, and 00 is wanted", b"\0", b""),
        ("a prefix of the wanted key identifier", b"key1", b"key"),
        ("a key identifier that begins with the wanted one", b"key", b"key1"),
    ):
        yield login(comment, "KeyIdentifier", wanted={"keyid": wanted}, stored={"keyid": stored})


def associated():
    for comment, wanted, stored in (
        ("the wanted data", b"data", b"data"),
        ("the wanted data of 32 bytes", counted(32), counted(32)),
        ("other data", b"data", b"atad"),
        ("no data, and data is wanted", b"data", b""),
        ("data, and none is wanted", b"", b"data"),
        ("the data 00, and none is wanted", b"", b"\0"),
        ("a prefix of the wanted data", b"data", b"dat"),
        ("data that begins with the wanted data", b"dat", b"data"),
    ):
        yield login(comment, "AssociatedData", wanted={"data": wanted}, stored={"data": stored})
    one, other = {"keyid": b"1234", "data": b"abcd"}, {"keyid": b"abcd", "data": b"1234"}
    yield login("the wanted key identifier and the wanted data", "AssociatedData", wanted=one, stored=one)
    comment = "the wanted key identifier as data, and the wanted data as key identifier"
    yield login(comment, "AssociatedData", wanted=one, stored=other)
    moved = ("m=32,t=2,p=2,keyid=MTIzNA,data=YWJjZA", "data=YWJjZA,p=2,keyid=MTIzNA,t=2,m=32")
    yield login("the wanted values in another order", "AssociatedData", moved, wanted=one, stored=one)
    data, removed, added = {"data": b"data"}, (",data=ZGF0YQ", ""), ("p=2", "p=2,data=ZGF0YQ")
    yield login("the wanted data was removed from the text", "AssociatedData", removed, wanted=data, stored=data)
    yield login("the wanted data was put into the text later", "AssociatedData", added, wanted=data)


def lengths():
    for wanted, stored in ((32, 4), (32, 31), (32, 33), (32, 64), (4, 4), (4, 5), (16, 15), (16, 16), (64, 63), (64, 64), (64, 4)):
        comment = f"a tag of {wanted} bytes is wanted, and the stored hash has {stored}"
        yield login(comment, "Length", wanted={"length": wanted}, stored={"length": stored})
    for size in (8, 48):
        yield login(f"a salt of {size} bytes", "Length", stored={"salt": counted(size)})


# ---- which secret accepts


def secrets():
    # (the secret and the old secret that a login has)
    only_new, both, none_before = {"secret": NEW}, {"secret": NEW, "oldSecret": OLD}, {"secret": NEW, "oldSecret": b""}

    def under(secret, comment, given=(), **stored):
        return login(comment, "Secrets", **dict(given), stored={"secret": secret} | stored)

    yield under(NEW, "the secret accepts", only_new)
    yield under(NEW, "the secret accepts, and there is an old secret", both)
    yield under(OLD, "the old secret accepts", both)
    yield under(b"another secret", "neither secret accepts", both)
    yield under(OLD, "a hash under the old secret, which is not given", only_new)
    yield under(b"", "a hash without a secret, and there is no old secret", only_new)
    yield under(b"", "a hash without a secret, and the old secret has no bytes", none_before)
    yield under(NEW, "a hash under the secret, and the old secret has no bytes", none_before)
    yield under(OLD, "a hash under another secret, and the old secret has no bytes", none_before)
    yield under(b"", "a hash without a secret, and the old secret has bytes", both)
    comment = "the secret and the old secret have no bytes: both accept, and the secret is tried first"
    yield under(b"", comment, {"oldSecret": b""})
    yield under(OLD, "the secret has no bytes, and the old secret accepts", {"oldSecret": OLD})
    yield under(b"", "the secret has no bytes and accepts, and there is an old secret", {"oldSecret": OLD})
    yield under(NEW, "a hash under a secret, and the secret has no bytes")
    comment = "the old secret is the secret: both accept, and the secret is tried first"
    yield under(NEW, comment, {"secret": NEW, "oldSecret": NEW})
    yield under(OLD, "the old secret accepts a hash of higher costs", both, m=64, t=4)
    yield under(OLD, "the old secret accepts a hash of less memory", both, m=31)
    yield under(OLD, "the old secret accepts a hash of another algorithm", both, algorithm="argon2i")
    yield under(b"", "the old secret of no bytes accepts a hash that shows no version", none_before, version=None)
    wanted = both | {"wanted": {"keyid": b"2"}}
    yield under(OLD, "the old secret accepts, and the key identifier is another one", wanted, keyid=b"1")
    yield under(NEW, "the secret accepts, and the key identifier is another one", wanted, keyid=b"1")
    yield under(NEW, "the secret accepts a hash of fewer passes, and there is an old secret", both, t=1)
    yield under(NEW + b"\0", "the old secret is the secret and a zero byte", {"secret": NEW, "oldSecret": NEW + b"\0"})
    long = {"secret": b"\xff", "oldSecret": counted(128)}
    yield under(counted(128), "the secret has 1 byte, and the old secret 128", long)
    yield under(NEW, "another password, for a hash under the secret", both, password=b"passwore")
    yield under(OLD, "another password, for a hash under the old secret", both, password=b"passwore")
    yield under(NEW, "the password is the secret of the hash", {"password": NEW}, password=PASSWORD)


# ---- bounds


def bounds():
    for comment, stored in (
        ("m is the bound", {"m": 64}),
        ("t is the bound", {"t": 4}),
        ("p is the bound", {"p": 4}),
        ("each cost is the bound", {"m": 64, "t": 4, "p": 4}),
        ("m is above the bound by 1", {"m": 65}),
        ("t is above the bound by 1", {"t": 5}),
        ("p is above the bound by 1", {"m": 40, "p": 5}),
        ("each cost is above the bound by 1", {"m": 65, "t": 5, "p": 5}),
        ("m is above the bound, and gives more blocks", {"m": 72}),
        ("m is above the bound, and t is below the wanted t", {"m": 65, "t": 1}),
        ("t is above the bound, in a hash of another algorithm", {"t": 5, "algorithm": "argon2d"}),
    ):
        yield login(comment, "Bound", stored=stored)
    exact = {it: WANTED[it] for it in BOUND}
    yield login("the bound is the wanted costs, and the stored hash has them", "Bound", bound=exact)
    for name, place in itertools.product(("m", "t", "p"), ("below", "above")):
        value = WANTED[name] + (1 if place == "above" else -1)
        comment = f"the bound is the wanted costs, and {name} is {place} it by 1"
        yield login(comment, "Bound", bound=exact, stored={name: value})
    yield login("the bound is the greatest", "Bound", bound={"m": 2**32 - 1, "t": 2**32 - 1, "p": 2**24 - 1})
    yield login("m is the greatest", "Bound", ("m=32", "m=4294967295"))
    yield login("t is the greatest", "Bound", ("t=2", "t=4294967295"))
    yield login("p is the greatest", "Bound", ("m=32,t=2,p=2", "m=134217720,t=2,p=16777215"))
    yield login("m is above the bound, and the password is wrong", "Bound", stored={"m": 65, "password": b"passwore"})
    yield login("m is above the bound, and the old secret would accept", "Bound", oldSecret=OLD, stored={"m": 65, "secret": OLD})
    yield login("a long tag and a short salt are within each bound", "Bound", stored={"length": 64, "salt": counted(8)})


def wanted_bounds():
    for name in ("m", "t", "p"):
        yield login(f"the wanted {name} is the bound", "Wanted", bound={name: WANTED[name]})
        yield login(f"the wanted {name} is above the bound by 1", "Wanted", bound={name: WANTED[name] - 1})
    above = {"m": 31}
    yield login("each wanted cost is above the bound", "Wanted", bound={"m": 8, "t": 1, "p": 1})
    yield login("the wanted m is above the bound, and the stored hash is within it", "Wanted", bound=above, stored={"m": 16})
    yield login("the wanted m is above the bound, and so is the t of the stored hash", "Wanted", bound=above, stored={"t": 5})
    yield login("the wanted m is above the bound, and the password is wrong", "Wanted", bound=above, stored={"password": b"x"})
    yield login("the wanted m is above the bound, and the text is outside the grammar", "Wanted", ("v=19", "v=019"), bound=above)
    yield login("the wanted m is above the bound, and the text is empty", "Wanted", bound=above, text="")


# ---- passwords


def wrong_passwords():
    for comment, password in (
        ("another password", b"passwore"),
        ("no password", b""),
        ("a prefix of the password", b"passwor"),
        ("the password and a zero byte", b"password\0"),
        ("the password and a line feed", b"password\n"),
    ):
        yield login(comment, "Wrong", password=password, stored={"password": PASSWORD})
    for comment, stored in (
        ("the stored hash has less memory", {"m": 31}),
        ("the stored hash costs more", {"m": 64, "t": 3}),
        ("the stored hash has a shorter tag", {"length": 31}),
        ("the stored hash has another key identifier", {"keyid": b"key1"}),
        ("the stored hash is of another algorithm", {"algorithm": "argon2i"}),
    ):
        yield login(f"another password, and {comment}", "Wrong", stored=stored | {"password": b"passwore"})
    yield login("the tag is that of m=33, which gives as many blocks", "Wrong", ("m=33", "m=32"), stored={"m": 33})
    yield login("the tag is that of t=1", "Wrong", ("t=1", "t=2"), stored={"t": 1})
    yield login("the tag is that of Argon2i", "Wrong", ("argon2i", "argon2id"), stored={"algorithm": "argon2i"})
    yield login("the tag is that of another salt", "Wrong", ("$c29t", "$d29t"))
    yield login("the stored hash has only zero bytes as its tag", "Wrong", text=written(WANTED | {"salt": SALT}, bytes(32)))


def passwords():
    for comment, password in (
        ("a password of 0 bytes", b""),
        ("a password of a zero byte", b"\0"),
        ("a password with a zero byte", b"pass\0word"),
        ("a password of 65 bytes", counted(65, 32)),
        ("a password of 1025 bytes", counted(1025)),
        ("a password in UTF-8", "pässwörd 密碼 🔑".encode()),
        ("the same letters composed otherwise", "pa\u0308sswo\u0308rd 密碼 🔑".encode()),
        ("a password that is no UTF-8", b"\xff\xfe\x80pass"),
        ("a password of half a surrogate pair", b"\xed\xa0\x80"),
        ("a password that looks like a stored hash", b"$argon2id$v=19$m=32,t=2,p=2"),
    ):
        yield login(comment, "Passwords", password=password)
    for comment, password, other in (
        ("the bytes before a zero byte", b"pass", b"pass\0word"),
        ("another byte after a zero byte", b"pass\0wort", b"pass\0word"),
        ("the first 64 of 65 bytes", counted(64, 32), counted(65, 32)),
        ("other letters that look the same", "passwo\u0308rd".encode(), "passwörd".encode()),
        ("the sign for bytes that are no UTF-8", "\ufffdpass".encode(), b"\xffpass"),
    ):
        yield login(comment, "Passwords", password=password, stored={"password": other})
    both = {"secret": NEW, "oldSecret": OLD}
    yield login("a password of 0 bytes under the old secret", "Passwords", **both, password=b"", stored={"secret": OLD})


# ---- faults

TAG, SALT_AND_TAG = len("$") + 43, len("$") + 22 + len("$") + 43

# A piece of the text of the wanted settings, what stands there instead, and a comment.
FAULTS = (
    # the grammar
    ("$argon2id", "argon2id", "no dollar sign at the beginning"),
    ("v=19", "v=019", "a version with a leading zero"),
    ("v=19$m=32,t=2,p=2", "m=32,t=2,p=2$v=19", "the version after the parameters"),
    ("p=2", "p=2,p=2", "p twice"),
    ("c29tZXNhbHRzb21lc2FsdA", "c29tZXNhbA", "a salt of 7 bytes"),
    ("c29tZXNhbHRzb21lc2FsdA", "c29tZXNhbHRzb21lc2FsdB", "a salt with stray bits"),
    (0, "\n", "a line feed at the end"),
    (0, "\0", "a zero byte at the end"),
    (0, "é", "a letter that is not ASCII at the end"),
    (43, base64_of(counted(3)), "a tag of 3 bytes"),
    (43, base64_of(counted(65)), "a tag of 65 bytes"),
    # the parameters
    ("m=32,", "", "no m"),
    ("t=2,", "", "no t"),
    (",p=2", "", "no p"),
    ("$m=32,t=2,p=2", "", "no parameters"),
    ("p=2", "p=2,r=8", "a parameter that Argon2 does not have"),
    ("p=2", "p=2,keyid=AAECAwQFBgcI", "a key identifier of 9 bytes"),
    ("p=2", "p=2,data=" + base64_of(counted(33)), "data of 33 bytes"),
    ("m=32", "m=032", "m with a leading zero"),
    ("m=32", "m=15", "m below 8 for each lane"),
    ("t=2", "t=0", "t is 0"),
    ("p=2", "p=0", "p is 0"),
    ("m=32,t=2,p=2", "m=134217728,t=2,p=16777216", "p is 2 to the power of 24"),
    # after the bound
    (TAG, "", "no tag"),
    (SALT_AND_TAG, "", "no salt and no tag"),
    ("argon2id", "argon2", "the algorithm's name ends early"),
    ("v=19", "v=18", "version 18"),
)

# Several changes at once, each with the comment. The reason is the first fault in the order of a login.
SEVERAL = (
    ("the version has a leading zero, and m is above the bound", ("v=19$m=32", "v=019$m=65")),
    ("t is there twice, and the algorithm is unknown", ("argon2id", "argon2"), ("t=2", "t=2,t=2")),
    ("t is 0, and m is above the bound", ("m=32,t=2", "m=65,t=0")),
    ("a further parameter, and m is above the bound", ("m=32,t=2,p=2", "m=65,t=2,p=2,x=1")),
    ("p is missing, and m is above the bound", ("m=32,t=2,p=2", "m=65,t=2")),
    ("p is missing, and t is 0", ("t=2,p=2", "t=0")),
    ("m has a leading zero, and after it p has one, too", ("m=32,t=2,p=2", "m=032,t=2,p=02")),
    ("p has a leading zero, and after it m has one, too", ("m=32,t=2,p=2", "p=02,t=2,m=032")),
    ("a further parameter, and after it t has a leading zero", ("t=2", "x=1,t=02")),
    ("t has a leading zero, and after it there is a further parameter", ("t=2", "t=02,x=1")),
    ("the key identifier has stray bits, and after it the data, too", ("p=2", "p=2,keyid=a2V5MR,data=YR")),
    ("the data has stray bits, and m is missing", ("m=32,t=2,p=2", "t=2,p=2,data=YR")),
    ("m is below 8, p is 0 and t is 0", ("m=32,t=2,p=2", "m=7,t=0,p=0")),
    ("m is below 8 for each lane, and t is 0", ("m=32,t=2", "m=15,t=0")),
    ("t is 0, and the algorithm is unknown", ("argon2id", "argon2"), ("t=2", "t=0")),
    ("m is above the bound, and there is no tag", ("m=32", "m=65"), (TAG, "")),
    ("m is above the bound, and the algorithm is unknown", ("argon2id", "argon2"), ("m=32", "m=65")),
    ("m is above the bound, and the version is unknown", ("v=19$m=32", "v=18$m=65")),
    ("there is no tag, and the algorithm is unknown", ("argon2id", "argon2"), (TAG, "")),
    ("there is no tag, and the version is unknown", ("v=19", "v=18"), (TAG, "")),
    ("the algorithm and the version are unknown", ("argon2id$v=19", "argon2$v=18")),
)


def faults():
    yield login("an empty text", "Fault", text="")
    for old, new, comment in FAULTS:
        yield login(comment, "Fault", (old, new))
    for wanted in (31, 33):
        comment = f"no tag, which counts as a tag of 32 bytes, and {wanted} are wanted"
        yield login(comment, "Fault", (TAG, ""), wanted={"length": wanted})
    yield login("no tag, and the old secret has no bytes", "Fault", (TAG, ""), secret=NEW, oldSecret=b"")


def several_faults():
    for comment, *changes in SEVERAL:
        yield login(comment, "Faults", *changes)
    yield login("the version is unknown, and the password is wrong", "Faults", ("v=19", "v=18"), stored={"password": b"passwore"})


PARTS = (
    costs,
    algorithms,
    versions,
    keyids,
    associated,
    lengths,
    secrets,
    bounds,
    wanted_bounds,
    wrong_passwords,
    passwords,
    faults,
    several_faults,
)
