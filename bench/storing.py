"""Times accounts in a file by Python's `sqlite3` with argon2-cffi. `bench/store` describes the calls. Each time is printed on
standard error, as its name and its nanoseconds.

  storing.py TABLE PATH COUNT     TABLE is the statement that makes the table

If there is no file at PATH, the file is made with COUNT accounts, which are then written as lines to standard output. Otherwise
the accounts of the file are looked up and changed.
"""

import os
import sqlite3
import sys
import time

from argon2.low_level import Type, hash_secret

TEXT = "$argon2id$v=19$m=8,t=1,p=1$c29tZXNhbHQ$LVJKYEkaeNsu5UCkG00QmN9KvYwrpueSxItaCk3nAjU"


def say(what, start):
    print(what, time.perf_counter_ns() - start, file=sys.stderr)


def opened(table, path):
    """Opens the database, with a table if it is new, and reads each of its rows. Returns it, and whether it is new."""
    is_new = not os.path.exists(path)
    start = time.perf_counter_ns()
    db = sqlite3.connect(path)
    db.execute("PRAGMA journal_mode=WAL")
    db.execute("PRAGMA synchronous=FULL")
    if is_new:
        db.execute(table)
    for _ in db.execute("SELECT name, phc FROM account"):
        pass
    say("open", start)
    return db, is_new


def make(db, names):
    """Adds all names together, copies the log into the file, and writes a line for each name."""
    start = time.perf_counter_ns()
    db.executemany("INSERT INTO account VALUES (?, ?)", ((name, TEXT) for name in names))
    db.commit()
    db.execute("PRAGMA wal_checkpoint(TRUNCATE)")
    say("import", start)
    start = time.perf_counter_ns()
    for name, phc in db.execute("SELECT name, phc FROM account ORDER BY name"):
        sys.stdout.write(f"{name}:{phc}\n")
    sys.stdout.flush()
    say("export", start)


def use(db, names):
    """Looks names up, changes texts and adds names, each in one commit, and checks the file."""
    start = time.perf_counter_ns()
    few = names[:100000]
    found = sum(db.execute("SELECT phc FROM account WHERE name = ?", (name,)).fetchone() is not None for name in few)
    say("lookup", start)
    start = time.perf_counter_ns()
    for name in names[:1000]:
        text = hash_secret(b"password", os.urandom(16), 1, 8, 1, 32, Type.ID).decode()
        db.execute("UPDATE account SET phc = ? WHERE name = ?", (text, name))
        db.commit()
    say("change", start)
    start = time.perf_counter_ns()
    for i in range(1000):
        db.execute("INSERT INTO account VALUES (?, ?)", (f"new{i:07}", TEXT))
        db.commit()
    say("add", start)
    start = time.perf_counter_ns()
    whole = db.execute("PRAGMA integrity_check").fetchone()
    say("check", start)
    if found != len(few) or whole != ("ok",):
        sys.exit(f"{found} of {len(few)} names are found, and the check says {whole}")


def main(table, path, count):
    names = [f"user{i:07}" for i in range(int(count))]
    db, is_new = opened(table, path)
    if is_new:
        make(db, names)
    else:
        use(db, names)


main(*sys.argv[1:])
