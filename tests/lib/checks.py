"""What the scripts of this folder share: the built programs, processes with a limit of time, and the count of what passed."""

import contextlib
import glob
import importlib.util
import os
import re
import shutil
import signal
import subprocess
import sys
import tempfile
import time

ROOT = os.path.realpath(os.path.join(os.path.dirname(__file__), "../.."))
CRATES = os.path.join(ROOT, "crates")
with open(os.path.join(ROOT, "VERSION"), encoding="utf-8") as version:
    VERSION = version.read().strip()
# How many seconds a process may run, unless its caller gives another limit.
LIMIT = 300


class Wrong(Exception):
    """What a script found is not what it wants."""


class Skipped(Exception):
    """A case can't run here. The argument states what the case needs: `install` with Debian's packages, or another reason."""


def check(holds, *found):
    """Raises `Wrong` with `found` if `holds` is false. An option of Python turns off each `assert`, but not this check."""
    if not holds:
        raise Wrong(*found)


def need(packages, *commands):
    """Raises `Skipped` if one of these commands is missing. `packages` names the packages of Debian that contain them."""
    if not all(map(shutil.which, commands)):
        raise Skipped(f"install {packages}")


def need_modules(*names):
    """Raises `Skipped` if one of these modules of Python is missing. Debian's package of each is `python3-NAME`."""
    if missing := [f"python3-{it}" for it in names if not importlib.util.find_spec(it)]:
        raise Skipped(f"install {' '.join(missing)}")


def kill(process):
    """Kills a process of this number, and all that it has started."""
    for path in glob.glob(f"/proc/{process}/task/*/children"):
        with contextlib.suppress(OSError), open(path, encoding="ascii") as it:
            for child in it.read().split():
                kill(int(child))
    with contextlib.suppress(OSError):
        os.kill(process, signal.SIGKILL)


def finish(process, given=None, limit=LIMIT):
    """Gives a process its input, and returns its output and errors. It kills a process that takes too long, and raises `Wrong`."""
    try:
        return process.communicate(given, timeout=limit)
    except subprocess.TimeoutExpired:
        raise Wrong(f"more than {limit} seconds", process.args) from None
    finally:
        if process.poll() is None:
            kill(process.pid)


def execute(words, limit=LIMIT, **how):
    """Works as `subprocess.run` does, with a limit of time."""
    given, is_checked = how.pop("input", None), how.pop("check", False)
    if given is not None:
        how["stdin"] = subprocess.PIPE
    if how.pop("capture_output", False):
        how |= {"stdout": subprocess.PIPE, "stderr": subprocess.PIPE}
    with subprocess.Popen(words, **how) as process:
        out, errors = finish(process, given, limit)
    check(not is_checked or process.returncode == 0, words, process.returncode, out, errors)
    return subprocess.CompletedProcess(words, process.returncode, out, errors)


def end(cases):
    """Tries cases, which are pairs of a name and a function, and ends the script with the line that tests/run reads.

    A case fails if it raises an error, or returns a text that says why. It is skipped if it raises `Skipped`.
    """
    passed = failed = skipped = 0
    for name, case in cases:
        try:
            why = case()
        except Skipped as reason:
            print(f"skipped: {' '.join(name.split())}: {reason}", flush=True)
            skipped += 1
            continue
        except Exception as error:  # noqa: BLE001
            why = repr(error)
        print(f"{name}: FAILED: {why}" if why else f"{name}: as it should be", flush=True)
        failed += bool(why)
        passed += not why
    print(f"{passed} passed, {failed} failed, {skipped} skipped")
    sys.exit(1 if failed else 0)


def skip_all(why):
    """Ends a script that can't run any case here. `why` states what the script needs."""

    def case():
        raise Skipped(why)

    end([(os.path.relpath(os.path.realpath(sys.argv[0]), ROOT), case)])


def check_options(name, said):
    """Requires that a program's man page and its completion list the options of its long help, with the same arguments.

    The man page lists them at the heads of paragraphs, and build/completion lists them in `options=`. The text of the help, the
    text of the man page and the words that the completion offers contain these options and no others.
    """
    words = f'. "$0"; COMP_WORDS=({name} --) COMP_CWORD=1; _argon2_programs {name}; echo "${{COMPREPLY[*]}}"'
    offered = execute(["bash", "-c", words, f"{ROOT}/build/completion"], capture_output=True, text=True, check=True).stdout
    pages = [said]
    for path in f"man/{name}.1", "build/completion":
        with open(f"{ROOT}/{path}", encoding="utf-8") as it:
            pages.append(it.read().replace("\\-", "-").replace('"', ""))
    heads = rf"^ +(?:-\w, |{name} )?(--.*)", r"^\.TP\n(.*)", rf"^ {{8}}{name}\)([^;]*)"
    found = ["\n".join(re.findall(head, page, re.MULTILINE)) for head, page in zip(heads, pages, strict=True)]
    wanted, *others = ({*re.findall(r"(--[a-z-]+)(?:[ =]+<?([A-Z]+))?", it)} for it in found)
    check(wanted and all(it == wanted for it in others), name, *(wanted ^ it for it in others))
    for text in (offered, *pages[:2]):
        named = {*re.findall(r"--[a-z][a-z-]+", text)}
        check(named == {it for it, _ in wanted}, name, named)


def newest_source():
    """Returns when a source or a proof of the crates was last changed. Other files don't count, as a program may leave some."""
    newest = 0.0
    for at, folders, names in os.walk(CRATES):
        if "out" in folders:
            folders.remove("out")
        names = [name for name in names if name.endswith((".rt", ".antt"))]
        newest = max([newest, *(os.path.getmtime(f"{at}/{name}") for name in names)])
    return newest


def built(crate):
    """Returns the path of a crate's command, which build/link makes from the object that `rt ci` or `rt run` left in out/.

    If the program is missing or older than a source, `rt run` builds it within an hour. If the program has no object or its crate
    has no man page, the path is the path of the program itself. If ARGON2_PROGRAMS names a folder, the path is the file with the
    command's name in that folder.
    """
    name = crate.removesuffix("_cli").replace("_", "-")
    if folder := os.environ.get("ARGON2_PROGRAMS"):
        return os.path.join(folder, name)
    program = f"{CRATES}/{crate}/out/{crate}"
    if not os.path.exists(program) or os.path.getmtime(program) < newest_source():
        begun = time.time()
        how = {"stdin": subprocess.DEVNULL, "capture_output": True, "text": True}
        ran = execute(["rt", "run"], 3600, cwd=f"{CRATES}/{crate}", **how)
        if "rt: running " not in ran.stdout + ran.stderr:
            sys.exit(f"rt run built no {crate}:\n{ran.stdout}{ran.stderr}")
        # (`rt` does not write the file again if the newer source does not belong to this program)
        os.utime(program, (begun, begun))
    if not os.path.exists(f"{ROOT}/man/{name}.1") or not os.path.exists(f"{program}.o"):
        return program
    command = f"{ROOT}/out/tested/{name}"
    if not os.path.exists(command) or os.path.getmtime(command) < os.path.getmtime(f"{program}.o"):
        with tempfile.TemporaryDirectory() as top:
            shutil.copy(f"{program}.o", f"{top}/{name}.x86-64-v2.o")
            execute([f"{ROOT}/build/link", command, f"{top}/{name}.x86-64-v2.o"], check=True)
    return command


# Matches the line of a source that defines a function. The groups are its indentation, its visibility (two) and its name.
FUNCTION = re.compile(r'^( *)(?:(pub)(\([a-z ]+\))? )?(?:(?:unsafe|const|extern "C") )*fn (\w+)', re.MULTILINE)
# Matches the header of an `impl` or a trait. The functions of the type follow it.
IMPL = re.compile(r"^(?:impl|(?:pub )?trait)\b(?:<(?:[^<>]|<[^<>]*>)*>)? ([^{]*)", re.MULTILINE)


def module_of(crate, file):
    """Returns the path of the module in a file: `argon2::params::reading` for argon2's `src/params/reading.rt`."""
    parts = file.removeprefix("src/").removesuffix(".rt").split("/")
    return "::".join([crate, *(it for it in parts if it not in ("lib", "main", "mod"))])


class Function:
    """A function of a crate's sources: its module, its type if it has one, its name, and whether it is public with a contract."""

    def __init__(self, crate, file, text, found):
        self.crate, self.module, self.name = crate, module_of(crate, file), found[4]
        headers = IMPL.findall(text, 0, found.start()) if found[1] else []
        self.type = re.match(r"&?(?:mut )?(\w+)", headers[-1].rpartition(" for ")[2])[1] if headers else ""
        # (a contract ends before the body's brace, or the `;` of a trait's function)
        head = re.split(r"\{$|^ *\{|;$", text[found.start() :], maxsplit=1, flags=re.MULTILINE)[0]
        self.is_promise = bool(found[2] and not found[3] and re.search(r"^ *ensures ", head, re.MULTILINE))

    def has_path(self, path):
        """Returns whether a check prints this path for this function. For a method it prints the module of the type."""
        *modules, last = path.split("::")
        if not self.type:
            return path == f"{self.module}::{self.name}"
        near = "".join(f"{it}::" for it in modules[:-2])
        return last == self.name and modules[-1].startswith(self.type) and f"{self.module}::".startswith(near)


class WrongBody:
    """A file guards/CRATE/NAME.edit or crates/CRATE/must-fail/NAME.edit. CONTRIBUTING.md and tests/guards describe its lines."""

    def __init__(self, crate, path):
        self.path, self.folder = path, f"{CRATES}/{crate}"
        self.crate, self.name = crate, os.path.basename(path).removesuffix(".edit")
        with open(path, encoding="utf-8") as it:
            self.lines = it.read().rstrip("\n").split("\n")
        self.promise = self.lines[0]
        self.take_refused(self.line("refused: "))

    def take_refused(self, words):
        """Sets what refuses the body: the words, their first one, which is a function, and the call whose promise it breaks."""
        self.refused, self.function = words, words.split(",")[0]
        self.call = self.line("call: ") or self.function

    def line(self, begin):
        """Returns the rest of the first line that begins with `begin`, or '' if no line does."""
        return next((it.removeprefix(begin) for it in self.lines if it.startswith(begin)), "")

    def write_refused(self, words):
        """Writes a new line `refused:` into the file."""
        self.lines = [self.promise, f"refused: {words}", *(it for it in self.lines[1:] if not it.startswith("refused: "))]
        with open(self.path, "w", encoding="utf-8") as it:
            it.write("\n".join([*self.lines, ""]))
        self.take_refused(words)

    def changes(self):
        """Yields each change: its file, the old text and the new text."""
        for line in self.lines:
            if line.startswith("file: "):
                file = line.removeprefix("file: ").strip()
            elif line.startswith("old: "):
                old = line.removeprefix("old: ")
            elif line.startswith("new:"):
                yield file, old, line.removeprefix("new:").removeprefix(" ")

    def functions(self):
        """Yields the functions that the body changes."""
        for file, old, _ in self.changes():
            with open(f"{self.folder}/{file}", encoding="utf-8") as it:
                text = it.read()
            found = [it for it in FUNCTION.finditer(text) if it.start() < text.find(old) + len(old)]
            if file.startswith("src/") and found:
                yield Function(self.crate, file, text, found[-1])


def wrong_bodies(crate="*"):
    """The wrong bodies of a crate, or of all, in the order of their names."""
    found = []
    for folder in sorted(glob.glob(f"{CRATES}/{crate}")):
        name = os.path.basename(folder)
        paths = glob.glob(f"{ROOT}/guards/{name}/*.edit") + glob.glob(f"{folder}/must-fail/*.edit")
        found += [WrongBody(name, it) for it in sorted(paths, key=os.path.basename)]
    return found


def functions(crate="*"):
    """Each function of a crate's sources, or of all."""
    for path in sorted(glob.glob(f"{CRATES}/{crate}/src/**/*.rt", recursive=True)):
        crate, _, file = os.path.relpath(path, CRATES).partition("/")
        with open(path, encoding="utf-8") as it:
            text = it.read()
        yield from (Function(crate, file, text, found) for found in FUNCTION.finditer(text))
