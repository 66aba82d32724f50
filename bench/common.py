"""What the measurements share."""

import os
import re
import subprocess
import sys

HERE = os.path.dirname(os.path.realpath(__file__))
TOP = os.path.dirname(HERE)
# The commands with which bash reads the scripts of this repository.
SCRIPTS = 'name=bench usage=; source "$0/build/common"; source "$root/build/levels"; '
# An environment in which the C library gives large memory in huge pages.
HUGE_PAGES = {**os.environ, "GLIBC_TUNABLES": "glibc.malloc.hugetlb=1"}


def processor():
    """Returns the processor's name."""
    with open("/proc/cpuinfo", encoding="utf-8") as it:
        found = re.search(r"(?m)^model name\s*: (.*)$", it.read())
    return found[1] if found else "an unknown processor"


def run(*words, folder=None, env=None):
    """Runs a command and returns what it prints. If it fails, this ends with its output."""
    done = subprocess.run(words, cwd=folder, env=env, stdin=subprocess.DEVNULL, capture_output=True, text=True)
    if done.returncode:
        sys.exit(f"{' '.join(words)}: {done.stdout[-2000:]}{done.stderr[-2000:]}")
    return done.stdout


def levels():
    """Returns the levels of x86-64 that this processor has, of the levels for which the programs are built."""
    each = 'for level in "${all_levels[@]}"; do [[ $level > $processor ]] || echo "$level"; done'
    return run("bash", "-c", f"{SCRIPTS} find_processor; {each}", TOP).split()


CPUS = levels()


def read(path):
    with open(path, encoding="utf-8") as it:
        return it.read()


def write(path, text):
    os.makedirs(os.path.dirname(path), exist_ok=True)
    with open(path, "w", encoding="utf-8") as it:
        it.write(text)


def built(top, name, libraries, sources, words=()):
    """Builds a program for each level of x86-64 that this processor has, and returns its paths by their levels.

    `libraries` names the libraries that the program uses, of this repository and of the kit. `sources`
    are the texts of its files by their names, and `words` are the arguments of the run that ends each
    build. Everything is written below `top`. (A source in this folder ends in `.rattle`, since `rt ci`
    refuses a file `.rt` that belongs to no crate.)
    """
    lines = {line.partition(":")[0]: line for line in read(f"{TOP}/crates.txt").splitlines()}
    own, new = {}, libraries.split()
    while new:
        used = new.pop()
        if used in lines and used not in own:
            own[used] = lines[used]
            new += lines[used].partition(":")[2].split()
    write(f"{top}/crates.txt", "\n".join([*own.values(), f"{name}: {libraries}", ""]))
    os.makedirs(f"{top}/crates")
    os.symlink(f"{TOP}/build", f"{top}/build")
    for used in own:
        run("cp", "-r", f"{TOP}/crates/{used}", f"{top}/crates")
    folder, programs = f"{top}/crates/{name}", {}
    for file, text in sources.items():
        write(f"{folder}/src/{file}", text)
    for cpu in CPUS:
        run("bash", "-c", f'{SCRIPTS} build_level "$@"', TOP, cpu, "run", "--", *words, folder=folder)
        programs[cpu] = f"{top}/{cpu}"
        run("cp", f"{folder}/out/{name}", programs[cpu])
    return programs
