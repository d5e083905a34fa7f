"""Which crates stand over which, which have tests, and which a change touches, at the top of the repository. A part of the tools beside it."""
import functools
import os
import re
import subprocess
import sys


@functools.lru_cache(maxsize=None)
def libraries():
    """Returns the crates of crates.txt, each with its libraries of this repository, a crate after these."""
    listed = {}
    with open("crates.txt") as lines:
        for line in lines:
            name, colon, of = line.partition("#")[0].partition(":")
            if colon and name.split():
                listed[name.split()[0]] = of.split()
    left, found = {it: [name for name in of if name in listed] for it, of in listed.items()}, {}
    while left:
        ready = [it for it, of in left.items() if all(name in found for name in of)]
        if not ready:
            sys.exit("crate_graph: the crates of crates.txt go in a circle")
        found.update((it, left.pop(it)) for it in ready)
    return found


def libraries_of(crate):
    if crate not in libraries():
        sys.exit(f"crate_graph: crates.txt lists no crate {crate}")
    return libraries()[crate]


@functools.lru_cache(maxsize=None)
def below(crate):
    """Returns the libraries of this repository over which the crate stands."""
    return frozenset(libraries_of(crate)).union(*map(below, libraries_of(crate)))


@functools.lru_cache(maxsize=None)
def with_tests():
    """Returns the crates that have tests, lowest first."""
    found = []
    for crate in libraries():
        for at, _, names in os.walk(f"crates/{crate}/src"):
            for name in names:
                with open(f"{at}/{name}", errors="replace") as it:
                    if "#[test]" in it.read() and crate not in found:
                        found.append(crate)
    return found


def changed_since(base):
    """Returns the crates whose code, contracts or definitions differ from that commit, lowest first."""
    listed = []
    for words in (["diff", "--name-only", "--no-renames", "-z", base, "--", "crates"], ["ls-files", "-oz", "--exclude-standard", "crates"]):
        ran = subprocess.run(["git", *words], stdout=subprocess.PIPE)
        if ran.returncode:
            sys.exit(f"crate_graph: git does not know the commit {base}")
        listed += ran.stdout.decode().split("\0")
    read = [it for it in listed if re.fullmatch(r"crates/\w+/(src/.*\.rt|(specs|proofs)/.*\.antt)", it)]
    return [it for it in libraries() if it in {path.split("/")[1] for path in read}]
