"""Tries edits that a test has to refuse, all of a suite in one build. A part of tools/slips.

The sources are compiled once a suite with all edits in them (slips_planted.py), without proofs and at -O0 (unproved.py). In the module each function
`slip_is_chosen` becomes a comparison with a number that stands behind a mark in the data of the program, by a load that the compiler may not leave out. A
copy of the program with another number there has another edit; with 0 it has none. Each test is run in a folder and a network namespace of its own,
so that several run at once and no port is taken. An edit is refused where a test fails three times that passes each time without an edit, or where it
has not ended in time; a test that fails once without an edit refuses nothing, and is named. The suites are asked lowest first, and no other suite is
asked about an edit that one refused."""
import concurrent.futures
import os
import re
import resource
import shutil
import signal
import subprocess
import sys
import tempfile
import time

import slips_planted
import unproved

# What stands before the number in the data of the program.
MARK = bytes.fromhex("c3a1f05e7d9b4826b71d3c0e95f2684a")
BODY = f"""start:
  %chosen = load volatile i32, ptr getelementptr (i8, ptr @slips.chosen, i64 {len(MARK)}), align 4
  %is = icmp eq i32 %chosen, %a0
  ret i1 %is
}}
"""
PLACE = '@slips.chosen = global [%d x i8] c"%s", align 16\n' % (len(MARK) + 4, "".join(f"\\{it:02X}" for it in MARK + bytes(4)))
CALL = re.compile(rf'@"\w+::{slips_planted.CHOSEN}"\(i32 (?:noundef )?(\d+)\)')
# Seconds that a test has, beside three times those that it takes without an edit. A test of tests_sockets waits 25 for what does not come.
LIMIT = 60
ALONE = ["sh", "-c", 'ulimit -c 0; ip link set lo up && exec "$@"', "sh"]


class Edit:
    """An edit, with its number, its name and path, its (file, old line, new line), the tests that its head names, and what came of it."""

    def __init__(self, number, name, path, pairs, head):
        self.number, self.name, self.path, self.pairs, self.head = number, name, path, pairs, head
        self.crates = {path.split("/")[1] for path, _, _ in pairs}
        self.alone = self.refused = None
        self.tried = []


def apart():
    """Returns the words that run a command in a network namespace of its own, none where the system allows no such."""
    for words in (["unshare", "-n"], ["unshare", "-rn"]):
        ran = subprocess.run([*words, *ALONE, "true"], stdout=subprocess.DEVNULL, stderr=subprocess.DEVNULL)
        if not ran.returncode:
            return [*words, *ALONE]
    print("slips: no network namespace can be made here, so one test is run at a time", flush=True)
    return []


def choosing(lines, reached):
    """Gives the lines of a module in which each edit asks for the number behind the mark, and adds the numbers of those that the module has."""
    lines = iter(lines)
    for line in lines:
        yield line
        if slips_planted.CHOSEN in line:
            reached.update(map(int, CALL.findall(line)))
        if line.startswith("define ") and f'::{slips_planted.CHOSEN}"(i32 ' in line:
            yield BODY
            while not next(lines).startswith("}"):
                pass
    yield PLACE


class Suite:
    """A crate of tests, or a program whose output is compared, as it was built with all edits."""

    def __init__(self, room, crate, words, alone):
        self.folder, self.crate, self.words, self.alone = f"{room}/crates/{crate}", crate, words, alone
        self.program, self.reached, self.seconds, self.failing, self.unsteady = f"{room}/slips-{crate}", set(), {}, [], set()

    def build(self, room):
        with tempfile.TemporaryDirectory(prefix="slips-build-") as here:
            module = unproved.module(room, self.crate, here, self.words is None)
            how = {"encoding": "utf-8", "errors": "surrogateescape"}
            with open(module, **how) as lines, open(f"{here}/whole.ll", "w", **how) as it:
                it.writelines(choosing(unproved.plain_lines(lines, {}), self.reached))
            unproved.compiled(f"{here}/whole.ll", self.program, here)

    def chosen(self, number):
        """Writes the program with this edit, and returns its path."""
        with open(self.program, "rb") as it:
            found = bytearray(it.read())
        at = found.index(MARK) + len(MARK)
        found[at : at + 4] = number.to_bytes(4, "little")
        with open(f"{self.program}-{number}", "wb") as it:
            it.write(found)
        os.chmod(it.name, 0o755)
        return it.name

    def tests(self):
        if self.words is not None:
            return ["stdout"]
        ran = subprocess.run([self.program, "--list"], stdout=subprocess.PIPE, text=True, check=True)
        return re.findall(r"(?m)^(\S+): test$", ran.stdout)

    def passes(self, program, test, limit):
        """Returns whether a test passes, and None where it has not ended in time."""
        with tempfile.TemporaryDirectory(prefix="slips-run-") as here:
            if self.words is not None:
                shutil.copytree(f"{self.folder}/data", here, dirs_exist_ok=True)
            words = [*self.alone, program, *([test] if self.words is None else self.words)]
            with open(f"{here}.out", "w+b") as said:
                ran = subprocess.Popen(words, cwd=here, stdin=subprocess.DEVNULL, stdout=said, stderr=subprocess.DEVNULL, start_new_session=True)
                try:
                    ran.wait(limit)
                except subprocess.TimeoutExpired:
                    pass
                ended = ran.returncode
                try:
                    os.killpg(ran.pid, signal.SIGKILL)
                except ProcessLookupError:
                    pass
                ran.wait()
                said.seek(0)
                output = said.read()
            os.remove(f"{here}.out")
        return None if ended is None else ended == 0 and self.is_right(output)

    def is_right(self, output):
        if self.words is None:
            return b"test result: ok" in output
        with open(f"{self.folder}/stdout", "rb") as it:
            return output == it.read()

    def time_unedited(self, pool):
        """Runs all tests without an edit: how long each takes, and which fail, twice."""
        program = self.chosen(0)

        def timed(test):
            for _ in range(2):
                began = time.monotonic()
                if self.passes(program, test, 5 * LIMIT):
                    return time.monotonic() - began
            return None

        tests = self.tests()
        for test, took in zip(tests, pool.map(timed, tests)):
            if took is None:
                self.failing.append(test)
            else:
                self.seconds[test] = took

    def is_refusing(self, test, program):
        """Returns whether the test fails with an edit, three times, and passes each time without one; and None where it did not end in time."""
        limit = LIMIT + 3 * self.seconds[test]
        for _ in range(3):
            passed = self.passes(program, test, limit)
            if passed:
                return False
            if not self.passes(f"{self.program}-0", test, limit):
                self.unsteady.add(test)
                return False
            if passed is None:
                return None
        return True

    def refusal(self, edit):
        """Returns which test refuses the edit, and how, None where none does."""
        program, found = self.chosen(edit.number), None
        for test in sorted(self.seconds, key=lambda it: (not any(word in edit.head for word in it.split("::")), self.seconds[it])):
            refused = test not in self.unsteady and self.is_refusing(test, program)
            if refused is not False:
                found = test, f"{self.crate} {test}" + (" (time)" if refused is None else "")
                break
        os.remove(program)
        return found

    def refusals(self, edits, pool):
        """Gives each edit with what refuses it. What a test refused that later failed without an edit is tried again without that test."""
        left = edits
        while left:
            given = [*zip(left, pool.map(self.refusal, left))]
            left = [edit for edit, found in given if found and found[0] in self.unsteady]
            yield from ((edit, found and found[1]) for edit, found in given if edit not in left)


def build(suite, room, planting, edits):
    """Builds the suite with the edits; those that the compiler refuses are taken out. Returns what it says where nothing helps, or None."""
    while True:
        try:
            suite.build(room)
            return None
        except unproved.Unbuilt as why:
            blamed = [it for it in edits if it.number in planting.blamed(str(why))]
            for it in blamed:
                planting.take_out(it.number)
                it.alone = f"with the others it does not compile: {next(iter(re.findall('error.*', str(why))), '')[:120]}"
            if not blamed:
                return str(why)[-600:]
            planting.write(())


def try_suite(suite, room, planting, edits, jobs):
    """Tries the edits by one suite, and says what refuses which. Returns what is to be looked at."""
    began = time.monotonic()
    why = build(suite, room, planting, edits)
    if why:
        return [f"{suite.crate}: it does not compile, so it tried nothing: {why}"]
    built = time.monotonic()
    open_ = [it for it in edits if not it.alone and it.number in suite.reached]
    if not open_:
        print(f"{suite.crate}: its code has none of {len(edits)} edits; built in {built - began:.0f} s", flush=True)
        return []
    with concurrent.futures.ThreadPoolExecutor(jobs if suite.alone else 1) as pool:
        suite.time_unedited(pool)
        timed = time.monotonic()
        for edit, refused in suite.refusals(open_, pool):
            edit.refused = refused
            edit.tried.append(suite.crate)
            if refused:
                print(f"{edit.name}: REFUSED by {refused}", flush=True)
    refused = sum(1 for it in open_ if it.refused)
    ended = time.monotonic()
    print(
        f"{suite.crate}: {refused} of {len(open_)} edits refused that its code has; built in {built - began:.0f} s, {len(suite.seconds)} tests without an edit in {timed - built:.0f} s, "
        f"the edits in {ended - timed:.0f} s",
        flush=True,
    )
    unfit = [f"{suite.crate}: {it} fails without an edit, so it refuses nothing" for it in suite.failing]
    return unfit + [f"{suite.crate}: {it} fails now and then without an edit, so it refuses nothing" for it in sorted(suite.unsteady)]


def try_together(room, edits, judges, jobs):
    """Tries the edits in this copy of the sources. `judges` are the crates of tests over some crates, and the programs with their
    words. Returns what is to be looked at."""
    resource.setrlimit(resource.RLIMIT_CORE, (0, 0))
    planting, crates, told, alone = slips_planted.Planting(room), set(), [], apart()
    for edit in edits:
        try:
            crates |= planting.plant(edit.number, edit.pairs)
        except slips_planted.Unplanted as why:
            edit.alone = str(why)
    planting.write(crates)
    for crate, words in judges(set().union(*(it.crates for it in edits))).items():
        mine = [it for it in edits if not it.alone and not it.refused and crate in judges(it.crates)]
        if mine:
            told += try_suite(Suite(room, crate, words, alone), room, planting, mine, jobs)
    return told


if __name__ == "__main__":
    print(__doc__)
    sys.exit(2)
