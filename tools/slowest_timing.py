"""Times lines that a program answers. A part of tools/slowest."""
import os
import re
import subprocess
import sys
import tempfile
import threading
import time

RUNS = 3
ENOUGH = 0.33
ROUNDS = 50
KEPT = "# cbc journal, network 00f110\n"
BASE = "25000"
MARK, BAD = "end-of-these-lines\n", b"bad line"


def run(words, file, out):
    """The seconds of processor time of a run."""
    with open(file, "rb") as lines, open(out, "wb") as answers:
        process = subprocess.Popen(words, stdin=lines, stdout=answers, stderr=subprocess.DEVNULL)
        _, status, usage = os.wait4(process.pid, 0)
    process.returncode = os.waitstatus_to_exitcode(status)
    if process.returncode:
        sys.exit("%s ended with status %d" % (" ".join(words), process.returncode))
    return usage.ru_utime + usage.ru_stime


class Running:
    """A program that answers lines one after another, and what it has taken of a processor so far."""

    def __init__(self, words):
        self.process = subprocess.Popen(words, stdin=subprocess.PIPE, stdout=subprocess.PIPE, stderr=subprocess.DEVNULL)
        # the processor time of the process, all its threads: clock_getcpuclockid(3)
        self.clock = ~self.process.pid << 3 | 2

    def seconds(self):
        return time.clock_gettime(self.clock)

    def answered(self, text):
        """Hands it the lines, and returns their answers: they end where a line is bad, as the last one is."""
        hand = threading.Thread(target=self.hand, args=(text + MARK,))
        hand.start()
        found = bytearray()
        last = 0
        while not (found.endswith(b"\n") and found.startswith(BAD, last := found.rfind(b"\n", 0, -1) + 1)):
            piece = os.read(self.process.stdout.fileno(), 1 << 20)
            if not piece:
                sys.exit("the program ended: %s" % bytes(found[-200:]))
            found += piece
        hand.join()
        return bytes(found[:last])

    def hand(self, text):
        self.process.stdin.write(text.encode())
        self.process.stdin.flush()

    def end(self):
        self.process.stdin.close()
        self.process.stdout.close()
        self.process.kill()
        self.process.wait()


def refusal_in(answers):
    """The first answer that is a refusal or says that a line can't be read, if there is one."""
    found = re.search(rb"^(no |bad |skipped).*$", answers, re.M)
    return found[0].decode() if found else None


class Timing:
    """Times the lines of a case."""

    def __init__(self, folder, case):
        self.folder, self.case = folder, case
        self.setup, self.lines = "".join(it + "\n" for it in case.setup()), [it + "\n" for it in case.lines]

    def file(self, name, text):
        path = os.path.join(self.folder, name)
        with open(path, "w") as it:
            it.write(text)
        return path

    def began(self, cbc):
        """The program behind the setup."""
        if self.case.served:
            kept = self.file("kept", KEPT + self.setup)
            running = Running([cbc, "serve", "--base", BASE, "--links", "256", "--keep", kept])
            running.answered("")
            return running
        running = Running([cbc, "replay"])
        if refusal_in(running.answered(self.setup)):
            sys.exit("%s: its setup is refused" % self.case.name)
        return running

    def round(self, running):
        """The seconds of the slowest line of a round."""
        most = 0
        for line in self.lines:
            begin = running.seconds()
            answers = running.answered(line)
            most = max(most, running.seconds() - begin)
            refusal = refusal_in(answers)
            if refusal:
                sys.exit("%s: %s" % (self.case.name, refusal))
        return most

    def seconds(self, cbc):
        """The seconds of the slowest line: the least of some rounds."""
        found = []
        for _ in range(1 if self.case.again else RUNS):
            running = self.began(cbc)
            while len(found) < ROUNDS:
                found.append(self.round(running))
                if not self.case.again or sum(found) > ENOUGH and len(found) >= RUNS:
                    break
            running.end()
        return min(found)

    def seconds_by_runs(self, words, out):
        """The seconds a line of a program that may answer nothing: those of a run, less those of the setup."""
        rounds = RUNS if self.case.again else 1
        setup, script = self.file("setup", self.setup), self.file("script", self.setup + rounds * "".join(self.lines))
        least = min(run(words, script, out) for _ in range(RUNS)) - min(run(words, setup, os.devnull) for _ in range(RUNS))
        return max(least, 0) / rounds / len(self.lines)


def are_same(case, folder, programs):
    """Whether all programs give the same answers."""
    path = os.path.join(folder, "lines")
    with open(path, "w") as it:
        it.write("".join(line + "\n" for line in [*case.setup(), *case.lines]))
    return len({subprocess.run(words, stdin=open(path, "rb"), capture_output=True).stdout for words in programs}) == 1


def timed(case, cbc, others, compared):
    """The seconds of the slowest line of the case, for each program: none of another one where only `serve` has the lines."""
    with tempfile.TemporaryDirectory() as folder:
        timing = Timing(folder, case)
        if case.served:
            return [timing.seconds(cbc)]
        if compared and not are_same(case, folder, [[cbc, "replay"], *others]):
            sys.exit("%s: the answers differ" % case.name)
        return [timing.seconds(cbc), *(timing.seconds_by_runs(words, os.devnull) for words in others)]
