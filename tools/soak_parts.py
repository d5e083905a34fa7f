"""The server and the simulated BSCs of tools/soak. A part of it."""
import os
import random
import socket
import struct
import subprocess
import threading
import time

BASE = 22000


def frame(kind, body):
    return bytes([kind]) + struct.pack(">I", len(body))[1:] + body


class Bsc(threading.Thread):
    """A BSC that carries out each order in all its cells, and loses its link at random."""

    def __init__(self, number):
        super().__init__(daemon=True)
        self.number = number
        self.keys = set()
        self.is_ended = False
        self.is_steady = False

    def answer(self, kind, body):
        message_id, serial, old = struct.unpack(">H", body[1:3])[0], None, None
        rest = body[3:]
        if rest[0] == 3:
            serial, rest = struct.unpack(">H", rest[1:3])[0], rest[3:]
        if rest[0] == 2:
            old, rest = struct.unpack(">H", rest[1:3])[0], rest[3:]
        length = struct.unpack(">H", rest[1:3])[0]
        cells = [struct.unpack(">HH", rest[k : k + 4]) for k in range(4, 3 + length, 4)]
        named = struct.pack(">BH", 0x0E, message_id)
        for cell in cells:
            if kind in (1, 4) and old is not None:
                self.keys.discard((cell, message_id, old))
            if kind == 1:
                self.keys.add((cell, message_id, serial))
        if kind == 1:
            named += struct.pack(">BH", 3, serial)
            if old is not None:
                named += struct.pack(">BH", 2, old)
            return frame(2, named)
        return frame(5, named + struct.pack(">BH", 2, old))

    def converse(self, link):
        # RESTART of all cells, data lost
        self.keys.clear()
        link.sendall(bytes.fromhex("130000080400010616000d01"))
        held = b""
        cut = time.time() + random.expovariate(0.2)
        while not self.is_ended and (self.is_steady or time.time() < cut):
            try:
                piece = link.recv(65536)
            except socket.timeout:
                continue
            if not piece:
                return
            held += piece
            while len(held) >= 4 and len(held) >= 4 + int.from_bytes(held[1:4], "big"):
                length = int.from_bytes(held[1:4], "big")
                kind, body, held = held[0], held[4 : 4 + length], held[4 + length :]
                # now and then the link is lost in the middle of an order
                if not self.is_steady and random.random() < 0.02:
                    return
                link.sendall(self.answer(kind, body))

    def run(self):
        while not self.is_ended:
            try:
                with socket.create_connection(("127.0.0.1", BASE + self.number - 1)) as link:
                    link.settimeout(0.2)
                    self.converse(link)
            except OSError:
                pass
            time.sleep(random.random() * 0.2)


class Server:
    """A server with so many ports from BASE on, and its console on standard input."""

    def __init__(self, program, links, *more):
        # folded by the line alone, so that the folded entries can be counted
        words = [program, "serve", "--links", str(links), "--base", str(BASE), "--fold", "4000000", *more]
        # the C library is to keep none of the memory that was given back for single threads
        env = {**os.environ, "GLIBC_TUNABLES": "glibc.malloc.arena_max=1:glibc.malloc.tcache_count=0"}
        self.process = subprocess.Popen(
            words, env=env, stdin=subprocess.PIPE, stdout=subprocess.PIPE, stderr=subprocess.DEVNULL
        )

    def ask(self, line):
        self.process.stdin.write((line + "\n").encode())
        self.process.stdin.flush()
        return self.process.stdout.readline().decode().strip()

    def ask_all(self, line, last):
        answers = [self.ask(line)]
        while not answers[-1].startswith((last, "no ")):
            answers.append(self.process.stdout.readline().decode().strip())
        return answers


def size(process):
    for line in open("/proc/%d/status" % process.pid):
        if line.startswith("VmRSS"):
            return 1024 * int(line.split()[1])


def count(process, what):
    return len(os.listdir("/proc/%d/%s" % (process.pid, what)))
