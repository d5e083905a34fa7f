"""A simulated BSC that connects again when its link has ended: a part of tools/cut_cables, which runs it as a program.

  cut_cables_bsc.py HOST PORT DOES

DOES is how it answers a KEEP ALIVE: `is silent`, `answers ERROR INDICATION`, else by KEEP ALIVE COMPLETE. It carries out every order. One that `takes
nothing` reads nothing."""
import socket
import sys
import time

KEEP_ALIVE = 0x16
ANSWERS = {"is silent": b"", "answers ERROR INDICATION": b"\x15\0\0\x02\x0b\x04"}
KEEP_ALIVE_COMPLETE = b"\x17\0\0\0"


def complete(kind, body):
    """The COMPLETE of an order: its message identifier and its serial numbers."""
    end = 3
    while body[end] in (2, 3):
        end += 3
    return bytes([kind + 1, 0, 0, end]) + b"\x0e" + body[1:end]


def converse(link, does):
    held = b""
    while piece := link.recv(65536):
        held += piece
        while len(held) >= 4 and len(held) >= 4 + int.from_bytes(held[1:4], "big"):
            kind, body = held[0], held[4 : 4 + int.from_bytes(held[1:4], "big")]
            held = held[4 + len(body) :]
            link.sendall(ANSWERS.get(does, KEEP_ALIVE_COMPLETE) if kind == KEEP_ALIVE else complete(kind, body))


def run(host, port, does):
    while True:
        link = socket.socket()
        try:
            if does == "takes nothing":
                link.setsockopt(socket.SOL_SOCKET, socket.SO_RCVBUF, 1)
            link.connect((host, int(port)))
            while does == "takes nothing":
                time.sleep(60)
            converse(link, does)
        except OSError:
            pass
        link.close()
        time.sleep(1)


if __name__ == "__main__":
    run(*sys.argv[1:])
