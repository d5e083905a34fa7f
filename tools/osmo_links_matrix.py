"""Links that are lost at each moment of an order: a part of tools/osmo_links, which has it as its case `matrix` and gives itself as `kit`.

Four orders (a write, an update, a stop, a narrowing), each of text and of an emergency warning; the link is lost before the order, while it goes out
(the BSC never has it), while its reply comes (the centre never has that), and after it; and it is lost in four ways: the centre cuts it, the BSC does,
the BSC's program is killed and has nothing on air any more, or the BSC's machine is away without a word. After each the BSC connects again. Then no
board may say that nothing is on air where the BSC has it, or on air where the BSC hasn't. Between a BSC and the centre stands a relay, which loses what
is to be lost."""
import itertools
import socket
import threading
import time

ORDERS = ("write", "update", "stop", "narrow")
MOMENTS = ("before", "order lost", "reply lost", "after")
WAYS = ("cut by the centre", "cut by the BSC", "killed", "away")
FORMS = ("text", "emergency")
FIRST_TEXT = 4400
# what is neither an order nor a reply to one
REPORTS = (0x13, 0x14, 0x15, 0x16, 0x17)
RESETS = (0x10, 0x11, 0x12)


class Emergencies:
    """Which emergency messages a BSC has on air, by its own answers to the orders that came through: osmo-bsc shows none of them in a table."""

    def __init__(self):
        self.orders, self.keys = [], set()

    def clear(self):
        self.orders, self.keys = [], set()

    def ordered(self, frame):
        self.orders.append(frame)

    def answered(self, frame):
        order = self.orders.pop(0)
        if order[0] == 0x10:
            self.keys.clear()
            return
        asked, told = elements(order[4:]), elements(frame[4:])
        message_id, cells = int.from_bytes(asked[0x0E], "big"), asked[0x04][1:]
        cells = {int.from_bytes(cells[k + 2 : k + 4], "big") for k in range(0, len(cells), 4)}
        # each of the failed ones with its whole global identity and a cause
        failed = told.get(0x09, b"")
        cells -= {int.from_bytes(failed[k + 6 : k + 8], "big") for k in range(0, len(failed), 9)}
        if message_id < FIRST_TEXT:
            # a cell has one
            self.keys = {it for it in self.keys if it[0] not in cells}
            if 0x03 in asked:
                self.keys |= {(ci, message_id, asked[0x03].hex().upper()) for ci in cells}


def elements(body):
    """The elements of a message, up to the first one that is of no use here."""
    found = {}
    while body and body[0] in (0x02, 0x03, 0x04, 0x08, 0x09, 0x0E):
        begin = 3 if body[0] in (0x04, 0x08, 0x09) else 1
        end = begin + (int.from_bytes(body[1:3], "big") if begin == 3 else 2)
        found[body[0]], body = body[begin:end], body[end:]
    return found


class Relay:
    """What stands between a BSC and a port of the centre. `loses` is which octets it keeps to itself: `order` or `reply`."""

    def __init__(self, port, target):
        self.target, self.loses, self.lost, self.ends, self.emergencies = target, "", threading.Event(), [], Emergencies()
        self.listener = socket.socket()
        self.listener.setsockopt(socket.SOL_SOCKET, socket.SO_REUSEADDR, 1)
        self.listener.bind(("127.0.0.1", port))
        self.listener.listen()
        threading.Thread(target=self.accept, daemon=True).start()

    def accept(self):
        while True:
            try:
                bsc = self.listener.accept()[0]
            except OSError:
                return
            try:
                centre = socket.create_connection(("127.0.0.1", self.target))
            except OSError:
                bsc.close()
                continue
            self.loses = ""
            self.lost.clear()
            self.emergencies.orders.clear()
            state = {"away": False}
            self.ends = [bsc, centre, state]
            for source, sink, what in ((centre, bsc, "order"), (bsc, centre, "reply")):
                threading.Thread(target=self.pass_on, args=(source, sink, what, state), daemon=True).start()

    def pass_on(self, source, sink, what, state):
        """Passes on frame by frame. An order or a reply that is to be lost is kept, and all that comes behind it."""
        held, keeps = b"", False
        while True:
            try:
                piece = source.recv(65536)
                held += piece
                while len(held) >= 4 and len(held) >= 4 + int.from_bytes(held[1:4], "big"):
                    frame, held = held[: 4 + int.from_bytes(held[1:4], "big")], held[4 + int.from_bytes(held[1:4], "big") :]
                    if self.loses == what and frame[0] not in REPORTS + RESETS:
                        keeps = True
                        self.lost.set()
                    passes = not keeps and not state["away"]
                    if what == "order" and passes:
                        self.emergencies.ordered(frame)
                    if what == "reply" and frame[0] not in REPORTS and not state["away"]:
                        self.emergencies.answered(frame)
                    if passes:
                        sink.sendall(frame)
            except OSError:
                piece = b""
            if not piece:
                if not state["away"]:
                    close(source)
                    close(sink)
                return

    def part(self, way):
        """The connection is lost. Of a BSC that is away the centre is told nothing: its end stays open."""
        bsc, centre, state = self.ends
        if way == "away":
            state["away"] = True
        else:
            close(centre)
        close(bsc)


def close(link):
    try:
        link.shutdown(socket.SHUT_RDWR)
    except OSError:
        pass
    link.close()


class Trial:
    """One centre, one BSC that comes by a relay, and the orders one after another."""

    def __init__(self, kit, bsc, connects, options):
        self.kit, self.bsc, self.connects = kit, bsc, connects
        self.centre = kit.Centre(*options)
        self.centre.begin()
        self.relay = Relay(kit.BASE + 50, kit.BASE)
        self.count, self.faults = 0, {}
        connects()
        self.centre.is_up()
        self.centre.settles()

    def issue(self, form):
        self.count += 1
        if form == "text":
            line = "issue %d 3 15 0 30 d4f29c0e A7,A8" % (FIRST_TEXT + self.count % 1000)
        else:
            line = "alert %d 1 1 1408 0 - A7,A8" % (4352 + self.count % 3)
        answer = self.centre.ask(line)
        if not answer.startswith("ok "):
            raise self.kit.Broken("%s -> %s" % (line, answer))
        return int(answer.split()[3])

    def act(self, order, form, warning):
        if order == "write":
            return self.issue(form)
        change = "update %d 15 0 30 d4f29c0f" if form == "text" else "realert %d 1 384 0 -"
        self.centre.type_all({"update": change, "stop": "stop %d", "narrow": "narrow %d A7"}[order] % warning)
        return warning

    def lose(self, way):
        """The link is lost, and where it isn't the BSC's machine that is away the centre knows it."""
        since = len(self.centre.errors)
        if way == "cut by the centre":
            self.centre.type_all("cut 1")
        elif way == "cut by the BSC":
            self.relay.part("closed")
        else:
            self.relay.part("away" if way == "away" else "closed")
        if way == "killed":
            self.forget()
        if way != "away":
            self.centre.is_said("BSC 1", " ended", since=since)

    def forget(self):
        """The BSC's program is killed: it has nothing any more."""
        if isinstance(self.bsc, self.kit.Simulated):
            self.bsc.keys.clear()
        else:
            self.bsc.end()
            self.relay.emergencies.clear()
            self.bsc.start()

    def shown(self):
        """What the BSC has on air."""
        own = self.bsc.shown()
        return own if isinstance(self.bsc, self.kit.Simulated) else own | self.relay.emergencies.keys

    def differs(self, found):
        """Puts there where the centre's table and the BSC's own differ."""
        known, own = self.centre.known(1), self.shown()
        found[:] = ["%s is on air, unknown to the centre" % (it,) for it in sorted(own - known)] + ["%s isn't on air" % (it,) for it in sorted(known - own)]
        return found

    def run(self, order, moment, way, form):
        centre, what = self.centre, "%s of %s, %s, %s" % (order, form, moment, way)
        warning = None if order == "write" else self.issue(form)
        if warning and centre.comes_to(warning, 0, 2, 0, 0) is None:
            raise self.kit.Broken("%s: the warning isn't on air before: %s" % (what, centre.ask("board %d" % warning)))
        since = len(centre.errors)
        if moment == "before":
            self.lose(way)
            warning = self.act(order, form, warning)
        else:
            self.relay.loses = {"order lost": "order", "reply lost": "reply"}.get(moment, "")
            warning = self.act(order, form, warning)
            if moment != "after":
                self.relay.lost.wait(10)
            else:
                centre.settles()
            self.lose(way)
        self.early(what, warning)
        self.connects()
        centre.is_up(since=since)
        centre.settles()
        wanted = {"stop": (0, 0, 0, 0), "narrow": (0, 1, 0, 0)}.get(order, (0, 2, 0, 0))
        took, wrong = centre.comes_to(warning, *wanted), []
        self.kit.until(lambda: not self.differs(wrong), 5)
        for fault in wrong + ["the board says %s" % centre.ask("board %d" % warning)] * (took is None):
            self.fault(what, fault)
        self.end(what, warning, order)

    def fault(self, what, text):
        self.faults.setdefault(what, []).append(text)
        print("  %s: %s" % (what, text), flush=True)

    def early(self, what, warning):
        """Before the BSC is back no board may be clear while the BSC has the warning on air."""
        board = self.centre.ask("board %d" % warning)
        if board.startswith("awaited 0 onair 0 failed 0 left 0 ") and self.shown():
            self.fault(what, "the board is clear before the BSC is back, and %s is on air" % sorted(self.shown()))

    def end(self, what, warning, order):
        """The warning goes, and the next order begins with a BSC that has nothing on air."""
        if order != "stop":
            self.centre.type_all("stop %d" % warning)
        self.centre.comes_to(warning, 0, 0, 0, 0)
        # refused while an order for it is in flight
        gone = self.kit.until(lambda: self.centre.ask("forget %d" % warning).startswith("ok "), 5) is not None
        if not gone or self.kit.until(lambda: not self.shown(), 5) is None:
            self.fault(what, "once it is stopped%s, %s is on air" % (" and forgotten" * gone, sorted(self.shown())))
            since = len(self.centre.errors)
            self.forget()
            if not isinstance(self.bsc, self.kit.Simulated):
                self.centre.is_up(since=since)


def trial(kit, name, bsc, connects, options):
    it = Trial(kit, bsc, connects, options)
    plays = list(itertools.product(ORDERS, MOMENTS, WAYS, FORMS))
    for play in plays:
        it.run(*play)
    it.centre.quit()
    close(it.relay.listener)
    said = "%s: of %d lost links %d leave a board that is wrong" % (name, len(plays), len(it.faults))
    if options:
        kit.check(said, not it.faults, it.faults)
    else:
        kit.seen(said)


def run(kit):
    """Of simulated BSCs that keep their messages, and of a real one."""
    for restart, what in ((b"", "sends no RESTART"), (kit.LOST, "says that all is lost")):
        bsc = kit.Simulated(restart, bsc=51)
        trial(kit, "a simulated BSC that keeps its messages and %s, with --reset" % what, bsc, bsc.connect, ("--reset",))
    bsc = kit.Simulated(kit.LOST, bsc=51)
    trial(kit, "the same without --reset", bsc, bsc.connect, ())
    bsc = kit.Osmo(port=kit.BASE + 50)
    # it connects again by itself
    trial(kit, "osmo-bsc, with --reset", bsc, lambda: None, ("--reset",))
    bsc.end()
