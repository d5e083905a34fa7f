"""Network namespaces at a switch: a part of tools/cut_cables and tools/power_cut. It takes the rights of an administrator, and `ip`."""
import ctypes
import os
import subprocess
import sys

CLONE_NEWNET = 0x40000000


def ip(line):
    subprocess.run(["ip", *line.split()], check=True, capture_output=True)


class Net:
    """A namespace for each name, with that address, and one more that has the switch. Its port has the name too."""

    def __init__(self, addresses):
        self.prefix, self.addresses, self.made = f"cbc{os.getpid()}-", addresses, []
        self.make("switch")
        self.within("switch", "link add bridge type bridge")
        self.within("switch", "link set bridge up")
        for name in addresses:
            self.join(name)

    def within(self, name, line):
        ip(f"-n {self.prefix}{name} {line}")

    def make(self, name):
        ip(f"netns add {self.prefix}{name}")
        self.made.append(name)
        self.within(name, "link set lo up")

    def join(self, name):
        """Makes the namespace, and its cable to the switch. It always has the same hardware address, as a machine has."""
        self.make(name)
        number = list(self.addresses).index(name)
        self.within("switch", f"link add {name} type veth peer name eth0 netns {self.prefix}{name}")
        self.within("switch", f"link set {name} master bridge up")
        self.within(name, f"link set eth0 address 02:00:00:77:00:{number:02x}")
        self.within(name, f"addr add {self.addresses[name]}/24 dev eth0")
        self.within(name, "link set eth0 up")

    def cut(self, name):
        """The cable is cut: what either side sends is lost, and no side is told."""
        self.within("switch", f"link set {name} down")

    def leave(self, name):
        """The machine is gone, without a word to the others."""
        self.cut(name)
        ip(f"netns del {self.prefix}{name}")
        self.made.remove(name)
        subprocess.run(["ip", "-n", f"{self.prefix}switch", "link", "del", name], capture_output=True)

    def enter(self, name):
        """From now on this process makes its connections in that namespace."""
        with open(f"/run/netns/{self.prefix}{name}") as it:
            if ctypes.CDLL(None, use_errno=True).setns(it.fileno(), CLONE_NEWNET):
                sys.exit("this machine lets nobody enter a network namespace")

    def end(self):
        for name in self.made:
            subprocess.run(["ip", "netns", "del", self.prefix + name], capture_output=True)
