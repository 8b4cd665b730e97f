"""Network namespaces with wires between them, over which `socat` hands on the bytes of pseudo-terminals. Debian's `iproute2`, `socat`, `util-linux`.

A namespace is held by a process, and goes with it. Whoever is not root makes them as root of a user namespace, where the system allows that.
"""
import contextlib
import os
import subprocess

from lib.counts import NotRun, lack_of
from lib.processes import PATIENCE, awaited

NEEDED = ("ip", "nsenter", "socat", "unshare")

# No interface has this address, so what is sent there reaches nobody.
NOWHERE = "02:00:00:00:00:99"


class Spaces:
    """So many network namespaces."""

    def __init__(self, count):
        self.count, self.owner, self.holders = count, None, []

    def __enter__(self):
        try:
            if why := lack_of(*NEEDED):
                raise NotRun(why)
            if os.geteuid():
                self.owner = self.hold(["unshare", "--user", "--map-root-user"])
            for _ in range(self.count):
                self.holders.append(self.hold([*self.as_owner(), "unshare", "--net"]))
        except BaseException:
            self.__exit__()
            raise
        return self

    def __exit__(self, *_):
        for holder in [*self.holders, self.owner]:
            if holder:
                holder.kill()
                holder.communicate()

    def hold(self, words):
        """A process that these words put into a namespace, and that stays there. It ends with its input, and so with this script."""
        holder = subprocess.Popen([*words, "cat"], stdin=subprocess.PIPE, stdout=subprocess.PIPE, stderr=subprocess.PIPE, bufsize=0)
        # What it repeats says that it is there.
        with contextlib.suppress(BrokenPipeError):
            holder.stdin.write(b"\n")
        if holder.stdout.read(1) != b"\n":
            raise NotRun(holder.communicate()[1].decode().strip())
        return holder

    def as_owner(self):
        """The words before a command that is to run as root of the user namespace, if there is one."""
        return ["nsenter", "--preserve-credentials", "--user", "--target", str(self.owner.pid)] if self.owner else []

    def inside(self, space):
        """The words before a command that is to run in a namespace."""
        return [*self.as_owner(), "nsenter", "--net", "--target", str(self.holders[space].pid)]

    def ip(self, space, *words):
        ran = subprocess.run([*self.inside(space), "ip", *words], capture_output=True, text=True, check=False)
        if ran.returncode:
            raise OSError(f"ip {' '.join(words)}: {ran.stderr.strip()}")

    def need_interfaces(self):
        """Looks whether interfaces can be made here, where that is not known yet."""
        try:
            self.ip(0, "link", "add", "look0", "type", "veth", "peer", "name", "look1")
        except OSError as why:
            raise NotRun(str(why)) from why
        self.ip(0, "link", "del", "look0")


class Wire:
    """A wire between two namespaces: a pair of interfaces, and at each end a terminal that `socat` joins to the other one over TCP."""

    def __init__(self, spaces, folder, number, ends):
        # A node that listens for two wires has a port for each: neither socat takes the other one's connection, nor finds its port taken.
        self.spaces, self.ends, self.port = spaces, ends, 7000 + number
        self.interfaces = [f"to{other}" for other in reversed(ends)]
        self.addresses = [f"10.99.{number}.{end + 1}" for end in (0, 1)]
        self.files = [os.path.join(folder, f"{near}-{far}") for near, far in (ends, ends[::-1])]
        self.socats = [None, None]
        peer = ("peer", "name", self.interfaces[1], "netns", str(spaces.holders[ends[1]].pid))
        spaces.ip(ends[0], "link", "add", self.interfaces[0], "type", "veth", *peer)
        for end in (0, 1):
            self.ip(end, "address", "add", f"{self.addresses[end]}/24", "dev", self.interfaces[end])
            self.set_interface(end, "up")

    def ip(self, end, *words):
        self.spaces.ip(self.ends[end], *words)

    def set_interface(self, end, state):
        """Sets the interface of an end `up` or `down`."""
        self.ip(end, "link", "set", self.interfaces[end], state)

    def swallow(self):
        """What is sent over the wire reaches nobody: both interfaces stay up, and no sender is told."""
        for end in (0, 1):
            self.ip(end, "neigh", "replace", self.addresses[1 - end], "lladdr", NOWHERE, "nud", "permanent", "dev", self.interfaces[end])

    def pass_on(self):
        for end in (0, 1):
            self.ip(end, "neigh", "del", self.addresses[1 - end], "dev", self.interfaces[end])

    def join(self):
        """Starts `socat` at both ends, anew where it ran before, and waits for the terminals."""
        self.close()
        ways = (f"TCP-LISTEN:{self.port},reuseaddr", f"TCP:{self.addresses[0]}:{self.port},retry=600,interval=0.1")
        for end, way in enumerate(ways):
            words = [*self.spaces.inside(self.ends[end]), "socat", "-t0.1", f"PTY,link={self.files[end]},rawer", way]
            self.socats[end] = subprocess.Popen(words, stderr=subprocess.DEVNULL)
        if not awaited(lambda: all(map(os.path.exists, self.files)), bool, PATIENCE):
            raise TimeoutError("`socat` makes no terminal")

    def kill(self, end):
        """Kills `socat` at an end. The name of its terminal goes with it, since the system gives its number to the next one."""
        self.socats[end].kill()
        self.socats[end].wait()
        if os.path.lexists(self.files[end]):
            os.unlink(self.files[end])

    def close(self):
        for end in (0, 1):
            if self.socats[end]:
                self.kill(end)
