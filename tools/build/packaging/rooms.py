"""Where tools/build/release_test uses the packages: a fresh folder, a bare root, and the system of a bare root, started.

Each command has a time by which it ends, with all that it has started.
"""

import os
import pathlib
import select
import subprocess
import sys
import time

NOBODY = "65534"
PATH = "/usr/local/bin:/usr/bin:/bin:/usr/sbin:/sbin"
HERE = pathlib.Path(__file__).resolve().parent
ROOT_S, BOOT_S, OFF_S, COMMAND_S = 120, 120, 60, 600  # (on a busy machine too)
# Sets the loopback up (SIOCSIFFLAGS: IFF_UP, IFF_LOOPBACK, IFF_RUNNING).
LOOPBACK = """
import fcntl, socket, struct
with socket.socket() as made:
    fcntl.ioctl(made, 0x8914, struct.pack("16sh22x", b"lo", 0x49))
"""
# Asks the station at an address and a port for a session until it answers, and prints the time of that. The first line says that it has begun.
ASK = """
import socket, sys, time
print("begun", flush=True)
while True:
    with socket.socket() as peer:
        peer.settimeout(2)
        try:
            peer.connect((sys.argv[1], int(sys.argv[2])))
            peer.sendall(bytes.fromhex("65000400" + 20 * "00" + "01000000"))
            if peer.recv(28)[:2] == b"e\\0":
                print(time.monotonic())
                break
        except OSError:
            pass
    time.sleep(0.0005)
"""


def wait_for(text, process, seconds):
    """What a process printed up to a text; an OSError with it, if the process ends before, or says nothing for so long."""
    said, end = b"", time.monotonic() + seconds
    while text not in said:
        ready, _, _ = select.select([process.stdout], [], [], max(0, end - time.monotonic()))
        more = os.read(process.stdout.fileno(), 4096) if ready else b""
        said += more
        if not more:
            raise OSError(said.decode(errors="replace").strip() or ("it is refused" if ready else f"nothing is said for {seconds} s"))
    return said.decode()


def at_real_time(priority):
    """What stands before a command so that no load of this machine delays it; nothing where the machine gives no such priority."""
    words = ["chrt", "-f", str(priority)]
    try:
        return words if subprocess.run([*words, "true"], stderr=subprocess.DEVNULL, timeout=COMMAND_S).returncode == 0 else []
    except OSError:
        return []


def ended(process, seconds):
    """The status of a process; none, and it is killed, if it has not ended after so long."""
    try:
        return process.wait(seconds)
    except subprocess.TimeoutExpired:
        process.kill()
        process.wait()
        return None


class Folder:
    """A fresh folder of this system, where commands have an empty environment. Nothing is installed."""

    is_bare = may_install = is_debian = is_installed = False

    def __init__(self, folder, free_port):
        self.home = pathlib.Path(folder) / "home"
        self.home.mkdir()
        # (the usual ports of this host may be those of another clone that tests)
        self.tcp, self.udp = free_port(), free_port(2)
        self.ports = f" --tcp {self.tcp} --udp {self.udp}"
        self.peer_ports = f" --peer-udp {self.udp}"
        self.etc, self.states = self.home / "etc", self.home / "states"

    def words(self, words, as_root=False):
        return ["env", "-i", f"PATH={PATH}", f"HOME={self.home}", "LC_ALL=C.UTF-8", "sh", "-c", f'cd "$HOME" && {words}']

    def start(self, words, as_root=False, before=(), **streams):
        return subprocess.Popen([*before, *self.words(words, as_root)], stdin=subprocess.DEVNULL, **streams)

    def run(self, words, as_root=False, seconds=COMMAND_S, before=()):
        """The status of a shell's words and what was printed. The status is 124 if they took too long."""
        done = subprocess.run([*before, "timeout", "-k", "5", str(seconds), *self.words(words, as_root)], stdin=subprocess.DEVNULL, stdout=subprocess.PIPE,
                              stderr=subprocess.STDOUT)
        return done.returncode, done.stdout.decode(errors="replace")

    def has(self, name):
        return self.run(f"command -v {name}", True)[0] == 0

    def put(self, name, data):
        (self.home / name).write_bytes(data)

    def asking(self, address, before=()):
        return subprocess.Popen([*before, *self.inside("-n"), sys.executable, "-c", ASK, address, str(self.tcp)], stdout=subprocess.PIPE, text=True)

    def inside(self, *_):
        return []

    def close(self):
        pass


class BareRoot(Folder):
    """A root of its own, without the kit and this repository, with its own network: over the system's folders, or over those of `lower`."""

    is_bare, tcp, ports, peer_ports = True, 44818, "", ""
    etc, states = pathlib.Path("/etc/eip"), pathlib.Path("/var/lib/eip")

    def __init__(self, folder, lower):
        self.place = pathlib.Path(folder) / "bare"
        self.place.mkdir()
        self.is_debian = bool(lower)
        self.user = [] if os.geteuid() == 0 else ["--user", "--map-root-user"]
        # (the system's folders are root's, who is nobody in the names of another user)
        self.may_install = not self.user
        script = ["unshare", *self.user, "--mount", "--net", "sh", HERE / "bare_root.sh", self.place, lower]
        self.process = subprocess.Popen(script, stdin=subprocess.DEVNULL, stdout=subprocess.PIPE, stderr=subprocess.STDOUT)
        try:
            wait_for(b"ready\n", self.process, ROOT_S)
            self.home = pathlib.Path("/home/user")
            subprocess.run([*self.inside("-n"), sys.executable, "-c", LOOPBACK], check=True, timeout=ROOT_S)
        except (OSError, subprocess.SubprocessError) as fault:
            self.close()
            raise OSError(str(fault))

    def inside(self, *spaces):
        own = ["--user", "--preserve-credentials"] if self.user else []
        return ["nsenter", "-t", str(self.process.pid), *own, *spaces]

    def words(self, words, as_root=False):
        user = [] if as_root or self.user else ["-S", NOBODY, "-G", NOBODY]
        return [*self.inside("-m", "-n", "-r", "-w"), *user, *super().words(words)]

    def put(self, name, data):
        subprocess.run(self.words(f"cat > {name}"), input=data, check=True, timeout=COMMAND_S)

    def close(self):
        self.process.kill()
        self.process.wait()


def children_of(process):
    """The processes that a process has started."""
    found = []
    for file in pathlib.Path("/proc").glob("[0-9]*/stat"):
        try:
            text = file.read_text()
        except OSError:
            continue
        if int(text.rpartition(")")[2].split()[1]) == process:
            found.append(int(text.split(" ", 1)[0]))
    return found


class System(BareRoot):
    """The system of a bare root, started by systemd as its first process."""

    def __init__(self, room):
        self.room, self.home, self.user = room, room.home, []
        self.process = subprocess.Popen([*room.inside("-m", "-n"), "sh", HERE / "boot.sh", f"{room.place}/root"], stdin=subprocess.DEVNULL,
                                        stdout=subprocess.PIPE, stderr=subprocess.STDOUT)
        try:
            self.parent = int(wait_for(b"\n", self.process, BOOT_S).split()[1])
            self.first = None
            self.wait_until_started()
        except (OSError, ValueError, IndexError) as fault:
            self.close()
            raise OSError(str(fault))

    def wait_until_started(self):
        end, said = time.monotonic() + BOOT_S, ""
        while said not in ("running", "degraded"):
            if self.process.poll() is not None or time.monotonic() > end:
                raise OSError(f"systemd does not start: {said or 'it says nothing'}")
            time.sleep(0.05)
            self.first = next(iter(children_of(self.parent)), None)
            if self.first:
                said = self.run("systemctl is-system-running", True, 10)[1].strip()

    def inside(self, *spaces):
        return ["nsenter", "-t", str(self.first), *spaces, *(["-p"] if "-r" in spaces else [])]

    def off(self):
        """Ends the system in order. Answers whether it ended in time."""
        self.run("systemctl poweroff", True, OFF_S)
        try:
            return self.process.wait(OFF_S) == 0
        except subprocess.TimeoutExpired:
            self.close()
            return False

    def close(self):
        if self.process.poll() is None:
            self.process.terminate()
            ended(self.process, OFF_S)
