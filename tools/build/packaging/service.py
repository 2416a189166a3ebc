"""A station as a service: what its unit says, a station that is started so, and the system of a bare root that starts it by itself."""

import os
import pathlib
import re
import subprocess
import time

from rooms import System, at_real_time, ended

SERVES_WITHIN_MS, STARTS = 50, 20  # of so many starts the best one is judged
DRAWN_USER = "61184"  # the first one of those that systemd draws (DynamicUser)
ADDRESS, PRIORITY, OF_TEST = "127.0.0.10", 20, 30
ANSWER_S, END_S = 60, 12
# What a station keeps: of its last start the incarnation, the device's serial number and the first connection serial number; the place of the
# circle of connection ids from which on none was reserved, and how many are left.
KEPT = re.compile(r"incarnation (\d+)\nserial (\d+)\nserials (\d+)\nids (\d+) (\d+)\n")
IDS, BLOCK = 2**32 - 1, 4096  # of the circle of connection ids, and of those that a life reserves at a time
SERIALS_ON = 257 * 128  # how far on the connection serial numbers of the next start begin: 257 of 65,535 numbers before those of another start
# What a station's unit has to say: a user and a folder of its own, no privilege, a start at boot and after a failure.
SAID = {
    "StateDirectory": "eip/%i", "StateDirectoryMode": "0700", "UMask": "0077", "CapabilityBoundingSet": "", "NoNewPrivileges": "yes",
    "ProtectSystem": "strict", "CPUSchedulingPolicy": "fifo", "CPUSchedulingPriority": str(PRIORITY), "Restart": "on-failure", "KillMode": "mixed",
    "WantedBy": "multi-user.target",
}


class Unit:
    """What a unit says."""

    def __init__(self, text):
        self.said = dict(re.findall(r"^(\w+)=(.*)$", text, re.M))

    def user(self):
        """Whom a station runs as: a number, or a name."""
        return DRAWN_USER if self.said.get("DynamicUser") == "yes" else self.said.get("User", "root")

    def faults(self):
        found = [f"{key}={self.said.get(key, 'is not said')} in place of {value}" for key, value in SAID.items() if self.said.get(key) != value]
        found += ["its user is root"] if self.user() in ("root", "0") else []
        return found + ([] if "--state %S/eip/%i/state" in self.said.get("ExecStart", "") else ["its starts are not counted in the state folder"])

    def command(self, room, name):
        """The words of a shell that do as the unit says, for a station of a name. Without root they change no user."""
        folder, options = room.states / name, dict(re.findall(r"(\w+)=(\S+)", self.said["Environment"]))
        words = self.said["ExecStart"].replace("%S/eip/%i", str(folder)).replace("/etc/eip/%i", f"{room.etc}/{name}")
        words = words if room.is_installed else re.sub(r"^/usr(/local)?/bin", str(room.bin), words)
        user, before = self.user(), ""
        if room.may_install:
            before = f"setpriv --reuid={user} --regid={user} --clear-groups --no-new-privs --inh-caps=-all --bounding-set=-all "
            before = (f"chrt -f {PRIORITY} " if room.run("chrt -f 1 true", True)[0] == 0 else "") + before
        given = "".join(f"{key}='{value}{room.ports if key == 'EIP_OPTIONS' else ''}'; " for key, value in options.items())
        return f"umask {self.said.get('UMask', '0022')}; cd {folder}; {given}exec {before}{words}"

    def make_folder(self, room, name, profile):
        """The profile, and the state folder as systemd makes it."""
        folder, user = room.states / name, self.user()
        own = f"chown {user}:{user} {folder}" if room.may_install else "true"
        words = f"mkdir -p {room.etc} {room.states} && cp {profile} {room.etc}/{name}.profile && mkdir -m {self.said.get('StateDirectoryMode', '0755')} {folder} && {own}"
        return room.run(words, True)


# WHAT IS SEEN OF A STATION

def state_of(room, name):
    """The numbers of a station's state file; nothing if there is no state."""
    kept = KEPT.fullmatch(room.run(f"cat {room.states}/{name}/state", True)[1])
    return tuple(map(int, kept.groups())) if kept else ()


def follows(first, second):
    """Whether a start follows another one: the next incarnation, the same device, serial numbers half a circle away, connection ids behind all of the other's."""
    given = first[4] - second[4]
    return second[:3] == (first[0] % 255 + 1, first[1], (first[2] - 1 + SERIALS_ON) % 65535 + 1) and given > 0 and (second[3] - first[3] - given) % IDS == 0


def follow(states):
    """Whether each start follows the one before it."""
    return len(states) > 1 and all(states) and all(follows(first, second) for first, second in zip(states, states[1:]))


def is_ended(serving, ended):
    """Whether an end in order left the second state of the first one: the same start, which has given back ids of its block."""
    back = ended[4] - serving[4] if serving and ended else 0
    return ended[:3] == serving[:3] and 0 < back < BLOCK and (serving[3] - ended[3] - back) % IDS == 0


def stations_in(room):
    """The processes of stations in the network of a room."""
    network = os.stat(f"/proc/{room.process.pid}/ns/net").st_ino
    for file in pathlib.Path("/proc").glob("[0-9]*/comm"):
        try:
            if file.read_text().startswith("eip_station") and os.stat(file.parent / "ns/net").st_ino == network:
                yield int(file.parent.name)
        except OSError:
            pass


def privileges(bench, room, name):
    """A station runs as a user of its own, without a privilege, at real-time priority, and keeps its state to itself."""
    wrong, users = [], set()
    for process in stations_in(room):
        said = dict(re.findall(r"^(\w+):\s*(.*)$", pathlib.Path(f"/proc/{process}/status").read_text(), re.M))
        users.update(said["Uid"].split())
        wrong += [f"{key} {said[key]}" for key in ("CapPrm", "CapEff", "CapBnd", "CapAmb") if int(said[key], 16)]
        wrong += [] if said["NoNewPrivs"] == "1" else ["new privileges are possible"]
        wrong += [] if os.sched_getscheduler(process) == os.SCHED_FIFO else ["no real-time priority"]
    if room.run("chrt -f 1 true", True)[0]:
        bench.left_out("real-time priority, which this machine does not give")
        wrong = [it for it in wrong if it != "no real-time priority"]
    bench.judge(len(users) == 1 and "0" not in users and not wrong, f"it runs as a user of its own, {'/'.join(users)}, with no privilege", f"{users} {wrong}")
    said = room.run(f"stat -Lc '%a %u' {room.states}/{name} {room.states}/{name}/state", True)[1].splitlines()
    bench.judge(said == [f"700 {it}" for it in users] + [f"600 {it}" for it in users], "its state folder and its state are its own user's alone", str(said))


def answered(room, address=ADDRESS, seconds=ANSWER_S):
    """The time at which a station answers; none if it does not."""
    asking = room.asking(address)
    try:
        said = asking.communicate(timeout=seconds)[0].split()
        return float(said[-1])
    except (subprocess.TimeoutExpired, ValueError, IndexError):
        asking.kill()
        asking.wait()
        return None


# STARTED AS THE UNIT SAYS

def one_start(room, words, within=lambda: None):
    """The milliseconds from the start of a station to its first answer, and the status of its end by TERM; none for what did not come."""
    asking = room.asking(ADDRESS, at_real_time(OF_TEST))
    asking.stdout.readline()
    before = at_real_time(PRIORITY)
    begin = time.monotonic()
    station = room.start(words, room.may_install, before, stdout=subprocess.DEVNULL)
    try:
        taken = (float(asking.communicate(timeout=ANSWER_S)[0]) - begin) * 1000
        within()
    except (subprocess.TimeoutExpired, ValueError):
        asking.kill()
        taken = None
    station.terminate()
    return taken, ended(station, END_S)


def as_the_unit_says(bench, room, text, profile):
    """Starts a station as its unit says, several times."""
    unit = Unit(text)
    bench.judge(not unit.faults(), "the unit says what a station needs, and gives it no more", "; ".join(unit.faults()))
    if room.may_install and unit.user() in ("root", "0"):
        return
    status, said = unit.make_folder(room, "tank", profile)
    bench.judge(status == 0, "the state folder is made", said)
    words, states, times = unit.command(room, "tank"), [], []
    while len(times) < 3 or min(times) >= SERVES_WITHIN_MS and len(times) < STARTS:
        seen = (lambda: privileges(bench, room, "tank")) if room.may_install and not times else lambda: None
        taken, status = one_start(room, words, seen)
        if not bench.judge(taken is not None and status == 0, f"start {len(times) + 1} serves, and TERM ends it in order", f"{taken} ms, status {status}"):
            return
        times.append(taken)
        states.append(state_of(room, "tank"))
    said = f"a station serves {', '.join(f'{it:.0f}' for it in times)} ms after its start"
    if min(times) < SERVES_WITHIN_MS or at_real_time(PRIORITY):
        bench.judge(min(times) < SERVES_WITHIN_MS, said)
    else:
        bench.left_out(f"a start within {SERVES_WITHIN_MS} ms, on a machine that gives no real-time priority: {said}")
    bench.judge(follow(states), f"incarnations, connection serial numbers and ids follow one another, and the serial number stays: {states}", str(states))


# STARTED BY THE SYSTEM

def by_the_system(bench, room, commands):
    """The system starts with systemd, twice: a station that is enabled in the first life serves in the second by itself, and after a failure."""
    states = []
    try:
        system = System(room)
    except OSError as fault:
        bench.left_out(f"systemd as the first process of a bare root: {fault}")
        return
    try:
        for words in commands:
            status, said = system.run(words, True)
            bench.judge(status == 0, words, said)
        enabled_and_serves(bench, system, "a station that is enabled serves", states)
        bench.judge(system.off(), "the system ends in order, in time")
        system = System(room)
        enabled_and_serves(bench, system, "after the next start of the system it serves by itself", states)
        ended_by_others(bench, system, states)
        bench.judge(system.off(), "the system ends in order, in time")
    except OSError as fault:
        bench.judge(False, "the system starts again", str(fault))
    finally:
        system.close()
    bench.judge(follow(states), f"of each start incarnation, connection serial numbers and ids follow, and the serial number stays: {states}", str(states))


def enabled_and_serves(bench, system, what, states):
    serves = answered(system) is not None
    said = "" if serves else system.run("systemctl status --no-pager -l eip-station@pump; journalctl --no-pager -u eip-station@pump | tail -n 20", True)[1]
    bench.judge(serves, what, said)
    privileges(bench, system, "pump")
    states.append(state_of(system, "pump"))


def ended_by_others(bench, system, states):
    """A station that is killed starts again; one that is stopped ends in order; when the package is removed it ends in order, and its state stays."""
    system.run("systemctl kill -s KILL eip-station@pump", True)
    end = time.monotonic() + ANSWER_S
    while state_of(system, "pump") == states[-1] and time.monotonic() < end:
        time.sleep(0.1)
    enabled_and_serves(bench, system, "after it is killed it starts again", states)
    status, said = system.run("systemctl stop eip-station@pump && systemctl show -p Result -p ExecMainStatus eip-station@pump", True)
    bench.judge((status, {*said.split()}) == (0, {"Result=success", "ExecMainStatus=0"}), "systemctl stop ends it in order", said)
    status, said = system.run("systemctl start eip-station@pump", True)
    serves = answered(system) is not None
    states.append(state_of(system, "pump"))
    removed, printed = system.run("dpkg -r eip", True)
    bench.judge(serves and status == removed == 0 and not [*stations_in(system)] and is_ended(states[-1], state_of(system, "pump")),
                "when the package is removed a station ends in order, and its state stays", said + printed)
