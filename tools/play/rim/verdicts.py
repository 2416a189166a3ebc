"""Scripts with verdicts: what they say of their lines, the status, and the report, at a station and at a plant, of an adapter of our own
and of one of somebody else's with a bug on purpose."""

import contextlib, re, subprocess, sys, time
from xml.etree import ElementTree
from rim.host import TOP, last, run, sure

SCRIPTS = f"{TOP}/examples/scripts"
NO_CONDITION = ("a condition is output POINT = HEX, image SLOT = HEX, slot N and idle, opening, established, timed-out or closing, "
                "or owner POINT and none, lost, run, idle or of NODE")
BAD = {
    "# no do\nat 100 when output 150 = 00 write 100 01": "line 2: behind when is a condition, and do, and what is done",
    "at 100 expect output 150 00": f"line 1: {NO_CONDITION}", "at 100 expect slot 0 open": f"line 1: {NO_CONDITION}",
    "at 100 expect within soon output 150 = 00": "line 1: a time is a number of milliseconds up to 4294967295, and behind every it is not 0",
    "when owner 150 lost do fail": "line 1: behind fail is a text of 1 to 200 bytes without control characters",
    "at 100 pass now": "line 1: a call is write, read, mode, start, stop, cut, pause, restart or send, and the words behind it; else it is expect, fail or pass",
    "at 100 pass\n\ndevice a b": "line 3: a line of a script begins with at, every or when",
}
OWNER = "scanner 1 {node} 0 7 1000 1000\nslot {target} exclusive - 150 100 4 4 10000 10000 2 p2p - -\n"
WATCHER = "scanner 1 {node} 0 8 1000 1000\nslot {target} input - 152 100 0 4 10000 10000 2 p2p - -\n"


def ended(bench, host, *words, seconds=60):
    """A station or a plant that has ended: its status, its lines, and what it reported."""
    done = run(*bench.network.at(host), bench.program, *words, "--report", bench.file("report.xml"), stdin=subprocess.DEVNULL, timeout=seconds)
    return done.returncode, done.stdout.decode().splitlines(), done.stderr.decode().splitlines()


def cases(bench):
    """The cases of the report: what each says, and why it failed, or None."""
    suites = ElementTree.parse(bench.file("report.xml")).getroot()
    found = {}
    for case in suites.iter("testcase"):
        failure = case.find("failure")
        found[case.get("classname"), case.get("name")] = None if failure is None else failure.get("message")
    counted = sum(int(suite.get("tests")) for suite in suites), sum(int(suite.get("failures")) for suite in suites)
    sure(counted == (len(found), sum(why is not None for why in found.values())), f"the report counts its {counted[0]} cases and {counted[1]} failures")
    return found


def told(lines):
    """What a script said of its lines, without numbers and times."""
    return [found[1] for line in lines if (found := re.fullmatch(r"(?:\S+ )?\d+ at \d+ ((?:met|failed|passed) .*)", line))]


def run_verdicts(bench):
    """A script at a station: all is met; and all that can go wrong does."""
    profile = bench.file("adapter.profile")
    status, lines, said = ended(bench, "adapter", "adapter", profile, "--seconds", "2", "--no-input", "--script", f"{SCRIPTS}/holds.script")
    wanted = ["met 1 output 150 = 00000000 after 0", "met 2 owner 150 none after 0", "met 3 output 100 = 00000000 after 0",
              "met 5 output 100 = 01020304 after 0", "passed 6"]
    sure(status == 0 and sorted(told(lines)) == sorted(wanted), f"a script whose lines are met passes: {told(lines)}")
    sure(said[-1].endswith("its script has passed: 5 lines judge, 0 failed, 0 skipped"), f"it says so: {said[-1]}")
    sure(set(cases(bench).values()) == {None}, "and so does the report")
    status, lines, said = ended(bench, "adapter", "adapter", profile, "--seconds", "2", "--no-input", "--script", f"{SCRIPTS}/fails.script")
    wanted = ["failed 1 output 150 = 01020304 within 200, but 00000000", "failed 2 owner 77 none, but no such point"]
    sure(status == 8 and sorted(told(lines)) == sorted(wanted), f"a script whose lines are not met ends with status 8: {told(lines)}")
    sure(said[-1].endswith("its script has not passed: 5 lines judge, 4 failed, 0 skipped"), f"it says so: {said[-1]}")
    whys = {name: why for (_, name), why in cases(bench).items()}
    sure(whys == {"1: expect within 200 output 150 = 01020304": "output 150 = 01020304 within 200, but 00000000",
                  "2: expect owner 77 none": "owner 77 none, but no such point", "3: expect output 150 = 00000000": "was not reached",
                  "4: fail nobody is there": None, "5: pass": "was not reached"}, f"and so does the report: {whys}")


def run_bad_scripts(bench):
    """Each bad line of a script has its sentence, and the status is 3."""
    for text, wrong in BAD.items():
        path = bench.write_exactly("bad.script", text)
        done = run(bench.program, "adapter", bench.file("adapter.profile"), "--script", path, stdin=subprocess.DEVNULL, timeout=20)
        sure((done.returncode, last(done)) == (3, f"eip_station: {path}: {wrong}"), f"a bad line of a script is told: {last(done)}")
    keep_files(bench)


def keep_files(bench):
    """A report takes the place of nothing but a report: of a profile, a plant or a folder it says why not, and they stay."""
    profile = bench.write_exactly("kept.profile", open(bench.file("adapter.profile")).read())
    plant = bench.write_exactly("kept.plant", f"device a {bench.file('adapter.profile')}\nseconds 1\n")
    for kind, path in (("adapter", profile), ("plant", plant)):
        before = open(path).read()
        done = run(bench.program, kind, path, "--no-input", "--report", path, stdin=subprocess.DEVNULL, timeout=20)
        wanted = "eip_station: the report is not written: another file is there"
        sure((done.returncode, last(done), open(path).read()) == (6, wanted, before), f"a report replaces no {kind}: {last(done)}")
    done = run(bench.program, "adapter", profile, "--no-input", "--report", bench.folder, stdin=subprocess.DEVNULL, timeout=20)
    sure((done.returncode, last(done)) == (6, "eip_station: the report cannot be written"), f"nor a folder: {last(done)}")


def run_stop(bench):
    """The worked test of a machine stop: within twice the watchdog all outputs are safe."""
    done = run(bench.program, "plant", f"{TOP}/examples/plant/stop.plant", "--no-input", "--report", bench.file("report.xml"), stdin=subprocess.DEVNULL, timeout=60)
    sure(done.returncode == 0, f"examples/plant/stop.plant passes: {last(done)}")
    sure(set(cases(bench).values()) == {None}, "so does its report")


def run_foreign(bench):
    """Somebody else's adapter, whose output an input shows: it is safe once its owner is lost, and with a bug on purpose it is not. It
    serves one connection at a time, so the watcher waits for the loss."""
    target, owner, watcher = bench.network.extra[:3]
    bench.write_exactly("of_owner.profile", OWNER.format(node=owner, target=target))
    bench.write_exactly("of_watcher.profile", WATCHER.format(node=watcher, target=target))
    text = ("device owner of_owner.profile\n  at 0 mode run\n  at 0 write 0 11223344\n  at 0 expect within 4000 image 0 = 11223344\n  at 5000 pause 9000\n"
            "device watcher of_watcher.profile\n  at 0 stop 0\n  at 6000 start 0\n  at 7000 expect within 1000 slot 0 established\n  at 7000 expect within 1000 image 0 = 00000000\n  at 8500 pass\nseconds 9\n")
    path = bench.write_exactly("foreign.plant", text)
    for bug, wanted in ((), None), (("--keep-output",), "image 0 = 00000000 within 1000, but 11223344"):
        words = [sys.executable, f"{TOP}/tools/peers/small_adapter.py", "--own", target, "--echo", "--seconds", "12", *bug]
        peer = subprocess.Popen([*bench.network.at("peer"), *words], stdout=subprocess.PIPE, stderr=subprocess.STDOUT)
        bench.later(contextlib.ExitStack()).callback(peer.kill)
        time.sleep(1)
        status, lines, said = ended(bench, "peer", "plant", path, "--no-input")
        peer.kill()
        why = cases(bench)["watcher", "4: expect within 1000 image 0 = 00000000"]
        sure((status, why) == (8 if bug else 0, wanted), f"an adapter {'that keeps its output' if bug else 'whose output is safe'}: status {status}, {why}; {said[-4:]}")
