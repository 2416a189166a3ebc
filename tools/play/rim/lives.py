"""Many lives of a station: nothing of one is taken for another's. Who a station says that it is."""

import contextlib, os, re, shutil, signal, socket, struct, subprocess, time
from rim.host import ADAPTER, TOP, Station, free_port, listens, need, run, sure, until, wait
from rim.peers import Originator, originator, served

TWO = ("adapter 16 {adapter} 255.255.255.0 1 12 7 2 3\noutput 150 4 zero zero\noutput 160 4 zero zero\n"
       "input 100 4\ninput 101 4\nheartbeat 152 153\n")
OTHER = "adapter 16 {reader} 255.255.255.0 1 12 7 2 3\noutput 150 4 zero zero\ninput 100 4\nheartbeat 152 153\n"
SCANNER = "scanner 32 {owner} 1 101 1000 1000\n"
CAST = "slot {reader} input - 152 100 0 4 10000 10000 7 multicast - -\n"
FIRST, SECOND = (f"slot {{adapter}} input - 152 {point} 0 4 10000 10000 7 p2p - -\n" for point in (100, 101))
MARK = "EIP_TEST_FOLDER"  # names a variable of the environment, by which processes are found


def incarnation_of(trace):
    """The incarnation of a record's profile, or of a state; None before it is there. (A station's port is open before its record begins.)"""
    with contextlib.suppress(FileNotFoundError), open(trace) as file:
        for line in file:
            if line.split()[:1] in (["adapter"], ["scanner"], ["incarnation"]):
                return int(line.split()[1])


def run_adapter_lives(bench):
    """An adapter is killed and begins again, while the producers of its first life's owners go on."""
    bench.write("two.profile", TWO)
    adapter = bench.adapter("--record", bench.file("life1.trace"), profile="two", log="life1")
    before = Originator(bench)
    first = before.open()
    second = before.open(output=160)
    feeders = [bench.later(before.feed(first, "aaaaaaaa")), bench.later(before.feed(second, "bbbbbbbb"))]
    watch = Originator(bench, own=bench.network.extra[0])
    wait(lambda: (watch.read(150), watch.read(160)) == ("aaaaaaaa", "bbbbbbbb"), "the first life's owners set both outputs")
    adapter.kill()
    adapter = bench.adapter("--record", bench.file("life2.trace"), profile="two", log="life2")
    watch, again = Originator(bench, own=bench.network.extra[0]), Originator(bench)
    late = again.open(output=160)
    early = again.open()
    seen = watched(watch, 1.0)
    need(seen <= {("00000000", "00000000")}, f"before their owners speak, the outputs hold {seen}")
    feeders += [bench.later(again.feed(late, "b2b2b2b2")), bench.later(again.feed(early, "a1a1a1a1"))]
    seen = watched(watch, 1.0, ("a1a1a1a1", "b2b2b2b2"))
    need(seen <= {(a, b) for a in ("00000000", "a1a1a1a1") for b in ("00000000", "b2b2b2b2")}, f"the outputs hold {seen}")
    need(("a1a1a1a1", "b2b2b2b2") in seen, f"the owners set both outputs, and not {seen}")
    for it in feeders:
        it.stop()
    need(adapter.end() == 0, "the adapter ends with status 0")
    lives = [incarnation_of(bench.file(f"life{life}.trace")) for life in (1, 2)]
    sure(lives[0] != lives[1], f"an adapter was killed and began again, its owners in another order: no output took another's data "
         f"(incarnations {lives[0]} and {lives[1]})")
    bench.clear()


def watched(watch, seconds, wanted=None):
    """What the two outputs held for some seconds, and until they have held what is wanted: on a busy machine that takes long."""
    seen, begin = set(), time.monotonic()
    while time.monotonic() < begin + seconds or wanted and wanted not in seen and time.monotonic() < begin + 15:
        seen.add((watch.read(150), watch.read(160)))
    return seen


def run_scanner_lives(bench):
    """A scanner is killed and begins again with its slots in another order, while its target's producers go on."""
    bench.write("two.profile", TWO)
    bench.write("other.profile", OTHER)
    other = Station(bench, "reader", "adapter", bench.file("other.profile"))
    wait(lambda: listens(bench.network, "reader", bench.address["reader"]), "the other target listens")
    bench.write("slots.profile", SCANNER + CAST + FIRST + SECOND)
    scanner = bench.scanner("owner", "--record", bench.file("slots1.trace"), profile="slots", log="slots1")
    scanner.call("start 1", "start 2")
    # (it has the first serial number and no connection id, so the ids of the other slots are one behind the serial numbers)
    wait(scanner.is_established, "the slot of the other target is established")
    adapter = bench.adapter(profile="two", log="targets")
    wait(lambda: scanner.is_established(1) and scanner.is_established(2), "three slots are established", 20)
    for number in range(0xC0, 0xC8):  # (data that are new have a new count)
        adapter.call(f"write 100 {number:02x}{number:02x}0000", f"write 101 {number + 16:02x}{number + 16:02x}0000")
        wait(lambda: all(any(line.endswith(f"image {slot} {value:02x}{value:02x}0000") for line in scanner.lines())
                         for slot, value in ((1, number), (2, number + 16))), "the inputs reach their images")
    other.kill()
    scanner.kill()
    bench.write("slots.profile", SCANNER + SECOND + FIRST + CAST)
    scanner = bench.scanner("owner", "--record", bench.file("slots2.trace"), profile="slots", log="slots2")
    scanner.call("start 1", "start 2")
    wait(scanner.is_established, "the first slot is established again")
    time.sleep(2)
    images = {" ".join(line.split()[-2:]) for line in scanner.lines() if " image " in line and not line.startswith("0 ")}
    need("0 d7d70000" in images and images <= {"0 d7d70000", "1 c7c70000"}, f"the images hold {sorted(images)}")
    need(scanner.end() == 0 == adapter.end(), "the stations end with status 0")
    lives = [incarnation_of(bench.file(f"slots{life}.trace")) for life in (1, 2)]
    sure(lives[0] != lives[1], f"a scanner was killed and began again, its slots in another order: no image took another's data "
         f"(incarnations {lives[0]} and {lives[1]})")


def run_counting(bench):
    """The state file."""
    state = bench.file("adapter.profile.state")
    seen = []
    for life in range(3):
        trace = bench.file(f"count{life}.trace")
        adapter = bench.adapter("--record", trace, log="count")
        wait(lambda: incarnation_of(trace) and incarnation_of(trace) == incarnation_of(state), "the record has its profile, and the start is counted")
        seen.append(incarnation_of(trace))
        adapter.kill()
    with open(state) as file:
        text = file.read()
    found = re.fullmatch(r"incarnation (\d+)\nserial (\d+)\nserials (\d+)\nids (\d+) (\d+)\n", text)
    need(found and int(found[1]) == seen[-1] and int(found[2]) > 0, f"the state file: {text!r}")
    need(seen == [seen[0], seen[0] + 1, seen[0] + 2], f"three starts: {seen}")
    sure(not os.path.exists(state + ".new"), f"three starts that were killed have the incarnations {seen}")
    bench.write("adapter.profile.state", f"incarnation 255\nserial {found[2]}\nserials 32640\n")
    adapter = bench.adapter("--record", bench.file("count.trace"), log="count")
    need(adapter.end() == 0, "the adapter ends with status 0")
    with open(state) as file:
        text = file.read()
    begins = f"incarnation 1\nserial {found[2]}\nserials 1\nids "
    sure(incarnation_of(bench.file("count.trace")) == 1 and text.startswith(begins), f"255 is followed by 1: {text!r}")
    elsewhere = bench.file("elsewhere.state")
    adapter = bench.adapter("--state", elsewhere, log="count")
    need(adapter.end() == 0, "the adapter ends with status 0")
    need(os.path.exists(elsewhere), "--state names the state file")
    files = {file: os.stat(bench.file(file)).st_mtime_ns for file in os.listdir(bench.folder) if ".state" in file}
    adapter = bench.adapter("--incarnation", "9", "--record", bench.file("count.trace"), log="count")
    need(adapter.end() == 0, "the adapter ends with status 0")
    after = {file: os.stat(bench.file(file)).st_mtime_ns for file in os.listdir(bench.folder) if ".state" in file}
    sure(incarnation_of(bench.file("count.trace")) == 9 and after == files, "--incarnation alone reads and writes no state file")
    run_bad_states(bench)


def run_bad_states(bench):
    os.mkdir(bench.file("folder.state"))
    bad = {"a folder": (bench.file("folder.state"), 3), "no folder": (bench.file("none/a.state"), 6)}
    for what, text in [("an empty file", ""), ("incarnation 0", "incarnation 0\nserial 1\n"), ("256", "incarnation 256\nserial 1\n"),
                       ("half a file", "incarnation 7\n"), ("other words", "count 3\n"), ("more lines", "incarnation 7\nserial 1\nx\n"),
                       ("serials 0", "incarnation 7\nserial 1\nserials 0\n"), ("65536", "incarnation 7\nserial 1\nserials 65536\n"),
                       ("ids 0", "incarnation 7\nserial 1\nserials 1\nids 0 5\n"), ("one number", "incarnation 7\nserial 1\nserials 1\nids 5\n"),
                       ("an id too large", "incarnation 7\nserial 1\nserials 1\nids 4294967296 5\n"),
                       ("ids before serials", "incarnation 7\nserial 1\nids 1 5\nserials 1\n"),
                       ("lines behind ids", "incarnation 7\nserial 1\nserials 1\nids 1 5\nx\n")]:
        bad[what] = (bench.write(f"bad{len(bad)}.state", text), 3)
    for what, (path, status) in bad.items():
        words = [bench.program, "adapter", bench.file("adapter.profile"), "--state", path, "--seconds", "1"]
        done = run(*bench.network.at("adapter"), *words, stdin=subprocess.PIPE)
        lines = done.stderr.decode().splitlines()
        clear = len(lines) == 1 and path in lines[0] and "--state" in lines[0] and "--incarnation" in lines[0]
        need(done.returncode == status and clear, f"the state file is {what}: status {done.returncode}, {lines}")
    sure(not os.path.exists(bench.file("none")), f"{len(bad)} bad state files: one line with both ways out, and the status")


# WHO IT IS

CONTEXT = b"\1\0whoami"  # its first two bytes name 1 ms, so that a broadcast is answered within 500

def asked(bench, command, to, host="peer", broadcast=False, seconds=3.0, port=44818):
    """The reply's data to an encapsulation message over UDP, or None."""
    with bench.network.inside(host), socket.socket(socket.AF_INET, socket.SOCK_DGRAM) as udp:
        if broadcast:
            udp.setsockopt(socket.SOL_SOCKET, socket.SO_BROADCAST, 1)
            if not bench.network.own:
                udp.setsockopt(socket.SOL_SOCKET, socket.SO_BINDTODEVICE, b"lo\0")
        udp.bind((bench.address[host], 0))
        udp.settimeout(seconds)
        udp.sendto(struct.pack("<HHII8sI", command, 0, 0, 0, CONTEXT, 0), (to, port))
        try:
            reply = udp.recv(2048)
        except TimeoutError:
            return None
    with served(f"the reply to command {command:#x}"):
        got, length, _, status, context = struct.unpack("<HHII8s", reply[:20])
        originator.expect("command, status, context", (got, status, context), (command, 0, CONTEXT))
        originator.expect("the length", length, len(reply) - 24)
        return originator.items_of(reply[24:])


def identity(bench, to=None, **how):
    """Address, serial number and name that ListIdentity says over UDP, or None."""
    items = asked(bench, 0x63, to or bench.address["adapter"], **how)
    return items and said_in(items)


def said_in(items):
    [(kind, item)] = items
    need(kind == 12, f"the type of the identity item is {kind}")
    return socket.inet_ntoa(item[6:10]), struct.unpack("<I", item[28:32])[0], item[33:33 + item[32]].decode()


def identity_over_tcp(bench, to, port):
    with bench.network.inside("peer"), socket.create_connection((to, port), 3, (bench.address["peer"], 0)) as tcp:
        tcp.sendall(struct.pack("<HHII8sI", 0x63, 0, 0, 0, CONTEXT, 0))
        return said_in(originator.items_of(tcp.recv(2048)[24:]))


def run_identity(bench):
    seen = []
    for options in [(), (), ("--serial", "305419896", "--name", "Line 3, cell 7"), ("--incarnation", "5")]:
        adapter = bench.adapter(*options, log="identity")
        seen.append(identity(bench))
        need(adapter.end() == 0, "the adapter ends with status 0")
    address = bench.address["adapter"]
    need(seen[0] == (address, seen[1][1], "adapter") and seen[0] == seen[1], f"ListIdentity of two starts: {seen[:2]}")
    sure(seen[0][1] not in (0, struct.unpack("<I", socket.inet_aton(address))[0], struct.unpack(">I", socket.inet_aton(address))[0]),
         f"two starts have one serial number, which was drawn, and the profile's name: {seen[0]}")
    drawn = [seen[0][1], *(drawn_serial(bench, at) for at in range(2))]
    sure(len(set(drawn)) == 3, f"stations with state files of their own draw serial numbers of their own: {drawn}")
    sure(seen[2] == (address, 305419896, "Line 3, cell 7"), f"--serial and --name: {seen[2]}")
    sure(seen[3] == (address, 0, "adapter"), "without a state file the serial number is 0")
    run_everywhere(bench, seen[0][1])
    adapter = bench.adapter(log="identity")
    services = asked(bench, 4, address)
    need(services == [(0x100, struct.pack("<HH", 1, 0x120) + b"Communications\0\0")], f"ListServices over UDP: {services}")
    interfaces = asked(bench, 0x64, address)
    sure(interfaces == [], "ListServices and ListInterfaces are answered over UDP")
    run_command(bench, address, seen[0][1])
    here = identity(bench, bench.network.broadcast, broadcast=True)
    sure(here is not None and here[0] == address, "a directed broadcast is answered")
    need(adapter.end() == 0, "the adapter ends with status 0")
    port = free_port()  # (at the usual one the stations of another run answer, too)
    adapter = bench.adapter("--tcp", str(port), log="identity", port=port)
    here = identity(bench, "255.255.255.255", broadcast=True, port=port)
    sure(here is not None and here[0] == address, "a broadcast to 255.255.255.255 is answered")
    need(adapter.end() == 0, "the adapter ends with status 0")


def drawn_serial(bench, at):
    """The serial number that a station with a new state file draws."""
    adapter = bench.adapter("--state", bench.file(f"drawn{at}.state"), log="drawn")
    _, serial, _ = identity(bench)
    need(adapter.end() == 0, "the adapter ends with status 0")
    return serial


def run_command(bench, address, serial):
    """`eip_station identity` prints who answers, and says so if nobody does."""
    line = f"{address} vendor 1 type 12 product 7 revision 2.3 status 0030 serial {serial} state 3 name adapter\n"
    # (on loopback the system lends no broadcast without a socket of that device)
    for host in [address, bench.network.broadcast] if bench.network.own else [address]:
        found = run(*bench.network.at("peer"), bench.program, "identity", host)
        need((found.returncode, found.stdout.decode(), found.stderr) == (0, line, b""), f"identity {host}: {found}")
    nobody = run(*bench.network.at("peer"), bench.program, "identity", bench.network.extra[3], "--seconds", "1")
    sure((nobody.returncode, nobody.stdout, nobody.stderr) == (1, b"", b"eip_station: no device answered\n"),
         f"the command `identity` prints the adapter, and status 1 where nobody is: {nobody.stderr}")


def run_everywhere(bench, serial):
    """An adapter at 0.0.0.0 says the address of its profile, and not 0.0.0.0, wherever it is reached. Its ports are drawn: the usual ones
    are those of each station of this host."""
    address, port = bench.address["adapter"], free_port()
    adapter = bench.adapter("--address", "0.0.0.0", "--tcp", str(port), "--udp", str(free_port()), log="everywhere", port=port)
    there, here = identity_over_tcp(bench, address, port), identity(bench, port=port)
    need(there[:2] == (address, serial), f"at 0.0.0.0 ListIdentity over TCP: {there}")
    need(here is not None and here[:2] == (address, serial), f"at 0.0.0.0 ListIdentity over UDP: {here}")
    if bench.network.own:
        for to in bench.network.broadcast, "255.255.255.255":
            here = identity(bench, to, broadcast=True, port=port)
            need(here is not None and here[0] == address, f"at 0.0.0.0 a broadcast to {to} is answered: {here}")
    else:
        need(identity_over_tcp(bench, bench.network.extra[5], port)[0] == address, "the same at another address of the host")
    sure(adapter.end() == 0, "at 0.0.0.0 ListIdentity says the profile's address, and the serial number")
    bench.clear()


def run_version(bench):
    said = [run(program, "--version") for program in (bench.program, bench.line)]
    need([done.returncode for done in said] == [0, 0], f"--version: {said}")
    words = [done.stdout.decode().split() for done in said]
    sure(words[0][0] == "eip_station" and words[1][0] == "eip_line" and words[0][1:] == words[1][1:] and len(words[0]) == 2
         and re.fullmatch(r"\d+\.\d+\.\d+", words[0][1]), f"both programs have one version: {words[0][1:]}")


# THE SCRIPT

def script_words(bench):
    """What runs an adapter by a copy of bin/eip_station."""
    for name in "bin", "tools/build", "crates/eip_station/out", "crates/eip_station/src":
        os.makedirs(bench.file(name), exist_ok=True)
    for name in "bin/eip_station", "tools/build/built", "tools/build/below":
        shutil.copy(f"{TOP}/{name}", bench.file(name))
    bench.write("crates.txt", "eip_station:\n")
    program = bench.file("crates/eip_station/out/eip_station")
    shutil.copy(bench.program, program)
    return [*bench.network.at("adapter"), bench.file("bin/eip_station"), "adapter", bench.file("adapter.profile")]


def run_script(bench):
    """bin/eip_station is killed: the program ends, and its port is free."""
    words = script_words(bench)
    for it, options in [(signal.SIGKILL, []), (signal.SIGTERM, []), (signal.SIGKILL, ["--no-input"])]:
        run_script_until(bench, [*words, *options], it)


def run_script_until(bench, words, number):
    what = f"{signal.Signals(number).name} of bin/eip_station {' '.join(words[words.index('adapter') + 2:])}".strip()
    listening = lambda: listens(bench.network, "adapter", bench.address["adapter"])
    with open(bench.file("script.out"), "wb") as out:
        script = subprocess.Popen(words, stdin=subprocess.PIPE, stdout=out, stderr=out, env={**os.environ, MARK: bench.folder})
    if "--no-input" in words:
        script.stdin.close()
    try:
        wait(listening, "bin/eip_station listens")
        time.sleep(0.5)
        need(script.poll() is None, f"bin/eip_station has ended with status {script.returncode}")
        script.send_signal(number)
        script.wait(10)
        wait(lambda: not listening(), f"{what}: its port is free", 8)
        wait(lambda: not processes_of(bench.folder), f"{what}: no process is left", 8)
        sure(True, f"{what} ends the program: its port is free, and no process is left")
    finally:
        for it in processes_of(bench.folder):
            os.kill(it, signal.SIGKILL)
        script.kill()
        script.wait()
        script.stdin.close()


def processes_of(folder):
    """The processes that were started with this folder in their environment."""
    found, mark = [], f"{MARK}={folder}".encode()
    for it in os.listdir("/proc"):
        try:
            with open(f"/proc/{it}/environ", "rb") as file:
                if mark in file.read().split(b"\0"):
                    found.append(int(it))
        except OSError:
            continue
    return found
