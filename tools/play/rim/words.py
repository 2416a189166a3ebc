"""What a station says of itself, and of what it is given."""

import contextlib, re, select, signal, socket, subprocess, time
from bad_profiles import BAD_PROFILES, BAD_PROFILE_LINES
from rim.host import ADAPTER, OWNER, Station, free_port, holds, listens, need, run, sure, until, wait
from rim.peers import INPUT_ONLY, MULTICAST, POINT_TO_POINT, Originator, Silent, Target

CALLS = ["write POINT HEX", "read POINT", "mode run", "mode idle", "start SLOT", "stop SLOT",
         "get NODE CLASS INSTANCE ATTRIBUTE", "set NODE CLASS INSTANCE ATTRIBUTE HEX", "explicit NODE NUMBER HEX", "answer NUMBER STATUS HEX", "status"]
TRIES_S = 1.5  # seconds, in which there is another try: the first ones wait 1 s each (rule 24.4)
MUTE = "scanner 32 {owner} 1 101 1000 1000\nslot {adapter} input - 152 100 0 4 10000 10000 2 multicast - -\n"
NAMED = ADAPTER + "# name 150 Valves of tank 2\n# name 100 Levels\n# bit 150 0 4 Emergency stop\n# name 100 Again\n# bit 150 0 8 Ninth\n"
BAD_NAMES = {8: "an earlier line names the same", 9: "a name line is # name POINT TEXT, .*"}  # by the lines of NAMED
PRESS = OWNER.replace("{cast}", "p2p") + "# name slot 0 Press # 1\n# name 150 Nobody's\n"
FED = "slot {adapter} input - 152 100 0 4 10000 10000 2 p2p - -\n"


def run_input(bench):
    """The standard input of a service."""
    profile = bench.file("adapter.profile")
    station = Station(bench, "adapter", "adapter", profile, log="no_input", stdin=subprocess.DEVNULL)
    status = station.status(5)
    said = [line for line in station.said() if "standard input has ended" in line]
    sure(status == 0 and len(said) == 1 and "--no-input" in said[0], f"a station whose input has ended says why it ends: {said}")
    station = Station(bench, "adapter", "adapter", profile, "--no-input", "--seconds", "3", log="service", stdin=subprocess.DEVNULL)
    wait(lambda: listens(bench.network, "adapter", bench.address["adapter"]), "it listens", 3)
    Originator(bench).open(INPUT_ONLY, POINT_TO_POINT).close()
    sure(station.is_running(), "--no-input: an adapter without an input serves")
    sure(station.status(8) == 0, "--no-input --seconds 3: it ends with status 0")
    bench.clear()


def line_of(station, pattern, seconds=6):
    """Waits for a line of a station's standard error, and prints it."""
    form = re.compile(pattern)
    wait(lambda: any(form.fullmatch(line) for line in station.said()), lambda: f"{station.name} says {pattern}, and not {station.said()}", seconds)
    holds("says: " + next(line for line in station.said() if form.fullmatch(line)))


def run_lines(bench):
    """What an adapter and a scanner say on standard error."""
    adapter, peer = re.escape(bench.address["adapter"]), re.escape(bench.address["peer"])
    trace = bench.file("said.trace")
    station = bench.adapter("--record", trace, log="said")
    name = re.escape(bench.file("adapter.profile"))
    line_of(station, rf"eip_station: adapter ({name}|adapter\.profile) at {adapter}, TCP 44818, UDP 2222, incarnation \d+, record {re.escape(trace)}")
    first = Originator(bench)
    first.open(INPUT_ONLY, POINT_TO_POINT).close()
    line_of(station, rf"eip_station: stream \d+ of {peer} is open")
    first.close()
    line_of(station, rf"eip_station: stream \d+ of {peer} ended: its peer cut it")
    crowd = [Silent(bench, own) for own in bench.network.extra[:17]]
    line_of(station, r"eip_station: stream \d+ of [0-9.]+ ended: a new one took its place"
                     r"|eip_station: a connection of [0-9.]+ is refused: 16 streams are open")
    need(len(crowd) == 17, "17 addresses came")
    station.call("reed 100")
    no_calls = lambda: [line for line in station.said() if "is no call" in line]
    wait(no_calls, "a line that is no call is reported")
    time.sleep(0.2)
    sure(len(no_calls()) == 1 and all(call in no_calls()[0] for call in CALLS), f"a line that is no call gets the list of calls: {no_calls()}")
    need(station.end() == 0, "it ends with status 0")


def asked(station, pattern, text):
    """Asks a station for its state until a line of it has this form."""
    form = re.compile(r"\d+ at \d+ " + pattern)

    def answers():
        station.call("status")
        time.sleep(0.1)
        return any(form.fullmatch(line) for line in station.lines())

    until(answers, f"status: {text}")


def run_states(bench):
    """What the call `status` says of an owner that runs, and is lost."""
    peer = re.escape(bench.address["peer"])
    station = bench.adapter(log="states")
    asked(station, "owner 150 none", "an output has no owner")
    first = Originator(bench, consumed_ms=20, rpi_ms=10)
    feeder = first.feed(first.open(), "11223344")
    named = rf"connection [0-9a-f]{{8}} {peer} exclusive 150 100 api 20 10"
    asked(station, rf"owner 150 {peer} run age \d+", "its owner runs")
    asked(station, rf"{named} open run age \d+ received \d+ applied [1-9].* lost 0", "datagrams of its connection are counted")
    feeder.stop()
    asked(station, rf"{named} timed-out run age \d+ .*", "its connection timed out")
    owners = [line for line in station.lines() if " owner 150 " in line]
    sure(owners[-1].endswith("owner 150 none"), "an owner that timed out is none")
    need(station.end() == 0, "it ends with status 0")
    bench.clear()


def run_names(bench):
    """Names of points and of a slot stand behind the words of each line, and in a record in its comments alone."""
    bench.write("named.profile", NAMED)
    bench.write("press.profile", PRESS)
    adapter = bench.adapter("--record", bench.file("named.trace"), profile="named")
    for number, why in BAD_NAMES.items():
        line_of(adapter, rf"eip_station: {re.escape(bench.file('named.profile'))}: line {number}: {why}")
    owner, target, peer = bench.scanner("owner", profile="press"), re.escape(bench.address["adapter"]), re.escape(bench.address["owner"])
    wait(owner.is_established, "the scanner is established")
    sure(any(line.endswith(" note slot 0 3 # slot 0 (Press # 1)") for line in owner.lines()), "a notice of a slot has its name behind it")
    owner.call("write 0 0a0b0c0d")
    until(lambda: any(line.endswith(" output 150 0a0b0c0d # 150 (Valves of tank 2)") for line in adapter.lines()), "an output has its name behind its bytes")
    words = [line.split(" # ")[0].split() for line in adapter.lines() if " at " in line]
    sure(all(len(it) == 6 and it[3:5] == ["output", "150"] for it in words), f"the words of each line keep their places: {words[-1]}")
    adapter.call("write 100 01020304")
    until(lambda: any(line.endswith(" image 0 01020304 # slot 0 (Press # 1)") for line in owner.lines()), "an image has the name of its slot")
    asked(adapter, rf"owner 150 {peer} run age \d+ # 150 \(Valves of tank 2\)", "an owner has the name of its output")
    asked(adapter, rf"connection [0-9a-f]{{8}} {peer} exclusive 150 100 api 10 10 open run age \d+ received .* lost \d+ # 150 \(Valves of tank 2\), 100 \(Levels\)",
          "a connection has the names of both points")
    asked(adapter, r"gaps connection [0-9a-f]{8} since .* last -", "counts of a connection have no names")
    asked(owner, rf"slot 0 {target} exclusive 150 100 config - established api 10 10 age \d+ received .* # slot 0 \(Press # 1\)", "a slot has its name, and its target's points have none")
    asked(owner, r"gaps slot 0 since .* last - # slot 0 \(Press # 1\)", "and so have its counts")
    owner.call("stop 0")
    asked(owner, r"why slot 0 stopped by a call, or never started # slot 0 \(Press # 1\)", "and why it is not open")
    need(adapter.end() == 0 == owner.end(), "both end with status 0")
    with open(bench.file("named.trace")) as file:
        named = [line for line in file if line.startswith("# name") or "Valves" in line]
    sure(named == ["# name 150 Valves of tank 2\n", "# name 100 Levels\n"], f"a record has names in its comments alone: {named}")
    need(run(bench.program, "replay", bench.file("named.trace")).returncode == 0, "the record replays")
    run_named_reports(bench)
    bench.clear()


def run_named_reports(bench):
    """What a scanner with names says on standard error."""
    bench.write("named_mute.profile", MUTE + "# name slot 0 Press\n")
    adapter, mute = bench.adapter("--multicast", log="named_mute_adapter"), bench.scanner("owner", profile="named_mute")
    line_of(mute, r"eip_station: slot 0: no multicast datagram .*autojoin # slot 0 \(Press\)", 20)
    need(mute.end() == 0 == adapter.end(), "both end with status 0")


def run_scanner_lines(bench):
    """What a scanner says of a target that refuses its streams, refuses a session, serves, and goes."""
    peer = re.escape(bench.address["peer"])
    refuses = re.compile(rf"eip_station: {peer} refuses a stream; the next try is in 1 s")
    station = bench.scanner("owner", profile="single", log="nobody")
    line_of(station, rf"eip_station: scanner single\.profile at {re.escape(bench.address['owner'])}, TCP 44818, UDP 2222, incarnation \d+, no record")
    told = lambda: sum(bool(refuses.fullmatch(line)) for line in station.said())
    line_of(station, refuses.pattern)
    time.sleep(TRIES_S)
    sure(told() == 1, f"a target that refuses each stream is said once, and not at each try: {station.said()}")
    moods = Target(bench, lambda kind, before, _: "refuse" if kind[0] == 0x65 and before == 0 else "serve")
    line_of(station, rf"eip_station: stream \d+ of {peer} ended: its session was refused")
    wait(station.is_established, "the scanner is established")
    moods.stop()
    line_of(station, rf"eip_station: stream \d+ of {peer} ended: its peer cut it")
    until(lambda: told() == 2, "that it refuses each stream is said again behind the good one")
    need(station.end() == 0, "it ends with status 0")
    bench.clear()


def replied(station, call, pattern, text, seconds=6):
    """Gives a scanner a call that gets or sets an attribute, and waits for the line of its reply."""
    form = re.compile(rf"\d+ at \d+ {re.escape(call.rsplit(' ', 1)[0] if call.startswith('set') else call)} {pattern}")
    before = len(station.lines())
    station.call(call)
    wait(lambda: any(form.fullmatch(line) for line in station.lines()[before:]), lambda: f"{call}: {station.lines()[before:]}", seconds)
    holds(f"{text}: {next(line for line in station.lines()[before:] if form.fullmatch(line))}")


def run_attributes(bench):
    """A scanner reads its target, which refuses to be set, and then does not answer."""
    adapter = bench.adapter("--name", "Valve island", "--serial", "305419896", log="asked_adapter")
    scanner = bench.scanner("owner", "--record", bench.file("asked.trace"), log="asked")
    wait(scanner.is_established, "the scanner is established")
    target = bench.address["adapter"]
    asks = {
        "get {} 1 1 1": ("vendor 1", "Identity, vendor"),
        "get {} 1 1 6": ("serial-number 305419896", "serial number"),
        "get {} 1 1 7": ('product-name "Valve island"', "product name"),
        "get {} 1 0 1": ("revision 1", "revision of the class"),
        "get {} 245 1 5": (rf'interface address {re.escape(target)} mask .* gateway 0\.0\.0\.0 .* domain ""', "TCP/IP Interface, configuration"),
        "get {} 245 1 4": ("physical-link bytes 020020f62401", "the path of its link, which names the class that has counters"),
        "get {} 245 1 13": ("inactivity-timeout 120", "inactivity time-out"),
        "get {} 246 1 1": (r"speed \d+", "Ethernet Link, speed"),
        "get {} 246 1 3": (r"physical-address [0-9a-f:]{17}", "physical address"),
        "get {} 4 100 4": ("size 4", "Assembly, size"),
        "get {} 1 1 99": (r"status 14 \(attribute not supported\) additional -", "an attribute that there is not"),
        "set {} 245 1 13 0a00": (r"status 0e \(attribute not settable\) additional -", "an attribute that is not set"),
    }
    for call, (pattern, text) in asks.items():
        replied(scanner, call.format(target), pattern, text)
    before = len(scanner.lines())
    scanner.call(f"get {bench.address['peer']} 1 1 1")
    wait(lambda: any(line.endswith(" fault NoSuchSlot") for line in scanner.lines()[before:]), "a target of no slot is refused")
    holds("a target of no slot is refused")
    scanner.call("stop 0")
    wait(lambda: scanner.states()[-1] == 0, "the slot is closed")
    adapter.process.send_signal(signal.SIGSTOP)
    replied(scanner, f"get {target} 1 1 1", "unanswered timed-out", "a target that is stopped")
    adapter.process.send_signal(signal.SIGCONT)
    replied(scanner, f"get {target} 1 1 1", "vendor 1", "it goes on")
    need(scanner.end() == 0 == adapter.end(), "both end with status 0")
    with open(bench.file("asked.trace")) as file:
        sure(not any(line.startswith("counters ") for line in file), "no reply gives the scanner what its host has counted")
    bench.replay("asked")
    bench.clear()


def run_mute_slots(bench):
    """A slot whose multicast data never come, alone and beside one of the same target whose data come."""
    bench.write("alone.profile", MUTE)
    bench.write("beside.profile", (MUTE + FED).replace("{owner}", "{reader}"))
    adapter = bench.adapter("--multicast", log="mute_adapter")
    alone, beside = bench.scanner("owner", profile="alone"), bench.scanner("reader", profile="beside")
    for station in alone, beside:
        line_of(station, r"eip_station: slot 0: no multicast datagram .*239\.192\.\d+\.\d+.*ip address add .*autojoin.*", 20)
    sure(beside.states(1) == [2, 3], "the other slot of the target is established meanwhile, and stays so")
    need(alone.end() == 0 == beside.end() == adapter.end(), "all end with status 0")
    bench.clear()


def run_quiet(bench):
    station = bench.adapter("--quiet", log="quiet")
    first = Originator(bench)
    first.open(INPUT_ONLY, POINT_TO_POINT).close()
    first.close()
    station.call("no call")
    time.sleep(0.3)
    need(station.end() == 0, "it ends with status 0")
    said = station.said()
    sure(len(said) == 1 and "is no call" in said[0], f"--quiet: a start and streams print nothing, a wrong call does: {said}")
    port = free_port()
    station = bench.adapter("--quiet", "--page", str(port), "--page-writes", log="quiet_page")
    need(station.end() == 0, "it ends with status 0")
    said = station.said()
    sure(len(said) == 1 and re.fullmatch(rf"eip_station: page at http://127\.0\.0\.1:{port}/#[0-9a-f]{{32}}", said[0]),
         f"--quiet --page-writes: the token of the page is printed all the same: {said}")
    bench.clear()


def run_destinations(bench):
    """--peer-udp names the port of datagrams to peers, --multicast sends those of a group once, to its address, at 127.x.x.x too."""
    peer, adapter = bench.address["peer"], bench.address["adapter"]
    with bench.network.inside("peer"), contextlib.ExitStack() as sockets:
        usual, named, group = [sockets.enter_context(socket.socket(socket.AF_INET, socket.SOCK_DGRAM)) for _ in range(3)]
        usual.bind((peer, 2222))
        named.bind((peer, 2230))
        station = bench.adapter("--peer-udp", "2230", log="peer_port")
        Originator(bench).open(INPUT_ONLY, POINT_TO_POINT)
        sure(arrives(named, adapter) and not arrives(usual, adapter, 0.3), "--peer-udp 2230: datagrams go to this port, and not to 2222")
        need(station.end() == 0, "it ends with status 0")
        bench.clear()
        station = bench.adapter("--multicast", "--peer-udp", "2230", log="to_groups")
        connection = Originator(bench).open(INPUT_ONLY, MULTICAST)
        group.bind((connection.group, 2222))
        group.setsockopt(socket.IPPROTO_IP, socket.IP_ADD_MEMBERSHIP, socket.inet_aton(connection.group) + socket.inet_aton(peer))
        sure(arrives(group, adapter) and not arrives(usual, adapter, 0.3),
             f"--multicast: datagrams go to the group {connection.group} alone, at port 2222")
        need(station.end() == 0, "it ends with status 0")
    bench.clear()
    port = free_port()
    station, scanner = bench.adapter("--tcp", str(port), port=port, log="tcp_adapter"), bench.scanner("owner", "--tcp", str(port), log="tcp_scanner")
    wait(scanner.is_established, f"--tcp {port}: a scanner opens its streams to this port of its targets")
    need(scanner.end() == 0 == station.end(), "both end with status 0")
    bench.clear()


def arrives(udp, source, seconds=5.0):
    """Whether a datagram of this address arrives."""
    if not select.select([udp], [], [], seconds)[0]:
        return False
    got, (address, _) = udp.recvfrom(65536)
    need(address == source, f"a datagram of {len(got)} bytes comes from {address}, and not from {source}")
    return True


def run_profiles(bench):
    """A bad profile is refused in the words that `explain` has for it."""
    started = 0
    for text, wanted in BAD_PROFILES + BAD_PROFILE_LINES:
        path = bench.write_exactly("bad.profile", text)
        told = run(bench.program, "explain", path)
        said = (told.stdout + told.stderr).decode()
        need(wanted in said.splitlines(), f"explain says {said!r}, and not {wanted!r}")
        if any(line.split()[:1] in (["start"], ["read"]) for line in text.splitlines()):
            continue  # a trace, and no profile
        done = run(*bench.network.at("adapter"), bench.program, "scanner" if "scanner" in text else "adapter", path, stdin=subprocess.DEVNULL)
        said = (done.returncode, done.stdout.decode(), done.stderr.decode())
        need(said == (3, "", f"eip_station: {path}: {wanted}\n"), f"a station of a bad profile: {said}, and not {wanted!r}")
        started += 1
    sure(started >= 30, f"{started} bad profiles and {len(BAD_PROFILES + BAD_PROFILE_LINES)} texts get their sentence, one line and status 3")
