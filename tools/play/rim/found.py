"""How a station is found and read: by a browser that shares no code with it, by a broadcast, and under a flood of inquiries."""

import contextlib, os, shutil, socket, struct, subprocess, sys, time
from rim.host import Station, free_hosts, free_port, holds, last, need, run, sure, usual, wait
from rim.peers import Originator
from rim.plants import Plant

TOP = os.path.dirname(os.path.dirname(os.path.dirname(os.path.dirname(os.path.realpath(__file__)))))
INQUIRY = struct.pack("<HHIIQI", 0x63, 0, 0, 0, 1, 0)  # its sender context names 1 ms, which counts as 500
FLOOD_S = 4.0
MOST_IN_A_SECOND = 32
LONGEST_MS = 500
ASIDE_MS = 500  # so much later a reply may be seen on a busy machine
BROADCASTS = 8
LIVES, SAME_MS = 4, 40  # (the first two delays of four lives that are drawn are as close as this once in a hundred thousand times)
EVERYBODY, ALL_HOSTS = "127.255.255.255", "255.255.255.255"
DESCRIBED = (
    "adapter 16 {adapter} 255.255.255.0 7 12 9 4 5\noutput 150 4 zero zero\ninput 100 6\nconfig 151 2\n"
    "describe 305419896 50756d70 44818 1000 13 02a1b2c3d4e5 60\nheartbeat 152 153\n"
)


def ask(bench, host, profile, *options, at="peer"):
    """What a browser finds at a device of this profile: how it ends, and its last line."""
    words = [sys.executable, f"{TOP}/tools/peers/browser.py", host, "--own", bench.address[at], "--patience", "20"]
    done = run(*bench.network.at(at), *words, "--profile", bench.file(f"{profile}.profile"), *options, preexec_fn=None)
    need(done.returncode == 0, f"a browser asks a device of {profile}.profile: {done.stdout.decode()[-2000:]}{done.stderr.decode()[-2000:]}")
    return last(done)


def run_browser(bench):
    """A browser asks a station that its options describe, one that its profile describes, and a device of a plant. Three resets end a life of
    each of the last two: its record ends with the reset, and the next life has ids of its own."""
    adapter = bench.adapter("--serial", "7", "--name", "Line 3", "--inactivity", "90", log="browsed")
    said = ask(bench, bench.address["adapter"], "adapter", "--serial", "7", "--name", "Line 3", "--inactivity", "90", "--only", "25", "31.2", "31.4", "31.8", "7.2")
    holds(f"a browser asks a station that its options describe: {said}")
    need(adapter.end() == 0, "the adapter ends with status 0")
    bench.write("described.profile", DESCRIBED)
    adapter = bench.adapter("--record", bench.file("described.trace"), profile="described", log="described")
    holds(f"a browser asks a station that its profile describes: {ask(bench, bench.address['adapter'], 'described', '--resets')}")
    need(adapter.end() == 0, "the adapter ends with status 0")
    bench.replay_alone("described")
    judge_lives(bench, "described", 4)
    dissect(bench, "described", bench.address["adapter"])
    node = bench.network.extra[0]
    bench.write_exactly("island.profile", DESCRIBED.format(adapter=node))
    plant = Plant(bench, "device island island.profile\n", log="browsed-plant")
    wait(lambda: any("adapter at" in line for line in plant.said()), "a plant has a device")
    holds(f"a browser asks a device of a plant: {ask(bench, node, 'island', '--resets', at='owner')}")
    need(sum(" life " in line for line in plant.said()) == 4, "three resets end three lives of a plant's device")
    need(plant.end() == 0, "the plant ends with status 0")
    bench.clear()


def judge_lives(bench, name, lives):
    """Each life of a station has a record of its own, which replays. All but the last one end with the reset: its reply is the last frame."""
    for life in range(1, lives + 1):
        path = bench.file(f"{name}.trace" + (f".life-{life}" if life > 1 else ""))
        need(run(bench.program, "replay", path).returncode == 0, f"the record of life {life} replays")
        with open(path) as file:
            last = [line.split() for line in file if line.strip()][-3:]
        is_reset = [words[1:2] for words in last[1:]] == [["frame"], ["note"]] and last[2][2] == "reset"
        need(is_reset == (life < lives), f"the record of life {life} ends with the outcome of its reset: {last}")
    sure(True, f"three resets end three lives of a station: the records of {lives} lives replay, and each ends with the reply to the reset")


def dissect(bench, name, node):
    """tshark, if it is there, knows each message that a device sends, and finds none of them malformed."""
    if not shutil.which("tshark"):
        holds("(no dissection: it takes tshark)")
        return
    file, pcap = bench.file(f"{name}.pcap"), run(bench.program, "pcap", bench.file(f"{name}.trace"))
    need(pcap.returncode == 0, "the record becomes a capture file")
    with open(file, "wb") as out:
        out.write(pcap.stdout)
    sent = f"ip.src == {node} && (udp || tcp.len > 0)"
    words = "-T", "fields", "-e", "frame.number", "-e", "enip.command"
    all_, bad = (run("tshark", "-r", file, "-Y", it, *words, stdin=subprocess.DEVNULL) for it in (sent, f"{sent} && (_ws.malformed || !(enip || cipio))"))
    need(not bad.returncode and not bad.stdout, f"tshark says {(bad.stdout or bad.stderr).decode()[:400]}")
    sure(len(all_.stdout.splitlines()) > 1000, f"tshark knows {len(all_.stdout.splitlines())} messages of the device, and finds none malformed")


def run_inquiries(bench):
    """Inquiries as fast as they can be sent keep no owner from its output, and few of them reach the record."""
    adapter = bench.adapter("--record", bench.file("inquiries.trace"), log="inquiries")
    owner = Originator(bench)
    feeder = bench.later(owner.feed(owner.open(), "11223344"))
    wait(lambda: owner.read(150) == "11223344", "an owner's data reach the output")
    with bench.network.inside("peer"), socket.socket(socket.AF_INET, socket.SOCK_DGRAM) as udp:
        udp.bind((bench.network.extra[0], 0))
        udp.connect((bench.address["adapter"], 44818))
        end, sent = time.monotonic() + FLOOD_S, 0
        with usual():
            while time.monotonic() < end:
                udp.send(INQUIRY)
                sent += 1
    expired = any(line.split()[2:3] == ["expired"] for line in adapter.lines())
    feeder.keeps(not expired and owner.read(150) == "11223344", "no connection expires in a flood of inquiries, and the owner's data stand")
    feeder.stop()
    need(adapter.end() == 0, "the adapter ends with status 0")
    with open(bench.file("inquiries.trace")) as file:
        kept = sum(line.startswith("inquiry ") for line in file)
    need(0 < kept <= MOST_IN_A_SECOND * (FLOOD_S + 2), f"{kept} inquiries are in the record")
    bench.replay_alone("inquiries")
    sure(sent > kept, f"an owner stays established under {sent} inquiries in {FLOOD_S:.0f} s, of which {kept} are recorded")
    bench.clear()


def run_broadcasts(bench):
    """Two stations of one host answer a broadcast at times of their own within the longest delay, and an inquiry to one of them
    at once. Their port is drawn, so that the broadcasts reach no station of another run."""
    hosts, port = [f"{free_hosts()}1", f"{free_hosts()}1"], free_port()
    for host in hosts:
        bench.write_exactly(f"{host}.profile", f"adapter 16 {host} 255.0.0.0 1 12 7 2 3\noutput 150 4 zero zero\ninput 100 4\nheartbeat 152 153\n")
    stations = [Station(bench, "adapter", "adapter", bench.file(f"{host}.profile"), "--tcp", str(port), "--record", bench.file(f"{host}.trace"),
                        log=host) for host in hosts]
    for station in stations:
        wait(station.said, "a station starts")
        need(station.is_running(), f"a station runs: {station.said()}")
    with bench.network.inside("adapter"), socket.socket(socket.AF_INET, socket.SOCK_DGRAM) as udp:
        udp.setsockopt(socket.SOL_SOCKET, socket.SO_BROADCAST, 1)
        udp.bind(("127.0.0.1", 0))
        all_ = [answers(udp, EVERYBODY, port, hosts) for _ in range(BROADCASTS)]
        alone = [answers(udp, hosts[turn % 2], port, [hosts[turn % 2]]) for turn in range(BROADCASTS)]
    for seen in all_:
        need(sorted(seen) == sorted(hosts), f"a broadcast is answered by each station once: {seen}")
        need(max(seen.values()) <= LONGEST_MS + ASIDE_MS, f"a broadcast is answered within the longest delay: {seen}")
    apart = [abs(seen[hosts[0]] - seen[hosts[1]]) for seen in all_]
    late = [ms for seen in all_ for ms in seen.values()]
    sure(max(apart) > 50 and max(late) > 100 and len({int(ms / 20) for ms in late}) > 3,
         f"two stations answer {BROADCASTS} broadcasts after {min(late):.0f} to {max(late):.0f} ms, {min(apart):.0f} to {max(apart):.0f} ms apart")
    slowest = max(ms for seen in alone for ms in seen.values())
    sure(all(list(seen) == [hosts[turn % 2]] for turn, seen in enumerate(alone)) and sorted(
        ms for seen in alone for ms in seen.values())[BROADCASTS // 2] < 50,
         f"what was sent to one station is answered at once, by that one: within {slowest:.1f} ms")
    for host, station in zip(hosts, stations):
        need(station.end() == 0, "the station ends with status 0")
        bench.replay_alone(host)
    bench.clear()
    run_drawn_delays(bench, hosts[0], port)


def run_drawn_delays(bench, host, port):
    """Each life of a station draws its delays anew."""
    late = []
    for _ in range(LIVES):
        station = Station(bench, "adapter", "adapter", bench.file(f"{host}.profile"), "--tcp", str(port), log="drawn_delays")
        wait(station.said, "a station starts")
        with bench.network.inside("adapter"), asking("127.0.0.1") as udp:
            late.append([answers(udp, EVERYBODY, port, [host])[host] for _ in range(2)])
        need(station.end() == 0, "the station ends with status 0")
    said = ", ".join(f"{one:.0f} and {two:.0f}" for one, two in late)
    sure(max(max(of) - min(of) for of in zip(*late)) > SAME_MS, f"{LIVES} lives of a station answer their first two broadcasts after {said} ms")
    bench.clear()


def run_everybody(bench):
    """An inquiry to all hosts of the networks is answered, where the system brings what is sent to them."""
    with bench.network.inside("adapter"), socket.socket(socket.AF_INET, socket.SOCK_DGRAM) as udp:
        udp.setsockopt(socket.SOL_SOCKET, socket.SO_BROADCAST, 1)
        udp.bind((bench.address["adapter"] if bench.network.own else "127.0.0.1", 0))
        if not has_broadcasts(udp):
            print("everybody: the system brings nothing that is sent to 255.255.255.255, so nobody asks there")
            return
        port = free_port()
        adapter = bench.adapter("--tcp", str(port), log="everybody", port=port)
        seen = answers(udp, ALL_HOSTS, port, [bench.address["adapter"]])
        sure(list(seen) == [bench.address["adapter"]], f"an inquiry to {ALL_HOSTS} is answered by the station: {seen}")
        need(adapter.end() == 0, "the adapter ends with status 0")
    bench.clear()


def has_broadcasts(udp):
    """Whether what is sent to all hosts comes to a socket of this host that waits for it."""
    with socket.socket(socket.AF_INET, socket.SOCK_DGRAM) as everybody:
        everybody.settimeout(0.5)
        try:
            everybody.bind((ALL_HOSTS, 0))
            udp.sendto(INQUIRY, everybody.getsockname())
            return everybody.recv(2048) == INQUIRY
        except OSError:
            return False


def answers(udp, to, port, hosts):
    """After how many milliseconds which of these hosts answer a request, until all have or the time for it is over. (Stations of
    others may have the port, too.)"""
    begin, seen = time.monotonic(), {}
    udp.sendto(INQUIRY, (to, port))
    while len(seen) < len(hosts) and (left := begin + (LONGEST_MS + ASIDE_MS) / 1000 - time.monotonic()) > 0:
        udp.settimeout(left)
        try:
            reply, (host, _port) = udp.recvfrom(2048)
        except TimeoutError:
            break
        if host not in hosts:
            continue
        need(reply[:2] == INQUIRY[:2] and reply[12:20] == INQUIRY[12:20] and host not in seen, f"a reply of {host}: {reply.hex()}")
        seen[host] = (time.monotonic() - begin) * 1000
    return seen


FORGED_A_SECOND = 9
MINUTE = struct.pack("<HHIIQI", 0x63, 0, 0, 0, 65_000, 0)
FORGED_S = 12.0
SLOWEST_MS = 2_000


def run_forged(bench):
    """Broadcasts that name 65 s, of an address and port of their own each, take no place from a tool's, nor does one peer's flood."""
    host, port = f"{free_hosts()}1", free_port()
    bench.write_exactly("forged.profile", f"adapter 16 {host} 255.0.0.0 1 12 7 2 3\noutput 150 4 zero zero\ninput 100 4\nheartbeat 152 153\n")
    station = Station(bench, "adapter", "adapter", bench.file("forged.profile"), "--tcp", str(port), log="forged")
    wait(station.said, "a station starts")
    need(station.is_running(), f"a station runs: {station.said()}")
    with bench.network.inside("adapter"), contextlib.ExitStack() as sockets:
        tool = sockets.enter_context(asking("127.0.0.1"))
        forgers = [sockets.enter_context(asking(f"127.1.{turn // 200}.{turn % 200 + 1}")) for turn in range(int(FORGED_A_SECOND * FORGED_S))]
        for turn, forger in enumerate(forgers):
            forger.sendto(MINUTE, (EVERYBODY, port))
            time.sleep(1 / FORGED_A_SECOND)
        seen = [answers(tool, EVERYBODY, port, [host]) for _ in range(4)]
        need(all(list(it) == [host] for it in seen), f"a tool's broadcasts are answered beside {len(forgers)} forged ones: {seen}")
        crowd = [sockets.enter_context(asking("127.0.0.9")) for _ in range(200)]
        for it in crowd:
            it.sendto(MINUTE, (EVERYBODY, port))
        seen = answers(tool, EVERYBODY, port, [host])
        need(list(seen) == [host], f"a tool's broadcast is answered beside 200 of one address: {seen}")
        late = forgers[-1]
        begin = time.monotonic()
        late.settimeout((SLOWEST_MS + ASIDE_MS) / 1000)
        late.recv(2048)
        sure((time.monotonic() - begin) * 1000 < SLOWEST_MS + ASIDE_MS,
             f"beside {len(forgers)} broadcasts that name 65 s and 200 of one address a tool is answered; theirs wait 2 s at most")
        need(any(asks_five_times(tool, port) == 1 for _ in range(3)), "one that asks five times is answered once")
    need(station.end() == 0, "the station ends with status 0")
    bench.clear()


def asks_five_times(tool, port):
    """How many answers come to one that asks five times without a pause. A delay that is drawn may end between two of them."""
    for _ in range(5):
        tool.sendto(INQUIRY, (EVERYBODY, port))
    tool.settimeout((LONGEST_MS + ASIDE_MS) / 1000)
    count = 0
    with contextlib.suppress(TimeoutError):
        while True:
            need(len(tool.recv(2048)) > 24, "one that asks five times is answered")
            count += 1
    return count


def asking(own):
    """A socket of an address that may send broadcasts."""
    udp = socket.socket(socket.AF_INET, socket.SOCK_DGRAM)
    udp.setsockopt(socket.SOL_SOCKET, socket.SO_BROADCAST, 1)
    udp.bind((own, 0))
    return udp
