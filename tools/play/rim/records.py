"""Records that a stranger cannot fill: what productions, messages and datagrams of a stranger take, and the most bytes."""

import os, re, struct, subprocess, time, zlib
from rim.host import need, run, sure, wait
from rim.outputs import LARGE, replays
from rim.peers import INPUT_ONLY, Originator, served

FULL = "eip_station: the record has all its bytes and has ended"
MOST = 1_000_000
READERS = 62
SUM = re.compile(r"(\d+) sum done 0 (\d+) 0 ([0-9a-f]{8})")
LONGEST_POINT = dict(rpi_ms=1, input=101, in_len=1400)


def replayed(bench, trace):
    """The outcomes that the replay of a record prints, of each event its lines."""
    words = [bench.program, "replay", trace]
    with subprocess.Popen(words, stdout=subprocess.PIPE, stderr=subprocess.PIPE) as replay:
        number, lines = None, []
        for line in replay.stdout:
            last, number = number, line.split(b" ", 1)[0]
            if last not in (None, number):
                yield int(last), b"".join(lines)
                lines = []
            lines.append(line)
        said = replay.stderr.read().decode()
    need(replay.returncode == 0, f"the record replays, and not: {said}")
    if lines:
        yield int(number), b"".join(lines)


def run_productions(bench):
    """Input-only connections of the longest point at the shortest interval: each tick has one line of its sum."""
    bench.write("large.profile", LARGE)
    trace = bench.file("productions.trace")
    adapter = bench.adapter("--record", trace, profile="large", log="productions")
    reader = Originator(bench, **LONGEST_POINT)
    with served(f"{READERS} input-only connections open"):
        for _ in range(READERS):
            reader.open(INPUT_ONLY)
    before, begin = os.path.getsize(trace), time.monotonic()
    time.sleep(1)
    grown, seconds = os.path.getsize(trace) - before, time.monotonic() - begin
    need(adapter.end() == 0, "the adapter ends with status 0")
    recorded = {}
    with open(trace, "rb") as file:
        for line in file:
            if line[:1].isdigit():
                number = int(line.split(b" ", 1)[0])
                recorded[number] = recorded.get(number, b"") + line
    ticks, datagrams, whole, short, wrong = 0, 0, 0, 0, 0
    for number, text in replayed(bench, trace):
        sent = text.count(b" send ")
        if sent:
            ticks, datagrams, whole, short = ticks + 1, datagrams + sent, whole + len(text), short + len(recorded[number])
            # (the sum is over the lines that the replay prints, by a CRC that shares no code with the crates)
            wrong += recorded[number].decode() not in (f"{number} sum done 0 {sent} 0 {zlib.crc32(text):08x}\n", text.decode())
    need(ticks > 20 and datagrams > 20 * ticks, f"the connections produce: {datagrams} datagrams at {ticks} ticks")
    need(wrong == 0, f"{wrong} of {ticks} sums are not those of the outcomes")
    need(whole >= 50 * short, f"the productions take {short} bytes in place of {whole}")
    sure(True, f"{READERS} connections of 1,400 bytes at 1 ms: the record grows by {grown / seconds / 1000:.0f} kB/s, its productions "
         f"take {short} bytes in place of {whole}, and it replays")
    bench.clear()


def run_sums(bench):
    """A record with sums replays, becomes a capture file and is told in words; with another sum it does none of these."""
    bench.write("large.profile", LARGE)
    trace, wrong = bench.file("sums.trace"), bench.file("wrong_sum.trace")
    adapter = bench.adapter("--record", trace, profile="large", log="sums")
    reader = Originator(bench, rpi_ms=10, input=101, in_len=1400)
    with served("two connections open and close"):
        connections = [reader.open(INPUT_ONLY) for _ in range(2)]
        time.sleep(0.3)
        for it in connections:
            it.close()
    adapter.call("status")
    said = re.compile(r"\d+ at \d+ status .* sent (\d+) .*")
    wait(lambda: any(map(said.fullmatch, adapter.lines())), "the state is said")
    told_sent = next(int(found[1]) for found in map(said.fullmatch, adapter.lines()) if found)
    need(adapter.end() == 0, "the adapter ends with status 0")
    printed = replays(bench, "a record with sums", trace)
    sent = printed.count(b" send ")
    told, pcap = run(bench.program, "explain", trace), run(bench.program, "pcap", trace)
    need(sent > 10 and told.returncode == 0 and pcap.returncode == 0, f"{sent} datagrams are sent, and the record is told and captured")
    need(told_sent == sent, f"status counts each datagram that was sent, {sent} by the record, and not {told_sent}")
    at, packets = 24, 0
    while at < len(pcap.stdout):
        length = struct.unpack("<IIII", pcap.stdout[at:at + 16])[2]
        packets, at = packets + (length == 28 + 20 + 1400), at + 16 + length
    sure(packets == sent, f"its capture file has the {sent} datagrams that its sums stand for")
    with open(trace) as file:
        text = file.read()
    first = SUM.search(text)
    need(first, "a record has sums of productions")
    with open(wrong, "w") as file:
        file.write(text.replace(first[0], first[0][:-8] + f"{int(first[3], 16) ^ 1:08x}"))
    for command in "replay", "explain", "pcap":
        done = run(bench.program, command, wrong)
        tells = command == "pcap" or done.stdout.endswith(f"differs {first[1]}\n".encode())
        need(done.returncode == 1 and tells, f"{command} of another sum has status {done.returncode}")
    with open(trace, "rb") as file:
        stepped = run(bench.line, "step", stdin=file)
    need(stepped.returncode == 1 and stepped.stderr.startswith(b"bad line "), f"eip_line step has status {stepped.returncode}")
    sure(True, f"another sum is told as a difference at event {first[1]}, and a sum is no line of a trace")
    bench.clear()


def run_record_bytes(bench):
    """A record that has all its bytes ends, with whole events; the device goes on."""
    bench.write("large.profile", LARGE)
    trace = bench.file("bounded.trace")
    adapter = bench.adapter("--record", trace, "--record-bytes", str(MOST), profile="large", log="bounded", out=subprocess.DEVNULL)
    adapter.call(*["read 101"] * 400)
    wait(lambda: FULL in adapter.said(), lambda: f"one line says that the record has all its bytes, and not {adapter.said()}")
    with served("the adapter goes on after it"):
        Originator(bench).open(INPUT_ONLY).close()
    status, size = adapter.end(), os.path.getsize(trace)
    need(adapter.said().count(FULL) == 1, f"one line, and not {adapter.said()}")
    need(status == 6 and MOST - 3000 < size <= MOST, f"{size} bytes of at most {MOST}, and status {status}")
    replays(bench, f"the record of at most {MOST} bytes", trace)
    sure(True, f"the record ends whole with {size} bytes of at most {MOST}, one line says so, and the device goes on")
    bench.clear()
