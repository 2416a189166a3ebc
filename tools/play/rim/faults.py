"""Faults on purpose at a station, and records that settle: what the network loses, repeats, delays and reorders is permitted,
and what nobody sent is not."""

import os, struct, time
from rim.host import PRESENT, Station, first_in_line, need, run, sure, until, wait
from rim.peers import Originator
from rim.times import said_at

MOST_OF_64 = 2**64 - 1
DELAY_MS, SEED, SENT = 50, 1234567, 20
SELDOM_MS = 400  # an interval at which the adapter has nothing else to do between two datagrams
LONG_MS, ASIDE_MS = 20, 12  # a long delay, and how late the lines of three such ones may be
COUNTS = ["received", "applied", "duplicate", "old", "lost"]


def settles(bench, *names):
    """What `settle` says of records, and its status."""
    done = run(bench.program, "settle", *(bench.file(f"{name}.trace") for name in names))
    return done.returncode, done.stdout.decode().strip()


def counts_of(scanner):
    """The counts of the scanner's slot 0, as `status` says them."""
    before = len(scanner.lines())
    scanner.call("status")
    told = lambda: [line for line in scanner.lines()[before:] if " slot 0 " in line and " received " in line]
    wait(told, lambda: f"the scanner says its counts: {scanner.lines()[-3:]}")
    words = told()[-1].split()
    need("established" in words, f"the slot stays established: its states are {scanner.states()}")
    return {word: int(words[words.index(word) + 1]) for word in COUNTS}


def exchange(bench, name, seconds, *options):
    """An adapter and its owner for some seconds, the owner with these options: its counts in the end."""
    # (nobody asks whether it listens: that would be a stream of a device without a record)
    # (records of one incarnation do not settle, and how often either profile was started depends on the parts before)
    adapter = Station(bench, "adapter", "adapter", bench.file("adapter.profile"), "--incarnation", "201",
                      "--record", bench.file(f"{name}_adapter.trace"), log=f"{name}_adapter")
    until(lambda: any(" adapter " in line for line in adapter.said()), f"{name}: the adapter says that it serves")
    owner = Station(bench, "owner", "scanner", bench.file("owner.profile"), "--incarnation", "202",
                    "--record", bench.file(f"{name}_owner.trace"), *options, log=f"{name}_owner")
    until(lambda: owner.states()[-1:] == [PRESENT], f"{name}: the owner opens")
    owner.call("mode run", "write 0 11223344")
    for value in range(int(seconds * 20)):
        adapter.call(f"write 100 {value:08x}")
        time.sleep(0.05)
    counts = counts_of(owner)
    need(owner.end() == 0 and adapter.end() == 0, "both end with status 0")
    return counts


def run_settled(bench):
    """The records of a line settle, and do not with an answer or a datagram that another record does not have."""
    exchange(bench, "whole", 1)
    status, said = settles(bench, "whole_adapter", "whole_owner")
    sure(status == 0 and said.startswith("settled: 2 records, "), f"the records of an adapter and its owner settle: {said}")
    status, said = settles(bench, "whole_adapter")
    sure(status == 1 and said.endswith("which has no record"), f"one record alone does not: {said}")
    with open(bench.file("whole_adapter.trace")) as file:
        lines = file.read().splitlines()
    at = next(place for place, line in enumerate(lines) if line.endswith(" duplicate"))
    # (the data of a duplicate are not read, so its verdict stays)
    changes = [("answer", lines[at].replace("duplicate", "applied"), at, "another outcome"), ("datagram", lines[at - 1][:-2] + "ee", at - 1, "never sent")]
    for name, replaced, place, words in changes:
        with open(bench.file(f"{name}.trace"), "w") as file:
            file.write("\n".join([*lines[:place], replaced, *lines[place + 1:]]) + "\n")
        status, said = settles(bench, name, "whole_owner")
        number = lines[at].split()[0]
        sure(status == 1 and f"event {number}: " in said and words in said, f"with another {name} they do not: {said}")


def run_faults(bench):
    """What options lose, repeat, overtake and delay of the datagrams that arrive at a scanner."""
    for name, options, holds_of, text in FAULTS:
        counts = exchange(bench, name, 2, *options, "--seed", "1234567")
        sure(holds_of(counts), f"{' '.join(options)}: {text}: {counts}")
        status, said = settles(bench, f"{name}_adapter", f"{name}_owner")
        sure(status == 0, f"{name}: the records settle: {said}")


def word_of(seed, number):
    """The word of this number, from 0, of SplitMix64 of a seed."""
    word = (seed + (number + 1) * 0x9E3779B97F4A7C15) & MOST_OF_64
    word = (word ^ word >> 30) * 0xBF58476D1CE4E5B9 & MOST_OF_64
    word = (word ^ word >> 27) * 0x94D049BB133111EB & MOST_OF_64
    return word ^ word >> 31


def run_delays(bench):
    """A delayed datagram waits as long as the seed draws it (rule 30.2), and not until something else comes."""
    delays = [(word_of(SEED, number) >> 48) % (DELAY_MS + 1) for number in range(SENT)]
    reader, writer = os.pipe()
    adapter = Station(bench, "adapter", "adapter", bench.file("adapter.profile"), "--delay", str(DELAY_MS), "--seed", str(SEED),
                      out=writer, log="delays", before=first_in_line)
    os.close(writer)
    until(lambda: any(" adapter " in line for line in adapter.said()), "delays: the adapter says that it serves")
    owner, late = Originator(bench, rpi_ms=SELDOM_MS), []
    connection = owner.open()
    said_at(reader, b"", b" note opened ")
    for number, delay in enumerate(delays):
        begin, data = time.monotonic(), struct.pack("<I", number + 1)
        connection.produce(owner.udp, data)
        late.append((said_at(reader, b"", b"output 150 " + data.hex().encode()) - begin) * 1000 - delay)
        time.sleep(0.05 + number % 7 * 0.01)
    os.close(reader)
    # (a busy machine makes lines late, but not all of them, and none early)
    behind = sorted(it for it, delay in zip(late, delays) if delay >= LONG_MS)
    soon = behind[2]
    sure(min(late) > -1 and soon < ASIDE_MS, f"--delay {DELAY_MS}: {SENT} datagrams wait for {min(delays)} to {max(delays)} ms, as the seed draws them: their "
         f"lines come {min(late):.1f} ms later or more, three of the {len(behind)} long ones within {soon:.1f} ms")
    adapter.kill()
    bench.clear()


FAULTS = [
    ("no_faults", ["--lose", "0"], lambda n: n["lost"] == 0 and n["old"] == 0, "nothing is lost and nothing is old"),
    ("losses", ["--lose", "30"], lambda n: 0.15 * n["received"] < n["lost"] < 0.8 * n["received"], "some three of ten are lost"),
    ("repeats", ["--repeat", "50"], lambda n: 0.2 * n["received"] < n["old"] < 0.5 * n["received"] and n["lost"] == 0, "half of them arrive twice, and the second ones are old"),
    ("overtaken", ["--reorder", "20"], lambda n: 0.05 * n["received"] < n["old"] and 0.05 * n["received"] < n["lost"], "a fifth is overtaken, and is old then"),
    ("delayed", ["--delay", "30"], lambda n: 0 < n["old"], "waits of 0 to 30 ms have some overtaken"),
]
