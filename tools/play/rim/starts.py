"""Starts of a station: no connection id is given twice, after kills at any time neither."""

import os, random, re, subprocess, time
from rim.calls import CallFaults
from rim.host import need, run, sure, until, wait
from rim.peers import INPUT_ONLY, POINT_TO_POINT, Originator, originator, served

BLOCK = 4096
HALF = 2048
STATE = re.compile(r"incarnation (\d+)\nserial (\d+)\nserials (\d+)\nids (\d+) (\d+)\n")
ALL = 2**32 - 1
STARTS, SHORT_STARTS, OPENINGS = 1000, 40, 3
BROKEN_DISK = 5  # EIO


def kept(path):
    """The numbers of a state's file."""
    with open(path) as file:
        text = file.read()
    found = STATE.fullmatch(text)
    need(found, f"the state: {text!r}")
    return [int(number) for number in found.groups()]


def ids_of(bench, number):
    """Opens so many connections, closes them, and answers their O->T ids."""
    peer, given = Originator(bench), []
    for _ in range(number):
        connection = peer.open(INPUT_ONLY, POINT_TO_POINT)
        given.append(connection.o_t)
        with served("a connection closes"):
            connection.close()
    peer.close()
    return given


def first_ids(trace):
    """The block of connection ids in a record's profile."""
    with open(trace) as file:
        return next(tuple(map(int, line.split()[1:])) for line in file if line.startswith("ids "))


def run_starts(bench):
    """Many starts, of which each second one is killed at a drawn moment: no id comes twice."""
    state, given, began = bench.file("starts.state"), {}, 0
    for start in range(SHORT_STARTS if bench.args.short else STARTS):
        adapter = bench.adapter("--state", state, log="starts")
        began += 1
        for id in ids_of(bench, random.randrange(OPENINGS + 1)):
            need(id not in given, f"start {start} gives the id {id:08x} of start {given.get(id)} again")
            given[id] = start
        if start % 2:
            time.sleep(random.random() * 0.01)
            adapter.kill()
        else:
            need(adapter.end() == 0, "the adapter ends with status 0")
    sure(given, f"{began} starts, each second one killed: {len(given)} connection ids, none of them twice")
    bench.clear()
    run_early_kills(bench)
    run_blocks(bench)
    run_broken_disk(bench)
    run_circle(bench)


def run_early_kills(bench):
    """A station is killed while it writes its state: the place from which on no id was given never falls, whatever was written."""
    state, places = bench.file("early.state"), []
    words = [bench.program, "adapter", bench.file("adapter.profile"), "--state", state]
    for turn in range(20 if bench.args.short else 200):
        station = subprocess.Popen([*bench.network.at("adapter"), *words], stdin=subprocess.PIPE, stdout=subprocess.DEVNULL, stderr=subprocess.DEVNULL)
        time.sleep(turn % 20 * 0.002)
        station.kill()
        station.wait()
        if os.path.exists(state):
            places.append(kept(state)[3:])
    steps = {(after[0] - before[0]) % ALL for before, after in zip(places, places[1:])}
    sure(places and steps <= {0, BLOCK}, f"{len(places)} starts that were killed early: their files say a place that goes on by {sorted(steps)}")


def run_blocks(bench):
    """A life reserves the next block when half of one is used, and gives back what it did not use."""
    state, trace = bench.file("blocks.state"), bench.file("blocks.trace")
    adapter = bench.adapter("--state", state, "--record", trace, log="blocks")
    _, _, _, place, left = kept(state)
    first, count = first_ids(trace)
    need(left == ALL - BLOCK and (first + count - 1) % ALL + 1 == place, f"the first block: {first} {count}, then {place} {left}")
    need(BLOCK // 2 <= count <= BLOCK, f"a life begins in the first half of its block: it has {count}")
    given = ids_of(bench, count - HALF + 1)
    need(given == list(range(first, first + len(given))), "ids are given in order")
    wait(lambda: kept(state)[3] == place + BLOCK, "half of a block is used: the next one is in the file")
    given += ids_of(bench, HALF + 10)
    need(given == list(range(first, first + len(given))), "the ids of the next block follow")
    need(adapter.end() == 0, "the adapter ends with status 0")
    _, _, _, after, rest = kept(state)
    sure(after == given[-1] + 1 and rest == left + place - after, f"{len(given)} ids over two blocks; the end gives back what was not used: from {after} on, {rest} left")
    with open(trace) as file:
        sure(any(line == f"ids {place} {BLOCK}\n" for line in file), "the record has the further block as an event")
    need(run(bench.program, "replay", trace).returncode == 0, "the record replays")


def run_broken_disk(bench):
    """The state cannot be written in a life: a line tells it once, ids end with 0113, and they go on when the disk does."""
    faults = CallFaults(bench, "broken")
    state, trace = bench.file("broken.state"), bench.file("broken.trace")
    adapter = bench.adapter("--state", state, "--record", trace, log="broken", env=faults.env())
    faults.set(sync=BROKEN_DISK)
    _, count = first_ids(trace)
    ids_of(bench, count)
    peer = Originator(bench)
    general, extended = refused(peer)
    need((general, extended) == (1, (0x0113,)), f"the ids have ended: general status {general}, extended {extended}")
    told = [line for line in adapter.said() if "cannot be written, so no further connection ids" in line]
    need(len(told) == 1 and state in told[0], f"a line tells once that the state cannot be written: {told}")
    faults.set()
    wait(lambda: refused(peer) == (0, ()), "the disk is back: a connection opens")
    need(adapter.end() == 0, "the adapter ends with status 0")
    sure(True, "a state that cannot be written in a life is told once; ids end with 0113, and go on when the disk does")


def run_circle(bench):
    """The ids begin again: a line tells it, and the block goes over no end."""
    state = bench.write("circle.state", f"incarnation 7\nserial 9\nserials 1\nids {2**32 - 10} 5\n")
    adapter = bench.adapter("--state", state, log="circle")
    until(lambda: any("they begin again" in line for line in adapter.said()), "a line tells that the ids begin again")
    wait(lambda: kept(state)[3:] == [1 + BLOCK, ALL - 10 - BLOCK], "the last ten ids are reserved, and then the block that begins with 1")
    need(adapter.end() == 0, "the adapter ends with status 0")
    sure(True, "behind the last id of all comes 1, and a line tells that ids come again")


def refused(peer):
    """The general and the extended status of one more opening; of one that opens, which is closed, 0 and none."""
    connection = originator.Connection(peer.args, peer.session, INPUT_ONLY, POINT_TO_POINT)
    with served("a request to open is answered"):
        general, extended, _, _ = connection.open()
        if general == 0:
            connection.close()
    return general, extended
