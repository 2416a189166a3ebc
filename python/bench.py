#!/usr/bin/env python3
"""A worked test: a scanner and two islands on a bad network, for a minute of virtual time.

    python/bench.py [--records FOLDER]

Each island has an output and an input of four bytes and copies the one to the other. The scanner owns both outputs and counts
them up. The network loses and repeats datagrams, and delays them by more than their interval, so that they overtake one
another. At 20 s the cable of the second island is pulled for 5 s. The assertions say what has to hold throughout.
With --records the devices write traces, which `eip_line step` replays.
"""

import argparse
import pathlib
import struct
import time

from eip import ConnectionNotice, Delivery, Device, NoticeKind, Refused, SlotNotice, SlotState, Status
from plant import Faults, Plant
from trace_lines import RecordedDevice

# Two slots: each owns output 150 of an island and receives its input 100, every 10 ms both ways. Multiplier 2 makes the
# time-out 16 times the interval, 160 ms.
SCANNER = """\
scanner 32 192.168.1.20 4660 305419896 2000 1000
slot 192.168.1.11 exclusive 151 150 100 4 4 10000 10000 2 p2p - -
slot 192.168.1.12 exclusive 151 150 100 4 4 10000 10000 2 p2p - -
"""
ISLAND = """\
adapter {incarnation} {node} 255.255.255.0 1 12 7 2 3
output 150 4 zero zero
input 100 4
config 151 0
heartbeat 152 153
"""
OUTPUT, INPUT = 150, 100
ZEROS = bytes(4)


class Bench:
    """The plant, with an application at each device."""

    def __init__(self, seed, device_type=Device):
        self.plant = Plant(seed, Faults(lost=0.01, repeated=0.01, delay_ms=(0, 15)))
        self.scanner = self.plant.add(device_type(SCANNER), "scanner")
        nodes = [("first", 16, "192.168.1.11"), ("second", 17, "192.168.1.12")]
        self.islands = [
            self.plant.add(device_type(ISLAND.format(incarnation=incarnation, node=node)), name)
            for name, incarnation, node in nodes
        ]
        self.count = 0
        self.outputs = [0, 0]
        self.images = [0, 0]
        for slot, island in enumerate(self.islands):
            self.plant.connect(self.scanner, island)
            self.scanner.start(slot)
        self.scanner.mode(True)
        self.plant.every(20, self.turn)

    def turn(self):
        """A turn of all applications: the scanner counts, and each island copies its output to its input."""
        self.count += 1
        for slot, island in enumerate(self.islands):
            self.scanner.write(slot, struct.pack("<I", self.count))
            output = island.read(OUTPUT)
            island.write(INPUT, output)
            self.outputs[slot] = self.follows(island, output, self.outputs[slot])
            self.images[slot] = self.follows(island, self.scanner.read(slot), self.images[slot])

    def follows(self, island, value, last):
        """A value is zeros, or no older than the last one, however late datagrams are. Answers the newer one."""
        (number,) = struct.unpack("<I", value)
        assert number == 0 or last <= number <= self.count, f"{island} at {self.plant.now_ms} ms: {number} after {last}"
        return max(number, last)

    def age_ms(self, value):
        """How long ago the scanner wrote a value."""
        return 20 * (self.count - struct.unpack("<I", value)[0])

    def state(self, slot):
        """The state of a slot, by its last notice."""
        states = [n.state for _, n in self.scanner.notices if isinstance(n, SlotNotice) and n.slot == slot]
        return states[-1]

    def expiries(self, island):
        """When connections of an island expired."""
        return [ms for ms, n in island.notices if isinstance(n, ConnectionNotice) and n.kind == NoticeKind.EXPIRED]


def run(bench):
    """The minute, with its fault."""
    plant, scanner = bench.plant, bench.scanner
    first, second = bench.islands
    sent = []
    plant.watch = lambda member, datagram: sent.append(datagram) if second.node in datagram.nodes else None

    # Both slots open, in four messages of at most 15 ms each: what is written arrives and comes back.
    plant.run_until(1_000)
    assert bench.state(0) == bench.state(1) == SlotState.ESTABLISHED
    for slot, island in enumerate(bench.islands):
        assert bench.age_ms(island.read(OUTPUT)) <= 100
        assert bench.age_ms(scanner.read(slot)) <= 200

    # A call that the device refuses changes nothing.
    before = scanner.read(0)
    try:
        scanner.write(0, b"123")
        raise AssertionError("three bytes are written to an output of four")
    except Refused as refused:
        assert refused.status == Status.WRONG_LENGTH
    assert scanner.read(0) == before

    plant.run_until(20_000)
    late = sent[-1]
    second.unplug()
    plant.cut(scanner, second)

    # The output holds its last value for 160 ms after the last datagram, and then takes its fault action.
    plant.run_until(20_100)
    assert second.read(OUTPUT) != ZEROS
    plant.run_until(20_160)
    assert second.read(OUTPUT) == ZEROS
    (expired_ms,) = bench.expiries(second)
    assert 20_100 < expired_ms <= 20_160

    # What the island had sent still arrives, at most 15 ms later. 160 ms after that the slot of the scanner times out.
    plant.run_until(20_175)
    assert bench.state(1) == SlotState.TIMED_OUT

    # The other island does not notice.
    plant.run_until(24_999)
    assert second.read(OUTPUT) == ZEROS
    assert bench.age_ms(first.read(OUTPUT)) <= 100
    assert bench.expiries(first) == []

    # The cable is back: the waiting stream opens, its session is registered, and the slot opens by itself.
    second.plug()
    plant.run_until(25_200)
    assert bench.state(1) == SlotState.ESTABLISHED
    assert bench.age_ms(second.read(OUTPUT)) <= 100

    # A datagram of the owner that is dead arrives ten seconds late. It drives nothing.
    plant.run_until(30_000)
    before = second.read(OUTPUT)
    assert second.datagram(scanner.node, late.data) == Delivery.UNKNOWN_ID
    assert second.read(OUTPUT) == before

    # The application of the scanner becomes idle for 50 ms: outputs take their idle action, and connections live on.
    plant.run_until(40_000)
    scanner.mode(False)
    plant.run_until(40_050)
    assert first.read(OUTPUT) == second.read(OUTPUT) == ZEROS
    scanner.mode(True)

    plant.run_until(60_000)
    assert len(bench.expiries(second)) == 1
    assert bench.expiries(first) == []
    for slot, island in enumerate(bench.islands):
        assert bench.age_ms(island.read(OUTPUT)) <= 100
        assert bench.age_ms(scanner.read(slot)) <= 200

    # 6,000 productions in a minute, of which one in a hundred is lost and one in a hundred comes twice.
    assert 5_900 <= sum(first.deliveries.values()) <= 6_100
    # New data comes every second time, so the others are duplicates; one that was overtaken is old.
    assert set(first.deliveries) == {Delivery.APPLIED, Delivery.DUPLICATE, Delivery.IDLE, Delivery.OLD}


def main():
    parser = argparse.ArgumentParser(description=__doc__, formatter_class=argparse.RawDescriptionHelpFormatter)
    parser.add_argument("--records", type=pathlib.Path, metavar="FOLDER")
    parser.add_argument("--seed", type=int, default=7)
    args = parser.parse_args()
    began, used = time.perf_counter(), time.process_time()
    bench = Bench(args.seed, RecordedDevice if args.records else Device)
    with bench.plant:
        run(bench)
        for member in bench.plant.members.values():
            if args.records:
                (args.records / f"{member.name}.trace").write_text(member.device.trace())
        taken = sum(sum(member.deliveries.values()) for member in bench.plant.members.values())
    print(f"60 s of the plant, {taken} datagrams: all assertions hold")
    print(f"in {time.perf_counter() - began:.2f} s, {time.process_time() - used:.2f} s of processor time")


main()
