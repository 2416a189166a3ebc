"""Calls of the system that fail: datagrams that are not sent or not received, and an input that signals interrupt."""

import errno, mmap, os, struct, time
from rim.host import need, sure, wait
from rim.peers import INPUT_ONLY, POINT_TO_POINT, Originator
from rim.streams import build_before

FAULT_S = 0.4  # seconds of a fault: more than the time-out of a connection
SLOW = {"rpi_ms": 50}  # so that few datagrams wait where none is received
PATIENCE = 20.0  # seconds in which a request is answered, on a busy machine too


class CallFaults:
    """The faults of a program's calls, which tools/play/calls.c makes: errors by their numbers, 0 for none."""

    def __init__(self, bench, name):
        self.library, self.path = bench.file("calls.so"), bench.file(f"{name}.faults")
        if not os.path.exists(self.library):
            build_before("calls", self.library)
        self.file = open(self.path, "w+b")
        self.file.write(bytes(24))
        self.file.flush()
        self.faults = mmap.mmap(self.file.fileno(), 24)
        bench.later(self)

    def env(self):
        return [f"LD_PRELOAD={self.library}", f"CALL_FAULTS={self.path}"]

    def set(self, send=0, receive=0, interrupt=0, sync=0, bind=0):
        self.faults[:20] = struct.pack("<iiiii", send, receive, interrupt, sync, bind)

    def synced(self):
        """How often a file or a folder has come on the medium."""
        return struct.unpack("<i", self.faults[20:])[0]

    def close(self):
        self.faults.close()
        self.file.close()


def run_failing_calls(bench):
    """Datagrams that the system does not send or receive are lost, and no more; an input that signals interrupt comes whole."""
    faults = CallFaults(bench, "failing")
    adapter = bench.adapter(log="failing", env=faults.env())
    watch, owner = (Originator(bench, own=own, patience=PATIENCE, **SLOW) for own in (bench.network.extra[0], None))
    bench.later(owner.feed(owner.open(), "11223344"))
    wait(lambda: watch.read(150) == "11223344", "an owner's data reach the output")
    for what, error in ("a network that is not reached", errno.ENETUNREACH), ("a datagram that is too long", errno.EMSGSIZE):
        faults.set(send=error)
        time.sleep(FAULT_S)
        need(watch.read(150) is not None, f"{what}: the adapter serves others")
        faults.set()
    faults.set(receive=errno.ECONNREFUSED)
    wait(lambda: watch.read(150) == "00000000", "no datagram is received: the owner's watchdog expires")
    faults.set()
    again = Originator(bench, patience=PATIENCE, **SLOW)
    bench.later(again.feed(again.open(), "0a0b0c0d"))
    wait(lambda: watch.read(150) == "0a0b0c0d", "datagrams are received again")
    need(adapter.is_running(), "the adapter goes on")
    again.open(INPUT_ONLY, POINT_TO_POINT).close()
    sure(True, "datagrams that the system does not send, or that a peer refuses, are lost, and the adapter serves meanwhile")
    faults.set(interrupt=1)
    for piece in "write 1", "00 010", "20304\nread 100\n":
        os.write(adapter.process.stdin.fileno(), piece.encode())
        time.sleep(0.1)
    wait(lambda: any(line.endswith(" value 01020304") for line in adapter.lines()), "calls in pieces come whole")
    sure(adapter.end() == 0, "an input that signals interrupt comes whole, and its end is the end")
    bench.clear()
