#!/usr/bin/env python3
"""Measures what the library takes in Python: tools/measure/python_speed.py [COUNT]. It prints datagrams a second of processor time, the best of
five rounds of COUNT (100,000) datagrams: those of an owner that come, of 4 bytes, each with new data, to `Device.datagram`, with a tick of 1 ms
behind each ten; those that `Device.tick` gives, 32 at a time, each read out of its answer; and beside them calls of a function of Python
alone, which tell how fast Python is there. The library is the one that EIP_LIBRARY names, or out/libeip.so (tools/build/python_library)."""

import pathlib
import sys
import time

sys.path.insert(0, str(pathlib.Path(__file__).resolve().parents[2] / "python"))

from eip import Delivery, Device

OWNER = "192.168.1.20"
ADAPTER = "adapter 16 192.168.1.10 255.255.255.0 1 12 7 2 3\noutput 150 4 zero zero\ninput 100 4\nconfig 151 0\nheartbeat 152 153\n"
PRODUCERS = 32


def opening(serial, o_t, consumed):
    """A Forward_Open for input 100, point to point, T->O at 10 ms, O->T at 10 s with the longest time-out."""
    triad = serial.to_bytes(2, "little") + bytes.fromhex("341278563412")
    text = bytes.fromhex("5402200624010a0e" "00000000" "01000020") + triad + bytes.fromhex("07000000" "80969800")
    return text + o_t + bytes.fromhex("10270000" "0648" "0104" "200424972c") + bytes([consumed]) + bytes.fromhex("2c64")


def datagrams(o_t_id, first, count):
    """Datagrams of a connection, from a sequence number on."""
    head = bytes.fromhex("020002800800") + o_t_id.to_bytes(4, "little")
    for number in range(first, first + count):
        yield head + number.to_bytes(4, "little") + bytes.fromhex("b1000a00") + (number % 65536).to_bytes(2, "little") + b"\1\0\0\0" + number.to_bytes(4, "little")


def nothing(peer, data):
    """A call that costs what a call costs."""
    return len(data) and peer


def rate(take, tick, packets):
    """Datagrams a second of processor time."""
    begin = time.process_time()
    for at, packet in enumerate(packets):
        take(OWNER, packet)
        if at % 10 == 9:
            tick(1)
    return len(packets) / (time.process_time() - begin)


def coming(count):
    """The rates of datagrams that come, and of calls of Python alone."""
    best, plain = 0.0, 0.0
    with Device(ADAPTER) as device:
        o_t_id = device.request(OWNER, opening(1, bytes.fromhex("0a48"), 150)).notices[0].o_t_id
        for turn in range(5):
            packets = list(datagrams(o_t_id, 1 + turn * count, count))
            best = max(best, rate(device.datagram, device.tick, packets))
            plain = max(plain, rate(nothing, abs, packets))
        if device.datagram(OWNER, packets[-1]) is not Delivery.OLD or device.read(150) != packets[-1][-4:]:
            sys.exit("python_speed.py: the datagrams did not arrive")
    return best, plain


def given(count):
    """The rate of datagrams that ticks give."""
    best, seen = 0.0, 0
    with Device(ADAPTER) as device:
        for serial in range(1, PRODUCERS + 1):
            device.request(OWNER, opening(serial, bytes.fromhex("0248"), 152))
        for _ in range(5):
            begin = time.process_time()
            sent = 0
            for _ in range(count // PRODUCERS):
                for datagram in device.tick(10).datagrams:
                    seen += len(datagram.data)
                    sent += 1
            best = max(best, sent / (time.process_time() - begin))
    if seen < 5 * (count // PRODUCERS) * PRODUCERS * 24:
        sys.exit("python_speed.py: the datagrams were not sent")
    return best


def main():
    count = int(sys.argv[1]) if len(sys.argv) > 1 else 100_000
    come, plain = coming(count)
    print(f"datagrams a second of processor time: {come:,.0f} that come, {given(count):,.0f} that a tick gives; calls of Python alone {plain:,.0f}")


main()
