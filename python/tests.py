#!/usr/bin/env python3
"""Tests of python/eip.py, python/plant.py, docs/PYTHON.md and the Python of docs/GUIDE.md. What is expected comes from docs/PROFILE.md, and by hand."""

import contextlib
import copy
import inspect
import io
import os
import pathlib
import re
import socket
import sys
import tempfile
import threading
import time
import types
import typing
import unittest

import eip
import eip_command
import fault_words
import plant
import plant_file
import plant_script
import plant_sockets
import point_names
import port_faults
import profile_lines
import trace_lines
from eip import (
    Answer, AnswerKept, AskedRequest, BadLine, BadProfile, Connection, ConnectionKind, ConnectionNotice, Datagram, Delivery, Device,
    DeviceClosed, Frame, Identity, Mode, NoAnswer, NoticeKind, OtherLife, ProfileFault, RefusalNotice, Refused, Reply, ResetNotice, Slot,
    SlotNotice, SlotState, Status, ExplicitReply, UnansweredNotice,
    StreamNotice, Verdict, inquiry, node_number, node_text, read_answer,
)
from plant import Faults, Plant
from plant_script import BadScript, Judgement, judged, read_script, report_text
from plant_file import BadPlant, PlantDevice, read_plant
from plant_sockets import PortRefused, Sockets
from point_names import BadName, NameFault, Names, labelled, read_names
from port_faults import PortFaults, drawn
from trace_lines import RecordedDevice, outcome_lines

TOP = pathlib.Path(__file__).resolve().parent.parent
ADAPTER = """\
adapter 16 192.168.1.10 255.255.255.0 1 12 7 2 3
output 150 4 zero zero
input 100 4
config 151 0
heartbeat 152 153
"""
SCANNER = """\
scanner 32 192.168.1.20 4660 305419896 2000 3000
slot 192.168.1.10 exclusive 151 150 100 4 4 10000 10000 2 p2p - -
"""
OWNER = "192.168.1.20"
# examples/first_open.trace: an owner opens at 10 ms both ways, sends 11223344, and receives the input
OPEN = bytes.fromhex("5402200624010a0e0000000001000020010034127856341202000000102700000a481027000006480104200424972c962c64")
OPEN_REPLY = bytes.fromhex("d40000000100001001000020010034127856341210270000102700000000")
RUN_DATA = bytes.fromhex("0200028008000100001001000000b1000a0001000100000011223344")
INPUT_DATA = bytes.fromhex("0200028008000100002001000000b1000600010000000000")
REGISTER = bytes.fromhex("65000400000000000000000000000000000000000000000001000000")
REGISTERED = bytes.fromhex("65000400010000000000000000000000000000000000000001000000")
# the reply to the scanner's Forward_Open, and the data of its target
OPENED = bytes.fromhex(
    "6f002e000100000000000000010000000000000000000000" "00000000000002000000" "0000b2001e00" + OPEN_REPLY.hex()
)
TARGET_DATA = bytes.fromhex("0200028008000100002001000000b1000600010011223344")
UNREGISTER = bytes.fromhex("660000000100000000000000000000000000000000000000")


class Devices(unittest.TestCase):
    def opened(self, **how):
        device = Device(ADAPTER, **how)
        self.addCleanup(device.close)
        answer = device.request(OWNER, OPEN)
        opened = ConnectionNotice(NoticeKind.OPENED, 1, 4660, 305419896, 0x10000001)
        self.assertEqual(answer, Answer(Verdict.DONE, (Reply(OWNER, OPEN_REPLY), opened)))
        return device

    def refused(self, status, call, *words):
        with self.assertRaises(Refused) as caught:
            call(*words)
        self.assertEqual(caught.exception.status, status)

    def test_profiles_that_are_none(self):
        for text, line in ("", 1), (ADAPTER[:-1], 5), (ADAPTER.replace("input", "in"), 3), (ADAPTER + "tick x\n", 6):
            with self.assertRaises(BadLine) as caught:
                Device(text)
            self.assertEqual(caught.exception.line, line)
        for old, new, fault in [
            ("adapter 16", "adapter 0", ProfileFault.INCARNATION),
            ("input 100 4\n", "", ProfileFault.POINTS),
            ("input 100", "input 150", ProfileFault.SAME_INSTANCE),
            ("input 100 4", "input 100 1401", ProfileFault.LENGTH),
        ]:
            with self.assertRaises(BadProfile) as caught:
                Device(ADAPTER.replace(old, new))
            self.assertEqual(caught.exception.fault, fault)

    def test_an_owner_opens_and_exchanges_data(self):
        device = self.opened()
        self.assertEqual(device.datagram(OWNER, RUN_DATA), Delivery.APPLIED)
        self.assertEqual(device.read(150), bytes.fromhex("11223344"))
        self.assertEqual(device.tick(1), Answer(Verdict.DONE, (Datagram(OWNER, (OWNER,), INPUT_DATA),)))
        self.assertEqual(device.datagram(OWNER, RUN_DATA), Delivery.OLD)
        self.assertEqual(device.datagram("192.168.1.21", RUN_DATA), Delivery.UNKNOWN_ID)
        self.assertEqual(device.datagram(OWNER, b""), Delivery.MALFORMED)
        self.assertTrue(Delivery.DUPLICATE.is_accepted)
        self.assertFalse(Delivery.OLD.is_accepted)

    def test_a_session_begins_and_ends(self):
        device = self.opened()
        self.assertTrue(device.stream(0, OWNER).is_plain)
        self.assertEqual(device.frame(0, REGISTER).frames, (Frame(0, REGISTERED),))
        self.assertEqual(device.frame(0, b"").verdict, Verdict.BAD_FRAME)
        self.assertEqual(device.frame(0, UNREGISTER).notices, (StreamNotice(NoticeKind.STREAM_CLOSED, 0),))
        self.refused(Status.NOT_ALLOWED_NOW, device.cut, 0)

    def test_ids_come_in_blocks(self):
        """A device gives the ids that its profile states, then those of a further block, and then none."""
        device = Device(ADAPTER.replace("heartbeat", "ids 4000 1\nheartbeat"))
        self.addCleanup(device.close)
        self.assertEqual(device.ids_left(), 1)
        self.assertEqual(device.request(OWNER, OPEN).notices[0].o_t_id, 4000)
        # (Forward_Close, and an opening that finds no id: general status 1, extended status 0113)
        device.request(OWNER, bytes.fromhex("4e02200624010a0e0100341278563412040020042497" "2c962c64"))
        self.assertEqual(device.request(OWNER, OPEN).replies[0].data[:6], bytes.fromhex("d40001011301"))
        for first, count in (4000, 1), (3999, 2), (0, 1), (2**32 - 1, 2):
            self.refused(Status.NOT_ALLOWED_NOW, device.ids, first, count)
        self.assertEqual(device.ids_left(), 0)
        self.assertTrue(device.ids(5000, 2).is_plain)
        self.assertEqual(device.request(OWNER, OPEN).notices[0].o_t_id, 5000)
        self.assertEqual(device.ids_left(), 1)

    def test_refused_events_change_nothing(self):
        device = self.opened()
        kept = device.answer()
        self.refused(Status.TICK_TOO_LONG, device.tick, 60_001)
        self.refused(Status.NO_SUCH_POINT, device.write, 150, bytes(4))
        self.refused(Status.WRONG_LENGTH, device.write, 100, bytes(3))
        self.refused(Status.NO_SUCH_POINT, device.read, 7)
        self.refused(Status.NOT_ALLOWED_NOW, device.start, 0)
        self.refused(Status.NOT_ALLOWED_NOW, device.frame, 0, REGISTER)
        self.assertEqual(device.now_ms, 0)
        self.assertEqual(device.answer(), kept)
        with Device(SCANNER) as scanner:
            self.refused(Status.NO_SUCH_SLOT, scanner.start, 1)
            self.refused(Status.NOT_ALLOWED_NOW, scanner.request, OWNER, OPEN)

    def test_a_scanner_opens_its_slot(self):
        with Device(SCANNER) as scanner:
            self.assertTrue(scanner.is_scanner)
            self.assertTrue(scanner.start(0).is_plain)
            self.assertEqual(scanner.stream(7, "192.168.1.10").frames, (Frame(7, REGISTER),))
            answer = scanner.frame(7, REGISTERED)
            self.assertEqual(answer.notices, (SlotNotice(NoticeKind.SLOT, 0, SlotState.OPENING),))
            self.assertEqual(scanner.frame(7, REGISTERED).verdict, Verdict.IGNORED)
            # (the slot waits for the reply to its Forward_Open for the open time-out of the profile)
            (late,) = scanner.run_until(2_000)
            self.assertEqual(late.at_ms, 2_000)
            self.assertEqual(late.answer.notices, (SlotNotice(NoticeKind.SLOT, 0, SlotState.IDLE),))

    def test_an_output_has_the_owner_that_drives_it(self):
        def owner(mode, has_accepted, age_ms):
            kind = ConnectionKind.EXCLUSIVE_OWNER
            return Connection(OWNER, kind, 150, 100, 10, 10, mode, True, has_accepted, age_ms)

        device = self.opened()
        self.assertEqual(device.owner(150), owner(None, False, 0))
        device.tick(5)
        self.assertEqual(device.owner(150), owner(None, False, 5))
        self.assertEqual(device.datagram(OWNER, RUN_DATA), Delivery.APPLIED)
        self.assertEqual(device.owner(150), owner(Mode.RUN, True, 0))
        # the next number and count, and a header that says idle
        idle = bytearray(RUN_DATA)
        idle[10], idle[18], idle[20] = 2, 2, 0
        device.tick(7)
        self.assertEqual(device.owner(150), owner(Mode.RUN, True, 7))
        self.assertEqual(device.datagram(OWNER, bytes(idle)), Delivery.IDLE)
        self.assertEqual(device.owner(150), owner(Mode.IDLE, True, 0))
        self.assertEqual(device.connection(0), device.owner(150))
        self.assertIsNone(device.connection(1))
        self.assertIsNone(device.owner(151))
        device.tick(160)
        self.assertIsNone(device.owner(150))
        lost = device.connection(0)
        self.assertEqual((lost.is_established, lost.mode, lost.age_ms), (False, Mode.IDLE, 160))
        self.refused(Status.NO_SUCH_SLOT, device.slot, 0)

    def test_a_slot_says_its_state(self):
        with Device(SCANNER) as scanner:
            self.assertEqual(scanner.slot(0), Slot(SlotState.IDLE))
            scanner.start(0)
            scanner.stream(7, "192.168.1.10")
            scanner.frame(7, REGISTERED)
            self.assertEqual(scanner.slot(0), Slot(SlotState.OPENING))
            scanner.frame(7, OPENED)
            self.assertEqual(scanner.slot(0), Slot(SlotState.ESTABLISHED, 10, 10, False, 0))
            scanner.tick(6)
            self.assertEqual(scanner.datagram("192.168.1.10", TARGET_DATA), Delivery.APPLIED)
            scanner.tick(12)
            self.assertEqual(scanner.slot(0), Slot(SlotState.ESTABLISHED, 10, 10, True, 12))
            scanner.tick(148)
            self.assertEqual(scanner.slot(0), Slot(SlotState.TIMED_OUT))
            self.refused(Status.NO_SUCH_SLOT, scanner.slot, 1)
            self.assertIsNone(scanner.owner(150))

    def test_each_way_has_its_interval_and_each_connection_its_kind(self):
        """Openings of each kind, whose intervals to and fro are others; a slot whose target answers so."""

        def opening(serial, sizes, intervals, consumed):
            o_t_size, t_o_size = sizes
            o_t_us, t_o_us = (ms * 1000 for ms in intervals)
            return (
                bytes.fromhex("5402200624010a0e" "00000000" "01000020") + serial.to_bytes(2, "little") + OPEN[18:28]
                + o_t_us.to_bytes(4, "little") + bytes.fromhex(o_t_size) + t_o_us.to_bytes(4, "little") + bytes.fromhex(t_o_size)
                + bytes.fromhex("0104200424972c") + bytes([consumed]) + bytes.fromhex("2c64")
            )  # fmt: skip

        kinds = [
            (ConnectionKind.EXCLUSIVE_OWNER, ("0a48", "0648"), (10, 20), 150),
            (ConnectionKind.INPUT_ONLY, ("0248", "0628"), (30, 50), 152),
            (ConnectionKind.LISTEN_ONLY, ("0248", "0628"), (40, 50), 153),
        ]
        self.assertEqual(opening(1, ("0a48", "0648"), (10, 10), 150), OPEN)
        with Device(ADAPTER) as device:
            for at, (kind, sizes, intervals, consumed) in enumerate(kinds):
                device.request(OWNER, opening(at + 1, sizes, intervals, consumed))
                expected = Connection(OWNER, kind, consumed, 100, *intervals, None, True, False, 0)
                self.assertEqual(device.connection(at), expected)
        with Device(SCANNER.replace("10000 10000", "30000 10000")) as scanner:
            scanner.start(0)
            scanner.stream(7, "192.168.1.10")
            scanner.frame(7, REGISTERED)
            # (the reply ends with both intervals, to the target first, and no application reply)
            scanner.frame(7, OPENED[:-10] + bytes.fromhex("30750000" "10270000" "0000"))
            self.assertEqual(scanner.slot(0), Slot(SlotState.ESTABLISHED, 30, 10, False, 0))

    def test_time_passes_in_the_ticks_that_a_device_needs(self):
        device = self.opened()
        self.assertEqual([it.at_ms for it in device.run_until(25)], [0, 10, 20])
        self.assertEqual((device.now_ms, device.next_wake()), (25, 5))
        # The first deadline is 10 s after the opening, and nothing is sent in the tick of an expiry.
        answers = device.run_until(10_000)
        self.assertEqual([it.at_ms for it in answers], [*range(30, 10_001, 10)])
        expired = ConnectionNotice(NoticeKind.EXPIRED, 1, 4660, 305419896)
        self.assertEqual(answers[-1].answer, Answer(Verdict.DONE, (expired,)))
        self.assertEqual(device.run_until(200_000), [])
        self.assertEqual(device.run_until(0), [])
        self.assertEqual(device.now_ms, 200_000)

    def test_an_answer_is_asked_for_until_there_is_room(self):
        device = self.opened(room=0)
        self.assertEqual(device.read(100), bytes(4))
        self.assertEqual(device.tick(0).datagrams[0].data, INPUT_DATA)
        self.assertEqual(device.answer().datagrams[0].data, INPUT_DATA)

    def test_answers_are_kept(self):
        with Device(ADAPTER) as device:
            self.assertRaises(NoAnswer, device.answer)
            device.read(100)
            device.datagram(OWNER, b"")
            self.assertRaises(NoAnswer, device.answer)
            device.stream(0, OWNER)
            device.frame(0, REGISTER)
            self.assertEqual(device.answer().frames, (Frame(0, REGISTERED),))

    def test_memory_that_is_refused(self):
        """The library's statuses 1 and 8, where memory is refused, which no test can cause here."""
        with RecordedDevice(ADAPTER) as device:
            def no_room(*_words):
                device._size.value = 1 << 62
                return 8

            for call, fault, now_ms in (lambda *_: 1, Refused, 0), (no_room, AnswerKept, 5):
                device._calls = types.SimpleNamespace(eip_c_tick=call)
                with self.assertRaises(fault):
                    device.tick(5)
                self.assertEqual(device.now_ms, now_ms)
            # what was performed is in the record, without its outcome
            self.assertEqual(device.trace(), ADAPTER + "tick 5\n")

    def test_every_item_reads(self):
        """Items that need a rare state of a device: their numbers are those of include/eip.h."""
        for kind, numbers, notice, words in [
            (49, (1, 2, 3, 0), ConnectionNotice(NoticeKind.CLOSED, 1, 2, 3), "closed 1 2 3"),
            (51, (1, 2, 3, 0), ConnectionNotice(NoticeKind.DROPPED, 1, 2, 3), "dropped 1 2 3"),
            (52, (1, 2, 3, 0), ConnectionNotice(NoticeKind.REPLACED, 1, 2, 3), "replaced 1 2 3"),
            (54, (4, 6, 0, 0), SlotNotice(NoticeKind.SLOT, 4, SlotState.CLOSING), "slot 4 6"),
            (55, (4, 0, 0, 0), SlotNotice(NoticeKind.NO_IDS, 4), "no-ids 4"),
            (56, (1, 0, 0, 0), ResetNotice(NoticeKind.RESET, 1), "reset 1"),
            (64, (4, 100, 0, 0), RefusalNotice(NoticeKind.REFUSED_ENCAP, 4, 100), "refused 4 encap 100"),
            (65, (4, 0, 0, 0), RefusalNotice(NoticeKind.UNREADABLE, 4), "refused 4 unreadable"),
            (66, (4, 1, 1, 0x0106), RefusalNotice(NoticeKind.REFUSED, 4, 1, 0x0106), "refused 4 cip 01 0106"),
            (66, (4, 8, 0, 0), RefusalNotice(NoticeKind.REFUSED, 4, 8), "refused 4 cip 08 -"),
            (67, (4, 0, 0, 0), RefusalNotice(NoticeKind.OTHER_TRIAD, 4), "refused 4 mismatch Triad"),
            (68, (4, 0, 0, 0), RefusalNotice(NoticeKind.OTHER_ID, 4), "refused 4 mismatch Id"),
            (69, (4, 0, 0, 0), RefusalNotice(NoticeKind.OTHER_API, 4), "refused 4 mismatch Api"),
            (70, (4, 1, 1, 0x0113), RefusalNotice(NoticeKind.MISMATCH, 4, 1, 0x0113), "refused 4 cip 01 0113"),
            (72, (4, 0, 0, 0), UnansweredNotice(NoticeKind.NO_REPLY_TIMED_OUT, 4), "unanswered 4 timed-out"),
            (73, (4, 0, 0, 0), UnansweredNotice(NoticeKind.NO_REPLY_LOST, 4), "unanswered 4 lost"),
            (74, (4, 100, 0, 0), UnansweredNotice(NoticeKind.NO_REPLY_ENCAP, 4, 100), "unanswered 4 encap 100"),
            (75, (4, 0, 0, 0), UnansweredNotice(NoticeKind.NO_REPLY_UNREADABLE, 4), "unanswered 4 unreadable"),
        ]:
            items = [(1, 0, 0, 0, 0), (kind, *numbers)]
            raw = b"".join(b"".join(n.to_bytes(4, "little") for n in item) + bytes(8) for item in items)
            answer = Answer(Verdict.DONE, (notice,))
            self.assertEqual(read_answer(raw), answer)
            self.assertEqual(outcome_lines(9, answer), ["9 done", f"9 note {words}"])

    def test_a_request_to_the_application_reads(self):
        """Its number has 64 bits, in two numbers of an item; its path is an item of its own."""
        for c, d, attribute, word in [(1, 7, 7, "7"), (1, 0, 0, "0"), (0, 0, None, "-")]:
            items = [((8, 5, 1, 14, 0), b"\x0a"), ((9, 100, 2, c, d), b"")]
            raw = b"".join(
                b"".join(n.to_bytes(4, "little") for n in item) + len(data).to_bytes(8, "little") + data for item, data in items
            )
            answer = Answer(Verdict.ASKED, asked=AskedRequest(0x1_0000_0005, 14, 100, 2, attribute, b"\x0a"))
            self.assertEqual(read_answer(raw), answer)
            self.assertEqual(outcome_lines(9, answer), [f"9 asked 4294967301 14 100 2 {word} 0a"])
            self.assertFalse(answer.is_plain)

    def test_a_closed_device(self):
        device = Device(ADAPTER)
        device.close()
        device.close()
        self.assertTrue(device.is_closed)
        for call in (
            lambda: device.tick(1), lambda: device.read(100), lambda: device.datagram(OWNER, b""), device.next_wake,
            device.answer, lambda: device.owner(150), lambda: device.connection(0), lambda: device.slot(0),
        ):
            self.assertRaises(DeviceClosed, call)

    def test_a_device_is_not_copied(self):
        with Device(ADAPTER) as device:
            self.assertRaises(TypeError, copy.copy, device)
            self.assertRaises(TypeError, copy.deepcopy, device)

    def test_numbers_that_no_call_can_hold(self):
        with Device(ADAPTER) as device:
            for call in (
                lambda: device.stream(65_536, OWNER), lambda: device.stream(0, "1.2.3.256"), lambda: device.tick(-1),
                lambda: device.read(1 << 32),
            ):
                self.assertRaises(ValueError, call)
            for call, text in [
                (lambda: device.write(100, "abcd"), "'abcd' has the type str, and data are bytes"),
                (lambda: device.datagram(OWNER, bytearray(1)), "bytearray(b'\\x00') has the type bytearray, and data are bytes"),
                (lambda: device.tick(1.5), "milliseconds 1.5 is no whole number"),
            ]:
                with self.assertRaises(TypeError) as caught:
                    call()
                self.assertEqual(str(caught.exception), text)
        self.assertEqual((node_number("192.168.1.10"), node_text(0xC0A8010A)), (0xC0A8010A, "192.168.1.10"))

    def test_threads_share_a_device(self):
        device = self.opened()

        def ticks():
            for _ in range(500):
                device.tick(2)

        threads = [threading.Thread(target=ticks) for _ in range(4)]
        for thread in threads:
            thread.start()
        for thread in threads:
            thread.join()
        self.assertEqual(device.now_ms, 4_000)


class Inquiries(unittest.TestCase):
    def test_a_device_is_found(self):
        """ListIdentity, by the fields of rule 25.3."""
        identity = Identity("192.168.1.10", 0x01020304, "island", vendor=7, device_type=12, product=9, major=2, minor=3)
        asked = "6300" "0000" "00000000" "00000000" "6162636465666768" "00000000"
        item = "0100" "0c00" "2800" "0100" "0002af12c0a8010a" + "00" * 8 + "07000c000900" "0203" "0000" "04030201"
        item += "06" + b"island".hex() + "03"
        header = "6300" f"{len(item) // 2:02x}00" "00000000" "00000000" "6162636465666768" "00000000"
        self.assertEqual(inquiry(identity, bytes.fromhex(asked)), bytes.fromhex(header + item))
        self.assertIsNone(inquiry(identity, RUN_DATA))
        with self.assertRaises(Refused) as caught:
            inquiry(Identity("192.168.1.10", 1, "n" * 33), bytes.fromhex(asked))
        self.assertEqual(caught.exception.status, Status.LONG_NAME)
        with self.assertRaises(ValueError):
            inquiry(Identity("192.168.1.10", 1, "n", vendor=65_536), bytes.fromhex(asked))

    def test_a_described_device_is_found_and_reset(self):
        """A device whose profile has a line describe answers an inquiry itself, and reports a requested reset."""
        describe = "describe 16909060 " + b"island".hex() + " 44818 100 15 000000000000 120\n"
        asked = bytes.fromhex("6300" "0000" "00000000" "00000000" "6162636465666768" "00000000")
        with Device(ADAPTER) as device:
            self.assertEqual(device.inquire(OWNER, asked), Answer(Verdict.BAD_FRAME))
        with Device(ADAPTER.replace("heartbeat", describe + "heartbeat")) as device:
            (reply,) = device.inquire(OWNER, asked).replies
            self.assertEqual((reply.node, reply.data[:2], reply.data[-8:]), (OWNER, asked[:2], b"\x06island\x03"))
            answer = device.request(OWNER, bytes.fromhex("05022001240100"))
            self.assertEqual(answer.notices, (ResetNotice(NoticeKind.RESET, 0),))
            self.assertEqual(answer.replies, (Reply(OWNER, bytes.fromhex("85000000")),))


    def test_a_target_is_asked(self):
        """An application of a scanner asks a target for its product code; the target answers, and then refuses."""
        get = bytes.fromhex("0e03200124013003")
        head = "00000000" "0000" "0200" "00000000" "b200"

        def message(context, request):
            data = bytes.fromhex(head) + len(request).to_bytes(2, "little") + request
            return (
                bytes.fromhex("6f00") + len(data).to_bytes(2, "little") + bytes.fromhex("01000000" "00000000")
                + context.to_bytes(8, "little") + bytes(4) + data
            )  # fmt: skip

        with Device(SCANNER) as scanner:
            with self.assertRaises(Refused) as refused:
                scanner.explicit("192.168.1.10", 5, get)
            self.assertEqual(refused.exception.status, Status.NOT_ALLOWED_NOW)
            scanner.stream(0, "192.168.1.10")
            scanner.frame(0, REGISTERED)
            self.assertEqual(scanner.explicit("192.168.1.10", 5, get).frames, (Frame(0, message(1, get)),))
            answer = scanner.frame(0, message(1, bytes.fromhex("8e0000000700")))
            self.assertEqual(answer, Answer(Verdict.REPLIED, reply=ExplicitReply(5, 0, b"", bytes.fromhex("0700"))))
            scanner.explicit("192.168.1.10", 6, get)
            answer = scanner.frame(0, message(2, bytes.fromhex("8e000901ffff")))
            self.assertEqual(answer.reply, ExplicitReply(6, 9, bytes.fromhex("ffff"), b""))
            scanner.explicit("192.168.1.10", 7, get)
            (lost,) = scanner.cut(0).notices
            self.assertEqual(lost, UnansweredNotice(NoticeKind.NO_REPLY_LOST, 7))


class OwnObjects(unittest.TestCase):
    PROFILE = ADAPTER.replace("heartbeat", "object 100\nheartbeat")
    # service 4B of class 100 instance 1, with two bytes; Get_Attribute_Single of its attribute 7
    REQUEST = bytes.fromhex("4b02206424010102")
    GET = bytes.fromhex("0e03206424013007")

    def test_the_application_answers(self):
        with RecordedDevice(self.PROFILE) as device:
            asked = AskedRequest(1, 0x4B, 100, 1, None, bytes.fromhex("0102"))
            self.assertEqual(device.request(OWNER, self.REQUEST), Answer(Verdict.ASKED, asked=asked))
            self.assertEqual(device.request(OWNER, self.GET).asked, AskedRequest(2, 0x0E, 100, 1, 7, b""))
            self.assertEqual(device.respond(2, 0x14).replies, (Reply(OWNER, bytes.fromhex("8e001400")),))
            answer = device.respond(1, 0, bytes.fromhex("abcd"))
            self.assertEqual(answer, Answer(Verdict.DONE, (Reply(OWNER, bytes.fromhex("cb000000abcd")),)))
            lines = device.trace().split("\n")
            self.assertEqual(lines[6:8], [f"request {OWNER} 4b02206424010102", "1 asked 1 75 100 1 - 0102"])
            self.assertEqual(lines[10:13], ["answer 2 14 -", "3 done", f"3 reply {OWNER} 8e001400"])
            device.request(OWNER, self.REQUEST)
            # (it has the number 3)
            for number in 1, 4, 0x1_0000_0003:
                with self.assertRaises(Refused) as refused:
                    device.respond(number)
                self.assertEqual(refused.exception.status, Status.NOT_ALLOWED_NOW)

    def test_an_answer_is_not_too_long_and_not_too_late(self):
        with Device(self.PROFILE) as device:
            device.request(OWNER, self.REQUEST)
            with self.assertRaises(Refused) as refused:
                device.respond(1, 0, bytes(1401))
            self.assertEqual(refused.exception.status, Status.WRONG_LENGTH)
            self.assertEqual(device.tick(9999), Answer(Verdict.DONE))
            self.assertEqual(device.next_wake(), 1)
            self.assertEqual(device.tick(1).replies, (Reply(OWNER, bytes.fromhex("cb001f00")),))
            with self.assertRaises(Refused) as refused:
                device.respond(1)
            self.assertEqual(refused.exception.status, Status.NOT_ALLOWED_NOW)

    def test_sixteen_requests_wait(self):
        with Device(self.PROFILE) as device:
            for number in range(1, 17):
                self.assertEqual(device.request(OWNER, self.REQUEST).asked.number, number)
            answer = device.request(OWNER, self.REQUEST)
            self.assertEqual(answer, Answer(Verdict.DONE, (Reply(OWNER, bytes.fromhex("cb000200")),)))

    def test_a_stream_brings_a_request_and_takes_it_along(self):
        """The reply has the session and the sender context of the request; with the stream the request ends."""
        head = bytes.fromhex("6f00" "1800" "01000000" "00000000" "0102030405060708" "00000000")
        items = bytes.fromhex("00000000" "0000" "0200" "00000000" "b200" "0800")
        reply = bytes.fromhex(
            "6f00" "1600" "01000000" "00000000" "0102030405060708" "00000000" "00000000" "0000" "0200" "00000000" "b200" "0600"
            "cb000000abcd"
        )  # fmt: skip
        with Device(self.PROFILE) as device:
            device.stream(0, OWNER)
            device.frame(0, REGISTER)
            for number in 1, 2:
                self.assertEqual(device.frame(0, head + items + self.REQUEST).asked.number, number)
            self.assertEqual(device.respond(1, 0, bytes.fromhex("abcd")).frames, (Frame(0, reply),))
            device.cut(0)
            with self.assertRaises(Refused) as refused:
                device.respond(2)
            self.assertEqual(refused.exception.status, Status.NOT_ALLOWED_NOW)

    def test_an_answer_keeps_the_order_of_its_items(self):
        """Two requests that nobody answered in time: the one that came first is answered first, whichever way it came. So does a record."""
        head = bytes.fromhex("6f00" "1800" "01000000" "00000000" "0102030405060708" "00000000")
        items = bytes.fromhex("00000000" "0000" "0200" "00000000" "b200" "0800")
        late = bytes.fromhex(
            "6f00" "1400" "01000000" "00000000" "0102030405060708" "00000000" "00000000" "0000" "0200" "00000000" "b200" "0400" "cb001f00"
        )  # fmt: skip
        frame, reply = (Frame(0, late), f"frame 0 {late.hex()}"), (Reply(OWNER, bytes.fromhex("cb001f00")), f"reply {OWNER} cb001f00")
        for is_stream_first, order in (True, (frame, reply)), (False, (reply, frame)):
            with RecordedDevice(self.PROFILE) as device:
                device.stream(0, OWNER)
                device.frame(0, REGISTER)
                calls = [lambda: device.frame(0, head + items + self.REQUEST), lambda: device.request(OWNER, self.REQUEST)]
                for call in calls if is_stream_first else reversed(calls):
                    call()
                answer = device.tick(10_000)
                self.assertEqual(answer, Answer(Verdict.DONE, tuple(item for item, _ in order)))
                self.assertEqual((answer.frames, answer.replies), ((frame[0],), (reply[0],)))
                self.assertEqual(device.trace().split("\n")[-4:-1], ["5 done", *(f"5 {words}" for _, words in order)])

    def test_bad_classes(self):
        for lines in "object 4\n", "object 0\n", "object 100\nobject 100\n":
            with self.assertRaises(BadProfile) as bad:
                Device(ADAPTER.replace("heartbeat", f"{lines}heartbeat"))
            self.assertEqual(bad.exception.fault, ProfileFault.OBJECTS)


class ClassThree(unittest.TestCase):
    # Get_Attribute_Single of attribute 3 of assembly 100
    GET = bytes.fromhex("0e03200424643003")
    # a Forward_Open with class and trigger A3: sizes of at most 20 bytes, 10 ms both ways, the path 20 02 24 01
    OPEN = bytes.fromhex("5402200624010a0e0000000005000020050034127856341202000000102700001442102700001442a30220022401")

    def open(self):
        device = Device(ADAPTER)
        self.addCleanup(device.close)
        device.stream(0, OWNER)
        device.frame(0, REGISTER)
        head = bytes.fromhex("6f00" "3e00" "01000000" "00000000" "0102030405060708" "00000000")
        items = bytes.fromhex("00000000" "0000" "0200" "00000000" "b200" "2e00")
        opened = ConnectionNotice(NoticeKind.OPENED, 5, 4660, 305419896, 0x10000001)
        self.assertEqual(device.frame(0, head + items + self.OPEN).notices, (opened,))
        return device

    def unit(self, request, count, connection="01000010"):
        """SendUnitData with this count and request."""
        size = len(request)
        head = bytes.fromhex("7000") + (size + 22).to_bytes(2, "little") + bytes.fromhex("01000000" "00000000" "0000000000000000" "00000000")
        items = bytes.fromhex("00000000" "0000" "0200" "a100" "0400" + connection + "b100") + (size + 2).to_bytes(2, "little")
        return head + items + count.to_bytes(2, "little") + request

    def reply(self, data, count):
        """The frame with the reply, to the id that the originator chose."""
        return (Frame(0, self.unit(data, count, "05000020")),)

    def test_a_message_is_executed_once(self):
        device = self.open()
        zeros = self.reply(bytes.fromhex("8e000000" "00000000"), 7)
        self.assertEqual(device.frame(0, self.unit(self.GET, 7)), Answer(Verdict.DONE, zeros))
        device.write(100, bytes.fromhex("01020304"))
        again = device.frame(0, self.unit(self.GET, 7))
        self.assertEqual(again, Answer(Verdict.DELIVERED, zeros, delivery=Delivery.DUPLICATE))
        self.assertEqual(outcome_lines(9, again), ["9 duplicate", f"9 frame 0 {zeros[0].data.hex()}"])
        fresh = self.reply(bytes.fromhex("8e000000" "01020304"), 8)
        self.assertEqual(device.frame(0, self.unit(self.GET, 8)), Answer(Verdict.DONE, fresh))

    def test_messages_that_are_left_aside(self):
        device = self.open()
        for frame, delivery, words in [
            (self.unit(self.GET, 1, "02000010"), Delivery.UNKNOWN_ID, "unknown"),
            (self.unit(self.GET + bytes(11), 1), Delivery.WRONG_SIZE, "wrong-size"),
        ]:
            answer = device.frame(0, frame)
            self.assertEqual(answer, Answer(Verdict.DELIVERED, delivery=delivery))
            self.assertFalse(answer.is_plain)
            self.assertEqual(outcome_lines(9, answer), [f"9 {words}"])

    def test_a_connection_ends_with_its_stream(self):
        device = self.open()
        dropped = ConnectionNotice(NoticeKind.DROPPED, 5, 4660, 305419896)
        self.assertEqual(device.cut(0), Answer(Verdict.DONE, (dropped,)))


class Plants(unittest.TestCase):
    def plant(self, faults=Faults(), seed=1, device_type=Device):
        plant = Plant(seed, faults)
        self.addCleanup(plant.close)
        adapter, scanner = plant.add(device_type(ADAPTER), "adapter"), plant.add(device_type(SCANNER), "scanner")
        plant.connect(scanner, adapter)
        scanner.start(0)
        scanner.mode(True)
        scanner.write(0, bytes.fromhex("11223344"))
        adapter.write(100, bytes.fromhex("05060701"))
        return plant, adapter, scanner

    def states(self, scanner):
        return [(ms, n.state) for ms, n in scanner.notices if isinstance(n, SlotNotice)]

    def test_nothing_takes_time_on_a_network_without_delay(self):
        plant, adapter, scanner = self.plant()
        plant.run_until(0)
        self.assertEqual(self.states(scanner), [(0, SlotState.OPENING), (0, SlotState.ESTABLISHED)])
        self.assertEqual((adapter.read(150).hex(), scanner.read(0).hex()), ("11223344", "05060701"))
        plant.run_until(95)
        # at 0, 10, .. 90
        self.assertEqual((sum(adapter.deliveries.values()), sum(scanner.deliveries.values())), (10, 10))

    def test_messages_wait_for_their_delay(self):
        plant, adapter, scanner = self.plant(Faults(delay_ms=(5, 5)))
        # 5 the streams open, 10 and 15 the session, 20 and 25 the opening; its data are there after 5 more
        plant.run_until(29)
        self.assertEqual(self.states(scanner), [(15, SlotState.OPENING), (25, SlotState.ESTABLISHED)])
        self.assertEqual(adapter.read(150), bytes(4))
        plant.run_until(30)
        self.assertEqual(adapter.read(150).hex(), "11223344")

    def test_a_network_that_loses_everything(self):
        plant, adapter, scanner = self.plant(Faults(lost=1.0))
        plant.run_until(9_999)
        self.assertEqual(self.states(scanner)[-1], (0, SlotState.ESTABLISHED))
        plant.run_until(10_000)
        self.assertEqual(self.states(scanner)[-1], (10_000, SlotState.TIMED_OUT))
        self.assertEqual((adapter.deliveries, scanner.deliveries), ({}, {}))

    def test_a_network_that_repeats_everything(self):
        plant, adapter, _ = self.plant(Faults(repeated=1.0))
        plant.run_until(95)
        self.assertEqual(adapter.deliveries, {Delivery.APPLIED: 1, Delivery.DUPLICATE: 9, Delivery.OLD: 10})

    def test_a_stream_that_is_cut_opens_again(self):
        plant, adapter, scanner = self.plant()
        plant.run_until(500)
        plant.cut(scanner, adapter)
        with self.assertRaises(Refused):
            adapter.device.cut(0)
        plant.run_until(1_499)
        with self.assertRaises(Refused):
            adapter.device.cut(0)
        plant.run_until(1_500)
        self.assertEqual(len(adapter.device.frame(0, bytes(24)).frames), 0)
        self.assertEqual(self.states(scanner), [(0, SlotState.OPENING), (0, SlotState.ESTABLISHED)])

    def test_a_stream_that_its_device_closed_ends_at_the_other(self):
        plant, adapter, scanner = self.plant()
        plant.run_until(500)
        adapter.frame(scanner, UNREGISTER)
        plant.run_until(500)
        self.assertEqual(adapter.notices[-1], (500, StreamNotice(NoticeKind.STREAM_CLOSED, 0)))
        for member in adapter, scanner:
            with self.assertRaises(Refused):
                member.device.cut(0)
        with self.assertRaises(ValueError):
            adapter.frame(scanner, UNREGISTER)
        plant.run_until(1_500)
        with self.assertRaises(ValueError):
            adapter.frame(adapter, UNREGISTER)
        scanner.stop(0)
        plant.run_until(1_500)
        self.assertEqual(self.states(scanner)[-2:], [(1_500, SlotState.CLOSING), (1_500, SlotState.IDLE)])

    def test_a_device_that_restarts(self):
        plant, adapter, scanner = self.plant()
        sent = []
        plant.watch = lambda member, datagram: sent.append(datagram.data) if member is scanner else None
        plant.run_until(500)
        adapter.restart(Device(ADAPTER.replace("adapter 16", "adapter 17")))
        # 160 ms after the last datagram the slot times out, and it tries again 3 s later; the stream is back by then
        plant.run_until(4_000)
        reopened = [(660, SlotState.TIMED_OUT), (3_660, SlotState.OPENING), (3_660, SlotState.ESTABLISHED)]
        self.assertEqual(self.states(scanner)[2:], reopened)
        self.assertEqual(adapter.read(150).hex(), "11223344")
        # (its own time began with it)
        self.assertEqual((adapter.device.now_ms, scanner.device.now_ms), (3_500, 4_000))
        # (a stream that the device has closed, while its end is on the way to the other)
        adapter.unplug()
        adapter.frame(scanner, UNREGISTER)
        scanner.restart(Device(SCANNER.replace("scanner 32", "scanner 33")))
        adapter.plug()
        plant.run_until(5_000)
        scanner.start(0)
        plant.run_until(5_000)
        # (the output has had no owner since 160 ms after the last datagram of the first scanner)
        self.assertEqual(self.states(scanner)[-2:], [(5_000, SlotState.OPENING), (5_000, SlotState.ESTABLISHED)])
        # the second life does not know a datagram of the first
        self.assertEqual(adapter.datagram(scanner.node, sent[0]), Delivery.UNKNOWN_ID)
        with self.assertRaises(ValueError):
            adapter.restart(Device(SCANNER))

    def test_datagrams_are_lost_while_a_cable_is_pulled(self):
        """Those to the device, and those from it: its connection of 10 ms lives on for 160 ms."""
        plant, adapter, scanner = self.plant()
        counts = lambda: (sum(adapter.deliveries.values()), sum(scanner.deliveries.values()))
        plant.run_until(95)
        adapter.unplug()
        plant.run_until(195)
        self.assertEqual(counts(), (10, 10))
        adapter.plug()
        plant.run_until(205)
        self.assertEqual(counts(), (11, 11))

    def test_a_cut_is_of_two_devices(self):
        plant, adapter, scanner = self.plant()
        other = plant.add(Device(ADAPTER.replace("192.168.1.10", "192.168.1.30")), "other")
        plant.connect(scanner, other)
        plant.run_until(100)
        plant.cut(scanner, adapter)
        self.assertEqual([stream.is_over for stream in plant.streams], [True, False])

    def test_actions_have_their_times(self):
        """`every` is at multiples of its time. What a device has to send at the moment of a call is sent before it."""
        plant, adapter, scanner = self.plant()
        numbers, times = [], []
        plant.watch = lambda member, datagram: numbers.append(int.from_bytes(datagram.data[10:14], "little")) if member is adapter else None
        plant.run_until(5)
        plant.every(10, lambda: times.append(plant.now_ms))
        for ms in range(20, 60, 10):
            plant.at(ms, lambda: adapter.write(100, bytes(4)))
        plant.run_until(55)
        self.assertEqual(times, [10, 20, 30, 40, 50])
        self.assertEqual(numbers, list(range(numbers[0], numbers[0] + 6)))

    def test_streams_wait_while_a_cable_is_pulled(self):
        plant, adapter, scanner = self.plant(Faults(delay_ms=(0, 9)))
        plant.run_until(500)
        scanner.stop(0)
        adapter.unplug()
        plant.run_until(900)
        self.assertEqual(self.states(scanner)[-1], (500, SlotState.CLOSING))
        adapter.plug()
        plant.run_until(918)
        self.assertEqual(self.states(scanner)[-1][1], SlotState.IDLE)
        # (the connection expired meanwhile, and the close that waited in the stream removes it)
        self.assertEqual([n.kind for _, n in adapter.notices], [NoticeKind.OPENED, NoticeKind.EXPIRED, NoticeKind.CLOSED])

    def test_what_waited_for_a_cable_arrives_once(self):
        """Behind another pull of the cable, which nothing waited for, a message still takes its delay."""
        plant, adapter, scanner = self.plant(Faults(delay_ms=(10, 10)))
        plant.run_until(500)
        adapter.unplug()
        scanner.stop(0)
        plant.run_until(520)
        adapter.plug()
        plant.run_until(600)
        scanner.start(0)
        plant.run_until(700)
        adapter.unplug()
        plant.run_until(705)
        adapter.plug()
        plant.run_until(708)
        scanner.stop(0)
        plant.run_until(730)
        closed = [ms for ms, notice in adapter.notices if notice.kind == NoticeKind.CLOSED]
        self.assertEqual(closed, [530, 718])

    def test_a_close_does_not_overtake_what_was_sent(self):
        """The reply that an adapter sent before it closed the stream arrives before the end, whatever their delays are."""
        for seed in range(12):
            plant, adapter, scanner = self.plant(Faults(delay_ms=(0, 9)), seed, RecordedDevice)
            plant.run_until(500)
            before = len(scanner.device.trace())
            adapter.frame(scanner, bytes([4]) + bytes(23))
            adapter.frame(scanner, UNREGISTER)
            plant.run_until(510)
            words = [line.split()[:1] for line in scanner.device.trace()[before:].split("\n")]
            self.assertEqual([it for it in words if it in (["frame"], ["cut"])], [["frame"], ["cut"]])

    def test_each_delay_of_a_range_is_drawn(self):
        plant = Plant(1, Faults(delay_ms=(3, 6)))
        self.assertEqual({plant.delay() for _ in range(200)}, {3, 4, 5, 6})

    def test_a_device_takes_sixteen_streams(self):
        plant = Plant()
        self.addCleanup(plant.close)
        first, second, target = (plant.add(Device(ADAPTER.replace("1.10", f"1.{it}"))) for it in (11, 12, 13))
        for opener, streams in (first, 10), (second, 7):
            for _ in range(streams):
                plant.connect(opener, target, None)
        plant.run_until(0)
        self.assertEqual([len(it._streams) for it in (first, second, target)], [10, 6, 16])
        # (one that the opener itself refuses is a fault of the test)
        for _ in range(7):
            plant.connect(first, second, None)
        with self.assertRaises(Refused):
            plant.run_until(0)
        with self.assertRaises(ValueError):
            plant.add(Device(ADAPTER.replace("1.10", "1.11")))

    def test_the_same_seed_gives_the_same_run(self):
        def traces(seed):
            plant, adapter, scanner = self.plant(Faults(lost=0.1, repeated=0.1, delay_ms=(0, 30)), seed, RecordedDevice)
            plant.run_until(1_000)
            return adapter.device.trace(), scanner.device.trace()

        self.assertEqual(traces(1), traces(1))
        self.assertNotEqual(traces(1), traces(2))


class Scripts(unittest.TestCase):
    """Section 39. The watchdog of the owner is 16 times 10 ms, and its last datagram in front of a pause at 3005 is that of 3000."""

    def bench(self, stop="at 3005 pause 1000", end_ms=4000):
        bench = Plant()
        self.addCleanup(bench.close)
        island, scanner = bench.add(Device(ADAPTER), "island"), bench.add(Device(SCANNER), "controller")
        bench.connect(scanner, island)
        scanner.start(0)
        scanner.script(f"at 0 mode run\nat 0 write 0 11223344\n{stop}")
        return bench, island, scanner, lambda: bench.run_until(end_ms)

    def test_a_machine_stop_is_safe_within_twice_the_watchdog(self):
        _, island, _, run = self.bench()
        stop = island.script("""
            at 3000 expect owner 150 run
            at 3000 expect output 150 = 11223344
            at 3005 expect within 320 owner 150 lost
            at 3005 expect within 320 output 150 = 00000000
            when owner 150 lost do expect output 150 = 00000000
        """)
        run()
        self.assertEqual(stop.said, [
            (3000, "met 1 owner 150 run after 0"), (3000, "met 2 output 150 = 11223344 after 0"),
            (3160, "met 3 owner 150 lost after 155"), (3160, "met 4 output 150 = 00000000 after 155"),
            (3160, "met 5 output 150 = 00000000 after 0"),
        ])
        self.assertTrue(stop.has_passed)
        self.assertEqual(stop.words(), "island: its script has passed: 5 lines judge, 0 failed, 0 skipped")

    def test_a_deadline_can_be_met_at_its_last_moment_and_not_behind_it(self):
        # (it is lost at 3160: 155 behind 3005)
        for within, said in (155, [(3160, "met 1 owner 150 lost after 155")]), (154, [(3160, "failed 1 owner 150 lost within 154, but lost")]):
            _, island, _, run = self.bench()
            stop = island.script(f"at 3005 expect within {within} owner 150 lost")
            run()
            self.assertEqual((stop.said, stop.has_passed), (said, within == 155))

    def test_what_is_there_in_place_of_what_is_expected_is_said(self):
        _, island, scanner, run = self.bench("")
        lines = island.script("""
            at 2000 expect within 10 output 150 = 00
            at 2000 expect owner 150 idle
            at 2000 expect owner 150 of 192.168.1.21
            at 2000 expect output 77 = 00
            at 2000 expect owner 77 none
            at 2000 expect slot 0 idle
        """)
        slots = scanner.script("at 2000 expect slot 0 idle\nat 2000 expect image 0 = -\nat 2000 expect output 0 = 00000000")
        run()
        self.assertEqual([line.failure for line in lines.lines], [
            "output 150 = 00 within 10, but 11223344", "owner 150 idle, but of 192.168.1.20 run",
            "owner 150 of 192.168.1.21, but of 192.168.1.20 run", "output 77 = 00, but no such point", "owner 77 none, but no such point",
            "slot 0 idle, but no such slot",
        ])
        self.assertEqual([line.failure for line in slots.lines], [
            "slot 0 idle, but established", "image 0 = -, but 00000000", "output 0 = 00000000, but 00000000",
        ])

    def test_pass_and_fail_decide_a_script(self):
        _, island, _, run = self.bench("")
        passed = island.script("at 1000 expect owner 150 run\nat 2000 pass\nat 3000 expect owner 150 none\nat 3500 fail too late")
        run()
        self.assertEqual(passed.said, [(1000, "met 1 owner 150 run after 0"), (2000, "passed 2")])
        self.assertEqual([verdict.value for _, verdict in passed.verdicts()], ["passed", "passed", "skipped", "passed"])
        _, island, _, run = self.bench("")
        failed = island.script("when owner 150 run do fail it has an owner\nat 2000 pass")
        run()
        self.assertEqual(failed.words().splitlines(), [
            "island: script line 1: fail it has an owner: it has an owner", "island: its script has not passed: 2 lines judge, 1 failed, 1 skipped"])

    def test_a_line_that_was_not_reached_has_not_passed(self):
        _, island, _, run = self.bench("")
        run_ = island.script("at 9000 expect owner 150 run\nwhen owner 150 lost do expect output 150 = 00000000")
        run()
        self.assertEqual((run_.has_passed, [verdict.value for _, verdict in run_.verdicts()]), (False, ["not reached", "not reached"]))

    def test_lines_that_come_again_and_calls_behind_a_condition(self):
        _, island, _, run = self.bench("")
        lines = island.script("every 1000 expect owner 150 run\nat 500 when owner 150 run do write 100 01020304\nat 2000 expect output 100 = 01020304")
        run()
        self.assertEqual((lines.lines[0].met, lines.has_passed), (4, True))

    def test_a_script_requests_and_answers(self):
        """The controller asks class 100, and the island answers request 1; one that does not wait is refused, and decides nothing."""
        plant = Plant()
        self.addCleanup(plant.close)
        island, scanner = plant.add(Device(Members.OWN), "island"), plant.add(Device(SCANNER), "controller")
        plant.connect(scanner, island)
        scanner.start(0)
        scanner.script(f"at 100 explicit 192.168.1.10 7 {Members.GET_OWN.hex()}\nat 100 explicit 192.168.1.10 7 0e03\nat 200 explicit 192.168.1.11 8 0e03")
        answers = island.script("at 150 answer 1 00 2a\nat 160 answer 1 00 -\nat 200 pass")
        plant.run_until(300)
        self.assertEqual(scanner.answers[-1], eip.TimedAnswer(150, Answer(Verdict.REPLIED, (), ExplicitReply(7, 0, b"", b"\x2a"))))
        self.assertEqual((answers.said, answers.has_passed), ([(160, "refused 2 not allowed now"), (200, "passed 3")], True))
        self.assertEqual(scanner.script_run.said, [(100, "refused 2 not allowed now"), (200, "refused 3 no such slot")])

    def test_a_script_restarts_its_device(self):
        """The island sends its datagram of 1000 before the call: the slot times out 160 ms later, and tries again behind another 3000."""
        bench, island, scanner, run = self.bench("", 7000)
        lives = island.script("""
            at 1000 restart
            at 1000 expect owner 150 none
            at 4159 expect within 1 owner 150 of 192.168.1.20
            at 6000 restart same
        """)
        begun = []
        island.begin = lambda: begun.append((bench.now_ms, island.life, island.device.incarnation))
        run()
        self.assertEqual(lives.said, [(1000, "met 2 owner 150 none after 0"),
                                      (4160, "met 3 owner 150 of 192.168.1.20 after 1 # 192.168.1.20 (controller)")])
        self.assertEqual(begun, [(1000, 2, 17), (6000, 3, 17)])
        self.assertEqual([(it.life, it.incarnation, it.is_closed) for it in island.former], [(1, 16, True), (2, 17, True)])

    def test_bad_lines_have_their_sentences(self):
        for text, line, wrong in [
            ("at soon pass", 1, "a time is a number of milliseconds up to 4294967295, and behind every it is not 0"),
            ("# a\n\nevery 0 pass", 3, "a time is a number of milliseconds up to 4294967295, and behind every it is not 0"),
            ("device a b", 1, "a line of a script begins with at, every or when"),
            ("when owner 150 lost write 100 01", 1, "behind when is a condition, and do, and what is done"),
            ("at 1 fail ", 1, "behind fail is a text of 1 to 200 bytes without control characters"),
            ("at 1 pass\nat 1 expect slot 0 open", 2, plant_script._NO_CONDITION),
            ("at 1 expect within x slot 0 idle", 1, plant_script._NO_TIME),
            ("at 1 restart other", 1, plant_script._NO_CALL),
            ("at 1 answer 1 0 -", 1, plant_script._NO_CALL),
            ("at 1 explicit 1.2.3 4 0e03", 1, plant_script._NO_CALL),
        ]:
            with self.assertRaises(BadScript) as bad:
                read_script(text)
            self.assertEqual((bad.exception.line, bad.exception.wrong), (line, wrong), text)
        with self.assertRaises(BadScript):
            read_script("at 1 pass\n" * 257)

    def test_blanks_around_a_line_are_those_of_a_station(self):
        """A space, a tab, CR and FF are blanks; a no-break space is of the text, and VT begins no line."""
        for read in read_script, lambda text: read_plant(f"device a p\n{text}").devices[0].script:
            self.assertEqual(read("\f\t at 1 fail a\u00a0 \r\n")[0].text, "a\u00a0")
            with self.assertRaises((BadScript, BadPlant)):
                read("\x0bat 1 pass")

    def test_a_judgement_is_that_of_the_moment(self):
        self.assertEqual([judged(True, 2500, 2500), judged(False, 2500, 2500), judged(False, 2501, 2500), judged(True, 2501, 2500)],
                         [Judgement.MET, Judgement.WAITING, Judgement.FAILED, Judgement.FAILED])

    def test_the_report_is_xml(self):
        _, island, _, run = self.bench("")
        failed = island.script('at 100 fail a<b & "c">')
        run()
        self.assertEqual(report_text([failed]), '''<?xml version="1.0" encoding="UTF-8"?>
<testsuites>
  <testsuite name="island" tests="1" failures="1" skipped="0">
    <testcase classname="island" name="1: fail a&lt;b &amp; &quot;c&quot;&gt;" time="0.000">
      <failure message="a&lt;b &amp; &quot;c&quot;&gt;"/>
    </testcase>
  </testsuite>
</testsuites>
''')

    def test_a_report_has_characters_of_xml_alone(self):
        self.assertEqual(plant_script._attribute("a\x01\n\ufffe<\ud800é\t"), '"a\ufffd&#10;\ufffd&lt;\ufffdé&#9;"')

    def test_somebody_elses_adapter_that_keeps_its_output_fails_with_a_sentence(self):
        """The owner pauses at 3000; the watcher opens once the target has dropped it, and reads the output, which the input repeats."""
        sys.path.append(str(TOP / "tools" / "peers"))
        from virtual_adapter import VirtualAdapter
        owner = "scanner 1 192.168.1.21 0 7 1000 1000\nslot 192.168.1.11 exclusive - 150 100 4 4 10000 10000 2 p2p - -\n"
        watcher = "# name slot 0 Lamps\nscanner 1 192.168.1.22 0 8 1000 1000\nslot 192.168.1.11 input - 152 100 0 4 10000 10000 2 p2p - -\n"
        for keeps, failure in (False, None), (True, "image 0 = 00000000, but 11223344"):
            with Plant() as bench:
                target = bench.add(VirtualAdapter("192.168.1.11", keeps), "target")
                owners, watchers = bench.add(Device(owner), "owner"), bench.add(Device(watcher), "watcher")
                for scanner in owners, watchers:
                    bench.connect(scanner, target)
                    scanner.start(0)
                first = owners.script("at 0 mode run\nat 0 write 0 11223344\nat 2000 expect image 0 = 11223344\nat 3000 pause 9000")
                last = watchers.script("at 7000 expect slot 0 established\nat 7000 expect image 0 = 00000000")
                bench.run_until(7500)
                self.assertTrue(first.has_passed, first.words())
                self.assertEqual([line.failure for line in last.lines], [None, failure])
                judges = "2 lines judge, {} failed, 0 skipped"
                self.assertEqual(last.words().split("\n"), [
                    f"watcher: script line 2: expect image 0 = 00000000: {failure} # slot 0 (Lamps)",
                    f"watcher: its script has not passed: {judges.format(1)}",
                ] if keeps else [f"watcher: its script has passed: {judges.format(0)}"])


class Members(unittest.TestCase):
    """A member has the calls of its device. On this network nothing takes time; the scanner sends and receives at 0, 10, 20, .."""

    OWN = ADAPTER.replace("heartbeat", "object 100\nheartbeat")
    # Get_Attribute_Single of the input 100, and of attribute 1 of instance 1 of the maker's own class 100
    GET_INPUT, GET_OWN = bytes.fromhex("0e03200424643003"), bytes.fromhex("0e03206424013001")

    def plant(self):
        plant = Plant()
        self.addCleanup(plant.close)
        adapter, scanner = plant.add(Device(self.OWN), "adapter"), plant.add(Device(SCANNER), "scanner")
        plant.connect(scanner, adapter)
        scanner.start(0)
        scanner.mode(True)
        plant.run_until(95)
        return plant, adapter, scanner

    def test_each_call_of_a_device_is_one_of_a_member_or_of_its_plant(self):
        of_the_plant = {
            "stream": "connect", "tick": "run_until", "run_until": "run_until", "close": "close", "is_closed": "close",
            "from_file": "add", "incarnation": "add", "node": "add", "next_life": "restart",
        }  # fmt: skip
        calls = {name for name in dir(Device) if not name.startswith("_")}
        self.assertEqual(calls - {name for name in dir(plant.Member) if not name.startswith("_")}, calls & set(of_the_plant))
        for call in of_the_plant.values():
            self.assertTrue(hasattr(Plant, call) or hasattr(plant.Member, call))
        self.assertEqual(plant.Member.respond.__doc__, Device.respond.__doc__)

    def test_states_are_those_of_the_present_time(self):
        plant, adapter, scanner = self.plant()
        ages = []
        plant.at(98, lambda: ages.extend((adapter.owner(150).age_ms, scanner.slot(0).age_ms, adapter.connection(0).age_ms)))
        self.assertEqual((adapter.owner(150).age_ms, scanner.slot(0).age_ms, adapter.connection(1)), (5, 5, None))
        plant.run_until(99)
        self.assertEqual(ages, [8, 8, 8])
        self.assertEqual((adapter.next_wake(), adapter.now_ms, adapter.is_scanner, scanner.is_scanner), (1, 99, False, True))

    def test_a_request_comes_back_as_an_answer(self):
        plant, adapter, scanner = self.plant()
        adapter.write(100, bytes.fromhex("01020304"))
        scanner.explicit(adapter.node, 7, self.GET_INPUT)
        plant.run_until(95)
        reply = Answer(Verdict.REPLIED, (), ExplicitReply(7, 0, b"", bytes.fromhex("01020304")))
        self.assertEqual(scanner.answers[-1], eip.TimedAnswer(95, reply))
        # (without a stream, the reply is in the answer)
        self.assertEqual(adapter.request(OWNER, self.GET_INPUT).replies[0].data, bytes.fromhex("8e000000" "01020304"))
        self.assertEqual(adapter.answer(), adapter.device.answer())
        # (a device without a description counts nothing, and answers no inquiry)
        for call in lambda: adapter.counters(bytes(92)), lambda: scanner.inquire(OWNER, bytes(24)), lambda: scanner.request(OWNER, b""):
            self.assertRaises(Refused, call)
        self.assertEqual(adapter.inquire(OWNER, bytes(24)).verdict, Verdict.BAD_FRAME)

    def test_an_application_answers_at_once(self):
        plant, adapter, scanner = self.plant()
        adapter.watch = lambda answer: answer.asked and adapter.respond(answer.asked, 0, b"\x2a")
        scanner.explicit(adapter.node, 8, self.GET_OWN)
        plant.run_until(95)
        self.assertEqual(scanner.answers[-1].answer.reply, ExplicitReply(8, 0, b"", b"\x2a"))
        self.assertEqual(fault_words.reply_words(scanner.answers[-1].answer.reply),
                         "explicit request 8 is answered: general status 0x00 (success), additional status -")

    def test_an_answer_knows_its_life(self):
        """Each life numbers its requests anew, so a number alone is taken for that of the present life."""
        plant, adapter, scanner = self.plant()
        sent = []
        plant.watch = lambda member, datagram: sent.append(datagram.life) if member is adapter else None
        scanner.explicit(adapter.node, 9, self.GET_OWN)
        plant.run_until(100)
        first = adapter.answers[-1].answer.asked
        self.assertEqual(first, AskedRequest(1, 0x0E, 100, 1, 1, b"", life=1))
        adapter.restart(Device(self.OWN.replace("adapter 16", "adapter 17")))
        self.assertEqual((adapter.life, adapter.now_ms, scanner.life), (2, 0, 1))
        # the stream opens again 1 s after it was cut, and the slot 3 s after its time-out at 260
        plant.run_until(4_000)
        scanner.explicit(adapter.node, 10, self.GET_OWN)
        plant.run_until(4_000)
        second = adapter.answers[-1].answer.asked
        self.assertEqual((second.number, second.life), (1, 2))
        with self.assertRaises(OtherLife) as other:
            adapter.respond(first, 0, b"\x01")
        self.assertEqual(str(other.exception), "request 1 is of life 1, and the device is in life 2")
        adapter.respond(second, 0, b"\x02")
        plant.run_until(4_000)
        self.assertEqual(scanner.answers[-1].answer.reply, ExplicitReply(10, 0, b"", b"\x02"))
        self.assertEqual(sorted(set(sent)), [1, 2])
        self.assertEqual({it.answer.life for it in adapter.answers}, {1, 2})
        self.assertEqual(adapter.write(100, bytes(4)), Answer(Verdict.DONE, life=2))

    def test_a_next_life_gives_no_id_again(self):
        """Of ids 100 to 102 two are given, and of the further block of 5000 none: one is left for the next life, and no block."""
        profile = "# \xe9\n" + ADAPTER.replace("heartbeat", "ids 100 3\nheartbeat").replace("adapter 16", "adapter 255")
        with RecordedDevice(profile) as device:
            device.request(OWNER, OPEN)
            device.request(OWNER, bytes.fromhex("4e02200624010a0e0100341278563412040020042497" "2c962c64"))
            self.assertEqual(device.request(OWNER, OPEN).notices[0].o_t_id, 101)
            device.ids(5000, 5)
            self.assertEqual(device.ids_left(), 6)
            with device.next_life() as again, device.next_life(same=True) as same:
                self.assertEqual((again.incarnation, again.ids_left(), same.incarnation, same.ids_left()), (1, 1, 255, 3))
                self.assertEqual(again.request(OWNER, OPEN).notices[0].o_t_id, 102)
                self.assertEqual((again.life, same.trace()), (1, profile))
        with self.assertRaises(DeviceClosed):
            device.next_life()
        with Device(ADAPTER) as device, device.next_life() as again:
            self.assertEqual(again.request(OWNER, OPEN).notices[0].o_t_id, 0x11000001)

    def test_a_record_answers_a_request_of_its_life(self):
        with RecordedDevice(self.OWN) as device:
            asked = device.request(OWNER, self.GET_OWN).asked
            device.life = 2
            self.assertRaises(OtherLife, device.respond, asked)
            device.life = 1
            device.respond(asked, 0, b"\x07")
            self.assertEqual(device.trace().split("\n")[8:10], ["answer 1 00 07", "2 done"])

    def test_a_member_that_begins_and_one_that_has_ended(self):
        plant, adapter, scanner = self.plant()
        used = Device(ADAPTER.replace("1.10", "1.30"))
        used.tick(40)
        late = plant.add(used, "late")
        plant.run_until(100)
        self.assertEqual((late.now_ms, late.clock_ms), (45, 100))
        closed = Device(ADAPTER)
        closed.close()
        for device, fault, text in [
            (adapter.device, ValueError, "<adapter> restarts with another device: this one ends"),
            (closed, DeviceClosed, "the device is closed"), (Device(SCANNER), ValueError, "192.168.1.20 is not the address of <adapter>"),
        ]:
            with self.assertRaises(fault) as caught:
                adapter.restart(device)
            self.assertEqual(str(caught.exception), text)
        self.assertEqual(adapter.life, 1)
        with self.assertRaises(DeviceClosed):
            plant.add(closed, "closed")
        plant.close()
        for call in lambda: adapter.owner(150), lambda: adapter.write(100, bytes(4)), lambda: scanner.slot(0), lambda: plant.run_until(200):
            self.assertRaises(DeviceClosed, call)

    def test_what_goes_outside_is_handed_over(self):
        """The owner of the output is in no plant: its datagrams and those of `send` leave the plant."""
        plant, out = Plant(), []
        self.addCleanup(plant.close)
        adapter = plant.add(Device(ADAPTER))
        plant.outside = lambda member, datagram: out.append((plant.now_ms, datagram))
        adapter.request(OWNER, OPEN)
        adapter.send("192.168.1.99", b"abc")
        plant.run_until(9)
        data = Datagram(OWNER, (OWNER,), INPUT_DATA)
        self.assertEqual(out, [(0, Datagram("192.168.1.99", ("192.168.1.99",), b"abc")), (0, data)])
        adapter.unplug()
        plant.run_until(15)
        self.assertEqual(len(out), 2)

    def test_a_pause_may_be_longer_than_a_tick(self):
        plant, adapter, _ = self.plant()
        adapter.pause(150_000)
        plant.run_until(200_000)
        self.assertEqual((adapter.now_ms, adapter.clock_ms), (200_000, 200_000))
        adapter.pause(70_000)
        plant.at(260_000, lambda: adapter.write(100, bytes(4)))
        plant.run_until(260_000)
        self.assertEqual(adapter.now_ms, 260_000)


class Sentences(unittest.TestCase):
    """The sentences of faults are those of the crates, which a station prints."""

    def source(self, name):
        return (TOP / "crates" / name).read_text()

    def test_refusals_have_the_sentences_of_the_station(self):
        for name, head, last, texts in [
            ("cip_events/src/event.rt", "pub enum StepFault", "NotAllowedNow,", [it.sentence for it in map(Status, range(1, 8))]),
            ("cip_events/src/profile_fault.rt", "pub enum ProfileFault", "Objects,", [it.sentence for it in ProfileFault]),
        ]:
            text = self.source(name)
            text = text[text.index(head):]
            self.assertEqual(re.findall(r'#\[error\("(.*)"\)\]', text[: text.index(last)]), texts)

    def test_statuses_have_the_names_of_the_station(self):
        words = self.source("trace_words/src/status_words/statuses.rt") + self.source("trace_words/src/status_words.rt")
        rows = [(int(number, 16), name) for number, name in re.findall(r'(0x[0-9A-F]+) => "(.*)",', words)]
        named = [*fault_words.GENERAL.items(), *fault_words.EXTENDED.items(), *fault_words.ENCAPSULATION.items()]
        self.assertEqual(rows, named)
        explained = words + self.source("trace_explain/src/answers.rt")
        for text in [*fault_words._MISMATCHES.values(), *fault_words._UNANSWERED.values(), fault_words._UNNAMED, "refused by the target: "]:
            self.assertIn(f'"{text}"', explained)

    def test_a_refusal_is_told_whole(self):
        for call, text in [
            (lambda device: device.write(100, b"123"), "not the point's length"), (lambda device: device.write(7, b""), "no such point"),
            (lambda device: device.tick(60_001), "a tick of more than 60000 ms"), (lambda device: device.start(0), "not allowed now"),
            (lambda device: device.slot(0), "no such slot"), (lambda device: device.respond(1), "not allowed now"),
        ]:
            with Device(ADAPTER) as device, self.assertRaises(Refused) as refused:
                call(device)
            self.assertEqual(str(refused.exception), text)
        with self.assertRaises(BadProfile) as bad:
            Device(ADAPTER.replace("adapter 16", "adapter 0"))
        self.assertEqual(str(bad.exception), "bad profile 1: the incarnation is 0, or the ids are out of range")
        with self.assertRaises(Refused) as refused:
            inquiry(Identity("1.2.3.4", 1, "a" * 33), bytes(24))
        self.assertEqual(str(refused.exception), "the name has 33 bytes, and a name has 0 to 32")

    def test_why_a_slot_is_not_opened_and_a_request_not_answered(self):
        for notice, text in [
            (RefusalNotice(NoticeKind.REFUSED, 4, 1, 0x0106),
             "slot 4 is not opened: general status 0x01 (connection failure), extended status 0x0106 (ownership conflict)"),
            (RefusalNotice(NoticeKind.REFUSED, 0, 8), "slot 0 is not opened: general status 0x08 (service not supported), no extended status"),
            (RefusalNotice(NoticeKind.REFUSED, 0, 5, 0x0106),
             "slot 0 is not opened: general status 0x05 (path destination unknown), extended status 0x0106"),
            (RefusalNotice(NoticeKind.MISMATCH, 1, 1, 0x0999),
             "slot 1 is not opened: refused by the target: general status 0x01 (connection failure), extended status 0x0999 (another status)"),
            (RefusalNotice(NoticeKind.REFUSED_ENCAP, 2, 100), "slot 2 is not opened: encapsulation status 0x0064 (invalid session handle)"),
            (RefusalNotice(NoticeKind.REFUSED_ENCAP, 2, 0x10000), "slot 2 is not opened: encapsulation status 0x00010000 (another status)"),
            (RefusalNotice(NoticeKind.UNREADABLE, 3), "slot 3 is not opened: no readable reply"),
            (RefusalNotice(NoticeKind.OTHER_ID, 3), "slot 3 is not opened: another T->O id than the requested one, or one in use"),
        ]:
            self.assertEqual(fault_words.refusal_words(notice), text)
        for notice, text in [
            (UnansweredNotice(NoticeKind.NO_REPLY_TIMED_OUT, 4), "explicit request 4 is not answered: no reply came within the open time-out"),
            (UnansweredNotice(NoticeKind.NO_REPLY_LOST, 4), "explicit request 4 is not answered: its stream ended"),
            (UnansweredNotice(NoticeKind.NO_REPLY_ENCAP, 4, 3), "explicit request 4 is not answered: encapsulation status 0x0003 (incorrect data)"),
        ]:
            self.assertEqual(fault_words.unanswered_words(notice), text)


class PortsWithFaults(unittest.TestCase):
    """Section 30. The parts of the words 0 to 9 of seed 7, modulo 100: 43 40 54 99 66 37 94 94 65 53 of the first, 34 24 93 30 66 58 50 18
    48 37 of the second, 28 75 12 72 6 74 37 65 74 90 of the third."""

    def given(self, numbers=range(10), **rates):
        """When each datagram is given, of those that arrive at 0, 10, 20, .. or all at 0."""
        plant, given, port = Plant(), [], PortFaults(seed=7, **rates)
        for number in numbers:
            plant.at(10 * number, port.take, plant, lambda number=number: given.append((number, plant.now_ms)))
        plant.run_until(5000)
        self.assertEqual(port.waiting, [])
        return given

    def test_the_words_are_those_of_splitmix64(self):
        self.assertEqual([drawn(1234567, number) for number in range(3)], [6457827717110365317, 3203168211198807973, 9817491932198370423])
        self.assertEqual(drawn(0, 0), 0xE220A8397B1DCDAF)

    def test_a_seed_draws_what_is_lost_repeated_and_overtaken(self):
        self.assertEqual(self.given(), [(number, 10 * number) for number in range(10)])
        self.assertEqual([number for number, _ in self.given(lose=41)], [0, 2, 3, 4, 6, 7, 8, 9])
        self.assertEqual([number for number, _ in self.given(repeat=30)], [0, 1, 1, 2, 3, 4, 5, 6, 7, 7, 8, 9])
        # (0, 2 and 4 are given behind the next one)
        order = [(1, 10), (0, 10), (3, 30), (2, 30), (5, 50), (4, 50), (6, 60), (7, 70), (8, 80), (9, 90)]
        self.assertEqual(self.given(reorder=29), order)
        # (nothing comes behind the last one: it waits for a second)
        self.assertEqual(self.given(range(5), reorder=29)[-1], (4, 1040))

    def test_a_delay_is_drawn(self):
        """The fourth parts are 25547 and 1100: modulo 31 they are 3 and 15. What is lost is not delayed."""
        self.assertEqual(self.given(range(2), delay_ms=30), [(0, 3), (1, 25)])
        self.assertEqual(self.given(range(1), delay_ms=30, lose=100), [])
        self.assertEqual(self.given(range(1), delay_ms=30, repeat=100), [(0, 0), (0, 3)])

    def test_sixty_three_wait_and_a_life_loses_them(self):
        """Where more than 62 wait, the next one goes on at once."""
        plant, given = Plant(), []
        port = PortFaults(reorder=0, delay_ms=60_000, seed=7)
        for number in range(70):
            port.take(plant, lambda number=number: given.append(number))
        self.assertEqual((given, len(port.waiting)), (list(range(63, 70)), 63))
        port.begin()
        plant.run_until(60_000)
        self.assertEqual((given, port.arrived), (list(range(63, 70)), 0))

    def test_a_member_of_a_plant_has_a_port(self):
        """Every datagram to the island is lost there, and what it sends arrives; in its next life its port loses on. A pause holds what waited."""
        with Plant() as bench:
            island, scanner = bench.add(Device(ADAPTER), "island"), bench.add(Device(SCANNER), "scanner")
            bench.connect(scanner, island)
            scanner.start(0)
            island.port = PortFaults(lose=100)
            bench.run_until(95)
            # (at 0, 10, .. 90)
            self.assertEqual((sum(island.deliveries.values()), sum(scanner.deliveries.values()), island.port.arrived), (0, 10, 10))
            island.restart()
            self.assertEqual(island.port.arrived, 0)
            island.port = PortFaults(delay_ms=20, seed=1)
            island.send(island.node, b"")
            bench.run_until(95)
            held = island.port.waiting[0]
            island.pause(500)
            bench.run_until(594)
            self.assertEqual((held.is_over, sum(island.deliveries.values())), (True, 0))
            bench.run_until(595)
            self.assertEqual(island.deliveries[Delivery.MALFORMED], 1)


class PlantFiles(unittest.TestCase):
    """Section 34."""

    def test_the_plants_of_the_examples_read(self):
        stop = read_plant((TOP / "examples/plant/stop.plant").read_text())
        self.assertEqual([(it.name, it.profile, len(it.script)) for it in stop.devices],
                         [("controller", "../station_scanner.profile", 3), ("island", "../station_adapter.profile", 7)])
        self.assertEqual((stop.seconds, stop.record, stop.devices[1].script[4].words()), (13, None, "5: expect output 150 = 00000000"))
        line = read_plant((TOP / "examples/plant/line.plant").read_text())
        self.assertEqual((len(line.devices), line.devices[2].faults, line.devices[9].address), (10, {"lose": 5, "seed": 7}, "127.0.1.13"))

    def test_what_a_file_says_is_read(self):
        said = read_plant("\tdevice a-1 p\r\n  repeat 100\n# lose 1\n\nreorder 0\ndevice b q 10.0.0.1\ndelay 60000\n at 5 fail a  b\nrecord my records\nseconds 1000000000")
        self.assertEqual((said.devices[0], said.devices[1].faults), (PlantDevice("a-1", "p", None, {"repeat": 100, "reorder": 0}, []), {"delay": 60000}))
        self.assertEqual((said.devices[1].script[0].text, said.record, said.seconds), ("a  b", "my records", 10**9))

    def test_bad_lines_have_the_sentences_of_the_station(self):
        source = (TOP / "crates/plant_rim/specs/File/Sentences.antt").read_text()
        sentences = dict(re.findall(r'fault\.(\w+) = codes "(.*)"', source))
        sentences["NoDevice"] = re.findall(r'sentence_of_context other = codes "(.*)"', source)[0]
        del sentences["NotText"]
        d, script = "device a p\n", "at 1 pass\n" * 256
        bad = [
            ("lost 5", 1, "UnknownWord"), ("device a! p", 1, "BadName"), (f"device {'a' * 65} p", 1, "BadName"), ("device a", 1, "NoProfile"),
            ("device a p 10.0.0", 1, "BadAddress"), ("device a p 10.0.0.1 x", 1, "BadAddress"), (d + "lose 101", 2, "BadPercent"), (d + "reorder 05", 2, "BadPercent"),
            (d + "delay 60001", 2, "BadDelay"), (d + "seed 18446744073709551616", 2, "BadSeed"), ("seconds 0", 1, "BadSeconds"), ("seconds 1000000001", 1, "BadSeconds"),
            ("record", 1, "NoFolder"), (d + "every 0 cut", 2, "BadTime"), (d + "at 1 restart all", 2, "NoCall"), (d + "at 1 expect x", 2, "BadCondition"),
            (d + "when slot 0 idle cut", 2, "NoDo"), (d + "at 1 fail", 2, "BadText"), ("lose 5", 1, "BeforeDevice"), ("at 1 pass", 1, "BeforeDevice"),
            ("".join(f"device d{it} p\n" for it in range(128)), 128, "TooManyDevices"), (d + "device a q", 2, "SameName"),
            ("device a p 10.0.0.1\ndevice b p 10.0.0.1", 2, "SameAddress"), (d + script + "at 1 pass", 258, "LongScript"), ("lose 101", 1, "BadPercent"),
            (d + "lose 1\nlose 2", 3, "SaidTwice"), (d + "seconds 1\nseconds 1", 3, "SaidTwice"), (d + "record a\nrecord a", 3, "SaidTwice"), ("", 1, "NoDevice"),
            ("#\n", 2, "NoDevice"),
        ]
        for text, line, fault in bad:
            with self.assertRaises(BadPlant) as caught:
                read_plant(text)
            self.assertEqual((caught.exception.line, caught.exception.wrong), (line, sentences[fault]), text[:40])
        # (that of a line of a script alone)
        self.assertEqual(set(sentences) - {fault for _, _, fault in bad}, {"NoScriptLine"})
        with self.assertRaises(BadScript) as caught:
            read_script("\n" + d)
        self.assertEqual((caught.exception.line, caught.exception.wrong), (2, sentences["NoScriptLine"]))


class PointNames(unittest.TestCase):
    """Section 38."""

    NAMES = Names({150: "Valves", 100: "Levels"}, {0: "Press"}, {(150, 0, 0): "Open"})
    DEVICES = {"10.0.0.2": "press", "10.0.0.1": "line"}

    def test_lines_have_the_names_that_those_of_a_station_have(self):
        """The samples of the crate, which were worked by hand."""
        text = (TOP / "crates/trace_words/proofs/LabelSamples.antt").read_text()
        rows = [[word.replace('\\"', '"') for word in row] for row in re.findall(r': labelled \(codes "(.*)"\) ≡ codes "(.*)"$', text, re.M)]
        self.assertGreaterEqual(len(rows), 18)
        for line, expected in rows:
            self.assertEqual(labelled(line, self.NAMES, self.DEVICES), expected)

    def test_more_lines_with_names(self):
        for line, behind in [
            ("met 1 owner 150 of 10.0.0.1 after 5", " # 150 (Valves), 10.0.0.1 (line)"), ("image 0 = 150, but 100", " # slot 0 (Press)"),
            ("no-ids 0", " # slot 0 (Press)"), ("slot 150", ""), ("output 0150", ""), ("output 150: 100", " # 150 (Valves)"),
            ("connection 10.0.0.1 listen 100 150 100", " # 10.0.0.1 (line), 100 (Levels), 150 (Valves)"), ('x "a output 150', ""), ("", ""),
        ]:
            self.assertEqual(labelled(line, self.NAMES, self.DEVICES), line + behind)
        self.assertEqual(labelled("owner 150 of 10.0.0.1", self.NAMES), "owner 150 of 10.0.0.1 # 150 (Valves)")

    def test_a_profile_names_its_things_once(self):
        names = read_names("# name 150 Valves\nadapter\n# name slot 0 Press\n# bit 150 1 7 Inlet open\n# name 4294967295 é, x\n#name 1 a\n# named 2 b\n name 3 c")
        expected = Names({150: "Valves", 4294967295: "é, x"}, {0: "Press"}, {(150, 1, 7): "Inlet open"})
        self.assertEqual(names, expected)
        words, text, again = NameFault.WORDS, NameFault.TEXT, NameFault.REPEATED
        for line, fault in [
            ("name", words), ("name x a", words), ("name 01 a", words), ("name  1 a", words), ("name 4294967296 a", words), ("name slot a", words),
            ("bit 1 0 8 a", words), ("bit 1 0 a", words), ("name 1", text), ("name 1 ", text), (f"name 1 {'a' * 33}", text), ("name 1 a\tb", text),
            ("name 1 a\x7f", text), ("name 1 a\x9f", text), ("name 9 again", again), ("name slot 9 again", again), ("bit 9 0 0 again", again),
        ]:
            given = f"# name 9 a\n# name slot 9 a\n# bit 9 0 0 a\n\n# {line}\n"
            read = read_names(given)
            self.assertEqual((read.bad, read.points, read.slots, read.bits), ((BadName(5, fault),), {9: "a"}, {9: "a"}, {(9, 0, 0): "a"}), line)
        self.assertEqual(read_names(b"# name 1 \xff").bad, (BadName(1, text),))
        self.assertEqual(read_names("# name 1 " + "é" * 32).points, {1: "é" * 32})

    def test_the_sentences_of_bad_lines_are_those_of_a_station(self):
        source = (TOP / "crates/trace_words/src/point_names/names.rt").read_text()
        self.assertEqual(re.findall(r'^ +"(a name line.*|a name has.*)"$|NameLineFault::Repeated => "(.*)"', source, re.M),
                         [(NameFault.WORDS.value, ""), (NameFault.TEXT.value, ""), ("", NameFault.REPEATED.value)])

    def test_what_has_a_name_is_found_by_it(self):
        names = Names({1: "a", 2: "b", 3: "b"}, {7: "a"}, {(1, 0, 1): "x", (1, 1, 7): "y", (1, 2, 0): "z", (2, 0, 0): "w"})
        self.assertEqual((names.point("a"), names.slot("a")), (1, 7))
        for call, text in [
            (lambda: names.point("b"), "several points have the name b"), (lambda: names.slot("b"), "no slot has the name b"),
        ]:
            with self.assertRaises(ValueError) as wrong:
                call()
            self.assertEqual(str(wrong.exception), text)
        self.assertEqual(names.bits_of(1, b"\x02\x7f"), {"x": True, "y": False})

    def test_a_device_and_a_plant_have_names(self):
        with Plant() as plant:
            adapter = plant.add(Device("# name 150 Valves\n" + ADAPTER), "island")
            scanner = plant.add(RecordedDevice("# name slot 0 Press\n" + SCANNER))
            self.assertEqual((adapter.names.point("Valves"), scanner.names.slots), (150, {0: "Press"}))
            self.assertEqual(adapter.labels("slot 0 owner 150 of 192.168.1.10, 192.168.1.20"), " # 150 (Valves), 192.168.1.10 (island)")
            self.assertEqual((plant.member("island"), plant.member("192.168.1.20")), (adapter, scanner))
            adapter.restart(Device(ADAPTER))
            self.assertEqual(adapter.labels("owner 150"), "")
            plant.add(Device(ADAPTER.replace("1.10", "1.11")), "island")
            for name, text in ("island", "several devices have the name island"), ("x", "no device has the name x"):
                with self.assertRaises(ValueError) as wrong:
                    plant.member(name)
                self.assertEqual(str(wrong.exception), text)

    def test_verdicts_have_names(self):
        """The island's first line fails at 2001, since it is expected at 2000; the controller's second line names line 2, and no slot."""
        plant = Plant()
        self.addCleanup(plant.close)
        island = plant.add(Device("# name 150 Valves\n# name 100 Levels\n" + ADAPTER), "island")
        controller = plant.add(Device("# name slot 0 Press\n# name slot 2 Saw\n" + SCANNER), "controller")
        plant.connect(controller, island)
        controller.start(0)
        own = controller.script("at 100 expect slot 0 established\nat 100 write 9 00\nat 9000 expect image 0 = 00")
        run = island.script("at 2000 expect owner 150 of 192.168.1.10\nat 2000 fail output 100 leaks")
        plant.run_until(3000)
        self.assertEqual(own.said, [(100, "met 1 slot 0 established after 0 # slot 0 (Press)"), (100, "refused 2 no such slot")])
        self.assertEqual(run.said, [(2000, "failed 2 output 100 leaks # 100 (Levels)")])
        self.assertEqual(own.words().split("\n")[0], "controller: script line 3: expect image 0 = 00: was not reached # slot 0 (Press)")
        self.assertEqual(report_text([own]).split("\n")[4:7], [
            '    <testcase classname="controller" name="3: expect image 0 = 00 # slot 0 (Press)" time="0.000">',
            '      <failure message="was not reached"/>', "    </testcase>",
        ])
        second = island.script("at 3000 expect owner 150 of 192.168.1.10")
        plant.run_until(3001)
        why = "owner 150 of 192.168.1.10, but of 192.168.1.20 "
        names = "# 150 (Valves), 192.168.1.10 (island), 192.168.1.20 (controller)"
        self.assertEqual(second.said, [(3001, f"failed 1 {why}idle {names}")])
        self.assertEqual(second.words().split("\n")[0], f"island: script line 1: expect owner 150 of 192.168.1.10: {why}idle {names}")
        self.assertIn(f'<failure message="{why}idle {names}"/>', report_text([second]))
        self.assertEqual(second.lines[0].failure, f"{why}idle")


class AtSockets(unittest.TestCase):
    """An adapter at sockets of this host: a peer of the test's own speaks to it, in one thread."""

    NODE = "127.0.77.10"
    PROFILE = ADAPTER.replace("192.168.1.10 255.255.255.0", f"{NODE} 255.0.0.0")

    def free_ports(self):
        """A TCP port and a UDP port that are free."""
        made = [socket.socket(socket.AF_INET, kind) for kind in (socket.SOCK_STREAM, socket.SOCK_DGRAM)]
        for it in made:
            it.bind((self.NODE, 0))
        ports = [it.getsockname()[1] for it in made]
        for it in made:
            it.close()
        return ports

    def setUp(self):
        self.tcp, self.udp = self.free_ports()
        self.io = socket.socket(socket.AF_INET, socket.SOCK_DGRAM)
        self.addCleanup(self.io.close)
        self.io.bind(("127.0.77.20", 0))
        self.plant = Plant()
        self.addCleanup(self.plant.close)
        self.member = self.plant.add(Device(self.PROFILE), "served")
        self.sockets = Sockets(self.member, tcp=self.tcp, udp=self.udp, peer_udp=self.io.getsockname()[1])
        self.addCleanup(self.sockets.close)

    def until(self, holds):
        """Serves until something holds, at most for half a minute."""
        end = time.monotonic() + 30
        while not holds():
            self.assertLess(time.monotonic(), end)
            self.sockets.turn(self.plant.now_ms + 20)

    def stream(self):
        """A stream of the peer."""
        tcp = socket.create_connection((self.NODE, self.tcp), 30, ("127.0.77.20", 0))
        self.addCleanup(tcp.close)
        before = len(self.sockets.peers)
        self.until(lambda: len(self.sockets.peers) > before)
        tcp.setblocking(False)
        return tcp

    def received(self, tcp, size):
        """The next so many bytes of a stream."""
        got = bytearray()

        def has_come():
            try:
                got.extend(tcp.recv(size - len(got)))
            except BlockingIOError:
                pass
            return len(got) == size

        self.until(has_come)
        return bytes(got)

    def test_a_peer_opens_drives_and_closes(self):
        tcp = self.stream()
        # (a message may come in pieces)
        tcp.send(REGISTER[:10])
        self.sockets.turn(self.plant.now_ms + 5)
        tcp.send(REGISTER[10:])
        self.assertEqual(self.received(tcp, 28), REGISTERED)
        head = bytes.fromhex("6f00") + (16 + len(OPEN)).to_bytes(2, "little") + bytes.fromhex("01000000") + bytes(16)
        items = bytes.fromhex("00000000" "0000" "0200" "00000000" "b200") + len(OPEN).to_bytes(2, "little")
        tcp.send(head + items + OPEN)
        self.assertEqual(self.received(tcp, 24 + 16 + len(OPEN_REPLY))[40:], OPEN_REPLY)
        self.io.sendto(RUN_DATA, (self.NODE, self.udp))
        self.until(lambda: self.member.deliveries[Delivery.APPLIED] == 1)
        self.assertEqual(self.member.device.read(150).hex(), "11223344")
        self.io.setblocking(False)
        data = []

        def has_come():
            try:
                data.append(self.io.recv(2048))
            except BlockingIOError:
                pass
            return bool(data)

        self.until(has_come)
        # (the first datagram of a connection has number and count 1)
        self.assertEqual(data[0], INPUT_DATA)
        tcp.send(UNREGISTER)
        self.until(lambda: not self.sockets.peers)
        self.assertEqual(self.member.notices[-1][1], StreamNotice(NoticeKind.STREAM_CLOSED, 0))

    def test_streams_that_end(self):
        """Its peer closes it; a message states 2,049 bytes; the device is restarted; a seventeenth is closed unread."""
        first, second = self.stream(), self.stream()
        first.close()
        self.until(lambda: len(self.sockets.peers) == 1)
        second.send(bytes.fromhex("65000108"))
        self.until(lambda: not self.sockets.peers)
        self.stream()
        self.member.restart(Device(self.PROFILE.replace("adapter 16", "adapter 17")))
        self.assertEqual((self.sockets.peers, self.plant.streams, self.member.life), ([], [], 2))
        streams = [self.stream() for _ in range(16)]
        extra = socket.create_connection((self.NODE, self.tcp), 30)
        self.addCleanup(extra.close)
        extra.setblocking(False)

        def is_closed():
            try:
                return extra.recv(1) == b""
            except BlockingIOError:
                return False

        self.until(is_closed)
        self.assertEqual((len(self.sockets.peers), len(streams)), (16, 16))
        self.member.cut()
        self.assertEqual(self.plant.streams, [])

    def test_ports_that_the_host_does_not_give(self):
        with self.assertRaises(ValueError):
            Sockets(self.member)
        with Plant() as plant:
            self.refuses(plant.add(Device(self.PROFILE)))
            with self.assertRaises(ValueError):
                Sockets(plant.add(Device(SCANNER)))
        # (those of a plant that has none take nothing from another one)
        self.assertEqual(self.plant.outside, self.sockets._sent)

    def refuses(self, member):
        """Sockets whose ports the host does not give."""
        for what, words in [
            (f"the UDP port {self.udp} of {self.NODE} is in use", dict(tcp=self.udp, udp=self.udp)),
            (f"the TCP port {self.tcp} of {self.NODE} is in use", dict(tcp=self.tcp, udp=self.udp)),
            (f"the TCP port {self.tcp} of 192.0.2.1 has an address that is not of this host", dict(address="192.0.2.1", tcp=self.tcp)),
        ]:
            with self.assertRaises(PortRefused) as refused:
                Sockets(member, **words)
            self.assertEqual(str(refused.exception), what)
            self.assertEqual(refused.exception.is_other_host, "not of this host" in what)
            self.assertIsNone(member.plant.outside)


class Commands(unittest.TestCase):
    """python3 -m eip: its status, and what it prints."""

    ADAPTER_FILE, SCANNER_FILE = "examples/station_adapter.profile", "examples/station_scanner.profile"

    def setUp(self):
        os.chdir(TOP)
        self.folder = pathlib.Path(self.enterContext(tempfile.TemporaryDirectory()) if hasattr(self, "enterContext") else tempfile.mkdtemp())

    def file(self, name, text):
        path = self.folder / name
        path.write_bytes(text.encode() if isinstance(text, str) else text)
        return str(path)

    def performed(self, *words):
        """The status of the command, and the lines of its two outputs."""
        out, err = io.StringIO(), io.StringIO()
        with contextlib.redirect_stdout(out), contextlib.redirect_stderr(err):
            status = eip_command.main(words)
        return status, out.getvalue().splitlines(), err.getvalue().splitlines()

    def test_a_machine_stop_in_virtual_time(self):
        """The last datagram in front of the pause at 5005 is that of 5000, and the watchdog is 160 ms."""
        controller = self.file("controller.script", "at 500 mode run\nat 500 write 0 11223344\nat 5005 pause 1000\nat 5001 write 9 00\n")
        island = self.file("island.script", "at 5005 expect within 320 owner 150 lost\nwhen owner 150 lost do expect output 150 = 00000000\n")
        report = str(self.folder / "report.xml")
        status, out, err = self.performed("test", self.SCANNER_FILE, controller, self.ADAPTER_FILE, island, "--ms", "6000", "--report", report)
        self.assertEqual((status, out), (0, [
            "station_scanner at 5001 refused 4 no such slot", "station_adapter at 5160 met 1 owner 150 lost after 155",
            "station_adapter at 5160 met 2 output 150 = 00000000 after 0",
        ]))
        self.assertEqual(err, ["eip: station_adapter: its script has passed: 2 lines judge, 0 failed, 0 skipped"])
        self.assertEqual(pathlib.Path(report).read_text(), '''<?xml version="1.0" encoding="UTF-8"?>
<testsuites>
  <testsuite name="station_scanner" tests="0" failures="0" skipped="0">
  </testsuite>
  <testsuite name="station_adapter" tests="2" failures="0" skipped="0">
    <testcase classname="station_adapter" name="1: expect within 320 owner 150 lost" time="0.155"/>
    <testcase classname="station_adapter" name="2: expect output 150 = 00000000" time="0.000"/>
  </testsuite>
</testsuites>
''')

    def test_a_script_that_has_not_passed_has_the_status_of_a_station(self):
        status, out, err = self.performed("test", self.ADAPTER_FILE, "examples/scripts/fails.script")
        self.assertEqual(status, 8)
        self.assertEqual(out[-1], "station_adapter at 60000 passed 5")
        self.assertEqual(err[-1], "eip: station_adapter: its script has not passed: 5 lines judge, 2 failed, 1 skipped")
        self.assertEqual(self.performed("test", self.ADAPTER_FILE, "examples/scripts/holds.script")[0], 0)

    def test_bad_input_has_a_sentence(self):
        passes = self.file("passes.script", "at 1 pass\n")
        bad_script, no_text = self.file("bad.script", "\nat x pass\n"), self.file("none.script", b"\xff\n")
        bad_line, bad_profile = self.file("line.profile", "adapter\n"), self.file("fault.profile", ADAPTER.replace("adapter 16", "adapter 0"))
        events, silent = self.file("events.profile", ADAPTER + "tick 1\n"), self.file("silent.script", "at 1 write 100 00000000\n")
        time = "a time is a number of milliseconds up to 4294967295, and behind every it is not 0"
        nowhere = str(self.folder / "no" / "report.xml")
        for status, said, words in [
            (2, "the following arguments are required: test | plant | serve", []),
            (2, f"{self.ADAPTER_FILE}: a script is missing behind the profile; - is none", ["test", self.ADAPTER_FILE]),
            (2, "--ms 0 is no such value: the milliseconds are 1 to 4294967295", ["test", self.ADAPTER_FILE, passes, "--ms", "0"]),
            (2, "--tcp x is no such value: a port is 1 to 65535", ["serve", self.ADAPTER_FILE, "--tcp", "x"]),
            (2, "--tcp needs a value", ["serve", self.ADAPTER_FILE, "--tcp"]),
            (2, "--fast no such option", ["serve", self.ADAPTER_FILE, "--fast"]),
            (3, "no.profile cannot be read", ["test", "no.profile", passes]),
            (3, "no\0script cannot be read", ["test", self.ADAPTER_FILE, "no\0script"]),
            (3, "/dev/zero is no regular file", ["serve", "/dev/zero"]),
            (3, "examples is no regular file", ["test", self.ADAPTER_FILE, "examples"]),
            (3, f"{bad_script}: line 2: {time}", ["test", self.ADAPTER_FILE, bad_script]),
            (3, f"{no_text}: it has bytes that are no UTF-8", ["test", self.ADAPTER_FILE, no_text]),
            (3, f"{bad_line}: bad line 1", ["test", bad_line, passes]),
            (3, f"{bad_profile}: bad profile 1: the incarnation is 0, or the ids are out of range", ["test", bad_profile, passes]),
            (3, f"{events} has events behind the profile", ["test", events, passes]),
            (3, "no script judges: a test has a line with expect, fail or pass", ["test", self.ADAPTER_FILE, silent]),
            (3, f"{self.ADAPTER_FILE}: two devices have the address 127.0.0.10", ["test", *[self.ADAPTER_FILE, passes] * 2]),
            (3, f"{self.SCANNER_FILE} is the profile of the other kind of device", ["serve", self.SCANNER_FILE]),
            (4, "the TCP port 44818 of 192.0.2.1 has an address that is not of this host", ["serve", self.ADAPTER_FILE, "--address", "192.0.2.1"]),
            (4, "--address localhost is no such value: an IPv4 address is four numbers below 256 with dots between them",
             ["serve", self.ADAPTER_FILE, "--address", "localhost"]),
            (6, "the report cannot be written", ["test", self.ADAPTER_FILE, passes, "--report", nowhere]),
            (6, "the report is not written: another file is there", ["test", self.ADAPTER_FILE, passes, "--report", passes]),
        ]:
            before = pathlib.Path(passes).read_text()
            self.assertEqual(self.performed(*words), (status, [], [f"eip: {said}"]), words)
            self.assertEqual(pathlib.Path(passes).read_text(), before)

    def test_records_are_traces_and_names_differ(self):
        self.assertEqual(eip_command.names_of(["a/x.profile", "y", "b/x.profile", "x", "\udcff\n.b"]), ["x", "y", "x-2", "x-3", "__"])
        folder = self.folder / "records"
        words = ["test", self.SCANNER_FILE, "-", self.ADAPTER_FILE, self.file("own.script", "at 50 expect owner 150 idle\n"), "--ms", "60"]
        self.assertEqual(self.performed(*words, "--records", str(folder))[0], 0)
        self.assertEqual(sorted(it.name for it in folder.iterdir()), ["station_adapter.1.trace", "station_scanner.1.trace"])
        trace = (folder / "station_adapter.1.trace").read_text()
        self.assertTrue(trace.startswith(pathlib.Path(self.ADAPTER_FILE).read_text()))
        # (the scanner is idle, and sends at 0, 10, .. 60, new data at first and then the same)
        self.assertEqual([len(re.findall(rf"^[0-9]+ {word}$", trace, re.M)) for word in ("idle", "duplicate")], [1, 6])
        self.assertEqual(self.performed(*words, "--records", "/dev/null")[::2], (6, ["eip: the record cannot be written"]))

    def test_the_plant_of_a_machine_stop_in_virtual_time(self):
        """The same file as at a station. The controller is silent from 5000 to 6000, and tries again 3000 ms behind its time-out at 5160."""
        report = str(self.folder / "report.xml")
        status, out, err = self.performed("plant", "examples/plant/stop.plant", "--report", report)
        self.assertEqual((status, err), (0, ["eip: island: its script has passed: 7 lines judge, 0 failed, 0 skipped"]))
        self.assertEqual(out, [
            "island at 4000 met 1 owner 150 run after 0", "island at 4000 met 2 output 150 = 11223344 after 0", "island at 5160 met 3 owner 150 lost after 160",
            "island at 5160 met 4 output 150 = 00000000 after 160", "island at 5160 met 5 output 150 = 00000000 after 0",
            "island at 9000 met 6 owner 150 run after 3000", "island at 12500 passed 7",
        ])
        self.assertIn('name="3: expect within 320 owner 150 lost" time="0.160"/>', pathlib.Path(report).read_text())

    def test_the_devices_of_a_plant_have_their_addresses_faults_lives_and_records(self):
        """The controller loses its power at 1000: its stream is back a second later, and it is idle then. The deaf island takes nothing."""
        self.file("a.profile", ADAPTER.replace("heartbeat", "ids 900 5\nheartbeat"))
        self.file("s.profile", SCANNER.replace("192.168.1.10", "10.0.0.5") + SCANNER.split("\n")[1].replace("192.168.1.10", "10.0.0.6") + "\n")
        path = self.file("a.plant", """
            device controller s.profile
              at 500 mode run
              at 1000 restart
            device island a.profile 10.0.0.5
              at 900 expect owner 150 run
              at 1999 expect owner 150 lost
              at 2001 expect owner 150 idle
            device deaf a.profile 10.0.0.6
              lose 100
              at 5 expect owner 150 of 192.168.1.20
              every 500 expect output 150 = 00000000
            seconds 3
            record traces
        """)
        status, out, err = self.performed("plant", path)
        # (3 lines and one of the island's and the deaf one's scripts, six of its `every`; the deaf one still has the first life's connection)
        self.assertEqual((status, len(out), len(err)), (0, 3 + 1 + 6 + 1, 2), err)
        self.assertIn("controller at 2000 # slot 1 is not opened: general status 0x01 (connection failure), extended status 0x0100 "
                      "(connection in use or duplicate Forward_Open)", out)
        traces = {it.name: it.read_text() for it in (self.folder / "traces").iterdir()}
        self.assertEqual(sorted(traces), ["controller.1.trace", "controller.2.trace", "deaf.1.trace", "island.1.trace"])
        # (three devices have 85 incarnations each)
        self.assertEqual([traces[it].split("\n")[0].split()[:3] for it in sorted(traces)], [
            ["scanner", "1", "192.168.1.20"], ["scanner", "2", "192.168.1.20"], ["adapter", "171", "10.0.0.6"], ["adapter", "86", "10.0.0.5"]])
        self.assertNotIn("ids ", traces["island.1.trace"])
        # (10.0.0.5 as a number, and the name)
        self.assertIn("\ndescribe 167772165 69736c616e64 44818 100 15 000000000000 120\n", traces["island.1.trace"])
        self.assertNotIn("datagram", traces["deaf.1.trace"])
        # an option is for the devices of which the file says nothing else
        words = ["plant", path, "--lose", "100", "--seconds", "1", "--record", str(self.folder / "others")]
        status, out, _ = self.performed(*words)
        self.assertEqual((status, [line for line in out if line.startswith("deaf at ")][2:]), (8, ["deaf at 1000 met 2 output 150 = 00000000 after 0"]))
        self.assertNotIn("datagram", (self.folder / "others/controller.1.trace").read_text())

    def test_a_slot_whose_target_is_not_there_is_named(self):
        path = self.file("s.profile", "# name slot 1 Saw\n" + SCANNER + SCANNER.split("\n")[1].replace("1.10", "1.11") + "\n")
        with Plant() as bench, contextlib.redirect_stderr(io.StringIO()) as err:
            members = [bench.add(Device.from_file(path), "controller"), bench.add(Device(ADAPTER), "island")]
            eip_command.connect(bench, [path, self.file("a.profile", ADAPTER)], members)
            bench.run_until(0)
            self.assertEqual((members[0].slot(0).state, members[0].slot(1).state), (SlotState.ESTABLISHED, SlotState.IDLE))
        said = "eip: controller: slot 1 is not opened: no device of the plant has the address 192.168.1.11 # slot 1 (Saw)\n"
        self.assertEqual(err.getvalue(), said)

    def test_what_a_plant_says_of_a_device_goes_before_each_option(self):
        words = types.SimpleNamespace(lose=1, repeat=0, reorder=3, delay=4, seed=9)
        own = lambda **said: eip_command.port_of(words, PlantDevice("a", "p", None, said))
        self.assertEqual((own(lose=5, reorder=0), own(seed=2)), (PortFaults(5, 0, 0, 4, 9), PortFaults(1, 0, 3, 4, 2)))
        self.assertIsNone(own(lose=0, reorder=0, delay=0))

    def test_a_bad_plant_has_a_sentence(self):
        bad, empty, same = self.file("bad.plant", "device a b\n lose x\n"), self.file("empty.plant", ""), self.file("same.plant", "device a a.profile\ndevice b a.profile\n")
        missing, profile = self.file("missing.plant", "device a no.profile\n"), self.file("a.profile", ADAPTER)
        for status, said, words in [
            (3, f"{bad}: line 2: a percentage is a number from 0 to 100", [bad]), (3, f"{empty}: line 1: a plant has at least one device", [empty]),
            (3, f"{profile}: two devices have the address 192.168.1.10", [same]), (3, f"{self.folder}/no.profile cannot be read", [missing]),
            (2, "--seconds 0 is no such value: the seconds are 1 to 1000000000", [same, "--seconds", "0"]),
        ]:
            self.assertEqual(self.performed("plant", *words), (status, [], [f"eip: {said}"]), words)

    def test_a_reset_is_as_a_restart(self):
        described = ADAPTER.replace("heartbeat", "describe 7 50756d70 44818 100 15 02a1b2c3d4e5 120\nheartbeat")
        path = self.file("described.profile", described)
        with Plant() as bench:
            member = bench.add(Device(described))
            eip_command.connect(bench, [path], [member])
            member.request(OWNER, bytes.fromhex("05022001240100"))
            self.assertEqual(member.life, 1)
            bench.run_until(0)
            self.assertEqual((member.life, member.device.incarnation), (2, 17))

    def test_what_it_prints_has_names_and_sentences(self):
        """Slot 1 wants the input 101, which is not there: it is refused at 0, and again 3 s later with the same sentence."""
        island = self.file("island.profile", "# name 150 Valves\n# name x\n" + ADAPTER)
        slots = SCANNER + "slot 192.168.1.10 exclusive 151 150 101 4 4 10000 10000 2 p2p - -\n"
        controller = self.file("controller.profile", "# name slot 1 Press\n" + slots)
        script = self.file("a.script", "at 100 expect owner 150 of 192.168.1.20\nat 4000 pass\n")
        said = "general status 0x01 (connection failure), extended status 0x012b (invalid producing application path)"
        words = ["test", controller, "-", island, script, "--ms", "4000"]
        expected = [f"controller at 0 # slot 1 is not opened: {said} # slot 1 (Press)",
                    "island at 100 met 1 owner 150 of 192.168.1.20 after 0 # 150 (Valves), 192.168.1.20 (controller)", "island at 4000 passed 2"]
        self.assertEqual(self.performed(*words), (0, expected, [
            f"eip: {island}: line 2: {NameFault.WORDS.value}", "eip: island: its script has passed: 2 lines judge, 0 failed, 0 skipped",
        ]))

    def test_a_sentence_of_a_slot_is_said_again_behind_its_opening(self):
        refused, other = (RefusalNotice(NoticeKind.REFUSED, slot, 1, 0x0106) for slot in (0, 1))
        full = RefusalNotice(NoticeKind.REFUSED, 0, 1, 0x0113)
        opened, lost = SlotNotice(NoticeKind.SLOT, 0, SlotState.ESTABLISHED), SlotNotice(NoticeKind.SLOT, 0, SlotState.IDLE)
        unanswered = UnansweredNotice(NoticeKind.NO_REPLY_LOST, 0)
        notices = [refused, other, refused, lost, refused, full, refused, opened, refused, unanswered, unanswered]
        said = eip_command.sentences_of(types.SimpleNamespace(notices=list(enumerate(notices))))
        self.assertEqual([ms for ms, _ in said], [0, 1, 5, 6, 8, 9, 10])
        self.assertEqual(said[0][1], fault_words.refusal_words(refused))

    def test_another_incarnation_or_address_leaves_the_rest(self):
        self.assertEqual(profile_lines.with_incarnation("# a\n\n" + ADAPTER, 99), "# a\n\n" + ADAPTER.replace("adapter 16", "adapter 99"))
        self.assertEqual(profile_lines.with_address("# a\n" + SCANNER, "10.0.0.1"), "# a\n" + SCANNER.replace("192.168.1.20", "10.0.0.1", 1))
        self.assertEqual(profile_lines.without_ids(ADAPTER.replace("heartbeat", "ids 1 2\nheartbeat")), ADAPTER)
        described = profile_lines.with_description(ADAPTER.replace("heartbeat", "ids 1 2\nheartbeat"), 7, "é" * 17)
        expected = f"describe 7 {'c3a9' * 16} 44818 100 15 000000000000 120\nids 1 2\nheartbeat"
        self.assertEqual(described, ADAPTER.replace("heartbeat", expected))
        for profile in described, SCANNER:
            self.assertEqual(profile_lines.with_description(profile, 8, "b"), profile)
        Device(profile_lines.with_description(ADAPTER, 0xC0A8010A, "a")).close()

    def test_the_ids_that_are_left_are_of_the_next_life(self):
        """Those that the profile states, but for the first one; behind the last id of all there is none."""
        def behind(ids, left):
            return profile_lines.with_unused_ids(f"adapter 16\nids {ids}\nheartbeat 152 153\n", left).split("\n")[1]

        self.assertEqual(behind("100 50", 20), "ids 130 20")
        self.assertEqual(behind("100 50", 50), "ids 101 49")
        self.assertEqual(behind("100 50", 0), "ids 150 0")
        self.assertEqual(behind("100 0", 0), "ids 100 0")
        self.assertEqual(behind("4294967290 6", 4), "ids 4294967292 4")
        self.assertEqual(behind("4294967290 6", 0), "ids 4294967290 0")
        self.assertEqual(profile_lines.with_unused_ids(ADAPTER, 3), ADAPTER)

    def test_what_is_served_is_printed_and_a_reset_begins_the_next_life(self):
        plant, lines = Plant(), []
        self.addCleanup(plant.close)

        def served(profile):
            member = plant.add(Device(profile), "served")
            return member, eip_command.Served(member, profile, types.SimpleNamespace(put=lambda line, output=1: lines.append(line)))

        member, prints = served(AtSockets.PROFILE)
        member.request(OWNER, OPEN)
        member.datagram(OWNER, RUN_DATA)
        prints.look()
        prints.call("write 100 01020304")
        prints.call("read 150")
        for line in "tick 5", "write 100", "write x 00", "read", "# no call", "":
            prints.call(line)
        self.assertEqual(lines, [
            "at 0 output 150 00000000", "at 0 note opened 1 4660 305419896 10000001", "at 0 output 150 11223344", "1 done", "2 value 11223344",
            *(f"eip: no call: {line}" for line in ("tick 5", "write 100", "write x 00", "read")),
        ])
        self.assertEqual((member.answers, member.notices), ([], []))
        # Reset of the Identity object, of type 0, at a described device without an owner
        lines.clear()
        member, prints = served(AtSockets.PROFILE.replace("77.10", "77.11").replace("adapter", "# name 150 Valves\nadapter"))
        self.assertEqual(lines, ["at 0 output 150 00000000 # 150 (Valves)"])
        lines.clear()
        described = ADAPTER.replace("adapter 16", "adapter 255").replace("heartbeat", "describe 7 50756d70 44818 100 15 02a1b2c3d4e5 120\nheartbeat")
        member, _ = served(described)
        member.request(OWNER, bytes.fromhex("05022001240100"))
        plant.run_until(3)
        self.assertEqual(lines, ["at 0 output 150 00000000", "at 0 note reset 0", "at 0 life 2, incarnation 1"])
        self.assertEqual((member.life, member.device.incarnation, member.now_ms, member.former), (2, 1, 3, []))
        # a life that gave none of its three ids leaves two of them
        member, _ = served(described.replace("1.10", "1.11").replace("heartbeat", "ids 700 3\nheartbeat"))
        member.request(OWNER, bytes.fromhex("05022001240100"))
        plant.run_until(4)
        notices = member.request(OWNER, OPEN).notices
        self.assertEqual((member.life, notices[0].o_t_id, member.ids_left()), (2, 701, 1))


class Documents(unittest.TestCase):
    def test_every_public_name_is_typed_and_documented(self):
        for module in (
            eip, eip_command, fault_words, plant, plant_file, plant_script, plant_sockets, point_names, port_faults, profile_lines, trace_lines,
        ):
            for name, it in vars(module).items():
                if name.startswith("_") or getattr(it, "__module__", None) != module.__name__ or not callable(it):
                    continue
                self.assertTrue(it.__doc__, name)
                for call in map(inspect.unwrap, filter(callable, vars(it).values() if inspect.isclass(it) else [it])):
                    # (not what dataclasses and enums make)
                    if not inspect.isfunction(call) or call.__code__.co_filename != module.__file__:
                        continue
                    typed = typing.get_type_hints(call)
                    self.assertIn("return", typed, call)
                    names = set(inspect.signature(call).parameters) - {"self", "cls"}
                    self.assertLessEqual(names, set(typed), call)

    def test_the_code_of_the_pages_runs(self):
        """Each block of Python of a page runs, behind those before it, and prints the block of text behind it."""
        os.chdir(TOP)
        for name, least in ("PYTHON.md", 3), ("GUIDE.md", 1):
            page = (TOP / "docs" / name).read_text()
            blocks = re.findall(r"^```python\n(.*?)^```\n+(?:```\n(.*?)^```)?", page, re.M | re.S)
            self.assertGreaterEqual(len(blocks), least)
            names = {}
            for code, printed in blocks:
                out = io.StringIO()
                with contextlib.redirect_stdout(out):
                    exec(code, names)
                self.assertEqual(out.getvalue(), printed, code)


if __name__ == "__main__":
    unittest.main()
