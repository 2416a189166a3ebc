"""The command `python3 -m eip`: judges scripts in virtual time, or plays an adapter at the sockets of this host.

    python3 -m eip test PROFILE SCRIPT [PROFILE SCRIPT ..] [--ms N] [--report FILE]
    python3 -m eip plant FILE [--seconds N] [--report FILE]
    python3 -m eip serve PROFILE [--script FILE] [--report FILE] [--seconds N]

The status is 0, or that of `eip_station` for the same failure: 2 a wrong word, 3 a file that is no profile or no script, 4 an address
that is not of this host, 5 a port, 6 a report that is not written, 7 no memory, 8 a script has not passed. 1 is another end
before its time.
"""

from __future__ import annotations

import argparse
import functools
import os
import pathlib
import queue
import random
import re
import signal
import sys
import threading
from typing import Callable, NoReturn, Optional, Sequence, cast

from eip import (
    Answer, AnswerKept, BadLine, BadProfile, Device, LibraryMissing, Notice, Refused, RefusalNotice, ResetNotice, SlotNotice,
    SlotState, Status, UnansweredNotice, node_number, node_text,
)  # fmt: skip
from fault_words import refusal_words, unanswered_words
from plant import Faults, Member, Plant
from plant_file import BadPlant, PlantDevice, PlantFile, read_plant
from plant_script import BadScript, ScriptRun, begun_report, is_report, read_script, write_report
from plant_sockets import ENCAPSULATION_PORT, IO_PORT, PortRefused, Sockets
from port_faults import PortFaults
from profile_lines import with_address, with_description, with_incarnation, without_ids, words_of
from trace_lines import RecordedDevice, events_of, notice_words, outcome_lines, perform

EARLY, WORDS, UNREAD, OTHER_HOST, PORT, REPORT, NO_MEMORY, UNPASSED = 1, 2, 3, 4, 5, 6, 7, 8
_CALLS = ("write", "read", "answer", "counters")
_LONGEST_LINE = 8192
_LONGEST_FILE = 16_777_216
_FRONT = 4096


class Failure(Exception):
    """Why the command ends: its status, and a line of words."""

    def __init__(self, status: int, text: str) -> None:
        super().__init__(text)
        self.status = status


class _Parser(argparse.ArgumentParser):
    def error(self, message: str) -> NoReturn:
        """Ends with the sentence of a station for a wrong word, where it has one."""
        message = re.sub(r"^argument (--[a-z-]+): expected one argument$", r"\1 needs a value", message)
        raise Failure(WORDS, re.sub(r"^unrecognized arguments: (\S+).*$", r"\1 no such option", message))


# FILES


def read_text(path: str) -> str:
    """The text of a file."""
    try:
        file = pathlib.Path(path)
        if file.exists() and not file.is_file():
            raise Failure(UNREAD, f"{path} is no regular file")
        if file.stat().st_size > _LONGEST_FILE:
            raise Failure(UNREAD, f"{path} is longer than {_LONGEST_FILE} bytes")
        return file.read_bytes().decode()
    except (OSError, ValueError) as fault:
        if not isinstance(fault, UnicodeDecodeError):
            raise Failure(UNREAD, f"{path} cannot be read") from fault
        raise Failure(UNREAD, f"{path}: it has bytes that are no UTF-8") from fault


def device_of(path: str, kind: type[Device], changed: Callable[[str], str]) -> Device:
    """A device of the profile in a file, which is changed once it has been read."""
    text = read_text(path)
    try:
        kind(text).close()
        device = kind(changed(text))
    except (BadLine, BadProfile) as bad:
        raise Failure(UNREAD, f"{path}: {bad}") from bad
    if events_of(text):
        device.close()
        raise Failure(UNREAD, f"{path} has events behind the profile")
    for bad_name in device.names.bad:
        print(f"eip: {path}: line {bad_name.line}: {bad_name.fault.value}", file=sys.stderr)
    return device


def read_front(place: pathlib.Path) -> bytes:
    """The front of a file, as much as says whether it is a report."""
    with place.open("rb") as file:
        return file.read(_FRONT)


def begin_report(path: Optional[str]) -> None:
    """Writes that the run has not ended: so a file that cannot be written ends it before it begins. Another file stays as it is."""
    if path is None:
        return
    place = pathlib.Path(path)
    try:
        if place.is_file() and not is_report(read_front(place)):
            raise Failure(REPORT, "the report is not written: another file is there")
        place.write_bytes(begun_report().encode())
    except OSError as fault:
        raise Failure(REPORT, "the report cannot be written") from fault


def script_at(member: Member, path: str) -> ScriptRun:
    """The script of a file, at a member."""
    try:
        return member.script(read_text(path))
    except BadScript as bad:
        raise Failure(UNREAD, f"{path}: {bad}") from bad


def judge(runs: Sequence[ScriptRun], report: Optional[str]) -> int:
    """Says what came of scripts, writes the report, and answers the status."""
    for run in runs:
        for line in run.words().split("\n") if run.verdicts() else []:
            print(f"eip: {line}", file=sys.stderr)
    if report is not None:
        try:
            write_report(report, runs)
        except OSError as fault:
            raise Failure(REPORT, "the report cannot be written") from fault
    return 0 if all(run.has_passed for run in runs) else UNPASSED


# TEST


def test(words: argparse.Namespace) -> int:
    """Devices with their scripts in one plant, in virtual time."""
    files: list[str] = words.files
    if len(files) % 2:
        raise Failure(WORDS, f"{files[-1]}: a script is missing behind the profile; - is none")
    profiles, scripts = files[::2], files[1::2]
    for path in scripts:
        if path != "-":
            check_script(path)
    begin_report(words.report)
    begin_records(words.records)
    kind = RecordedDevice if words.records else Device
    faults = Faults(words.lose / 100, words.repeat / 100, (0, words.delay))
    with Plant(words.seed, faults) as plant:
        members = [plant_at(plant, path, name, kind) for path, name in zip(profiles, names_of(profiles))]
        connect(plant, profiles, members)
        runs = [script_at(member, path) for member, path in zip(members, scripts) if path != "-"]
        if not any(run.verdicts() for run in runs):
            raise Failure(UNREAD, "no script judges: a test has a line with expect, fail or pass")
        plant.run_until(words.ms)
        return ended(members, runs, words.records, words.report)


def ended(members: Sequence[Member], runs: Sequence[ScriptRun], records: Optional[str], report: Optional[str]) -> int:
    """Says what devices and their scripts said, writes records and report, and answers the status."""
    said = [(ms, it.name, f"# {text}{it.labels(text)}") for it in members for ms, text in sentences_of(it)]
    said += [(ms, run.member.name, text) for run in runs for ms, text in run.said]
    for ms, name, text in sorted(said, key=lambda it: it[0]):
        print(f"{name} at {ms} {text}")
    sys.stdout.flush()
    write_records(records, members)
    return judge(runs, report)


def check_script(path: str) -> None:
    """Reads a script before anything begins."""
    try:
        read_script(read_text(path))
    except BadScript as bad:
        raise Failure(UNREAD, f"{path}: {bad}") from bad


def begin_records(folder: Optional[str]) -> None:
    """Makes the folder of the records."""
    if folder is not None:
        try:
            pathlib.Path(folder).mkdir(exist_ok=True)
        except OSError as fault:
            raise Failure(REPORT, "the record cannot be written") from fault


def write_records(folder: Optional[str], members: Sequence[Member]) -> None:
    """Writes the record of each life of each device, which `eip_line step` replays."""
    if folder is None:
        return
    for member, device in ((member, device) for member in members for device in [*member.former, member.device]):
        assert isinstance(device, RecordedDevice)
        file = pathlib.Path(folder) / f"{member.name}.{device.life}.trace"
        try:
            file.write_bytes(device.trace().encode())
        except OSError as fault:
            raise Failure(REPORT, "the record cannot be written") from fault


def sentence_of(notice: Notice) -> Optional[str]:
    """Why a slot is not opened, or a request not answered, if a notice says it."""
    if isinstance(notice, RefusalNotice):
        return refusal_words(notice)
    return unanswered_words(notice) if isinstance(notice, UnansweredNotice) else None


def sentences_of(member: Member) -> list[tuple[int, str]]:
    """The sentences of a member's notices, with their times. The same one of a slot is said once, until the slot is established."""
    said: list[tuple[int, str]] = []
    last: dict[int, str] = {}
    for ms, notice in member.notices:
        text = sentence_of(notice)
        if isinstance(notice, SlotNotice) and notice.state is SlotState.ESTABLISHED:
            last.pop(notice.slot, None)
        if text is None or isinstance(notice, RefusalNotice) and last.get(notice.slot) == text:
            continue
        if isinstance(notice, RefusalNotice):
            last[notice.slot] = text
        said.append((ms, text))
    return said


def names_of(paths: Sequence[str]) -> list[str]:
    """The names of devices: those of their files without folder and ending, the second one of a name with a 2 behind it."""
    stems = ["".join(it if it.isprintable() else "_" for it in pathlib.Path(path).stem) for path in paths]
    before = [stems[:place].count(stem) for place, stem in enumerate(stems)]
    return [f"{stem}-{earlier + 1}" if earlier else stem for stem, earlier in zip(stems, before)]


def as_it_is(profile: str) -> str:
    """A profile without a change."""
    return profile


def plant_at(plant: Plant, path: str, name: str, kind: type[Device], changed: Callable[[str], str] = as_it_is) -> Member:
    """A member of the profile in a file, which may be changed."""
    device = device_of(path, kind, changed)
    try:
        return plant.add(device, name)
    except ValueError as bad:
        device.close()
        raise Failure(UNREAD, f"{path}: {bad}") from bad


def connect(plant: Plant, paths: Sequence[str], members: Sequence[Member]) -> None:
    """Each scanner has a stream to each of its targets in the plant, and opens its slots in each life. A reset is as a restart."""
    for path, member in zip(paths, members):
        member.watch = functools.partial(restart_behind_reset, member)
        slots = words_of(read_text(path), "slot") if member.is_scanner else []
        for node in dict.fromkeys(slot[1] for slot in slots):
            if node in plant.members:
                plant.connect(member, plant.members[node])
        for number, slot in enumerate(slots):
            if slot[1] not in plant.members:
                text = f"slot {number} is not opened: no device of the plant has the address {slot[1]}"
                print(f"eip: {member.name}: {text}{member.labels(text)}", file=sys.stderr)
        member.begin = functools.partial(start_slots, member, len(slots))
        member.begin()


def start_slots(scanner: Member, count: int) -> None:
    """A scanner opens so many slots."""
    for number in range(count):
        scanner.start(number)


def restart_behind_reset(member: Member, answer: Answer) -> None:
    """A peer requests a reset: the next life begins, behind the reply."""
    if any(isinstance(notice, ResetNotice) for notice in answer.notices):
        member.plant.at(member.plant.now_ms, member.restart)


# PLANT


def play_plant(words: argparse.Namespace) -> int:
    """The devices of a plant's file, with their faults and scripts, in virtual time."""
    try:
        said = read_plant(read_text(words.file))
    except BadPlant as bad:
        raise Failure(UNREAD, f"{words.file}: {bad}") from bad
    folder = pathlib.Path(words.file).parent
    records = words.record or (None if said.record is None else str(folder / said.record))
    begin_report(words.report)
    begin_records(records)
    kind = RecordedDevice if records else Device
    paths = [str(folder / device.profile) for device in said.devices]
    with Plant() as plant:
        members = [plant_at(plant, path, it.name, kind, functools.partial(of_the_plant, said, it)) for path, it in zip(paths, said.devices)]
        for member, device in zip(members, said.devices):
            member.port = port_of(words, device)
        connect(plant, paths, members)
        runs = [member.script(device.script) for member, device in zip(members, said.devices) if device.script]
        plant.run_until((words.seconds or said.seconds or 60) * 1000)
        return ended(members, runs, records, words.report)


def of_the_plant(said: PlantFile, device: PlantDevice, profile: str) -> str:
    """The profile of a device of a plant: at its address, with a description, the first of its incarnations and their ids."""
    first = said.devices.index(device) * 255 // len(said.devices) + 1
    profile = without_ids(with_incarnation(profile, first))
    if device.address is not None:
        profile = with_address(profile, device.address)
    return with_description(profile, node_number(Device(profile).node), device.name)


def port_of(words: argparse.Namespace, device: PlantDevice) -> Optional[PortFaults]:
    """The faults on purpose of a device: what the file does not say is said by the options."""
    lose, repeat, reorder, delay, seed = (device.faults.get(it, getattr(words, it)) for it in ("lose", "repeat", "reorder", "delay", "seed"))
    return PortFaults(lose, repeat, reorder, delay, seed) if lose or repeat or reorder or delay else None


# SERVE


class _Printer:
    """Lines for the outputs, which a thread of their own writes: a reader that is late loses lines, and holds nothing up."""

    def __init__(self) -> None:
        self.lines: queue.Queue[Optional[tuple[int, str]]] = queue.Queue(1000)
        self.is_unread = False
        """Whether nobody reads on."""
        self.thread = threading.Thread(target=self._write, daemon=True)
        self.thread.start()

    def put(self, line: str, output: int = 1) -> None:
        """Prints a line at the output of this number, if there is room for it."""
        try:
            self.lines.put_nowait((output, line))
        except queue.Full:
            pass

    def end(self) -> None:
        """Waits until all is written, at most for a second."""
        try:
            self.lines.put(None, timeout=1)
        except queue.Full:
            return
        self.thread.join(1)

    def _write(self) -> None:
        # (not by the files of sys, whose locks would hold the end up)
        while True:
            said = self.lines.get()
            if said is None:
                return
            try:
                os.write(said[0], f"{said[1]}\n".encode())
            except OSError:
                self.is_unread = self.is_unread or said[0] == 1


class Served:
    """An adapter that is served: it prints what changes, takes calls from the standard input, and restarts on a reset."""

    def __init__(self, member: Member, profile: str, printer: _Printer) -> None:
        self.member, self.printer = member, printer
        self.outputs = {int(words[1]): b"" for words in words_of(profile, "output")}
        self.calls, self.input = 0, b""
        member.watch, member.begin = self.watch, self.begun
        self.look()

    def look(self) -> None:
        """Prints each output that has another value."""
        for output, before in self.outputs.items():
            value = self.member.device.read(output)
            if value != before:
                self.outputs[output] = value
                self.put(f"output {output} {value.hex()}")

    def put(self, text: str) -> None:
        """Prints a line with its time, and with names behind it."""
        self.printer.put(f"at {self.member.plant.now_ms} {text}{self.member.labels(text)}")

    def watch(self, answer: Answer) -> None:
        """Prints what an answer says, and restarts the device if a peer requests it. Nothing is kept, however long it serves."""
        self.member.answers.clear()
        self.member.notices.clear()
        for notice in answer.notices:
            self.put(f"note {notice_words(notice)}")
            sentence = sentence_of(notice)
            if sentence is not None:
                self.put(f"# {sentence}")
            if isinstance(notice, ResetNotice):
                self.member.plant.at(self.member.plant.now_ms, self.member.restart)
        if answer.asked:
            self.put(outcome_lines(0, answer)[0].partition(" ")[2])

    def begun(self) -> None:
        """A further life has begun, of the next incarnation, behind a reset or by its script."""
        self.member.former.clear()
        self.put(f"life {self.member.life}, incarnation {self.member.device.incarnation}")

    def typed(self, sockets: Sockets) -> None:
        """Lines of the standard input are calls, as at a station."""
        try:
            got = os.read(0, 4096)
        except OSError:
            got = b""
        if not got:
            del sockets.others[0]
            return
        *lines, self.input = (self.input + got).split(b"\n")
        self.input = self.input[:_LONGEST_LINE]
        for line in lines:
            self.call(line.decode("latin-1").strip())

    def call(self, line: str) -> None:
        """Performs a call, and prints what becomes of it."""
        if not line or line.startswith("#"):
            return
        try:
            if line.split()[0] not in _CALLS:
                raise ValueError
            # (a member has the calls of its device)
            outcome = perform(cast(Device, self.member), line)
        except (ValueError, IndexError, TypeError):
            self.printer.put(f"eip: no call: {line}", 2)
            return
        self.calls += 1
        for said in outcome_lines(self.calls, outcome):
            self.printer.put(said)


def serve(words: argparse.Namespace) -> int:
    """An adapter at the sockets of this host, in real time."""
    if words.script is not None:
        check_script(words.script)
    incarnation = random.SystemRandom().randint(1, 255) if words.incarnation is None else words.incarnation
    begin_report(words.report)
    with Plant() as plant:
        own = functools.partial(with_incarnation, incarnation=incarnation)
        member = plant_at(plant, words.profile, names_of([words.profile])[0], Device, own)
        if member.is_scanner:
            raise Failure(UNREAD, f"{words.profile} is the profile of the other kind of device")
        try:
            sockets = Sockets(member, words.address or "", words.tcp, words.udp, words.peer_udp)
        except PortRefused as refused:
            raise Failure(OTHER_HOST if refused.is_other_host else PORT, str(refused)) from refused
        with sockets:
            place = f"{sockets.address}, TCP {words.tcp}, UDP {words.udp}, life 1, incarnation {incarnation}"
            print(f"eip: adapter at {place}", file=sys.stderr, flush=True)
            return run(words, sockets)


def run(words: argparse.Namespace, sockets: Sockets) -> int:
    """Serves until the time is over, or a signal ends it."""
    member, printer = sockets.member, _Printer()
    served = Served(member, read_text(words.profile), printer)
    runs = [script_at(member, words.script)] if words.script is not None else []
    end_ms = words.seconds * 1000 if words.seconds else 2**48
    if is_open(0):
        sockets.others[0] = lambda: served.typed(sockets)
    signal.signal(signal.SIGTERM, signal.default_int_handler)
    try:
        while member.plant.now_ms < end_ms and not printer.is_unread:
            sockets.turn(end_ms)
            served.look()
            for script in runs:
                for at_ms, text in script.said:
                    printer.put(f"at {at_ms} {text}")
                script.said.clear()
    except KeyboardInterrupt:
        pass
    printer.end()
    status = judge(runs, words.report)
    return EARLY if printer.is_unread else status


def is_open(file: int) -> bool:
    """Whether there is a file of this descriptor."""
    try:
        os.fstat(file)
    except OSError:
        return False
    return True


# WORDS


def number(option: str, least: int, most: int, what: str) -> Callable[[str], int]:
    """The value of an option that is one of these numbers."""

    def read(word: str) -> int:
        if re.fullmatch("[0-9]{1,20}", word) and least <= int(word) <= most:
            return int(word)
        raise Failure(WORDS, f"{option} {word} is no such value: {what} {least} to {most}")

    return read


def address(word: str) -> str:
    """The value of an option that is an address."""
    try:
        return node_text(node_number(word))
    except ValueError:
        sentence = f"--address {word} is no such value: an IPv4 address is four numbers below 256 with dots between them"
        raise Failure(OTHER_HOST, sentence) from None


def parser() -> argparse.ArgumentParser:
    """The words that the command takes."""
    made = _Parser(prog="python3 -m eip", description=__doc__, formatter_class=argparse.RawDescriptionHelpFormatter, allow_abbrev=False)
    tasks = made.add_subparsers(dest="task", required=True, metavar="test | plant | serve")

    def option(task: argparse.ArgumentParser, name: str, least: int, most: int, what: str, default: Optional[int], usage: str) -> None:
        help_text = usage if default is None else f"{usage} ({default})"
        task.add_argument(name, type=number(name, least, most, what), default=default, metavar="N", help=help_text)

    of_test = tasks.add_parser("test", help="judges scripts in virtual time", allow_abbrev=False)
    of_test.set_defaults(call=test)
    of_test.add_argument("files", nargs="+", metavar="PROFILE SCRIPT", help="a device and its script, or - for none")
    option(of_test, "--ms", 1, 2**32 - 1, "the milliseconds are", 60_000, "how long the test lasts")
    option(of_test, "--lose", 0, 100, "a percentage is", 0, "how many percent of the datagrams are lost")
    option(of_test, "--repeat", 0, 100, "a percentage is", 0, "how many percent of the others arrive twice")
    option(of_test, "--delay", 0, 60_000, "the milliseconds are", 0, "the greatest delay of a message")
    option(of_test, "--seed", 0, 2**64 - 1, "a seed is", 0, "draws other faults")
    of_test.add_argument("--records", metavar="FOLDER", help="writes the record of each device, a trace")
    of_plant = tasks.add_parser("plant", help="plays the file of a plant in virtual time", allow_abbrev=False)
    of_plant.set_defaults(call=play_plant)
    of_plant.add_argument("file", metavar="FILE")
    option(of_plant, "--seconds", 1, 10**9, "the seconds are", None, "how long it runs, in place of what the file says, or 60")
    of_plant.add_argument("--record", metavar="FOLDER", help="writes the record of each life of each device, a trace")
    for name, usage in ("--lose", "lost"), ("--repeat", "given twice"), ("--reorder", "overtaken by the next one"):
        option(of_plant, name, 0, 100, "a percentage is", 0, f"how many percent of what arrives at a device are {usage}")
    option(of_plant, "--delay", 0, 60_000, "the milliseconds are", 0, "the greatest delay of what arrives")
    option(of_plant, "--seed", 0, 2**64 - 1, "a seed is", 0, "draws other faults")
    of_serve = tasks.add_parser("serve", help="plays an adapter at the sockets of this host", allow_abbrev=False)
    of_serve.set_defaults(call=serve)
    of_serve.add_argument("profile", metavar="PROFILE")
    of_serve.add_argument("--address", type=address, help="in place of the profile's")
    option(of_serve, "--tcp", 1, 65535, "a port is", ENCAPSULATION_PORT, "the port of streams")
    option(of_serve, "--udp", 1, 65535, "a port is", IO_PORT, "the port of datagrams")
    option(of_serve, "--peer-udp", 1, 65535, "a port is", IO_PORT, "the port to which datagrams are sent")
    option(of_serve, "--seconds", 1, 10**9, "the seconds are", None, "how long it serves")
    option(of_serve, "--incarnation", 1, 255, "an incarnation is", None, "in place of a drawn one")
    of_serve.add_argument("--script", metavar="FILE", help="judges the adapter")
    for of_task in of_test, of_plant, of_serve:
        of_task.add_argument("--report", metavar="FILE", help="writes the verdicts in the form of JUnit")
    return made


def main(words: Optional[Sequence[str]] = None) -> int:
    """Performs the command, and answers its status."""
    try:
        given = parser().parse_args(words)
        status: int = given.call(given)
        return status
    except Failure as failure:
        text, status = str(failure), failure.status
    except (MemoryError, AnswerKept):
        text, status = Status.REFUSED_NO_MEMORY.sentence, NO_MEMORY
    except Refused as refused:
        text, status = str(refused), NO_MEMORY if refused.status == Status.REFUSED_NO_MEMORY else EARLY
    except LibraryMissing as missing:
        text, status = str(missing), EARLY
    except KeyboardInterrupt:
        return EARLY
    except BrokenPipeError:
        # (the interpreter flushes the standard output at its end)
        os.dup2(os.open(os.devnull, os.O_WRONLY), 1)
        return EARLY
    print(f"eip: {text}", file=sys.stderr)
    return status
