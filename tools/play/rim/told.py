"""What a reader of a station's lines holds: outputs and images are told again until they are taken, at the begin of a life and at its end."""

import os, random, signal, subprocess, threading, time
from rim.host import Pipe, Untried, listens, need, sure, until, usual, wait
from rim.lives import script_words
from rim.outputs import LOST_OUT, replays
from rim.peers import INPUT_ONLY, POINT_TO_POINT, Originator, served
from rim.plants import Plant

WIDE = "adapter 16 {adapter} 255.255.255.0 1 12 7 2 3\noutput 150 1400 zero zero\ninput 100 4\nheartbeat 152 153\n"
WIDE_DATA, WIDE_ZEROS = "11223344" * 350, "00000000" * 350
RUN_DATA, ZEROS = "11223344", "00000000"
LEFT = "adapter 16 {node} 255.255.255.0 1 12 7 2 3\noutput 150 4 zero zero\ninput 100 4\ninput 101 1400\nheartbeat 152 153\n"
FILL = 200  # of lines of 2,800 bytes: twice as many as wait for an output
PAUSES_MS = (1, 4)
FILL_S = 40
MOST_TEXTS = 4096  # the queue of an output has so many


class SlowReader:
    """A thread that takes a line from a pipe each 1 to 4 ms, and knows what the lines said last of each point."""

    def __init__(self, pipe):
        self.file, self.held, self.lost, self.going, self.slow = os.fdopen(os.dup(pipe.reader)), {}, 0, True, True
        os.set_blocking(self.file.fileno(), True)
        self.thread = threading.Thread(target=self.read, daemon=True)
        self.thread.start()

    def read(self):
        for line in self.file:
            words = line.split()
            if len(words) == 6 and words[1] == "at" and words[3] in ("output", "image"):
                self.held[words[3], words[4]] = words[5]
            elif found := LOST_OUT.fullmatch(line.rstrip()):
                self.lost += int(found[1])
            if self.slow:
                time.sleep(random.uniform(*PAUSES_MS) / 1000)
            if not self.going:
                return

    def close(self):
        self.going = self.slow = False


class Stranger:
    """A thread that opens and closes an input-only connection as fast as it is served."""

    def __init__(self, bench):
        self.originator = Originator(bench, own=bench.network.extra[0])
        self.opened, self.going = 0, True
        self.thread = threading.Thread(target=self.open, daemon=True)
        with usual():
            self.thread.start()
        bench.later(self)

    def open(self):
        while self.going:
            with served("a stranger's opens and closes are answered"):
                self.originator.open(INPUT_ONLY, POINT_TO_POINT).close()
            self.opened += 1

    def close(self):
        self.going = False
        self.thread.join()


def filled(stranger):
    """A stranger has opened and closed so often that the queue of the output is full: each time takes two texts or more."""
    end = time.monotonic() + FILL_S
    while stranger.opened <= MOST_TEXTS // 2:
        if time.monotonic() > end:
            raise Untried(f"this machine let a stranger open no more than {stranger.opened} times in {FILL_S} s")
        time.sleep(0.01)


def run_slow_reader(bench):
    """The owner of an output stops while a stranger opens and closes, and lines are read slowly."""
    bench.write("wide.profile", WIDE)
    out = bench.later(Pipe())
    adapter = bench.adapter("--quiet", profile="wide", log="slow_reader", out=out.writer)
    out.handed_over()
    owner, watch = Originator(bench), Originator(bench, own=bench.network.extra[1])
    feeder = bench.later(owner.feed(owner.open(out_len=1400), WIDE_DATA))
    wait(lambda: watch.read(150) == WIDE_DATA, "the owner's data reach the output")
    stranger = Stranger(bench)
    filled(stranger)
    reader = bench.later(SlowReader(out))
    held = lambda: reader.held.get(("output", "150"))
    wait(lambda: held() == WIDE_DATA, "the reader has the run data")
    feeder.stop()
    wait(lambda: watch.read(150) == WIDE_ZEROS, "the output takes its fault action", 5)
    time.sleep(1)
    stranger.close()
    reader.slow = False
    wait(lambda: held() == WIDE_ZEROS, lambda: f"a slow reader holds {held()[:8]}.., and the device {watch.read(150)[:8]}..", 10)
    need(reader.lost > 0, "events were lost")
    sure(adapter.end() == 0, f"a stranger opened {stranger.opened} times and {reader.lost} lines were lost: a reader of 1 to 4 ms a line "
         "holds what the device holds")
    bench.clear()


def run_unread_states(bench):
    """Nobody reads while calls fill the queue and the owner stops; the loop of an adapter that is idle then offers the line again."""
    out = bench.later(Pipe())
    adapter = bench.adapter("--quiet", log="unread_states", out=out.writer)
    out.handed_over()
    owner, watch = Originator(bench), Originator(bench, own=bench.network.extra[1])
    feeder = bench.later(owner.feed(owner.open(), RUN_DATA))
    wait(lambda: watch.read(150) == RUN_DATA, "the owner's data reach the output")
    adapter.call(*["read 100"] * (2 * MOST_TEXTS), "write 100 0a0b0c0d")
    wait(lambda: watch.read(100) == "0a0b0c0d", "the calls are taken")
    feeder.stop()
    wait(lambda: watch.read(150) == ZEROS, "the output takes its fault action", 5)
    watch.close()
    owner.close()
    time.sleep(0.5)
    outputs = lambda: [line.split()[-1] for line in out.taken() if " output 150 " in line]
    until(lambda: outputs()[-1:] == [ZEROS], "nobody read: the newest line of the output comes once somebody does", 5)
    sure(outputs() == [ZEROS, RUN_DATA, ZEROS], "each change of it is one line")
    need(adapter.end() == 0, "the adapter ends with status 0")
    bench.clear()


def run_left_output(bench):
    """A device of a plant ends for good while a line of its output waits, which nobody reads: the output of the others is told on."""
    nodes, out = bench.network.extra[:2], bench.later(Pipe())
    for at, name in enumerate("ab"):
        bench.write_exactly(f"left_{name}.profile", LEFT.format(node=nodes[at]))
    os.makedirs(bench.file("left/a.2.trace"))  # (so its second life has no record, and fails)
    plant = Plant(bench, "device a left_a.profile\ndevice b left_b.profile\n", "--record", bench.file("left"), "--quiet", log="left", out=out.writer)
    out.handed_over()
    until(lambda: all(listens(bench.network, "peer", it) for it in nodes), "two adapters of a plant live")
    watch, owner = Originator(bench, target=nodes[0]), Originator(bench, own=bench.network.extra[3], target=nodes[0])
    feeder = bench.later(owner.feed(owner.open(), RUN_DATA))
    wait(lambda: watch.read(150) == RUN_DATA, "the owner's data reach the output")
    for _ in range(FILL // 20):
        plant.call(*["b read 101"] * 20)
        time.sleep(0.02)
    feeder.stop()
    wait(lambda: watch.read(150) == ZEROS, "the output takes its fault action", 5)
    plant.call("a restart")
    until(lambda: any(line.startswith("eip_station: a: its record cannot be written") for line in plant.said()), "a device ends for good while its line waits")
    wait(lambda: any(LOST_OUT.fullmatch(line) for line in out.taken()), "what was printed is read, and lines are lost")
    out.taken()
    time.sleep(0.2)
    plant.call("b read 100")
    until(lambda: any(line.startswith("b ") and line.endswith(" value 00000000") for line in out.taken()), "and the other one's lines are read again", 5)
    bench.clear()


def owned(bench, watch):
    """An owner whose data reach the output. Answers what feeds it."""
    owner = Originator(bench)
    feeder = bench.later(owner.feed(owner.open(), RUN_DATA))
    wait(lambda: watch.read(150) == RUN_DATA, "the owner's data reach the output")
    return feeder


def run_first_lines(bench):
    """A station is killed while its output has run data, and begins again."""
    adapter = bench.adapter("--quiet", log="killed_life")
    feeder = owned(bench, Originator(bench, own=bench.network.extra[1]))
    wait(lambda: adapter.lines()[-1].endswith(f"output 150 {RUN_DATA}"), "its line has the run data")
    adapter.kill()
    feeder.stop()
    bench.clear()
    adapter = bench.adapter("--quiet", log="next_life")
    until(lambda: adapter.lines()[:1] == [f"0 at 0 output 150 {ZEROS}"], "a station is killed: the first line of its next life is its output's")
    need(adapter.end() == 0, "the adapter ends with status 0")
    scanner = bench.scanner("owner", "--quiet", log="first_image")
    wait(lambda: scanner.lines(), "a scanner begins")
    sure(scanner.lines()[0] == f"0 at 0 image 0 {ZEROS}", "the first line of a scanner is its slot's image")
    need(scanner.end() == 0, "the scanner ends with status 0")
    bench.clear()


def outputs_of(text):
    return [line.split()[-1] for line in text.splitlines() if " output 150 " in line]


def run_last_lines(bench):
    """A station ends in order while its output has run data."""
    for what, options in ("the end of the input", []), ("--seconds", ["--seconds", "3"]):
        trace = bench.file("last.trace")
        adapter = bench.adapter("--record", trace, *options, log="last")
        feeder = owned(bench, Originator(bench, own=bench.network.extra[1]))
        need((adapter.status(10) if options else adapter.end()) == 0, "the adapter ends with status 0")
        feeder.stop()
        text = "\n".join(adapter.lines())
        need(outputs_of(text) == [ZEROS, RUN_DATA, ZEROS], f"{what}: the lines of the output are {outputs_of(text)}")
        replays(bench, "the record of a station that ended with an owner", trace)
        sure(True, f"{what}: the last line of the output is its fault action")
        bench.clear()
    words = script_words(bench)
    for number in signal.SIGTERM, signal.SIGINT:
        run_last_line_of_script(bench, words, number)


def run_last_line_of_script(bench, words, number):
    path = bench.file("last.out")
    with open(path, "wb") as out:
        # (a shell ignores a signal that was ignored as it began, as one in the background begins)
        script = subprocess.Popen(words, stdin=subprocess.PIPE, stdout=out, stderr=subprocess.DEVNULL,
                                  preexec_fn=lambda: signal.signal(signal.SIGINT, signal.SIG_DFL))
    try:
        wait(lambda: listens(bench.network, "adapter", bench.address["adapter"]), "bin/eip_station listens")
        feeder = owned(bench, Originator(bench, own=bench.network.extra[1]))
        script.send_signal(number)
        need(script.wait(10) == 0, "bin/eip_station ends with status 0")
        feeder.stop()
    finally:
        script.kill()
        script.wait()
        script.stdin.close()
    with open(path) as file:
        said = outputs_of(file.read())
    sure(said == [ZEROS, RUN_DATA, ZEROS], f"{signal.Signals(number).name} of bin/eip_station: the last line of the output is its fault action")
    bench.clear()
