"""What the script of the page reckons, beside values worked by hand, and what its tables and its calls have in their places."""

import socket
from rim.tabs import Wrong, sure

NOON = "new Date(2026, 0, 2, 3, 4, 5).getTime()"
ROW = "{ kind: 'exclusive', peer: 'a', consumed: 150, produced: 100, established: true, lost, received }"
GAPS = "{ count: 4, sum_ms: 50, moved_ms: 10, greatest_ms: 20 }"

# an expression, and its value
RECKONED = [
    (f"clockOf({NOON})", "03:04:05"),
    ("wallOf({ wall_ms: 100000, ms: 7000 }, 4000)", 97000),
    (f"sinceOf({{ since_ms: 4000 }}, {{ wall_ms: {NOON} + 3000, ms: 7000 }})", "03:04:05"),
    ("[9999, 10000, 12600].map(spanOf)", ["9999 ms", "10 s", "13 s"]),
    ("[[9000, 999], [9000, 1000]].map(([age_ms, more]) => dataAge({ age_ms, has_data: true }, more))", ["9999 ms", "10 s"]),
    ("dataAge({ age_ms: 1, has_data: false }, 1)", "no data for 2 ms"),
    ("[pointName({ names: { 150: 'Valves' } }, 150), pointName(undefined, 7), slotName({ names: { 'slot 2': 'Press' } }, 2)]",
     ["150 (Valves)", "7", "2 (Press)"]),
    ("namedBits({ names: { '150.1.0': 'Inlet', '150.0.4': 'Stop', '151.0.0': 'Other', '150': 'Valves' } }, 150, '1000')",
     [{"place": 4, "name": "Stop", "isSet": True}, {"place": 8, "name": "Inlet", "isSet": False}]),
    ("[bytesOf('0a0bff'), bytesOf('-')]", [[10, 11, 255], []]),
    ("[byteAt({ values: { 150: '0a0b' } }, '150:1'), byteAt({ values: { 150: '0a0b' } }, '150:2') ?? 'none']", [11, "none"]),
    # the second connection of a and its points is established, and the fourth one is the newest of b that is lost
    ("(() => { const at = (peer, established, n) => ({ peer, consumed: 150, produced: 100, established, n }); "
     "const { present, earlier, lost } = sorted([at('a', false, 1), at('b', false, 2), at('a', true, 3), at('b', false, 4)]); "
     "return [present.map((it) => it.n), earlier.map((it) => it.n), lost] })()", [[3, 4], [1, 2], 1]),
    ("keyed([1, 2].map(() => ({ kind: 'input', peer: 'a', consumed: 1, produced: 2 }))).map(([key]) => key)", ["input a 1 2 0", "input a 1 2 1"]),
    ("[{ established: false }, { established: true, mode: 'run' }, { established: true, mode: 'idle' }, "
     "{ established: true, mode: 'none', has_data: true }, { established: true, mode: 'none', has_data: false }].map(modeOf)",
     [["lost", "bad"], ["run", "good"], ["idle", "warn"], ["open", "good"], ["waiting", "wait"]]),
    ("[{ state: 'established', has_data: true }, { state: 'established', has_data: false }, { state: 'timed_out' }, { state: 'idle', wait: 'stopped' }, "
     "{ state: 'idle', wait: 'no stream' }, { state: 'idle' }, { state: 'opening' }].map(slotState)",
     [["established", "good"], ["waiting", "wait"], ["timed out", "bad"], ["stopped", ""], ["not open", "bad"], ["idle", ""], ["opening", "warn"]]),
    ("[['established', 'idle'], ['established', 'established']].map((states) => summaryOf({ slots: states.map((state) => ({ state })) }))",
     [[["1 of 2", "bad"]], [["2 of 2", "good"]]]),
    (f"[1, 3].map((count) => troubleWords({{ words: 'gone', count, first: {NOON} }}))", ["gone", "gone (3 times since 03:04:05)"]),
    # (10 / 4 is 2.5; a silence of the present may be the longest gap)
    (f"[5, 70].map((silence) => gapWords({GAPS}, silence))", ["mean 12.5, longest 20, jitter 2.5", "mean 12.5, longest 70, jitter 2.5"]),
    ("[0, 9].map((silence) => gapWords({ count: 0, sum_ms: 0, moved_ms: 0, greatest_ms: 0 }, silence))", ["", "longest silence 9"]),
    (f"[true, false].map((established) => gapsOf({{ established, age_ms: 70, gaps: {{ ...{GAPS}, "
     "minute: { count: 2, sum_ms: 30, moved_ms: 4, greatest_ms: 18 } } }))",
     [["mean 15, longest 70, jitter 2", "mean 12.5, longest 70, jitter 2.5"], ["mean 15, longest 18, jitter 2", "mean 12.5, longest 20, jitter 2.5"]]),
    ("[['calls', 'POINT'], ['all but calls', ''], ['troubles', ''], ['calls', 'slot']]"
     ".map(([kind, text]) => isChosen({ words: 'the application writes point 100' }, kind, text))", [True, False, False, False]),
    ("['troubles', 'openings and ends', 'all'].map((kind) => isChosen({ words: 'slot 0 is timed out' }, kind, ''))", [True, True, True]),
    ("tableOf([{ ms: 5, v: 1 }, { ms: 6 }], (it) => it.ms * 1000, [['a b', (it) => it.v]])",
     "time,ms,a b\n1970-01-01T00:00:05.000Z,5,1\n1970-01-01T00:00:06.000Z,6,\n"),
    # (10 / 4 is 2.5; a row without counts is left out)
    (f"numbersOf(freshView(), {{ number: 7, ms: 900, connections: [{{ kind: 'exclusive', peer: 'a', consumed: 150, produced: 100, established: true, "
     f"sent: 9, received: 8, lost: 1, time_outs: 2, gaps: {GAPS} }}, {{ kind: 'input', peer: 'b', consumed: 0, produced: 100, established: true }}] }})",
     "event,ms,connection,peer,sent,received,lost,jitter_ms,longest_ms,time_outs\n7,900,exclusive a 150 100 0,a,9,8,1,2.5,20,2\n"),
    (f"numbersOf(freshView(), {{ number: 1, ms: 5, slots: [{{ slot: 2, target: 'c', sent: 0, received: 4, lost: 0, time_outs: 0, gaps: {{ ...{GAPS}, count: 0, moved_ms: 0 }} }}] }})",
     "event,ms,connection,peer,sent,received,lost,jitter_ms,longest_ms,time_outs\n1,5,slot 2,c,0,4,0,0.0,20,0\n"),
    # a trouble that a snapshot repeats is none; the station counts those of a life, and those of a later life are counted on
    ("(() => { const view = freshView(), one = { words: 'eip_station: gone', number: 1, ms: 4000, first_ms: 3000, count: 2 }; "
     "for (const it of [one, one, { ...one, number: 2, count: 3 }]) keepTrouble(view, { wall_ms: 100000, ms: 5000 }, it); view.lives = 1; "
     "keepTrouble(view, { wall_ms: 200000, ms: 1000 }, { ...one, ms: 500, first_ms: 500, count: 1 }); "
     "const own = view.troubles.get('gone'); return [view.troubles.size, own.first, own.wall, own.count] })()", [1, 98000, 199500, 4]),
    # two numbers are lost, and then one more within the same ten seconds
    (f"(() => {{ const view = freshView(), of = (lost, received, ms) => ({{ wall_ms: 50000 + ms, ms, troubles: [], counts: {{}}, connections: [{ROW}] }}); "
     "keepTroubles(view, of(3, 10, 1000), of(1, 9, 900)); keepTroubles(view, of(4, 12, 1200), of(3, 10, 1000)); "
     "return [...view.troubles.values()].map((it) => [it.words, it.wall]) })()", [["3 sequence numbers of a, points 150 and 100 lost", 51200]]),
    ("(() => { const view = freshView(), of = (up, ms) => ({ wall_ms: 90000 + ms, ms, connections: [{ kind: 'exclusive', peer: 'a', consumed: 1, produced: 2, "
     "established: up, last_time_out_ms: up ? undefined : 70 }] }); noteTimeOuts(view, of(true, 50)); noteTimeOuts(view, of(false, 100), of(true, 50)); "
     "noteTimeOuts(view, of(false, 120), of(false, 100)); return [...view.since.values()].map((it) => [it.timeOuts, it.last]) })()", [[1, 90070]]),
    ("(() => { const view = freshView(); noteReturn(view, { wall_ms: 8000, ms: 10 }, true); view.silence = 2400; "
     "noteReturn(view, { wall_ms: 9000, ms: 1010 }, false); return [[...view.troubles.values()].map((it) => it.words), view.silence] })()",
     [["the device has started again", "no contact for 2400 ms"], 0]),
    ("(() => { const view = freshView(), of = (ms, received, sent, lost) => ({ ms, counts: { received, sent, lost } }); "
     "takeSample(view, of(1000, 10, 5, 0)); takeSample(view, of(1500, 110, 30, 1)); "
     "const { received, sent, lost } = view.samples[1]; return [received, sent, lost] })()", [200, 50, 2]),
    # a snapshot that comes 40 ms later than its clock says is late by that
    ("(() => { const view = freshView(), now = performance.now(), late = (ms, before) => Math.round(latenessOf(view, { ms }, before)); "
     "const first = late(now - 100), then = late(now - 140, { ms: now - 200 }); return [first, then >= 40 && then < 140] })()", [0, True]),
]


def reckon(tab):
    """Each expression has its value."""
    for script, wanted in RECKONED:
        found = tab.value(script)
        if found != wanted:
            raise Wrong(f"{script} is {found!r}, and not {wanted!r}")
    sure(True, f"the script of the page reckons {len(RECKONED)} values as they were worked by hand")


def rows_of(tab, table):
    """The texts of the rows of a table."""
    return tab.value(f"[...document.querySelectorAll('#{table} tbody tr')].map((row) => [...row.cells].map((it) => it.innerText.trim()))")


def values(tab, node):
    """A row has the bits and the numbers of its bytes, and who consumes it; a connection has its intervals to and fro; counts have their places;
    the newest event is the first one; the links are those of the record and of its capture file."""
    tab.until("[...document.querySelectorAll('.bytes button')].map((it) => it.textContent).join('').startsWith('20000000')", "the last write is shown")
    row, connection = rows_of(tab, "points")[0], next(it for it in rows_of(tab, "connections") if it[1] == "exclusive")
    sure(row[3].startswith("00100000 00000000 00000000 00000000") and row[4] == "32 0", f"it shows the bits and the numbers of the output: {row[1:5]}")
    sure(connection[6] == "10 ms in, 20 ms out", f"it shows both intervals of a connection: {connection[6]}")
    counts = [tuple(map(int, next(it for it in rows_of(tab, "totals") if it[0] == "datagrams received, sent")[1].split(", ")))]
    counts += [tuple(map(int, it[1:3])) for it in rows_of(tab, "gaps") if it[0].endswith("points 150 and 100")]
    sure(len(counts) == 2 and all(received > sent > 0 for received, sent in counts),
         f"of an owner that sends more often than it is sent to more datagrams came than were sent, of all and of itself: {counts}")
    numbers = tab.value("[...document.querySelectorAll('#events li')].map((it) => parseInt(it.innerText, 10))")
    sure(len(numbers) > 2 and numbers == sorted(numbers, reverse=True), f"the newest event is the first one: {numbers[:4]}")
    consumers = [it[5] for it in rows_of(tab, "points") if it[0] == "input"]
    sure(consumers == ["1 exclusive, 0 input only, 0 listen only", "0 exclusive, 1 input only, 0 listen only"], f"it shows who consumes each input: {consumers}")
    with socket.create_connection((node, 44818), 5):
        tab.until("[...document.querySelectorAll('#totals tbody tr')][0].cells[1].innerText === '3, 2'", "it counts a stream that has no session")
    front = ("fetch([...document.querySelectorAll('#files a')].find((it) => it.textContent === '{}').href).then((it) => it.arrayBuffer())"
             ".then((it) => [...new Uint8Array(it).slice(0, 4)])")
    found = [bytes(tab.value(front.format(name))) for name in ("record", "capture file")]
    sure(found == [b"# re", bytes.fromhex("d4c3b2a1")], f"its links are those of the record and of the capture file: {found}")


def devices(tab):
    """The row of a scanner that sends more often than it is sent to, and the bits of its images, whose names are those of its targets' inputs."""
    received, sent = map(int, rows_of(tab, "devices")[0][3].split(", "))
    sure(sent > received > 0, f"a scanner that sends more often than it is sent to has received {received} datagrams, and sent {sent}")
    bits = {row[0]: row[3] for row in rows_of(tab, "points")}
    sure("Full 0" in bits["image"] and "Full" not in bits["output"], f"an image has the names of the bits of its target's input: {bits}")


def calls(tab, owner):
    """A scanner's mode is set, and its slot is stopped and started."""
    choose = "document.getElementById('{}').value = '{}'"
    submit = "[...document.forms].find((it) => it.dataset.call === '{}').requestSubmit()"
    sure(rows_of(tab, "connections")[0][7] == "10 ms out, 20 ms in", "it shows both intervals of a slot")
    for mode in "run", "idle":
        tab.value(f"{choose.format('mode', mode)}; {submit.format('mode')}")
        tab.until(f"document.getElementById('own-mode').textContent === '{mode}'", f"a call of the page sets the mode {mode}")
    for name, state in ("stop", "stopped"), ("start", "established"):
        tab.value(f"{choose.format('slot', 0)}; {choose.format('slot-call', name)}; {submit.format('slot')}")
        tab.until(f"document.querySelectorAll('#connections tbody tr')[0].cells[5].innerText.startsWith('{state}')", f"its call {name} is taken", 20)
    with open(owner.err) as file:
        sure("no call" not in file.read(), "each is a call")
