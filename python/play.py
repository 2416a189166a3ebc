#!/usr/bin/env python3
"""Plays a trace through python/eip.py, and prints each outcome as `eip_line step` does: play.py [ROOM] < TRACE.

ROOM is how many bytes of room an answer gets at first. A bad line or profile is one line on standard error, and status 1.
A trace with recorded outcomes is played all the same; nothing is compared with them.
"""

import sys

from eip import Answer, BadLine, BadProfile, Device
from trace_lines import events_of, outcome_lines, perform


def main() -> int:
    room = int(sys.argv[1]) if len(sys.argv) > 1 else 4096
    trace = sys.stdin.buffer.read()
    try:
        device = Device(trace, room)
    except BadLine as bad:
        print(f"bad line {bad.line}", file=sys.stderr)
        return 1
    except BadProfile as bad:
        print(f"bad profile {int(bad.fault)}", file=sys.stderr)
        return 1
    with device:
        for number, line in enumerate(events_of(trace.decode("latin-1")), 1):
            quiet = device.next_wake()
            outcome = perform(device, line)
            sys.stdout.writelines(f"{it}\n" for it in outcome_lines(number, outcome))
            is_early = line.startswith("tick ") and int(line.split()[1]) < quiet
            if is_early and isinstance(outcome, Answer) and not outcome.is_plain:
                sys.exit(f"play.py: event {number}: a tick that was not needed answers more")
    return 0


sys.exit(main())
