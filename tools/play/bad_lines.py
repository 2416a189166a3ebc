"""Bad lines of traces, each with what `eip_station explain` says of it. The forms and the sentences are by hand, from section 14 of
docs/PROFILE.md."""

# an event behind a profile of four lines
BAD_EVENTS = [
    ("read 150\r\n", "bad line 5: it ends with CR LF, not with LF alone"),
    ("read\t150\n", "bad line 5: column 5 is a tab"),
    ("read 150", "bad line 5: the last line does not end with LF"),
    ("read  150\n", "bad line 5: column 6 is a space too many: one separates two words"),
    ("read 150 \n", "bad line 5: column 9 is a space too many: one separates two words"),
    (" read 150\n", "bad line 5: column 1 is a space too many: one separates two words"),
    ("read 15\x7f\n", "bad line 5: column 8 is no printed ASCII character"),
    ("\n# a comment\nread 15\r0\n", "bad line 7: column 8 is no printed ASCII character"),
    ("reed 150\n", "bad line 5: its first word begins no line of a trace"),
    ("read 150\n1 dune\n", "bad line 6: no part of an outcome follows the event's number"),
    ("read 150\n1 value\n", "bad line 6: word 3 is missing"),
    ("read 150\n1\n", "bad line 6: word 2 is missing"),
    ("read 150\n2 done\n", "bad line 6: it is not allowed at this place"),
    ("read 150\n1 done\n1 done\n", "bad line 7: it is not allowed at this place"),
    ("input 101 4\n", "bad line 5: it is not allowed at this place"),
    ("closers own\n", "bad line 5: it is not allowed at this place"),
    ("object 100\n", "bad line 5: it is not allowed at this place"),
    ("answer 1 00 -\n1 asked 1 75 100 1 - -\n1 asked 2 75 100 1 - -\n", "bad line 7: it is not allowed at this place"),
    ("read 150\n1 note unanswered 7 late\n", "bad line 6: no part of an outcome follows the event's number"),
]

NAME = [("none", "is none of the names that are allowed there")]
ADDRESS = [("10.0.0.256", "is no address of four numbers below 256"), ("10.0.1", "is no address of four numbers below 256")]
ADDRESSES = [("10.0.0.1,10.0.0.256", "is no address of four numbers below 256")]
HEX = [("0g", "has a character that is no hexadecimal digit"), ("012", "has an odd number of hexadecimal digits")]
STATUS = [(word, "is no status of two hexadecimal digits") for word in ("0", "000", "0g")]
KEY = [*HEX, ("0102", "is a key that has not eight bytes"), ("01" * 9, "is a key that has not eight bytes")]


def number(most):
    return [
        ("1x", "is no decimal number"), ("+1", "is no decimal number"), ("01", "has a zero at its front"),
        (str(most + 1), f"is a number that is too large: {most + 1} is above {most}"),
    ]


U8, U16, U32, U64 = (number(2**bits - 1) for bits in (8, 16, 32, 64))

# each form of a line, good, and the kinds of its last words
FORMS = [
    ("adapter 7 10.0.0.1 255.0.0.0 1 12 1 1 1", [U8, ADDRESS, ADDRESS, U16, U16, U16, U8, U8]),
    ("output 150 4 zero hold", [U32, U64, NAME, NAME]),
    ("input 100 4", [U32, U64]),
    ("config 151 0", [U32, U64]),
    ("least-rpi 1000", [U32]),
    ("places 1 2 0 8", [U8, U8, U8, U8]),
    ("node-connections 4 openings 20", [U8, NAME, U16]),
    ("closers own", [NAME]),
    ("newer 1000", [U32]),
    ("object 100", [U32]),
    ("heartbeat 152 153", [U32, U32]),
    ("scanner 9 10.0.0.2 1 77 1000 500", [U8, ADDRESS, U16, U32, U64, U64]),
    ("tidy", []),
    ("openings 1", [U8]),
    ("serials 1", [U16]),
    ("ids 16 4096", [U32, U32]),
    ("slot 10.0.0.1 exclusive 151 150 100 4 4 10000 10000 2 p2p 0100020003008104 0102",
     [ADDRESS, NAME, U32, U32, U32, U64, U64, U32, U32, U8, NAME, KEY, HEX]),
    ("slot 10.0.0.1 listen - 153 100 0 4 10000 10000 2 multicast - - change 5", [NAME, U8]),
    ("request 10.0.0.1 0e", [ADDRESS, HEX]),
    ("explicit 10.0.0.1 7 0e", [ADDRESS, U32, HEX]),
    ("answer 7 00 0e", [U64, STATUS, HEX]),
    ("stream 1 10.0.0.1", [U16, ADDRESS]),
    ("frame 1 0e", [U16, HEX]),
    ("cut 1", [U16]),
    ("datagram 10.0.0.1 0e", [ADDRESS, HEX]),
    ("write 100 0e", [U32, HEX]),
    ("read 100", [U32]),
    ("tick 5", [U32]),
    ("mode run", [NAME]),
    ("start 0", [U32]),
    ("stop 0", [U32]),
    ("1 reply 10.0.0.1 0e", [ADDRESS, HEX]),
    ("1 frame 1 0e", [U16, HEX]),
    ("1 send 10.0.0.1 10.0.0.1,10.0.0.2 0e", [ADDRESS, ADDRESSES, HEX]),
    ("1 value 0e", [HEX]),
    ("1 replied 7 00 0106 0e", [U32, STATUS, HEX, HEX]),
    ("1 asked 7 75 100 1 - 0e", [U64, U8, U32, U32, U32, HEX]),
]

# words before which a line may end
MAY_END = (("slot", 14), ("places", 4), ("node-connections", 2))


def of_forms():
    """Each form with one bad word, with its last words left out, and with one word more, as the only line of a text."""
    for form, kinds in FORMS:
        words = form.split()
        for place, kind in enumerate(kinds, len(words) - len(kinds)):
            for bad, why in kind:
                yield " ".join([*words[:place], bad, *words[place + 1 :]]) + "\n", f"bad line 1: word {place + 1} {why}"
            if (words[0], place) not in MAY_END:
                yield " ".join(words[:place]) + "\n", f"bad line 1: word {place + 1} is missing"
        if (words[0], len(words)) == ("slot", 14):
            yield f"{form} 1\n", "bad line 1: word 15 is none of the names that are allowed there"
        else:
            yield f"{form} 1\n", "bad line 1: words follow its last one"


BAD_FORMS = list(of_forms())
