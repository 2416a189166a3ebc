#!/usr/bin/env python3
"""Reads electronic data sheets, and compares each with the profile that it describes.

    tools/play/eds_reader.py PROFILE SHEET      ends with status 1, and says what, if the sheet says something else than the profile

It reads the public form of these files: sections, entries, fields, comments, character strings and numbers. What a sheet has to
say it works out of the lines of the profile (docs/PROFILE.md, section 14), by names of its own for bits and formats. It shares
no code with the program.
"""

import re
import sys

TOKEN = re.compile(r"""
    (?P<blank>\s+|\$[^\n]*)
  | \[(?P<section>[^\]\n]+)\]
  | "(?P<text>[ !#-\[\]-~]*)"
  | (?P<mark>[=,;])
  | (?P<word>[^\s=,;"\[\]$]+)""", re.X)
TRIGGERS = {16: "cyclic", 17: "change of state", 18: "application"}
KINDS = {24: "listen only", 25: "input only", 26: "exclusive owner", 27: "redundant owner"}
TYPES = ("null", "multicast", "point to point", "reserved")
PRIORITIES = ("low", "high", "scheduled", "reserved")
FORMATS = {0: "data", 1: "zero length", 3: "heartbeat", 4: "run/idle header"}


class Wrong(Exception):
    pass


def need(holds, what):
    if not holds:
        raise Wrong(what)


def same(said, wanted, what):
    need(said == wanted, f"{what} is {said!r} and not {wanted!r}")


# THE FORM

def tokens(text):
    at = 0
    while at < len(text):
        found = TOKEN.match(text, at)
        need(found, f"no token at {text[at:at + 20]!r}")
        at = found.end()
        if found.lastgroup != "blank":
            yield found.lastgroup, found[found.lastgroup]


def sheet_of(text):
    """The sections of a sheet: the fields of each entry by its keyword. A field is a text, a word or nothing."""
    sheet, entries, rest = {}, None, list(tokens(text))
    while rest:
        kind, value = rest.pop(0)
        if kind == "section":
            need(value not in sheet, f"two sections {value}")
            entries = sheet[value] = {}
            continue
        need(entries is not None and kind == "word", f"no keyword: {value!r}")
        need(rest and rest.pop(0) == ("mark", "="), f"no equals sign behind {value}")
        need(value not in entries, f"two entries {value}")
        fields, field = [], None
        while True:
            need(rest, f"{value} does not end")
            what, part = rest.pop(0)
            if what == "mark" and part in ",;":
                fields.append(field)
                field = None
                if part == ";":
                    break
            else:
                need(what in ("text", "word") and field is None, f"{value}: {part!r} behind {field!r}")
                field = (what, part)
        entries[value] = fields
    return sheet


def text_of(field, what):
    need(field and field[0] == "text", f"{what} is no text: {field}")
    return field[1]


def number_of(field, what):
    need(field and field[0] == "word", f"{what} is no number: {field}")
    need(re.fullmatch(r"0x[0-9A-Fa-f]+|0|[1-9][0-9]*", field[1]), f"{what} is no number: {field[1]}")
    return int(field[1], 0)


def set_bits(number, names, first=0):
    return {name for bit, name in (names.items() if isinstance(names, dict) else enumerate(names)) if number >> (first + bit) & 1}


# THE PROFILE

class Profile:
    def __init__(self, text):
        lines = [line.split() for line in text.splitlines() if line and not line.startswith("#")]
        of = lambda word: [line[1:] for line in lines if line[0] == word]
        numbers = of("adapter")[0]
        self.vendor, self.device_type, self.product, self.major, self.minor = map(int, numbers[3:])
        self.outputs = {int(line[0]): int(line[1]) for line in of("output")}
        self.inputs = {int(line[0]): int(line[1]) for line in of("input")}
        self.config = {int(line[0]): int(line[1]) for line in of("config")}
        self.input_only, self.listen_only = map(int, of("heartbeat")[0])
        # what the maker states: the shortest packet interval, places by kind, and numbers that are not far ahead
        self.least = max([1000] + [int(line[0]) for line in of("least-rpi")])
        # .. of a described device in whole milliseconds, rounded up
        if of("describe"):
            self.least = -(-self.least // 1000) * 1000
        counts = [list(map(int, line[:3])) for line in of("places")]
        self.places = dict(zip(("exclusive owner", "input only", "listen only"), counts[0] if counts else (64, 64, 64)))
        self.most = sum(counts[0]) if counts else 64
        self.triggers = {"cyclic"} if of("newer") else {"cyclic", "change of state"}
        messages = [int(line[3]) for line in of("places") if len(line) == 4]
        self.most_messages = messages[0] if messages else 64
        # the classes of a described device, and the speed of its link
        self.speeds = [int(line[3]) for line in of("describe")]
        self.words = sum(self.config.values()) // 2 if self.speeds else 0
        self.classes = [name for name in CLASSES if self.speeds and [str(CLASSES[name][1])] not in of("object")]

    def connections(self):
        """Each connection that it admits: kind, consumed point and bytes, produced point and bytes."""
        for produced, bytes_in in self.inputs.items():
            for consumed, bytes_out in self.outputs.items():
                yield "exclusive owner", consumed, bytes_out, produced, bytes_in
            yield "input only", self.input_only, 0, produced, bytes_in
            yield "listen only", self.listen_only, 0, produced, bytes_in

    def offered(self):
        """Those of a kind that has a place."""
        return [it for it in self.connections() if self.places[it[0]]]


def segment(first, value):
    """A logical segment in its shortest format."""
    size, more = (1, 0) if value < 1 << 8 else (2, 1) if value < 1 << 16 else (4, 2)
    return bytes([first + more] + [0] * (size > 1)) + value.to_bytes(size, "little")


# the sections of classes: object, class, revision, attributes of the instance
CLASSES = {
    "TCP/IP Interface Class": ("TCP/IP Interface Object", 0xF5, 4, [1, 2, 3, 4, 5, 6, 8, 9, 10, 11, 13]),
    "Ethernet Link Class": ("Ethernet Link Object", 0xF6, 4, list(range(1, 12))),
    "QoS Class": ("QoS Object", 0x48, 1, list(range(1, 9))),
}


# WHAT IS COMPARED

def check_device(device, profile):
    for key, number in {"VendCode": profile.vendor, "ProdType": profile.device_type, "ProdCode": profile.product,
                        "MajRev": profile.major, "MinRev": profile.minor}.items():
        need(len(device[key]) == 1, f"{key} has one field")
        same(number_of(device[key][0], key), number, key)
    for key in "VendName", "ProdTypeStr", "ProdName", "Catalog":
        need(len(device[key]) == 1 and text_of(device[key][0], key), f"{key} is a text")


def check_params(params, profile):
    same(list(params), [f"Param{number + 1}" for number in range(1 + profile.words)], "the parameters")
    fields = params["Param1"]
    same(len(fields), 21, "the number of fields of Param1")
    same((number_of(fields[4], "type"), number_of(fields[5], "bytes")), (0xC8, 4), "the type of Param1")
    least, greatest, first = (number_of(field, "a value of Param1") for field in fields[9:12])
    same((least, greatest, first), (profile.least, 10_000_000, max(10_000, profile.least)), "the packet interval")
    for word in range(profile.words):
        name = f"Param{word + 2}"
        fields = params[name]
        same(len(fields), 21, f"the number of fields of {name}")
        same((number_of(fields[4], "type"), number_of(fields[5], "bytes")), (0xC7, 2), f"the type of {name}")
        same(text_of(fields[6], name), f"Configuration word {word}", f"the name of {name}")
        same([number_of(field, name) for field in fields[9:12]], [0, 65535, 0], f"the values of {name}")


def check_points(points, profile):
    points = dict(points)
    same(number_of(points.pop("Object_Class_Code")[0], "class"), 4, "the class of assemblies")
    points.pop("Object_Name")
    wanted = {f"Assem{instance}": size for of in (profile.outputs, profile.inputs, profile.config) for instance, size in of.items()}
    same({name: number_of(fields[2], name) for name, fields in points.items()}, wanted, "the assemblies")
    for name, fields in points.items():
        words = [("word", "16") if at % 2 == 0 else ("word", f"Param{at // 2 + 2}") for at in range(2 * profile.words)]
        members = words if words and name in (f"Assem{instance}" for instance in profile.config) else [None, None]
        need(text_of(fields[0], name), f"{name}: {fields}")
        same(fields[6:], members, f"the members of {name}")


def check_connection(name, fields, profile):
    """The connection of an entry: kind, points and bytes, as far as it is right by itself."""
    same(len(fields), 15, f"the number of fields of {name}")
    transport, params = number_of(fields[0], name), number_of(fields[1], name)
    same(transport & 0xFFFF, 1 << 1, f"{name}: transport classes")
    same(set_bits(transport, TRIGGERS), profile.triggers, f"{name}: triggers")
    kinds = set_bits(transport, KINDS)
    need(len(kinds) == 1 and transport < 1 << 28, f"{name}: kinds {kinds}")
    kind = kinds.pop()
    same(params & 0b1111, 0b0101, f"{name}: sizes are fixed")
    same(FORMATS.get(params >> 8 & 7), "run/idle header" if kind == "exclusive owner" else "heartbeat", f"{name}: O->T format")
    same(FORMATS.get(params >> 12 & 7), "data", f"{name}: T->O format")
    same(params & 0x88F0, 0, f"{name}: reserved bits")
    same(set_bits(params, TYPES, 16), {"point to point"}, f"{name}: O->T types")
    same(set_bits(params, TYPES, 20), {"multicast"} | ({"point to point"} if kind != "listen only" else set()), f"{name}: T->O types")
    for first in 24, 28:
        same(set_bits(params, PRIORITIES, first), {"scheduled"}, f"{name}: priorities")
    same((fields[2], fields[5]), (("word", "Param1"),) * 2, f"{name}: packet intervals")
    same(fields[8:10], [None, None], f"{name}: a proxy")
    config = [(number_of(fields[10], name), fields[11][1])] if fields[11] else []
    same(config, [(size, f"Assem{instance}") for instance, size in profile.config.items()], f"{name}: configuration")
    produced = int(re.fullmatch(r"Assem(\d+)", fields[7][1])[1])
    consumed = {"exclusive owner": lambda: int(re.fullmatch(r"Assem(\d+)", fields[4][1])[1]),
                "input only": lambda: profile.input_only, "listen only": lambda: profile.listen_only}[kind]()
    need((fields[4] is None) == (kind != "exclusive owner"), f"{name}: the assembly of O->T")
    path = segment(0x20, 4) + b"".join(segment(0x24, instance) for instance in profile.config)
    path += segment(0x2C, consumed) + segment(0x2C, produced)
    same(bytes.fromhex(text_of(fields[14], name)), path, f"{name}: path")
    return kind, consumed, number_of(fields[3], name), produced, number_of(fields[6], name)


def check_manager(manager, profile):
    manager = dict(manager)
    same(number_of(manager.pop("Object_Class_Code")[0], "class"), 6, "the class of the Connection Manager")
    manager.pop("Object_Name")
    same(list(manager), [f"Connection{number + 1}" for number in range(len(manager))], "the connections")
    found = [check_connection(name, fields, profile) for name, fields in manager.items()]
    same(sorted(found), sorted(profile.offered()), "the connections")
    names = [text_of(fields[12], "name") for fields in manager.values()]
    need(len(set(names)) == len(names), f"two connections have one name: {names}")


def check_class(name, section, profile):
    """A class with one instance, and its attributes."""
    section = dict(section)
    title, class_, revision, attributes = CLASSES[name]
    same(text_of(section.pop("Object_Name")[0], name), title, f"{name}: its name")
    numbers = {key: [number_of(field, name) for field in fields] for key, fields in section.items() if key != "InterfaceLabel1"}
    wanted = {"Revision": [revision], "Object_Class_Code": [class_], "MaxInst": [1], "Number_Of_Static_Instances": [1],
              "Max_Number_Of_Dynamic_Instances": [0], "Class_Attributes": list(range(1, 8)), "Instance_Attributes": attributes}
    if name == "Ethernet Link Class":
        wanted["InterfaceSpeed1"] = profile.speeds
        same(text_of(section["InterfaceLabel1"][0], name), "Ethernet", f"{name}: its label")
    same(numbers, wanted, name)


def check(profile, sheet):
    same(list(sheet), ["File", "Device", "Device Classification", "Params", "Assembly", "Connection Manager", "Port"] + profile.classes + ["Capacity"],
         "the sections")
    for name in profile.classes:
        check_class(name, sheet[name], profile)
    check_device(sheet["Device"], profile)
    same(sheet["Device Classification"], {"Class1": [("word", "EtherNetIP")]}, "the class of the device")
    check_params(sheet["Params"], profile)
    check_points(sheet["Assembly"], profile)
    check_manager(sheet["Connection Manager"], profile)
    same([number_of(sheet["Port"]["Object_Class_Code"][0], "class"), sheet["Port"]["Port1"][0]], [0xF4, ("word", "TCP")], "the port")
    same(bytes.fromhex(text_of(sheet["Port"]["Port1"][2], "path")), segment(0x20, 0xF5) + segment(0x24, 1), "the path of the port")
    same(number_of(sheet["Port"]["Port1"][3], "number"), 2, "the number of the port")
    capacity = {key: [field[1] for field in fields] for key, fields in sheet["Capacity"].items()}
    rate = -(-1_000_000 // profile.least)
    same(capacity, {"TSpec1": ["TxRx", "1406", str(rate)], "MaxIOConnections": [str(profile.most)],
                    "MaxIOMcastProducers": [str(len(profile.inputs))], "MaxConsumersPerMcast": [str(profile.most)],
                    "MaxMsgConnections": [str(profile.most_messages)]}, "the capacity")


def main():
    profile, sheet = (open(name, encoding="ascii").read() for name in sys.argv[1:])
    try:
        check(Profile(profile), sheet_of(sheet))
    except Wrong as wrong:
        print(f"{sys.argv[2]}: {wrong}")
        return 1
    return 0


if __name__ == "__main__":
    sys.exit(main())
