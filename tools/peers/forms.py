"""The forms of what `browser.py` asks, as the standard has them: values, paths, requests, messages and openings; and what the maker says
of the device. It shares no code with the devices of this repository."""

import ipaddress, itertools, struct

IDENTITY, ROUTER, ASSEMBLY, MANAGER, QOS, PORT, INTERFACE, LINK = 0x01, 0x02, 0x04, 0x06, 0x48, 0xF4, 0xF5, 0xF6
GET_ALL, GET_LIST, SET_LIST, RESET, PACKET, GET, SET = 0x01, 0x03, 0x04, 0x05, 0x0A, 0x0E, 0x10
FORWARD_CLOSE, UNCONNECTED_SEND, FORWARD_OPEN, LARGE_FORWARD_OPEN = 0x4E, 0x52, 0x54, 0x5B
NOP, LIST_SERVICES, LIST_IDENTITY, LIST_INTERFACES, REGISTER, UNREGISTER, RR, UNIT = 0x00, 0x04, 0x63, 0x64, 0x65, 0x66, 0x6F, 0x70
OWNER = {"kind": "owner", "cast": "p2p", "rpi": 10_000, "multiplier": 2}  # the fields of an opening


# WHAT THE MAKER SAYS


class Maker:
    """The lines of a profile, and the options that go before them."""

    def __init__(self, options):
        self.node = self.mask = self.name = self.serial = self.vendor = self.type = self.product = self.major = self.minor = None
        self.link, self.inactivity, self.port = None, None, options.port
        self.outputs, self.inputs, self.config, self.heartbeats, self.objects = {}, {}, {}, [], []
        if options.profile:
            with open(options.profile) as file:
                for line in file:
                    self.read(line.split())
        for name in "node", "mask", "serial", "name", "inactivity":
            if getattr(options, name) is not None:
                setattr(self, name, getattr(options, name))
        if options.identity:
            self.vendor, self.type, self.product, self.major, self.minor = (int(it) for it in options.identity.split(","))
        if options.link:
            speed, flags, mac = options.link.split(",")
            self.link = int(speed), int(flags), mac
        for name in "output", "input", "config":
            for point in getattr(options, name):
                self.read([name, *point.split("=")])
        if options.heartbeats:
            self.heartbeats = [int(it) for it in options.heartbeats.split(",")]

    def read(self, words):
        """A line of a profile."""
        if words[:1] == ["adapter"]:
            self.node, self.mask = words[2:4]
            self.vendor, self.type, self.product, self.major, self.minor = (int(it) for it in words[4:9])
        elif words[:1] in (["output"], ["input"], ["config"]):
            points = {"output": self.outputs, "input": self.inputs, "config": self.config}[words[0]]
            points[int(words[1])] = int(words[2])
        elif words[:1] == ["heartbeat"]:
            self.heartbeats = [int(it) for it in words[1:3]]
        elif words[:1] == ["object"]:
            self.objects.append(int(words[1]))
        elif words[:1] == ["describe"]:
            self.serial, self.name, self.inactivity = int(words[1]), bytes.fromhex(words[2]).decode(), int(words[7])
            self.link = int(words[4]), int(words[5]), words[6]

    def points(self):
        return {**self.outputs, **self.inputs, **self.config}

    def has_points(self):
        return bool(self.outputs and self.inputs and self.heartbeats)


# VALUES


def le(count, value):
    """A number of so many bytes, in hexadecimal digits; digits of any value if nobody said it."""
    return "??" * count if value is None else value.to_bytes(count, "little").hex()


def text(name):
    """A SHORT_STRING."""
    return "*" if name is None else bytes([len(name)]).hex() + name.encode().hex()


def address(node):
    return "????????" if node is None else bytes(reversed([int(it) for it in node.split(".")])).hex()


def group_of(maker):
    """The first group of a device, by the number of its host in its network."""
    if maker.node is None or maker.mask is None:
        return "????c0ef"
    node, mask = (int(ipaddress.IPv4Address(it)) for it in (maker.node, maker.mask))
    return le(4, 0xEFC00100 + 32 * ((node & ~mask) - 1 & 0x3FF))


def logical(kind, value, width=None, pad=0):
    """A logical segment: 20 class, 24 instance, 28 member, 2C connection point, 30 attribute; in its shortest format, or in one of so
    many bytes."""
    width = width or (1 if value < 256 else 2 if value < 65536 else 4)
    head = bytes([kind | {1: 0, 2: 1, 4: 2}[width]]) + (b"" if width == 1 else bytes([pad]))
    return head + value.to_bytes(width, "little")


def path_of(class_, instance=None, attribute=None):
    return b"".join(logical(kind, value) for kind, value in ((0x20, class_), (0x24, instance), (0x30, attribute)) if value is not None)


# REQUESTS AND MESSAGES


def request(service, path, data=b""):
    return bytes([service, len(path) // 2]) + path + data


def many(*parts):
    """A Multiple_Service_Packet of these requests, or its reply."""
    offsets = itertools.accumulate((len(it) for it in parts[:-1]), initial=2 + 2 * len(parts))
    return struct.pack("<H", len(parts)) + b"".join(struct.pack("<H", it) for it in offsets) + b"".join(parts)


def message(command, data=b"", session=0, status=0, context=b"question", options=0):
    return struct.pack("<HHII8sI", command, len(data), session, status, context, options) + data


def items(*parts, interface=0, timeout=0, count=None, rest=b""):
    """Items, each a type, its data and maybe another length."""
    text = struct.pack("<IHH", interface, timeout, len(parts) if count is None else count)
    return text + b"".join(struct.pack("<HH", kind, length[0] if length else len(data)) + data for kind, data, *length in parts) + rest


# OPENINGS AND CLOSES


def read_size(maker, fields):
    """The O->T and T->O sizes of a connection of its kind."""
    consumed = {"owner": 6 + next(iter(maker.outputs.values()), 0), "class3": 500}.get(fields["kind"], 2)
    return consumed, 500 if fields["kind"] == "class3" else 2 + next(iter(maker.inputs.values()), 0)


def points_of(maker, kind):
    """The configuration, if there is one, and the consumed and the produced point."""
    consumed = {"owner": next(iter(maker.outputs), 0), "reader": maker.heartbeats[:1], "listener": maker.heartbeats[1:]}[kind]
    return [*maker.config], consumed if kind == "owner" else consumed[0], next(iter(maker.inputs))


def path_to(maker, fields):
    if "path" in fields:
        return bytes.fromhex(fields["path"])
    head = bytes.fromhex(fields.get("key", "")) + (bytes([0x43, fields["inhibit"]]) if "inhibit" in fields else b"")
    if fields["kind"] == "class3":
        return head + path_of(ROUTER, 1)
    config, consumed, produced = points_of(maker, fields["kind"])
    path = path_of(ASSEMBLY) + b"".join(logical(0x24, it) for it in fields.get("config", config))
    path += logical(0x2C, fields.get("consumed", consumed)) + logical(0x2C, fields.get("produced", produced))
    return head + path + bytes.fromhex(fields.get("data", ""))


def opening(maker, fields, t_o_id, triad):
    """The request of a Forward_Open, or of a Large_Forward_Open."""
    sizes, path = read_size(maker, fields), path_to(maker, fields)
    types = fields.get("o_t_type", 2), fields.get("t_o_type", 1 if fields["cast"] == "multicast" else 2)
    large, words = fields.get("large", max(sizes) > 511), []
    for size, type_, way in zip(sizes, types, ("o_t", "t_o")):
        flags = type_ << 13 | fields.get(f"{way}_priority", 2) << 10 | fields.get(f"{way}_variable", fields["kind"] == "class3") << 9 | fields.get(f"{way}_redundant", 0) << 15
        words.append(flags << 16 * large | fields.get(f"{way}_size", size + fields.get(f"{way}_more", 0)))
    rpis = [fields.get(f"{way}_rpi", fields["rpi"]) for way in ("o_t", "t_o")]
    body = struct.pack("<BBII", 10, 250, fields.get("o_t_id", 0), t_o_id) + triad + bytes([fields["multiplier"], 0, 0, 0])
    body += struct.pack("<IIII" if large else "<IHIH", rpis[0], words[0], rpis[1], words[1])
    trigger = fields.get("trigger", 0xA3 if fields["kind"] == "class3" else 0x01)
    body += bytes([trigger, fields.get("path_words", len(path) // 2)]) + path + bytes.fromhex(fields.get("behind", ""))
    return request(LARGE_FORWARD_OPEN if large else FORWARD_OPEN, path_of(MANAGER, 1), body[:fields.get("cut")])


def closing(maker, triad, path="2004", words=None, behind="", cut=None):
    """The request of a Forward_Close."""
    path = bytes.fromhex(path)
    body = bytes([10, 250]) + triad + bytes([len(path) // 2 if words is None else words, 0]) + path + bytes.fromhex(behind)
    return request(FORWARD_CLOSE, path_of(MANAGER, 1), body[:cut])


def key_of(maker, form=4, **changed):
    """The electronic key of a device, as a segment."""
    vendor, type_, product, major, minor = (changed.get(name, getattr(maker, name)) for name in ("vendor", "type", "product", "major", "minor"))
    serial = struct.pack("<I", changed.get("serial", maker.serial)) if form == 5 else b""
    return (bytes([0x34, form]) + struct.pack("<HHHBB", vendor, type_, product, major, minor) + serial).hex()
