"""What `browser.py` asks, and the answers that the standard wants: rows, and families of rows where a rule makes them. Each question has
the rule of docs/PROFILE.md that it asks for.

An answer is in words. That of a request: the general status and the additional words, each behind a slash, then the data. That of a
message: the status and the data, `none` without a reply, `end` if the stream ends. That of an opening: `00` and both actual packet
intervals. A star stands for anything, a question mark for a hexadecimal digit, and | separates answers of which each is one."""

import itertools, struct
from collections import namedtuple
from forms import *

ROUTES = "session", "class3"

# What devices of this repository do not serve yet, by a pattern of the words of its questions, and why. The run fails once all questions of
# a pattern are answered as they are to be: then it goes from the list.
LEFT = {
    "* set to *": "a network sets no attribute of the device's own objects",
}

Question = namedtuple("Question", "rule words ask wanted is_read", defaults=(False,))


def is_list_of(classes):
    """The list of the classes that a device serves, in any order."""
    def is_so(got):
        data = bytes.fromhex(got[3:]) if got.startswith("00 ") else b""
        count = len(data) // 2
        return count > 0 and len(data) % 2 == 0 and sorted(struct.unpack(f"<{count}H", data)) == sorted([len(classes), *classes])
    is_so.__doc__ = f"the list of the classes {', '.join(f'{it:02X}' for it in classes)}"
    return is_so


# OBJECTS: each instance has its attributes with their values, by number


def class_instance(revision, largest, most=1, count=1, highest=7):
    """What a class says: its revision, its instances, which attributes and services they have that the standard leaves open, and the largest
    attributes of the class and of its instances."""
    return {1: le(2, revision), 2: le(2, most), 3: le(2, count), 4: "??00*", 5: "??00*", 6: le(2, highest), 7: largest if isinstance(largest, str) else le(2, largest)}


def control_of(speed, flags):
    """Speed and duplex are negotiated, or the ones that were forced."""
    if flags is None:
        return "????????"
    return le(2, 2 * (flags >> 1 & 1)) + le(2, min(speed, 65535)) if flags >> 2 & 7 == 4 else "01000000"


def instances(maker):
    name, mac = text(maker.name), maker.link and maker.link[2]
    speed, flags = maker.link[:2] if maker.link else (None, None)
    speed16 = le(2, speed and min(speed, 65535))
    points, assemblies = maker.points(), [*maker.points(), *maker.heartbeats]
    return {
        (IDENTITY, 0): class_instance(1, 9),
        (IDENTITY, 1): {
            1: le(2, maker.vendor), 2: le(2, maker.type), 3: le(2, maker.product), 4: le(1, maker.major) + le(1, maker.minor), 5: "3000",
            6: le(4, maker.serial), 7: name, 8: "03", 9: "0000"},
        (ROUTER, 0): class_instance(1, 3),
        (ROUTER, 1): {1: is_list_of([IDENTITY, ROUTER, ASSEMBLY, MANAGER, QOS, PORT, INTERFACE, LINK, *maker.objects]), 2: "????", 3: "0100"},
        (ASSEMBLY, 0): class_instance(2, 4, min(max(assemblies, default=0), 65535), len(assemblies)),
        (MANAGER, 0): class_instance(1, 8),
        (MANAGER, 1): {number: "????" for number in range(1, 9)},
        (QOS, 0): class_instance(1, 8),
        (QOS, 1): {1: "00", 2: "3b", 3: "2f", 4: "37", 5: "2f", 6: "2b", 7: "1f", 8: "1b"},
        (PORT, 0): class_instance(1, 7, highest=9) | {8: "0100", 9: "0000000004000200"},
        (PORT, 1): {1: "0400", 2: "0200", 3: "020020f52401|00 020020f62401", 4: "*", 7: "12" + text(maker.node) + "00" * (len(maker.node) % 2)},
        (INTERFACE, 0): class_instance(4, 13),
        (INTERFACE, 1): {
            1: "01000000", 2: "00000000", 3: "00000000", 4: "020020f62401", 5: address(maker.node) + address(maker.mask) + "00" * 14, 6: "0000",
            8: "01", 9: "0000" + "????" + group_of(maker), 10: "00", 11: "00" * 35, 13: le(2, maker.inactivity)},
        (LINK, 0): class_instance(4, 11),
        (LINK, 1): {
            1: le(4, speed), 2: le(4, flags), 3: mac or "????????????", 4: "??" * 44, 5: "??" * 48, 6: control_of(speed, flags), 7: "02", 8: "01", 9: "01", 10: "*", 11: f"??0000000?{speed16}0?"},
        **{(ASSEMBLY, point): {3: "00" * size or "", 4: le(2, size)} for point, size in points.items() if point},
        **{(ASSEMBLY, point): {3: "", 4: "0000"} for point in maker.heartbeats},
    }


RULES = {IDENTITY: "31.2", ROUTER: "31.19", ASSEMBLY: "31.6", MANAGER: "31.35", QOS: "31.24", PORT: "31.25", INTERFACE: "31.4", LINK: "31.5"}
NAMES = {IDENTITY: "Identity", ROUTER: "Message Router", ASSEMBLY: "Assembly", MANAGER: "Connection Manager", QOS: "QoS", PORT: "Port",
         INTERFACE: "TCP/IP Interface", LINK: "Ethernet Link"}
MOST_ATTRIBUTES = 14
NO_INSTANCES = 2, 255, 256, 65535, 65536
NO_CLASSES = 0x00, 0x03, 0x05, 0x07, 0x37, 0x43, 0x47, 0x64, 0xF3, 0xF7, 0xFF, 0x100, 0x300, 0xFFFF
SERVICES = [0x00, 0x02, 0x06, 0x07, 0x08, 0x09, 0x0D, 0x0F, 0x11, 0x13, 0x14, 0x15, 0x16, 0x17, 0x18, 0x19, 0x1A, 0x1B, 0x1C, 0x1F, 0x31, 0x32,
            0x4B, 0x4C, 0x4D, 0x4F, 0x50, 0x53, 0x55, 0x59, 0x5C, 0x63, 0x7F]
MANAGERS = [FORWARD_CLOSE, FORWARD_OPEN, LARGE_FORWARD_OPEN]  # the services of the Connection Manager alone
ALL_OF = {(IDENTITY, 1): range(1, 8), (INTERFACE, 1): range(1, 14), (LINK, 1): range(1, 12)}  # what Get_Attributes_All answers
DEFAULTS = {(INTERFACE, 7): "00" * 6, (INTERFACE, 12): "00"}  # of attributes that a device has not


def router(rule, words, service, path, wanted, data=b"", routes=ROUTES, is_read=False):
    """A question for each route that a request goes."""
    for route in routes:
        def ask(device, route=route):
            return device.served(request(service, path, data), route)
        yield Question(rule, f"{words}, over {'a session' if route == 'session' else 'class 3'}", ask, wanted, is_read and route == "session")


def reads(maker):
    """Each attribute that an instance has, and each that it has not."""
    for (class_, instance), attributes in instances(maker).items():
        name = f"{NAMES[class_]} {instance}"
        for number in [*range(MOST_ATTRIBUTES + 1), 99, 255, 256, 300]:
            value, path = attributes.get(number), path_of(class_, instance, number)
            rule = RULES[class_] if instance else "31.20" if 4 <= number <= 7 else "31.7"
            if value is None:
                yield from router("31.12", f"{name} has no attribute {number}", GET, path, "14")
            else:
                wanted = value if callable(value) else f"00 {value}".strip()
                yield from router(rule, f"{name} attribute {number}", GET, path, wanted, is_read=True)


def everything(maker):
    """Get_Attributes_All, which is the attributes one behind the other."""
    for (class_, instance), numbers in ALL_OF.items():
        has = instances(maker)[(class_, instance)]
        all_ = "".join(has.get(number, DEFAULTS.get((class_, number), "")) for number in numbers)
        yield from router("31.8", f"{NAMES[class_]} {instance}, all", GET_ALL, path_of(class_, instance), f"00 {all_}")
        yield from router("31.8", f"{NAMES[class_]} {instance}, all, with an attribute", GET_ALL, path_of(class_, instance, 1), f"00 {all_}")
        yield from router("31.13", f"{NAMES[class_]} {instance}, all, with data", GET_ALL, path_of(class_, instance), "15", b"\1")


def services(maker):
    """Services that an instance has not; services of instances and classes that are not there."""
    for class_, instance in instances(maker):
        name, path = f"{NAMES[class_]} {instance}", path_of(class_, instance)
        absent = SERVICES + ([] if (class_, instance) in ALL_OF else [GET_ALL]) + ([] if class_ == MANAGER and instance else MANAGERS)
        for service in absent + ([] if (class_, instance) == (IDENTITY, 1) else [RESET]):
            yield from router("31.11", f"{name}, service {service:02x}", service, path, "08", routes=("session",))
        yield from router("31.11", f"{name}, service 4b before attribute and data", 0x4B, path_of(class_, instance, 99), "08", b"\1", ("class3",))
    there = instances(maker)
    for class_, instance in itertools.product(NAMES, NO_INSTANCES):
        if (class_, instance) not in there:
            for service in GET, GET_ALL, SET, RESET, 0x4B:
                yield from router("31.10", f"{NAMES[class_]} has no instance {instance}, service {service:02x}", service,
                                  path_of(class_, instance, 1), "05", routes=("session",) if service != GET else ROUTES)
    for class_, instance in itertools.product([it for it in NO_CLASSES if it not in maker.objects], (0, 1)):
        for service in GET, GET_ALL, 0x4B:
            yield from router("31.10", f"no class {class_:02X}, instance {instance}, service {service:02x}", service,
                              path_of(class_, instance, 1), "05", routes=("session",) if service != GET else ROUTES)


def lengths(maker):
    """Data behind a Get, settings, attributes that a path lacks, resets that are refused."""
    for (class_, instance), attributes in instances(maker).items():
        name = f"{NAMES[class_]} {instance}"
        yield from router("31.12", f"{name}, Get without an attribute", GET, path_of(class_, instance), "14")
        yield from router("31.12", f"{name}, Set without an attribute", SET, path_of(class_, instance), "14", b"\1")
        yield from router("31.12", f"{name}, Set of no attribute", SET, path_of(class_, instance, 99), "14", b"\1")
        for number in attributes:
            path = path_of(class_, instance, number)
            yield from router("31.13", f"{name} attribute {number}, Get with data", GET, path, "15", b"\1", ("session",))
            if not instance or (class_, number) not in SETTINGS:
                yield from router("31.14", f"{name} attribute {number}, Set", SET, path, "0e", b"\1\0", ("session",))
    yield from settings()
    for words, data, wanted in ("of type 2", b"\2", "20"), ("of type 255", b"\xff", "20"), ("of two bytes", b"\0\0", "15"):
        yield from router("31.15" if wanted == "20" else "31.13", f"Reset {words}", RESET, path_of(IDENTITY, 1), wanted, data)
    yield from router("31.11", "Reset of the class", RESET, path_of(IDENTITY, 0), "08")


# What a network sets: values that are taken, and values that are refused
SETTINGS = {(INTERFACE, 13): (b"\x78\0", b"\x11\x0e"), **{(QOS, number): (None, b"\x40") for number in range(4, 9)}}


def settings():
    for (class_, number), values in SETTINGS.items():
        for value, wanted in zip((*values, b""), ("00", "09", "13")):
            if value is not None:
                yield from router("31.14", f"{NAMES[class_]} 1 attribute {number} set to {value.hex() or 'nothing'}", SET, path_of(class_, 1, number), wanted,
                                  value, ("session",))


# PATHS OF REQUESTS: of Identity's vendor number, in bytes and the status
BAD_PATHS = [
    ("", "04"), ("2001", "04"), ("2401", "04"), ("3001", "04"), ("20013001", "04"), ("24012001", "04"), ("200124013001 3001", "04"),
    ("200120012401", "04"), ("200124012401", "04"), ("300120012401", "04"), ("200130012401", "04"), ("200124012801", "04"),
    ("20012c013001", "04"), ("2001240100003001", "04"), ("010020012401", "04"), ("0100200124013001", "04"), ("610020012401", "04"),
    ("9101 4142 20012401", "04"), ("8001 0000 20012401", "04"), ("4301 20012401", "04"), ("3404 0000000000000000 200124013001", "04"),
    ("2300 0100 0000 24013001", "04"), ("e000 2001 2401", "04"), ("ffff", "04"), ("2001 2700 01000000 3001", "04"), ("2100", "04"),
    ("2001 2500", "04"), ("2200 0100", "04"), ("2001 2600 0100", "04"),
]
SHORT_PATHS = ["0e", "0e01", "0e03 20012401", "0eff 200124013001", "0e02 200124", "0180"]  # whole requests that end before their path


def paths(maker):
    vendor = f"00 {le(2, maker.vendor)}"
    for widths in itertools.product((1, 2, 4), repeat=3):
        for pad in (0, 0xFF) if max(widths) > 1 else (0,):
            path = b"".join(logical(kind, 1, width, pad) for kind, width in zip((0x20, 0x24, 0x30), widths))
            yield from router("4.1", f"a path of segments of {', '.join(str(8 * it) for it in widths)} bits, padded by {pad:02x}", GET, path, vendor)
    for digits, wanted in BAD_PATHS:
        yield from router("6.3", f"the path {digits or '-'}", GET, bytes.fromhex(digits), wanted)
    for digits, route in itertools.product(SHORT_PATHS, ROUTES):
        yield Question("6.2", f"the request {digits}, over {route}", lambda device, it=bytes.fromhex(digits), route=route: device.served(it, route), "13")


# LISTS, PACKETS AND ROUTED REQUESTS


def listed(maker):
    """Lists of attributes: each instance's, with those that it has not; too long and too short ones."""
    name = "Get_Attribute_List"
    for (class_, instance), attributes in instances(maker).items():
        known = {number: value for number, value in attributes.items() if not callable(value) and "|" not in value and "*" not in value}
        ask = struct.pack("<H", len(known)) + b"".join(struct.pack("<H", it) for it in known)
        wanted = le(2, len(known)) + "".join(le(2, number) + "0000" + value for number, value in known.items())
        path = path_of(class_, instance)
        yield from router("31.1", f"{name} of {NAMES[class_]} {instance}", GET_LIST, path, f"00 {wanted}", ask)
        yield from router("31.1", f"{name} of {NAMES[class_]} {instance}, attribute 99", GET_LIST, path, "0a 010063001400", b"\1\0\x63\0")
    path = path_of(IDENTITY, 1)
    for words, data in ("without its number", b""), ("of 65,535 that are not there", b"\xff\xff"), ("shorter than its number", b"\2\0\1\0"):
        yield from router("31.1", f"{name} {words}", GET_LIST, path, "13", data)
    yield from router("31.1", f"{name} longer than its number", GET_LIST, path, "15", b"\1\0\1\0\1\0")
    yield from router("31.1", f"{name} of nothing", GET_LIST, path, "00 0000", b"\0\0")
    yield from router("31.1", "Set_Attribute_List of two attributes", SET_LIST, path, "0a 020001000e0063001400", struct.pack("<HHHH", 2, 1, 0, 99))
    yield from router("31.10", f"{name} of no instance", GET_LIST, path_of(IDENTITY, 2), "05", b"\1\0\1\0")


def packets(maker):
    vendor = le(2, maker.vendor)
    get, bad, none = (request(GET, path_of(IDENTITY, 1, it)) for it in (1, 99, None))
    said, refused = bytes.fromhex("8e000000" + vendor) if "?" not in vendor else b"", b"\x8e\0\x14\0"
    rows = [
        ("of one request", many(get), f"00 {many(said).hex()}"), ("of three", many(get, get, get), f"00 {many(said, said, said).hex()}"),
        ("of which one fails", many(get, bad, get), f"1e {many(said, refused, said).hex()}"),
        ("of which all fail", many(bad, none), f"1e {many(refused, refused).hex()}"),
        ("within a packet", many(request(PACKET, path_of(ROUTER, 1), many(get))), f"1e {many(bytes([0x8A, 0, 8, 0])).hex()}"),
        ("of no class", many(request(GET, path_of(0x43, 1, 1))), f"1e {many(bytes([0x8E, 0, 5, 0])).hex()}"),
        ("without a number", b"", "13"), ("of 65,535 that are not there", b"\xff\xff", "13|20"), ("whose offset is outside", b"\1\0\xff\0" + get, "20"),
        ("whose offset is in its head", b"\1\0\0\0" + get, "20"), ("whose offsets go back", struct.pack("<HHH", 2, 14, 6) + get + get, "20"),
        ("whose offsets overlap", struct.pack("<HHH", 2, 6, 6) + get, "20"), ("of nothing", b"\0\0", "00 0000"),
        ("too long for a reply", many(*[request(GET_ALL, path_of(INTERFACE, 1))] * 40), "11"),
    ]
    for words, data, wanted in rows:
        yield from router("31.1", f"Multiple_Service_Packet {words}", PACKET, path_of(ROUTER, 1), wanted, data)


def routed(maker):
    """Unconnected_Send: its reply is that of the request within."""
    get, vendor = request(GET, path_of(IDENTITY, 1, 1)), le(2, maker.vendor)
    rows = [
        ("without a route", get, b"", GET, f"00 {vendor}"), ("of odd length", request(RESET, path_of(IDENTITY, 1), b"\2"), b"", RESET, "20"),
        ("that is refused", request(GET, path_of(IDENTITY, 1, 99)), b"", GET, "14"), ("to a backplane", get, b"\1\0", UNCONNECTED_SEND, "01/0311 0100"),
        ("to another network", get, b"\3\5", UNCONNECTED_SEND, "01/0311 0100"), ("of no byte", b"", b"", UNCONNECTED_SEND, "13|20"),
    ]
    for words, inner, route, service, wanted in rows:
        data = b"\x0a\x05" + struct.pack("<H", len(inner)) + inner + b"\0" * (len(inner) % 2) + bytes([len(route) // 2, 0]) + route
        for way in ROUTES:
            yield Question("6.1", f"Unconnected_Send {words}, over {way}", lambda device, it=request(UNCONNECTED_SEND, path_of(MANAGER, 1), data), way=way,
                           service=service: device.served(it, way, service), wanted)
    for cut in 0, 1, 3, 4, 8:
        yield from router("6.5", f"Unconnected_Send cut behind {cut} bytes", UNCONNECTED_SEND, path_of(MANAGER, 1), "13",
                          (b"\x0a\x05" + struct.pack("<H", len(get)) + get)[:cut])


# ENCAPSULATION

UNKNOWN = [0x01, 0x02, 0x03, 0x05, 0x62, 0x67, 0x6E, 0x71, 0x72, 0x73, 0xC8, 0x100, 0xFFFF]
OPTIONS = 1, 0x8000_0000, 0xFFFF_FFFF
VERSION_1 = struct.pack("<HH", 1, 0)
VENDOR_NUMBER = request(GET, path_of(IDENTITY, 1, 1))


def said_of(maker):
    """What the inquiries say, in hexadecimal digits."""
    name, node = text(maker.name), "".join(f"{int(it):02x}" for it in maker.node.split("."))
    item = "0100" + "0002" + maker.port.to_bytes(2, "big").hex() + node + "00" * 8 + "".join(
        le(2, it) for it in (maker.vendor, maker.type, maker.product)) + le(1, maker.major) + le(1, maker.minor) + "3000" + le(4, maker.serial) + name + "03"
    return {
        LIST_IDENTITY: f"0000 01000c00{le(2, len(item) // 2)}{item}", LIST_INTERFACES: "0000 0000",
        LIST_SERVICES: "0000 0100" + "0001" + "1400" + "0100" + "2001" + b"Communications\0\0".hex(),
    }


def over_udp(rule, words, bytes_, wanted):
    return Question(rule, f"{words}, over UDP", lambda device: device.datagram(bytes_), wanted)


def over_tcp(rule, words, bytes_, wanted):
    """A message over a stream without a session."""
    return Question(rule, f"{words}, over TCP", lambda device: device.frame(bytes_), wanted)


def in_session(rule, words, of_handle, wanted):
    """A message over a stream with a session, whose handle it is made of."""
    return Question(rule, f"{words}, in a session", lambda device: device.frame(of_handle, session=True), wanted)


def inquiries(maker):
    for command, wanted in said_of(maker).items():
        name = f"command {command:02x}"
        yield over_udp("25.2", name, message(command), wanted)
        yield over_tcp("25.2", name, message(command), wanted)
        yield in_session("25.2", name, lambda handle, it=command: message(it, session=handle), wanted)
        yield over_tcp("25.3", f"{name} of a session that is not there", message(command, session=0x12345678), wanted)
        yield over_udp("25.3", f"{name} of a session that is not there", message(command, session=0x12345678), wanted)
        yield over_udp("25.3", f"{name} with a context of zeros", message(command, context=bytes(8)), wanted)
        for data in b"\0", bytes(4), b"\1\0\0\0\0\0":
            yield over_tcp("13.3", f"{name} with {len(data)} bytes", message(command, data), "0065")
            yield in_session("13.3", f"{name} with {len(data)} bytes", lambda handle, it=command, data=data: message(it, data, handle), "0065")
        yield over_udp("25.4", f"{name} with 4 bytes", message(command, bytes(4)), "none")
        yield over_udp("25.4", f"{name} with a status", message(command, status=1), "none")
    for command in REGISTER, UNREGISTER, NOP, 0x01, 0xFFFF:
        yield over_udp("25.4", f"command {command:02x}", message(command), "none")
    for command, data in (REGISTER, VERSION_1), (RR, items((0, b""), (0xB2, VENDOR_NUMBER))), (UNIT, items((0xA1, bytes(4)), (0xB1, bytes(4)))):
        yield over_udp("25.4", f"command {command:02x} with {len(data)} bytes", message(command, data), "none")
    for count in 1, 2, 4, 23:
        yield over_udp("25.4", f"{count} bytes", message(LIST_IDENTITY)[:count], "none")


def options():
    """A message with options is discarded."""
    data = {REGISTER: VERSION_1, RR: items((0, b""), (0xB2, VENDOR_NUMBER))}
    for command, bits in itertools.product((NOP, LIST_SERVICES, LIST_IDENTITY, LIST_INTERFACES, REGISTER, UNREGISTER, RR, UNIT, 0x01), OPTIONS):
        yield over_tcp("13.3", f"command {command:02x} with options {bits:x}", message(command, data.get(command, b""), options=bits), "none")
    for command, bits in itertools.product((LIST_IDENTITY, RR, UNREGISTER, UNIT), OPTIONS):
        yield in_session("13.3", f"command {command:02x} with options {bits:x}",
                         lambda handle, it=command, bits=bits: message(it, data.get(it, b""), handle, options=bits), "none")
    for command in LIST_SERVICES, LIST_IDENTITY, LIST_INTERFACES:
        yield over_udp("25.1", f"command {command:02x} with options 1", message(command, options=1), "none")


def sessions():
    for data in b"", b"\1\0", b"\1\0\0", b"\1\0\0\0\0", bytes(8):
        yield over_tcp("13.6", f"a session with {len(data)} bytes", message(REGISTER, data), "0065")
    for version, flags in (0, 0), (2, 0), (0xFFFF, 0), (1, 1), (1, 0x8000):
        yield over_tcp("13.6", f"a session of version {version}, flags {flags:x}", message(REGISTER, struct.pack("<HH", version, flags)), "0069 01000000")
    yield over_tcp("13.6", "a session", message(REGISTER, VERSION_1), "0000 01000000")
    yield over_tcp("13.6", "a session with a handle", message(REGISTER, VERSION_1, 5), "0000 01000000")
    yield over_tcp("13.6", "a session of another version, then one", message(REGISTER, bytes(4)) + message(REGISTER, VERSION_1), "0069 01000000, then 0000 01000000")
    yield over_tcp("13.6", "two sessions", message(REGISTER, VERSION_1) * 2, "0000 01000000, then 0001")
    yield in_session("13.6", "another session", lambda handle: message(REGISTER, VERSION_1, handle), "0001")
    yield in_session("13.7", "its end", lambda handle: message(UNREGISTER, session=handle), "end")
    yield in_session("13.7", "its end with data", lambda handle: message(UNREGISTER, bytes(4), handle), "end")
    yield in_session("13.7", "the end of another one", lambda handle: message(UNREGISTER, session=handle + 1), "none")
    yield over_tcp("13.7", "an end without a session", message(UNREGISTER, session=1), "none")
    for count in 0, 4, 100:
        yield over_tcp("13.4", f"a NOP of {count} bytes", message(NOP, bytes(count)), "none")
        yield in_session("13.4", f"a NOP of {count} bytes", lambda handle, it=count: message(NOP, bytes(it), handle), "none")
    for command in UNKNOWN:
        yield over_tcp("13.10", f"command {command:02x}", message(command), "0001")
        yield in_session("13.10", f"command {command:02x} with data", lambda handle, it=command: message(it, bytes(4), handle), "0001")
    for command, data in (RR, items((0, b""), (0xB2, VENDOR_NUMBER))), (UNIT, items((0xA1, bytes(4)), (0xB1, bytes(4)))):
        for words, given in ("good data", data), ("no data", b""):
            yield over_tcp("13.8", f"command {command:02x} without a session, {words}", message(command, given), "0064")
            yield over_tcp("13.8", f"command {command:02x} of a session that is not there, {words}", message(command, given, 0x12345678), "0064")
            yield in_session("13.8", f"command {command:02x} of another session, {words}", lambda handle, it=command, given=given: message(it, given, handle + 1), "0064")


REQUEST, SOCKET = (0xB2, VENDOR_NUMBER), (0x8000, bytes(16))
ITEMS = [  # of SendRRData, and whether they are served
    ("two", items((0, b""), REQUEST), True), ("with a time-out", items((0, b""), REQUEST, timeout=65535), True),
    ("with a socket address", items((0, b""), REQUEST, SOCKET), True), ("with both socket addresses", items((0, b""), REQUEST, SOCKET, (0x8001, bytes(16))), True),
    ("with a third one that nobody knows", items((0, b""), REQUEST, (0x1234, b"abc")), True),
    ("with a third one of no byte", items((0, b""), REQUEST, (0x1234, b"")), True),
    ("none", b"", False), ("half a head", bytes(5), False), ("a number of 0", items(), False), ("a number of 1", items((0, b"")), False),
    ("fewer than their number", items((0, b""), REQUEST, count=3), False), ("more than their number", items((0, b""), REQUEST, SOCKET, count=2), False),
    ("of another interface", items((0, b""), REQUEST, interface=1), False), ("the request first", items(REQUEST, (0, b"")), False),
    ("an address with a byte", items((0, b"\0"), REQUEST), False), ("a connected address", items((0xA1, bytes(4)), REQUEST), False),
    ("connected data", items((0, b""), (0xB1, VENDOR_NUMBER)), False), ("no request", items((0, b""), (0xB2, b"")), False),
    ("a request cut off", items((0, b""), (0xB2, VENDOR_NUMBER, 100)), False), ("a request longer than its length", items((0, b""), (0xB2, VENDOR_NUMBER, 2)), False),
    ("bytes behind them", items((0, b""), REQUEST, rest=b"\0"), False), ("a socket address of 15 bytes", items((0, b""), REQUEST, (0x8000, bytes(15))), False),
    ("two that nobody knows behind a socket address", items((0, b""), REQUEST, SOCKET, (0x1234, b"abc"), (0x100, b"d")), True),
    ("a third one cut off", items((0, b""), REQUEST, (0x1234, b"", 4)), False), ("a number of 65,535", items((0, b""), REQUEST, count=65535), False),
]


def unconnected(maker):
    """The items around a request that is sent without a connection."""
    reply = items((0, b""), (0xB2, b"\x8e\0\0\0" + bytes.fromhex(le(2, maker.vendor)))).hex()
    for words, data, is_good in ITEMS:
        yield in_session("12.3", f"items: {words}", lambda handle, it=data: message(RR, it, handle), f"0000 {reply}" if is_good else "0003")


def connected(maker):
    """Messages of class 3 connections."""
    good = struct.pack("<H", 1) + VENDOR_NUMBER
    bad = [
        ("none", b""), ("a number of 1", items((0xA1, bytes(4)))), ("a null address", items((0, b""), (0xB1, good))), ("unconnected data", items((0xA1, bytes(4)), (0xB2, good))),
        ("an id of 3 bytes", items((0xA1, bytes(3)), (0xB1, good))), ("half a count", items((0xA1, bytes(4)), (0xB1, b"\1"))),
        ("data cut off", items((0xA1, bytes(4)), (0xB1, good, 99))), ("bytes behind them", items((0xA1, bytes(4)), (0xB1, good), rest=b"\0")),
        ("another interface", items((0xA1, bytes(4)), (0xB1, good), interface=1)),
    ]
    for words, data in bad:
        yield in_session("36.16", f"items: {words}", lambda handle, it=data: message(UNIT, it, handle), "0003")
    for id_ in 0, 1, 0xFFFF_FFFF:
        yield in_session("36.17", f"connection {id_:x}, which is not there",
                         lambda handle, it=id_: message(UNIT, items((0xA1, struct.pack("<I", it)), (0xB1, good)), handle), "none")
    for words, rest, wanted in ("that nobody knows", (0x1234, b"abc"), "none"), ("of no byte", (0x1234, b""), "none"), ("cut off", (0x1234, b"", 4), "0003"), \
            ("with a socket address of 15 bytes", (0x8000, bytes(15)), "0003"):
        yield in_session("12.5", f"a message of a connection that is not there, with a third item {words}",
                         lambda handle, it=rest: message(UNIT, items((0xA1, bytes(4)), (0xB1, good), it), handle), wanted)
    name = request(GET, path_of(IDENTITY, 1, 1))
    yield Question("36.18", "a message longer than the connection", lambda device: device.over_class3(1, name + bytes(500)), "none")
    yield Question("36.19", "a message twice", lambda device: device.twice(name), "the same reply")
    yield Question("36.20", "a message without a request", lambda device: device.over_class3(1, b""), "0003")
    close = closing(maker, bytes(8))
    yield Question("36.22", "a close over class 3", lambda device: device.served(close, "class3"), "08")
    longest = {"vendor": (request(GET, path_of(IDENTITY, 1, 1)), 6), "addresses": (request(GET, path_of(INTERFACE, 1, 5)), 26),
               "a refusal": (request(GET, path_of(IDENTITY, 1, 99)), 4)}
    if maker.name:
        longest["the name"] = request(GET, path_of(IDENTITY, 1, 7)), 5 + len(maker.name)
    for (words, (asked, size)), less in itertools.product(longest.items(), (1, 0, -1, -40)):
        yield Question("36.22", f"{words}, {size} bytes, over a T->O size of {2 + size + less}",
                       lambda device, it=asked, to=2 + size + less: device.sized(it, to), "whole" if less >= 0 or size == 4 else "11")


# OPENINGS AND CLOSES


def keys(maker):
    """Keys, and the extended status that refuses each."""
    major, minor = maker.major, maker.minor
    good = [
        ("the device's", {}), ("of zeros", dict(vendor=0, type=0, product=0, major=0, minor=0)), ("without a revision", dict(major=0, minor=0)), ("without a vendor", dict(vendor=0)),
        ("without a type", dict(type=0)), ("without a product", dict(product=0)), ("compatible", dict(major=major | 0x80)),
        ("compatible, of an earlier minor revision", dict(major=major | 0x80, minor=minor - 1 or minor)),
    ]
    bad = [
        ("of another vendor", dict(vendor=maker.vendor + 1), "0114"), ("of another product", dict(product=maker.product + 1), "0114"),
        ("of another type", dict(type=maker.type + 1), "0115"), ("of another major revision", dict(major=major + 1), "0116"), ("of another minor revision", dict(minor=minor + 1), "0116"),
        ("of an earlier minor revision", dict(minor=minor - 1), "0116") if minor > 1 else ("of a later minor revision", dict(minor=minor + 2), "0116"),
        ("compatible, of another major revision", dict(major=major + 1 | 0x80), "0116"), ("compatible, of a later minor revision", dict(major=major | 0x80, minor=minor + 1), "0116"),
    ]
    return [(words, changed, None) for words, changed in good] + bad


def opens(rule, words, fields, wanted, held=(), route="session"):
    fields, held = OWNER | fields, [OWNER | it for it in held]
    return Question(rule, f"an opening, {words}", lambda device: device.open_while(fields, held, route), wanted)


DONE = "00 10000 10000"
LARGE = {"large": True}
KINDS = [(kind, cast) for kind in ("owner", "reader", "listener") for cast in ("p2p", "multicast")]
GROUP = {"kind": "reader", "cast": "multicast"}  # the connection that supports a listener
PRIORITIES = 0, 1, 2, 3

# The fields of an opening, its status, and what is open meanwhile
OPENS = [
    ("7.5", "whose group's first connection is its own", GROUP, DONE, []),
    ("7.5", "of an owner that joins a reader's group", {"cast": "multicast"}, DONE, [GROUP]),
    ("7.5", "of a reader that joins a group", GROUP, DONE, [GROUP]),
    ("7.4", "of a listener beside a reader's group", {"kind": "listener", "cast": "multicast"}, DONE, [GROUP]),
    ("7.4", "of a listener beside an owner's group", {"kind": "listener", "cast": "multicast"}, DONE, [{"cast": "multicast"}]),
    ("7, check 5", "whose O->T type is null", {"o_t_type": 0}, "01/0123", []), ("7, check 5", "whose O->T type is multicast", {"o_t_type": 1}, "01/0123", []),
    ("7, check 5", "whose O->T type is reserved", {"o_t_type": 3}, "01/0123", []), ("7, check 5", "whose T->O type is null", {"t_o_type": 0}, "01/0124", []),
    ("7, check 5", "whose T->O type is reserved", {"t_o_type": 3}, "01/0124", []), ("7, check 5", "whose types are both null", {"o_t_type": 0, "t_o_type": 0}, "01/0132", []),
    *[("7, check 6", f"of class {class_}", {"trigger": class_}, "01/0103|01/011c", []) for class_ in (0, 2, 4, 5, 6, 15)],
    *[("7, check 6", f"of trigger {trigger}", {"trigger": trigger << 4 | 1}, "01/0103|01/011d", []) for trigger in (2, 3, 7)],
    ("7, check 6", "of a server", {"trigger": 0x81}, f"{DONE}|01/011e", []), ("7, check 8", "by a change of state", {"trigger": 0x11, "inhibit": 5}, DONE, []),
    ("7, check 8", "by a change of state without an inhibit time", {"trigger": 0x11}, DONE, []),
    ("7, check 8", "by a change of state, inhibited longer than its interval", {"trigger": 0x11, "inhibit": 11}, "01/011b", []),
    ("7, check 8", "inhibited, though cyclic", {"inhibit": 200}, DONE, []),
    *[("7, check 7", f"of multiplier {it}", {"multiplier": it}, DONE, []) for it in range(8)],
    *[("7, check 7", f"of multiplier {it}", {"multiplier": it}, "01/0133", []) for it in (8, 16, 255)],
    *[("7, check 7", f"with a redundant owner {way}", {f"{way}_redundant": 1}, "01/0125", []) for way in ("o_t", "t_o")],
    ("7, check 11", "of variable size O->T", {"o_t_variable": 1}, "01/011f", []), ("7, check 11", "of variable size T->O", {"t_o_variable": 1}, "01/0120", []),
    *[("5.3", f"of priority {it} {way}", {f"{way}_priority": it}, f"{DONE}|01/012{1 if way == 'o_t' else 2}" if it == 3 else DONE, [])
      for way in ("o_t", "t_o") for it in PRIORITIES],
    *[("7, check 8", f"each {us} us", {"rpi": us}, f"00 {us} {us}", []) for us in (1_000, 2_000, 50_000, 1_000_000, 10_000_000)],
    *[("7, check 8", f"each {us} us", {"rpi": us}, "01/0112*", []) for us in (1, 999)],
    *[("7, check 8", f"each {us} us {way}", {f"{way}_rpi": us}, f"00 {us // 1000}000 10000|01/0112*" if way == "o_t" else f"00 10000 {us // 1000}000|01/0112*", [])
      for us in (1_001, 2_500, 9_999_999) for way in ("o_t", "t_o")],
    *[("7, check 8", f"each {us} us {way}", {f"{way}_rpi": us}, "01/0111|01/0112*", []) for us in (0, 10_000_001, 0xFFFF_FFFF) for way in ("o_t", "t_o")],
    *[("7, check 11", f"a size {more:+d} {way}", {f"{way}_more": more}, "01/0127" if way == "o_t" else "01/0128", []) for more in (-6, -4, -2, -1, 1, 2, 4, 100) for way in ("o_t", "t_o")],
    *[("7, check 11", f"a size of 0 {way}", {f"{way}_size": 0}, "01/0127" if way == "o_t" else "01/0128", []) for way in ("o_t", "t_o")],
    *[("7, check 11", f"a reader's size {more:+d} O->T", {"kind": "reader", "o_t_more": more}, "01/0127", []) for more in (-2, -1, 1, 4)],
    ("7, check 9", "of another configuration", {"config": [77]}, "01/0129", []), ("7, check 9", "of another consumed point", {"consumed": 77}, "01/012a", []),
    ("7, check 9", "of another produced point", {"produced": 77}, "01/012b", []), ("7, check 9", "of three points that are not there", {"config": [77], "consumed": 78, "produced": 79}, "01/0129", []),
    ("7, check 9", "of a consumed and a produced point that are not there", {"consumed": 78, "produced": 79}, "01/012a", []),
    ("7, check 3", "of a triad that is taken", {"serial": 900}, "01/0100", [{"serial": 900, "kind": "reader"}]),
    ("7, check 3", "of the triad of a class 3 connection", {"serial": 901}, "01/0100", [{"serial": 901, "kind": "class3"}]),
    ("7, check 12", "of an owner beside an owner", {}, "01/0106", [{}]), ("7, check 12", "of a reader beside an owner", {"kind": "reader"}, DONE, [{}]),
    ("7, check 13", "of a listener alone", {"kind": "listener", "cast": "multicast"}, "01/0119", []),
    ("7, check 13", "of a listener beside a reader that is point to point", {"kind": "listener", "cast": "multicast"}, "01/0119", [{"kind": "reader"}]),
    ("7, check 13", "of a listener, point to point", {"kind": "listener"}, "01/0124", [GROUP]),
    *[("7, check 14", f"of a {kind} that joins a group of 10,000 us each {us} us", {"kind": kind, "cast": "multicast", "t_o_rpi": us}, f"01/0112*{'|00 10000 10000' * (us > 10_000)}", [GROUP])
      for kind in ("owner", "reader", "listener") for us in (20_000, 5_000)],
    ("7, check 14", "that joins a group of another trigger", GROUP | {"trigger": 0x11}, "01/0103|01/0138", [GROUP]),
    ("7, check 14", "that joins a group of another inhibit time", GROUP | {"trigger": 0x11, "inhibit": 4}, "01/0111|01/0139", [GROUP | {"trigger": 0x11, "inhibit": 3}]),
    ("36.22", "over class 3", {}, "08", [], "class3"),
]

# The segments of an opening's path: A, B and C stand for the points, and what refuses it
PATHS = [
    ("2004 C A B", ""), ("2004 Ci Ai Bi", ""), ("2004 C 2004 A 2004 B", ""), ("2004 Ci 2004 Ai 2004 Bi", ""), ("2004 C A 2004 B", ""), ("2004 C 2004 A B", ""),
    ("21000400 C A B", ""), ("21ff0400 C A B", ""), ("220004000000 C A B", ""), ("2004 C2 A2 B2", ""), ("2004 C2p A2p B2p", ""), ("2004 C4 A4 B4", ""), ("2004 C4p A4p B4p", ""),
    ("21000400 C2 21000400 A2 21000400 B2", ""), ("21000400 C2p 21ff0400 A2 21000400 B2p", ""), ("2004 C A B 8000", ""), ("4301 2004 C A B", ""), ("2004 4301 C A B", ""),
    ("2004 C A B 4301", ""), ("2004 C A B 4301 8000", ""),
    ("", "0117"), ("2004", "0117"), ("2004 A", "0117"), ("A B", "0117"), ("2004 C A B B", "0117"), ("2005 C A B", "0117"), ("2001 C A B", "0117"), ("2001 2401", "0117"),
    ("2006 2401", "0117"), ("2402", "0117"), ("C A B 2004", "0117"), ("2004 C A B 2004", "0117"), ("2004 2004 C A B", "0117"), ("2004 C 2001 A 2004 B", "0117"),
    ("2004 C A B 3003", "0117"), ("2004 C A 2801 B", "0117"), ("4301 4301 2004 C A B", "0117"), ("2004 C A B 8000 8000", "0117"), ("8000 2004 C A B", "0117"), ("2004 C A B KEY", "0117"),
    ("2004 KEY C A B", "0117"), ("2300 2004 C A B", "0315"), ("2004 C A 2f00 B", "0315"), ("2004 C A B e000", "0315"), ("2004 C A B 8001", "0315"), ("2004 C A B 4401", "0315"),
    ("2004 C A B ffff", "0315"), ("3404 0000", "0315"), ("3406 0000000000000000 2004 C A B", "0315"), ("2004 C A 2d00", "0315"), ("2100", "0315"), ("0100 2004 C A B", "0315"),
    ("6141 2004 C A B", "0315"), ("9101 4142 2004 C A B", "0315"), ("0000", "0315"), ("a000 2004 C A B", "0315"), ("c100 2004 C A B", "0315"), ("1f00 2004 C A B", "0315"),
]


def path_in(maker, text):
    """The bytes of a path of PATHS."""
    (*config, consumed, produced), digits = sum(([it] if isinstance(it, int) else it for it in points_of(maker, "owner")), []), ""
    points = {"A": consumed, "B": produced, "C": config[0] if config else None}
    for word in text.split():
        if word[0] not in points:
            digits += word.replace("KEY", key_of(maker))
        elif points[word[0]] is not None:
            kind = 0x24 if word[0] == "C" or "i" in word else 0x2C
            width = next((it for it in (2, 4) if str(it) in word), None)
            digits += logical(kind, points[word[0]], width, 0xFF if "p" in word else 0).hex()
    return digits


def openings(maker):
    for (kind, cast), changed, trigger in itertools.product(KINDS, ({}, LARGE), (0x01, 0x11)):
        wanted, held = DONE, []
        if kind == "listener":
            wanted, held = ("01/0124", []) if cast == "p2p" else (DONE, [GROUP | {"trigger": trigger, **({"inhibit": 5} if trigger == 0x11 else {})}])
        fields = {"kind": kind, "cast": cast, "trigger": trigger, **changed, **({"inhibit": 5} if trigger == 0x11 else {})}
        yield opens("7.2", f"of a {kind}, {cast}, trigger {trigger:02x}{', large' if changed else ''}", fields, wanted, held)
    for rule, words, fields, wanted, held, *route in OPENS:
        if maker.config or "config" not in fields:
            yield opens(rule, words, fields, wanted, held, *route)
    for text_, status in PATHS:
        if "8000" in text_ and not status and any(maker.config.values()):
            status = "0126"
        if "C" not in text_ or maker.config:
            yield opens("4.6" if status != "0315" else "4.5", f"its path {text_ or '-'}", {"path": path_in(maker, text_)}, f"01/{status}" if status else DONE)
    for words, changed, status in keys(maker):
        for kind in "owner", "class3":
            fields = {"kind": kind, "key": key_of(maker, **changed)}
            yield opens("4.8", f"of a {kind}, its key {words}", fields, f"01/{status}" if status else DONE)
    for words, serial, wanted in ("the device's", maker.serial, DONE), ("0", 0, DONE), ("another", maker.serial + 1, "01/011[456]"):
        yield opens("4.8", f"with a key of format 5, whose serial number is {words}", {"key": key_of(maker, 5, serial=serial)}, wanted)
    yield opens("4.8", "with a key of format 5 of another product", {"key": key_of(maker, 5, product=maker.product + 1)}, "01/0114")
    yield from configured(maker)
    yield from cut_openings(maker)
    yield from class3_openings()


def configured(maker):
    """Data segments: of the configuration's length, of another one, with other bytes while a connection is open."""
    size = next(iter(maker.config.values()), 0)
    for words in 0, 1, 2, 200:
        data = bytes([0x80, words]) + bytes(2 * words)
        yield opens("7, check 10", f"with configuration data of {2 * words} bytes", {"data": data.hex()}, DONE if 2 * words == size else "01/0126")
    if size:
        other = (bytes([0x80, size // 2]) + b"\1" * size).hex()
        yield opens("7, check 10", "with other configuration data beside an owner", {"kind": "reader", "data": other}, "01/0106", [{}])


def cut_openings(maker):
    """Openings and closes that are shorter or longer than they say."""
    words = len(path_to(maker, OWNER)) // 2
    for large in False, True:
        size = len(opening(maker, OWNER | {"large": large}, 0, bytes(8))) - 6
        for cut in [0, 1, 2, 10, 18, 22, 23, 26, 30, 34, 35, *([36, 38, 39] if large else []), size - 2, size - 1]:
            yield opens("6.5", f"{'large, ' if large else ''}cut behind {cut} bytes", {"large": large, "cut": cut}, "13")
        for rest in "00", "0000", "2c64", "00" * 40:
            yield opens("6.5", f"{'large, ' if large else ''}with {len(rest) // 2} bytes behind it", {"large": large, "behind": rest}, "15")
        yield opens("6.5", f"{'large, ' if large else ''}whose path is shorter than it says", {"large": large, "path_words": words + 1}, "13")
        yield opens("6.5", f"{'large, ' if large else ''}whose path is longer than it says", {"large": large, "path_words": words - 1}, "15")


def class3_openings():
    rows = [
        ("36.13", "", {}, DONE), ("36.13", "large, ", LARGE, DONE), ("36.1", "over class 3, ", {}, "08", "class3"),
        ("36.6", "whose O->T type is multicast, ", {"o_t_type": 1}, "01/0123"), ("36.6", "whose O->T type is null, ", {"o_t_type": 0}, "01/0123"),
        ("36.6", "whose T->O type is multicast, ", {"t_o_type": 1}, "01/0124"), ("36.6", "whose T->O type is null, ", {"t_o_type": 0}, "01/0124"),
        ("36.7", "of multiplier 8, ", {"multiplier": 8}, "01/0133"), ("36.7", "with a redundant owner, ", {"o_t_redundant": 1}, "01/0125"),
        ("36.8", "each 0 us O->T, ", {"o_t_rpi": 0}, "01/0111|01/0112*"), ("36.8", "each 0 us T->O, ", {"t_o_rpi": 0}, "01/0111|01/0112*"),
        ("36.8", "each 10,000,001 us, ", {"rpi": 10_000_001}, "01/0111|01/0112*"), ("36.10", "of no size O->T, ", {"o_t_size": 0}, "01/0127"),
        ("36.10", "of no size T->O, ", {"t_o_size": 0}, "01/0128"), ("36.9", "its path an assembly, ", {"path": "20042464"}, "01/0117"),
        ("36.9", "its path another instance, ", {"path": "20022402"}, "01/0117"), ("36.9", "its path empty, ", {"path": ""}, "01/0117"),
        ("36.9", "its path Identity, ", {"path": "20012401"}, "01/0117"), ("36.3", "its path with an unknown segment, ", {"path": "20022401e000"}, "01/0315"),
        ("36.13", "its path in 16 bits, ", {"path": "2100020025000100"}, DONE), ("36.13", "of fixed size, ", {"o_t_variable": 0, "t_o_variable": 0}, DONE),
        ("36.13", "of sizes of 1, ", {"o_t_size": 1, "t_o_size": 1}, DONE), ("36.1", "of trigger 83, ", {"trigger": 0x83}, "01/0103|01/011d"),
        ("36.1", "of a client, ", {"trigger": 0x23}, "01/0103|01/011e"),
    ]
    for rule, words, fields, wanted, *route in rows:
        yield opens(rule, f"of class 3, {words}from the maker", {"kind": "class3", **fields}, wanted, [], *route)
    yield opens("36.4", "of class 3, of the triad of an owner", {"kind": "class3", "serial": 902}, "01/0100", [{"serial": 902}])
    yield opens("36.4", "of class 3, of the triad of another one", {"kind": "class3", "serial": 903}, "01/0100", [{"kind": "class3", "serial": 903}])


def closes():
    triad = struct.pack("<HHI", 999, 0x1337, 0xC0FFEE)
    for words, changed, wanted in (
        ("of no connection", {}, "01/0107"), ("of no connection, with another path", {"path": "2001240130052c64"}, "01/0107"),
        ("without a path", {"path": ""}, "01/0107"), ("whose path is shorter than it says", {"words": 2}, "13"), ("whose path is longer than it says", {"words": 0}, "15"),
        ("with a byte behind it", {"behind": "00"}, "15"), *[(f"cut behind {cut} bytes", {"cut": cut}, "13") for cut in (0, 1, 2, 9, 10, 11, 13)],
    ):
        yield Question("8.2", f"a close {words}", lambda device, it=changed: device.closed(triad, **it), wanted)
    for fields, route in itertools.product(({}, GROUP, {"kind": "class3"}), ("its own session", "another session")):
        yield Question("8.2", f"a close of {fields.get('kind', 'owner')}, over {route}",
                       lambda device, it=OWNER | fields, other=route != "its own session": device.close_twice(it, other), "00, then 01/0107")


# What is asked while connections are open: the status word, the count of connections, and a reset
WHILE = [
    ("31.3", "the status word", GET, path_of(IDENTITY, 1, 5), "00 7100", [{}]), ("31.3", "the status word", GET, path_of(IDENTITY, 1, 5), "00 7000", [{"kind": "reader"}]),
    ("31.3", "the status word", GET, path_of(IDENTITY, 1, 5), "00 7100", [{}, {"kind": "reader"}]), ("31.3", "the status word", GET, path_of(IDENTITY, 1, 5), "00 3000", [{"kind": "class3"}]),
    ("31.19", "the Message Router's number of connections", GET, path_of(ROUTER, 1, 3), "00 0300", [{}, {"kind": "class3"}]),
    ("31.16", "a reset", RESET, path_of(IDENTITY, 1), "10", [{}]), ("31.16", "a reset to the factory's settings", RESET, path_of(IDENTITY, 1), "10", [{}]),
    ("31.15", "a reset of another type", RESET, path_of(IDENTITY, 1), "20", [{}]),
]


def meanwhile():
    for rule, words, service, path, wanted, held in WHILE:
        data = {"31.15": b"\2", "31.16": b"\1" if "factory" in words else b""}.get(rule, b"")
        kinds = " and ".join(it.get("kind", "owner") for it in held)
        yield Question(rule, f"{words} while connections are open: {kinds}",
                       lambda device, it=request(service, path, data), held=[OWNER | it for it in held]: device.served_while(it, held), wanted)


# COUNTERS: what is done, and what each counter of the Connection Manager counts of it
NOTHING, OPENED_AND_CLOSED = "0 0 0 0 0 0 0 0", "1 0 0 0 1 0 0 0"
OPEN_FORMAT, OPEN_OTHER, CLOSE_FORMAT, CLOSE_OTHER = "1 1 0 0 0 0 0 0", "1 0 0 1 0 0 0 0", "0 0 0 0 1 1 0 0", "0 0 0 0 1 0 1 0"


def counts(maker):
    def row(rule, words, act, wanted):
        return Question(rule, f"what is counted of {words}", lambda device: device.counted(act), wanted)

    def opened(words, fields, wanted, route="session", held=()):
        fields, held = OWNER | fields, [OWNER | it for it in held]
        return row("31.36" if wanted == OPENED_AND_CLOSED else "31.39" if wanted == OPEN_OTHER else "31.37", f"an opening {words}",
                   lambda device: device.open_while(fields, held, route), wanted)

    def served(rule, words, asked, wanted, route="session", service=None):
        return row(rule, words, lambda device: device.served(asked, route, service), wanted)

    for kind, changed in itertools.product(("owner", "reader", "class3"), ({}, LARGE)):
        yield opened(f"of a {kind}{', large' if changed else ''}", {"kind": kind, **changed}, OPENED_AND_CLOSED)
    for words, fields in ("of another type", {"o_t_type": 3}), ("of class 2", {"trigger": 2}), ("of multiplier 8", {"multiplier": 8}), ("each 999 us", {"rpi": 999}), \
            ("each 0 us", {"rpi": 0}), ("of another size", {"o_t_more": 4}), ("of a point that is not there", {"consumed": 77}), ("of class 3, of no size", {"kind": "class3", "o_t_size": 0}), \
            ("whose path is of Identity", {"path": "20012401"}), ("of class 3, whose path is of Identity", {"kind": "class3", "path": "20012401"}):
        yield opened(words, fields, OPEN_OTHER)
    yield opened("over class 3", {}, OPEN_OTHER, "class3")
    for text_ in ("2300 2004 C A B", "e000", "2100", "3404 0000", "0100 2004 C A B"):
        if "C" not in text_ or maker.config:
            for kind in "owner", "class3":
                yield opened(f"of a {kind}, whose path is {text_}", {"kind": kind, "path": path_in(maker, text_)}, OPEN_FORMAT)
    for large, fields in itertools.product((False, True), ({"cut": 0}, {"cut": 10}, {"cut": 34}, {"behind": "00"}, {"behind": "2c64"})):
        yield opened(f"{'that is large, ' if large else ''}with {fields}", {"large": large, **fields}, OPEN_FORMAT)
    yield opened("beside an owner, which is opened and closed too", {}, "2 0 0 1 1 0 0 0", held=[{}])
    triad = struct.pack("<HHI", 998, 0x1337, 0xC0FFEE)
    for words, changed, wanted in ("of no connection", {}, CLOSE_OTHER), ("without a path", {"path": ""}, CLOSE_OTHER), ("cut behind 9 bytes", {"cut": 9}, CLOSE_FORMAT), \
            ("of no byte", {"cut": 0}, CLOSE_FORMAT), ("with a byte behind it", {"behind": "00"}, CLOSE_FORMAT):
        yield row("31.39" if wanted == CLOSE_OTHER else "31.37", f"a close {words}", lambda device, it=changed: device.closed(triad, **it), wanted)
    close = closing(maker, triad)
    yield served("31.39", "a close over class 3", close, CLOSE_OTHER, "class3")
    for route in ROUTES:
        yield served("31.36", f"a packet with a close, over {route}", request(PACKET, path_of(ROUTER, 1), many(close)), NOTHING, route)
        send = b"\x0a\x05" + struct.pack("<H", len(close)) + close + b"\0" * (len(close) % 2) + bytes(2)
        yield served("31.36", f"an Unconnected_Send with a close, over {route}", request(UNCONNECTED_SEND, path_of(MANAGER, 1), send), NOTHING, route, FORWARD_CLOSE)
        for service, class_ in itertools.product(MANAGERS, (IDENTITY, ASSEMBLY)):
            yield served("31.36", f"service {service:02x} at {NAMES[class_]}, over {route}", request(service, path_of(class_, 1)), NOTHING, route)
        for service in GET, GET_ALL, SET, 0x4B:
            yield served("31.36", f"service {service:02x} at the Connection Manager, over {route}", request(service, path_of(MANAGER, 1, 1)), NOTHING, route)
        yield served("31.36", f"a packet that reads two counters, over {route}",
                     request(PACKET, path_of(ROUTER, 1), many(*(request(GET, path_of(MANAGER, 1, it)) for it in (1, 8)))), NOTHING, route)


def read_within(maker):
    """Counters are read by each route: in a list, in a packet, and in an Unconnected_Send."""
    for class_, number, size in (MANAGER, 1, 2), (MANAGER, 8, 2), (LINK, 4, 44), (LINK, 5, 48), (LINK, 6, 4):
        get, name = request(GET, path_of(class_, 1, number)), f"{NAMES[class_]} attribute {number}"
        value = "??" * size
        yield from router("31.30", f"{name} in a packet", PACKET, path_of(ROUTER, 1), f"00 010004008e000000{value}", many(get))
        yield from router("31.27", f"{name} in a list", GET_LIST, path_of(class_, 1), f"00 0100{le(2, number)}0000{value}", struct.pack("<HH", 1, number))
        yield from router("31.28", f"{name} in a list that sets", SET_LIST, path_of(class_, 1), f"0a 0100{le(2, number)}0e00", struct.pack("<HH", 1, number) + bytes(size))
        for route in ROUTES:
            send = b"\x0a\x05" + struct.pack("<H", len(get)) + get + bytes(2)
            yield Question("31.33", f"{name} in an Unconnected_Send, over {route}",
                           lambda device, it=request(UNCONNECTED_SEND, path_of(MANAGER, 1), send), route=route: device.served(it, route, GET), f"00 {value}")


# THE LIST


def questions(maker, resets):
    """All that is asked, in order: resets last, since they end a life."""
    yield from inquiries(maker)
    yield from options()
    yield from sessions()
    yield from unconnected(maker)
    yield from reads(maker)
    yield from everything(maker)
    yield from services(maker)
    yield from lengths(maker)
    yield from paths(maker)
    yield from connected(maker)
    if maker.has_points():
        yield from openings(maker)
        yield from closes()
        yield from meanwhile()
        yield from counts(maker)
    yield from read_within(maker)
    yield from listed(maker)
    yield from packets(maker)
    yield from routed(maker)
    yield from reads_again(maker)
    if resets:
        yield from restarts()


def reads_again(maker):
    """What was refused has changed nothing."""
    for class_, number in (IDENTITY, 5), (IDENTITY, 7), (INTERFACE, 13), (INTERFACE, 5), (LINK, 3):
        value = instances(maker)[(class_, 1)][number]
        yield from router("31.9", f"{NAMES[class_]} attribute {number}, at last", GET, path_of(class_, 1, number), f"00 {value}")
    for point, size in maker.points().items():
        yield from router("31.9", f"Assembly {point}, at last", GET, path_of(ASSEMBLY, point, 3), f"00 {'00' * size}".strip())


def restarts():
    """A reset ends the life: streams end, and a new life begins, whose ids are its own."""
    for type_ in b"", b"\0", b"\1":
        yield Question("31.17", f"a reset with the data {type_.hex() or '-'}", lambda device, it=type_: device.restarted(it), "00, then a new life")
