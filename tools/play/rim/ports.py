"""Several originators on one address: the UDP port that a request to open a connection names, and where datagrams go."""

import contextlib, select, socket, struct, time
from rim.faults import settles
from rim.host import PRESENT, Station, need, sure, until
from rim.peers import INPUT_ONLY, MULTICAST, POINT_TO_POINT, Originator

TWO = "adapter 16 {adapter} 255.255.255.0 1 12 7 2 3\noutput 150 4 zero zero\noutput 151 4 zero zero\ninput 100 4\ninput 101 4\nheartbeat 152 153\n"
FIRST = "scanner 32 {owner} 1 101 1000 1000\nslot {adapter} exclusive - 150 100 4 4 10000 10000 2 p2p - -\n"
SECOND = "scanner 48 {owner} 1 102 1000 1000\nslot {adapter} exclusive - 151 101 4 4 10000 10000 2 p2p - -\n"
INPUTS = {"100": "a1a2a3a4", "101": "b1b2b3b4"}
OUTPUTS = {"150": "11121314", "151": "21222324"}
NAMED = 2240  # the port that a peer's item names
TIMED_OUT = 4  # the standard's number of a connection that timed out


def images(scanner):
    """The values that the image of slot 0 took, in their order, behind the one with which it began."""
    return [line.split()[-1] for line in scanner.lines() if " image 0 " in line][1:]


def begin(bench, name, *options):
    """An adapter of two inputs and two outputs, and two scanners on one address."""
    for profile, text in ("two", TWO), ("first", FIRST), ("second", SECOND):
        bench.write(f"{profile}.profile", text)
    adapter = bench.adapter(*options, profile="two", log=f"{name}_two")
    adapter.call(*(f"write {point} {value}" for point, value in INPUTS.items()))
    first = bench.scanner("owner", "--incarnation", "32", *options, profile="first", log=f"{name}_first")
    second = bench.scanner("owner", "--incarnation", "48", "--udp", "2231", *options, profile="second", log=f"{name}_second")
    for scanner, value in zip((first, second), OUTPUTS.values()):
        scanner.call(f"write 0 {value}")
    return adapter, first, second


def run_item_ports(bench):
    """Two scanners on one address; a peer whose item names another address; records that settle."""
    adapter, first, second = begin(bench, "unnamed", "--port-2222")
    until(lambda: images(first) == [INPUTS["100"]], "--port-2222: the scanner at port 2222 gets its input")
    until(lambda: TIMED_OUT in second.states(), "and the slot of the other one on its address times out")
    need(images(second) == [], f"it gets no input: {images(second)}")
    bench.clear()
    adapter, first, second = begin(bench, "named")
    for scanner, value, where in (first, INPUTS["100"], "at port 2222"), (second, INPUTS["101"], "at port 2231"):
        until(lambda: images(scanner) == [value], f"the scanner {where} gets its own input")
    for point, value in OUTPUTS.items():
        until(lambda: any(line.endswith(f" output {point} {value}") for line in adapter.lines()), f"output {point} has its own owner's value")
    time.sleep(1)
    sure(first.states()[-1:] == [PRESENT] == second.states()[-1:], "both stay established")
    need(images(first) == [INPUTS["100"]] and images(second) == [INPUTS["101"]], "and neither has the other's input")
    for station in first, second, adapter:
        need(station.end() == 0, f"the station {station.name} ends with status 0")
    bench.clear()
    run_named_addresses(bench)
    run_settled_ports(bench)


def item(address, port):
    """A T->O socket address item (Volume 2, chapter 2)."""
    return struct.pack("<HH", 0x8001, 16) + struct.pack(">HH4s8x", 2, port, socket.inet_aton(address))


def heard(sockets, seconds=0.3):
    """The names of the sockets to which a datagram comes within this time, what waits in them set aside."""
    for udp in sockets.values():
        while select.select([udp], [], [], 0)[0]:
            udp.recv(65536)
    end, names = time.monotonic() + seconds, set()
    while (left := end - time.monotonic()) > 0:
        for udp in select.select(list(sockets.values()), [], [], left)[0]:
            udp.recv(65536)
            names |= {name for name, other in sockets.items() if other is udp}
    return names


def run_named_addresses(bench):
    """The port of an item counts and its address does not, for the connection that it was named for, as long as that is."""
    own, third = bench.address["peer"], bench.network.extra[0]
    station = bench.adapter(log="named_addresses")
    with bench.network.inside("peer"), contextlib.ExitStack() as opened:
        sockets = {}
        for name, at in ("usual", (own, 2222)), ("named", (own, NAMED)), ("third", (third, NAMED)), ("third, usual", (third, 2222)):
            sockets[name] = opened.enter_context(socket.socket(socket.AF_INET, socket.SOCK_DGRAM))
            sockets[name].bind(at)
        peer = Originator(bench)
        peer.session.addresses = [item(third, NAMED)]
        connection = peer.open(INPUT_ONLY, POINT_TO_POINT)
        sure(heard(sockets) == {"named"}, f"an item of {third}:{NAMED}: datagrams go to {own}:{NAMED}, and to no third address")
        peer.session.addresses = []
        other = peer.open(INPUT_ONLY, POINT_TO_POINT)
        sure(heard(sockets) == {"named", "usual"}, "those of a connection without an item go to port 2222")
        other.close()
        connection.close()
        again = peer.open(INPUT_ONLY, POINT_TO_POINT)
        sure(heard(sockets) == {"usual"}, "a close ends what was named")
        again.close()
        for what, addresses in ("port 0", [item(third, 0)]), ("a multicast connection", [item(third, NAMED)]):
            peer.session.addresses = addresses
            cast = MULTICAST if "multicast" in what else POINT_TO_POINT
            with contextlib.closing(peer.open(INPUT_ONLY, cast)):
                sure(heard(sockets) == {"usual"}, f"an item of {what} is not used")
    need(station.end() == 0, "it ends with status 0")
    bench.clear()


def run_settled_ports(bench):
    """The record of a device has no item that its port adds or takes off, so the records settle."""
    bench.write("first.profile", FIRST)
    # (nobody asks whether it listens: that would be a stream of a device without a record)
    adapter = Station(bench, "adapter", "adapter", bench.file("two.profile"), "--record", bench.file("ports_adapter.trace"), log="ports_adapter")
    until(lambda: any(" adapter " in line for line in adapter.said()), "the adapter says that it serves")
    adapter.call(f"write 100 {INPUTS['100']}")
    owner = bench.scanner("owner", "--item-ports", "--udp", "2231", "--record", bench.file("ports_owner.trace"), profile="first", log="ports_owner")
    until(lambda: images(owner) == [INPUTS["100"]], "a scanner at port 2231 gets its input")
    need(owner.end() == 0 and adapter.end() == 0, "both end with status 0")
    status, said = settles(bench, "ports_adapter", "ports_owner")
    sure(status == 0, f"the records settle, since no device sees the item: {said}")
    bench.clear()
