"""Multicast groups as hosts of a network have them: what a station sends to a group, and how a scanner's host receives it."""

import argparse, contextlib, re, socket
from rim.host import Bench, group_of, holds, need, run, sure, until, wait
from rim.peers import INPUT_ONLY, MULTICAST, Originator
from rim.words import arrives

SLOT = "scanner {incarnation} {owner} 1 {number} 1000 1000\nslot {adapter} input - 152 100 0 4 10000 10000 2 multicast - -\n"
HINT = re.compile(r"eip_station: slot 0: no multicast datagram of \S+ came to (\S+): this host does not receive that group: (ip address add \S+ dev )INTERFACE( autojoin)")
PEER_PORT = 2230
TRIED_S = 8  # seconds: a port is tried again every 5 s, and a slot whose data never come opens again after 10 s


def run_groups(bench):
    """By default a station does as its replies say, and the printed hint makes a scanner's host receive its group."""
    args = argparse.Namespace(**{**vars(bench.args), "loopback": False, "keep": None})
    hosts = Bench(args)
    hosts.priority = bench.priority
    try:
        if not hosts.network.own:
            holds("(no groups: they take network namespaces)")
            return
        run_sent(hosts)
        run_hint(hosts)
        run_each_address(hosts)
    finally:
        hosts.remove()


def run_sent(hosts):
    """Datagrams go once to the group and the port that the reply names; as copies with --unicast-copies."""
    peer, adapter = hosts.address["peer"], hosts.address["adapter"]
    for options in [], ["--peer-udp", str(PEER_PORT)], ["--unicast-copies"]:
        station = hosts.adapter(*options, groups=True, log="to_groups")
        with hosts.network.inside("peer"), contextlib.ExitStack() as opened:
            usual, group = [opened.enter_context(socket.socket(socket.AF_INET, socket.SOCK_DGRAM)) for _ in range(2)]
            usual.bind((peer, 2222))
            connection = Originator(hosts).open(INPUT_ONLY, MULTICAST)
            group.bind((connection.group, 2222))
            group.setsockopt(socket.IPPROTO_IP, socket.IP_ADD_MEMBERSHIP, socket.inet_aton(connection.group) + socket.inet_aton(peer))
            of_group, other = (usual, group) if options == ["--unicast-copies"] else (group, usual)
            need(arrives(of_group, adapter) and not arrives(other, adapter, 0.3), f"{options}: where the datagrams go")
            need(station.end() == 0, "it ends with status 0")
        hosts.clear()
    sure(True, "a station sends a datagram of a multicast connection to its group at port 2222, with --unicast-copies to its consumer")


def run_hint(hosts):
    """The hint is followed word for word, for two scanners on one address of one host."""
    adapter = hosts.adapter(groups=True, log="hinted")
    first = hosts.scanner("owner", profile=profile_of(hosts, "first_reader", 48, 102), log="first_reader")
    second = hosts.scanner("owner", "--udp", "2231", profile=profile_of(hosts, "second_reader", 64, 103), log="second_reader")
    for scanner in first, second:
        until(lambda: hint_of(scanner), "a scanner whose host has not joined a group says what to do", 30)
    group, words = hint_of(first)
    need(hint_of(second) == (group, words), f"both say so: {second.said()}")
    done = run(*hosts.network.at("owner"), *words.replace("INTERFACE", "eth0").split())
    need(done.returncode == 0, f"{words}: {done.stderr.decode()}")
    adapter.call("write 100 0badcafe")
    for scanner in first, second:
        until(lambda: image_of(scanner) == "0badcafe", f"{words}: it receives the datagrams of the group {group}", 30)
        wait(scanner.is_established, "and stays established")
    need(not any("cannot be" in line for scanner in (first, second) for line in scanner.said()), f"nothing fails: {first.said()}")
    closed_with_their_slots(hosts, group, first, second)
    for station in first, second, adapter:
        need(station.end() == 0, f"the station {station.name} ends with status 0")
    hosts.clear()


def run_bound_groups(bench):
    """A group whose UDP port another program has alone: a scanner says so, and receives once the port can be had. Its socket goes with its
    slot. (Here the test joins the group, at its host.)"""
    group, own, value = group_of(int(bench.address["adapter"].split(".")[-1])), bench.address["owner"], "0badcafe"
    said = f"eip_station: no datagram of the group {group} can be received: its UDP port 2222 cannot be had, as where another program has it alone; " \
           "it is tried again every 5 s"
    with bench.network.inside("owner"), contextlib.ExitStack() as opened:
        alone, member = [opened.enter_context(socket.socket(socket.AF_INET, socket.SOCK_DGRAM)) for _ in range(2)]
        alone.bind((group, 2222))
        member.setsockopt(socket.IPPROTO_IP, socket.IP_ADD_MEMBERSHIP, socket.inet_aton(group) + socket.inet_aton(own))
        adapter = bench.adapter("--multicast", groups=True, log="bound_adapter")
        adapter.call(f"write 100 {value}")
        scanner = bench.scanner("owner", "--multicast", groups=True, log="bound")
        until(lambda: said in scanner.said(), "a scanner says that another program has the UDP port of its group alone")
        alone.close()
        until(lambda: image_of(scanner) == value, f"it receives the datagrams of its group within {TRIED_S} s of the port being free", TRIED_S)
        need(scanner.said().count(said) == 1, f"it says so once: {scanner.said()}")
        bound = bound_sockets(bench, group)
        scanner.call("stop 0")
        wait(lambda: bound_sockets(bench, group) == bound - 1, "a group is let go when no slot has it")
        scanner.call("start 0")
        wait(lambda: bound_sockets(bench, group) == bound and scanner.is_established(), "a group is bound again when its slot opens again", 30)
        sure(bound == 1, "a scanner has a socket of a group as long as a slot of it has the group")
        need(scanner.end() == 0 == adapter.end(), "both end with status 0")
    bench.clear()


def bound_sockets(hosts, group):
    """How many sockets of the scanner's host are bound to a group."""
    told = run(*hosts.network.at("owner"), "cat", "/proc/net/udp").stdout.decode()
    raw = "".join(f"{int(byte):02X}" for byte in reversed(group.split(".")))
    return sum(f" {raw}:08AE " in line for line in told.splitlines())


def closed_with_their_slots(hosts, group, first, second):
    """A group is bound while a slot has it. Of two scanners one stops its slot, and then the other."""
    bound = lambda: bound_sockets(hosts, group)
    need(bound() == 2, f"both have a socket of the group: {bound()}")
    first.call("stop 0")
    wait(lambda: bound() == 1, "a group is let go when no slot has it")
    second.call("stop 0")
    wait(lambda: bound() == 0, "a group is let go when no slot has it")
    first.call("start 0")
    wait(lambda: bound() == 1 and first.is_established(), "a group is bound again when its slot opens again", 30)
    sure(True, "a scanner has a socket of a group as long as a slot of it has the group")


def run_each_address(hosts):
    """A scanner at 0.0.0.0 receives a group without a socket of its own, at a UDP port of its own by one."""
    adapter = hosts.adapter(groups=True, log="each_address")
    run(*hosts.network.at("reader"), "ip", "address", "add", "239.192.1.0/32", "dev", "eth0", "autojoin")
    for options in [], ["--udp", "2231"]:
        adapter.call(f"write 100 a{len(options)}000000")
        scanner = hosts.scanner("reader", "--address", "0.0.0.0", *options, log="reader_anywhere")
        until(lambda: image_of(scanner) == f"a{len(options)}000000", f"a scanner at 0.0.0.0 {' '.join(options)} receives a group that its host has joined", 30)
        need(scanner.end() == 0, "it ends with status 0")
    need(adapter.end() == 0, "the adapter ends with status 0")
    hosts.clear()


def profile_of(hosts, name, incarnation, number):
    hosts.write_exactly(f"{name}.profile", SLOT.format(incarnation=incarnation, number=number, **hosts.address))
    return name


def hint_of(scanner):
    """The group of a scanner's hint, and the command."""
    for line in scanner.said():
        if found := HINT.fullmatch(line):
            return found[1], f"{found[2]}INTERFACE{found[3]}"
    return None


def image_of(scanner):
    return ([line.split()[-1] for line in scanner.lines() if " image 0 " in line] or [None])[-1]
