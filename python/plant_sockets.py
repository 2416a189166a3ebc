"""A member of a plant at the sockets of this host, in real time: peers of the network take the place of other members.

    with Plant() as plant, Sockets(plant.add(Device(ADAPTER))) as sockets:
        sockets.run_until(60_000)

An adapter listens at a TCP port, and takes datagrams at a UDP port of its address. The plant's time is that of the host's clock, so
scripts and planned actions go on as in virtual time. Nothing waits for a peer: a stream whose peer does not read, or sends nothing for
two minutes, ends, and a datagram that the host does not take is lost. `eip_station` is the station for a machine: this is the one
for a desk. It reads no socket address items, so all originators have one UDP port.
"""

from __future__ import annotations

import errno
import ipaddress
import select
import socket
import time
from typing import Callable

from eip import Datagram, Refused
from plant import Member

ENCAPSULATION_PORT, IO_PORT = 44818, 2222
_MOST_DATA, _MOST_UNSENT, _MOST_DATAGRAMS = 2048, 65536, 64
_SILENT_MS = 120_000
_LOOPBACK = ipaddress.IPv4Network("127.0.0.0/8")


_CAUSES = {
    errno.EADDRINUSE: "is in use",
    errno.EADDRNOTAVAIL: "has an address that is not of this host",
    errno.EACCES: "is not allowed",
    errno.EPERM: "is not allowed",
}


class PortRefused(Exception):
    """A port that the host does not give: which one, and why, in the words of a station."""

    def __init__(self, what: str, port: int, address: str, fault: OSError) -> None:
        super().__init__(f"the {what} port {port} of {address} {_CAUSES.get(fault.errno or 0, 'cannot be made')}")
        self.is_other_host = fault.errno == errno.EADDRNOTAVAIL
        """Whether the address is not of this host."""


class _Peer:
    """A stream that a peer has opened."""

    def __init__(self, sockets: Sockets, tcp: socket.socket, number: int) -> None:
        self.sockets, self.tcp, self.number = sockets, tcp, number
        self.ends = (sockets.member,)
        self.received, self.unsent = b"", b""
        self.is_broken = False
        self.last_ms = sockets.passed_ms()

    def fileno(self) -> int:
        """The socket, for a wait."""
        return self.tcp.fileno()

    def send(self, _sender: Member, frame: bytes) -> None:
        """The device sends a frame. A peer that reads too little loses its stream."""
        self.unsent += frame
        self.flush()
        if len(self.unsent) > _MOST_UNSENT:
            self.is_broken = True

    def flush(self) -> None:
        """Sends what the host takes now."""
        try:
            self.unsent = self.unsent[self.tcp.send(self.unsent) :]
        except BlockingIOError:
            return
        except OSError:
            self.is_broken = True

    def messages(self) -> list[bytes]:
        """The messages that have come whole. Behind the end of the stream, or one that is too long, it is broken."""
        try:
            got = self.tcp.recv(65536)
        except BlockingIOError:
            return []
        except OSError:
            got = b""
        self.is_broken = self.is_broken or not got
        self.received += got
        messages: list[bytes] = []
        while len(self.received) >= 4 and not self.is_broken:
            length = int.from_bytes(self.received[2:4], "little")
            self.is_broken = length > _MOST_DATA
            if self.is_broken or len(self.received) < 24 + length:
                break
            messages.append(self.received[: 24 + length])
            self.received = self.received[24 + length :]
        if messages:
            self.last_ms = self.sockets.passed_ms()
        return messages

    def closed_by(self, _member: Member) -> None:
        """The device closed the stream, behind what it sent."""
        self._end()

    def cut(self) -> None:
        """The stream breaks, and the device sees its end."""
        self._end()
        self.sockets.member.lose(self.number)

    def go_on(self) -> None:
        """A cable is back: the host keeps what waits."""

    def _end(self) -> None:
        self.flush()
        self.tcp.close()
        self.sockets.peers.remove(self)
        self.sockets.member.plant.streams.remove(self)


class Sockets:
    """The sockets of a member, which is an adapter. Its clock is that of the host, from the beginning on."""

    def __init__(
        self, member: Member, address: str = "", tcp: int = ENCAPSULATION_PORT, udp: int = IO_PORT, peer_udp: int = IO_PORT
    ) -> None:
        """Makes the sockets, at the member's own address if no other one is named. Raises PortRefused."""
        if member.is_scanner:
            raise ValueError(f"{member} is a scanner, and only an adapter is served")
        if member.plant.outside is not None:
            raise ValueError(f"the plant of {member} has sockets already")
        self.member, self.address, self.peer_udp = member, address or member.node, peer_udp
        self.peers: list[_Peer] = []
        """The streams that are open."""
        self.others: dict[int, Callable[[], None]] = {}
        """What else a turn waits for: files by their descriptors, and what is done once one can be read."""
        self._made: list[socket.socket] = []
        self._began = time.monotonic() - member.plant.now_ms / 1000
        try:
            self._listener = self._bound("TCP", tcp, socket.SOCK_STREAM)
            self._listener.listen(16)
            self._io = self._bound("UDP", udp, socket.SOCK_DGRAM)
            self._inquiries = self._bound("UDP", tcp, socket.SOCK_DGRAM) if tcp != udp else None
        except PortRefused:
            self.close()
            raise
        self._io.setsockopt(socket.IPPROTO_IP, socket.IP_MULTICAST_TTL, 1)
        if self.address != "0.0.0.0":
            self._io.setsockopt(socket.IPPROTO_IP, socket.IP_MULTICAST_IF, socket.inet_aton(self.address))
        member.plant.outside = self._sent

    def _bound(self, what: str, port: int, kind: socket.SocketKind) -> socket.socket:
        """A socket at a port."""
        made = socket.socket(socket.AF_INET, kind)
        self._made.append(made)
        made.setblocking(False)
        if kind == socket.SOCK_STREAM:
            made.setsockopt(socket.SOL_SOCKET, socket.SO_REUSEADDR, 1)
        try:
            made.bind((self.address, port))
        except OSError as fault:
            raise PortRefused(what, port, self.address, fault) from fault
        return made

    def passed_ms(self) -> int:
        """The time of the host, as the plant counts it."""
        return int((time.monotonic() - self._began) * 1000)

    def run_until(self, end_ms: int) -> None:
        """Serves until the plant has this time."""
        while self.member.plant.now_ms < end_ms:
            self.turn(end_ms)

    def turn(self, end_ms: int) -> None:
        """Waits until something arrives or is planned, at the latest until a time, and serves it."""
        plant, now = self.member.plant, time.monotonic() - self._began
        next_ms = end_ms if plant.next_ms is None else min(plant.next_ms, end_ms)
        awaited = [self._listener, self._io, *([self._inquiries] if self._inquiries else []), *self.peers]
        if self.member.is_paused:
            # (the host keeps what arrives)
            awaited, next_ms = [], min(next_ms, self.member.resume_ms)
        # (at most a second: a stream may have been silent for too long)
        longest = min(max(next_ms / 1000 - now, 0), 1)
        ready, writable, _ = select.select([*awaited, *self.others], [it for it in self.peers if it.unsent], [], longest)
        passed_ms = min(self.passed_ms(), end_ms)
        # What has arrived is dated before what is due, so a datagram in time is taken before a tick that would time it out.
        due = plant.next_ms
        plant.run_until(passed_ms if due is None or due > passed_ms else max(due - 1, plant.now_ms))
        if self._io in ready:
            self._datagrams()
        plant.run_until(passed_ms)
        if self._listener in ready:
            self._accept()
        if self._inquiries in ready:
            self._inquire()
        for peer in list(self.peers):
            self._serve(peer, peer in ready, peer in writable)
        for file, action in list(self.others.items()):
            if file in ready:
                action()

    def _datagrams(self) -> None:
        """The device takes the datagrams that wait."""
        for _ in range(_MOST_DATAGRAMS):
            try:
                data, (node, _port) = self._io.recvfrom(65536)
            except OSError:
                return
            self.member.datagram(node, data)

    def _inquire(self) -> None:
        """A tool looks for devices. A device without a description answers nothing."""
        assert self._inquiries is not None
        try:
            data, sender = self._inquiries.recvfrom(65536)
            for reply in self.member.inquire(sender[0], data).replies:
                self._inquiries.sendto(reply.data, sender)
        except (Refused, OSError):
            return

    def _accept(self) -> None:
        """A peer opens a stream. One too many is closed without reading it."""
        try:
            tcp, (node, _port) = self._listener.accept()
        except OSError:
            return
        tcp.setblocking(False)
        tcp.setsockopt(socket.IPPROTO_TCP, socket.TCP_NODELAY, 1)
        peer = _Peer(self, tcp, self.member.free_number())
        self.peers.append(peer)
        self.member.plant.streams.append(peer)
        try:
            self.member.accept(peer.number, peer, node)
        except Refused:
            peer.closed_by(self.member)

    def _serve(self, peer: _Peer, is_ready: bool, is_writable: bool) -> None:
        """What a stream brings, and what waits in it."""
        if is_writable:
            peer.flush()
        for message in peer.messages() if is_ready else []:
            if peer in self.peers:
                self.member.take(peer.number, message)
        silent_ms = self.passed_ms() - peer.last_ms
        if peer in self.peers and (peer.is_broken or silent_ms >= _SILENT_MS):
            peer.cut()

    def _sent(self, _member: Member, datagram: Datagram) -> None:
        """The device sends a datagram: to the group, or a copy to each node where there are no groups."""
        to_group = ipaddress.IPv4Address(datagram.address).is_multicast
        if to_group and ipaddress.IPv4Address(self.member.node) in _LOOPBACK:
            to = [(node, self.peer_udp) for node in datagram.nodes]
        else:
            to = [(datagram.address, IO_PORT if to_group else self.peer_udp)]
        for place in to:
            try:
                self._io.sendto(datagram.data, place)
            except OSError:
                pass  # it is lost

    def close(self) -> None:
        """Closes the sockets. What the device sends then is lost."""
        if self.member.plant.outside == self._sent:
            self.member.plant.outside = None
        for made in [*self._made, *(peer.tcp for peer in self.peers)]:
            made.close()

    def __enter__(self) -> Sockets:
        return self

    def __exit__(self, *_fault: object) -> None:
        self.close()

