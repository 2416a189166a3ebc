"""tools/peers/small_adapter.py in virtual time: somebody else's device in a plant of python/plant.py, with no socket and no clock."""

import argparse
import types

import small_adapter
from eip import Answer, Datagram, Delivery, Frame, Verdict
from point_names import Names


class VirtualAdapter:
    """An adapter at an address, which has what a plant needs of a device. With `keep_output` it has a bug on purpose."""

    def __init__(self, node, keep_output=False):
        self.node, self.now_ms, self.life, self.is_closed, self.is_scanner, self.names = node, 0, 1, False, False, Names()
        args = argparse.Namespace(output=150, out_len=4, input=100, in_len=4, peer_udp=2222, echo=True, keep_output=keep_output)
        self.adapter = adapter = small_adapter.Adapter.__new__(small_adapter.Adapter)
        adapter.args, adapter.connection, adapter.next_id, adapter.sessions = args, None, 0x40000001, 0
        adapter.output = bytes(args.out_len)
        adapter.received = adapter.sent = adapter.opened = adapter.closed = 0
        self.streams, self.items = {}, []
        sent = lambda data, to: self.items.append(Datagram(to[0], (to[0],), data))
        adapter.udp = types.SimpleNamespace(sendto=sent)
        # (the adapter asks this clock, and no other)
        small_adapter.time = types.SimpleNamespace(monotonic=lambda: self.now_ms / 1000)

    def answer(self):
        """What was sent since the last answer."""
        frames = [it for it in self.items if isinstance(it, Frame)]
        others = [it for it in self.items if not isinstance(it, Frame)]
        self.items = []
        return Answer(Verdict.DONE, (*frames, *others))

    def stream(self, number, peer):
        put = lambda data: self.items.append(Frame(number, data))
        self.streams[number] = small_adapter.Stream(types.SimpleNamespace(sendall=put), peer)
        return self.answer()

    def frame(self, number, data):
        self.adapter.answer(self.streams[number], data)
        return self.answer()

    def cut(self, number):
        del self.streams[number]
        return self.answer()

    def datagram(self, peer, data):
        self.adapter.receive(data, peer)
        return Delivery.APPLIED

    def tick(self, ms):
        self.now_ms += ms
        self.adapter.produce()
        return self.answer()

    def next_wake(self):
        return 1

    def close(self):
        pass
