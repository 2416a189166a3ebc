#!/usr/bin/env python3
"""A controller and a field device at examples/gateway.c, written from the standard alone: they share no code with the crates.

    tools/peers/gateway_peers.py PROGRAM TCP UDP

PROGRAM is the built gateway. It runs at 127.0.0.10, the controller at 127.0.0.20 (tools/peers/originator.py), the field device at
127.0.0.30 (tools/peers/small_adapter.py, in a process of its own). The field device shows its output at its input and is killed;
the controller runs, is idle and falls silent. Prints a line for each thing that holds, and ends with status 1 at the first
that does not. What comes too late begins anew, with a gateway of its own, twice at most: a machine that does much else is late now and
then, and a gateway that is wrong is late each time.
"""
import os, select, signal, socket, subprocess, sys, time

sys.path.insert(0, os.path.dirname(os.path.realpath(__file__)))
sys.dont_write_bytecode = True  # so that nothing is left behind
import originator
import small_adapter

GATEWAY, CONTROLLER, FIELD = "127.0.0.10", "127.0.0.20", "127.0.0.30"
RPI, TIME_OUT = 0.010, 0.160  # of both connections: 16 packet intervals of 10 ms
PATIENCE = 20.0
MUTE = 0.5  # from the first datagram that a field device receives to the first that it sends
LATE = 0.5  # what a machine that does much else may add to a time-out
TRIES = 3


class Late(originator.Difference):
    """What is expected may have come too late."""


class Recorded(small_adapter.Adapter):
    """A field device that writes each mode of its owner to a pipe: 1 if it runs, 0 if it is idle. It sends nothing for a while."""

    pipe = mode = begin = None

    def produce(self):
        if self.begin and time.monotonic() > self.begin + MUTE:
            super().produce()

    def receive(self, packet, peer):
        super().receive(packet, peer)
        self.begin = self.begin or time.monotonic()
        if packet[20] & 1 != self.mode:
            self.mode = packet[20] & 1
            os.write(self.pipe, b"%d" % self.mode)


class FieldDevice:
    """A process with a field device."""

    def __init__(self, tcp, udp):
        self.pipe, there = os.pipe()
        self.mode = None
        self.pid = os.fork()
        if self.pid == 0:
            self.serve(there, ["--own", FIELD, "--tcp", str(tcp), "--udp", str(udp), "--peer-udp", str(udp), "--echo"])
        os.close(there)

    def serve(self, pipe, words):
        try:
            device = Recorded(small_adapter.arguments(words))
            device.pipe = pipe
            while os.getppid() != 1:
                device.turn()
        except BaseException as fault:
            print(f"the field device: {type(fault).__name__}: {fault}", flush=True)
        os._exit(1)

    def last_mode(self):
        while select.select([self.pipe], [], [], 0)[0]:
            got = os.read(self.pipe, 64)
            if not got:
                break
            self.mode = int(got[-1:])
        return self.mode

    def kill(self):
        os.kill(self.pid, signal.SIGKILL)
        os.waitpid(self.pid, 0)


class Controller:
    """An exclusive owner of the gateway's output, which consumes its input of 5 bytes."""

    def __init__(self, tcp, udp):
        words = [GATEWAY, "--own", CONTROLLER, "--tcp", str(tcp), "--udp", str(udp), "--target-udp", str(udp), "--in-len", "5",
                 "--config", "151"]
        args = originator.arguments(words)
        self.udp = socket.socket(socket.AF_INET, socket.SOCK_DGRAM)
        self.udp.bind((CONTROLLER, udp))
        self.session = session_with(args)
        self.connection = originator.Connection(args, self.session, originator.EXCLUSIVE, originator.POINT_TO_POINT).establish()
        self.connection.data, self.data, self.run = None, bytes(4), 0

    def until(self, test, feeds=True, seconds=PATIENCE):
        """Exchanges data until the test holds: the seconds that this took."""
        begin, due = time.monotonic(), 0.0
        while not test():
            if time.monotonic() - begin > seconds:
                raise Late(f"not within {seconds} s; the input is {self.input()}")
            if feeds and time.monotonic() >= due:
                due = time.monotonic() + RPI
                self.connection.produce(self.udp, self.data, self.run)
            if select.select([self.udp], [], [], 0.001)[0]:
                self.connection.receive(self.udp.recv(65535))
        return time.monotonic() - begin

    def input(self):
        return self.connection.data and self.connection.data.hex()


def session_with(args):
    """A session with the gateway, which may not listen yet."""
    end = time.monotonic() + PATIENCE
    while True:
        try:
            return originator.Session(args)
        except ConnectionRefusedError:
            if time.monotonic() > end:
                raise
            time.sleep(0.02)


def holds(text):
    print(text, flush=True)


def story(tcp, udp, devices):
    controller = Controller(tcp, udp)
    controller.until(lambda: controller.input() == "0000000000")
    holds("without a field device the controller's input says so")
    devices.append(FieldDevice(tcp, udp))
    controller.until(lambda: devices[-1].last_mode() == 0)
    soon = time.monotonic() + MUTE / 2
    controller.until(lambda: time.monotonic() > soon)
    originator.expect("the input before the field device's first data", controller.input(), "0000000000")
    controller.until(lambda: controller.input() == "0100000000")
    holds("the field device is there, and idle as the controller")
    exchange(controller, devices[-1])
    devices[-1].kill()
    took = controller.until(lambda: controller.input() == "0011223344", seconds=TIME_OUT + LATE)
    holds(f"the field device is killed: after {1000 * took:.0f} ms the controller's input says so, and keeps its last data")
    devices[-1] = FieldDevice(tcp, udp)
    controller.until(lambda: controller.input() == "0111223344" and devices[-1].last_mode() == 1)
    holds("the field device is there again, and runs with the controller's data")
    os.kill(devices[-1].pid, signal.SIGSTOP)
    controller.until(lambda: controller.input() == "0011223344", seconds=TIME_OUT + LATE)
    os.kill(devices[-1].pid, signal.SIGCONT)
    controller.until(lambda: controller.input() == "0111223344")
    holds("the same where it is stopped and goes on, and its stream remains")
    took = controller.until(lambda: devices[-1].last_mode() == 0, feeds=False, seconds=TIME_OUT + LATE)
    holds(f"the controller is silent: after {1000 * took:.0f} ms the field device is idle")


def exchange(controller, device):
    """The controller runs, is idle, and runs again."""
    controller.data, controller.run = bytes.fromhex("11223344"), 1
    for run, wanted in (1, "0111223344"), (0, "0100000000"), (1, "0111223344"):
        controller.run = run
        controller.until(lambda: controller.input() == wanted and device.last_mode() == run)
    holds("the field device runs, is idle and runs as the controller, and the data go both ways")


def main():
    program, tcp, udp = sys.argv[1], int(sys.argv[2]), int(sys.argv[3])
    for left in reversed(range(TRIES)):
        try:
            return played(program, tcp, udp)
        except Late as late:
            if not left:
                sys.exit(f"gateway_peers: {late}")
            holds(f"(again: {late})")


def played(program, tcp, udp):
    """Plays the story with a gateway of its own."""
    devices = []
    gateway = subprocess.Popen([program, GATEWAY, FIELD, "16", str(tcp), str(udp)])
    try:
        story(tcp, udp, devices)
        if gateway.poll() is not None:
            raise originator.Difference(f"the gateway ended with status {gateway.returncode}")
    except Late:
        raise
    except (originator.Difference, OSError, KeyError, ValueError) as error:
        sys.exit(f"gateway_peers: {type(error).__name__}: {error}")
    finally:
        gateway.kill()
        gateway.wait()
        for device in devices:
            device.kill()


if __name__ == "__main__":
    main()
