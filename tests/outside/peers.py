#!/usr/bin/env python3
"""Replies over CAN, with peers that others wrote: Scapy's ISO-TP implementation and Wireshark's dissectors.

    peers.py scapy COMMAND...     messages of several lengths, with several block sizes, in both directions
    peers.py tshark COMMAND...    a capture of a diagnostic request and its segmented reply

COMMAND runs the C program can.c, which makes the calls behind the C door. Undisturbed lines only: where a
frame is wrong, a house rule may be stricter than either peer.
"""
import struct
import subprocess
import sys
import tempfile

LENGTHS = list(range(1, 140)) + [500, 1791, 1792, 4094, 4095]
BLOCKS = [0, 1, 2, 3, 8, 255]
IDLE_SENDER = "0 0 0"
IDLE_RECEIVER = "0 0 0 0"


class Ours:
    """A sender and a receiver behind the C door."""

    def __init__(self, command):
        self.program = subprocess.Popen(command + ["steps"], stdin=subprocess.PIPE, stdout=subprocess.PIPE, text=True)

    def ask(self, line):
        self.program.stdin.write(line + "\n")
        self.program.stdin.flush()
        return self.program.stdout.readline().split()

    def start(self, message):
        number, frame, *sender = self.ask("start " + message.hex())
        assert number == "0", "a start was refused"
        self.sender, self.message = " ".join(sender), message
        return bytes.fromhex(frame)

    def flow(self, frame):
        """Answers whether frames are due, and the separation time."""
        number, says, separation, *sender = self.ask(f"flow {self.sender} {frame.hex()}")
        assert number == "0", "flow control was refused"
        self.sender = " ".join(sender)
        return says == "1", int(separation)

    def next(self):
        """The next frame, None where none is due."""
        due, frame, *sender = self.ask(f"next {self.sender} {self.message.hex()}")
        self.sender = " ".join(sender)
        return bytes.fromhex(frame) if due == "1" else None

    def listen(self, room, block, separation):
        self.receiver, self.room = IDLE_RECEIVER, bytes(room)
        self.block, self.separation = block, separation

    def take(self, frame):
        """The flow control to send, or the message; else None."""
        line = f"take {self.receiver} {self.block} {self.separation} {frame.hex()} {self.room.hex()}"
        number, says, control, length, *receiver, room = self.ask(line)
        assert number == "0", "a frame was refused"
        self.receiver, self.room = " ".join(receiver), bytes.fromhex(room)
        if says == "3":
            return self.room[:int(length)]
        return bytes.fromhex(control) if says == "2" else None


def some_message(length):
    return bytes((i * 37 + i // 256 + length) % 256 for i in range(length))


# ---- Scapy

class NoTimer:
    """What Scapy schedules is kept, and runs when we say so."""

    waiting = []

    @classmethod
    def schedule(cls, _, callback):
        cls.waiting.append(callback)
        return cls()

    def cancel(self):
        pass

    @staticmethod
    def _time():
        return 0.0


class Wire:
    """Scapy's socket: what it sends is kept."""

    closed = False

    def __init__(self):
        self.sent = []

    def send(self, packet):
        self.sent.append(bytes(packet.data))


def scapy_peer(module, block, separation):
    NoTimer.waiting = []
    wire = Wire()
    peer = module.ISOTPSocketImplementation(wire, 0x7E8, 0x7E0, padding=True, bs=block, stmin=separation)
    NoTimer.waiting = []
    return peer, wire


def give(module, peer, frame):
    peer.on_recv(module.CAN(identifier=0x7E0, data=frame))


def to_scapy(module, ours, message, block):
    """Our sender, Scapy's receiver; Scapy's flow control goes to our sender."""
    separation = len(message) % 128
    peer, wire = scapy_peer(module, block, separation)
    frame = ours.start(message)
    while frame is not None:
        give(module, peer, frame)
        for control in wire.sent:
            assert ours.flow(control) == (True, separation), "Scapy's flow control does not let our sender go on"
        wire.sent = []
        frame = ours.next()
    assert not peer.rx_queue.empty(), "Scapy put nothing together"
    got, _ = peer.rx_queue.recv()
    assert bytes(got) == message, "Scapy put together something else"
    assert ours.sender == IDLE_SENDER and peer.rx_state == module.ISOTP_IDLE


def from_scapy(module, ours, message, block):
    """Scapy's sender, our receiver; our flow control goes to Scapy's sender."""
    peer, wire = scapy_peer(module, 0, 0)
    ours.listen(len(message), block, 0)
    peer.begin_send(message)
    got = None
    while wire.sent:
        frame = wire.sent.pop(0)
        got = ours.take(frame)
        if got is not None and not wire.sent and ours.receiver != IDLE_RECEIVER:
            NoTimer.waiting = []
            give(module, peer, got)
            for callback in list(NoTimer.waiting):
                callback()
    assert got == message, "our receiver put together something else"
    assert ours.receiver == IDLE_RECEIVER and peer.tx_state == module.ISOTP_IDLE


def scapy(command):
    try:
        import scapy as present
    except ImportError:
        print("CAN: Scapy's ISO-TP was not tried: this machine lacks Debian's python3-scapy")
        return
    del present
    from scapy.contrib.isotp import isotp_soft_socket as module
    from scapy.layers.can import CAN
    module.CAN = CAN
    module.TimeoutScheduler = NoTimer
    ours = Ours(command)
    messages = 0
    for block in BLOCKS:
        for length in LENGTHS:
            to_scapy(module, ours, some_message(length), block)
            from_scapy(module, ours, some_message(length), block)
            messages += 2
    print(f"CAN: Scapy's ISO-TP: {messages} messages, lengths 1 to 139, 500, 1,791, 1,792, 4,094, 4,095,"
          f" block sizes 0, 1, 2, 3, 8, 255, in both directions: all came through")


# ---- Wireshark

REQUEST, REPLY = 0x7E0, 0x7E8


def request_and_reply(ours):
    """The frames of a request for all supported codes, and of a reply with three of them, each with its identifier."""
    request = bytes.fromhex("190a")
    reply = bytes.fromhex("590aff" + "12345608" + "13579a2f" + "2468ac50")
    frames = [(REQUEST, ours.start(request))]
    frames.append((REPLY, ours.start(reply)))
    ours.listen(64, 1, 10)
    got = None
    while got != reply:
        got = ours.take(frames[-1][1])
        if got == reply:
            break
        if got is not None:
            frames.append((REQUEST, got))
            ours.flow(got)
        frames.append((REPLY, ours.next()))
    return frames, reply


def capture(frames):
    """As a SocketCAN capture, link type 227."""
    yield struct.pack("<IHHiIII", 0xA1B2C3D4, 2, 4, 0, 0, 65535, 227)
    for at, (identifier, data) in enumerate(frames):
        packet = struct.pack(">IBBBB", identifier, len(data), 0, 0, 0) + data
        yield struct.pack("<IIII", at, 0, len(packet), len(packet)) + packet


def shown(frames):
    """What tshark makes of each frame; None where there is no tshark."""
    words = ["-d", "can.subdissector,iso15765", "-d", "iso15765.subdissector,uds", "-T", "fields"]
    for field in ["_ws.col.Protocol", "iso15765.flow_control.bs", "iso15765.flow_control.stmin", "uds.sid", "uds.reply",
                  "uds.rdtci.type", "uds.rdtci.record"]:
        words += ["-e", field]
    with tempfile.NamedTemporaryFile(suffix=".pcap") as file:
        file.write(b"".join(capture(frames)))
        file.flush()
        try:
            done = subprocess.run(["tshark", "-r", file.name] + words, capture_output=True, text=True, check=True)
        except FileNotFoundError:
            return None
    return [line.split("\t") for line in done.stdout.splitlines()]


def tshark(command):
    frames, reply = request_and_reply(Ours(command))
    rows = shown(frames)
    if rows is None:
        print("CAN: Wireshark was not tried: this machine lacks Debian's tshark")
        return
    kinds = [row[0] for row in rows]
    assert kinds == ["UDS"] + ["ISO15765"] * (len(frames) - 2) + ["UDS"], f"the frames are shown as {kinds}"
    controls = [row[1:3] for row, (identifier, _) in zip(rows[1:], frames[1:]) if identifier == REQUEST]
    assert controls == [["0x01", "10"]] * 2, f"flow control is shown as {controls}"
    asked, answered = rows[0][3:6], rows[-1][3:]
    assert [asked[0], asked[2]] == ["0x19", "0x0a"], f"the request is shown as {asked}"
    assert [answered[0], answered[2]] == ["0x19", "0x0a"], f"the reply is shown as {answered}"
    assert [asked[1], answered[1]] in (["0x00", "0x01"], ["0", "1"], ["False", "True"]), "which one is the reply?"
    assert answered[3] == reply[2:].hex(), f"the record is shown as {answered[3]}"
    print(f"CAN: Wireshark shows a request and its reply in {len(frames)} frames as ISO 15765 and UDS, with its record")


if __name__ == "__main__":
    {"scapy": scapy, "tshark": tshark}[sys.argv[1]](sys.argv[2:])
