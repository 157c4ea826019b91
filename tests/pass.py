"""The program `pass` computed from documents 01 and 02 by code of its own: the same messages are offered, the blocks made (document01.py), torn and read,
and what that gives is compared with crates/pass/stdout, to which the program is held. With the word --write it writes that file. Then the sums
are compared with what was sent: which frames came whole follows from where the bits were torn, and from that the losses and the messages
handed over (demand 3). Nothing of the proved crates is used here.
"""
import pathlib
import sys

sys.dont_write_bytecode = True
from document01 import FLAG, Sender, bits_of, fcs

HELD = pathlib.Path(__file__).resolve().parent.parent / "crates" / "pass" / "stdout"
SENDERS = [(0x10, 0, 0), (0x02, 1, 0x07), (0x7E, 0, 0), (0x33, 0, 0)]
RECEIVERS = [(0x7E, 0, 0), (0x33, 0, 0), (0x10, 0, 0), (0x02, 1, 0x07)]
PRIORITY, REPETITION = [1, 1, 3, 0], [0, 1, 2, 0]
LENGTHS = [[1, 16, 200, 40, 40, 15], [1, 0, 15, 16, 40, 40], [15, 15, 16, 1, 0, 40], [16, 15, 0, 1, 40, 40]]
# The system packets by block: the first bars priority 3 in blocks 4 to 8.
SYSTEM = {4: (7, 1, b"eclipse"), 9: (15, 2, b"sunlit")}
BLOCKS, N, U = 12, 1200, 1100
CASES = ["Copy", "Begun", "Held", "Orphan", "Wrong", "Whole"]
TEARS = [
    (2200, 2201, "is turned over", lambda i, bit: 1 - bit),
    (3000, 3060, "are ones", lambda i, bit: 1),
    (5840, 6140, "are zeros", lambda i, bit: 0),
    (9850, 10450, "are noise", lambda i, bit: 37 * i % 101 % 2),
    (13450, 13451, "is turned over", lambda i, bit: 1 - bit),
]


def message(c, k):
    """Message k at the sender's circuit c: switches, or readings of a battery's charge that goes up and down."""
    if c == 2:
        return bytes(255 - (k + i) % 8 for i in range(LENGTHS[c][k]))
    times = [(20 * k + 30 * c + i) % 120 for i in range(LENGTHS[c][k])]
    return "".join("%02d " % (40 + t if t < 60 else 159 - t) for t in times)[:LENGTHS[c][k]].encode()


def send(out):
    """The joined bits; for each circuit its messages, each with the numbers of its packets; the frames, by their bits in what is joined."""
    s = Sender(SENDERS)
    sent = [[] for _ in SENDERS]
    joined, frames = [], []
    for b in range(BLOCKS):
        for c, messages in enumerate(sent):
            if len(messages) == 6:
                continue
            text, before = message(c, len(messages)), s.packets[c]
            if s.offer(c, PRIORITY[c], REPETITION[c], text) == "accepted":
                messages.append((text, range(before, s.packets[c])))
                out.append("circuit %d takes a message, length %d, priority %d, repetition %d" % (c, len(text), PRIORITY[c], REPETITION[c]))
        block = s.block(N, U, N // 8, SYSTEM.get(b))
        frames += [f._replace(start=f.start + len(joined), end=f.end + len(joined)) for f in block.frames]
        joined += bits_of(block.data)
        out.append("  block %d: %d frames in %d bits, stuffed zeros %d, left %d %d %d %d" % (b, block.placed, block.used, block.zeros, *s.left()))
    return joined, sent, frames


def bodies(bits):
    """The bodies that are not void, each with its first bit and the number of bits up to the end of the flag behind it."""
    flags = [i for i in range(len(bits) - 7) if bits[i:i + 8] == FLAG]
    for i, j in zip(flags, flags[1:]):
        body = bits[i + 8:j]
        if j >= i + 8 and "1111111" not in "".join(map(str, body)):
            yield body, i + 8, j + 8


def packet_of(body):
    """The packet of a body that passes, or how many bits it unstuffs to."""
    bits, ones = [], 0
    for bit in body:
        if ones < 5:
            bits.append(bit)
        ones = ones + 1 if bit and ones < 5 else 0
    data = bytes(sum(bit << k for k, bit in enumerate(bits[i:i + 8])) for i in range(0, len(bits), 8))
    if ones == 5 or len(bits) % 8 or not 4 <= len(data) <= 21 or fcs(data[:-2]) != data[-2] + 256 * data[-1]:
        return len(bits)
    return data[:-2]


class Circuit:
    """What a receiver keeps of a circuit: the last index, and the open message with the length due."""

    def __init__(self):
        self.last, self.open, self.due = None, None, 0

    def hear(self, link, index, segment):
        """The loss, the case, and the message at Whole."""
        if index == self.last:
            return 0, "Copy", None
        loss = 0 if self.last is None else (index - self.last - 1) % 8
        self.last = index
        if loss or link == 2:
            self.open = None
        if link == 2:
            size = 2 if segment[0] >> 4 & 1 else 1
            self.due = segment[0] % 16 if size == 1 else segment[0] % 16 * 256 + (segment + b"\0")[1]
            if size == 2 and (len(segment) < 2 or self.due < 16 or self.due == 4095):
                return loss, "Wrong", None
            part = segment[size:]
            if len(part) == self.due:
                return loss, "Whole", part
            if len(segment) == 16 and len(part) < self.due:
                self.open = part
                return loss, "Begun", None
            return loss, "Wrong", None
        if self.open is None:
            return loss, "Orphan", None
        whole, self.open = self.open + segment, None
        if link == 0 and len(segment) == 16 and len(whole) < self.due:
            self.open = whole
            return loss, "Held", None
        if link == 1 and len(whole) == self.due:
            return loss, "Whole", whole
        return loss, "Wrong", None


def notice(circuits, packet):
    """The notice of a packet that passed: its case, or number, loss, case and message."""
    link, extended, index = packet[1] >> 6, packet[1] >> 5 & 1, packet[1] >> 2 & 7
    segment = packet[2 + extended:]
    if not segment or (packet[0] == 0xFF) != (link == 3):
        return "Malformed"
    if link == 3:
        if packet[1] >> 4 & 1 or segment[0] >> 4 > 8 or segment[0] % 16 != len(segment) - 1:
            return "Malformed"
        told = (packet[1] % 16, segment[0] >> 4, len(segment) - 1, segment[1:].decode())
        return "System, enable bits %d, code %d, length %d [%s]" % told
    if len(segment) > 16:
        return "Malformed"
    named = (packet[0], extended, packet[2] if extended else 0)
    if named not in RECEIVERS:
        return "Elsewhere"
    number = RECEIVERS.index(named)
    return (number,) + circuits[number].hear(link, index, segment)


def read(out, bits):
    """The notices, and the first bits of the bodies that passed."""
    circuits = [Circuit() for _ in RECEIVERS]
    told, passed = [], []
    for body, start, end in bodies(bits):
        packet = packet_of(body)
        if isinstance(packet, int):
            if packet < 32:
                continue
            words = "Spoilt"
        else:
            passed.append(start)
            words = notice(circuits, packet)
        told.append(words)
        if isinstance(words, tuple):
            number, loss, case, whole = words
            words = "circuit %d, loss %d, %s" % (number, loss, case)
            if whole is not None:
                words += ", length %d [%s]" % (len(whole), whole.hex() if number == 0 else whole.decode())
        out.append("bit %5d: %s" % (end, words))
    return told, passed


def print_sums(out, told, sent, bits):
    out.append("circuit       Copy   Begun    Held  Orphan   Wrong  losses   Whole   bytes    sent")
    for number, name in enumerate(["7e", "33", "10", "02 07"]):
        mine = [t for t in told if t[0] == number]
        cases = [sum(1 for t in mine if t[2] == case) for case in CASES]
        size = sum(len(t[3]) for t in mine if t[2] == "Whole")
        row = cases[:5] + [sum(t[1] for t in mine), cases[5], size, len(sent[SENDERS.index(RECEIVERS[number])])]
        out.append("%-10s" % ("%d: %s" % (number, name)) + "".join("%8d" % n for n in row))
    words = [t if isinstance(t, str) else "" for t in told]
    counts = ["%s %d" % (case, sum(1 for w in words if w.startswith(case))) for case in ("System", "Spoilt", "Malformed", "Elsewhere")]
    out.append("bits read: %d; %s" % (len(bits), ", ".join(counts)))


def wrong_sums(told, passed, sent, frames):
    """What differs between the notices and what was sent, by the frames that came whole."""
    came = [f for f in frames if not any(f.start < to and f.end > at for at, to, _, _ in TEARS)]
    if passed != [f.start + 8 for f in came]:
        yield "other bodies pass than those of the frames that came whole"
    for number, circuit in enumerate(RECEIVERS):
        c = SENDERS.index(circuit)
        packets = sorted({f.packet for f in came if f.circuit == c})
        gaps = [b - a - 1 for a, b in zip(packets, packets[1:])]
        if max(gaps, default=0) > 6:
            yield "circuit %d: more than six packets in a row are lost" % number
        if sum(t[1] for t in told if t[0] == number) != sum(gaps):
            yield "circuit %d: the sum of the losses is not the number of packets lost" % number
        if [t[3] for t in told if t[0] == number and t[2] == "Whole"] != [m for m, own in sent[c] if set(own) <= set(packets)]:
            yield "circuit %d: the messages handed over are not those of which every packet came" % number


def run():
    out = ["A pass end to end: four circuits, 12 blocks of 1200 user bits, torn in five places"]
    out.append("The sender lists 10, 02 07, 7e and 33; the receiver lists 7e, 33, 10 and 02 07")
    out += ["", "Sending"]
    joined, sent, frames = send(out)
    out += ["", "Tearing"]
    for at, to, words, torn in TEARS:
        joined[at:to] = [torn(i, joined[i]) for i in range(at, to)]
        out.append(("bit %d" % at if to == at + 1 else "bits %d to %d" % (at, to - 1)) + " " + words)
    out += ["", "Reading, in cuts of 1 to 200 bits"]
    told, passed = read(out, joined)
    out += ["", "Sums"]
    print_sums(out, told, sent, joined)
    return "\n".join(out) + "\n", list(wrong_sums(told, passed, sent, frames))


text, wrong = run()
if sys.argv[1:] == ["--write"]:
    HELD.write_text(text)
elif HELD.read_text() != text:
    wrong.append("crates/pass/stdout is not what documents 01 and 02 give")
for line in wrong:
    print("tests/pass: " + line)
sys.exit(1 if wrong else 0)
