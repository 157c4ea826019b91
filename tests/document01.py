"""Frames and blocks made from document 01, with the enable bits, the packets still to go and the stuffed zeros of 02, asks 4 to 6, for the tests
beside this file. Nothing of the proved crates is used here.
"""
import collections

FLAG = [0, 1, 1, 1, 1, 1, 1, 0]


def bits_of(data):
    return [byte >> k & 1 for byte in data for k in range(8)]


def fcs(data):
    register = 0xFFFF
    for bit in bits_of(data):
        low = register & 1
        register >>= 1
        if low != bit:
            register ^= 0x8408
    return 0xFFFF - register


def unstuffed(packet):
    """The bits of a packet and its FCS."""
    check = fcs(packet)
    return bits_of(bytes(packet) + bytes([check % 256, check // 256]))


def frame(packet):
    out, ones = [], 0
    for bit in unstuffed(packet):
        out.append(bit)
        ones = ones + 1 if bit else 0
        if ones == 5:
            out.append(0)
            ones = 0
    return out


def zeros_in(packet):
    """How many zeros stuffing adds to a packet's frame: one for every five ones of each run."""
    runs = "".join(map(str, unstuffed(packet))).split("0")
    return sum(len(run) // 5 for run in runs)


def packets_of(message):
    n = len(message)
    header = bytes([n]) if n <= 15 else bytes([16 + n // 256, n % 256])
    whole = header + message
    return [whole[i:i + 16] for i in range(0, len(whole), 16)]


# A block's frames placed, bits used, stuffed zeros and bytes; and its frames, each with its circuit (None for the system's), the packet's number
# there, and the bits from its opening flag to behind its closing one.
Block = collections.namedtuple("Block", "placed used zeros data frames")
Frame = collections.namedtuple("Frame", "circuit packet start end")


class Sender:
    """A sender told by its queues of waiting copies: (priority, packet, number of the packet at its circuit), and by the enable bits in force."""

    def __init__(self, circuits):
        self.circuits = circuits
        self.queues = [[] for _ in circuits]
        self.packets = [0 for _ in circuits]
        self.last = 3
        self.enable = 15

    def offer(self, c, priority, repetition, message):
        if c >= len(self.circuits):
            return "refused 6"
        if priority > 3:
            return "refused 7"
        if repetition > 5:
            return "refused 8"
        if len(message) > 4094:
            return "refused 9"
        if self.queues[c]:
            return "refused 10"
        address, extended, extension = self.circuits[c]
        segments = packets_of(message)
        for k, segment in enumerate(segments):
            link = 2 if k == 0 else 1 if k + 1 == len(segments) else 0
            control = link << 6 | extended << 5 | self.packets[c] % 8 << 2 | priority
            packet = bytes([address, control]) + (bytes([extension]) if extended else b"") + segment
            self.queues[c] += [(priority, packet, self.packets[c])] * (repetition + 1)
            self.packets[c] += 1
        return "accepted"

    def left(self):
        """The packets still to go at the circuit numbers 0 to 3: those of which some copy waits."""
        waiting = [{number for _, _, number in queue} for queue in self.queues]
        return [len(numbers) for numbers in waiting] + [0] * (4 - len(waiting))

    def pick(self):
        for priority in (3, 2, 1, 0):
            if self.enable >> priority & 1:
                for step in range(1, 5):
                    c = (self.last + step) % 4
                    if c < len(self.circuits) and self.queues[c] and self.queues[c][0][0] == priority:
                        return c
        return None

    def block(self, n, u, room, system):
        """The block, or a refusal's number. The enable bits of a system packet rule its block and all later ones, until another is sent."""
        if not 256 <= n <= 27000 or not 256 <= u <= n:
            return 11
        if room * 8 < n:
            return 12
        if system and (system[0] > 15 or system[1] > 8 or len(system[2]) > 15):
            return 13
        bits, frames, zeros = list(FLAG), [], 0
        if system:
            self.enable, code, information = system
            packet = bytes([0xFF, 0xC0 | self.enable, code << 4 | len(information)]) + information
            bits += frame(packet) + FLAG
            frames.append(Frame(None, 0, 0, len(bits)))
            zeros = zeros_in(packet)
        placed = 0
        while True:
            c = self.pick()
            if c is None:
                break
            _, packet, number = self.queues[c][0]
            more = frame(packet) + FLAG
            if len(bits) + len(more) > u:
                break
            frames.append(Frame(c, number, len(bits) - 8, len(bits) + len(more)))
            self.queues[c].pop(0)
            self.last = c
            bits += more
            zeros += zeros_in(packet)
            placed += 1
        used = len(bits)
        bits += [1] * (n - used)
        bits += [0] * (-n % 8)
        data = [sum(bit << k for k, bit in enumerate(bits[i:i + 8])) for i in range(0, len(bits), 8)]
        data += [0xAA] * (room - len(data))
        return Block(placed, used, zeros, bytes(data), frames)
