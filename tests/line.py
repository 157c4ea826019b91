"""The line of `aes18 line`, read by pppdump and taken apart here. What is expected comes from document 01 by code of its own (document01.py); nothing of
the proved crates is used for it. Arguments: the tool, and the C header with the good FCS.

pppdump reads the record file of pppd and prints each frame's packet, without the FCS, 16 bytes on a line; behind a packet whose FCS is wrong stands the line
BAD FCS, and before one whose escape is followed by a flag the line aborted packet. Two bytes or fewer with the FCS it calls short; of
other lengths it has no opinion.
"""
import copy
import json
import pathlib
import re
import subprocess
import sys
import tempfile

sys.dont_write_bytecode = True
from document01 import FLAG as FLAG_BITS, Sender, fcs, frame

TOOL, HEADER = sys.argv[1:]
FLAG, ESCAPE = 0x7E, 0x7D
CIRCUITS = [(0x7E, 0, 0), (0x7D, 1, 0x7E), (0x01, 0, 0), (0x02, 1, 0x7D)]
LISTED = ["%02X:%02X" % (address, extension) if extended else "%02X" % address for address, extended, extension in CIRCUITS]
# the longest record that is made; lines are cut there, also inside frames
RECORD = 61


def fail(what):
    print("tests/line: " + what)
    sys.exit(1)


def fcs_bytes(packet):
    return fcs(packet).to_bytes(2, "little")


class Plan:
    """A plan for the tool and, beside it, document 01's sender: the packets that the plan's blocks place, in order."""

    def __init__(self):
        self.lines = ["circuits " + " ".join(LISTED)]
        self.sender = Sender(CIRCUITS)
        self.waiting = {}
        self.packets = []

    def offer(self, c, priority, repetition, message):
        if self.sender.offer(c, priority, repetition, message) != "accepted":
            fail("an offer of the plan is refused")
        self.waiting.update(((c, number), packet) for _, packet, number in self.sender.queues[c])
        self.lines.append("offer %d %d %d %s" % (c, priority, repetition, message.hex() or "-"))

    def block(self, n, system=None):
        made = self.sender.block(n, n, n // 8, system)
        for frame in made.frames:
            self.packets.append(self.waiting[frame.circuit, frame.packet] if frame.circuit is not None else
                                bytes([0xFF, 0xC0 | system[0], system[1] << 4 | len(system[2])]) + system[2])
        words = " system %d %d %s" % (system[0], system[1], system[2].hex() or "-") if system else ""
        self.lines.append("block %d %d%s" % (n, n, words))

    def next_packet(self, c, message):
        """The packet that a message of one packet would have now."""
        sender = copy.deepcopy(self.sender)
        sender.offer(c, 0, 0, message)
        return sender.queues[c][0][1]


def make_plan():
    plan = Plan()
    plan.offer(0, 3, 1, bytes([FLAG] * 60))
    plan.offer(1, 2, 0, bytes([ESCAPE] * 40))
    plan.offer(2, 1, 2, b"")
    plan.offer(3, 0, 0, bytes(range(256)))
    plan.block(8000, (15, 8, bytes([ESCAPE, FLAG, 0x5E, 0x5D, 0x20])))
    plan.block(8000)
    # packets whose FCS has a flag or an escape in its low byte, and in its high byte
    for place in (0, 1):
        for byte in (FLAG, ESCAPE):
            messages = (b"%d" % number for number in range(100000))
            plan.offer(2, 0, 0, next(m for m in messages if fcs_bytes(plan.next_packet(2, m))[place] == byte))
            plan.block(256)
    return plan


def tool(*arguments):
    ran = subprocess.run([TOOL, *map(str, arguments)], stdout=subprocess.PIPE, stderr=subprocess.PIPE)
    if ran.returncode != 0:
        fail("aes18 %s: status %d: %s" % (arguments[0], ran.returncode, ran.stderr.decode()))
    return ran


def bodies(line):
    """What stands between the flags of a line in which each frame has two of its own."""
    parts = line.split(bytes([FLAG]))
    if any(parts[::2]) or not all(parts[1::2]):
        fail("some frame of the line does not have two flags of its own")
    return parts[1::2]


def framed(parts):
    """The line in which these stand between two flags each."""
    flag = bytes([FLAG])
    return b"".join(flag + part + flag for part in parts)


def unescaped(body):
    return re.sub(b"\x7d(.)", lambda pair: bytes([pair.group(1)[0] ^ 0x20]), body, flags=re.DOTALL)


def dumped(line):
    """What pppdump prints of a line: each packet, and whether it is good, bad or aborted."""
    record = bytes([7, 0, 0, 0, 0])
    for start in range(0, len(line), RECORD):
        part = line[start:start + RECORD]
        record += bytes([2]) + len(part).to_bytes(2, "big") + part
    (WORK / "record").write_bytes(record)
    ran = subprocess.run(["pppdump", "-p", str(WORK / "record")], stdout=subprocess.PIPE, check=True)
    # an aborted packet has a line of its own before it, and its first bytes stand further to the right
    text = ran.stdout.decode("ascii").replace("rcvd aborted packet:\n         ", "abrt")
    packets = []
    for row in text.splitlines()[1:]:
        if re.fullmatch(r"     BAD FCS: \(residue = [0-9a-f]+\)", row):
            packets[-1][1] = "bad"
        elif re.match(r"(rcvd|abrt|    )  [0-9a-f]{2}[ 0-9a-f]{45}  ", row):
            if row[0] != " ":
                packets.append([b"", "good" if row.startswith("rcvd") else "aborted"])
            packets[-1][0] += bytes.fromhex(row[5:53])
        else:
            fail("pppdump prints a line that is not known here: " + row)
    return [tuple(packet) for packet in packets]


def user_bits(packets):
    """The user bits of these packets, frame behind frame."""
    bits = FLAG_BITS + [bit for packet in packets for bit in frame(packet) + FLAG_BITS]
    bits += [1] * (-len(bits) % 8)
    return bytes(sum(bit << k for k, bit in enumerate(bits[i:i + 8])) for i in range(0, len(bits), 8))


def without(members, named):
    """An object without the named members."""
    return {member: value for member, value in named.items() if member not in members}


def decoded(*arguments):
    """What the tool tells of user bits or a line: the notices without their places and what is in no frame, and the totals."""
    told = tool("decode", "--json", "--circuits", ",".join(LISTED), *arguments).stdout
    told = [json.loads(text) for text in told.decode().splitlines()]
    notices = [without(("bit", "byte", "modulo8", "gap_bytes"), notice) for notice in told[:-1] if "gap" not in notice]
    totals = told[-1]["totals"]
    totals["circuits"] = [without(("modulo8",), circuit) for circuit in totals["circuits"]]
    return notices, totals


def notices(bits, packets):
    """What the tool tells of these user bits, which have so many packets: the notices, and the totals of the circuits."""
    (WORK / "bits").write_bytes(bits)
    told, totals = decoded(WORK / "bits")
    if len(told) != packets:
        fail("decode tells %d notices of %d packets" % (len(told), packets))
    return told, totals["circuits"]


def notices_of_line(line, dropped):
    """The same of a line in which all bytes stand between flags and so many frames are dropped."""
    (WORK / "line").write_bytes(line)
    told, totals = decoded("--line", WORK / "line")
    expected = {"bytes": len(line), "before": 0, "behind": 0, "dropped_frames": dropped}
    found = {name: totals[name] for name in expected}
    if found != expected:
        fail("decode --line counts %s, not %s" % (found, expected))
    return told, totals["circuits"]


def check_escapes(expected):
    """The plan has what it is for: flags and escapes in packets and in both bytes of the FCS."""
    for byte in (FLAG, ESCAPE):
        if not any(byte in packet for packet in expected):
            fail("no packet has a byte %02X" % byte)
        for place in (0, 1):
            if not any(fcs_bytes(packet)[place] == byte for packet in expected):
                fail("no FCS has %02X in byte %d" % (byte, place))


def check_line(line, expected):
    """Each frame has its packet and FCS, escaped where they must be and nowhere else, and the good FCS that the kernel's header has."""
    define = re.search(r"#define\s+PPP_GOODFCS\s+0x([0-9a-fA-F]+)", pathlib.Path(HEADER).read_text())
    if not define:
        fail(HEADER + " has no PPP_GOODFCS")
    good = int(define.group(1), 16)
    for number, body in enumerate(bodies(line)):
        if re.search(b"\x7d[^\x5d\x5e]|\x7d$", body):
            fail("frame %d has an escape before another byte than 5D or 5E" % number)
        register = 0xFFFF - fcs(unescaped(body))
        if register != good:
            fail("packet and FCS of frame %d run to %04X, not to PPP_GOODFCS, %04X" % (number, register, good))
    if [unescaped(body) for body in bodies(line)] != [packet + fcs_bytes(packet) for packet in expected]:
        fail("the line has other packets than went in")


def damages(body):
    """A frame's body damaged, and what pppdump says of it. A byte of a body that is no escape, exclusive-ored with 3, is no flag and no escape either."""
    yield "bad", body[:-1] + bytes([body[-1] ^ 3])
    if body[0] != ESCAPE:
        yield "bad", bytes([body[0] ^ 3]) + body[1:]
    yield "aborted", body + bytes([ESCAPE])


def check_damage(line, expected):
    """Each frame in turn damaged in its FCS, in its packet, or by an escape before its closing flag: pppdump says so of that frame alone, and the tool drops
    that frame alone and tells what it tells of user bits with the others."""
    parts = bodies(line)
    for number, body in enumerate(parts):
        others = expected[:number] + expected[number + 1:]
        told = notices(user_bits(others), len(others))
        for word, damaged in damages(body):
            torn = framed(parts[:number] + [damaged] + parts[number + 1:])
            dump = dumped(torn)
            if [said for _, said in dump] != ["good"] * number + [word] + ["good"] * (len(parts) - number - 1):
                fail("frame %d is damaged, and pppdump does not say that it alone is %s" % (number, word))
            if [packet for packet, _ in dump[:number] + dump[number + 1:]] != others:
                fail("frame %d is damaged, and pppdump reads another wrongly" % number)
            if notices_of_line(torn, 1) != told:
                fail("frame %d is %s, and decode --line tells something else than decode of the others" % (number, word))


def run():
    plan = make_plan()
    (WORK / "plan").write_text("\n".join(plan.lines) + "\n")
    tool("encode", WORK / "plan", "-o", WORK / "bits")
    tool("line", WORK / "bits", "-o", WORK / "line")
    bits, line, expected = (WORK / "bits").read_bytes(), (WORK / "line").read_bytes(), plan.packets
    check_escapes(expected)
    check_line(line, expected)
    if dumped(line) != [(packet, "good") for packet in expected]:
        fail("pppdump reads other packets than went in")
    if notices_of_line(line, 0) != notices(bits, len(expected)):
        fail("decode --line tells something else than decode of the bits")
    check_damage(line, expected)
    print("tests/line: pppdump reads the %d packets that went in, and tells of each that is damaged" % len(expected))


with tempfile.TemporaryDirectory() as work:
    WORK = pathlib.Path(work)
    run()
