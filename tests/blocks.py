"""Blocks made from documents 01 and 02 by code of its own (document01.py), compared with what the program `vectors` is held to: the lines behind
"Blocks" in crates/vectors/stdout. With the word --write it writes those lines. Nothing of the proved crates is used here.
"""
import pathlib
import sys

sys.dont_write_bytecode = True
from document01 import Sender

HERE = pathlib.Path(__file__).resolve().parent.parent
HELD = HERE / "crates" / "vectors" / "stdout"
HEAD = "Blocks\n"


def left(s):
    return "left %d %d %d %d" % tuple(s.left())


def offered(s, *call):
    answer = s.offer(*call)
    return "accepted, " + left(s) if answer == "accepted" else answer


def made(s, *call):
    block = s.block(*call)
    if isinstance(block, int):
        return "refused %d" % block
    return "placed %d used %d zeros %d %s %s" % (block.placed, block.used, block.zeros, left(s), block.data.hex())


def run():
    out = []
    s = Sender([(0x01, 0, 0), (0x02, 1, 0x07), (0x7E, 0, 0)])
    ramp = bytes(range(40))
    ones = bytes([0xFF] * 20)
    out.append(offered(s, 0, 1, 0, b"charge 71%"))
    out.append(offered(s, 1, 1, 1, ramp))
    out.append(offered(s, 2, 3, 2, ones))
    out.append(offered(s, 1, 0, 0, b""))
    out.append(offered(s, 3, 0, 0, b""))
    out.append(offered(s, 0, 4, 0, b""))
    out.append(offered(s, 0, 0, 6, b""))
    out.append(made(s, 600, 590, 80, None))
    out.append(made(s, 600, 600, 80, (5, 8, b"\x01\x02\x03")))
    out.append(made(s, 600, 600, 80, None))
    out.append(made(s, 641, 641, 80, (15, 0, b"")))
    out.append(made(s, 600, 600, 80, (15, 9, b"")))
    out.append(made(s, 600, 600, 80, None))
    out.append(made(s, 256, 256, 80, (15, 8, bytes([0xFF] * 15))))
    out.append(made(s, 605, 605, 80, None))
    out.append(made(s, 601, 256, 80, None))
    out.append(offered(s, 0, 0, 5, b""))
    out.append(made(s, 640, 640, 80, (15, 0, b"")))
    out.append(made(s, 640, 640, 80, None))
    out.append(made(s, 255, 255, 80, None))
    out.append(made(s, 640, 641, 80, None))
    out.append(made(s, 641, 641, 80, None))
    out.append(made(s, 640, 640, 80, (16, 0, b"")))
    out.append(made(s, 640, 640, 80, (15, 9, b"")))
    out.append(made(s, 640, 640, 80, None))
    return "\n".join(out) + "\n"


text = run()
before, found, behind = HELD.read_text().partition(HEAD)
if sys.argv[1:] == ["--write"]:
    HELD.write_text(before + HEAD + text)
elif behind != text:
    print("tests/blocks: the blocks in crates/vectors/stdout are not what documents 01 and 02 give")
    sys.exit(1)
