"""The framer "is to hold no packet or FCS in an array before stuffing" (document 02, ask 2), and none comes back: in what the compiler makes of the sources
of `sender` and of every crate below it (rt check --generated), no parameter, result, local or field is an array, whatever its elements, but of circuits and of slots, a
record's circuits as a list's bytes, the one into which a frame is stuffed to measure it, the one of no bytes that is lent where no long buffer is given, and the names that a derived Debug
writes.
Before that the same is asked of functions that are known to have an array or none.
"""
import pathlib
import re
import subprocess
import sys
import tempfile

ROOT = pathlib.Path(__file__).resolve().parent.parent
TOP = "sender"
# Arrays that hold no packet: a list's circuits, and a sender's slot for each.
OTHERS = {"[%s; 4]" % name for name in ("packet::Circuit", "offering::Slot")}

# Arrays in named functions. Where a frame is measured, its bits are stuffed into an array: it has the packet and the FCS after stuffing alone.
# A record's circuits are judged and looked for as a list's bytes.
NAMED = {"sender::blocks::fits": "[u8; 27]"}
NAMED.update({"packet::Circuits::" + name: "[u8; 12]" for name in ("bytes", "number_of", "check")})

# Where no long buffer is given, one of no bytes is lent.
NAMED.update({"offering::Sender::offer": "[u8; 0]", "packet::Stores::alone": "[u8; 0]"})

# A derived Debug has the names of a type and of its fields or variants as text.
NAMED.update({"packet::CircuitDebug::fmt": "[u8; 36]", "packet::LinkDebug::fmt": "[u8; 25]", "packet::RefusalDebug::fmt": "[u8; 229]", "sender::BlockDebug::fmt": "[u8; 25]"})

# Functions that have an array, and functions that have none.
WITH = """
type Packet = [u64; 3];
const TABLE: [u16; 2] = [0, 1];
#[derive(Drop)]
pub struct Frame { pub bytes: [u8; 21] }
#[derive(Drop)]
pub struct Both(pub [u8; 2]);
pub fn with_a_type(i: u8) -> u8 { let p: [u8; 21] = [i; 21]; p[0] }
pub fn with_values(low: u8, high: u8) -> u8 { let fcs = [low, high]; fcs[1] }
pub fn with_values_between_comments(low: u8) -> u8 { /* " */ let fcs = [low, low]; /* " // */ fcs[1] }
pub fn with_values_lent(low: u8, high: u8) -> usize { without_in_slices(&[low, high]) }
pub fn with_one_value_lent(u8: u8) -> usize { without_in_slices(&[u8]) }
pub fn with_text() -> usize { without_in_slices(b"packet") }
pub fn with_raw_text() -> usize { without_in_slices(br"packet") }
pub fn with_a_parameter(p: &[u8; 19]) -> u8 { p[0] }
pub fn with_a_result(i: u8) -> [u8; 19] { [i; 19] }
pub fn with_another_name(p: Packet) -> u64 { p[0] }
pub fn with_a_constant(i: usize) -> u16 { TABLE[i] }
pub fn with_a_field(f: Frame) -> Frame { f }
pub fn with_a_place(b: Both) -> Both { b }
pub fn with_bits(b: bool) -> bool { let bits = [b; 168]; bits[0] }
"""
WITHOUT = """
type Byte = u8;
#[derive(Drop)]
pub struct Pen { pub at: usize, pub fcs: u16 }
pub fn without_in_slices(s: &[u8]) -> usize { s.len() }
pub fn without_in_a_name(s: &[Byte], t: &[f32]) -> usize { s.len() + t.len() }
pub fn without_in_a_comment(i: u8) -> u8 { /* let p = [i; 21]; */ i } // [i; 21]
pub fn without_in_a_part(s: &mut [u8], from: usize) -> usize { s[from] = 0; without_in_slices(&s[from..]) }
pub fn without_in_a_struct(pen: Pen) -> Pen { Pen { at: pen.at, fcs: 0xffff } }
"""


def mir(root, name):
    """What the compiler makes of a crate, as the check writes it out: for each function its name and its text."""
    with tempfile.TemporaryDirectory() as folder:
        run = subprocess.run(["rt", "check", "--generated", folder], cwd=str(root / "crates" / name), stdout=subprocess.PIPE, stderr=subprocess.STDOUT)
        if not re.search(rb"^generated=[1-9]", run.stdout, re.MULTILINE):
            print("tests/arrays: rt check --generated of %s fails: %s" % (name, run.stdout.decode("utf-8")[-2000:]))
            sys.exit(1)
        top = pathlib.Path(folder) / ("Rattle-%s-proofs" % name)
        found = sorted(top.rglob("Mir.antt"))
        return [("::".join((name,) + path.relative_to(top).parts[:-2]), path.read_text(encoding="utf-8")) for path in found]


def plain(text):
    """The text on one line, with a name, which is a list of its characters' numbers, as these characters."""
    text, out, at = " ".join(text.split()), "", 0
    for found in re.finditer(r"(?:List\.◌∷◌ \d+ \(?)+List\.\[\]", text):
        name = "".join(chr(int(number)) for number in re.findall(r"\d+", found[0]))
        out += text[at : found.start()] + "'" + name + "'"
        # the parentheses that close the list's tails
        at = found.end() + found[0].count("(")
    return out + text[at:]


def arrays(text):
    """The arrays in a function's text."""
    text = plain(text)
    return {element(text, found.end()) for found in re.finditer(r"\bty_array ", text)}


def element(text, start):
    """The array whose element's type stands at `start`, with its length behind it."""
    depth, at = 0, start
    while depth > 0 or text[at] != " ":
        depth += {"(": 1, ")": -1}.get(text[at], 0)
        at += 1
    inside = text[start:at]
    number = re.match(r"\(Syntax\.ty_int Syntax\.w(\d+)\)$", inside)
    named = re.search(r"'([^']*)'", inside)
    return "[%s; %s]" % ("u" + number[1] if number else named[1] if named else inside, re.match(r"\d+", text[at + 1 :])[0])


def below(name, listed):
    """A crate and all that it depends on."""
    return {name}.union(*(below(other, listed) for other in listed.get(name, ())))


def tried():
    """What is told of the functions above and is wrong."""
    with tempfile.TemporaryDirectory() as folder:
        source = pathlib.Path(folder) / "crates" / "tried" / "src"
        source.mkdir(parents=True)
        (source / "lib.rt").write_text(WITH + WITHOUT)
        (pathlib.Path(folder) / "crates.txt").write_text("tried:\n")
        found = {name: arrays(text) for name, text in mir(pathlib.Path(folder), "tried")}
    told = []
    for name in re.findall(r"pub fn (\w+)", WITH + WITHOUT):
        has = found.get("tried::" + name)
        if has is None or bool(has) != name.startswith("with_"):
            told.append("of %s, which is only tried, this is told: %s" % (name, has))
    return told


def held():
    """The arrays in the functions of the framer's crates, but for the others."""
    lines = [line.split("#")[0].partition(":") for line in (ROOT / "crates.txt").read_text(encoding="utf-8").splitlines()]
    names = below(TOP, {name.split()[0]: words.split() for name, _, words in lines if name.strip()})
    told = set()
    for name in names | {"hdlc", "writing"}:
        functions = mir(ROOT, name)
        if name not in names or not any(function.startswith(name + "::") for function, _ in functions):
            told.add("no function of %s is looked at" % name)
        for function, text in functions:
            others = OTHERS | {NAMED.get(function)}
            told.update("%s has the array %s" % (function, array) for array in arrays(text) - others)
    return sorted(told)


wrong = tried() + held()
for complaint in wrong:
    print("tests/arrays: " + complaint)
sys.exit(1 if wrong else 0)
