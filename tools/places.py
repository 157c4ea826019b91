#!/usr/bin/env python3
"""Lists the places in src/ (and proofs/) that an older form of the language may have left, point by point as docs/DESIGN-PASS.md numbers them.

    tools/places.py [POINT ..]

It goes by text, so it finds candidates: the page says of each what became of it. A place that a comment '// Stays: ..' justifies is listed too."""
import collections
import difflib
import glob
import os
import re
import sys

os.chdir(os.path.join(os.path.dirname(os.path.abspath(__file__)), ".."))
SOURCES = {f: open(f).read() for f in sorted(glob.glob("crates/*/src/**/*.rt", recursive=True))}


def line_of(text, at):
    return text.count("\n", 0, at) + 1


def matches(pattern, *names):
    """The lines of src/ that a pattern fits."""
    found = []
    for name, text in SOURCES.items():
        if names and not any(n in name for n in names):
            continue
        for m in re.finditer(pattern, text, re.M):
            found.append(f"{name}:{line_of(text, m.start())}: {' '.join(m.group(0).split())}")
    return found


def functions():
    """Each function: its file and line, its name, its signature with the clauses, and its body."""
    for name, text in SOURCES.items():
        lines = text.split("\n")
        for at, line in enumerate(lines):
            m = re.match(r"( *)(?:pub )?(?:extern \"C\" )?fn (\w+)", line)
            if not m:
                continue
            begin = at
            while not (lines[begin].strip() in ("{", "{}") or lines[begin].endswith((" {", " {}")) and not lines[begin].strip().startswith(("requires", "ensures", "×"))):
                begin += 1
            end = begin
            while not lines[end].startswith(m.group(1) + "}") and not lines[end].endswith("{}"):
                end += 1
            yield name, at + 1, m.group(2), "\n".join(lines[at:begin + 1]), "\n".join(lines[begin + 1:end])


def two_variant_enums():
    found = []
    for name, text in SOURCES.items():
        for m in re.finditer(r"^(?:pub )?enum (\w+)[^{]*\{\n(.*?)\n\}", text, re.S | re.M):
            variants = re.findall(r"^    (\w+)", m.group(2), re.M)
            if len(variants) == 2:
                found.append(f"{name}:{line_of(text, m.start())}: enum {m.group(1)} {{ {', '.join(variants)} }}")
    return found


def numbers_for_kinds():
    found = matches(r"\b(?:refusal|number|link|phase|extended)\w*: u(?:8|32)\b")
    for name, at, function, head, _ in functions():
        if re.search(r"refusal|verdict|link|number", function) and re.search(r"-> u(?:8|32)\b", head):
            found.append(f"{name}:{at}: fn {function} -> a number")
    return found


def flags():
    return matches(r"\b(?:wanted|known|seen|inside|escape|first): bool\b")


def tokens(body):
    body = re.sub(r"//.*", "", body)
    return [re.sub(r"^\d.*", "N", t) for t in re.findall(r"\w+|[^\w\s]", body)]


def twins():
    bodies = [(f"{n}:{at}: {f}", tokens(b)) for n, at, f, _, b in functions()]
    bodies = [(w, t) for w, t in bodies if len(t) >= 14]
    found = []
    for i, (w, t) in enumerate(bodies):
        for v, u in bodies[i + 1:]:
            if abs(len(t) - len(u)) > max(len(t), len(u)) // 4:
                continue
            if difflib.SequenceMatcher(None, t, u, False).ratio() >= 0.8:
                found.append(f"{w} ~ {v}")
    names = collections.defaultdict(list)
    for n, at, f, _, _ in functions():
        names[f].append(f"{n}:{at}")
    for f, where in sorted(names.items()):
        if len(where) > 1 and f not in ("new", "main", "from", "fmt"):
            found.append(f"same name {f}: {', '.join(where)}")
    return found


def loops():
    return matches(r"^ *(?:'\w+: )?(?:while (?!let\b).*|loop) \{$")


def by_hand():
    found = matches(r"fn (?:wide|least|alike|clipped|raised|begins_with|copy_in|copy_at|low_byte|\w*_number|\w*number_of|fate_of_number)\b")
    found += matches(r"\bwrapping_\w+_u\w+\(")
    found += matches(r"\b(?:print|print_number|tell)\((?:&?rt),", "vectors", "pass")
    return found


def facts():
    where = collections.defaultdict(list)
    for name, at, function, head, _ in functions():
        crate = name.split("/")[1]
        for r in re.finditer(r"requires\s+(?:\w+ )?\{(.*?)\}\s*(?=requires|ensures|where|\{)", head, re.S):
            for fact in re.split(r"\s×\s", r.group(1)):
                where[" ".join(fact.split()).strip("() ")].append(f"{crate}::{function}")
    found = [f"{len(v)} {k}: {', '.join(v)}" for k, v in where.items() if len(v) >= 3]
    for name, at, function, head, _ in functions():
        signature = re.split(r"\s(?:requires|ensures)\s", head)[0]
        n = len(re.findall(r"\b\w+: ", signature)) + signature.count("self")
        if n >= 6 and "aes18" not in name:
            found.append(f"{name}:{at}: {function} takes {n} parameters")
    return found


def buffers():
    found = []
    for name, text in SOURCES.items():
        for m in re.finditer(r"^(?:pub )?struct (\w+)[^{;]*\{\n(.*?)\n\}", text, re.S | re.M):
            fields = m.group(2)
            if re.search(r": \[", fields) and re.search(r"\b(?:count|len|length|at|check|frames?)\b: ", fields):
                found.append(f"{name}:{line_of(text, m.start())}: struct {m.group(1)}")
    for name, at, function, head, _ in functions():
        if re.search(r": &?(?:mut )?\[\w+; \w+\]", head.split("ensures")[0]) and re.search(r"\b(?:count|len|n): (?:usize|u8)", head):
            found.append(f"{name}:{at}: {function} takes an array and a length")
    return found


def switches():
    return matches(r"\bRule\b.*") + matches(r"\bdyn \w+.*") + matches(r": fn\(.*")


def proofs():
    found = []
    for f in sorted(glob.glob("crates/*/proofs/**/Answers.antt", recursive=True)):
        lets = collections.Counter(re.findall(r"let ([\w'-]+ : [^=]*?) =", open(f).read(), re.S))
        for text, n in lets.items():
            if n >= 3:
                found.append(f"{f}: {n} times let {' '.join(text.split())}")
    return found


POINTS = {
    "1": [("enums of two variants", two_variant_enums), ("numbers for kinds or refusals", numbers_for_kinds), ("flags beside a value", flags)],
    "2": [("functions with like bodies or one name", twins)],
    "3": [("loops that are no for", loops)],
    "4": [("by hand", by_hand)],
    "5": [("facts in three contracts or more, and functions of six parameters or more", facts)],
    "6": [("arrays with a length beside them", buffers)],
    "7": [("switches", switches)],
    "8": [("lets that answers of one function repeat", proofs)],
}


def main():
    for point in sys.argv[1:] or POINTS:
        for title, places in POINTS[point]:
            found = places()
            print(f"point {point}, {title}: {len(found)}")
            for place in found:
                print("    " + place)


main()
