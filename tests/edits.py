"""Every edit that the check must refuse is one that changes what it says: words first and then nothing but its pairs, each of one line, each text to be
replaced once in its file, and other than what replaces it. docs/PROOFS.md names every edit, no other, and their number.
Before that the same is asked of edits that are known to be right or wrong.
"""
import pathlib
import re
import sys

ROOT = pathlib.Path(__file__).resolve().parent.parent
MARKS = ("file:", "old:", "new:")
FOLDERS = ("src/", "specs/", "proofs/")

# Edits of the file `src/lib.rt` below, right and wrong.
SOURCE = "a();\n    b();\n        b();\nc();\n"
RIGHT = ["Why.\nfile: src/lib.rt\nold: a();\nnew: d();\n", "Why.\nfile: src/lib.rt\nold:         b();\nnew:         d();\nold: c();\nnew:\n"]
WRONG = {
    "no words": "file: src/lib.rt\nold: a();\nnew: d();\n",
    "words like a mark": "new:later\nfile: src/lib.rt\nold: a();\nnew: d();\n",
    "no pair": "Why.\nfile: src/lib.rt\n",
    "no file": "Why.\nold: a();\nnew: d();\n",
    "another file": "Why.\nfile: src/other.rt\nold: a();\nnew: d();\n",
    "a file elsewhere": "Why.\nfile: src/../src/lib.rt\nold: a();\nnew: d();\n",
    "no space behind a mark": "Why.\nfile: src/lib.rt\nfile:src/lib.rt\nold: a();\nnew: d();\n",
    "two lines": "Why.\nfile: src/lib.rt\nold: a();\n    b();\nnew: a();\n    d();\n",
    "nothing new": "Why.\nfile: src/lib.rt\nold: a();\nnew: a();\n",
    "a pair undone": "Why.\nfile: src/lib.rt\nold: a();\nnew: d();\nold: d();\nnew: a();\n",
    "not there": "Why.\nfile: src/lib.rt\nold: e();\nnew: d();\n",
    "there twice": "Why.\nfile: src/lib.rt\nold:     b();\nnew:     d();\n",
    "other ends of lines": "Why.\r\nfile: src/lib.rt\r\nold: a();\r\nnew: d();\r\n",
    "nothing behind": "Why.\nfile: src/lib.rt\nold: a();\n",
}


def read(path):
    """A file's text, with its ends of lines as they are."""
    with path.open(encoding="utf-8", newline="") as file:
        return file.read()


def split(text):
    """The words of an edit, and its lines from the first mark on."""
    lines = text.split("\n")
    if lines[-1] == "":
        lines.pop()
    first = next((i for i, line in enumerate(lines) if line.startswith(MARKS)), len(lines))
    return "".join(lines[:first]).strip(), lines[first:]


def fault(text, source):
    """What is wrong with an edit's text, or None; `source` gives the text of a file of its crate, or None."""
    words, lines = split(text)
    if not words:
        return "it does not say what it is"
    texts, name, old = {}, None, None
    for line in lines:
        if line.startswith("file: ") and old is None:
            name = line[len("file: "):]
            before = source(name) if name.startswith(FOLDERS) and ".." not in name.split("/") else None
            if before is None:
                return "its crate has no file " + name
            texts.setdefault(name, before)
        elif line.startswith("old: ") and name is not None and old is None:
            old = line[len("old: "):]
            if not old or texts[name].count(old) != 1:
                return "a text is in %s %d times: %s" % (name, texts[name].count(old), old)
        elif line.startswith("new:") and old is not None:
            new = line[len("new:"):]
            new = new[1:] if new.startswith(" ") else new
            if new == old:
                return "a pair changes nothing: " + old
            texts[name], old = texts[name].replace(old, new), None
        else:
            return "a line is out of place: " + line
    if old is not None or all(after == source(name) for name, after in texts.items()):
        return "it changes nothing"
    return None


def judge_known():
    """Whether the edits above are judged as they are known to be."""
    def source(name):
        return SOURCE if name in ("src/lib.rt", "src/../src/lib.rt") else None
    wrong = [text for text in RIGHT if fault(text, source) is not None]
    wrong += [why for why, text in WRONG.items() if fault(text, source) is None]
    for case in wrong:
        print("tests/edits: a known edit is judged wrongly: " + case)
    return not wrong


def judge(path):
    """What is wrong with an edit of the repository, or None."""
    def source(name):
        file = path.parent.parent / name
        return read(file) if file.is_file() else None
    return fault(read(path), source)


def judge_named(labels):
    """Whether docs/PROOFS.md names these edits, no others, and their number. What stands there as `FOLDER/NAME` is of a folder of the root, or an edit."""
    text = read(ROOT / "docs" / "PROOFS.md")
    named = {label for label in re.findall(r"`([a-z0-9_]+/[a-z0-9_]+)`", text) if not (ROOT / label.split("/")[0]).is_dir()}
    wrong = ["docs/PROOFS.md does not name " + label for label in sorted(labels - named)]
    wrong += ["docs/PROOFS.md names an edit that is not there: " + label for label in sorted(named - labels)]
    if re.findall(r"In each of the (\d+) a fact fails", text) != [str(len(labels))]:
        wrong.append("there are %d edits, and docs/PROOFS.md tells another number" % len(labels))
    for line in wrong:
        print("tests/edits: " + line)
    return not wrong


def main():
    ok = judge_known()
    labels = set()
    for path in sorted(ROOT.glob("crates/*/must-fail/*.edit")):
        label = "%s/%s" % (path.parent.parent.name, path.stem)
        labels.add(label)
        why = judge(path)
        if why is not None:
            print("tests/edits: %s: %s" % (label, why))
            ok = False
    ok = judge_named(labels) and ok
    sys.exit(0 if ok and labels else 1)


main()
