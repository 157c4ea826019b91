#!/usr/bin/env python3
"""Respells the definitions and lemmas of this repository as today's Rattle spells names. Run once, at the top, after the kit's port.py.

A name of lower camel case becomes snake case, and what was called getD is get_or. In a lemma's name a dash stays between two names of definitions,
functions or types, and a plain word is joined by an underscore. A lemma whose new name another item has keeps its dashes. Functions of src/,
strings and the names that Rattle makes stay. README.md and docs/ follow, in what stands between backticks.
"""
import pathlib
import re
import subprocess

KIT = pathlib.Path(subprocess.run(["rt", "doc"], capture_output=True, text=True, check=True).stdout.strip()).parent / "rattle"
NAME = re.compile(r"(?<![\w'-])[A-Za-z_][\w']*(?:-[\w']+)*")
CAMEL = re.compile(r"^[a-z][A-Za-z0-9']*[A-Z][A-Za-z0-9']*$")
DECLARED = re.compile(r"^\s*(?:(?:abbrev|unfoldable|pub)\s+)*([A-Za-z][\w'-]*)\s*:(?!=)")
DEFINED = re.compile(r"^(?:(?:abbrev|unfoldable|pub)\s+)+([A-Za-z][\w'-]*)\s*:(?!=)")
TYPE = re.compile(r"^\s*(?:pub\s+)?(?:record|data)\s+([A-Za-z][\w'-]*)")
FUNCTION = re.compile(r"\bfn\s+(\w+)")
STRING = re.compile(r'"(?:[^"\\]|\\.)*"')
TICKED = re.compile(r"`[^`\n]+`")
MADE = ("returns", "loop-", "if-", "in-", "invariant-", "decreases-")


def read(path):
    return path.read_text(encoding="utf-8", errors="replace")


def snake(part):
    if part == "getD":
        return "get_or"
    if not CAMEL.match(part):
        return part
    return re.sub(r"([A-Z])([A-Z][a-z])", r"\1_\2", re.sub(r"([a-z0-9'])([A-Z])", r"\1_\2", part)).lower()


def snake_parts(name):
    return "-".join(snake(part) for part in name.split("-"))


def of_lemmas(path):
    """Whether a file holds definitions or lemmas, and not the proof of one function."""
    return path.parent.name in ("specs", "proofs")


def declared(path):
    """The names that a file declares."""
    patterns = (FUNCTION,) if path.suffix == ".rt" else (DECLARED, TYPE)
    return {m[1] for line in read(path).split("\n") for pattern in patterns for m in pattern.finditer(line)}


def kit_names():
    return {name for top in ("std", "antt/port", "core") for path in (KIT / top).rglob("*.antt") for name in declared(path)}


def kit_words():
    """The words that most clauses of the kit cite."""
    return set(re.findall(r"[A-Za-z][\w']*", " ".join(re.findall(r"\{([^}]*)\}", read(KIT / "std/specs/Prelude.antt")))))


def definitions(path):
    """The definitions and types that a file declares, or its functions."""
    patterns = (FUNCTION,) if path.suffix == ".rt" else (TYPE,) if path.parent.name != "specs" else (DEFINED, TYPE)
    return {m[1] for line in read(path).split("\n") for pattern in patterns for m in pattern.finditer(line)}


def lemma_name(name, things):
    """A lemma's new name: a dash only between two names of things."""
    parts = [snake(part) for part in name.split("-")]
    new = parts[0]
    for before, part in zip(parts, parts[1:]):
        new += ("-" if before in things and part in things else "_") + part
    return new


def renamed(files):
    """Old name to new name, for each lemma whose name has a dash."""
    all_declared = {path: declared(path) for path in files}
    words = set().union(*all_declared.values())
    lemmas = {n for path, names in all_declared.items() if path.suffix == ".antt" and of_lemmas(path) for n in names if "-" in n}
    kit = kit_names()
    things = kit_words() | {snake(w) for path in files for w in definitions(path) if "-" not in w}
    taken = {snake(w) for w in words}
    to = {}
    for name in sorted(lemmas - kit):
        if not name.startswith(MADE):
            new = lemma_name(name, things)
            to[name] = new if new not in taken else snake_parts(name)
            taken.add(to[name])
    return to


def respell(text, names, own=frozenset()):
    """A text with its names respelled; the lemmas in `own`, and what stands behind a dot, keep their dashes."""

    def one(m):
        behind_dot = m.start() > 0 and text[m.start() - 1] == "."
        return snake_parts(m[0]) if m[0] in own or behind_dot else names.get(m[0], snake_parts(m[0]))

    return NAME.sub(one, text)


def respell_source(text, names):
    """The text of a source file, all but its strings respelled."""
    out, at = "", 0
    for m in STRING.finditer(text):
        out += respell(text[at:m.start()], names) + m[0]
        at = m.end()
    return out + respell(text[at:], names)


def respell_page(text, names, old):
    """A page with the names between backticks respelled, where `old` has them."""

    def one(m):
        return NAME.sub(lambda n: names.get(n[0], snake_parts(n[0])) if n[0] in old or set(n[0].split("-")) <= old else n[0], m[0])

    return TICKED.sub(one, text)


def main():
    listed = subprocess.run(["git", "ls-files", "crates"], capture_output=True, text=True, check=True).stdout.split("\n")
    files = [pathlib.Path(p) for p in listed if p.endswith((".antt", ".rt")) and pathlib.Path(p).exists()]
    names = renamed(files)
    old = {n for path in files for n in NAME.findall(read(path)) if CAMEL.match(n)} | set(names)
    texts = {}
    for path in files:
        if path.suffix == ".rt":
            texts[path] = respell_source(read(path), names)
        else:
            texts[path] = respell(read(path), names, frozenset() if of_lemmas(path) else declared(path))
    for page in [pathlib.Path("README.md"), *pathlib.Path("docs").glob("*.md")]:
        texts[page] = respell_page(read(page), names, old)
    for path, text in texts.items():
        if text != read(path):
            path.write_text(text, encoding="utf-8")


if __name__ == "__main__":
    main()
