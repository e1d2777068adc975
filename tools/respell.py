#!/usr/bin/env python3
"""Respells this repository's definitions and lemmas in snake case, after port.py: `isClear` is `is_clear`, `put-beyond` is `put_beyond`.

usage: tools/respell.py [--dry]      at the top; prints names that fall together and changes nothing where there are any

Functions of src/, names of goals and loops (which Rattle makes), types, facts and modules keep their spelling, and so do the library's names.
Contracts, definitions, proofs, must-fail edits and the pages below docs/ are turned alike.
"""
import pathlib
import re
import subprocess
import sys

CAMEL = re.compile(r"[a-z][a-z0-9]*(?:[A-Z][a-z0-9]*)+['′]*\Z")
TOKEN = re.compile(r"[^\s(){}\[\];,.\"@`«»]+")
DEFINED = re.compile(r"^\s*(?:(?:pub|abbrev|unfoldable)\s+)*([^\s(){}\[\];,.\"]+)\s+:(?=\s|$)", re.M)
MADE = re.compile(r"(invariant|decreases)-")
GOAL = re.compile(r"^([^\s:]+)\s+:\s+tie\.", re.M)
IMPORT = re.compile(r"^\s*(?:pub )?(?:ghost )?use ([A-Za-z_.]+)\.\{([^}]*)\}", re.M)

# names that would fall together with another word of the file
OTHERWISE = {
    name: name.replace("-", "_") + "_lem"
    for name in "metadata-bytes is-set next-clear is-clear bitmap-length opened-by replay-in has-byte set-slots row-at word-bytes".split()
} | {"ofPage": "of_page_flag"}


def snake(name):
    name = re.sub(r"(?<=[a-z0-9])([A-Z])", lambda m: "_" + m.group(1).lower(), name)
    return name.replace("-", "_").replace("′", "'")


def own_names(texts):
    own = set()
    for path, text in texts.items():
        if path.suffix != ".antt":
            continue
        goals = set(GOAL.findall(text))
        own |= {n for n in DEFINED.findall(text) if n not in goals and n[0].islower() and "-" in n and not MADE.match(n)}
    return own


def library_names(texts):
    names = set()
    for text in texts.values():
        for module, items in IMPORT.findall(text):
            if not re.match(r"Rattle\.(?!std\b)", module):
                names |= {i.strip().split(" as ")[0] for i in items.split(",")}
    return names


def new_name(token, own, library):
    if token in library:
        return token
    if CAMEL.match(token) or token in own:
        return OTHERWISE.get(token, snake(token))
    return token


def turned(path, text, own, library):
    """The text, and the pairs of words that it changes."""
    kept = set(GOAL.findall(text)) if path.suffix == ".antt" else set()
    pairs = {}

    def turn(m):
        token = m.group(0)
        if token in kept or (prose and not CAMEL.match(token)):
            return token
        of_step = m.string[: m.start()].endswith(".")
        new = new_name(token, own, library)
        if new != token:
            new = snake(token) if of_step else new
            pairs[token] = new
        return new

    if path.suffix == ".md":
        prose = False
        return re.sub(r"`[^`\n]+`", lambda m: TOKEN.sub(turn, m.group(0)), text), pairs
    lines = []
    for line in text.split("\n"):
        # in a comment, and in Rust, a dash joins plain words or subtracts
        code, mark, comment = re.match(r"(.*?)((?:^|(?<=\s))(?:--|//|#)(?=\s)|$)(.*)", line).groups()
        prose = path.suffix == ".rt"
        parts = re.split(r'("(?:[^"\\]|\\.)*")', code)
        code = "".join(p if p.startswith('"') else TOKEN.sub(turn, p) for p in parts)
        prose = True
        lines.append(code + mark + TOKEN.sub(turn, comment))
    return "\n".join(lines), pairs


def fall_together(path, text, pairs):
    words = set(TOKEN.findall(text))
    said = [f"{path}: {old} would be {new}, which is there already" for old, new in pairs.items() if new in words]
    for new in set(pairs.values()):
        olds = sorted(o for o, n in pairs.items() if n == new)
        if len(olds) > 1:
            said.append(f"{path}: {' and '.join(olds)} would both be {new}")
    return said


def main():
    listed = subprocess.run(["git", "ls-files", "crates", "docs", "README.md"], capture_output=True, text=True, check=True)
    paths = [pathlib.Path(p) for p in listed.stdout.split()]
    paths = [p for p in paths if p.suffix in (".rt", ".antt", ".edit", ".md") and p.exists() and "tools" not in p.parts]
    texts = {p: p.read_text() for p in paths}
    own, library = own_names(texts), library_names(texts)
    new_texts, said, all_pairs = {}, [], {}
    for path, text in texts.items():
        new, pairs = turned(path, text, own, library)
        all_pairs |= pairs
        if path.suffix == ".antt" and path.name != "Proof.antt":
            said += fall_together(path, text, pairs)
        if new != text:
            new_texts[path] = new
    print("\n".join(said))
    print(f"{len(all_pairs)} names, {len(new_texts)} files")
    if "--list" in sys.argv:
        for old, new in sorted(all_pairs.items()):
            print(f"{old} {new}")
    if "--dry" in sys.argv:
        return 0
    if said:
        return 1
    for path, new in new_texts.items():
        path.write_text(new)
    return 0


if __name__ == "__main__":
    raise SystemExit(main())
