#!/usr/bin/env python3
"""Gives this repository's own definitions and lemmas today's spelling, once, behind the kit's port.py: words in snake case.

usage: python3 tools/respell.py [FOLDER]   (the top of a checkout; . if none is given)

It goes by whole names, in the .antt files, in the ghost parts of the .rt files, in the must-fail edits, and between backquotes in README.md,
docs/DEMANDS.md and docs/DECISIONS.md. Comments elsewhere, strings, types, facts and modules, single letters of the standard (F, L), and names of the
kit's library stay. It stops if two names would fall together, and writes nothing then.
"""

import os
import re
import sys

TOKEN = re.compile(r"[^\s(){}\[\].;,:`\"]+")
NUMBER = re.compile(r"\d")
CONSTRUCTS = {"SDA", "RLO", "GDA", "CPT", "ISD"}
# Names that would fall together with another one, or with a word of the library.
BY_HAND = {
    "sda": "sda_byte", "rlo": "rlo_byte", "gda": "gda_byte", "isd": "isd_byte", "cpt": "cpt_byte",
    "LENGTH": "length_byte", "map-getD": "map_get_or",
}
# Lemmas that would have a definition's name.
LEMMAS = {name: name + "_lem" for name in "close_row digits_of four_bytes group_at length_part moved_by part_length plain_code row_list signed_by too_long two_bytes value_read".split()}
LEMMAS["float_of"] = "float_specs"

# A name that no path leads to: a field, or a function's module, falls together with nothing.
BARE = re.compile(r"(?<![.\w])" + TOKEN.pattern)


def antt_files(root):
    for folder, dirs, files in os.walk(os.path.join(root, "crates")):
        dirs[:] = sorted(d for d in dirs if d not in ("out", "must-fail"))
        for name in sorted(files):
            if name.endswith(".antt"):
                yield os.path.join(folder, name)


def of_kind(root, ending):
    for folder, dirs, files in os.walk(os.path.join(root, "crates")):
        dirs[:] = sorted(d for d in dirs if d != "out")
        for name in sorted(files):
            if name.endswith(ending):
                yield os.path.join(folder, name)


def read(path):
    with open(path, encoding="utf-8") as f:
        return f.read()


def own_file(path):
    """A file of specs/ or a lemma file: not the proof of one function, whose names the kit gives."""
    parts = path.split(os.sep)
    return parts[-2] in ("specs", "proofs")


def declared(text):
    """The names that a file's signatures, data and fields declare."""
    for line in text.split("\n"):
        words = line.strip()
        if words.startswith(("--", "let ", "use ", "open ", "module", "mod ", "data ", "record ", "pub data ", "pub record ")):
            continue
        m = re.match(r"(?:(?:pub|abbrev|unfoldable) )*((?:[^\s(){}=:]+ +)+): ", words)
        if m:
            yield from m.group(1).split()


def imported(text):
    """Names that a file takes from the library."""
    for m in re.finditer(r"(?m)^\s*(?:pub )?(?:ghost )?use ([^\s{;]+)(?:\{([^}]*)\})?", text):
        if not re.match(r"Rattle\.(?!std\.|core\.)", m.group(1)):
            yield from re.split(r"[,\s]+", m.group(2) or "")


def generated(text):
    for m in re.finditer(r"\b(?:tie|goal|spec)\.([^\s(){};,]+)", text):
        yield m.group(1)


def snake(name):
    if name in BY_HAND:
        return BY_HAND[name]
    parts = []
    for part in re.split(r"[-_]", name):
        if part in CONSTRUCTS:
            part = part.lower()
        elif part[:1].islower():
            part = re.sub(r"([A-Z]+)([A-Z][a-z])", r"\1_\2", part)
            words = re.sub(r"([a-z0-9])([A-Z])", r"\1_\2", part)
            part = re.sub(r"([a-z])([0-9])", r"\1_\2", words).lower() if words != part else part
        elif re.fullmatch(r"[0-9]?[A-F]", part) and parts and parts[-1] in ("plus", "minus", "to"):
            part = part.lower()
        parts.append(part)
    return "_".join(parts)


def names(root):
    own, library, made, used = set(), set(), set(), set()
    for path in antt_files(root):
        text = read(path)
        if own_file(path):
            own.update(declared(text))
        library.update(imported(text))
        made.update(generated(text))
        used.update(LEMMAS.get(w, w) for w in BARE.findall(code_of(text, "--")))
    for path in of_kind(root, ".rt"):
        text = read(path)
        library.update(imported(text))
        used.update(w for part in ghost_parts(text) for w in BARE.findall(part))
    turned = {}
    for name in sorted(own - library - made, key=lambda n: ("-" in n, n)):
        if len(name) < 2 or not re.match(r"[A-Za-z]", name):
            continue
        if name[0].isupper() and name.split("-")[0] not in CONSTRUCTS and name not in BY_HAND:
            continue
        new = snake(name)
        if new != name:
            # a lemma that would have a definition's name
            if "-" in name and (new in used or new in turned.values()):
                new += "_lem"
            turned[name] = new
    return turned, used


def together(turned, used):
    """Pairs of names that would fall together."""
    olds = {}
    for name in used:
        olds.setdefault(turned.get(name, name), set()).add(name)
    return {new: sorted(o) for new, o in olds.items() if len(o) > 1}


def code_of(text, mark):
    return "\n".join(re.split(r"(?:^|(?<=\s))" + mark + r"(?=\s|$)", line)[0] for line in text.split("\n"))


def swap(turned, text):
    return TOKEN.sub(lambda m: turned.get(m.group(0), m.group(0)), text)


def swap_code(turned, text, mark):
    """Text with comments left as they are."""
    out = []
    for line in text.split("\n"):
        cut = re.search(r"(?:^|(?<=\s))" + mark + r"(?=\s|$)", line)
        at = cut.start() if cut else len(line)
        lemmas = BARE.sub(lambda m: LEMMAS.get(m.group(0), m.group(0)), line[:at])
        out.append(swap(turned, lemmas) + line[at:])
    return "\n".join(out)


GHOST = re.compile(r"ghost use [^;]*;|\b(?:requires|ensures)(?: \w+)? \{")


def ghost_spans(text):
    """Where the `ghost use` items and clauses of a .rt file stand."""
    at = 0
    for m in GHOST.finditer(text):
        if m.start() < at:
            continue
        at = m.end()
        depth = 1 if m.group(0).endswith("{") else 0
        while depth and at < len(text):
            depth += {"{": 1, "}": -1}.get(text[at], 0)
            at += 1
        yield m.start(), at


def ghost_parts(text):
    return [text[a:b] for a, b in ghost_spans(text)]


def swap_ghost(turned, text):
    out, at = [], 0
    for a, b in ghost_spans(text):
        out += [text[at:a], swap(turned, text[a:b])]
        at = b
    return "".join(out) + text[at:]


def swap_edit(turned, text):
    """An edit of a definition as the definitions are; an edit of code by its ghost words alone."""
    antt = re.search(r"(?m)^file: \S+\.antt$", text)
    lines = []
    for line in text.split("\n"):
        m = re.match(r"(old:|new:)(.*)", line)
        if m and antt:
            line = m.group(1) + swap_code(turned, m.group(2), "--")
        elif m and re.search(r"requires|ensures", line):
            line = m.group(1) + swap(turned, m.group(2))
        lines.append(line)
    return "\n".join(lines)


def swap_quoted(turned, text):
    return re.sub(r"`[^`\n]+`", lambda m: swap(turned, m.group(0)), text)


def write(path, text):
    if text != read(path):
        with open(path, "w", encoding="utf-8") as f:
            f.write(text)


def main():
    root = sys.argv[1] if len(sys.argv) > 1 else "."
    turned, used = names(root)
    clash = together(turned, used)
    if clash:
        for new, olds in sorted(clash.items()):
            print(f"{new}: {' '.join(olds)}")
        raise SystemExit(f"respell: {len(clash)} names would fall together")
    for path in antt_files(root):
        write(path, swap_code(turned, read(path), "--"))
    for path in of_kind(root, ".rt"):
        write(path, swap_ghost(turned, read(path)))
    for path in of_kind(root, ".edit"):
        write(path, swap_edit(turned, read(path)))
    for name in ("README.md", "docs/DEMANDS.md", "docs/DECISIONS.md"):
        path = os.path.join(root, name)
        if os.path.exists(path):
            write(path, swap_quoted(turned, read(path)))
    print(f"respell: {len(turned)} names")
    for old, new in sorted(turned.items()):
        print(f"{old} {new}")


if __name__ == "__main__":
    main()
