#!/usr/bin/env python3
"""Spells the definitions and lemmas of the crates as today's Rattle spells them: words in snake case, types and modules in camel case.

usage: python3 tools/spell_names.py     at the top of the repository, once, after port.py

It goes by whole words. A word turns if a file of specs/ or proofs/ declares it, at the left margin, in a section or as a field or constructor, and
it has a capital behind a small letter or a dash: boundReached and bound-reached become bound_reached. Names that begin with a capital are types and keep
it. Two names that would fall together stand in APART. Words turn in specs/ and proofs/, in the clauses and comments of src/ and in the must-fail
edits, and in the code spans of the documents; strings, and whatever else Rust reads, stay. It prints what fell together, if anything.
"""

import os
import re

SIGNATURE = re.compile(r"^(\s*)(?:(?:abbrev|unfoldable|pub|data|record|ruleset)\s+)*([^\s:(){}.,;=]+)(?:\s+[({].*)?\s*:(?:\s|$)")
BLOCK = re.compile(r"^(?:(?:abbrev|unfoldable|pub)\s+)*(?:record|data|module) ")
WORD = re.compile(r"[^\s(){}.;,@\"«»\[\]`]+")
QUOTED = re.compile(r"\"(?:[^\"\\]|\\.)*\"|'(?:[^'\\\n]|\\.)'")
SPAN = re.compile(r"`[^`\n]*`")

# Lemmas that would have a definition's name, or another lemma's of the same file.
APART = {
    "any-bits": "any_bits_lem",
    "band-by": "band_by_lem",
    "bid-at": "bid_at_lem",
    "block-bytes": "block_bytes_lem",
    "byte-named": "byte_named_lem",
    "bytes-named": "bytes_named_lem",
    "changed-place": "changed_place_lem",
    "choice-reply": "choice_reply_lem",
    "codes-long": "codes_long_lem",
    "empty-at": "empty_at_lem",
    "frames-of": "frames_of_lem",
    "in-range": "in_range_lem",
    "length-bytes": "length_bytes_lem",
    "norm-bits": "norm_bits_lem",
    "norm-words": "norm_words_lem",
    "not-past": "not_past_lem",
    "place-of": "place_of_lem",
    "record-at": "record_at_lem",
    "rounds-by-rates": "rounds_by_rates_lem",
    "size-at": "size_at_lem",
    "stopped-at": "stopped_at_lem",
}
# A module of specs/ that would have a name of the toolchain's own.
MODULES = [("crates/promises/specs/Contracts.antt", "crates/promises/specs/Promised.antt")]
PATHS = [("Rattle.promises.specs.Contracts", "Rattle.promises.specs.Promised")]


def files(folder, endings):
    for above, folders, names in os.walk(folder):
        folders[:] = sorted(f for f in folders if f not in ("out", "target", ".git"))
        yield from (os.path.join(above, n) for n in sorted(names) if n.endswith(endings))


def pages():
    return [*files("docs", ".md"), "README.md", "CONTRIBUTING.md", "CHANGELOG.md"]


def read(path):
    with open(path, encoding="utf-8") as it:
        return it.read()


def write(path, text):
    if text != read(path):
        with open(path, "w", encoding="utf-8") as it:
            it.write(text)


def of_a_function(path):
    return path.endswith("/Proof.antt")


def declared():
    for path in files("crates", ".antt"):
        if of_a_function(path):
            continue
        inside = False
        for line in read(path).split("\n"):
            if BLOCK.match(line):
                inside = True
            elif line.strip() and not line.startswith((" ", "--")):
                inside = False
            it = SIGNATURE.match(line)
            if it and not line.startswith("use ") and not line.lstrip().startswith("--") and (not it[1] or inside):
                yield it[2], path


def spelled(name):
    if name in APART:
        return APART[name]
    if not name[0].isupper():
        name = re.sub(r"(?<=[a-z0-9])[A-Z]", lambda it: "_" + it[0].lower(), name)
    return name.replace("-", "_") if re.search(r"[^\W_]", name) else name


def turned(text, rows):
    return WORD.sub(lambda it: rows.get(it[0], it[0]), text)


def outside(pattern, text, turn):
    out, at = [], 0
    for it in pattern.finditer(text):
        out += [turn(text[at : it.start()]), it[0]]
        at = it.end()
    return "".join(out) + turn(text[at:])


def main():
    own = {}
    for name, path in declared():
        own.setdefault(name, set()).add(path)
    rows = {name: spelled(name) for name in own if spelled(name) != name}
    met = {}
    for name in own:
        met.setdefault(rows.get(name, name), []).append(name)
    for new, olds in sorted(met.items()):
        if len(olds) > 1:
            print("together:", new, olds, sorted(set.union(*(own[o] for o in olds))))
    for path in files("crates", ".antt"):
        text = read(path)
        for old, new in PATHS:
            text = text.replace(old, new)
        write(path, turned(text, rows))
    for path in [*files("crates", ".rt"), *files("crates", ".edit")]:
        write(path, outside(QUOTED, read(path), lambda text: turned(text, rows)))
    # The documents also have names that port.py turned.
    said = {n: spelled(n) for p in pages() for it in SPAN.finditer(read(p)) for n in WORD.findall(it[0]) if spelled(n) in met}
    for path in pages():
        write(path, SPAN.sub(lambda it: turned(it[0], said | rows), read(path)))
    for old, new in MODULES:
        if os.path.exists(old):
            os.rename(old, new)
            lib = os.path.join(os.path.dirname(old), "Lib.antt")
            name = lambda p: os.path.basename(p)[:-5]
            write(lib, read(lib).replace(f"mod {name(old)}\n", f"mod {name(new)}\n"))
    print(f"{len(rows)} names turned")


if __name__ == "__main__":
    main()
