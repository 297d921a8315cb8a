#!/usr/bin/env python3
"""Brings this repository's own definitions and lemmas to the spelling of today's Rattle.

Run once, at the top of the repository, after the port.py of the kit. Words are in snake case: `rankOf` becomes
`rank_of` and `rank-of` becomes `rank_of`. A lemma that would have its function's name ends in `_lem`. Types, modules,
functions of src/ and exported names keep theirs, and so does what the library or the checker names.
"""
import collections
import glob
import re
import sys

WORD = r"[A-Za-z0-9_'◌′ℕ≡≤≢⊎]+"
DASHED = re.compile(rf"{WORD}(?:-{WORD})+")
MARKS = r"(?:abbrev |unfoldable |pattern |axiom )*(?:pub )?"
ANTT = sorted(glob.glob("crates/*/specs/*.antt") + glob.glob("crates/*/proofs/**/*.antt", recursive=True))
OTHER = sorted(
    glob.glob("crates/*/src/**/*.rt", recursive=True)
    + glob.glob("crates/*/must-fail/*.edit")
    + ["README.md"]
    + glob.glob("docs/*.md")
)
# Names that the checker makes, whatever file declares them.
MADE = re.compile(r"^(returns|loop|Need|tie|same|invariant|decreases|After|In|Then|Else)-")


def snake(name):
    name = name.replace("-", "_")
    return re.sub(r"(?<=[a-z0-9])([A-Z]+[0-9]*|[A-Z])", lambda m: "_" + m.group(1).lower(), name)


def declared():
    """For each name that a file declares, the files and whether it is a field, an answer to the checker or a definition."""
    found = collections.defaultdict(set)
    for path in ANTT:
        inside = None
        for line in open(path):
            if line.lstrip().startswith("--"):
                continue
            indent = len(line) - len(line.lstrip())
            head = re.match(rf"^\s*{MARKS}(record|data) ([^\s:({{]+)", line)
            if head:
                inside = (head.group(1), indent)
                continue
            if inside and line.strip() and indent <= inside[1]:
                inside = None
            sign = re.match(rf"^\s*{MARKS}([^\s:(){{}}=,]+(?: [^\s:(){{}}=,→.]+)*) (?:\{{[^}}]*\}} )?:(?: (.*))?$", line)
            if not sign:
                continue
            kind = "field" if inside and inside[0] == "record" else "definition"
            if re.match(r"(tie|goal)\.(Need|invariant|decreases)", sign.group(2) or ""):
                kind = "answer"
            for name in sign.group(1).split():
                found[name].add((path, kind))
    return found


def renamings(found):
    new = {}
    own = {n for n in found if any(kind != "answer" for _, kind in found[n])}
    for name in own:
        if re.match(r"[a-z]", name) and re.search(r"[a-z0-9][A-Z]", name):
            new[name] = snake(name)
    taken = collections.Counter(new.values())
    taken.update(n for n in own if n not in new and "-" not in n and any(k == "definition" for _, k in found[n]))
    for name in sorted(own):
        if not DASHED.fullmatch(name) or MADE.match(name):
            continue
        plain = snake(name)
        fields_alone = all(kind == "field" for _, kind in found[name])
        new[name] = plain + "_lem" if taken[plain] and not fields_alone else plain
        if fields_alone:
            new[name] = plain
    return new


def respell(text, new):
    def other(m):
        return new.get(m.group(0), m.group(0))

    text = DASHED.sub(other, text)
    return re.sub(r"(?<![A-Za-z0-9_'\-])[a-z][A-Za-z0-9_']*(?![A-Za-z0-9_'\-])", other, text)


def in_page(text, known):
    """A page names lemmas between backticks; port.py turned some of them in the crates alone."""

    def other(m):
        plain = snake(m.group(1))
        return f"`{plain}`" if plain in known else m.group(0)

    return re.sub(r"`([a-z0-9][A-Za-z0-9_'-]*[A-Z-][A-Za-z0-9_'-]*)`", other, text)


def main():
    found = declared()
    new = renamings(found)
    new["suchThat"] = "such_that"
    for name in ("openedIdle", "fateOfCommand", "codeListed", "channelCarried"):
        new[name] = snake(name)
    known = set(found) | set(new.values())
    if "--list" in sys.argv:
        for old in sorted(new):
            print(old, new[old])
        return
    for path in ANTT + OTHER:
        before = open(path).read()
        after = before
        for old, other in SPECIAL.get(path, ()):
            if old not in after:
                sys.exit(f"{path}: {old!r} is not there")
            after = after.replace(old, other)
        after = respell(after, new).replace("below◌suchThat◌", "below◌such_that◌")
        if path.endswith(".md"):
            after = in_page(after, known)
        if after != before:
            open(path, "w").write(after)


# Places where a name that was in snake case already would fall together with one that comes to it.
SPECIAL = {
    "crates/basics/proofs/Fields.antt": [("fields_fit ", "fields_fit_lem ")],
    "crates/book/proofs/Trips.antt": [("{fields_fit}", "{fields_fit_lem}"), ("(fields_fit bytes", "(fields_fit_lem bytes")],
    "crates/basics/proofs/Theorems.antt": [("Reads as two_at", "Reads as two-at"), ("two_at.Post", "two-at.Post")],
    "crates/controller/proofs/Keeping.antt": [
        ("  held_fits : heldFits", "  held_right : heldFits"),
        ("  held_fits = go s.hold", "  held_right = go s.hold"),
        ("held_fits = held_fits;", "held_fits = held_right;"),
    ],
    "crates/explain/proofs/Alike.antt": [
        ("(mask_fits : maskFits", "(mask_right : maskFits"),
        ("mask_fits = mask_fits;", "mask_fits = mask_right;"),
        ("let (fits, mask_fits) =", "let (fits, mask_right) ="),
        ("w fits mask_fits (r", "w fits mask_right (r"),
    ],
    "crates/explain/proofs/Exact.antt": [
        ("(mask_fits : maskFits", "(mask_right : maskFits"),
        ("mask_fits = mask_fits;", "mask_fits = mask_right;"),
    ],
    "crates/explain/proofs/Theorems.antt": [("w fits mask_fits", "w fits mask_right")],
    "crates/pair/proofs/Coding.antt": [("{bitIn, bit_in}", "{bitIn, bit_in_lem}"), ("= bit_in lowerFits", "= bit_in_lem lowerFits")],
    "crates/pair/proofs/Words.antt": [("pub bit_in :", "pub bit_in_lem :"), ("bit_in test word", "bit_in_lem test word")],
}

if __name__ == "__main__":
    main()
