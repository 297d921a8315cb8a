#!/usr/bin/env python3
"""Lists the places in src/ that docs/DESIGN-PASS.md counts, point by point, as they stand at a commit.

    python3 tools/places.py [COMMIT] [--list]

Without a commit, as they stand in the work tree. With --list each place has a line of its own.
"""
import collections
import pathlib
import re
import subprocess
import sys

WORDS = [w for w in sys.argv[1:] if not w.startswith("-")]
LIST = "--list" in sys.argv
ROOT = pathlib.Path(__file__).resolve().parent.parent


def git(*words):
    return subprocess.run(["git", *words], cwd=ROOT, check=True, capture_output=True, text=True).stdout


def sources():
    if WORDS:
        for name in git("ls-tree", "-r", "--name-only", WORDS[0], "crates").split():
            if "/src/" in name and name.endswith(".rt"):
                yield name, git("show", f"{WORDS[0]}:{name}")
    else:
        for path in sorted(ROOT.glob("crates/*/src/**/*.rt")):
            yield str(path.relative_to(ROOT)), path.read_text()


FILES = dict(sources())


def without_comments(text):
    return "\n".join("" if line.lstrip().startswith("//") else line for line in text.split("\n"))


def lines(pattern):
    """Each line of code that the pattern is found in."""
    rule = re.compile(pattern)
    for name, text in FILES.items():
        for number, line in enumerate(without_comments(text).split("\n"), 1):
            if rule.search(line):
                yield f"{name}:{number}: {line.strip()[:110]}"


def functions():
    """Name, file, parameters, clauses and result of each function."""
    rule = re.compile(r"\bfn (\w+)(?:<[^>]*>)?\((.*?)\)( -> [^\n{]+)?((?:\n\s+(?:requires|ensures)[^\n]*)*)", re.S)
    for name, text in FILES.items():
        for found in rule.finditer(without_comments(text)):
            parameters = re.findall(r"(\w+): ([^,]+(?:<[^>]*>)?)", found[2])
            yield name, found[1], [(a, b.strip()) for a, b in parameters], found[4], (found[3] or "").strip()


def shaped_enums():
    for name, text in FILES.items():
        for found in re.finditer(r"enum (\w+)[^{]*\{(.*?)\n\}", text, re.S):
            if re.search(r"\b(Refused|NoChange|None|Nothing|Failed)\b", found[2]):
                yield f"{name}: enum {found[1]}"


def numbers_for_kinds():
    yield from lines(r"^\s+(pub )?(refusal|mark|fate): u8,")
    yield from lines(r"^\s+(pub )?of_k1: bool,")
    yield from lines(r"^\s+\w+ => .*(LENGTH|NOWHERE)")
    for name, fn, parameters, _, result in functions():
        if re.search(r"refusal|mark_in|^fate$|^settings_in$", fn) and result == "-> u8":
            yield f"{name}: fn {fn} -> u8"
        for word, kind in parameters:
            if word in ("fault", "kind") and kind in ("u8", "usize"):
                yield f"{name}: fn {fn}({word}: {kind})"
            if word == "f" and kind == "usize":
                yield f"{name}: fn {fn}(f: usize)"


def numbered_arms():
    """Functions that match on a number's values."""
    for name, text in FILES.items():
        for found in re.finditer(r"fn (\w+)[^{]*\{(?:(?!\nfn |\npub ).)*?match (?:(?!\nfn |\npub ).)*?\n\s+\d+ =>", text, re.S):
            yield f"{name}: match on numbers in fn {found[1]}"


def same_names():
    places = collections.defaultdict(list)
    for name, fn, _, _, _ in functions():
        if fn != "main":
            places[fn].append(name)
    for fn, found in sorted(places.items()):
        if len(found) > 1:
            yield f"fn {fn}: " + ", ".join(found)


def travelling():
    groups = collections.Counter()
    wanted = [("n", "hold", "mask", "w"), ("page", "at"), ("conditions", "commands"), ("accepted", "sent", "held")]
    for name, fn, parameters, _, _ in functions():
        words = [a for a, _ in parameters]
        for group in wanted:
            if all(w in words for w in group):
                groups[group] += 1
    for group, number in groups.items():
        if number > 2:
            yield f"{', '.join(group)}: parameters of {number} functions"


def repeated_facts():
    facts = collections.defaultdict(set)
    for name, fn, _, clauses, _ in functions():
        for found in re.finditer(r"requires \{ (.*) \}", clauses):
            for fact in found[1].split(" × "):
                fact = re.sub(r"\b(contents|capture|bodies|s|sent1|k1|table|received|sent|held|accepted)\b", "_", fact.strip(" ()"))
                facts[fact].add((name, fn))
    for fact, places in sorted(facts.items()):
        if len(places) > 2:
            yield f"{fact}: asked for by {len(places)} functions"


POINTS = [
    ("1 an enum shaped like Option or Result", shaped_enums),
    ("1 numbers for kinds and refusals", numbers_for_kinds),
    ("1 a match on numbers", numbered_arms),
    ("2 functions of one name", same_names),
    ("3 while and loop", lambda: lines(r"^\s*('\w+: )?(while|loop)\b")),
    ("4 bytes of numbers by hand", lambda: lines(r"[/%*] (256|65536)\b")),
    ("4 widening by hand", lambda: lines(r"fn (wide|flag)\b|\bwide\(")),
    ("4 fields compared one by one", lambda: lines(r"(\w+)\.(\w+) == (?!\1)\w+\.\2\b")),
    ("4 records copied field by field", lambda: lines(r"^\s+(mask|w): s\.(settings\.)?(mask|w),")),
    ("4 printing through functions of text", lambda: lines(r"^\s*(text::)?print(_\w+)?\(")),
    ("5 a fact in three contracts or more", repeated_facts),
    ("5 parameters that travel together", travelling),
    ("6 a count beside a table", lambda: lines(r"^\s+pub entries: \[|\bcount: u16, table|table: &\[u16\], count|contents: &\[u8\]")),
]

for title, places in POINTS:
    found = list(places())
    print(f"{title}: {len(found)}")
    if LIST:
        for place in found:
            print(f"    {place}")
