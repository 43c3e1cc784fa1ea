#!/usr/bin/env python3
"""Brings this repository's own names of definitions, lemmas, constructors, fields and variables to snake case: first lowerCamelCase, then names
with a dash. Run once, behind the kit's port.py.

usage: snake_names.py [--list] ROOT
Reads crates/**/*.rt, *.antt and *.edit, docs/**/*.md, docs/sentences.txt and README.md; rewrites them in place. --list prints OLD NEW and writes nothing.
Names that a file imports from the kit are left, and so are the labels that Rattle makes. It stops, and writes nothing, where two names would fall together.
"""
import os
import re
import sys
from collections import defaultdict

CAMEL = re.compile(r"(?<![\w'′])[a-z][a-z0-9]*(?:_[a-z0-9]+)*(?:[A-Z][a-z0-9]*)(?:[A-Z_a-z0-9]*)(?![\w′])")
# a word of antt's text, and one in which a dash joins two parts
WORD = re.compile(r"[^\s(){}\[\].;,@\"«»:`|]+")
DASHED = re.compile(r"[\wℕ']-[\wℕ']")
IMPORT = re.compile(r"^[ \t]*(?:ghost )?(?:pub )?use ([^\s{;]+?)\.\{([^}]*)\}", re.M)
COMMENT = re.compile(r"(?m)(?:^|(?<=\s))(?:--|//[/!]?)(?:\s.*)?$")
# the files of a function's proof: their labels are Rattle's
OF_FUNCTION = re.compile(r"/proofs/.*/(?:Proof|Answers|Invariants)\.antt$")
# what such a file declares itself, and a label, whose type is the goal of that name
DECLARED = re.compile(r"(?m)^ *(?:pub |abbrev )*([^\s(){}.;,@\"«»:]+)(?: [({][^(){}\n]*[)}])* : *(?:(\w+)\.([^\s(){}.;,]+))?")

# Where the plain form would fall together with another name. A lemma that would have its function's name ends in _lem.
CAMEL_INSTEAD = {"firstRead": "first_read_world"}
DASH_INSTEAD = {
    "data-bytes": "data_agrees",
    "eod-due": "at_eod_due",
    "highest-number": "at_highest_number",
    "is-spent": "left_spent",
    "write-error": "write_with_error",
}
LEMMAS = set(
    "added-opened added-read answer-counted block-accepted block-retaken command-by cut-read element-aux eod-failed eod-located eod-retaken eod-taken"
    " eod-written failed-of filemark-accepted filemark-failed filemark-taken first-opened flag-number frames-of given-up-opened given-up-read gone-in"
    " group-written header-aux header-name headers-written is-header judged-by reading-numbers recording-numbers resumed-read same-only second-opened"
    " second-read sheet-numbers stage-number third-opened third-read through-eod trail-after trail-before".split()
)
# Fields that say of a number that it is none of the cases of these names
NONE_OF = re.compile(r"(?<![\w.])(?:u\.)?((?:locate|read)-(?:busy|good|recovered|unreadable|end-of-data|end-of-medium))(?![\w'-])")
NONE_OF_FILES = {"reading_state/proofs/ReplyView.antt": r"\1", "reading_state/proofs/ListedReplies.antt": r"u.\1"}
# Pairs that are in one file and no clash: one is reached by its module or its record alone.
APART = {"locate-busy", "locate-good", "position-good", "read-busy", "read-end-of-data", "read-end-of-medium", "read-good", "read-recovered", "read-unreadable", "write-overflow", "wrong-phase"}


def files(root):
    for top in ("crates", "docs"):
        for folder, dirs, names in os.walk(os.path.join(root, top)):
            dirs[:] = sorted(d for d in dirs if d not in ("out", ".git", "target"))
            for n in sorted(names):
                if n.endswith((".rt", ".antt", ".edit", ".md")) or n == "sentences.txt":
                    yield os.path.join(folder, n)
    yield os.path.join(root, "README.md")


def of_kit(path, crates):
    steps = path.split(".")
    return steps[0] != "Rattle" or len(steps) < 2 or steps[1] not in crates or "Goals" in steps


def imported(text, crates):
    """The names that a file has from the kit, or as labels of a function's goals."""
    found = set()
    for m in IMPORT.finditer(text):
        if of_kit(m[1], crates):
            found |= {x.strip() for w in m[2].split(",") for x in w.split(" as ")}
    return found


# ---- lowerCamelCase


def in_snake(name):
    if name in CAMEL_INSTEAD:
        return CAMEL_INSTEAD[name]
    return re.sub(r"(?<=[a-z0-9])([A-Z])", lambda m: "_" + m[1].lower(), name).lower()


def camel(texts, crates):
    kit, found, plain = set(), set(), set()
    for p, t in texts.items():
        if p.endswith((".antt", ".rt")):
            kit |= imported(t, crates)
            found |= {m[0] for m in CAMEL.finditer(t)}
            plain |= set(re.findall(r"(?<![\w'])[a-z][a-z0-9_]*(?![\w])", t))
    names = {n: in_snake(n) for n in found if n not in kit}
    after = plain | set(names.values())
    new = {}
    for p, t in texts.items():
        # pages and edits also name what was in snake case before this ran
        loose = p.endswith((".md", ".edit", ".txt"))
        new[p] = CAMEL.sub(lambda m: names.get(m[0]) or (in_snake(m[0]) if loose and in_snake(m[0]) in after else m[0]), t)
    return names, new


# ---- names with a dash


def undashed(name):
    if name in LEMMAS:
        return name.replace("-", "_") + "_lem"
    return DASH_INSTEAD.get(name) or re.sub(r"(?<=[\wℕ'])-(?=[\wℕ'])", "_", name)


def body(text):
    return IMPORT.sub("", COMMENT.sub("", text))


def dashed_names(texts, crates):
    """The names with a dash that the repository's texts declare or bind."""
    own = set()
    for p, t in texts.items():
        if not p.endswith(".antt"):
            continue
        kit, code = imported(t, crates), body(t)
        if p.endswith("/Proof.antt"):
            # a walk by hand: its own names are not to be told from its labels
            continue
        if OF_FUNCTION.search(p):
            own |= {m[1] for m in DECLARED.finditer(code) if DASHED.search(m[1]) and m[3] != m[1] and m[1] not in kit and not m[1].startswith(("returns-", "loop-"))}
        else:
            own |= {m[0] for m in WORD.finditer(code) if DASHED.search(m[0]) and m[0] not in kit}
    return own


def dashes(texts, crates):
    own = dashed_names(texts, crates)
    one = lambda m, names: undashed(m[0]) if m[0] in names else m[0]
    new, clashes = {}, defaultdict(set)
    for p, t in texts.items():
        if p.endswith(".antt"):
            names = own - imported(t, crates)
            words = {m[0] for m in WORD.finditer(COMMENT.sub("", t))}
            # a proof that walks a function's code names the function beside its labels
            for n in words & names if not p.endswith("/Proof.antt") else ():
                if undashed(n) in words and n not in APART:
                    clashes[n].add(p)
            for end, form in NONE_OF_FILES.items():
                if p.endswith(end):
                    t = NONE_OF.sub(lambda m: m[0].replace(m[1], "not-" + m[1]) if form == r"\1" or m[0].startswith("u.") else m[0], t)
            names |= {m[0] for m in WORD.finditer(t) if m[0].startswith("not-") and NONE_OF.fullmatch(m[0][4:])}
            new[p] = WORD.sub(lambda m: one(m, names), t)
        elif p.endswith(".edit"):
            lines = t.split("\n")
            new[p] = "\n".join(WORD.sub(lambda m: one(m, own), x) if x.startswith(("old:", "new:")) else x for x in lines)
        elif p.endswith(".rt"):
            new[p] = t
        else:
            # in a page only what stands between backticks, and not as a part of a path
            new[p] = re.sub(r"`[^`\n]*`", lambda q: re.sub(r"(?<![\w/.-])[\wℕ']+(?:-[\wℕ']+)+(?![\w/.-])", lambda m: one(m, own), q[0]), t)
    return own, new, clashes


def main(argv):
    root = [a for a in argv if not a.startswith("--")][0]
    crates = set(os.listdir(os.path.join(root, "crates")))
    old = {p: open(p, encoding="utf-8").read() for p in files(root)}
    names, texts = camel(old, crates)
    own, texts, clashes = dashes(texts, crates)
    pairs = [(n, s) for n, s in names.items()] + [(n, undashed(n)) for n in own]
    if "--list" in argv:
        for n, s in sorted(pairs):
            print(n, s)
    two = defaultdict(set)
    for n, s in names.items():
        two["camel", s].add(n)
    for n in own:
        two["dash", undashed(n)].add(n)
    bad = {s: v for s, v in two.items() if len(v) > 1}
    if bad or clashes:
        print("two names become one:", bad, {n: sorted(v) for n, v in clashes.items()})
        return 1
    if "--list" in argv:
        return 0
    n = 0
    for p, t in texts.items():
        if t != old[p]:
            with open(p, "w", encoding="utf-8") as f:
                f.write(t)
            n += 1
    print(f"{len(pairs)} names, {n} files")
    return 0


if __name__ == "__main__":
    sys.exit(main(sys.argv[1:]))
