#!/usr/bin/env python3
"""Brings the repository's own names in .antt and .rt files to the spelling of today's library.

usage: respell.py [--list]      at the top of the repository, after port.py

Functions, lemmas, fields and constructors of specs/ and proofs/ are in snake case. A dash stays beside an operator, as in `⊖-eq`; elsewhere
it becomes `_`. Types and modules keep their names, as do functions of src/, their labels, exported names and strings. A lemma that would have
the name of a definition in a file where both stand gets `_lem`.
"""
import collections
import glob
import os
import re
import sys

# a field of two records, and a function of src/: one spelling for both
SHARED = {"largestRest", "blockNumber", "allSmall", "noneBelow", "otherLength"}
# lemmas that have the name of what they speak of
LEMMAS = {"all_small": "all_small_lem", "none_below": "none_below_lem", "other_length": "other_length_lem"}
# a field that has the name of a lemma of a crate below
FIELDS = {"crates/rotation/specs/": {"rest-size": "size_of_rest"}}
# names that are only bound, in a definition's or a lemma's own text
BOUND = "clipLevel flatLimit oddDifferences oddSums publishedProducts publishedSums spectrumOf".split()
TOKEN = re.compile(r"[^\s(){}\[\],;.|\"`⌜⌝λ]+")
DECLARED = re.compile(r"\s*(?:abbrev |unfoldable |pub |data |record |ruleset |module )*([^\s(){}\[\],;.|\"`]+)((?: +[({].*)?) *:(?:\s|$)")
RULESET = re.compile(r"\s*(?:pub )?ruleset ([^\s(){}\[\],;.|\"`]+)")
# names that Rattle makes, which proofs of functions repeat
MADE = re.compile(r".*-requires(-\d+)?$|returns(-.*)?$|.*-init$|.*-preserved$|.*-smaller$|invariant-.*|decreases-.*|μ-.*")


def files(kind):
    return sorted(p for p in glob.glob("crates/*/" + kind, recursive=True) if "/out/" not in p)


def plain(text):
    return re.sub(r"--.*", "", text)


def declared():
    names = set()
    for p in files("specs/**/*.antt") + files("proofs/**/*.antt"):
        with open(p, encoding="utf-8") as f:
            for line in f:
                line = plain(line)
                m = DECLARED.match(line) or RULESET.match(line)
                if not m or m[1] in ("let", "where", "elim", "use", "in"):
                    continue
                names.add(m[1])
    return names


def snake(word):
    return re.sub(r"(?<=[A-Za-z0-9])([A-Z])", lambda m: "_" + m[1].lower(), word)


def is_operator(part):
    return not re.search(r"[A-Za-z0-9]", part)


def respelled(name):
    if MADE.match(name) or name.startswith("+") or "◌" in name:
        return name
    if re.fullmatch(r"[a-z][A-Za-z0-9]*", name):
        return snake(name)
    parts = name.split("-")
    if len(parts) == 1 or any(p == "" for p in parts):
        return name
    spelt = parts[0] if parts[0][:1].isupper() else snake(parts[0])
    for a, b in zip(parts, parts[1:]):
        spelt += ("-" if is_operator(a) or is_operator(b) else "_") + (b if b[:1].isupper() else snake(b))
    return spelt


def falls_together(turn, paths, texts, tokens):
    """The names whose new spelling stands already where they stand, or would be that of two of them; dashed names give way."""
    left = collections.defaultdict(set)
    for a, b in turn.items():
        for p in paths:
            stands = re.search(r"\b" + re.escape(b) + r"\s*:", texts[p]) if p.endswith(".rt") else b in tokens[p]
            if a in tokens[p] and stands:
                left[a].add(p)
    olds = collections.defaultdict(list)
    for a, b in turn.items():
        olds[b].append(a)
    for group in olds.values():
        for p in paths:
            here = sorted((o for o in group if o in tokens[p]), key=lambda o: ("-" in o, o))
            for o in here[1:]:
                left[o].add(p)
    return left


def turned(text, turn, mark):
    """Code is turned; of a comment what stands in backticks, and names of more than one word that are written together."""
    lines = []
    for line in text.split("\n"):
        at = re.search(r"(?:^|\s)" + mark + r"(?:\s|$)", line)
        code, comment = (line[: at.start()], line[at.start() :]) if at else (line, "")
        code = TOKEN.sub(lambda m: turn.get(m[0], m[0]), code)
        comment = re.sub(r"`[^`]*`", lambda m: TOKEN.sub(lambda n: turn.get(n[0], n[0]), m[0]), comment)
        comment = TOKEN.sub(lambda m: m[0] if "-" in m[0] else turn.get(m[0], m[0]), comment)
        lines.append(code + comment)
    return "\n".join(lines)


def main():
    names = declared()
    turn = {n: respelled(n) for n in names | set(BOUND)}
    turn = {a: b for a, b in turn.items() if a != b}
    paths = files("specs/**/*.antt") + files("proofs/**/*.antt") + files("src/*.rt")
    texts, tokens = {}, {}
    for p in paths:
        with open(p, encoding="utf-8") as f:
            texts[p] = f.read()
        code = texts[p] if p.endswith(".rt") else "\n".join(map(plain, texts[p].split("\n")))
        tokens[p] = set(TOKEN.findall(code))
    left = falls_together(turn, paths, texts, tokens)
    for a in sorted(left):
        if a in SHARED:
            continue
        turn[a] += "_lem"
        if any(a in tokens[p] and turn[a] in tokens[p] for p in paths):
            print(f"left: {a} (it would fall together in {', '.join(sorted(left[a]))})")
            del turn[a]
    turn |= LEMMAS | {"flat-limit": "flat_limit", "clip-level": "clip_level"}
    if "--list" in sys.argv:
        for a, b in sorted(turn.items()):
            print(a, b)
        return
    for p in paths:
        own = [it for folder, it in FIELDS.items() if p.startswith(folder)]
        new = turned(texts[p], turn | (own[0] if own else {}), "//" if p.endswith(".rt") else "--")
        if new != texts[p]:
            with open(p, "w", encoding="utf-8") as f:
                f.write(new)
    print(f"{len(turn)} names respelled")


main()
