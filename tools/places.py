#!/usr/bin/env python3
"""Lists the places in src/ and proofs/ that docs/DESIGN-PASS.md counts, point by point.

usage: places.py [POINT ..] [--list]      at the top of the repository; --list prints each place beside the counts

1  enums of the shape of Option or Result, values beside an answer, numbers for kinds, parties or refusals, refusals handed on by hand
2  functions whose bodies differ in numbers, types and names alone
3  loops that count an index by hand: `while`, and `for` over a range whose body reads a slice at the counter
4  conversions, copies, orders and sums of records that are written by hand
5  facts that stand in the `requires` of three or more functions; rows of three or more parameters that three or more functions share
6  slices with a count beside them, and slices that are read side by side
7  enums whose arms call one function each
8  proofs: walks, files of answers, files of invariants
"""
import collections
import re
import sys
from pathlib import Path

WORD = re.compile(r"[A-Za-z_]\w*")


class Function:
    def __init__(self, file, line, name, exported, parameters, answer, clauses, body):
        self.file, self.line, self.name, self.exported = file, line, name, exported
        self.parameters, self.answer, self.clauses, self.body = parameters, answer, clauses, body

    def __str__(self):
        return "%s:%d %s" % (self.file, self.line, self.name)


def closing(text, at, opened, closed):
    """The place behind the bracket that closes the one at `at`."""
    depth = 0
    for place in range(at, len(text)):
        depth += (text[place] == opened) - (text[place] == closed)
        if depth == 0:
            return place + 1
    raise ValueError("open bracket")


def functions_of(file):
    text = re.sub(r"//[^\n]*", "", file.read_text())
    for found in re.finditer(r"\bfn (\w+)", text):
        at = text.index("(", found.end())
        behind = closing(text, at, "(", ")")
        rows = [row.strip() for row in re.split(r",(?![^<\[(]*[>\])])", text[at + 1:behind - 1]) if row.strip()]
        clauses, place = [], behind
        while True:
            clause = re.compile(r"\s*(requires|ensures|ghost)\*?[ \w]*\{").match(text, place)
            head = re.compile(r"[^{};]*?(?=requires|ensures|\{|;)").match(text, place)
            if clause:
                place = closing(text, clause.end() - 1, "{", "}")
                clauses.append((clause.group(1), " ".join(text[clause.end():place - 1].split())))
            elif head and head.group().strip():
                place = head.end()
                answer = head.group()
            else:
                break
        start = text.find("{", place)
        body = text[start:closing(text, start, "{", "}")] if start >= 0 and not text[place:start].strip() else ""
        answer = text[behind:text.find("{", behind)].split("requires")[0].split("ensures")[0]
        exported = 'extern "C"' in text[max(0, found.start() - 20):found.start()]
        yield Function(file, text[:found.start()].count("\n") + 1, found.group(1), exported, rows, answer.strip(), clauses, body)


def facts(clause):
    """The parts of a clause at its outermost ×."""
    depth, part = 0, ""
    for letter in clause:
        depth += (letter in "({") - (letter in ")}")
        if letter == "×" and depth == 0:
            yield part.strip().strip("()")
            part = ""
        else:
            part += letter
    yield part.strip().strip("()")


def plain(body):
    body = re.sub(r"\b\w+_\d+\b|\b\d+\b", "#", body)
    body = re.sub(r"\b[iu](8|16|32|64|size)\b", "int", body)
    return " ".join(body.split())


def shape(body):
    """A body with each name replaced by the order in which it first stands there."""
    seen = {}
    return re.sub(WORD, lambda word: word.group() if word.group() in KEPT else "n%d" % seen.setdefault(word.group(), len(seen)), plain(body))


KEPT = "let mut if else while for in return match as Ok Err Some None".split()


def main():
    points = [int(word) for word in sys.argv[1:] if word.isdigit()] or list(range(1, 9))
    listed = "--list" in sys.argv
    files = sorted(Path("crates").glob("*/src/**/*.rt"))
    functions = [function for file in files for function in functions_of(file)]
    own = [function for function in functions if not function.exported]

    def show(point, what, places):
        if point in points:
            print("%d  %-66s %d" % (point, what, len(places)))
            for place in places if listed else []:
                print("       %s" % (place,))

    def lines(pattern):
        return ["%s:%d %s" % (file, number, line.strip()) for file in files
                for number, line in enumerate(file.read_text().splitlines(), 1) if re.search(pattern, line.split("//")[0])]

    enums = [(file, name, body) for file in files for name, body in re.findall(r"enum (\w+) \{(.*?)\n\}", file.read_text(), re.S)]
    show(1, "enums of the shape of Option or Result",
         ["%s %s" % (file, name) for file, name, body in enums if re.search(r"^    (Refused|None)\b", body, re.M)])
    show(1, "an answer beside another value in a struct", lines(r"^    pub answer:"))
    show(1, "refusals handed on by hand", lines(r"if let \w+::Refused\(|\w+::Refused\((refusal|_)\) => \w+::Refused|Answer::Refused\(_\) => answer"))
    show(1, "numbers for kinds, conditions, parties, refusals (parameters, answers)",
         [f for f in own if any(re.match(r"(kind|party|condition|i|j): (usize|u32|u64)$", row) and (row[:2] not in ("i:", "j:") or "refusals" in f.name)
                                for row in f.parameters) or re.match(r"(number_of|place_of|caller|owner)", f.name)])
    groups = collections.defaultdict(list)
    for function in functions:
        if len(function.body) > 12:
            groups[shape(function.body), len(function.parameters)].append(function)
    twins = [group for group in groups.values() if len(group) > 1]
    show(2, "groups of functions with one body but for numbers, types and names", [", ".join(map(str, group)) for group in twins])
    numbered = collections.defaultdict(list)
    for function in functions:
        if re.search(r"_(\d+|small)$", function.name):
            numbered[re.sub(r"_(\d+|small)$", "", function.name)].append(function)
    show(2, "families of functions with a number or a size in the name", [", ".join(map(str, group)) for group in numbered.values()])
    show(3, "while loops", lines(r"^\s*while\b"))
    show(3, "for loops over a range whose body reads a slice at the counter",
         ["%s" % f for f in functions for found in re.finditer(r"for (\w+) in [^{]*\.\.[^{]*\{", f.body)
          if re.search(r"\[%s\]|\[[\w ]+ \+ %s\]" % (found.group(1), found.group(1)), f.body)])
    by_hand = "size_of size_of_small larger shorter at_most signed_of bits_of wide number_of place_of number_of_mark plus add subtract put_byte"
    show(4, "conversions, sizes, orders and sums by hand (functions)", [f for f in own if f.name in by_hand.split()])
    show(4, "records copied field by field", lines(r"^\s+products: spent\.products"))
    counted = collections.defaultdict(set)
    for function in functions:
        for kind, clause in function.clauses:
            for fact in facts(clause) if kind == "requires" else []:
                if len(WORD.findall(fact)) > 1:
                    counted[re.sub(r"\b\w+\.(now|old)\b", "it", fact) if "IsQuarterWave" in fact or "account" in fact else fact].add(str(function))
    show(5, "facts in the requires of three or more functions", ["%s: %d" % (fact, len(at)) for fact, at in counted.items() if len(at) > 2])
    rows = collections.defaultdict(set)
    for function in own:
        for start in range(len(function.parameters)):
            for end in range(start + 3, len(function.parameters) + 1):
                rows[", ".join(function.parameters[start:end])].add(str(function))
    rows = {row: at for row, at in rows.items() if len(at) > 2}
    longest = [row for row in rows if not any(row != other and row in other and len(rows[other]) >= len(rows[row]) for other in rows)]
    show(5, "rows of parameters that three or more functions share", ["%s: %d" % (row, len(rows[row])) for row in longest])
    show(6, "functions with a slice and a count or a place beside it",
         [f for f in own if any("[" in row and "1025" not in row for row in f.parameters)
          and any(re.match(r"(n|m|yields|at|room|shortest|stored|to): usize$", row) for row in f.parameters)])
    show(7, "enums whose arms each call a function",
         ["%s match %s" % (f, what) for f in functions for what in re.findall(r"match (call|part|turns|kind|step) \{", f.body)])
    for what in ["Proof.antt", "Answers.antt", "Invariants.antt"]:
        show(8, "files " + what, sorted(Path("crates").glob("*/proofs/**/" + what)))


main()
