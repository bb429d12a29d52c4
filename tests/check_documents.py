#!/usr/bin/env python3
"""Holds docs/MAP.md to the documents that it maps and to the files that it names; docs/DECISIONS.md, CALLS, GUARANTEES and READING to the names that
they have; and every document, README.md, docs/*.md, examples/README.md and tests/README.md, to the files that it names, to its links and, with the
files of crates/, to a width. README has at most 150 lines and names every crate of crates.txt.

    python3 tests/check_documents.py [FOLDER]        the repository, where it is not the one that this file is in

Sentences. A table of MAP whose first column is headed `document NN` quotes docs/NN-*.md there, in double quotes. Every word of that document,
but for headings, examples in fences and heads of tables, must stand in a quotation, and every quotation in the document. `..` stands for words
left out, up to the end of the sentence. `...` leaves out the rest of a paragraph; it is for rows of which the next cell says `not yet`.

Names. `crate/specs/File: `name`` says that the file declares the name; `Other: `name`` is a file of the same folder; a name without a file is in
the file named last in its column. A name in brackets after another stands somewhere in that file. In the column of functions a name is declared
in the code of the crate named before it, `crate: `name``, or of any. In the column of edits, `crate: name` is crates/crate/must-fail/name.edit; a
name without a crate is of the crate named last in the column; a cell without an edit says `none meant: ` and why. Files that a document names
exist, but for what is built, in crates/NAME/out; a name behind one, as in MAP, is declared in it in GUARANTEES. What stands between backticks in
DECISIONS, CALLS, GUARANTEES and READING and begins with a name, as `name`, `name()`, `name x y` or `crate::name`, is a crate, or the name stands in
the code, the definitions or the proofs of a crate, or in a header or a binding, outside of comments, or is an example's.

Links. `[..](file#heading)` leads to a file and to a heading in it.

The last line is 'N passed, M failed'.
"""
import re
import sys
from pathlib import Path

ROOT = Path(sys.argv[1] if len(sys.argv) > 1 else Path(__file__).parent.parent)
MAP = ROOT / "docs/MAP.md"
DOCUMENTS = [ROOT / "README.md", *sorted((ROOT / "docs").glob("*.md")), ROOT / "examples/README.md", ROOT / "tests/README.md"]
NAMING = ["docs/%s.md" % name for name in "DECISIONS CALLS GUARANTEES READING".split()]
WIDTH = 140
README_LINES = 150
SENTENCE_END = re.compile(r"(?<=[^.][.?!])\s+(?=[^a-z.])")
FILE = re.compile(r"[\w+]+(?:/[\w+.-]+)+")
NAMED_FILE = re.compile(r"(?<![\w/.])(?!target/)(?:\w+/(?:specs|proofs|src|must-fail)|(?:bench|bindings|crates|docs|examples|include|tests))/[\w+./-]+")
BUILT = re.compile(r"crates/\w+/out/")
WORD = r"[\w'′₀-₉-]"  # a letter of a name in specs/ and proofs/
NAME = re.compile(r"(?<!%s)[^\W\d_]%s*" % (WORD, WORD))
# what the archive calls; what bench/run puts before names, and what names of tests begin with; commands and their words; what is printed
OUTSIDE = {"memcpy", "memset", "before_", "expect_", "call_", "run_", "check_", "rt", "rustc", "head", "flock", "setsid", "setpriv", "pipefail",
           "axioms", "refused", "N"}


class Results:
    def __init__(self):
        self.passed = self.failed = 0

    def add(self, good, told):
        self.passed += bool(good)
        self.failed += not good
        if not good:
            print(told)
        return good


# --- sentences -----------------------------------------------------------------

def plain(text):
    return " ".join(re.sub(r'[`"]|\*\*', "", text).split())


def paragraphs(path):
    """(line, sentences) for each paragraph, item and row of a document."""
    fenced, found = False, []
    for number, line in enumerate(path.read_text().splitlines(), 1):
        if line.startswith("```"):
            fenced = not fenced
        elif fenced or line.startswith("#") or not line.strip():
            continue
        elif line.startswith("|"):
            if set(line) <= set("|-: "):
                found.pop()  # the head of the table, above its rule
            else:
                found.append((number, [plain(cell) for cell in line.strip("|").split("|")]))
        else:
            found.append((number, SENTENCE_END.split(plain(re.sub(r"^(- |\d+\. )", "", line)))))
    return found


def pattern(quotation):
    """What a quotation with words left out matches. In the text a sentence ends in a line feed, a paragraph in two."""
    parts = [re.escape(part.strip()).replace("\\ ", r"\s+") for part in re.split(r"(?<!\.)(\.\.\.?)(?!\.)", plain(quotation))]
    for i in range(1, len(parts), 2):
        to_the_end = not parts[i + 1]
        skipped = r"(?:[^\n]|\n(?!\n))" if parts[i] == r"\.\.\." else r"[^\n]"
        parts[i] = skipped + ("*" if to_the_end else "*?")
    return "".join(parts)


def check_sentences(results, path, quotations):
    told = paragraphs(path)
    text = "\n\n".join("\n".join(sentences) for _, sentences in told)
    covered = bytearray(len(text))
    for number, quotation in quotations:
        whole = re.escape(plain(quotation)).replace("\\ ", r"\s+")
        places = list(re.finditer(whole, text)) or list(re.finditer(pattern(quotation), text))
        results.add(places, 'docs/MAP.md:%d: not in %s: "%s"' % (number, path.name, quotation))
        for place in places:
            covered[place.start():place.end()] = b"\1" * (place.end() - place.start())
    at = 0
    for number, sentences in told:
        for sentence in sentences:
            left = "".join(c if not covered[at + i] else "\n" for i, c in enumerate(sentence))
            missing = [part.strip() for part in left.split("\n") if re.search(r"[^\W\d_]", part)]
            results.add(not missing, "docs/%s:%d: no row of docs/MAP.md has: %s" % (path.name, number, " [..] ".join(missing)))
            at += len(sentence) + 1
        at += 1


# --- names ---------------------------------------------------------------------

def sources(*kinds):
    """The files of crates/ with these endings, but for what is built there."""
    return [path for kind in kinds for path in (ROOT / "crates").rglob("*" + kind) if path.relative_to(ROOT / "crates").parts[1] != "out"]


def without_comments(path):
    marks = r"//.*" if path.suffix == ".rt" else r"--.*|^use .*"
    return re.sub(marks, "", path.read_text(), flags=re.M)


class Crates:
    """Where the files of the crates are, and what they declare."""

    def __init__(self):
        self.names = sorted(path.name for path in (ROOT / "crates").iterdir())

    def files(self, place):
        """The files that a place means: a file of the repository or of a crate, or a folder of proofs."""
        for path in (ROOT / place, ROOT / "crates" / place, ROOT / "crates" / (place + ".antt")):
            if path.is_file():
                return [path]
            if path.is_dir():
                return sorted(path.rglob("*.antt")) or [path]
        return []

    def code(self, crates):
        return [path for crate in crates for path in (ROOT / "crates" / crate / "src").rglob("*.rt")]

    def declares(self, path, name):
        text, name = without_comments(path), re.escape(name)
        if path.suffix == ".rt":
            return re.search(r"\b(fn|struct|enum|const|mod) %s\b" % name, text)
        return re.search(r"^\s*(?:(?:pub|abbrev|unfoldable|record|data|module) )*%s(?!%s).* ?:" % (name, WORD), text, re.M)

    def has(self, path, name):
        return re.search(r"(?<!%s)%s(?!%s)" % (WORD, re.escape(name), WORD), without_comments(path))


def tokens(cell):
    """(kind, word) of a cell: file, place (a word before a colon), name, part (a name in brackets after another)."""
    kinds = r"`(?P<name>[^`]+)`|(?P<file>%s)|(?P<place>\w+(?:, \w+)*):(?= )|(?P<bare>\w+_\w+)|(?P<open>\((?=`))|(?P<close>\))" % FILE.pattern
    inside = False
    for found in re.finditer(kinds, cell):
        kind, word = found.lastgroup, found.group(found.lastgroup)
        inside = kind == "open" or inside and kind != "close"
        if kind not in ("open", "close"):
            yield ("part" if inside and kind == "name" else kind), word


def check_place(results, crates, where, kind, word, files):
    """The files that stand for the names after a file, or after `Other:`, one of the same folder."""
    if kind == "place":
        files = [files[0].parent / (word.split()[-1] + ".antt")]
    else:
        files = crates.files(word)
    good = results.add(files and files[0].exists(), "%s: no file %s" % (where, files[0].relative_to(ROOT) if files else word))
    return files if good else []


def is_place(kind, word, files):
    return kind == "file" or kind == "place" and files and word.split()[-1][0].isupper()


def check_statements(results, crates, where, cell, files):
    """A cell of definitions or laws; the files that it names last."""
    for kind, word in tokens(cell):
        if is_place(kind, word, files):
            files = check_place(results, crates, where, kind, word, files)
        elif kind in ("name", "part"):
            looks = crates.declares if kind == "name" else crates.has
            shown = ", ".join(str(path.relative_to(ROOT)) for path in files[:3]) or "a file, since none is named before it"
            results.add(any(looks(path, word) for path in files), "%s: `%s` is not in %s" % (where, word, shown))
    return files


def check_functions(results, crates, where, cell):
    for part in cell.split(";"):
        among = crates.names
        for kind, word in tokens(part):
            if kind == "place" and word.split()[-1] in crates.names:
                among = [word.split()[-1]]
            elif kind == "file":
                results.add(crates.files(word), "%s: no file %s" % (where, word))
            elif kind == "bare":
                results.add(word in crates.names, "%s: no crate %s" % (where, word))
            elif kind in ("name", "part"):
                code = crates.code(among)
                good = any(crates.declares(path, word) if word.isidentifier() else word in path.read_text() for path in code)
                results.add(good, "%s: no `%s` in the code of %s" % (where, word, among[0] if len(among) == 1 else "any crate"))


def check_edits(results, crates, where, cell, last):
    """A cell of edits; the crates that it names last."""
    if not cell or cell.startswith("none"):
        results.add(re.match(r"none meant: \S", cell), "%s: no edit and no law of exclusion, and not said why (none meant: ..)" % where)
        return last
    edits, files = 0, []
    for kind, word in tokens(cell):
        if is_place(kind, word, files):
            files = check_place(results, crates, where, kind, word, files)
        elif kind == "name":
            edits += 1
            results.add(any(crates.declares(path, word) for path in files), "%s: no law of exclusion `%s`" % (where, word))
        named = [crate for crate in re.split(", ", word) if crate in crates.names] if kind == "place" else []
        if named:
            last = named
        elif kind == "bare" and word not in crates.names:
            edits += 1
            for crate in last or ["?"]:
                path = "crates/%s/must-fail/%s.edit" % (crate, word)
                results.add((ROOT / path).is_file(), "%s: no file %s" % (where, path))
    results.add(edits, "%s: names neither an edit nor a law of exclusion" % where)
    return last


def check_text(results, crates, where, text, files):
    """A line outside of tables: the files that it names are there, and the names are declared somewhere."""
    everywhere = sources(".rt", ".antt")
    for kind, word in tokens(re.sub(r"\[[^]]*\]\([^)]*\)", "", text)):
        if is_place(kind, word, files):
            files = check_place(results, crates, where, kind, word, files)
        elif kind in ("name", "part") and re.fullmatch(WORD + "+", word):
            results.add(any(crates.declares(path, word) for path in everywhere), "%s: nothing is called `%s`" % (where, word))
        elif kind == "bare" and word not in crates.names:
            results.add(any(ROOT.glob("crates/*/must-fail/%s.edit" % word)), "%s: no crate and no edit %s" % (where, word))
    return files if text else []


def check_map(results):
    crates = Crates()
    quotations = {}
    head, files = [], []
    for number, line in enumerate(MAP.read_text().splitlines(), 1):
        where = "docs/MAP.md:%d" % number
        if not line.startswith("|"):
            head = []
            files = check_text(results, crates, where, line, files)
            continue
        cells = [cell.strip() for cell in line.strip().strip("|").split("|")]
        if not head:
            head, last = cells, {}
        elif not set(line) <= set("|-: ") and results.add(len(cells) == len(head), "%s: %d cells" % (where, len(cells))):
            row = dict(zip(head, cells))
            document = re.fullmatch(r"document (\d+)", head[0])
            if document:
                quoted = re.findall(r'"([^"]+)"', cells[0])
                results.add(quoted, "%s: quotes nothing" % where)
                for quotation in quoted:
                    allowed = "..." not in quotation or cells[1].startswith("not yet")
                    results.add(allowed, "%s: `...` in a row that does not say `not yet`" % where)
                    quotations.setdefault(document[1], []).append((number, quotation))
            for column in ("definition", "law"):
                last[column] = check_statements(results, crates, where, row.get(column, ""), last.get(column, []))
            check_functions(results, crates, where, row.get("function", ""))
            last["edit"] = check_edits(results, crates, where, row.get("edit or exclusion", "none meant: no such column"), last.get("edit"))
    for path in sorted((ROOT / "docs").glob("[0-9][0-9]-*.md")):
        check_sentences(results, path, quotations.get(path.name[:2], []))


def check_files(results):
    """The files that any document names."""
    crates = Crates()
    for path in DOCUMENTS:
        for number, line in enumerate(path.read_text().splitlines(), 1):
            for word in NAMED_FILE.findall(line):
                word = word.rstrip(".-")
                results.add("NAME" in word or BUILT.match(word) or crates.files(word), "%s:%d: no file %s" % (path.relative_to(ROOT), number, word))


def check_names(results):
    """The names between backticks in the documents of NAMING."""
    crates = Crates()
    known = set(crates.names) | OUTSIDE | {program.stem for program in (ROOT / "examples").rglob("*.*")}
    for source in sources(".rt", ".antt"):
        known.update(NAME.findall(without_comments(source)))
    for header in (ROOT / "include").glob("*.h"):
        known.update(NAME.findall(re.sub(r"(?s)/\*.*?\*/", "", header.read_text())))
    for binding, comments in (("rust/mealbis.rs", r"//.*"), ("python/mealbis.py", r'(?s)""".*?"""|#[^\n]*')):
        known.update(NAME.findall(re.sub(comments, "", (ROOT / "bindings" / binding).read_text())))
    for path in (ROOT / name for name in NAMING):
        for number, line in enumerate(path.read_text().splitlines(), 1):
            for quoted in re.findall(r"`([^`]+)`", line):
                name = NAME.match(quoted)
                if name and re.fullmatch(r"(::.*|\(.*\))?( .*)?", quoted[name.end():]):
                    for part in NAME.findall(re.match(r"[\w:]*", quoted)[0]) if "::" in quoted else [name[0]]:
                        results.add(part in known, "%s:%d: nothing is called `%s`" % (path.relative_to(ROOT), number, part))


def check_guarantees(results):
    """The names behind a file in docs/GUARANTEES.md are declared in it."""
    crates, path = Crates(), ROOT / "docs/GUARANTEES.md"
    for number, line in enumerate(path.read_text().splitlines(), 1):
        for place, names in re.findall(r"(\w+/specs/\w+): ((?:`[^`]+`(?:, )?)+)", line):
            for name in re.findall(r"`([^`]+)`", names):
                files = crates.files(place)
                good = files and crates.declares(files[0], name)
                results.add(good, "docs/GUARANTEES.md:%d: `%s` is not in %s" % (number, name, place))


def anchors(path):
    """The headings of a document, as links name them."""
    headings = re.findall(r"^#+ (.*)$", re.sub(r"(?ms)^```.*?^```$", "", path.read_text()), re.M)
    return {re.sub(r"[^\w -]", "", heading.lower()).replace(" ", "-") for heading in headings}


def check_links(results):
    """The links of every document."""
    for path in DOCUMENTS:
        for place, heading in re.findall(r"\]\((?!https?:)([^)#\s]*)#?([^)\s]*)\)", re.sub(r"`[^`\n]*`", "", path.read_text())):
            target = path.parent / place if place else path
            good = target.exists() and (not heading or heading in anchors(target))
            results.add(good, "%s: no %s#%s" % (path.relative_to(ROOT), place, heading))


def check_readme(results):
    text = (ROOT / "README.md").read_text()
    lines = len(text.splitlines())
    results.add(lines <= README_LINES, "README.md: %d lines, and at most %d are wanted" % (lines, README_LINES))
    for name in re.findall(r"^(\w+)(?: staticlib)?:", (ROOT / "crates.txt").read_text(), re.M):
        results.add(re.search(r"^ *%s  +\S" % name, text, re.M), "README.md: no line for the crate %s" % name)


def check_widths(results):
    """The lines of the documents, outside of tables, and of the files of crates/."""
    documents = [path for path in DOCUMENTS if not re.match(r"\d\d-", path.name)]
    for path in documents + sorted(sources(".rt", ".antt")):
        wide = [
            (number, len(line))
            for number, line in enumerate(path.read_text().splitlines(), 1)
            if len(line) > WIDTH and not line.startswith("|")
        ]
        results.add(not wide, "%s: lines of more than %d columns: %s" % (path.relative_to(ROOT), WIDTH, wide))


def main():
    results = Results()
    check_map(results)
    check_files(results)
    check_names(results)
    check_guarantees(results)
    check_links(results)
    check_readme(results)
    check_widths(results)
    print("%d passed, %d failed" % (results.passed, results.failed))
    return 1 if results.failed else 0


if __name__ == "__main__":
    sys.exit(main())
