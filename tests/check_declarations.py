#!/usr/bin/env python3
"""Holds what C, Rust and Python are told of the library's functions to the Rattle source.

    python3 tests/check_declarations.py

It reads every `pub extern "C" fn` of crates/mealbis/src, and holds to it the prototypes of include/mealbis.h, the extern block of
bindings/rust/mealbis.rs and what bindings/python/mealbis.py tells ctypes: the functions, the names, the order and the types of all parameters,
and the result. A slice is a pointer and a count, `&[i32]` a pointer to const; a lent array of words is a pointer to a record with as many
fields, whose names are the same in all three. The version, the reasons in words and the constants of the header are the same, too, and nobody else
declares the functions.

Then it tries itself: in each of the three it exchanges every two neighbouring parameters, changes every type, leaves out every function and every
field of a record and more, and each time must find something. The last line is 'N passed, M failed'.
"""
import ctypes
import re
import sys
import types
from pathlib import Path
from typing import NamedTuple

ROOT = Path(__file__).resolve().parent.parent
SOURCE, HEADER, RUST, PYTHON = "crates/mealbis/src", "include/mealbis.h", "bindings/rust/mealbis.rs", "bindings/python/mealbis.py"

# what a parameter of the Rattle source is called in the header, where it is not the same
CALLED = {"real": "re", "imaginary": "im", "told": "answer", ("mealbis_month_blocks", "told"): "blocks", ("mealbis_month_sums", "told"): "sums"}


class Pointer(NamedTuple):
    """To words of a type, or to a record: the types of its fields. `const` is None where the language does not say."""
    const: bool
    to: object


class Declared(NamedTuple):
    """What a file declares: functions as (result, ((name, type), ..)), records as ((field, type), ..) by function, and numbers and texts."""
    functions: dict
    records: dict
    version: int
    reasons: dict
    constants: dict


def number(text):
    return int(text.replace("_", "").rstrip("uU"), 0)


# --- the Rattle source -----------------------------------------------------------------

def rattle_functions(text, aliases):
    """The exported functions, as a caller from outside has to declare them."""
    found = {}
    text = re.sub(r"//.*", "", text)
    for mangled, name, parameters, result in re.findall(r'(#\[unsafe\(no_mangle\)\]\s+)?pub extern "C" fn (\w+)\(([^)]*)\)\s*(?:->\s*(\w+))?', text):
        assert mangled, "%s is exported under another name" % name
        given = []
        for parameter in filter(None, re.split(r",\s*(?![^\[]*\])", parameters.strip().rstrip(","))):
            called, kind = re.fullmatch(r"\s*(\w+)\s*:\s*(.+?)\s*", parameter, re.S).groups()
            given += lent(CALLED.get((name, called), CALLED.get(called, called)), kind, aliases)
        found[name] = plain(result), tuple(given)
    return found


def plain(kind):
    """A type of the Rattle source or of Rust that is a number."""
    kind = {"usize": "size", "Size": "size"}.get(kind, kind)
    if kind not in ("size", "u8", "u32", "i32", "u64", "i64"):
        raise ValueError("%s is no plain number" % kind)
    return kind


def lent(name, kind, aliases):
    """The parameters of C for one of the Rattle source."""
    reference = re.fullmatch(r"&\s*(mut\s+)?(.+)", kind)
    if not reference:
        return [(name, plain(kind))]
    const, kind = not reference[1], aliases.get(reference[2], reference[2])
    several = re.fullmatch(r"\[(\w+)(?:;\s*(\w+))?\]", kind)
    word, count = plain(several[1]), several[2]
    if count:
        return [(name, Pointer(const, (word,) * number(count)))]
    return [(name, Pointer(const, word)), (name + ("_bytes" if word == "u8" else "_words"), "size")]


def rattle_declared(texts):
    """The functions of the source, and its version."""
    aliases = dict(re.findall(r"pub type (\w+) = (\[[^\]]*\]);", texts["aliases"]))
    version = re.search(r'fn mealbis_version\(\).*?\{\s*(\d+)\s*\}\s*$', texts["rattle"], re.S | re.M)
    return rattle_functions(texts["rattle"], aliases), number(version[1])


# --- the header --------------------------------------------------------------------------

C_TYPES = {"uint8_t": "u8", "int32_t": "i32", "uint32_t": "u32", "int64_t": "i64", "uint64_t": "u64", "mealbis_size": "size"}


def c_parameter(text, records):
    const, kind, star, name = re.fullmatch(r"\s*(const )?(\w+) ?(\*?)(\w+)\s*", text).groups()
    if not star:
        return name, C_TYPES[kind]
    return name, Pointer(bool(const), C_TYPES.get(kind) or tuple(of for _, of in records[kind]))


def c_constants(text):
    return {name: number(value) for name, value in re.findall(r"^#define MEALBIS_(\w+) (\d+u?)\b", text, re.M)}


def c_records(text, constants):
    found = {}
    for name, body in re.findall(r"typedef struct (\w+) \{([^}]*)\} \1;", text):
        fields = []
        for kind, field, count in re.findall(r"(\w+) (\w+)(?:\[(\w+)\])?;", body):
            fields += [(field, of_record(C_TYPES[kind]))] * (constants[count.replace("MEALBIS_", "")] if count else 1)
        found[name] = tuple(fields)
    return found


def of_record(kind):
    """In a record a size is a word of 64 bits."""
    return "u64" if kind == "size" else kind


def c_declared(text):
    constants = c_constants(text)
    text = re.sub(r"/\*.*?\*/", "", text, flags=re.S)
    records, functions, told = c_records(text, constants), {}, {}
    assert re.search(r"typedef uint64_t mealbis_size;", text)
    for result, name, parameters in re.findall(r"(\w+) (mealbis_\w+)\(([^)]*)\);", text):
        given = [] if parameters.strip() == "void" else parameters.split(",")
        functions[name] = C_TYPES[result], tuple(c_parameter(one, records) for one in given)
        told[name] = [records[kind] for kind in re.findall(r"(\w+) \*", parameters) if kind in records]
    cases = re.findall(r'(?:case MEALBIS_(\w+)|(default)):\s*return "([^"]*)";', text)
    return Declared(functions, told, constants["VERSION"], {None if last else constants[case]: said for case, last, said in cases}, constants)


# --- Rust ----------------------------------------------------------------------------------

def rust_records(text, constants):
    found = {}
    for name, body in re.findall(r"#\[repr\(C\)\]\s+(?:#\[[^\]]*\]\s+)*pub struct (\w+) \{([^}]*)\}", text):
        fields = []
        for field, kind, word, count in re.findall(r"(\w+): (?:(\w+)|\[(\w+); (\w+)\]),", body):
            fields += [(field, of_record(plain(kind or word)))] * (constants[count] if count else 1)
        found[name] = tuple(fields)
    return found


def rust_parameter(text, records):
    name, const, kind = re.fullmatch(r"\s*(\w+): (?:\*(const|mut) )?(\w+)\s*", text).groups()
    if const is None:
        return name, plain(kind)
    return name, Pointer(const == "const", tuple(of for _, of in records[kind]) if kind in records else plain(kind))


def rust_declared(text):
    text = re.sub(r"//.*", "", text)
    block = re.search(r'extern "C" \{(.*?)\n    \}', text, re.S)[1]
    constants = {name: number(value) for name, value in re.findall(r"pub const (\w+): \w+ = ([\d_]+);", text)}
    records, functions, told = rust_records(text, constants), {}, {}
    assert re.search(r"pub type Size = u64;", text)
    for name, parameters, result in re.findall(r"fn (\w+)\(([^)]*)\) -> (\w+);", block):
        given = filter(str.strip, parameters.split(","))
        functions[name] = plain(result), tuple(rust_parameter(one, records) for one in given)
        told[name] = [records[kind] for kind in re.findall(r"\*(?:const|mut) (\w+)", parameters) if kind in records]
    reasons = {None if case == "_" else number(case): said for case, said in re.findall(r'^ *(\d+|_) => "(.*)",$', text, re.M)}
    return Declared(functions, told, constants["VERSION"], reasons, constants)


# --- Python --------------------------------------------------------------------------------

PYTHON_TYPES = {ctypes.c_uint8: "u8", ctypes.c_int32: "i32", ctypes.c_uint32: "u32", ctypes.c_int64: "i64", ctypes.c_uint64: "u64"}


def python_fields(record):
    fields = []
    for name, kind in record._fields_:
        word, count = (kind._type_, kind._length_) if issubclass(kind, ctypes.Array) else (kind, 1)
        fields += [(name, PYTHON_TYPES[word])] * count
    return tuple(fields)


def python_type(kind):
    if kind in PYTHON_TYPES:
        return PYTHON_TYPES[kind]
    to = kind._type_
    return Pointer(None, PYTHON_TYPES[to] if to in PYTHON_TYPES else tuple(of for _, of in python_fields(to)))


class Functions(dict):
    """Stands for the library: it takes what ctypes is told."""

    def __getattr__(self, name):
        return self.setdefault(name, types.SimpleNamespace(restype=None, argtypes=None))


def python_module(text):
    module = {"__name__": "mealbis", "__file__": str(ROOT / PYTHON)}
    exec(compile(text, PYTHON, "exec"), module)
    return module


def python_declared(module):
    library, functions, told = Functions(), {}, {}
    module["declare"](library)
    for name, function in library.items():
        names = [called for called, _ in module["DECLARATIONS"][name][1]]
        functions[name] = PYTHON_TYPES[function.restype], tuple(zip(names, map(python_type, function.argtypes), strict=True))
        records = [kind._type_ for kind in function.argtypes if hasattr(kind, "_type_") and hasattr(kind._type_, "_fields_")]
        told[name] = [python_fields(record) for record in records]
    reasons = {**module["_REASONS"], None: module["reason"](2 ** 31)}
    constants = {name: value for name, value in module.items() if name.isupper() and isinstance(value, int)}
    return Declared(functions, told, module["VERSION"], reasons, constants)


# --- holding them to each other ------------------------------------------------------------

def unsized(kind):
    """A type as ctypes has it: no size apart from other words of 64 bits, and no const."""
    if isinstance(kind, Pointer):
        return Pointer(None, kind.to)
    return of_record(kind)


def shown(kind):
    if not isinstance(kind, Pointer):
        return kind
    words = kind.to if isinstance(kind.to, str) else "a record of %d words (%s)" % (len(kind.to), ", ".join(sorted(set(kind.to))))
    return "a pointer to %s%s" % ("const " if kind.const else "", words)


def compare_function(where, name, wanted, got, as_seen):
    """What differs in one function."""
    if got is None:
        return ["%s: %s is not declared" % (where, name)]
    wrong = []
    if as_seen(wanted[0]) != got[0]:
        wrong.append("%s: %s gives %s and not %s" % (where, name, got[0], as_seen(wanted[0])))
    if len(wanted[1]) != len(got[1]):
        wrong.append("%s: %s has %d parameters and not %d" % (where, name, len(got[1]), len(wanted[1])))
    for place, ((name_wanted, kind_wanted), (name_got, kind_got)) in enumerate(zip(wanted[1], got[1]), 1):
        if (name_wanted, as_seen(kind_wanted)) != (name_got, kind_got):
            wrong.append("%s: parameter %d of %s is `%s`, %s; by the source it is `%s`, %s"
                         % (where, place, name, name_got, shown(kind_got), name_wanted, shown(as_seen(kind_wanted))))
    return wrong


class Texts(NamedTuple):
    """The files; `python` is the module, run."""
    rattle: str
    aliases: str
    header: str
    rust: str
    python: dict


def sized(paths):
    """The texts of files in which the length of an array is its number, where it is a constant of the file."""
    sizes, texts = {}, []
    for path in paths:
        text = path.read_text()
        for name, value in re.findall(r"pub const (\w+): usize = ([\w:+* ]+);", text):
            sizes[path.stem, name] = eval(re.sub(r"(?:(\w+)::)?([A-Za-z]\w*)", lambda at: str(sizes[at[1] or path.stem, at[2]]), value), {})
        texts.append(re.sub(r"(\[\w+; )(\w+)\]", lambda at: "%s%s]" % (at[1], sizes.get((path.stem, at[2]), at[2])), text))
    return "\n".join(texts)


def texts_of(root):
    def source(folder):
        return sized(sorted((root / folder).rglob("*.rt")))

    return Texts(source(SOURCE), source("crates/months/src"), (root / HEADER).read_text(), (root / RUST).read_text(),
                 python_module((root / PYTHON).read_text()))


def compare_all(texts):
    """(what, what is wrong with it) for everything that is compared."""
    try:
        functions, version = rattle_declared(texts._asdict())
        declared = {HEADER: c_declared(texts.header), RUST: rust_declared(texts.rust), PYTHON: python_declared(texts.python)}
    except (AttributeError, AssertionError, KeyError, TypeError, ValueError) as error:
        yield "reading", ["a declaration cannot be read: %r" % error]
        return
    yield "the source", [] if len(functions) > 10 else ["only %d functions are found" % len(functions)]
    header = declared[HEADER]
    for where, one in declared.items():
        as_seen = unsized if where == PYTHON else lambda kind: kind
        for name, wanted in functions.items():
            yield where, compare_function(where, name, wanted, one.functions.get(name), as_seen)
        yield where, ["%s: %s is no function of the source" % (where, name) for name in one.functions.keys() - functions.keys()]
        yield where, [] if one.version == version else ["%s: the version is %d and not %d" % (where, one.version, version)]
        for name, records in header.records.items():
            wrong = one.records.get(name) != records
            yield where, ["%s: the records of %s have other fields than in %s" % (where, name, HEADER)] if wrong else []
        yield where, [] if one.reasons == header.reasons else ["%s: other reasons than in %s" % (where, HEADER)]
        for name in one.constants.keys() & header.constants.keys():
            same = one.constants[name] == header.constants[name]
            yield where, [] if same else ["%s: %s is %d, and %d in %s" % (where, name, one.constants[name], header.constants[name], HEADER)]


def check_elsewhere():
    """Nobody else declares the functions."""
    for folder in ("bench", "bindings", "examples", "tests"):
        for path in sorted((ROOT / folder).rglob("*")):
            where = str(path.relative_to(ROOT))
            pattern = {".rs": r'extern "C" \{', ".py": r"\.(argtypes|restype) = (?!ctypes\.c_void_p)", ".c": r"^\s*extern\b.*\bmealbis_\w+\("}
            if path.suffix in pattern and path != Path(__file__).resolve() and where not in (RUST, PYTHON):
                found = re.search(pattern[path.suffix], path.read_text(), re.M)
                yield where, ["%s: declares functions of its own: %s" % (where, found[0])] if found else []


# --- trying it ---------------------------------------------------------------------------------

def exchanged(text, pattern):
    """The text with every two neighbours exchanged in each list of parameters that the pattern finds."""
    for found in re.finditer(pattern, text):
        parameters = found[1].rstrip().rstrip(",").split(",")
        for i in range(len(parameters) - 1):
            other = [*parameters[:i], parameters[i + 1], parameters[i], *parameters[i + 2:]]
            yield "parameters %d and %d exchanged in %s" % (i + 1, i + 2, found[0].split("(")[0]), text[:found.start(1)] + ",".join(other) + text[found.end(1):]


def replaced(text, within, pattern, others):
    """The text with each place of the pattern replaced by each of the others, within what the first pattern finds."""
    for region in re.finditer(within, text, re.S):
        for found in re.finditer(pattern, region[0]):
            at = region.start() + found.start()
            for other in others:
                if other != found[0]:
                    line = text.count("\n", 0, at) + 1
                    yield "`%s` becomes `%s` in line %d" % (found[0].strip(), other, line), text[:at] + other + text[at + len(found[0]):]


def header_edits(text):
    prototypes = r"\w+ mealbis_\w+\(([^){]*)\);"
    yield from exchanged(text, prototypes)
    yield from replaced(text, prototypes, r"\bu?int\d+_t\b|\bmealbis_size\b", ("int32_t", "int64_t", "uint64_t"))
    yield from replaced(text, prototypes, r"const ", ("",))
    yield from replaced(text, r"typedef struct \w+ \{.*?\} \w+;", r"\n    \w+ \w+(\[\w+\])?;", ("", "\n    int32_t other;"))
    yield from replaced(text, r"typedef struct mealbis_\w+ \{.*?\}", r"(?<= )\w+(?=;)", ("other",))
    yield from replaced(text, r"MEALBIS_CHECKED uint32_t mealbis_\w+\([^)]*\);", r"(?s).+", ("",))
    yield from replaced(text, r"#define MEALBIS_(VERSION|MONTH_WORDS|MOST_BLOCKS) \d+", r"\d+", ("40001", "1028", "100000"))
    yield from replaced(text, r"#define MEALBIS_(FLAT|CLIPPED|PLAIN|MONTH_FULL|UNKNOWN_PARTY|NOT_YIELDED) \d+", r"\d+", ("9",))
    yield from replaced(text, r"static inline const char.*?\n\}", r'(?<=return ")[^"]*', ("other words",))


def rust_edits(text):
    prototypes = r"pub fn mealbis_\w+\(([^){]*)\) -> \w+;"
    yield from exchanged(text, prototypes)
    yield from replaced(text, prototypes, r"(?<=[*: >])(const |mut )?(i32|i64|u64|u32|u8|Size)\b", ("mut i32", "mut i64", "u64", "i64"))
    yield from replaced(text, r"#\[repr\(C\)\]\s+#\[[^\]]*\]\s+pub struct \w+ \{.*?\}", r"\n    (pub )?\w+: [^,]*,", ("", "\n    pub other: u32,"))
    yield from replaced(text, r"#\[repr\(C\)\]\s+#\[[^\]]*\]\s+pub struct \w+ \{.*?\}", r"#\[repr\(C\)\]", ("",))
    yield from replaced(text, prototypes, r"(?s).+", ("",))
    yield from replaced(text, r"pub const (VERSION|MONTH_WORDS|MOST_BLOCKS|FLAT|CLIPPED|PLAIN): \w+ = \d+", r"\d+$", ("9",))
    yield from replaced(text, r"pub fn reason.*?\n\}", r'(?<==> ")[^"]*', ("other words",))


def python_edits(module):
    declarations = module["DECLARATIONS"]
    for name, (result, parameters) in declarations.items():
        def edited(parameters, name=name, result=result):
            return {**module, "DECLARATIONS": {**declarations, name: (result, tuple(parameters))}}

        for i, (called, kind) in enumerate(parameters):
            if i + 1 < len(parameters):
                yield "parameters %d and %d exchanged in %s" % (i + 1, i + 2, name), edited([*parameters[:i], parameters[i + 1], (called, kind), *parameters[i + 2:]])
            yield "parameter %d left out in %s" % (i + 1, name), edited([*parameters[:i], *parameters[i + 1:]])
            for other in (ctypes.c_int32, ctypes.c_int64, ctypes.c_uint32, ctypes.POINTER(ctypes.c_int64), ctypes.POINTER(module["CountsAnswer"])):
                if other != kind:
                    yield "another type for parameter %d of %s" % (i + 1, name), edited([*parameters[:i], (called, other), *parameters[i + 1:]])
            if hasattr(kind, "_type_") and hasattr(kind._type_, "_fields_"):
                for fewer in (1, -1):
                    fields = kind._type_._fields_
                    fields = fields[1:] if fewer == 1 else [*fields, ("other", ctypes.c_uint64)]
                    record = type("Other", (ctypes.Structure,), {"_fields_": fields})
                    other = called, ctypes.POINTER(record)
                    yield "a field more or less in the record of %s" % name, edited([*parameters[:i], other, *parameters[i + 1:]])
        yield "another result of " + name, {**module, "DECLARATIONS": {**declarations, name: (ctypes.c_int32, parameters)}}
        yield name + " left out", {**module, "DECLARATIONS": {kept: of for kept, of in declarations.items() if kept != name}}
    yield "another version", {**module, "VERSION": module["VERSION"] + 1}
    yield "another constant", {**module, "MOST_BLOCKS": 100_000}
    for reason in module["_REASONS"]:
        yield "another reason", {**module, "_REASONS": {**module["_REASONS"], reason: "other words"}}


def with_globals(module):
    """The module with functions that see what was changed in it."""
    def seeing(value):
        return types.FunctionType(value.__code__, module, value.__name__, value.__defaults__, value.__closure__)

    module.update({name: seeing(module[name]) for name in ("declare", "reason")})
    return module


def rattle_edits(text):
    yield from exchanged(text, r'pub extern "C" fn mealbis_\w+\(([^)]*)\)')
    yield from replaced(text, r'pub extern "C" fn mealbis_\w+\([^)]*\)( -> \w+)?', r"\b(i32|u64|u32|usize|i64|u8)\b", ("i32", "i64", "u64"))
    yield from replaced(text, r'pub extern "C" fn mealbis_\w+\([^)]*\)', r"(?<=; )\d", ("7",))
    yield from replaced(text, r'pub extern "C" fn mealbis_\w+\([^)]*\)', r"&mut |&(?=\[)", ("&", "&mut "))
    yield "a function more", text + '\n#[unsafe(no_mangle)]\npub extern "C" fn mealbis_other(length: usize) -> u32 {\n'


def check_edits(texts):
    """Each edit is noticed; (what, what is wrong) for each."""
    edits = {SOURCE: ("rattle", rattle_edits(texts.rattle)), HEADER: ("header", header_edits(texts.header)), RUST: ("rust", rust_edits(texts.rust)),
             PYTHON: ("python", ((what, with_globals(module)) for what, module in python_edits(texts.python)))}
    for where, (field, changes) in edits.items():
        kinds = 0
        for what, changed in changes:
            kinds += 1
            noticed = any(wrong for _, wrong in compare_all(texts._replace(**{field: changed})))
            yield "edits of " + where, [] if noticed else ["%s: not noticed: %s" % (where, what)]
        yield "edits of " + where, [] if kinds > 100 else ["%s: only %d edits were tried" % (where, kinds)]


def main():
    texts = texts_of(ROOT)
    passed = failed = 0
    for checks, name in ((compare_all(texts), "held to the source"), (check_elsewhere(), "declare nothing"), (check_edits(texts), "edits noticed")):
        before = passed
        for _, wrong in checks:
            passed += not wrong
            failed += bool(wrong)
            for told in wrong:
                print(told)
        print("%5d passed: %s" % (passed - before, name))
    print("%d passed, %d failed" % (passed, failed))
    return 1 if failed else 0


if __name__ == "__main__":
    sys.exit(main())
