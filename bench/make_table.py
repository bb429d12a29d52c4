"""Write bench/table.h, the quarter wave T of docs/01-scope.md, for plain.c."""

import pathlib
import sys

BENCH = pathlib.Path(__file__).resolve().parent
sys.path.insert(0, str(BENCH.parent / "tests"))

import reference  # noqa: E402  (found through the path set above)

HEAD = """\
/* The quarter wave T(0) .. T(1024): 2^30 times the cosine of 2 pi j / 4096.
   Made by make_table.py from tests/reference.py; do not edit. */
static const int32_t quarter_wave[1025] = {
"""


def table_text():
    lines = []
    for j in range(0, len(reference.T), 8):
        lines.append("    " + ", ".join("%d" % entry for entry in reference.T[j:j + 8]))
    return HEAD + ",\n".join(lines) + "\n};\n"


if __name__ == "__main__":
    (BENCH / "table.h").write_text(table_text())
