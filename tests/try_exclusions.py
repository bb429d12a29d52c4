#!/usr/bin/env python3
"""Tries the laws of exclusion: with the right value in the place of the wrong one each must be refused, at its own line.

    python3 tests/try_exclusions.py [CRATE ..]

Run by hand, not in the gate: each law takes a check of its crate, some seconds. It works on a copy of the repository, the folders
crates/NAME/out included, so that what is proved there is not proved again. The last line is 'N passed, M failed'.
"""
import re
import shutil
import subprocess
import sys
import tempfile
from pathlib import Path

ROOT = Path(__file__).resolve().parent.parent

# for each crate: the file of proofs whose laws are tried, and the right value of each law, in the order of the statements
RIGHT = {
    "refusals": ("Exclusion", {
        "goes_on": "Some 1; 1", "look_not_tallied": "Some 1; 1", "place_in_block": "Some 1; 1", "none_found": "Some 1; 1",
        "all_out_of_range": "pos 1000001"}),
    "spectra": ("Excluded", {
        "half_left_out": "pos 1", "rounded_apart": "pos 1", "direct_sums": "negsuc 0", "counts_of_two": "4", "first_again": "pos 1",
        "refused_by_five": "0", "refused_by_one": "0", "rest_forgotten": "314491699", "scratch_left": "pos 0", "limit_refused": "0",
        "low_accepted": "6", "place_in_block": "3", "place_lost": "1", "four_first": "3",
        "sign_left_out": "negsuc 999999", "stored_read": "negsuc 1", "form_at_one": "0", "zeros": "pos 10", "untouched": "pos 10",
        "exchanged": "pos 0", "touched": "pos 9",
        "sign_turned": "pos 2", "exchanged 2": "pos 3", "form_at_one 2": "0", "b_first": "1",
        "counts_of_two 2": "4", "form_at_one 3": "0", "any_length": "1",
        "clipped_first": "1", "sine_overlooked": "3", "last_overlooked": "3", "first_counted": "1", "level_plain": "2", "before_block": "3",
        "twelve_first": "1", "told_as_six": "12", "scratch_cleared": "pos 9"}),
    "months": ("Excluded", {
        "bad_begun": "1", "old_usable": "0", "old_sums": "pos 0", "only_one": "pos 0", "unmarked": "pos 2621440008",
        "refused_counted": "pos 0", "not_counted": "pos 1", "last_left_out": "pos 2", "counted_in_a_sum": "pos 3", "to_the_sines": "pos 0",
        "first_block_again": "pos 5", "to_the_other": "pos 0", "counted_there": "pos 0", "refused_there": "pos 0",
        "three_as_two": "15", "zero_as_one": "15", "thirteen_first": "15", "fourteen_first": "13", "not_always_other": "13",
        "one_more": "14", "by_both": "0", "by_the_other": "0", "earlier_goes_on": "13", "earlier_written": "pos 7",
        "number_of_other": "pos 1", "number_of_three": "15", "number_of_sum": "pos 1",
        "exchanged": "pos 0", "last_refused": "0", "one_more 2": "16", "sixteen_first": "15",
        "any_length": "0", "length_lost": "2", "earlier_length": "0"}),
    "inverse": ("Excluded", {
        "first_twice": "pos 1", "half_left_out": "pos 1", "rounded_twice": "pos 0", "beyond_cleared": "pos 9", "limit_a_million": "0",
        "place_from_one": "0", "place_lost": "1", "three_first": "2", "told_as_six": "10"}),
    "pairfile": ("Excluded", {
        "b_first": "pos 3", "sizes_exchanged": "1", "b_unchecked": "6", "a_written": "pos 9", "one_before_nine": "9", "most_refused": "4097",
        "length_first": "1", "b_first 2": "3", "byte_behind": "9", "eleven_first": "8", "one_first": "11", "three_first": "6",
        "b_unchecked 2": "6", "place_lost": "1", "a_byte_short": "3"}),
    "pages": ("Excluded", {
        "capital": "107", "no_line_feed": "10", "from_one": "48", "left_aligned": "32", "column_of_eleven": "32", "exchanged": "55",
        "lines_left_out": "62", "byte_behind": "9", "lines_of_thirty": "3", "heading_put": "9", "three_first": "2", "sine_not_counted": "2"}),
}


def laws(text):
    """The name and the line of each law that is stated, a name that stands again with a number."""
    seen = {}
    for number, line in enumerate(text.split("\n")):
        stated = re.match(r" +pub (\w+) : .*(Never|→ ⊥)", line)
        if stated:
            seen[stated[1]] = seen.get(stated[1], 0) + 1
            yield stated[1] + (" %d" % seen[stated[1]] if seen[stated[1]] > 1 else ""), number


def with_right(line, right):
    """The statement with the right value: the last word of a law, or what stands before → ⊥."""
    if right.startswith("Some"):
        return re.sub(r"place = (Some \d|None); looks = \d ", "place = %s; looks = %s " % tuple(right.split("; ")), line)
    if "bad_count" in line:
        return line.replace("4096", right)
    if line.rstrip().endswith("→ ⊥"):
        if "OnePass" in line:
            return line.replace("pos 1000000", right)
        return re.sub(r"≡ .* → ⊥$", "≡ %s → ⊥" % right, line)
    value = "(%s)" % right if " " in right else right
    return re.sub(r"(\([a-z]+ \d+\)|\d+)$", value, line)


def try_crate(copy, crate):
    name, right = RIGHT[crate]
    statements = copy / "crates" / crate / "specs" / (name + ".antt")
    proofs = (copy / "crates" / crate / "proofs" / (name + ".antt")).read_text().split("\n")
    text = statements.read_text()
    stated = dict(laws(text))
    passed, wrong = 0, ["%s: no law %s" % (crate, law) for law in right if law not in stated]
    wrong += ["%s: no right value for %s" % (crate, law) for law in stated if law not in right]
    for law, number in stated.items():
        if law not in right:
            continue
        lines = text.split("\n")
        lines[number] = with_right(lines[number], right[law])
        if lines[number] == text.split("\n")[number]:
            wrong.append("%s: %s: nothing to replace" % (crate, law))
            continue
        statements.write_text("\n".join(lines))
        said = subprocess.run(["rt", "check"], cwd=copy / "crates" / crate, capture_output=True, text=True)
        at = re.search(r"proofs/%s\.antt:(\d+):" % name, said.stdout + said.stderr)
        place = at and "\n".join(proofs[max(0, int(at[1]) - 3):int(at[1])])
        if said.returncode and place and re.search(r"\b%s =" % law.split()[0], place):
            passed += 1
        else:
            wrong.append("%s: %s with %s is %s" % (crate, law, right[law], "refused elsewhere" if said.returncode else "NOT refused"))
    statements.write_text(text)
    return passed, wrong


def main(crates):
    passed, wrong = 0, []
    with tempfile.TemporaryDirectory() as folder:
        copy = Path(folder) / "copy"
        shutil.copytree(ROOT, copy, ignore=shutil.ignore_patterns(".git"), symlinks=True)
        for crate in crates or RIGHT:
            ok, not_ok = try_crate(copy, crate)
            passed, wrong = passed + ok, wrong + not_ok
            print("%s: %d laws are refused with the right value" % (crate, ok), flush=True)
    print("\n".join(wrong))
    print("%d passed, %d failed" % (passed, len(wrong)))
    return 1 if wrong else 0


if __name__ == "__main__":
    sys.exit(main(sys.argv[1:]))
