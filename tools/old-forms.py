#!/usr/bin/env python3
"""Counts, in crates/*/src, the forms that stood for what the language lacked.

    tools/old-forms.py [COMMIT]     the checkout, or the sources at a commit
    tools/old-forms.py --list ..    each place with its file and line

A row is a pattern of text, so it can count a place that is meant as it is; what a place is kept for stands beside it in the source.
"""
import re
import subprocess
import sys
from pathlib import Path

FORMS = [
    (1, "a missing value passed on by hand", r"let Some\([^=]*=[^;{]*?else \{\s*return None;\s*\};"),
    (1, "a missing value passed on by a match", r"None => return None|None => None,|Err\(_\) => None"),
    (1, "an error passed on by hand", r"Some\([^=]*=[^;{]*?else \{\s*return Err\(malformed|Err\((\w+)\) => (return )?(Ok\()?(Err\(|Answer::)|if let Err\(\w+\)[^{]*\{\s*return Err|Some\(_\) => below"),
    (1, "an enum of the shape of Option or Result", r"enum (Outcome|ProgrammeName|Answer)\b|Malformed\(&'a \[u8\]\)"),
    (1, "a number for a flag, a kind or a refusal", r"missed: u32,\n\}|missed: if|Refused\(u8\)|kind: u32|\bline: 0\b"),
    (2, "twin tables of two seasons", r"const (SUMMER|OTHER_MONTHS)\w*:|Season::Summer => SUMMER|fn (energy_prices|contract_prices|priced)\(season"),
    (2, "twin ranks of a contract tariff", r"DayKind::Saturday => saturday_rank|contract_prices\(season\)\.\w+\(|energies\.priced\(energy_prices"),
    (2, "twin tests and numbers of a call, if there is one", r"fn (has_too_few|is_length_not_taken|one_if|hours_if|in_call)\([^)]*Option<Call>"),
    (2, "twin walks over the month's days", r"for k in 0\.\.site|for day in LEAD_DAYS\.\."),
    (2, "twin writers of lines", r"fn (text_line|number_line|signed_line|put_head|put_ranks|put_energies|put_excess|put_closing)\b"),
    (2, "twin readers of lines", r"fn (code_line|month_line|tariff_line|form_line|(code|month|tariff|form)\(self\))"),
    (2, "twin searches for a unit of time", r"fn (year_of|month_of_year)\("),
    (2, "twin fields copied", r"(code|items): draft\."),
    (2, "twin arms that differ in a field", r"self\.energies\.\w+ \+= reading"),
    (3, "a loop that tests each element", r"for \w+ in \w+ \{\s*if [^{]*\{\s*return (true|false);"),
    (3, "a loop that looks for an element", r"for [^{]* in [^{]*\{\s*if [^{]*\{\s*return (Some\(|at;)"),
    (3, "a loop over an index", r"for (k|slot|n) in |for day in 0\.\.days\b"),
    (3, "a loop by a condition", r"while [^{]*\{"),
    (3, "an index reckoned for a slice", r"\[at\.\.at \+|SLOTS_A_DAY \* (usize::from\(day|day as)|96 \* CALLED_DAY \+ slot"),
    (4, "equality wrapped by hand", r"fn (same_bytes|is)\("),
    (4, "names or numbers of cases by hand", r"fn (weekday_name|season_name)\(|fn number\(&self\)"),
    (4, "numbers turned into cases by hand", r"1 => (Ok\()?CallKind::Programme"),
    (4, "a number read or written by hand", r"fn (put_decimal|put_signed|decimal|digit|number)\((?!&self)"),
    (4, "a case compared by pattern in a test", r"assert!\(rt;\s*matches!\("),
    (5, "the lead, the readings and a site side by side", r"lead: &(?:'r )?\[u32\],\s*readings: &"),
    (5, "a clause that lead and month are full", r"requires full \{"),
    (5, "a clause that a day is in lead or month", r"requires (within|from) \{[^}]*(day|days)"),
    (5, "month, off-peak days and readings side by side", r"month: Month,\s*off_peak: &"),
    (5, "season and capacities side by side", r"season: Season,\s*capacities: Capacities"),
    (5, "a price bounded by a clause", r"requires[^{\n]*\{[^}]*100000"),
    (5, "what a step leaves of lent storage", r"ensures (room|named|rest|refused) \{"),
    (6, "a sorted list searched by hand", r"fn (find_among|place_among)<"),
    (6, "a buffer with a length beside", r"\bcount: usize,|\blen: usize,"),
    (6, "a buffer and a place side by side", r"buffer: &mut \[u8\],\s*at: usize"),
    (6, "fields in parallel with another type's", r"struct (RankKeys|Four)\b"),
    (7, "a switch on which step to run", r"\d => settled\(|_ => settled\("),
]


def sources(commit):
    if commit is None:
        for path in sorted(Path("crates").glob("*/src/**/*.rt")):
            yield str(path), path.read_text()
        return
    names = subprocess.run(["git", "ls-tree", "-r", "--name-only", commit, "crates"], capture_output=True, text=True, check=True).stdout.split()
    for name in sorted(names):
        if "/src/" in name and name.endswith(".rt"):
            yield name, subprocess.run(["git", "show", f"{commit}:{name}"], capture_output=True, text=True, check=True).stdout


def main():
    words = [w for w in sys.argv[1:] if w != "--list"]
    listed = "--list" in sys.argv[1:]
    files = list(sources(words[0] if words else None))
    totals = {}
    for point, title, pattern in FORMS:
        found = [(name, text.count("\n", 0, m.start()) + 1) for name, text in files for m in re.finditer(pattern, text)]
        totals[point] = totals.get(point, 0) + len(found)
        print(f"{point}  {len(found):4}  {title}")
        if listed:
            for name, line in found:
                print(f"           {name}:{line}")
    print("in all: " + ", ".join(f"point {p}: {n}" for p, n in sorted(totals.items())))


main()
