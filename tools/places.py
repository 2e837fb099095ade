#!/usr/bin/env python3
"""Counts the places in src/ where code may read like an older Rattle, by kind, and lists them.

usage: python3 tools/places.py [--list] [ROOT]

It reads ROOT/crates/*/src (ROOT: the folder above tools/), each line by the patterns below. A line that a pattern finds is a place to look at;
docs/DESIGN-PASS.md says what was made of each, and why some stay as they are.
"""
import os
import re
import sys

# kind, what the pattern looks for, the pattern; the names are those of the code as it first was
PATTERNS = [
    ("enums", "an enum, to be read for the shape of Option or Result", r"^\s*(pub(\([a-z]+\))? )?enum "),
    ("enums", "a flag in a struct", r"^\s+(pub(\([a-z]+\))? )?\w+: bool,"),
    ("enums", "a function that tells failure by a flag", r"fn \w+\(&mut self[^)]*\) -> bool"),
    ("enums", "a number that names nobody, a kind, a rule or a letter", r"\bNOBODY\b|\b(kind|letter|code)\w*: u(8|16|32)|(kind|bit) == [0-9]|put\([0-9]+\)|=> (4[5-9]|1[01][0-9]),"),
    ("enums", "an Option or a Result taken apart by hand", r"(None|Err\(\w+\)) => (return )?(None|Err\(|0|\(0, 0\)|NOBODY|Source::Empty|Some\()|if [^{]*\b(is_bad|is_none)\("),
    ("twins", "a function or type by the name of a twin", r"fn (number|sentence|layer|word|fault_line|plan_fault_line|fault_text|fault_message|charge_own|charge_residual|from_residual|for_idle_time|row_at|row_in|count_in|byte_at|left|right|fail|run_words|bytes_of)\b"),
    ("twins", "a blank value written out", r"(Terms|Offer|Candidate|Best) \{$"),
    ("twins", "a buffer of rows of its own", r"\[\w+; MOST_ROWS\],"),
    ("loops", "a loop that counts", r"\bfor \w+ in [^{]*\.\.|\bwhile\b"),
    ("loops", "a loop with its index beside", r"\.enumerate\(\)"),
    ("by hand", "an order, an equality or a conversion by hand", r"fn (is_sooner|earlier|names|kind|kind_of|kind_bit|kind_word|letter_of|runner_number|payer_number|source_of|word_at|number_at|show_value|position_of|located|record_of)\b"),
    ("by hand", "a number or a word printed by hand", r"fn (put_number|spaces|decimals|number|word|sentence|word_of|phase_of|same)\("),
    ("by hand", "an impl of a std trait by hand", r"^impl\b.*\b(PartialEq|Eq|PartialOrd|Ord|Clone|Copy|Default|From|TryFrom|Into|Display|FromStr)(<[^>]*>)? for "),
    ("company", "rows with their bound", r"requires \{ length rows\.now ≤ most_rows \}"),
    ("company", "a clause of what was flown", r"(flown_|played )"),
    ("company", "a clause of what a page gained", r"page_text self\.(old|new)|\.len [+≤]"),
    ("company", "parameters that go together", r"at: Instant, rows: &\[Row\]|rule: &R|runner: Option<u16>|payment: Option<Payment>|listener: &mut L|at: &mut Place|answer: \(u16"),
    ("buffers", "a buffer with its length, or a place looked up by hand", r"^\s+(count|len): usize,|\[[^\]]*; (MOST_ROWS|PAGE_BYTES|COUNTED_SERVERS)\]|\.\.self\.(count|len)\]|if (place|number) (<|>=) "),
    ("switches", "a switch on which test or step to take", r"\b(Mark|Class|RuleName)::|flight\.letter|type Ask"),
]


def sources(root):
    for folder, names, files in os.walk(os.path.join(root, "crates")):
        names[:] = sorted(n for n in names if n not in ("out", "target"))
        if "/src" in folder + "/":
            for name in sorted(files):
                if name.endswith(".rt"):
                    yield os.path.join(folder, name)


def main():
    words = sys.argv[1:]
    listed = "--list" in words
    rest = [w for w in words if w != "--list"]
    root = rest[0] if rest else os.path.dirname(os.path.dirname(os.path.abspath(__file__)))
    texts = [(os.path.relpath(p, root), open(p, encoding="utf-8").read().split("\n")) for p in sources(root)]
    for point, what, pattern in PATTERNS:
        found = []
        for path, lines in texts:
            for k, line in enumerate(lines):
                if re.search(pattern, line) and not line.lstrip().startswith("//"):
                    found.append("    %s:%d: %s" % (path, k + 1, line.strip()[:150]))
        print("%-8s %3d  %s" % (point, len(found), what))
        if listed:
            for f in found:
                print(f)


main()
