#!/usr/bin/env python3
"""Counts the places of docs/DESIGN-PASS.md in crates/*/src: `tools/places.py` for the tree as it stands, `tools/places.py
COMMIT` for that commit; with -l each place is listed. What a pattern can't find (twins, say) is counted by reading."""
import re
import subprocess
import sys

PATTERNS = [
    ("1 enum with a variant that refuses or is nothing", r"^(?:pub )?enum \w+(?:<[^>]*>)? \{[^}]*?\b(?:Refused\(|Malformed,|Unknown,|Nowhere,|NoMore,|Nothing,|Fine,)[^}]*\}"),
    ("1 `why`, the refusal asked of an answer", r"^ *pub fn why\("),
    ("1 a flag through `&mut u8` beside the value", r"no: &(?:'\w+ )?mut u8"),
    ("1 a number or a flag as a field beside values", r"^ *(?:pub )?(?:number|what|wrong): u(?:8|64),|^ *(?:pub )?whole: bool,"),
    ("1 a number that stands for a refusal, a kind or a state", r"^(?:pub )?const [A-Z0-9_]+: u8 = \d+;"),
    ("1 a number of a refusal as a parameter", r"\b(?:number|no): u8\b(?!,$)|^ +number: u8,$"),
    ("3 `while` and `loop`", r"^ *(?:while|loop)\b"),
    ("3 `for` over indexes", r"^ *for \w+ in [^{]*\.\.[^{]*\{"),
    ("4 a cast of a byte, or a function that only widens", r"\b\w+ as (?:usize|u64)\b"),
    ("4 a function that converts, compares, copies or prints by hand", r"^ *(?:pub )?fn (?:why|wide|wider|bit|big_endian|store_u32|store_bytes|store|same|still|higher|fill_padding|fill|words|value|hex|refused|refused_at|kind_of|found_of|truth_of|settled_of|side_of|open_of|confirmation_of|frame_of|sealed_of|written_of|judge_place|in_names|numbers|shorter|member|holds|number)\b"),
    ("5 the three columns as parameters", r"spellings: &(?:'\w+ )?\[u8\],?"),
    ("5 the ten lists as parameters", r"key_kinds: &\[u8\],"),
    ("5 a slice and the cursor in it", r"\b(?:body|s|p|list|line): &\[u8\], (?:r|c): \w+|self, (?:s|list|line): &\[u8\]"),
    ("6 an array with a length beside it", r"pub rows: \[u8; \w+\],"),
    ("6 columns of constants, searched by hand", r"^(?:pub )?const STARTS\b"),
    ("7 a switch on a number that says what to run", r"^ *match (?:function|sort|step|state) \{"),
]


def sources(commit):
    if commit is None:
        listed = subprocess.run(["git", "ls-files", "crates/*/src/*.rt"], capture_output=True, text=True, check=True).stdout.split()
        return [(name, open(name, encoding="utf-8").read()) for name in listed]
    listed = subprocess.run(["git", "ls-tree", "-r", "--name-only", commit, "crates"], capture_output=True, text=True, check=True).stdout.split()
    names = [n for n in listed if re.fullmatch(r"crates/\w+/src/.*\.rt", n)]
    show = lambda n: subprocess.run(["git", "show", f"{commit}:{n}"], capture_output=True, text=True, check=True).stdout
    return [(n, show(n)) for n in names]


def main():
    words = [w for w in sys.argv[1:] if w != "-l"]
    texts = sources(words[0] if words else None)
    for label, pattern in PATTERNS:
        found = [(name, text.count("\n", 0, m.start()) + 1, m.group(0)) for name, text in texts for m in re.finditer(pattern, text, re.M)]
        print(f"{len(found):4}  {label}")
        if "-l" in sys.argv:
            for name, line, text in found:
                print(f"        {name}:{line}: {text.splitlines()[0].strip()}")
    print(f"{sum(text.count(chr(10)) for _, text in texts):4}  lines of src/")


main()
