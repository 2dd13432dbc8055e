#!/usr/bin/env python3
"""Respells this repository's own definitions, laws, constructors and record fields as the installed Rattle spells its own:
words in snake case, facts in upper camel case. Run once, at the top, after the kit's own port.py and before any edit by hand.

usage: tools/respell.py          rewrites crates/, and the names that pages cite in backticks
       tools/respell.py --check  says which new spellings would meet a name that a file has already

Only names that a file of specs/ or proofs/ declares are respelled, and only as whole words. Functions of src/, exported C names,
strings, inputs and outputs keep theirs.
"""

import os
import re
import sys

# a word of antt: letters, digits, and what may stand inside a name
WORD = re.compile(r"(?<![\w'\-])[A-Za-z][\w'\-]*(?<!-)")
DECLARED = re.compile(r"^(\s*)((?:(?:pub|abbrev|unfoldable|data|record)\s+)*)([A-Za-z][\w'\-]*)((?:\s+[({\[][^:=]*[)}\]])*)\s+:\s(.*)$")
RULESET = re.compile(r"^\s*(?:pub )?ruleset ([A-Za-z][\w'\-]*)\s*=")
# what the check makes for a function's proof, and what a proof file calls its answers: those go when the proof is turned
MADE = re.compile(r"^(statement|returns|invariant|decreases|loop|slice|cast|sub|add|mul|same|shared|overflow|part)(-|$)")
CAMEL = re.compile(r"^[a-z][a-z0-9]*(?:[A-Z][a-z0-9]*)+$")
OF_FUNCTION = re.compile(r"(^|/)proofs/.+/")
# where two names fall together, or a fact is no word
BY_HAND = {
    # a field of src/ has the plain name
    "kexChosen": "chosen_kex",
    "kexWritten": "written_kex",
    # a definition has the plain name
    "client-strict": "client_strict_lem",
    "server-strict": "server_strict_lem",
    "settle-mac": "settle_mac_lem",
    "key-number": "key_number_lem",
    "table-spells": "table_spells_lem",
    "row-name": "row_name_lem",
    "place-from": "place_from_lem",
    "mac-rule": "mac_rule_lem",
    "no-mac": "no_mac_lem",
    "table-rows": "table_rows_lem",
    "kex-list": "kex_list_lem",
    "default-kex": "default_kex_lem",
    "default-key": "default_key_lem",
    "default-compression": "default_compression_lem",
    "default-cipher": "default_cipher_lem",
    "default-mac": "default_mac_lem",
    "kex-rows": "kex_rows_lem",
    "run-at": "run_at_lem",
    # a library has it so
    "not-true": "not-true",
}
# what port.py had respelled already, for edits and pages, which it leaves
BEFORE = """
add-row added-new agree-same all-ascii all-head all-in all-known all-tail and-left and-right as-long ascii-append at-field at-
names below-at below-end below-more below-on below-out bind-done bitOf both-is by-difference byte-at byte-of byte-past byte-
reads bytesOf came-refused char-of choose-spec count-spec countOf each-on each-spec end-back end-before end-later end-on entry-
here entry-in entry-next entryRows enum-told every-any every-front fill-spec find-spec first-one first-spec frame-back frameOf
from-row front-length full-put go-on goes-on held-on held-spec here-later in-both inTable is-shared isRow isSome join-last join-
more join-rows-spec kept-fine kept-from keyOf keysOf kind-row kindOf known-on known-out left-after left-as leftAt lenOf length-
more length-over list-at list-back list-full list-inside list-length list-put listOf listed-below listed-kept listed-same
listsOf long-kept made-of main-spec nameAt nameOf namedOf namesOf next-row nextAt nextOf no-more no-names no-room none-first
none-left none-number not-five not-named not-none number-is number-small numberOf on-row one-byte one-more one-side open-spec
opens-by or-left or-right orZero own-on ownOf part-length parts-whole pick-at pick-out place-found place-here place-none placeOf
push-spec put-full put-next put-on read-back read-more read-short read-spec read-whole rest-part restOf rooms-fine row-count
row-fits row-in row-kept row-named row-next row-of row-out row-written rowAt rows-apart rows-end rows-in rows-on rows-short
rowsAt run-inside run-more run-on run-spec runAt same-end same-length same-self same-spec same-turn settledOf short-cut sideOf
so-far some-inj some-is startOf step-spec store-spec strict-in text-out too-long truthOf upTo walk-end walk-here walk-turn
within-both within-more without-end without-on word-at word-back word-bytes word-on word-out write-done write-spec written-back
writtenOf
""".split()

# a fact, in this crate alone
FACTS = {"refusals": {"has": "Has"}}
PAGES = ("README.md", "CHANGELOG.md", "docs", "include", "oracle", "bench", "bindings")


def files(root, ends, below="crates"):
    for folder, dirs, names in os.walk(os.path.join(root, below)):
        dirs[:] = sorted(d for d in dirs if d not in ("out", ".git", "target"))
        for n in sorted(names):
            if n.endswith(ends):
                yield os.path.join(folder, n)


def text_of(path):
    with open(path, encoding="utf-8") as f:
        return f.read()


def respelled(name, fact):
    if name in BY_HAND:
        return BY_HAND[name]
    if fact or name[0].isupper():
        return name
    name = re.sub(r"([a-z0-9])([A-Z])", lambda m: m.group(1) + "_" + m.group(2).lower(), name)
    return name.replace("-", "_").lower() if not name.endswith("'") else name


def names(root):
    """Each declared name that has another spelling now, with it."""
    found = {}
    for path in files(root, ".antt"):
        inner = bool(OF_FUNCTION.search(os.path.relpath(path, root)))
        for line in text_of(path).split("\n"):
            if line.lstrip().startswith("--") or line.startswith("use "):
                continue
            m = RULESET.match(line)
            if m:
                found[m.group(1)] = respelled(m.group(1), False)
                continue
            m = DECLARED.match(line)
            if not m or inner and MADE.match(m.group(3)):
                continue
            fact = m.group(5).strip() == "Type 0" or m.group(5).endswith("→ Type 0")
            if fact and m.group(3)[0].islower() and m.group(3) != "has":
                print("a fact that is no type:", path, m.group(3))
            found[m.group(3)] = respelled(m.group(3), fact)
    # what a file calls an import, and its variables
    for path in files(root, (".antt", ".rt")):
        for line in text_of(path).split("\n"):
            if path.endswith(".rt") and not re.match(r"^\s*(ghost |requires|ensures)|.*[→≡λ]", line):
                continue
            if line.lstrip().startswith(("--", "//")):
                continue
            for word in WORD.findall(re.sub(r'"(?:[^"\\]|\\.)*"', "", line)):
                if CAMEL.match(word) and word not in found:
                    found[word] = respelled(word, False)
    return {old: new for old, new in found.items() if old != new}


def declared(root):
    out = set()
    for path in files(root, ".antt"):
        for line in text_of(path).split("\n"):
            m = RULESET.match(line) or DECLARED.match(line)
            if m and not line.lstrip().startswith("--"):
                out.add(m.group(1) if RULESET.match(line) else m.group(3))
    return out


def foreign(root):
    """What files import of a library: those names are not ours, whatever we declare elsewhere."""
    ours = {os.path.basename(d) for d in os.listdir(os.path.join(root, "crates"))}
    out = {}
    use = re.compile(r"^\s*(?:ghost )?use ([^{;]+?)\.\{([^}]*)\}")
    for path in files(root, (".antt", ".rt")):
        for line in text_of(path).split("\n"):
            m = use.match(line)
            if m and not (m.group(1).startswith("Rattle.") and m.group(1).split(".")[1] in ours):
                for item in m.group(2).split(","):
                    out.setdefault(item.strip().split(" as ")[0], set()).add(path)
    return out


def turn(text, table, inside=None):
    def word(m):
        return table.get(m.group(0), m.group(0))

    return WORD.sub(word, text)


def turn_antt(text, table):
    """Code, but no string; of a comment what has a capital inside, or stands in backticks."""
    out = []
    for line in text.split("\n"):
        code, dash, note = line.partition("-- ") if line.lstrip().startswith("-- ") or " -- " in line else (line, "", "")
        parts = re.split(r'("(?:[^"\\]|\\.)*")', code)
        code = "".join(p if p.startswith('"') else turn(p, table) for p in parts)
        out.append(code + dash + turn_note(note, table))
    return "\n".join(out)


def turn_note(text, table):
    camel = {o: n for o, n in table.items() if re.search(r"[a-z0-9][A-Z]", o)}
    text = turn(text, camel)
    return re.sub(r"`[^`\n]*`", lambda m: turn(m.group(0), table) if not re.search(r"[/@.\"]", m.group(0)) else m.group(0), text)


def turn_rt(text, table):
    """Clauses and imports of clauses have our words; code and its strings have none with a capital inside."""
    out = []
    for line in text.split("\n"):
        code, slash, note = line.partition("//") if line.lstrip().startswith("//") else (line, "", "")
        clause = re.match(r"^\s*(ghost |requires|ensures)", code) or "→" in code or "≡" in code or "λ" in code
        parts = re.split(r'(b?"(?:[^"\\]|\\.)*")', code)
        use = table if clause else {o: n for o, n in table.items() if re.search(r"[a-z0-9][A-Z]", o)}
        out.append("".join(p if p.endswith('"') and len(p) > 1 else turn(p, use) for p in parts) + slash + turn_note(note, table))
    return "\n".join(out)


def turn_edit(text, table):
    out = []
    antt = False
    for line in text.split("\n"):
        if line.startswith("file:"):
            antt = line.rstrip().endswith(".antt")
            out.append(line)
        elif line.startswith(("old:", "new:")):
            out.append(turn_antt(line, table) if antt else turn_rt(line, table))
        else:
            out.append(turn_note(line, table))
    return "\n".join(out)


def write(path, was, now):
    if was != now:
        with open(path, "w", encoding="utf-8") as f:
            f.write(now)
        return 1
    return 0


def main():
    root = os.getcwd()
    table = names(root)
    theirs = foreign(root)
    for old in sorted(table):
        if old in theirs:
            print("also a library's:", old, sorted(os.path.relpath(p, root) for p in theirs[old])[:3])
    if "--check" in sys.argv:
        for path in files(root, ".antt"):
            words = set(WORD.findall(text_of(path)))
            for old, new in table.items():
                if old in words and new in words:
                    print("meets:", os.path.relpath(path, root), old, new)
        have = declared(root)
        for old, new in sorted(table.items()):
            if new in have:
                print("declared already:", old, new)
        back = {}
        for old, new in table.items():
            back.setdefault(new, []).append(old)
        for new, olds in back.items():
            if len(olds) > 1:
                print("fall together:", new, olds)
        return
    n = 0
    told = {o: respelled(o, False) for o in BEFORE} | table
    for path in files(root, ".antt"):
        was = text_of(path)
        facts = FACTS.get(os.path.relpath(path, root).split(os.sep)[1], {})
        n += write(path, was, turn_antt(was, table | facts))
    for path in files(root, ".rt"):
        was = text_of(path)
        n += write(path, was, turn_rt(was, table))
    for path in files(root, ".edit"):
        was = text_of(path)
        n += write(path, was, turn_edit(was, told))
    for page in PAGES:
        top = os.path.join(root, page)
        for path in [top] if os.path.isfile(top) else list(files(root, (".md", ".h", ".rs", ".c", ".sh"), page)):
            if page in ("README.md", "CHANGELOG.md", "docs") or path.endswith(".md"):
                was = text_of(path)
                n += write(path, was, turn_note(was, told))
    print(len(table), "names,", n, "files")


main()
