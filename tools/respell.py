#!/usr/bin/env python3
"""Spells the repository's own definitions and lemmas as today's Rattle does: respell.py [--names] [FOLDER].

Run once, after the kit's port.py, at the top of the repository. Words are in snake case; a dash stays only between
two names of definitions, as in `length-be_bytes`. Types, facts and modules keep their capitals. Names of src/ are never touched.
--names prints the table, old and new, and writes nothing.
"""

import collections
import glob
import os
import re
import sys

WORD = re.compile(r"[^\s(){}.;,@\"«»:|λ`]+")
DECLARED = re.compile(r"^ *(?:(?:pub|abbrev|unfoldable|private) +)*([^\s(){}\[\],;:.|]+)(?: \{[^{}\n]*\})* : ")
CONSTRUCTOR = re.compile(r"^ *\| *(?:pub +)?([^\s(){}\[\],;:.|]+)")
CAMEL = re.compile(r"^[a-z][a-z0-9_]*[A-Z]")
# Words of the library that a lemma's name may join by a dash, beside the definitions of the repository.
LIBRARY = set(
    "length append take drop set get_or map replicate reverse suc zero one add sub mul div mod pow min max lt le ltb leb eqb nil cons bit_and bit_xor bit_or shl shr".split()
)
# Lemmas that would fall together with the definition that they speak of: such a one ends in `_lem`.
OWN = {
    name: new + "_lem"
    for name, new in {
        "all_made": "all_made",
        "decimal-digits": "decimal_digits",
        "digit_value": "digit_value",
        "in_order": "in_order",
        "keys-refused": "keys_refused",
        "lane-sum": "lane_sum",
        "load_line": "load_line",
        "locked-ok": "locked_ok",
        "none_in": "none_in",
        "not_made": "not_made",
        "put_front": "put_front",
        "step_cut": "step_cut",
        "well-formed": "well_formed",
        "with-state": "with_state",
        "without-mac": "without_mac",
    }.items()
}


def comment_free(text):
    return re.sub(r"(?m)(^|(?<=\s))--.*$", "", text)


def snake(part):
    if not CAMEL.match(part):
        return part
    return re.sub(r"(?<=[a-z0-9])([A-Z])(?=[a-z0-9]|$)", lambda m: "_" + m[1].lower(), part)


def declared(root):
    names = collections.defaultdict(set)
    for path in sorted(glob.glob(os.path.join(root, "crates/*/specs/*.antt"))):
        with open(path, encoding="utf-8") as f:
            for line in comment_free(f.read()).splitlines():
                m = DECLARED.match(line) or CONSTRUCTOR.match(line)
                if m:
                    names[m[1]].add(path)
    return names


def table(root):
    names = declared(root)
    plain = {snake(n) for n in names if "-" not in n and n[:1].islower()} | LIBRARY
    rows = {}
    for name in sorted(names):
        if "-" not in name and not CAMEL.match(name) and name not in OWN:
            continue
        parts = [snake(p) for p in name.split("-")]
        new = parts[0]
        for a, b in zip(parts, parts[1:]):
            joined = (a in plain or a[:1].isupper()) and (b in plain or b[:1].isupper()) and (len(a) > 1 and len(b) > 1)
            new += ("-" if joined else "_") + b
        new = OWN.get(name, new)
        if new != name:
            rows[name] = new
    return rows, names


def clauses(text):
    """The parts of a source that are antt: ghost uses, clauses and ghost blocks, and comments' code spans."""
    spans = [m.span() for m in re.finditer(r"ghost\s+use\b[^;]*;", text)]
    for m in re.finditer(r"(?:requires|ensures)\s*\*?\s*(?:\w+\s*)?\{|ghost\s+(?:\w+\s*:?\s*)?\{", text):
        depth, i = 1, m.end()
        while depth and i < len(text):
            depth += {"{": 1, "}": -1}.get(text[i], 0)
            i += 1
        spans.append((m.end(), i))
    return sorted(spans)


def turn(text, rows):
    """Behind a dot stands a member, a part of a path or a step of a proof: there a word turns only where its capitals say that it is ours."""

    def word(m):
        bare = m[0].rstrip("'")
        if bare not in rows or (text[: m.start()].endswith(".") and not CAMEL.match(bare) and bare not in FIELDS):
            return m[0]
        return rows[bare] + m[0][len(bare) :]

    return WORD.sub(word, text)


def turn_source(text, rows):
    out, at = [], 0
    for a, b in clauses(text):
        if a < at:
            continue
        out += [text[at:a], turn(text[a:b], rows)]
        at = b
    return "".join(out) + text[at:]


# The desk's record of an answer and a table had the word by which a clause names what is returned, so its clauses kept their λ.
RESULT = re.compile(r"specs\.Desk\.\{[^}]*\bresult\b|(?m:^abbrev pub result :)")


def free_result(path, text):
    if RESULT.search(text):
        parts = re.split(r"(--[^\n]*|//[^\n]*)", text)
        text = "".join(p if i % 2 else re.sub(r"(?<![.\w'-])result(?![\w'-])", "result_of", p) for i, p in enumerate(parts))
    if path.endswith(".rt"):

        def clause(m):
            return m[1] + "ensures" + m[2] + " { " + (m[4] if m[3] == "_" else re.sub(r"(?<![.\w'-])" + m[3] + r"(?![\w'-])", "result", m[4])) + " }"

        text = re.sub(r"(?m)^( *)ensures\*((?: \w+)?) \{ λ (\w+)\. ⌜ (.*) ⌝ \}$", clause, text)
    return text


FIELDS = set()


def fields(root):
    """The members of records, by their old names."""
    for path in glob.glob(os.path.join(root, "crates/*/specs/*.antt")):
        inside = False
        with open(path, encoding="utf-8") as f:
            for line in comment_free(f.read()).splitlines():
                if re.match(r" *(pub +|abbrev +)*record ", line):
                    inside = True
                elif inside and line.startswith("  ") and DECLARED.match(line):
                    FIELDS.add(DECLARED.match(line)[1])
                elif line.strip():
                    inside = False


def main(argv):
    show = "--names" in argv
    rest = [a for a in argv if a != "--names"]
    root = rest[0] if rest else "."
    fields(root)
    rows, names = table(root)
    # names that fall together
    by_new = collections.defaultdict(set)
    for n in names:
        by_new[rows.get(n, n)].add(n)
    bad = 0
    for new, olds in sorted(by_new.items()):
        if len(olds) > 1:
            print("together:", new, sorted(olds), file=sys.stderr)
            bad = 1
    files = [p for p in glob.glob(os.path.join(root, "crates/**/*.antt"), recursive=True) if "/out/" not in p]
    sources = [p for p in glob.glob(os.path.join(root, "crates/*/src/**/*.rt"), recursive=True)]
    for path in files:
        with open(path, encoding="utf-8") as f:
            words = set(WORD.findall(comment_free(f.read())))
        for w in words:
            if w in rows and rows[w] in words and rows[w] not in rows:
                print("meets:", path, w, rows[w], file=sys.stderr)
                bad = 1
        news = collections.defaultdict(set)
        for w in words:
            news[rows.get(w, w)].add(w)
        for w, olds in news.items():
            if len([o for o in olds if o in rows]) > 1:
                print("meets:", path, w, sorted(olds), file=sys.stderr)
    for path in sources:
        with open(path, encoding="utf-8") as f:
            text = f.read()
        used = set()
        for a, b in clauses(text):
            used |= set(WORD.findall(text[a:b]))
        for fn in re.finditer(r"fn \w+(?:<[^>]*>)?\(([^)]*)\)", text):
            for p in re.findall(r"(\w+):", fn[1]):
                for w in used:
                    if rows.get(w) == p:
                        print("parameter:", path, w, p, file=sys.stderr)
                        bad = 1
    if show:
        for old, new in sorted(rows.items()):
            print(old + "\t" + new)
        return bad
    for path in files + sources:
        with open(path, encoding="utf-8") as f:
            text = f.read()
        new = free_result(path, text)
        new = turn(new, rows) if path.endswith(".antt") else turn_source(new, rows)
        if new != text:
            with open(path, "w", encoding="utf-8") as f:
                f.write(new)
    return 0


if __name__ == "__main__":
    raise SystemExit(main(sys.argv[1:]))
