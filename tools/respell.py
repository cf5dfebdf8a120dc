#!/usr/bin/env python3
"""Spells this repository's own definitions and lemmas as today's Rattle spells names: words joined by `_`, and no dot inside a name.

usage: respell.py [--list] [FOLDER]

Run once, at the top, after the kit's port.py, over crates as they were named then. It reads the names that specs/ and proofs/ of each crate declare, and turns
  angleCellsOf  to  angle_cells_of
  f0·05         to  f0_05
in every .antt file, in the clauses of .rt files and in must-fail edits. Names of src/ keep their spelling, and so does all
that stands in a string. It writes nothing where a name falls together with another in a file that has both.
"""
import os
import re
import sys

# A lemma that would have the name of the definition it speaks of, by the file that has both: it gets the ending `_lem`.
LEMMAS = {
    "call_lists/proofs/Lists.antt": ["answers_with"],
    "sheet_refusals/proofs/Muf.antt": ["both_by"],
    "layer_mufs/proofs/Says.antt": ["both_by"],
    "sheet_lines/proofs/Lengths.antt": ["call_line"],
    "trace_laws/proofs/OnlyLines.antt": ["in_both"],
    "circuit_laws/proofs/ReadWritten.antt": ["point_at"],
    "circuit_sheet/proofs/Ranges.antt": ["raised_by", "count_by"],
    "ionogram_words/proofs/Ranges.antt": ["raised_by", "count_by"],
    "state_laws/proofs/ReadBack.antt": ["signed_by"],
    "chain_laws/proofs/Longer.antt": ["step_by"],
    "cell_test/proofs/Test.antt": ["under_one"],
    "call_lists/proofs/Numbers.antt": ["upper_by"],
    "export_refusals/proofs/Heights.antt": ["left_by"],
    "scan_angles/proofs/Counts.antt": ["step_by"],
}

NAME = re.compile(r"(?<![^\s(){}\[\];,@«».\"`])[^\s(){}\[\];,@«».\"`]+")
DECLARED = re.compile(r"^ *(?:(?:pub|abbrev|unfoldable) )*([^\s(){};,@\"«».]+)(?: \{[^{}\n]*\}| \([^()\n]*\))* :(?: |$)", re.M)
CAMEL = re.compile(r"[a-z0-9'₀-₉][A-Z]")


def snake(name):
    name = re.sub(r"(?<=[a-z0-9'])([A-Z])(?=[a-z0-9'-]|$)", lambda m: "_" + m.group(1).lower(), name)
    name = re.sub(r"(?<=[a-z0-9'])([A-Z]+)", lambda m: "_" + m.group(1).lower(), name)
    return name.replace("·", "_")


def files(root):
    for folder, dirs, names in os.walk(os.path.join(root, "crates")):
        dirs[:] = sorted(d for d in dirs if d != "out")
        for n in sorted(names):
            if n.endswith((".rt", ".antt", ".edit")):
                yield os.path.join(folder, n)


def strings_apart(text):
    """The text in pieces, and for each whether it is a string of the Rust."""
    at = 0
    for m in re.finditer(r'b?"(?:[^"\\\n]|\\.)*"', text):
        yield text[at:m.start()], False
        yield m.group(0), True
        at = m.end()
    yield text[at:], False


def main(argv):
    only_list = "--list" in argv
    rest = [a for a in argv if a != "--list"]
    root = rest[0] if rest else "."
    texts = {}
    for p in files(root):
        with open(p, encoding="utf-8") as f:
            texts[p] = f.read()
    for name, lemmas in LEMMAS.items():
        p = os.path.join(root, "crates", name)
        if p in texts:
            meant = {snake(n) for n in NAME.findall(texts[p]) if CAMEL.search(n)}
            texts[p] = NAME.sub(lambda m: m.group(0) + "_lem" if m.group(0) in lemmas and m.group(0) in meant else m.group(0), texts[p])
    own = set()
    for p, t in texts.items():
        if p.endswith(".antt"):
            own.update(DECLARED.findall(t))
    new = {}
    for n in own:
        if n[0].islower() and (CAMEL.search(n) or "·" in n):
            new[n] = snake(n)
    met = []
    back = {}
    for a, b in new.items():
        back.setdefault(b, []).append(a)
    met += [f"{' and '.join(sorted(a))} -> {b}" for b, a in sorted(back.items()) if len(a) > 1]
    for p, t in texts.items():
        have = set()
        for piece, quoted in strings_apart(t):
            if quoted:
                continue
            piece = re.sub(r"(--|//).*", "", piece)
            # A function of src/ may have the name of the definition that its contract cites; a parameter may not, since it hides it.
            if p.endswith(".rt"):
                have.update(re.findall(r"\b(\w+): ", piece))
                piece = " ".join(re.findall(r"ghost use [^;]*;", piece))
            piece = re.sub(r"\bRattle(?:\.[^\s.{]+)+", "", piece)
            have.update(NAME.findall(piece))
        for n in have & new.keys():
            if new[n] in have:
                met.append(f"{n} -> {new[n]}: stands in {os.path.relpath(p, root)}")
    if only_list:
        for a in sorted(new):
            print(a, new[a])
    if met:
        print("\n".join(sorted(met)))
        return 1
    if only_list:
        return 0
    for p, t in texts.items():
        turned = "".join(piece if quoted else NAME.sub(lambda m: new.get(m.group(0), m.group(0)), piece) for piece, quoted in strings_apart(t))
        if turned != t or os.path.relpath(p, os.path.join(root, "crates")) in LEMMAS:
            with open(p, "w", encoding="utf-8") as f:
                f.write(turned)
    return 0


if __name__ == "__main__":
    raise SystemExit(main(sys.argv[1:]))
