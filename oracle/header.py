"""Compares include/frequency_sheet.h with the exports in crates/: every function of
either, its arguments and its answer. Prints what differs, and then fails."""
import pathlib
import re
import sys

ROOT = pathlib.Path(__file__).resolve().parent.parent
PLAIN = {"u32": "uint32_t", "i32": "int32_t", "f32": "float", "usize": "size_t"}
CELL = {"u8": "uint8_t", "u32": "uint32_t", "i32": "int32_t", "i64": "int64_t", "f32": "float"}


def prototype(name, arguments, answer):
    out = []
    for a in filter(None, (a.strip() for a in arguments.split(","))):
        given, kind = (x.strip() for x in a.split(":"))
        lent = re.fullmatch(r"&(mut )?\[(\w+)\]", kind)
        if lent:
            out.append(("" if lent[1] else "const ") + CELL[lent[2]] + " *" + given)
            out.append(f"size_t {given}_len")
        else:
            out.append(f"{PLAIN[kind]} {given}")
    return f"{PLAIN[answer]} {name}({', '.join(out)})"


exports = {}
for path in sorted((ROOT / "crates").glob("*/src/**/*.rt")):
    text = path.read_text()
    for m in re.finditer(r'#\[unsafe\(no_mangle\)\]\s*pub extern "C" fn (\w+)\(([^)]*)\)\s*->\s*(\w+)', text):
        exports[m[1]] = prototype(*m.groups())
header = {}
text = re.sub(r"/\*.*?\*/", "", (ROOT / "include/frequency_sheet.h").read_text(), flags=re.S)
for m in re.finditer(r"^(\w+) (\w+)\(([^)]*)\);", text, re.M):
    header[m[2]] = re.sub(r"\s+", " ", m[0][:-1])

failed = False
for name in sorted(exports.keys() | header.keys()):
    if exports.get(name) != header.get(name):
        failed = True
        print(f"{name}\n  crates: {exports.get(name)}\n  header: {header.get(name)}")
print(f"{len(exports)} exports, {len(header)} in the header" + (": they differ" if failed else ", the same"))
sys.exit(failed)
