#!/usr/bin/env python3
"""Lists the places of docs/DESIGN-PASS.md in src/: `tools/places.py [DIR] [POINT]`.

DIR is the top of a checkout (the one that this file stands in, if none is given), POINT a number from 1 to 7. It goes by the text alone: what it lists is to be read,
and what no text shows (a number that stands for a kind, say) is named here by the words that the project has for it.
"""
import glob
import os
import re
import sys

HERE = os.path.dirname(os.path.dirname(os.path.abspath(__file__)))


class Function:
    def __init__(self, crate, path, line, name, head, clauses, body):
        self.crate, self.path, self.line, self.name = crate, path, line, name
        self.head, self.clauses, self.body = head, clauses, body

    def where(self):
        return f"{self.crate}::{self.name}"


def sources(top):
    for path in sorted(glob.glob(os.path.join(top, "crates/*/src/**/*.rt"), recursive=True)):
        crate = path.split("/crates/")[1].split("/")[0]
        with open(path) as f:
            yield crate, path, f.read()


def block(text, start):
    """The end of the braces that open at `start`."""
    depth = 0
    for i in range(start, len(text)):
        if text[i] == "{":
            depth += 1
        elif text[i] == "}":
            depth -= 1
            if depth == 0:
                return i + 1
    return len(text)


FN = re.compile(r"^(    )?(pub(\([a-z]+\))? )?(extern \"C\" )?fn ([a-z_0-9]+)", re.M)


def functions(top):
    for crate, path, text in sources(top):
        for m in FN.finditer(text):
            opens = re.compile(r"^" + (m.group(1) or "") + r"\{$|^.* \{$|;$", re.M).search(text, m.start())
            if not opens or opens.group(0).endswith(";"):
                continue
            open_at = opens.end() - 1
            whole = text[m.start():open_at]
            cut = re.search(r"\n\s*(requires|ensures)", whole)
            head = whole[:cut.start()] if cut else whole
            clauses = whole[cut.start():] if cut else ""
            body = text[open_at:block(text, open_at)]
            yield Function(crate, path, text.count("\n", 0, m.start()) + 1, m.group(5), head, clauses, body)


def enums(top):
    for crate, path, text in sources(top):
        for m in re.finditer(r"^(pub )?enum (\w+)(<[^>]*>)? \{\n(.*?)^\}", text, re.M | re.S):
            variants = [v.strip().rstrip(",") for v in m.group(4).split("\n") if v.strip() and not v.strip().startswith("//")]
            yield crate, m.group(2), variants


def structs(top):
    for crate, path, text in sources(top):
        for m in re.finditer(r"^(pub )?struct (\w+)(<[^>]*>)? \{\n(.*?)^\}", text, re.M | re.S):
            fields = re.findall(r"^\s+(?:pub )?(\w+): (.+),$", m.group(4), re.M)
            yield crate, m.group(2), fields


# ---- 1


def point_1(top):
    for crate, name, variants in enums(top):
        bare = [v for v in variants if "(" not in v and "{" not in v]
        full = [v for v in variants if v not in bare]
        ends = any(re.match(r"(None|Not|No|Un|Refused|Failed|Misused)", v) for v in variants)
        if full and len(full) == 1 and len(bare) == 1 or len(variants) == 2 and full and ends or ends and not full or ends and len(variants) > 2:
            yield f"enum {crate}::{name}: {', '.join(variants)}"
    for crate, name, fields in structs(top):
        flags = [f for f, t in fields if t == "bool"]
        if flags and any(t != "bool" for _, t in fields):
            yield f"flag {crate}::{name}: {', '.join(flags)}"
        if any(f == "code" for f, _ in fields):
            yield f"code {crate}::{name}: {', '.join(f for f, _ in fields)}"
    for f in functions(top):
        if re.search(r"-> (u8|u32|u64|usize)$", f.head.rstrip()) and re.search(r"\bNONE\b|codes::|^\s*16$", f.body, re.M):
            yield f"number {f.where()}"
        if re.search(r"\bkinds::[A-Z]|\bkind: u32\b|match kind \{|\b(s\.kind|kind) [=!]= \d", f.head + f.body):
            yield f"kind {f.where()}"
        if re.search(r"\bcode: u32\b(?!::)|\b(code|form) [!=]= codes::|\bform: u32\b", f.head + f.body):
            yield f"refusal {f.where()}"


# ---- 2

WORDS = [
    (r"from_pci|from_addon|pci|addon|Pci|Addon|PCI|ADDON", "SIDE"),
    (r"intcsr|aint|INTCSR|AINT|mcsr|agcsts|MCSR|AGCSTS", "REGISTER"),
    (r"write|read|WRITE|READ|Write|Read", "WAY"),
    (r"english|german|ENGLISH|GERMAN", "SET"),
    (r"INCOMING|OUTGOING|incoming|outgoing", "MAIL"),
    (r"ByteCount|WordFill|u8|u16|u32|u64|usize", "TYPE"),
    (r"words|room|one|least|most|two|four|eight", "SIZE"),
    (r"has_log|s5933_count|s5933_log|s5933_hex", "PROGRAM"),
    (r'b?"[^"]*"', "TEXT"),
    (r"\b0x[0-9A-Fa-f_]+\b|\b[0-9_]+\b", "N"),
]


def shape(text):
    text = re.sub(r"//.*", "", text)
    for words, to in WORDS:
        text = re.sub(words, to, text)
    return re.sub(r"\s+", "", text)


def point_2(top):
    groups = {}
    for f in functions(top):
        body = shape(f.body)
        if len(body) < 24:
            continue
        groups.setdefault((shape(re.sub(r".*?\(", "(", f.head, count=1, flags=re.S)), body), []).append(f)
    seen = set()
    for (head, body), fs in groups.items():
        if len(fs) > 1:
            yield " = ".join(f.where() for f in fs)
            seen.update(f.where() for f in fs)
    # by name: two functions of a crate whose names differ in a word of a side, a way, a set or a size only
    by_name = {}
    for f in functions(top):
        by_name.setdefault((f.crate, shape(f.name)), []).append(f)
    for fs in by_name.values():
        whole = {f.where() for f in fs}
        if len(whole) > 1 and not whole <= seen:
            yield "by name " + " ~ ".join(sorted(whole))
    # by name, of two programs
    programs = {}
    for f in functions(top):
        if f.crate.startswith("s5933"):
            programs.setdefault(f.name, []).append(f)
    for fs in programs.values():
        if len(fs) > 1:
            yield "programs " + " ~ ".join(f.where() for f in fs)
    fields = {}
    for crate, name, fs in structs(top):
        twins = {}
        for field, kind in fs:
            twins.setdefault((shape(field), kind), []).append(field)
        for (w, kind), group in twins.items():
            if len(group) > 1 and "SIDE" in w:
                yield f"fields {crate}::{name}: {', '.join(group)}"


# ---- 3


def point_3(top):
    for f in functions(top):
        for m in re.finditer(r"\bwhile .*\{|\bfor \w+ in 0\.\..*\{|\bloop \{", f.body):
            yield f"{f.where()}: {m.group(0)}"


# ---- 4

BY_HAND = [
    (r"if (\w+) < (\w+) \{ \1 \} else \{ \2 \}", "the less of two"),
    (r"if \w+ \{ 1 \} else \{ 0 \}", "a number of a bool"),
    (r"if \w+ \{ (one|\w+) \} else \{ 0 \}", "a number of a bool"),
    (r"if \w+ < \w+\.len\(\) \{ \w+\[\w+\] \} else \{ 0 \}", "the element, or zero"),
    (r"\b(\w+)\[0\],\s+\1\[1\],\s+\1\[2\]", "an array copied by hand"),
    (r"address: 0,\s+value: 0,\s+enables: 0,", "a default by hand"),
    (r"% 256\) as u8", "bytes of a number"),
    (r"num::wrapping_(add|sub)_u32", "wrapping by a function of num"),
    (r"let n = \w+\.0;\s+if n", "a bound of a number by hand"),
]


def point_4(top):
    for f in functions(top):
        for by, what in BY_HAND:
            if re.search(by, f.body):
                yield f"{what}: {f.where()}"


# ---- 5


def facts(clauses):
    for m in re.finditer(r"requires( \w+)? \{ (.*) \}$", clauses, re.M):
        for part in re.split(r" × ", m.group(2)):
            yield part.strip("() ")


PAIRS = [("memory", "start"), ("start", "words"), ("out", "at"), ("writes", "reads"), ("text", "at"), ("memory", "start", "out"), ("bytes", "len")]


def parameters(head):
    inside = head[head.find("(") + 1:head.rfind(")")]
    return set(re.findall(r"\b(\w+):", inside))


def point_5(top):
    stands = {}
    for f in functions(top):
        for fact in facts(f.clauses):
            stands.setdefault(fact, []).append(f.where())
    for fact, where in sorted(stands.items(), key=lambda t: -len(t[1])):
        if len(where) > 2:
            yield f"fact in {len(where)}: {fact}"
    for pair in PAIRS:
        where = [f.where() for f in functions(top) if set(pair) <= parameters(f.head)]
        if len(where) > 2:
            yield f"together in {len(where)}: {', '.join(pair)}: {' '.join(where)}"


# ---- 6


def point_6(top):
    for crate, name, fields in structs(top):
        kinds = dict(fields)
        arrays = [f for f, t in fields if t.startswith("[")]
        counts = [f for f, t in fields if re.search(r"len|fill|count", f)]
        if arrays and counts:
            yield f"buffer with a length: {crate}::{name}: {', '.join(arrays)}; {', '.join(counts)}"
        if len(arrays) > 1:
            yield f"arrays side by side: {crate}::{name}: {', '.join(arrays)}"
    for f in functions(top):
        if re.search(r"\b(n|len|words|count): usize", f.head) and "&[" in f.head:
            yield f"slice with a length: {f.where()}"


# ---- 7


def point_7(top):
    for f in functions(top):
        flags = re.findall(r"(\w+): bool", f.head[f.head.find("("):])
        if flags:
            yield f"by a bool: {f.where()}: {', '.join(flags)}"
        if re.search(r"match (kind|set|mode|\w*try_from\(s\.kind\)) \{", f.body) or re.search(r"match StepKind", f.body):
            yield f"switch: {f.where()}"


POINTS = {1: point_1, 2: point_2, 3: point_3, 4: point_4, 5: point_5, 6: point_6, 7: point_7}


def main():
    top = HERE
    wanted = list(POINTS)
    for arg in sys.argv[1:]:
        if arg.isdigit():
            wanted = [int(arg)]
        else:
            top = os.path.abspath(arg)
    for n in wanted:
        found = list(POINTS[n](top))
        print(f"# point {n}: {len(found)}")
        for line in found:
            print("  " + line)


main()
