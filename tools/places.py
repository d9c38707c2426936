#!/usr/bin/env python3
"""Counts places in src/ where an older form may stand, a line each: tools/places.py [FOLDER] [POINT]. docs/DESIGN-PASS.md reads them."""
import collections
import glob
import os
import re
import sys

top = sys.argv[1] if len(sys.argv) > 1 else "."
only = sys.argv[2] if len(sys.argv) > 2 else ""


def strip(text):
    text = re.sub(r"//[^\n]*", "", text)
    return re.sub(r"ghost use [^;]*;", "", text)


def closing(text, start, pair="{}"):
    depth = 0
    for i in range(start, len(text)):
        depth += text[i] == pair[0]
        depth -= text[i] == pair[1]
        if depth == 0:
            return i
    return len(text)


class Function:
    """A function: file, name, parameters, clauses and body."""

    def __init__(self, file, name, params, clauses, body):
        self.file, self.name, self.params, self.clauses, self.body = file, name, params, clauses, body


def functions(file, text):
    for m in re.finditer(r"\bfn (\w+)(?:<[^>]*>)?\(", text):
        end = closing(text, m.end() - 1, "()")
        params = [p.strip() for p in re.split(r",(?![^\[]*\])", text[m.end() : end]) if p.strip()]
        # clauses: `requires NAME? { .. }` and `ensures NAME? { .. }` up to the body
        at, clauses = end, []
        while True:
            k = re.compile(r"\s*(?:->[^{;]*?)?(?:\b(requires|ensures)\b\s*\w*\s*)?\{").match(text, at + 1)
            if not k:
                break
            close = closing(text, k.end() - 1)
            inner = text[k.end() : close]
            if not k.group(1):
                yield Function(file, m.group(1), params, clauses, inner)
                break
            clauses.append((k.group(1), re.sub(r"\s+", " ", inner).strip()))
            at = close


sources = {f: strip(open(f).read()) for f in sorted(glob.glob(top + "/crates/*/src/**/*.rt", recursive=True))}
short = lambda f: os.path.relpath(f, top)
every = [fn for f, t in sources.items() for fn in functions(f, t)]


def point1():
    for f, t in sources.items():
        for m in re.finditer(r"enum (\w+)[^{;]*\{", t):
            body = t[m.end() : closing(t, m.end() - 1)]
            body = re.sub(r"\([^()]*\)", "(..)", body)
            while re.search(r"\{[^{}]*\}", body):
                body = re.sub(r"\s*\{[^{}]*\}", "(..)", body)
            names = [v.strip() for v in body.split(",") if v.strip()]
            bare = [v for v in names if "(" not in v]
            refusing = [v for v in names if re.match(r"(Refused|Wrong|Fault|Err)\b", v)]
            if (len(names) == 2 and len(bare) == 1) or refusing or (0 < len(bare) < len(names) <= 4):
                yield f, f"enum {m.group(1)}: {', '.join(names)}"
        for m in re.finditer(r"struct (\w+)[^{;]*\{", t):
            fields = t[m.end() : closing(t, m.end() - 1)]
            flags = re.findall(r"(\w+): bool", fields)
            if flags and fields.count(":") > 1:
                yield f, f"struct {m.group(1)}: flags {', '.join(flags)}"
        for m in re.finditer(r"const ([A-Z_]+): u8\b", t):
            yield f, f"number {m.group(1)}"
        for m in re.finditer(r"\b(number|kind|pass|code): (u8|usize)", t):
            yield f, f"number {m.group(1)}: {m.group(2)}"
        for m in re.finditer(r"\b(\w+)\.(len|rule|more|fits|refused) [=!]= 0\b|!?\b(\w+)\.(more|fits|refused)\b", t):
            yield f, f"sentinel {m.group(0)}"


def shape(fn):
    """The body and the parameter types with names and numbers taken away."""
    body = re.sub(r"\b\d+(usize|u64|u8|u32)?\b", "0", fn.body)
    body = re.sub(r"\b(crate::)?(\w+::)*(\w+)", lambda m: m.group(3), body)
    body = re.sub(r"\b(?!if|else|while|for|in|match|return|let|mut|as|u8|u16|u32|u64|usize|bool|true|false|self)\w+\b", "x", body)
    types = [re.sub(r"\b\d+\b", "0", p.split(":", 1)[-1].strip()) for p in fn.params]
    return re.sub(r"\s+", " ", body).strip(), tuple(types)


def point2():
    groups = collections.defaultdict(list)
    for fn in every:
        if len(fn.body.split()) >= 6 and "no_mangle" not in sources[fn.file]:
            groups[shape(fn)].append(fn)
    for fns in groups.values():
        if len(fns) > 1:
            yield fns[0].file, f"{len(fns)} of one shape: " + ", ".join(f"{short(fn.file)[7:]} {fn.name}" for fn in fns)


def loops(text):
    for m in re.finditer(r"\b(while|for|loop)\b([^{]*)\{", text):
        yield m.group(1), m.group(2).strip(), text[m.end() : closing(text, m.end() - 1)]


def point3():
    for f, t in sources.items():
        for kind, cond, body in loops(t):
            if kind != "while":
                continue
            steps = [v for v in set(re.findall(r"[a-z_]\w*", cond)) if re.search(r"(?<!\.)\b%s [-+]= 1;" % v, body)]
            if steps:
                yield f, f"while {cond}, counting {', '.join(sorted(steps))}"


def point4():
    for f, t in sources.items():
        for m in re.finditer(r"impl (?:[\w:<>]+::)?(PartialEq|Eq|PartialOrd|Ord|Clone|Copy|From\b\S*|Display|Debug)[^{]* for (\w+)", t):
            yield f, f"impl {m.group(1)} for {m.group(2)}"
        for m in re.finditer(r"if (\w+) (<|<=) (\w+) \{ (\w+) \} else \{ (\w+) \}", t):
            if {m.group(1), m.group(3)} == {m.group(4), m.group(5)}:
                yield f, "min or max: " + m.group(0)
        for m in re.finditer(r"\n\s*(\w+)\[[^\]]*\] = (\w+)\[[^\]]*\];\n\s*\w+ \+= 1;", t):
            yield f, f"copies {m.group(2)} to {m.group(1)} in a loop"
        for m in re.finditer(r"struct (\w+)", t):
            if not re.search(r"derive\([^)]*\)\]\s*(pub )?struct %s\b" % m.group(1), t):
                yield f, f"struct {m.group(1)} with no derive"
    for fn in every:
        if re.match(r"put_(number|decimal|field|line|refusal)", fn.name):
            yield fn.file, f"prints by hand: {fn.name}"


def point5():
    facts = collections.defaultdict(list)
    for fn in every:
        seen = set()
        for kind, clause in fn.clauses:
            if kind == "requires":
                for fact in clause.split("×"):
                    seen.add(re.sub(r"\b(now|old)\b", "now", re.sub(r"[()]", " ", fact)).strip())
        for fact in seen:
            facts[re.sub(r"\s+", " ", fact)].append(fn)
    for fact, fns in sorted(facts.items(), key=lambda it: -len(it[1])):
        if len(fns) >= 3:
            yield fns[0].file, f"{len(fns)} contracts require {fact}"
    together = collections.defaultdict(list)
    for fn in every:
        names = sorted({p.split(":")[0].replace("mut ", "").strip() for p in fn.params if ":" in p})
        for i, a in enumerate(names):
            for b in names[i + 1 :]:
                together[a, b].append(fn)
    counts = collections.Counter(p.split(":")[0].replace("mut ", "").strip() for fn in every for p in fn.params if ":" in p)
    for (a, b), fns in sorted(together.items(), key=lambda it: -len(it[1])):
        if len(fns) >= 3 and len(fns) == min(counts[a], counts[b]) and len(fns) * 2 > max(counts[a], counts[b]):
            yield fns[0].file, f"{len(fns)} functions take {a} and {b}"


def point6():
    for fn in every:
        for a, b in zip(fn.params, fn.params[1:]):
            if re.search(r": &(mut )?\[", a) and re.match(r"(count|len|n|rows|total|marked|\w*_count): usize", b):
                yield fn.file, f"{fn.name}: {a}, {b}"
    for f, t in sources.items():
        for kind, cond, body in loops(t):
            if kind == "while" and re.match(r"\w+ != 0$", cond):
                yield f, f"goes along links: while {cond}"


def point7():
    for fn in every:
        for p in fn.params:
            if re.match(r"(\w+): bool$", p):
                yield fn.file, f"{fn.name}: {p}"
    for f, t in sources.items():
        for m in re.finditer(r"\.pass == (\w+::\w+)", t):
            yield f, f"step by number: {m.group(0)}"


def point8():
    for f in sorted(glob.glob(top + "/crates/*/proofs/**/*.antt", recursive=True)):
        if os.path.basename(f) in ("Proof.antt", "Answers.antt", "Invariants.antt"):
            yield f, f"{os.path.basename(f)}, {len(open(f).readlines())} lines"


for n, point in enumerate((point1, point2, point3, point4, point5, point6, point7, point8), 1):
    if only and only != str(n):
        continue
    found = list(point())
    print(f"point {n}: {len(found)}")
    if only:
        for f, text in found:
            print(f"  {short(f)}: {text}")
