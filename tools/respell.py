#!/usr/bin/env python3
"""Brings the names that specs/ and proofs/ define to the kit's spelling, in every file that cites them.

usage: respell.py [--dry]      at the top of the repository, once, right after the kit's own scripts

A definition in lower camel case becomes snake case. A dash stays only between two names of functions, and is an underscore elsewhere.
specs/Contracts.antt becomes specs/Layers.antt, since the kit makes a module of that name. Names of src/, strings and outputs stay.
Where two names would fall together, the lemma takes `_lem`; what is left is printed.
"""
import glob
import os
import re
import subprocess
import sys

DRY = "--dry" in sys.argv
TOKEN = re.compile(r"[^\s(){}\[\],;.:⟨⟩\"`∙]+")
DEFINED = re.compile(r"^[ ]*(?:(?:abbrev|unfoldable|pub|data|record|ruleset)\s+)*([^\s:(){},]+(?: +[^\s:(){},]+)*)\s*(?:\([^\n]*?\)\s*)*:(?!=)\s", re.M)
CHOSEN = {"isState": "state_test", "maskAt": "mask_of_state", "placeAt": "place_among", "tooLarge": "is_too_large", "tooMany": "are_too_many"}
WORDS = "length take drop append set map replicate get_or sum reverse all any le lt".split()
GENERATED = re.compile(r"^(returns|add|mul|cast|sub|loop|invariant|decreases|μ|slice|shared|bounds)(-|$)|-requires(-\d+)?$|-spec$|^[+μ]")


def files(kinds):
    for folder, dirs, names in os.walk("crates"):
        dirs[:] = sorted(d for d in dirs if d != "out")
        for n in sorted(names):
            if n.endswith(kinds):
                yield os.path.join(folder, n)


def read(p):
    with open(p, encoding="utf-8") as f:
        return f.read()


def bare(text):
    """Without comments."""
    return re.sub(r"--[^\n]*", "", text)


def kebab(n):
    return "-" in n and re.search(r"[a-z]", n) is not None


def snake(n):
    n = re.sub(r"(?<=[a-z0-9])([A-Z])", lambda m: "_" + m.group(1).lower(), n)
    return n


antt = list(files((".antt",)))
direct = [p for p in antt if re.match(r"crates/\w+/(specs|proofs)/\w+\.antt$", p)]
defined, functions, everything = {}, set(WORDS), set()
for p in antt:
    for t in TOKEN.findall(bare(read(p))):
        everything.add(t)
for p in direct:
    text = bare(read(p))
    for m in re.finditer(r"^(?:abbrev|unfoldable)(?: pub)? ([^\s:(){}]+) :", text, re.M):
        functions.add(m.group(1))
        functions.add(snake(m.group(1)))
    depth = 0
    for line in text.splitlines():
        m = re.match(r"^( *)(?:(?:abbrev|unfoldable|pub|data|record|ruleset)\s+)*([^\s:(){},=]+(?: [^\s:(){},=]+)*?)\s*(?:[({][^:]*:[^:]*[)}]\s*)*:(?!=)(?:\s|$)", line)
        if m:
            for n in m.group(2).split():
                defined.setdefault(n, []).append(p)

turned = {}
for n in sorted(defined):
    if n[0].isupper() and not kebab(n):
        continue
    if GENERATED.search(n):
        continue
    new = n
    if re.match(r"[a-z]\w*[A-Z]", n) and "-" not in n:
        new = snake(n)
    elif kebab(n) and not re.search(r"[∷+*<≤≡]", n):
        parts = n.split("-")
        new = snake(parts[0])
        for a, b in zip(parts, parts[1:]):
            new += ("-" if a in functions and b in functions else "_") + snake(b)
    if new != n:
        turned[n] = new

# what the new names must not meet: the names that stay, and those that a file brings in from a library
others = set(defined) - set(turned)
for p in antt + list(files((".rt",))):
    for m in re.finditer(r"^\s*(?:ghost )?use (?:Rattle\.(?:std|core)|mathlib|native|borrow|lib)\S*\.\{([^}]*)\}", read(p), re.M):
        others.update(x.split(" as ")[-1].strip() for x in m.group(1).split(","))
taken = {}
for n in sorted(turned, key=lambda n: ("-" in n, n)):
    new = CHOSEN.get(n, turned[n])
    if new in others or new in taken:
        new = new + "_lem" if "-" in n else new + "_of"
    if new in others or new in taken:
        print("left:", n, "->", new)
        continue
    turned[n] = new
    taken[new] = n

locals_ = set()
for p in antt:
    for m in re.finditer(r"λ ([^.]*)\.|[({]([^:(){}]*) :|\blet (\S+)", bare(read(p))):
        locals_.update((m.group(1) or m.group(2) or m.group(3) or "").split())
for n, new in sorted(turned.items()):
    if new in locals_:
        print("look: a bound name too:", n, "->", new)
print("camel:", sum("-" not in n for n in turned), "dash:", sum("-" in n for n in turned))


def turn(text, comment):
    def one(m):
        t = m.group(0)
        return turned.get(t, t)

    out = []
    for line in text.split("\n"):
        at = line.find(comment)
        code, rest = (line, "") if at < 0 else (line[:at], line[at:])
        code = TOKEN.sub(one, code)
        rest = re.sub(r"[a-z]\w*[A-Z]\w*", one, rest)
        out.append(code + rest)
    text = "\n".join(out)
    return re.sub(r"(specs\.|pub mod |specs/)Contracts\b", r"\1Layers", text)


if DRY:
    for n, new in sorted(turned.items()):
        print(n, "->", new)
    raise SystemExit
for p in files((".antt", ".rt", ".edit")):
    old = read(p)
    new = turn(old, "//" if p.endswith(".rt") else "--")
    if new != old:
        with open(p, "w", encoding="utf-8") as f:
            f.write(new)
for p in glob.glob("docs/**/*.md", recursive=True) + ["README.md", "CHANGELOG.md"]:
    old = read(p)
    new = re.sub(r"`([^`\n]*)`", lambda m: "`" + TOKEN.sub(lambda t: turned.get(t.group(0), t.group(0)), m.group(1)) + "`", old)
    new = new.replace("specs/Contracts.antt", "specs/Layers.antt")
    if new != old:
        with open(p, "w", encoding="utf-8") as f:
            f.write(new)
for p in glob.glob("crates/*/specs/Contracts.antt"):
    subprocess.run(["git", "mv", p, p.replace("Contracts", "Layers")], check=True)
