#!/usr/bin/env python3
"""Turns the names of goals, places and steps that a Proof.antt cites to those that the kit gives them now.

usage: turn_goals.py NAMES CRATE..     at the top of the repository; NAMES is the folder that `rt names NAMES` wrote

names.json pairs each old name with the new one, goals in the order in which `tie.spec` takes their answers.
"""
import collections
import json
import os
import re
import sys

WORD = r"[^\s(){}\[\],;.:⟨⟩\"`]+"


def norm(n):
    return re.sub(r"[-_]+", "-", n)


def arguments(text, i):
    """The arguments of an application from i on, each with its place in the text."""
    out, depth, start = [], 0, None
    while i < len(text):
        ch = text[i]
        if text.startswith("--", i):
            i = text.find("\n", i)
            continue
        if ch in "([{":
            depth += 1
            start = i if start is None else start
        elif ch in ")]}":
            if depth == 0:
                break
            depth -= 1
        elif ch.isspace() and depth == 0:
            if start is not None:
                out.append((start, i))
                start = None
            i += 1
            continue
        elif start is None:
            start = i
        i += 1
    if start is not None:
        out.append((start, i))
    return out


class Function:
    def __init__(self, v):
        self.places = v.get("places", [])
        self.index = {norm(p[0]): i for i, p in enumerate(self.places)}
        self.new_place = {norm(p[0]): n for p, n in zip(self.places, v.get("places_by_name", []))}
        self.needs = v.get("needs", [])
        self.at = v.get("asked_at", [])
        self.arms = v.get("arms", [])
        self.loops = v.get("loops", [])
        fields = collections.defaultdict(set)
        for p in self.places:
            if p[2][0]:
                fields[norm(p[2][0])].add(p[2][1])
        self.fields = fields
        self.args = v.get("args", [])

    def place_of_need(self, i):
        if i < len(self.at):
            return self.index.get(norm(self.at[i][0]))
        return None

    def back(self, place, n):
        for _ in range(n):
            if place is None:
                return None
            prev = self.places[place][1]
            place = None if prev is None else self.index.get(norm(prev))
        return place

    def step(self, place, field, rest):
        """The new spelling of place's field (with the path behind it), or None."""
        seen = 0
        while place is not None and seen < 400:
            old, new = self.places[place][2]
            if old and norm(old) == norm(field):
                arm = self.arms[place] if place < len(self.arms) else None
                if arm:
                    best = None
                    for sub, of, path in arm[2]:
                        if norm(of) == norm(field) and rest[: len(path)] == path and path:
                            if best is None or len(path) > len(best[1]):
                                best = (sub, path)
                    if best:
                        return [arm[0], best[0]] + rest[len(best[1]) :]
                return [new] + rest
            arm = self.arms[place] if place < len(self.arms) else None
            if arm:
                for sub, of, path in arm[2]:
                    if norm(of) == norm(field) and path and rest[: len(path)] == path:
                        return [arm[0], sub] + rest[len(path) :]
            prev = self.places[place][1]
            place = None if prev is None else self.index.get(norm(prev))
            seen += 1
        return None


def turn(text, fn, last, said):
    # 1. the answers, by their positions
    bare = text
    i = bare.find("tie.spec")
    need_of = {}
    inline = []
    if i >= 0:
        args = arguments(bare, i + len("tie.spec"))
        n = 2 * len(fn.loops)
        if len(args) != n + len(fn.needs):
            said.append(f"{len(args)} answers for {n} + {len(fn.needs)}")
        for k, (a, b) in enumerate(args[n:]):
            if k < len(fn.needs):
                word = bare[a:b]
                if re.fullmatch(WORD, word):
                    need_of.setdefault(word, k)
                else:
                    inline.append((a, b, k))
    # 2. variables' places, decl by decl
    edits = []

    def chains(a, b, places):
        part = text[a:b]
        for m in re.finditer(r"\blet (\S+) = (\S+?)((?:\.before)*) in\b", part):
            if m.group(2) in places:
                places[m.group(1)] = fn.back(places[m.group(2)], m.group(3).count(".before"))
        for m in re.finditer(r"(?<![\w.'-])(" + WORD + r")((?:\.before)*)((?:\." + WORD + r")+)", part):
            var = m.group(1)
            if var not in places or places[var] is None:
                continue
            place = fn.back(places[var], m.group(2).count(".before"))
            path = m.group(3)[1:].split(".")
            if path[0] in ("args", "requires", "ranges", "well_formed", "lifetimes", "type_inv", "auto"):
                continue
            new = fn.step(place, path[0], path[1:])
            if new is None:
                continue
            if new != path:
                edits.append((a + m.start(3), a + m.end(3), "." + ".".join(new)))
            else:
                edits.append((a + m.start(3), a + m.end(3), m.group(3)))

    decl = [m.start() for m in re.finditer(r"^(?=\S)", text, re.M)] + [len(text)]
    # a signature and its body: merge lines of one name
    blocks = []
    for a, b in zip(decl, decl[1:]):
        head = text[a:b].split(None, 3)
        blocks.append((a, b))
    sig = {}
    for a, b in blocks:
        block = text[a:b]
        m = re.match(r"(?:(?:pub|abbrev|unfoldable)\s+)*(" + WORD + r") :", block)
        if m and not block.startswith(("use ", "--", "record ", "pub record", "data ")):
            name = m.group(1)
            places = {}
            for v in re.finditer(r"\(([^():]+) : tie\.(" + WORD + ")", block):
                for x in v.group(1).split():
                    places[x] = fn.index.get(norm(v.group(2)))
            pi = [x.strip() for x in re.findall(r"\(([^():]+) : ", block)]
            order = " ".join(pi).split()
            sig[name] = (places, order, re.search(r"tie\.Need-(" + WORD + ")", block) is not None)
            chains(a, b, places)
    for a, b in blocks:
        block = text[a:b]
        m = re.match(r"(" + WORD + r")((?: [^=]*?)?) = ?", block) or re.match(r"(" + WORD + r")((?: [^=]*?)?) =\n", block)
        if not m or m.group(1) not in sig:
            continue
        name = m.group(1)
        places, order, is_need = sig[name]
        here = {}
        binders = m.group(2).split()
        if is_need:
            k = need_of.get(name)
            if k is not None:
                var = binders[0] if binders else None
                if var is None:
                    v = re.search(r"λ (\S+?)[ .]", block)
                    var = v.group(1) if v else None
                if var:
                    here[var] = fn.place_of_need(k)
        else:
            for x, y in zip(order, binders):
                if x in places:
                    here[y] = places[x]
        if i >= 0 and a <= i < b:
            for x, y, k in inline:
                v = re.match(r"\(λ (\S+?)[ .]", text[x:y])
                if v:
                    chains(x, y, {v.group(1): fn.place_of_need(k)})
        else:
            chains(a, b, here)
    # 3. apply, then the rest by the plain table
    edits.sort()
    done = []
    out, at = "", 0
    for a, b, new in edits:
        if a < at:
            continue
        out += text[at:a] + "\0" + new.replace(".", "\1") + "\2"
        at = b
    text = out + text[at:]
    needs = {}
    for k, (old, new) in enumerate(fn.needs):
        needs.setdefault(norm(old), new)
    for k, (old, new) in enumerate(fn.needs):
        needs.setdefault(norm(new), new)
    given = {name: fn.needs[k][1] for name, k in need_of.items()}

    def goal(m):
        name, need = m.group(1), m.group(3)
        return f"{name}{m.group(2)}tie.Need-{given.get(name) or needs.get(norm(need), need)}"

    text = re.sub(r"(?m)^((?:pub |abbrev )*" + WORD + r")( :[^\n]*?(?:\n +[^\n]*?)*?)tie\.Need-(" + WORD + ")", goal, text)
    text = re.sub(r"tie\.Need-(" + WORD + ")", lambda m: "tie.Need-" + (m.group(1) if m.group(1) in {n for _, n in fn.needs} else needs.get(norm(m.group(1)), m.group(1))), text)
    for (old, new), _ in [(l[0], 0) for l in fn.loops]:
        text = re.sub(r"tie\.(invariant|decreases)-" + re.escape(old) + r"(?![\w-])", r"tie.\1-" + new, text)

    def place(m):
        return "tie." + fn.new_place.get(norm(m.group(1)), m.group(1))

    text = re.sub(r"tie\.((?:After|At|In|Then|Else|Start|Past|Walked|Join|Untold|Met|Over|Arm|Of)[\w-]*)", place, text)

    def field(m):
        w = m.group(1)
        w = w[:-4] if w.endswith("_lem") and norm(w[:-4]) in fn.fields else w
        new = fn.fields.get(norm(w))
        if new and len(new) == 1:
            return "." + next(iter(new))
        if new:
            said.append(f".{w} may be {sorted(new)}")
        return "." + w

    kept = "".join(rf"(?<!\.{w})" for w in "args ranges requires ensures initial auto type_inv result now".split())
    text = re.sub(kept + r"(?<=[\w'₀-₉-])\.(" + WORD + r")(?=[\s.)},;\]])", field, text)
    text = text.replace("\0", "").replace("\1", ".").replace("\2", "")
    spec = last + "_spec"
    text = re.sub(r"(?<![\w.+])\+?" + re.sub(r"[-_]", "[-_]", re.escape(last.lstrip("+")).replace("\\-", "-")) + r"[-_]spec(?![\w-])", spec, text)
    return text


def main(names, crates):
    for crate in crates:
        listed = os.path.join(names, "crates", crate, "names.json")
        with open(listed) as f:
            d = json.load(f)
        for key, v in d.items():
            m = re.match(rf"Rattle-{crate}-proofs\.(.+)\.Lts", key)
            if not m or not isinstance(v, dict):
                continue
            path = f"crates/{crate}/proofs/{m.group(1).replace('.', '/')}/Proof.antt"
            if not os.path.exists(path):
                continue
            with open(path, encoding="utf-8") as f:
                old = f.read()
            said = []
            new = turn(old, Function(v), m.group(1).split(".")[-1], said)
            for line in sorted(set(said)):
                print(f"look: {path}: {line}")
            if new != old:
                with open(path, "w", encoding="utf-8") as f:
                    f.write(new)


main(sys.argv[1], sys.argv[2:])
