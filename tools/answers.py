#!/usr/bin/env python3
"""Turns proofs that walk the code (Proof.antt over a Tie) into Invariants.antt and Answers.antt.

usage: tools/answers.py NAMES [FILE..]

NAMES is a folder with CRATE/names.json, which `rt check --generated DIR --old-names` writes. Each FILE is a Proof.antt of crates/; without one all
are turned. An answer that only says `search rules` goes, since the check tries that by itself. A file whose lemmas speak of a place of the walk
keeps its form, and its names alone are turned. What cannot be told from the text stays as it is and is printed.
"""
import glob
import json
import os
import re
import sys

NAME = r"[^\s(){}.;,@\"«»\[\]\\]+"
START = {"args", "ranges", "lifetimes", "well_formed", "requires", "auto", "blocks", "loan_names", "utf8"}


def plain(s):
    """A name without what the older spelling and today's write differently."""
    s = re.sub(r"[-_]", "", s.replace("number_of_lem", "number_of")).lower()
    return s.replace("holds", "init").replace("less", "smaller").replace("again", "preserved") if s.startswith("loop") else s


class Walk:
    def __init__(self, of):
        self.of = of
        self.places = {p[0]: (p[1], p[2][0], p[2][1], p[3], i) for i, p in enumerate(of["places"])}
        self.by_new = dict(zip((p[0] for p in of["places"]), of["places_by_name"]))
        self.arms = of.get("arms") or []
        self.args = {}
        for a, b in of.get("args") or []:
            if a.startswith(".args"):
                self.args[a.split(".")[-1].strip()] = b.split(".")[-1].strip()
            elif a.startswith(".") and not a.startswith(".ranges"):
                self.args[a[1:]] = b[1:]
        pre = of.get("pre")
        self.pre = pre["fields"] if pre else []

    def parent(self, place):
        return self.places[place][0]

    def above(self, place):
        """The place before this one as a record has it: the places on the way into an arm are one with the arm."""
        up = self.places[place][0]
        mine = self.arms[self.places[place][4]] if self.arms else None
        while up is not None and mine and self.arms[self.places[up][4]] and self.arms[self.places[up][4]][0] == mine[0]:
            up = self.places[up][0]
        return up

    def step(self, place, fields):
        """The fields of a path at a place, under their new names; None where they are unknown."""
        first = fields[0]
        at = place
        while at is not None:
            _, old, new, callee, i = self.places[at]
            arm = self.arms[i] if i < len(self.arms) else None
            if arm:
                for field, of, path in arm[2]:
                    if plain(of) == plain(first) and path and fields[1 : 1 + len(path)] == path:
                        return [arm[0], field] + fields[1 + len(path) :]
            if old and plain(old) == plain(first):
                return self.inside(at, new, fields[1:])
            if first.replace("-", "_") in START:
                return self.at_start([first.replace("-", "_")] + fields[1:])
            at = self.parent(at)
        return None

    def part(self, place, fields):
        """Whether the path is a part of what an arm binds, whose parts have names of their own."""
        at = place
        while at is not None:
            i = self.places[at][4]
            arm = self.arms[i] if i < len(self.arms) else None
            for _, of, path in arm[2] if arm else []:
                if plain(of) == plain(fields[0]) and len(path) > len(fields) - 1 and path[: len(fields) - 1] == fields[1:]:
                    return True
            at = self.parent(at)
        return False

    def at_start(self, fields):
        if fields[0] in ("args", "ranges") and len(fields) > 1:
            return [fields[0], self.args.get(fields[1], fields[1])] + fields[2:]
        if fields[0] == "requires" and self.pre and len(fields) > 1:
            named, rest = nested(fields[1:], self.pre)
            return ["requires"] + named + rest
        return fields

    def inside(self, place, new, rest):
        callee = self.places[place][3]
        i = self.places[place][4]
        clauses = (self.of.get("clauses") or [None] * (i + 1))[i] if self.of.get("clauses") else None
        if rest and rest[0] == "ensures" and clauses and len(rest) > 1:
            named, more = nested(rest[1:], clauses["fields"])
            return [new, "ensures"] + named + more
        if rest and rest[0] == "new" and callee in self.of.get("params", {}) and len(rest) > 1:
            params, k, more = self.of["params"][callee], 0, rest[1:]
            while more and more[0] == "1" and k < len(params) - 1:
                k, more = k + 1, more[1:]
            return [new, "new", params[k]] + more[1:] if more and more[0] == "0" else [new, "new"] + rest[1:]
        return [new] + rest


def nested(fields, names):
    """`.1.0` of nested pairs as the name of that part, and what follows it."""
    at = 0
    for i, f in enumerate(fields):
        last = at == len(names) - 1
        if f == "0" and not last:
            return [names[at]], fields[i + 1 :]
        if f == "1" and not last:
            at += 1
            if at == len(names) - 1:
                return [names[at]], fields[i + 1 :]
            continue
        break
    return [], fields


def first(decl):
    """The first line that is no comment."""
    return next((line for line in decl if not line.startswith("--")), decl[0])


def declarations(text):
    """The text as use lines and top-level declarations, each with its lines."""
    lines = text.split("\n")
    uses, decls, now = [], [], []
    for line in lines:
        if re.match(r"(pub )?use ", line):
            uses.append(line)
        elif line.strip() == "":
            if now:
                decls.append(now)
                now = []
        else:
            now.append(line)
    if now:
        decls.append(now)
    return uses, decls


def turn_paths(text, walk, place, said, where):
    """Rewrites each path from `c`, and from names bound to a place, to the fields of c."""
    env = {"c": []}
    # let NAME = c.before.. in: a step's name is its own in the whole walk, so the place that a path starts from need not be followed
    while True:
        done = False
        for m in re.finditer(r"(?:(?<=\n)[ ]*|(?<![\w]))let (%s) = (%s)((?:\.[\w'-]+)*) in[ ]*\n?" % (NAME, NAME), text):
            fields = [f for f in m[3].split(".")[1:] if f != "before"]
            if m[2] in env and (not env[m[2]] + fields or walk.part(place, env[m[2]] + fields)):
                env[m[1]] = env[m[2]] + fields
                lead = re.match(r"[ ]*", m[0])[0] if m[0].startswith(" ") and not m[0].endswith("\n") else ""
                text = text[: m.start()] + lead + text[m.end() :]
                done = True
                break
        if not done:
            break

    def path(m):
        var, fields = m[1], m[2].split(".")[1:]
        if var not in env:
            return m[0]
        rest = env[var] + [f for f in fields if f != "before"]
        if not rest:
            if m[0] != "c":
                said.append(f"{where}: a place by itself: {m[0]} ({place})")
            return m[0]
        new = walk.step(place, rest)
        if new is None:
            said.append(f"{where}: no step {rest[0]} at {place}")
            return "c." + ".".join(rest)
        return "c." + ".".join(new)

    for old, new in walk.args.items():
        for m in re.finditer(r"let (%s) = (?:%s)(?:\.before)*\.args in" % (NAME, "|".join(map(re.escape, env))), text):
            text = re.sub(r"(?<![\w'.-])%s\.%s(?![\w'-])" % (re.escape(m[1]), re.escape(old)), f"{m[1]}.{new}", text)
    names = "|".join(re.escape(v) for v in sorted(env, key=len, reverse=True))
    text = re.sub(r"(?<![\w'.-])(%s)((?:\.[\w'\-⊎]+)*)(?![\w'-])" % names, path, text)
    return text


def recorded(right, names):
    """The tuple that an answer ends in as a record by the names of the clauses that it answers."""
    body = right.rstrip()
    if not body.endswith(")"):
        return right
    depth, at = 0, len(body)
    for at in range(len(body) - 1, -1, -1):
        depth += (body[at] == ")") - (body[at] == "(")
        if depth == 0:
            break
    if not re.search(r"(^|\bin|=)\s*$", body[:at]):
        return right

    def parts(text):
        depth, cuts = 0, [0]
        for i, c in enumerate(text):
            depth += (c in "([{") - (c in ")]}")
            if c == "," and depth == 0:
                cuts.append(i + 1)
        all = [text[a:b].strip().rstrip(",").strip() for a, b in zip(cuts, cuts[1:] + [len(text) + 1])]
        return [x for x in all if x]

    each = parts(body[at + 1 : -1])
    while len(each) < len(names) and each and each[-1].startswith("(") and each[-1].endswith(")"):
        each[-1:] = parts(each[-1][1:-1])
    if len(each) != len(names):
        return right
    fields = ";\n".join(f"      {n} = {x if not re.match('λ|let ', x) else '(' + x + ')'}" for n, x in zip(names, each))
    return body[:at] + "record {\n" + fields + ";\n    }"


def invariants(decls, walk, said, where):
    """The declarations of Invariants.antt, from those of the loops."""
    out = []
    for d in decls:
        said_before = d[: d.index(first(d))]
        d = d[len(said_before) :]
        head = re.match(r"(?:pub )?abbrev (?:pub )?(%s) : tie\.(invariant|decreases)-(\S+)" % NAME, d[0])
        name, kind, loop = head[1], head[2], head[3]
        loops = walk.of["loops"]
        index = next((i for i, l in enumerate(loops) if plain(l[0][0]) == plain(loop)), None)
        if index is None:
            said.append(f"{where}: no loop {loop}")
            continue
        (_, new), vars = loops[index]
        changed = walk.of["changed"][index]
        want = [f"l.initial.{v}" if c else f"l.{v}" for v, c in zip(vars, changed)] + [f"l.{v}" for v, c in zip(vars, changed) if c]
        eq = next(i for i, line in enumerate(d) if i and re.match(re.escape(name) + r"(\s|$)", line))
        body = "\n".join(d[eq:])
        left, right = body.split("=", 1)
        params = left.split()[1:]
        if len(params) != len(want):
            said.append(f"{where}: {loop} has {len(params)} parameters, not {len(want)}: {params} {want}")
            continue
        for p in params:
            if re.search(r"λ[^.]*(?<![\w'])%s(?![\w'])[^.]*\.|let %s\b|\(%s :" % (re.escape(p), re.escape(p), re.escape(p)), right):
                said.append(f"{where}: {loop} binds {p} again")
        subst = dict(zip(params, want))
        right = re.sub(r"(?<![\w'.-])(?!(?<=[{;] )[\w'-]+ = )(%s)(?![\w'-]|₀)" % "|".join(re.escape(p) for p in sorted(params, key=len, reverse=True)), lambda m: subst[m[1]], right)
        out.append(said_before + [f"abbrev pub {kind}-{new} : goal.{kind}-{new}"] + d[1:eq] + (f"{kind}-{new} l =" + right).split("\n"))
    return out


def keep(path, text, walk, decls, uses, goal_of, place_of, declared, said):
    """Turns the names of a file that keeps its form: lemmas of it speak of places of the walk."""
    walk.pre, walk.of = [], dict(walk.of, clauses=None)  # a walk has its clauses as pairs
    by_plain = {plain(p): p for p in walk.places}
    helpers = {}
    for d in decls:
        h = re.match(r"(%s) :" % NAME, first(d))
        whole = "\n".join(d)
        m = re.search(r"\((%s) : tie\.(%s)" % (NAME, NAME), whole)
        if m and h and m[1] != "c":
            d[:] = re.sub(r"(?<![\w'.-])%s(?![\w'-])" % re.escape(m[1]), "c", whole).split("\n")
            m = re.search(r"\((c) : tie\.(%s)" % NAME, "\n".join(d))
        if m and h and h[1] not in declared:
            place = by_plain.get(plain(m[2]))
            if place is None:
                said.append(f"{path}: {h[1]} at an unknown place {m[2]}")
            helpers[h[1]] = place

    def at(text, place, where):
        env = {"c": place}
        for m in re.finditer(r"let (%s) = (%s)((?:\.before)*) in" % (NAME, NAME), text):
            if m[2] in env:
                env[m[1]] = None

        def call(m):
            if (m[2] or m[3]) not in env:
                return m[0]
            to, up, n = helpers[m[1]], place, 0
            while up is not None and up != to:
                up, n = walk.above(up), n + 1
            if up is None:
                said.append(f"{where}: {m[1]} at {to}, which {place} has not passed")
                return m[0]
            it = "c" + ".before" * n
            return f"{m[1]} {it}"

        if helpers:
            names = "|".join(re.escape(h) for h in sorted(helpers, key=len, reverse=True))
            text = re.sub(r"(?<![\w'.-])(%s)\s+(?:\((%s)(?:\.before)*\)|(%s)(?:\.before)*)(?![\w'.-])" % (names, NAME, NAME), call, text)
        marks = {}

        def hide(m):
            marks[f"\0{len(marks)}\0"] = m[0]
            return f"\0{len(marks) - 1}\0"

        if helpers:
            text = re.sub(r"(?<![\w'.-])(%s) c(?:\.before)*(?![\w'.-])" % names, hide, text)
        text = turn_paths(text, walk, place, said, where)
        for k, v in marks.items():
            text = text.replace(k, v)
        return text

    def words(text):
        def need(m):
            i = next((i for i, n in enumerate(walk.of["needs"]) if plain(n[0]) == plain(m[1])), None)
            return m[0] if i is None else "tie.Need-" + walk.of["needs"][i][1]

        def place(m):
            p = by_plain.get(plain(m[1]))
            return "tie." + walk.by_new[p] if p else m[0]

        def loop(m):
            l = next((l for l in walk.of["loops"] if plain(l[0][0]) == plain(m[2])), None)
            return f"tie.{m[1]}-{l[0][1]}" if l else m[0]

        text = re.sub(r"tie\.(invariant|decreases)-(%s)" % NAME, loop, text)
        return re.sub(r"tie\.((?:After|Then|Else|In|Joined|At|Start)%s)" % NAME, place, text)

    out = []
    for d in decls:
        h = re.match(r"(?:pub )?(%s) :" % NAME, first(d))
        name = h[1] if h else None
        if name in goal_of:
            n = d.index(first(d))
            head = re.sub(r"tie\.Need-%s" % NAME, "tie.Need-" + goal_of[name], words(d[n]))
            out.append(d[:n] + [head] + at("\n".join(d[n + 1 :]), place_of[name], f"{path}: {name}").split("\n"))
        elif name in helpers and helpers[name]:
            out.append(words(at("\n".join(d), helpers[name], f"{path}: {name}")).split("\n"))
        else:
            out.append(words("\n".join(d)).split("\n"))
    whole = "\n".join(uses) + "\n\n" + "\n\n".join("\n".join(d) for d in out) + "\n"
    for it in set(re.findall(r"pub (\S+-spec) : \{M", whole)):
        whole = re.sub(r"(?<![\w'.-])%s(?![\w'-])" % re.escape(it), os.path.basename(os.path.dirname(path)) + "_spec", whole)
    with open(path, "w", encoding="utf-8") as f:
        f.write(re.sub(r"\.ptr\b", ".ref_ptr", whole))


def main():
    names = sys.argv[1]
    files = sys.argv[2:] or sorted(glob.glob("crates/*/proofs/**/Proof.antt", recursive=True))
    said = []
    for path in files:
        m = re.match(r"crates/(\w+)/proofs/(.*)/Proof\.antt", path)
        crate, func = m[1], m[2].replace("/", ".")
        listed = f"{names}/{crate}/names.json"
        if not os.path.exists(listed):
            continue
        of = json.load(open(listed)).get(f"Rattle-{crate}-proofs.{func}.Lts")
        text = open(path, encoding="utf-8").read()
        if of is None or "as tie" not in text:
            said.append(f"{path}: not turned")
            continue
        walk = Walk(of)
        uses, decls = declarations(text)
        spec = re.search(r"tie\.spec\b(.*)", text, re.S)
        declared = {}
        for d in decls:
            h = re.match(r"(?:pub )?(%s) : tie\.Need-" % NAME, first(d))
            if h:
                declared[h[1]] = d[d.index(first(d)) :]
        order = [a.strip("()") for a in spec[1].split() if a.strip("()") in declared]
        needs = [n[1] for n in of["needs"]]
        if len(order) != len(needs):
            # A goal that is no more has an answer that goes: the names of the older text tell which.
            older = {d: plain(re.search(r"tie\.Need-(%s)" % NAME, declared[d][0])[1].replace("overflow-", "").replace("slice-bounds-", "part-").replace("offset-bounds", "offset")) for d in order}
            wanted = [plain(n[0]) for n in of["needs"]]
            fit, at = [], 0
            for d in order:
                if at < len(wanted) and (older[d] == wanted[at] or older[d].replace("part", "sliceaggregate") == wanted[at]):
                    fit.append(d)
                    at += 1
                else:
                    said.append(f"{path}: {d} ({older[d]}) is no goal now")
            if len(fit) != len(wanted):
                said.append(f"{path}: {len(order)} answers for {len(needs)} goals: {list(older.values())} {wanted}")
                continue
            order = fit
        goal_of = dict(zip(order, needs))
        old_of = dict(zip(order, (n[0] for n in of["needs"])))
        place_of = dict(zip(order, (a[0] for a in of["asked_at"])))
        if re.search(r"tie\.(After|Then|Else|In|Joined|At|Start)", text):
            keep(path, text, walk, decls, uses, goal_of, place_of, declared, said)
            continue
        loops = [d for d in decls if re.match(r"(?:pub )?abbrev .* : tie\.(invariant|decreases)-", first(d))]
        others = [d for d in decls if d not in loops and first(d).split(" ")[0] not in declared and "tie.close" not in "\n".join(d)]
        answers = []
        bodies = {}
        for name in order:
            d = declared[name]
            text_d = "\n".join(d[1:])
            body = re.sub(r"^(%s)((?: κs)?)" % re.escape(name), r"\1", text_d)
            m2 = re.match(r"((?:unfolding[^\n]*\n)*)%s c( κs)?((?: [^\s=]+)*) =(.*)" % re.escape(name), text_d, re.S)
            if not m2:
                said.append(f"{path}: {name} has another form")
                continue
            bodies[name] = (m2[1], m2[3], m2[4])
        cited = {n for n in order for o in bodies if n != o and re.search(r"(?<![\w'.-])%s(?![\w'-])" % re.escape(n), bodies[o][2])}
        for name in order:
            if name not in bodies:
                continue
            unfolding, more, right = bodies[name]
            if right.strip() == "search rules" and name not in cited:
                continue
            where = f"{path}: {name}"
            asked = of.get("asked", {}).get(old_of[name])
            if asked:
                right = recorded(right, asked)
            right = turn_paths(right, walk, place_of[name], said, where)
            for o in cited:
                right = re.sub(r"(?<![\w'.-])%s(?![\w'-])" % re.escape(o), goal_of[o], right)
            new = goal_of[name]
            answers.append([f"pub {new} : goal.{new}"] + [u for u in unfolding.split("\n") if u] + (f"{new} c{more} =" + right).split("\n"))
        folder = os.path.dirname(path)
        base = [u for u in uses if ".Statement." not in u and ".Tie as tie" not in u]
        inv = invariants(loops, walk, said, path)

        def write(file, module, all):
            whole = "\n\n".join("\n".join(d) for d in all)
            mine = []
            for u in base:
                mine.append(u)
            head = "\n".join(mine + [f"use Rattle.{crate}.proofs.{func}.{module} as goal"])
            with open(f"{folder}/{file}", "w", encoding="utf-8") as f:
                f.write(head + "\n\n" + re.sub(r"\.ptr\b", ".ref_ptr", whole) + "\n")

        if inv:
            write("Invariants.antt", "Given", inv)
        if answers:
            write("Answers.antt", "Goals", others + answers)
        elif others:
            said.append(f"{path}: lemmas and no answer: {[o[0] for o in others]}")
        os.remove(path)
    print("\n".join(said))


main()
