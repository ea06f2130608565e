#!/usr/bin/env python3
"""answers.py NAMES CRATE [FUNCTION..]: turns crates/CRATE/proofs/F/Proof.antt, a proof that is tied by hand, to
Invariants.antt and Answers.antt. NAMES is the names.json that `rt check --generated FOLDER --old-names` writes. What is
not turned is told. The old file is kept in /tmp/old-proofs."""
import json
import os
import re
import shutil
import sys

TOKEN = r"[A-Za-z_0-9'₀₁₂₃₄₅₆₇₈₉κ\-]+"


def norm(name):
    return re.sub(r"_lem$", "", name.replace("-", "_").replace("₀", "0").lower())


def parts_of(body):
    """The parts of a tuple that is a whole body, or None."""
    t = body.strip()
    if not (t.startswith("(") and t.endswith(")")):
        return None
    out, depth, now = [], 0, ""
    for i, ch in enumerate(t):
        if ch in "([{":
            depth += 1
            if depth == 1:
                continue
        if ch in ")]}":
            depth -= 1
            if depth == 0:
                if i != len(t) - 1:
                    return None
                continue
        if ch == "," and depth == 1:
            out.append(now)
            now = ""
        else:
            now += ch
    if now.strip():
        out.append(now)
    return out if len(out) > 1 else None


def blocks(text):
    """The items at column 0, each with the comment lines right above it."""
    out, now = [], []
    for line in text.split("\n"):
        if line == "":
            if now:
                out.append(now)
            now = []
        else:
            now.append(line)
    if now:
        out.append(now)
    # a blank line inside an item, before an indented line, joins
    joined = []
    for b in out:
        if joined and b[0].startswith(" "):
            joined[-1] += [""] + b
        else:
            joined.append(b)
    return joined


def modules():
    """For each file of src/ the path of its module, and its text."""
    for folder, _dirs, files in os.walk("crates"):
        if "/src" not in folder or "/out" in folder:
            continue
        for name in files:
            if not name.endswith(".rt"):
                continue
            crate = folder.split("/")[1]
            file = os.path.join(folder, name)
            module = os.path.relpath(file, f"crates/{crate}/src")[:-3].replace("/", "::")
            with open(file) as text:
                yield crate if module in ("lib", "main") else f"{crate}::{module}", text.read()


def clauses():
    """For each function of the sources, by its whole path, the names of its requires and of its ensures."""
    out = {}
    for head, text in modules():
        now = owner = None
        for line in text.split("\n"):
            m = re.match(r"impl (\w+)", line)
            if m:
                owner = m.group(1)
            if line.startswith("}"):
                owner = None
            m = re.match(r"\s*(?:pub(?:\(crate\))? )?(?:extern \"C\" )?fn (\w+)", line)
            if m:
                now = "::".join([head] + ([owner] if owner else []) + [m.group(1)])
                out[now] = ([], [])
            m = re.match(r"\s+(requires|ensures)\*? (?:(\w+) )?\{", line)
            if m and now:
                out[now][0 if m.group(1) == "requires" else 1].append(m.group(2))
    return out


CLAUSES = {}
PARAMS = {}
FIELDS = {}


def sources():
    """For each function the parameters that come back, and for each variant of an enum its fields."""
    for head, text in modules():
        for m in re.finditer(r"\bfn (\w+)\(((?:[^()]|\([^()]*\))*)\)", text):
            back = []
            for one in re.split(r",(?![^\[]*\])", m.group(2)):
                w = re.match(r"\s*(?:mut )?(\w+): (.*)", one.strip(), re.S)
                if w and not re.match(r"(u8|u16|u32|u64|usize|bool)$", w.group(2).strip()):
                    back.append(w.group(1))
            PARAMS[f"{head}::{m.group(1)}"] = back
        for m in re.finditer(r"\benum \w+ \{(.*?)^\}", text, re.S | re.M):
            for v in re.finditer(r"^    (\w+)(?: \{(.*?)\}|\((.*?)\))?,", m.group(1), re.S | re.M):
                if v.group(2):
                    FIELDS[v.group(1)] = re.findall(r"(\w+):", v.group(2))


def indexed(tail):
    """How far a path into a tuple goes: 0, 1.0, 1.1.0; and how many parts it takes."""
    k = 0
    for n, x in enumerate(tail):
        if x == "1":
            k += 1
        elif x == "0":
            return k, n + 1
        else:
            return None
    return None


def named(parts, function):
    """requires.0 and ensures.1 by name, where the function has several."""
    for k, kind in ((0, "requires"), (1, "ensures")):
        if kind in parts:
            i = parts.index(kind)
            names = CLAUSES.get(function, ([], []))[k]
            if len(names) > 1 and i + 1 < len(parts) and parts[i + 1].isdigit():
                # the clauses were pairs within pairs: 0, 1.0, 1.1.0 .., and the last has no 0
                j, n = i + 1, 0
                while n < len(names) - 1 and j < len(parts) and parts[j] == "1":
                    j, n = j + 1, n + 1
                if n < len(names) - 1 and j < len(parts) and parts[j] == "0":
                    j += 1
                if names[n]:
                    parts[i + 1 : j] = [names[n]]
    return parts


class Function:
    def __init__(self, crate, path, entry):
        self.own = f"{crate}::" + path.replace(".+", "::").replace(".", "::").replace("+", "")
        self.callee = {p[0]: p[3] for p in entry["places"]}
        self.args = {}
        for old, new in entry["args"]:
            m, n = re.match(r"\.args \.(\S+)$", old), re.match(r"\.args \.(\S+)$", new)
            if m and n:
                self.args[m.group(1)] = n.group(1)
        self.crate, self.path, self.e = crate, path, entry
        self.parent, self.step, self.sub = {}, {}, {}
        for name, parent, (old, new), _callee, sub in entry["places"]:
            self.parent[name] = parent
            self.step[name] = (norm(old), new)
            self.sub[name] = dict(sub)
        self.newplace = dict(zip([p[0] for p in entry["places"]], entry["places_by_name"]))
        self.loops = {}
        self.said = []
        self.goal = None

    def find(self, place, field):
        """The step that has this old name, at the place or above it."""
        p = place
        while p is not None:
            if self.step[p][0] == norm(field):
                return p
            p = self.parent[p]
        return None

    def anywhere(self, field):
        """The step that has this old name on the way to the goal at hand, or the only one in the function."""
        at = self.find(self.goal, field) if self.goal else None
        if at is None:
            all_ = [p for p in self.step if self.step[p][0] == norm(field)]
            at = all_[0] if len({self.step[p][1] for p in all_}) == 1 else None
        return at

    def path_of(self, var, place, rest):
        """New text for var.rest, where var is the record at the place; and the place, if it names one."""
        parts = rest.split(".")
        n = 0
        while parts and parts[0] == "before":
            parts.pop(0)
            place = self.parent[place]
            n += 1
            if place is None:
                place = "Start"
        if not parts:
            return var + ".before" * n, place
        if parts[0] == "pre":
            parts[0] = "requires"
        at = self.find(place, parts[0]) or self.anywhere(parts[0])
        if at is None:
            if parts[0] in ("args", "ranges") and len(parts) > 1:
                parts[1] = self.args.get(parts[1], parts[1])
            return var + "." + ".".join(named(parts, self.own)), None
        sub = self.sub[at]
        tail = parts[1:]
        if tail and tail[0] in sub:
            tail = [sub[tail[0]]] + tail[1:]
        elif tail and norm(tail[0]) in {norm(k): v for k, v in sub.items()}:
            tail = [{norm(k): v for k, v in sub.items()}[norm(tail[0])]] + tail[1:]
        tail, step = self.arm(at, tail)
        tail = self.back(at, tail)
        if step:
            return ".".join([var, step] + tail), None
        up = self.parent[at]
        if not tail and self.callee[at] is None and up is not None and self.step[up][0] == "match":
            return var + "." + self.step[up][1], None
        return ".".join([var, self.step[at][1]] + named(self.live(at, tail), self.callee[at])), None

    def back(self, at, tail):
        """What a call gave back, by the names of its parameters."""
        if tail[:1] in (["new"], ["auto"]) and indexed(tail[1:]) and self.callee[at] in PARAMS:
            k, n = indexed(tail[1:])
            back = PARAMS[self.callee[at]]
            if k < len(back):
                tail = [tail[0], back[k]] + tail[1 + n :]
        return tail

    def arm(self, at, tail):
        """A value that a match has made known is now a part of the arm."""
        tail = [re.sub(r"^keys\d+$", "is", t) for t in tail]
        tail = ["invariant" if t == "inv" else t for t in tail]
        up = self.parent[at]
        if tail[:1] == ["given"] and up is not None and self.step[up][0] == "match":
            step = self.step[up][1]
            if tail[1:2] == ["1"]:
                return ["is"] + tail[2:], step
            if tail[1:2] == ["0"]:
                fields = FIELDS.get(re.sub(r"^in-|-\d+$", "", step), [])
                got = indexed(tail[2:])
                if got and got[0] < len(fields):
                    return [fields[got[0]]] + tail[2 + got[1] :], step
        return tail, None

    def live(self, at, tail):
        """The names of a loop's variables are those of the source."""
        for (_old, new), live in self.e["loops"]:
            if tail and self.step[at][1] == new:
                tail = [next((v for v in live if norm(v) == norm(tail[0])), tail[0])] + tail[1:]
        return tail

    def kind_of(self, var, place, parts):
        """What a path ends at: a place, the arguments, a step, or the clauses of a function."""
        parts = list(parts)
        while parts and parts[0] == "before":
            parts.pop(0)
            place = self.parent[place]
            if place is None:
                place = "Start"
        if not parts:
            return ("place", place)
        if parts == ["args"]:
            return ("args", None)
        at = self.find(place, parts[0]) or self.anywhere(parts[0])
        if at is None:
            if parts == ["requires"]:
                return ("clauses", [self.own, 0])
            return None
        up = self.parent[at]
        if len(parts) == 1 and self.callee[at] is None and up is not None and self.step[up][0] == "match":
            return ("arm", at)
        if len(parts) == 1:
            return ("step", at)
        if parts[1:] == ["ensures"]:
            return ("clauses", [self.callee[at], 1])
        return None

    def turn(self, text, places):
        """Turns each path of a variable that stands for a place."""
        alias = {v: ("place", p) for v, p in places.items()}
        for m in re.finditer(rf"\blet ({TOKEN}) = ({TOKEN})((?:\.{TOKEN})*) in\b", text):
            name, var, rest = m.group(1), m.group(2), [x for x in m.group(3).split(".") if x]
            known = alias.get(var)
            if known is None:
                continue
            if known[0] == "place":
                k = self.kind_of(var, known[1], rest)
            elif known[0] == "step" and rest == ["ensures"]:
                k = ("clauses", [self.callee[known[1]], 1])
            else:
                k = None
            if k:
                alias[name] = k
        text = re.sub(rf"\blet ({TOKEN}) = ({TOKEN})(?:\.before)+ in\b", r"let \1 = \2 in", text)

        def one(m):
            var, rest = m.group(1), m.group(2)
            known = alias.get(var)
            if known is None:
                return m.group(0)
            parts = rest[1:].split(".")
            if known[0] == "place":
                return self.path_of(var, known[1], rest[1:])[0]
            if known[0] == "args":
                parts[0] = self.args.get(parts[0], parts[0])
            elif known[0] == "arm":
                parts = self.arm(known[1], parts)[0]
            elif known[0] == "step":
                parts = self.back(known[1], ["invariant" if t == "inv" else t for t in parts])
                sub = {norm(k): v for k, v in self.sub[known[1]].items()}
                parts[0] = sub.get(norm(parts[0]), parts[0])
                parts = named(self.live(known[1], parts), self.callee[known[1]])
            else:
                function, k = known[1]
                names = CLAUSES.get(function, ([], []))[k]
                if len(names) > 1 and parts[0].isdigit():
                    parts[0] = names[int(parts[0])] or parts[0]
            return ".".join([var] + parts)

        return re.sub(rf"(?<![\w.'\-])({TOKEN})((?:\.{TOKEN})+)", one, text)


def main():
    names, crate, only = sys.argv[1], sys.argv[2], sys.argv[3:]
    CLAUSES.update(clauses())
    sources()
    entries = json.load(open(names))
    root = f"crates/{crate}/proofs"
    for folder, _dirs, files in sorted(os.walk(root)):
        if "Proof.antt" not in files:
            continue
        path = os.path.relpath(folder, root).replace("/", ".")
        if only and path not in only:
            continue
        key = f"Rattle-{crate}-proofs.{path}.Lts"
        if key not in entries:
            print(f"{crate}::{path}: no names")
            continue
        convert(crate, path, folder, entries[key])


def convert(crate, path, folder, entry):
    text = open(os.path.join(folder, "Proof.antt")).read()
    if "tie.close" not in text:
        print(f"{crate}::{path}: not tied")
        return
    f = Function(crate, path, entry)
    spec = re.search(r"\(tie\.spec\b(.*?)\)\s*$", text, re.S)
    order = spec.group(1).split() if spec else []
    bs = blocks(text)
    head, uses, helpers, answers, invariants, order_done = [], [], [], {}, [], []
    invnames = {}
    needs = entry["needs"]
    # by the name of the goal
    olds = {}
    for i, (old, new) in enumerate(needs):
        olds[norm(old)] = i
        olds.setdefault(norm(re.sub(r"^overflow_", "", old)), i)
    for b in bs:
        if b[0].startswith("--") and any(l.startswith("use ") for l in b):
            i = next(k for k, l in enumerate(b) if l.startswith("use "))
            head = b[:i]
            b = b[i:]
        if b[0].startswith("use "):
            uses += b
            continue
        body = "\n".join(b)
        sig = next((l for l in b if not l.startswith("--")), "")
        m = re.match(rf"(abbrev )?({TOKEN}) : tie\.(invariant|decreases)-({TOKEN})", sig)
        if m:
            invnames[m.group(2)] = (m.group(3), m.group(4))
            invariants.append((m.group(2), m.group(3), m.group(4), b))
            continue
        m = re.match(rf"({TOKEN}) : tie\.Need-({TOKEN})((?: {TOKEN})*)$", sig)
        if m:
            name, old = m.group(1), m.group(2)
            answers[name] = (old, b)
            order_done.append(name)
            continue
        if re.search(r"statement M\b", body) and "tie.close" in body:
            continue
        helpers.append((len(order_done), b))
    # which goal each is
    plain = [x for x in order if x not in invnames]
    used = {}
    for name, (old, b) in answers.items():
        o = norm(old)
        o2 = re.sub(r"^overflow_", "", o)
        i = olds.get(o, olds.get(o2))
        if i is None and len(plain) == len(needs) and name in plain:
            i = plain.index(name)
            f.said.append(f"by place: {name} {old} -> {needs[i][1]}")
        if i is None:
            f.said.append(f"no goal for {name} : Need-{old}")
            continue
        used[name] = i
    out = []
    k = 0
    inv_text = "\n".join("\n".join(b) for _n, _k, _l, b in invariants)
    f.helpers, plain_helpers = [], []
    for at, b in helpers:
        h = place_helper(f, b)
        if h:
            f.helpers.append(h)
        else:
            plain_helpers.append((at, b))
    # those that the invariants use stand with them
    f.with_invariants = []
    grow = True
    need_text = inv_text
    while grow:
        grow = False
        for at, b in plain_helpers:
            n = name_of(b)
            if n and (at, b) not in f.with_invariants and re.search(rf"(?<![\w.'\-]){re.escape(n)}(?![\w'\-])", need_text):
                f.with_invariants.append((at, b))
                need_text += "\n" + "\n".join(b)
                grow = True
    f.with_invariants.sort(key=lambda x: x[0])
    plain_helpers = [h for h in plain_helpers if h not in f.with_invariants]
    for n, name in enumerate(order_done + [None]):
        for at, b in plain_helpers:
            if at == n:
                out.append("\n".join(helper(f, b)))
        if name is None or name not in used:
            continue
        i = used[name]
        new = needs[i][1]
        old, b = answers[name]
        place = entry["asked_at"][i][0]
        t = answer(f, name, new, b, place)
        if t:
            out.append(t)
    keep = [u for u in uses if not re.search(r"\.(Statement\.\{statement\}|Tie as tie)$", u)]
    module = f"Rattle.{crate}.proofs.{path}"
    os.makedirs(f"/tmp/old-proofs/{crate}/{path}", exist_ok=True)
    shutil.copy(os.path.join(folder, "Proof.antt"), f"/tmp/old-proofs/{crate}/{path}/Proof.antt")
    os.remove(os.path.join(folder, "Proof.antt"))
    inv = invariant_file(f, entry, invariants, head, keep, module)
    if inv:
        open(os.path.join(folder, "Invariants.antt"), "w").write(inv)
    if out:
        extra = []
        if f.with_invariants:
            extra = [f"use {module}.Invariants.{{{', '.join(name_of(b) for _a, b in f.with_invariants)}}}"]
        lines = head + keep + extra + [f"use {module}.Goals as goal", ""] + ["\n\n".join(out)]
        open(os.path.join(folder, "Answers.antt"), "w").write("\n".join(lines).rstrip() + "\n")
    elif not inv and not os.listdir(folder):
        os.rmdir(folder)
    for s in f.said:
        print(f"{crate}::{path}: {s}")


def name_of(b):
    sig = next((l for l in b if not l.startswith("--")), "")
    m = re.match(rf"(?:abbrev |unfoldable |record |data |pub )*({TOKEN})", sig)
    return m.group(1) if m else None


def place_helper(f, b):
    """A helper whose first argument is a place: its name, variable, type, body and the rest, or None."""
    comments = [l for l in b if l.startswith("--")]
    text = "\n".join(l for l in b if not l.startswith("--"))
    m = re.match(rf"(?:abbrev )?({TOKEN}) : ", text)
    if m is None:
        return None
    name, rest = m.group(1), text[m.end() :]
    a = re.match(rf"\(({TOKEN}) : tie\.({TOKEN})(?: [^()]*)?\)\s*(→)?\s*", rest)
    if a:
        place = a.group(2)
        rest = rest[a.end() :]
    else:
        a = re.match(rf"tie\.({TOKEN})(?: [^→(]*)?→\s*", rest)
        if a is None:
            return None
        place = a.group(1)
        rest = rest[a.end() :]
    at = next((p for p in f.parent if norm(p) == norm(place)), None)
    if at is None:
        f.said.append(f"no place {place} for {name}")
        return None
    eqs = list(re.finditer(rf"^{re.escape(name)} ", rest, re.M))
    if len(eqs) != 1:
        f.said.append(f"helper {name}: {len(eqs)} equations")
        return None
    head, eq = rest[: eqs[0].start()], rest[eqs[0].end() :]
    un = re.search(r"^unfolding (.*)$", head, re.M)
    kind = re.sub(r"^unfolding .*$", "", head, flags=re.M).strip()
    e = re.match(rf"((?:{TOKEN}|_)(?:\s+(?:{TOKEN}|_))*)\s*=(?=\s)", eq)
    if e is None:
        f.said.append(f"helper {name}: equation not read")
        return None
    params = e.group(1).split()
    sigvar = re.match(rf"\(({TOKEN}) : tie", text[m.end() :])
    to = re.match(rf"tie\.({TOKEN})", kind)
    return {
        "name": name, "place": at, "var": params[0], "sigvar": sigvar.group(1) if sigvar else params[0], "params": params[1:],
        "type": kind, "body": eq[e.end() :].strip(), "unfolding": un.group(1).split() if un else [],
        "to": next((p for p in f.parent if to and norm(p) == norm(to.group(1))), None), "comments": comments,
    }


def word(name):
    return rf"(?<![\w.'\-]){re.escape(name)}(?![\w'\-])"


def with_helpers(f, var, body):
    """The body with a let for each helper of a place that it uses; and what these unfold."""
    used, todo = [], [body]
    while todo:
        t = todo.pop()
        for h in f.helpers:
            if h not in used and not h["to"] and re.search(word(h["name"]), t):
                used.append(h)
                todo += [h["body"], h["type"]]
    used.sort(key=f.helpers.index)

    def calls(t):
        for h in f.helpers * 4:
            arg = rf"(?!(?:in|_)(?![\w.'\-]))(?:{TOKEN}(?:\.before)*|\({TOKEN}(?:\.before)*\))(?![\w.'\-])"
            if h["to"]:
                t = re.sub(rf"\({word(h['name'])} ({arg})\)|{word(h['name'])} ({arg})", lambda m: m.group(1) or m.group(2), t)
                t = re.sub(rf"({TOKEN})\.before+(?![\w.])", r"\1", t) if False else t
        for h in f.helpers:
            arg = rf"(?!(?:in|_)(?![\w.'\-]))(?:{TOKEN}(?:\.before)*|\({TOKEN}(?:\.before)*\))(?![\w.'\-])"
            if not h["to"]:
                t = re.sub(rf"\({word(h['name'])} {arg}\)|{word(h['name'])} {arg}", h["name"], t)
        return t

    def as_var(t, old):
        return re.sub(rf"(?<![\w.'\-]){re.escape(old)}(?![\w'\-])", var, t) if old != var else t

    lets, unfolding = [], []
    for h in used:
        saved, f.goal = f.goal, h["place"]
        kind = as_var(f.turn(calls(h["type"]), {h["sigvar"]: h["place"]}), h["sigvar"])
        text = as_var(f.turn(calls(h["body"]), {h["var"]: h["place"]}), h["var"])
        f.goal = saved
        if re.match(r"let\b", kind):
            kind = "(" + kind + ")"
        if h["params"]:
            text = "λ " + " ".join(h["params"]) + ". " + text
        kind = kind.replace("\n", "\n    ")
        text = "        " + text.replace("\n", "\n    ")
        lets.append(f"let {h['name']} : {kind} =\n{text} in")
        unfolding += [u for u in h["unfolding"] if u not in unfolding]
    return lets, calls(body), unfolding


def helper(f, b):
    text = "\n".join(b)
    # a helper whose argument is a place
    places = {}
    for m in re.finditer(rf"\(({TOKEN}) : tie\.({TOKEN})[^)]*\)", text):
        old = m.group(2)
        at = next((p for p in f.parent if norm(p) == norm(old)), None)
        if at:
            places[m.group(1)] = at
        else:
            f.said.append(f"no place {old}")
    m = re.match(rf"(?:--.*\n)*(?:abbrev )?({TOKEN}) : tie\.({TOKEN})[^→]*→[^\n]*\n(?:unfolding[^\n]*\n)*\1 ({TOKEN})", text)
    if m:
        at = next((p for p in f.parent if norm(p) == norm(m.group(2))), None)
        if at:
            places[m.group(3)] = at
    # the variable of the equation
    m = re.search(rf"^(?:abbrev )?({TOKEN}) : \(({TOKEN}) : tie\.({TOKEN})", text, re.M)
    if m:
        e = re.search(rf"^{re.escape(m.group(1))} ({TOKEN})", text, re.M)
        if e and m.group(2) in places:
            places[e.group(1)] = places[m.group(2)]
    if places:
        text = f.turn(text, places)

    def place(m):
        at = next((p for p in f.parent if norm(p) == norm(m.group(1))), None)
        return "goal." + (f.newplace[at] if at else m.group(1))

    text = re.sub(rf"\btie\.({TOKEN})((?: invariant-{TOKEN}| decreases-{TOKEN})*)", place, text)
    return text.split("\n")


def answer(f, name, new, b, place):
    comments = [l for l in b if l.startswith("--")]
    rest = [l for l in b if not l.startswith("--")][1:]
    text = "\n".join(rest)
    eq = re.search(rf"^{re.escape(name)} ({TOKEN})(?: κs)?", text, re.M)
    if eq is None:
        f.said.append(f"no equation for {name}")
        return None
    var = eq.group(1)
    before, body = text[: eq.start()], text[eq.end() :]
    where = {var: place}
    f.goal = place
    lets, body, more = with_helpers(f, var, body)
    body = f.turn(body, where)
    if lets:
        eq = body.index("=") + 1
        body = body[:eq] + "\n" + "\n".join("    " + l for l in lets) + "\n" + body[eq:]
    if more:
        if "unfolding" in before:
            have = before.split()[1:]
            before = "unfolding " + " ".join(have + [u for u in more if u not in have])
        else:
            before = "unfolding " + " ".join(more)
    several = None
    if new.startswith("returns"):
        several = CLAUSES.get(f.own, ([], []))[1]
    m = re.match(r"(.*)-requires", new)
    if m:
        at = [p for p in f.step if f.step[p][1] == m.group(1)]
        callee = f.callee[at[0]] if at else None
        if callee is None:
            g = re.sub(r"-\d+$", "", m.group(1))
            called = {c for c in f.callee.values() if c} | {c for c in CLAUSES if c.split("::")[-1] == g}
            same = [c for c in called if c.split("::")[-1] == g]
            callee = same[0] if len(same) == 1 else None
        several = CLAUSES.get(callee, ([], []))[0]
    if several and len(several) > 1:
        eq = body.index("=")
        ps = parts_of(body[eq + 1 :])
        if ps is None:
            ins = [m.end() - 1 for m in re.finditer(r"\bin(?=[\s(])", body)]
            for at in ins:
                if parts_of(body[at + 1 :]):
                    eq, ps = at, parts_of(body[at + 1 :])
                    break
        if ps and len(ps) == len(several):
            body = body[: eq + 1] + " record {\n" + "\n".join(f"  {n} = {p.strip()};" for n, p in zip(several, ps)) + "\n}"
        elif "search rules" not in body[eq:eq+16]:
            f.said.append(f"{new}: several clauses {several}")
    flat = re.sub(r"\s+", " ", body).strip()
    if flat == "= search rules" and not before.strip():
        return None
    if flat.endswith("in search rules"):
        pass
    return "\n".join(comments + [f"pub {new} : goal.{new}"] + ([before.rstrip("\n")] if before.strip() else []) + [f"{new} {var}{body}"])


def invariant_file(f, entry, invariants, head, keep, module):
    if not invariants:
        return None
    out = []
    for name, kind, loop, b in invariants:
        k = next((k for k, l in enumerate(entry["loops"]) if norm(l[0][0]) == norm(loop)), None)
        if k is None:
            f.said.append(f"no loop {loop} in {entry['loops']}")
            continue
        new, live = entry["loops"][k][0][1], entry["loops"][k][1]
        changed = entry["changed"][k]
        comments = [l for l in b if l.startswith("--")]
        text = "\n".join(l for l in b if not l.startswith("--"))
        text = text[text.index("\n") + 1 :]
        before = ""
        if text.startswith("unfolding"):
            before, text = text.split("\n", 1)
        m = re.match(rf"{re.escape(name)}((?:\s+{TOKEN})*)\s*=", text)
        if m is None:
            f.said.append(f"no equation of {name}")
            continue
        params = m.group(1).split()
        want = [("l.initial." if c else "l.") + v for v, c in zip(live, changed)] + ["l." + v for v, c in zip(live, changed) if c]
        if len(params) != len(want):
            f.said.append(f"{name}: parameters {params}, live {live}, changed {changed}")
            continue
        body = text[m.end() :]
        var = "l" if not re.search(rf"(?<![\w'\-])l(?![\w'\-])", body) or "l" in params else "at"
        table = {p: w.replace("l.", var + ".", 1) for p, w in zip(params, want)}

        def one(m):
            return table.get(m.group(0), m.group(0))

        body = re.sub(rf"(?<![\w'₀-₉.\-]){TOKEN}", one, body)
        word = f"{kind}-{new}"
        out.append("\n".join(comments + [f"abbrev pub {word} : goal.{word}"] + ([before] if before else []) + [f"{word} {var} ={body}"]))
    own = []
    for _a, b in f.with_invariants:
        k = next(i for i, l in enumerate(b) if not l.startswith("--"))
        line = b[k]
        line = line.replace("abbrev ", "abbrev pub ", 1) if line.startswith("abbrev ") else line.replace("record ", "pub record ", 1) if line.startswith("record ") else "pub " + line
        line = line.replace("pub pub", "pub")
        own.append("\n".join(b[:k] + [line] + [re.sub(r"^  (?=[\w'-]+ :)", "  pub ", l) if "record " in line else l for l in b[k + 1 :]]))
    return "\n".join(head + keep + [f"use {module}.Given as goal", ""] + ["\n\n".join(own + out)]) + "\n"


main()
