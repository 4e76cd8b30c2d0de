#!/usr/bin/env python3
"""Turns the proofs of one crate, proofs/F/Proof.antt, into Invariants.antt and Answers.antt.

usage: answers.py CRATE NAMES.json   (at the top; NAMES.json as `rt check --generated DIR --old-names` writes it in the crate's folder)

Each answer keeps its text under the goal's new name, with the paths to known facts respelled. What only says `search rules` is left to the check.
"""

import glob
import json
import os
import re
import sys


def norm(s):
    s = s.replace("_", "-").lower()
    s = re.sub(r"^(overflow|nonzero)-", "", s)
    s = s.replace("slice-bounds", "part").replace("shared-slice-read", "bounds").replace("slice-write", "bounds").replace("slice-read", "bounds")
    return s.replace("-", "").replace("lem", "")


def blocks(text):
    """Top-level declarations: (comment lines, signature, body lines, name)."""
    out, comment, cur = [], [], None
    for line in text.split("\n"):
        if line.startswith("--"):
            if cur:
                out.append(cur)
                cur = None
            comment.append(line)
        elif not line.strip():
            if cur:
                out.append(cur)
                cur = None
        elif line[0] not in " \t)}]":
            m = re.match(r"(?:abbrev |unfoldable |opaque )?(?:pub )?(\S+)((?: \S+)*) :(?: |$)", line)
            head = line.split()[0]
            if line.startswith("use "):
                if cur:
                    out.append(cur)
                out.append([comment, [line], "use"])
                comment, cur = [], None
                continue
            if cur and (line.startswith("unfolding ") or line.startswith("where") or (cur[2] == head) or head in cur[3]):
                cur[1].append(line)
            elif m:
                if cur:
                    out.append(cur)
                name = m.group(1)
                cur = [comment, [line], name, {name}]
                comment = []
            elif cur:
                cur[1].append(line)
            else:
                cur = [comment, [line], head, {head}]
                comment = []
        elif cur:
            cur[1].append(line)
        else:
            cur = [comment, [line], "", set()]
            comment = []
    if cur:
        out.append(cur)
    return out


def lent_parameters():
    """The `&mut` parameters of each function of the repository, by its path."""
    out = {}
    for p in glob.glob("crates/*/src/**/*.rt", recursive=True):
        crate = p.split("/")[1]
        rest = p.split("/src/")[1][:-3].replace("/", "::")
        at = [crate] + ([] if rest in ("lib", "main") else [rest])
        src = re.sub(r"//.*", "", open(p).read())
        for m in re.finditer(r"\bfn (\w+)(?:<[^>]*>)?\(([^)]*)\)", src):
            lent = [a.split(":")[0].strip() for a in m.group(2).split(",") if re.search(r":\s*&('\w+ )?mut ", a)]
            out["::".join(at + [m.group(1)])] = lent
    return out


def clauses():
    """The names of the clauses of each function that has two of a kind, by its path: {path: {"requires": [..], "ensures": [..]}}; and its parameters."""
    out, params = {}, {}
    for p in glob.glob("crates/*/src/**/*.rt", recursive=True):
        crate = p.split("/")[1]
        rest = p.split("/src/")[1][:-3].replace("/", "::")
        src = re.sub(r"//.*", "", open(p).read())
        for m in re.finditer(r"\bfn (\w+)(?:<[^>]*>)?\(([^)]*)\)(.*?)\n\s*\{\n", src, re.S):
            kinds = {k: re.findall(r"\b" + k + r" (\w+) \{", m.group(3)) for k in ("requires", "ensures")}
            for path in (f"{crate}::{m.group(1)}", f"{crate}::{rest}::{m.group(1)}"):
                out[path] = kinds
                params[path] = [a.split(":")[0].replace("mut ", "").strip() for a in m.group(2).split(",") if a.strip()]
    return out, params


IDENTIFIERS = {w for p in glob.glob("crates/*/src/**/*.rt", recursive=True) for w in re.findall(r"\b[a-z]\w*_\w+", open(p).read())}
LENT = lent_parameters()
CLAUSES, PARAMS = clauses()


class Fn:
    def __init__(self, of):
        self.of = of
        self.place = {}
        for p in of["places"]:
            self.place.setdefault(p[0], p)
        self.needs = of["needs"]
        self.at = [a[0] for a in of["asked_at"]]
        self.loops = {norm(l[0][0]): (l[0][1], l[1]) for l in of["loops"]}

    def chain(self, place):
        while place in self.place:
            yield self.place[place]
            place = self.place[place][1]

    def step(self, place, field):
        for p in self.chain(place):
            if p[2] and norm(p[2][0]) == norm(field):
                return p[2][1], p
        for p in self.of["places"]:
            if p[2] and norm(p[2][0]) == norm(field):
                return p[2][1], p
        return None, None


PATH = re.compile(r"(?<![\w.'-])([a-z]\w*'?)((?:\.before)*)((?:\.[\w'-]+)*)")


def tops(text):
    """The parts of a text at its commas outside brackets."""
    out, depth, at = [], 0, 0
    for i, ch in enumerate(text):
        depth += ch in "([{"
        depth -= ch in ")]}"
        if ch == "," and depth == 0:
            out.append(text[at:i])
            at = i + 1
    return [x.strip() for x in out + [text[at:]] if x.strip()]


def named(kind, path, tail):
    """A clause by its name where it went by its place."""
    names = CLAUSES.get(path, {}).get(kind, [])
    if len(names) > 1 and tail and tail[0].isdigit() and int(tail[0]) < len(names):
        return [names[int(tail[0])]] + tail[1:]
    return tail


def arm_of(fn, place, step, tail):
    """What an arm binds or says, by today's names: the old step and path below it."""
    index = {p[0]: i for i, p in enumerate(fn.of["places"])}
    for p in fn.chain(place):
        arm = fn.of["arms"][index[p[0]]]
        if not arm:
            continue
        for new, old, path in arm[2]:
            if norm(old) == norm(step) and path and tail[: len(path)] == path:
                return [arm[0], new] + tail[len(path) :]
    return None


def respell(expr, fn, place, more=None):
    """The paths in a term respelled; `more` has the names that stand for other records, with their places."""
    aliases = dict(more or {}, c=place)
    expr = re.sub(r"(?<=\.)[a-z]\w*(?:-\w+)+(?![\w'-])", lambda m: m.group().replace("-", "_") if m.group().replace("-", "_") in IDENTIFIERS else m.group(), expr)
    # a name for an arm: what it binds is named at once
    for m in list(re.finditer(r"let ([a-z]\w*'?) = (c(?:\.before)*\.([\w'-]+)) in\s*", expr)):
        if arm_of(fn, place, m.group(3), ["given", "1"]) and re.search(r"(?<![\w.'-])" + m.group(1) + r"\.given", expr):
            expr = expr.replace(m.group(), "")
            expr = re.sub(r"(?<![\w.'-])" + re.escape(m.group(1)) + r"(?=\.)", m.group(2), expr)
    for m in re.finditer(r"let ([a-z]\w*'?) = (\w+)(?:\.before)+ in", expr):
        aliases[m.group(1)] = place
        expr = expr.replace(m.group(), f"let {m.group(1)} = {m.group(2)} in")
    # let m = c.before.before.x: only places are aliases
    def sub(m):
        head, befores, rest = m.groups()
        if head not in aliases:
            return m.group()
        place = aliases[head]
        if not rest:
            return m.group()
        parts = rest.split(".")[1:]
        first = parts[0]
        arm = arm_of(fn, place, first, parts[1:])
        if arm:
            return head + "." + ".".join(arm)
        if first == "requires":
            return head + "." + ".".join([first] + named("requires", fn.path, parts[1:]))
        if first.replace("-", "_") in ("well_formed", "type_inv"):
            return head + "." + ".".join([first.replace("-", "_")] + parts[1:])
        if first in ("args", "requires", "ranges", "utf8", "type_inv", "auto", "well_formed"):
            return head + "." + ".".join(parts)
        new, p = fn.step(place, first)
        if new is None:
            return head + "." + ".".join(parts)
        tail = parts[1:]
        if len(tail) > 1 and tail[0] == "new" and p[3]:
            lent, k = LENT.get(p[3]), 1
            while k < len(tail) and tail[k] == "1":
                k += 1
            if lent and k < len(tail) and tail[k] == "0" and k - 1 < len(lent):
                tail = ["new", lent[k - 1]] + tail[k + 1 :]
        if tail and tail[0] == "ensures" and p[3]:
            tail = ["ensures"] + named("ensures", p[3], tail[1:])
        return head + "." + ".".join([new] + tail)

    expr = PATH.sub(sub, expr)
    # what a test by `!` says is said of the value itself
    def plain(m):
        on = re.match(r".*\.if-not-(\w+)", m.group(1))
        return m.group() if on and re.search(r"!" + on.group(1) + r"\.\w+ *(?:\{|\)|&|\|)", fn.source) else m.group(1)

    expr = re.sub(r"\b(?:not-true|not-false) (?:_|[a-z][\w.]*) ([a-z]\.[\w'.-]+)", plain, expr)
    expr = re.sub(r"c\.in_default(?:-\w+)?\.rest(?:\.[01])*", "(λ h. omega arith)", expr)
    expr = re.sub(r"\.(type-inv|well-formed)(?![\w-])", lambda m: "." + m.group(1).replace("-", "_"), expr)
    return expr


def invariant(body, kind, fnspec, params):
    return body


def built(expr, names):
    """A tuple of as many parts as there are clauses, as the record that today's goal is."""
    m = re.match(r"\s*((?:let .*? in\s+)*)\((.*)\)\s*$", expr, re.S)
    if len(names) > 1 and m:
        parts = tops(m.group(2))
        if len(parts) == len(names):
            return m.group(1) + "record { " + "; ".join(f"{n} = {x}" for n, x in zip(names, parts)) + " }"
    return expr


def turn(crate, folder, fname, of, cyc):
    path = folder + "/Proof.antt"
    text = open(path).read()
    fn = Fn(of)
    fn.source = "\n".join(open(p).read() for p in glob.glob(f"crates/{crate}/src/**/*.rt", recursive=True))
    fn.path = crate + "::" + fname.replace("/", "::").replace("+", "")
    bl = blocks(text)
    uses, invs, answers, helpers, header = [], [], [], [], []
    used = [False] * len(fn.needs)
    position = 0
    for b in bl:
        com, lines, name = b[0], b[1], b[2]
        if name == "use":
            u = lines[0]
            if not header and com:
                header = com
            if re.search(r"\.(Statement|Tie|Lts\S*|Reads|Kinds|Code|Met)\b|borrow\.Fn\.|proofs\.\+\w+\.\{statement\}", u):
                continue
            if "borrow.Author.Rules.{rules}" in u or "borrow.Author.Needs" in u:
                u = "use Rattle.std.proofs.Common.{rules}"
            uses.append(u)
            continue
        sig = lines[0]
        m = re.search(r": (?:\(t : ℕ\) → )?(?:tie|[\w-]*lts|\S+)\.Need-(\S+)", sig)
        mi = re.match(r"abbrev (?:pub )?(invariant|decreases)-(\S+) : ", sig)
        if mi:
            loop = fn.loops.get(norm(mi.group(2)))
            ln = loop[0] if loop else mi.group(2)
            kind = mi.group(1)
            clause = "\n".join(lines[1:])
            mm = re.match(r"(\S+)((?: \S+)*?) =\s?(.*)", clause, re.S)
            args = mm.group(2).split()
            body = mm.group(3)
            invs.append((com, kind, ln, args, body, loop[1] if loop else []))
        elif m:
            old = m.group(1)
            idx = next((i for i, n in enumerate(fn.needs) if not used[i] and norm(n[0]) == norm(old)), None)
            if idx is None:
                idx = next((i for i, n in enumerate(fn.needs) if not used[i] and norm(n[1]) == norm(old)), None)
            clause = [l for l in lines[1:]]
            unf = [l for l in clause if l.startswith("unfolding ")]
            body = "\n".join(l for l in clause if not l.startswith("unfolding "))
            mm = re.match(r"(\S+)((?: \S+)*?) =\s?(.*)", body, re.S)
            if not mm:
                answers.append((com, "UNKNOWN-" + old, unf, body))
                continue
            args = mm.group(2).split()
            expr = mm.group(3).lstrip()
            if '\n' in expr:
                expr = "\n    " + expr
            if idx is None:
                new, place = None, None
            else:
                used[idx] = True
                new, place = fn.needs[idx][1], fn.at[idx] if idx < len(fn.at) else None
            if new and re.match(r"returns", new):
                expr = built(expr, CLAUSES.get(fn.path, {}).get("ensures", []))
            elif new and "-requires" in new:
                callee = next((p[3] for p in fn.of["places"] if p[3] and p[2][0] and norm(p[2][0]) == norm(old.rsplit("-requires", 1)[0] + old.rsplit("-requires", 1)[1].replace("-", ""))), None)
                callee = callee or next((p[3] for p in fn.of["places"] if p[3] and norm(p[3].split("::")[-1]) == norm(old.rsplit("-requires", 1)[0])), None)
                expr = built(expr, CLAUSES.get(callee, {}).get("requires", []))
            if re.sub(r"\s", "", expr) in ("searchrules", "tt", "omegaarith", "(omegaarith)"):
                continue
            answers.append((com, new, unf, respell(expr, fn, place) if place else expr, old, args))
        elif re.match(r"(pub )?\S+-?_?spec\b", sig) and ("statement" in sig or "Lts" in sig):
            continue
        elif name == "μ" and cyc:
            mm = re.search(r"μ κs a = (.*)", "\n".join(lines), re.S)
            ps = PARAMS.get(fn.path, [])
            def arg(x):
                k = x.group().count(".1") if x.group().endswith(".0") else x.group().count(".1")
                return "l." + ps[k] if k < len(ps) else x.group()
            if mm:
                body = re.sub(r"(?<![\w.])a((?:\.1)*)(\.0)?(?![\w])", lambda x: "l." + ps[x.group(1).count(".1")], mm.group(1))
                invs.append((com, "decreases", fname.split("+")[-1], [], body, []))
        elif name.endswith("spec") or name in ("μ", "given-at", "asked-below", "calls", "given_at", "asked_below"):
            continue
        else:
            whole = "\n".join(lines)
            if "tie." in whole:
                by = {norm(p[0]): (p[0], n) for p, n in zip(fn.of["places"], fn.of["places_by_name"])}
                at = lambda s: by.get(norm(s), (None, None))
                more = {}
                for m in re.finditer(r"\((\w+) : tie\.([\w-]+)", whole):
                    more[m.group(1)] = at(m.group(2))[0]
                sig_, _, rest_ = whole.partition("\n")
                types = re.findall(r"(?:^|→|:) tie\.([\w-]+)", sig_)
                for l in rest_.split("\n"):
                    mm = re.match(re.escape(name) + r"((?: [a-z]\w*)+) =", l)
                    if mm:
                        for v, ty in zip(mm.group(1).split(), types):
                            more.setdefault(v, at(ty)[0])
                whole = re.sub(r"tie\.([\w-]+)", lambda m: "goal." + (at(m.group(1))[1] or m.group(1)), whole)
                whole = respell(whole, fn, None, more)
                b = [com, whole.split("\n"), name, b[3]]
            helpers.append(b)
    proofpath = ".".join(folder.split("/proofs/")[1].split("/"))
    base = f"Rattle.{crate}.proofs.{proofpath}"
    cited = set()
    again = True
    texts = "\n".join(b for *_, b, vs in [(i[4], i[5]) for i in invs]) if False else "\n".join(i[4] for i in invs)
    while again:
        again = False
        for h in helpers:
            if h[2] not in cited and re.search(r"(?<![\w.'-])" + re.escape(h[2]) + r"(?![\w'-])", texts):
                cited.add(h[2])
                texts += "\n" + "\n".join(h[1])
                again = True
    if invs:
        o = header + uses + [f"use {base}.Given as goal", ""]
        for com, lines, name, *_ in helpers:
            if name in cited:
                first = lines[0] if re.match(r"(abbrev |unfoldable )?pub |record", lines[0]) else re.sub(r"^(abbrev |unfoldable )?", r"\1pub ", lines[0])
                first = re.sub(r"^record ", "pub record ", first)
                o += com + [first] + lines[1:] + [""]
        helpers = [h for h in helpers if h[2] not in cited]
        if cited:
            uses.append(f"use {base}.Invariants.{{{', '.join(sorted(cited))}}}")
        for com, kind, ln, args, body, vs in invs:
            # arguments: f0 .. (function's), .. at the loop's start with index 0, then the current ones
            env = {}
            for a in args:
                if a.endswith("₀"):
                    v = a[:-1]
                    env[a] = f"l.fn.{v}" if v in PARAMS.get(fn.path, []) else f"l.initial.{v}"
                else:
                    env[a] = f"l.{a}"
            # variables not parameters of the function: their ₀ is the loop's start
            o += com
            for a, v in env.items():
                body = re.sub(r"(?<![\w.'₀])" + re.escape(a) + r"(?![\w'₀])", v, body)
            o += [f"abbrev pub {kind}-{ln} : goal.{kind}-{ln}", f"{kind}-{ln} l = {body}" if not body.startswith("\n") else f"{kind}-{ln} l ={body}", ""]
        open(folder + "/Invariants.antt", "w").write("\n".join(o).rstrip() + "\n")
    if answers or helpers:
        o = (header if not invs else ["-- What is left to show, goal by goal."]) + uses + [f"use {base}.Goals as goal", ""]
        for com, lines, *_ in helpers:
            o += com + lines + [""]
        for a in answers:
            com, new, unf, expr = a[:4]
            old = a[4] if len(a) > 4 else "?"
            if new is None or new.startswith("UNKNOWN"):
                o += com + [f"-- LEFT {old}: " + expr.replace("\n", "\n-- "), ""]
                continue
            t = "t " if cyc else ""
            # what the contract is said for is bound by the answer
            bound = [x for x in (a[5] if len(a) > 5 else []) if x not in ("c", "κs", "t")]
            if bound:
                expr = f"\n    λ {' '.join(bound)}." + (" " + expr.lstrip() if not expr.startswith("\n") else expr)
            o += com + [f"pub {new} : goal.{new}"] + unf + [f"{new} {t}c =" + ("" if expr.startswith("\n") else " ") + expr, ""]
        text = "\n".join(o)
        if "arith" in text and not re.search(r"use .*[{ ]arith[,}]", text):
            text = text.replace(f"use {base}.Goals as goal", f"use native.Mathlib.Omega.{{arith}}\nuse {base}.Goals as goal")
        open(folder + "/Answers.antt", "w").write(text.rstrip() + "\n")
    os.makedirs("target/old/" + crate, exist_ok=True)
    os.rename(path, "target/old/" + crate + "/" + fname.replace("/", ".") + ".antt")


def main():
    crate, names = sys.argv[1:3]
    of = json.load(open(names))
    for path in sorted(glob.glob(f"crates/{crate}/proofs/**/Proof.antt", recursive=True)):
        folder = os.path.dirname(path)
        f = folder.split("/proofs/")[1]
        dotted = f.replace("/", ".")
        if len(sys.argv) > 3 and f not in sys.argv[3:]:
            continue
        cyc = f.split("/")[-1].startswith("+")
        key = f"Rattle-{crate}-proofs.{dotted}.Lts"
        if cyc:
            keys = [k for k in of if k.startswith(f"Rattle-{crate}-proofs.{dotted}.Lts")]
            key = keys[0] if len(keys) == 1 else None
        if key not in of:
            print(f"{path}: no names ({key})")
            continue
        turn(crate, folder, f, of[key], cyc)


main()
