#!/usr/bin/env python3
"""Brings the must-fail edits over: respells each pair whose old text no longer stands once in its file.

usage: edits.py [CRATE..]   (at the top; LANDED is the first commit that docs/PORT.md names)

For such a pair the line of LANDED's file that has the old text is respelt with and without the change, as port.py respelt the sources: tight projections
(`f x .y` is `(f x).y`), snake case, no needless marks. Where today's file has the first once, the two are
the pair, or the edit's own texts respelt where these do the same. The rest is listed, to be done by hand.
"""

import glob
import os
import re
import subprocess
import sys

WORD = r"[^\s(){}\[\],;.]+(?:\.[^\s(){}\[\],;.]+)*"
TOKEN = re.compile(rf"(?P<space>\s+)|(?P<at>\.(?:«\w+»|[\w'-]+))|(?P<open>[({{\[])|(?P<close>[)}}\]])|(?P<word>{WORD})|(?P<mark>.)")
# What ends an application to its left.
STOPS = set("= : ≡ ≤ < ∷ ++ × ⊎ + - * / ^ % && || → λ . in let where if then else ∙ ; , record".split())
SNAKE = re.compile(r"(?<![\w'])[a-z][a-z0-9]*(?:[A-Z][a-z0-9]*)+(?![\w'])")


def tight(text):
    """Writes projections tight, and drops the brackets round one that stands alone."""
    # a stack of groups; a group is a list of [space before, text, may be an argument]
    stack = [[]]
    space = ""
    for m in TOKEN.finditer(text):
        kind, it = m.lastgroup, m.group()
        if kind == "space":
            space += it
            continue
        group = stack[-1]
        if kind == "at" and space and group and group[-1][2]:
            start = len(group)
            while start and group[start - 1][2]:
                start -= 1
            spine = group[start:]
            if len(spine) == 1:
                group[-1][1] += it
            else:
                inner = spine[0][1] + "".join(s + t for s, t, _ in spine[1:])
                group[start:] = [[spine[0][0], f"({inner}){it}", True]]
        elif kind == "at" and not space and group and group[-1][2]:
            group[-1][1] += it
        elif kind == "open":
            stack.append([])
            group.append([space, it, False])
        elif kind == "close" and len(stack) > 1:
            inside = stack.pop()
            first = stack[-1].pop()
            body = "".join(s + t for s, t, _ in inside)
            alone = it == ")" and len(inside) == 1 and re.fullmatch(r"[\w'«»-]+(\.[\w'«»-]+)+|\(.*\)(\.[\w'«»-]+)+", body)
            stack[-1].append([first[0], body if alone else f"({body}{space})" if it == ")" else f"{first[1]}{body}{space}{it}", True])
        else:
            group.append([space, it, kind == "word" and it not in STOPS])
        space = ""
    flat = []
    for g in stack:
        flat += g
    return "".join(s + t for s, t, _ in flat) + space


def respelt(text, today):
    """Respells a line of the older form by the names that today's file has."""
    words = set(re.findall(r"[\w'-]+", today))

    def name(m):
        it = re.sub(r"([A-Z])", lambda n: "_" + n.group(1).lower(), m.group())
        return it if it in words and m.group() not in words else m.group()

    text = SNAKE.sub(name, text)
    text = re.sub(r"«(\w+)»", lambda m: m.group() if m.group() in today else m.group(1), text)
    text = re.sub(r"\bget_?[dD]\b", "get_or", text) if "get_or" in words else text
    text = re.sub(r"[a-z]+(?:-[a-z]+)+", lambda m: m[0].replace("-", "_") if m[0].replace("-", "_") in words and m[0] not in words else m[0], text)
    return tight(text)


def snake(text, but):
    """Text in snake case, all but the names that another one has."""
    return SNAKE.sub(lambda m: m[0] if m[0] in but else re.sub("([A-Z])", lambda n: "_" + n[1].lower(), m[0]), text)


def pairs(lines):
    """The pairs of an edit: (number of the old line, number of the new line, file)."""
    out, file, old = [], None, None
    for n, line in enumerate(lines):
        if line.startswith("file: "):
            file = line[6:].strip()
        elif line.startswith("old: "):
            old = n
        elif line.startswith("new:"):
            out.append((old, n, file))
    return out


def landed(path):
    commit = open("docs/PORT.md", encoding="utf-8").readline().strip()
    r = subprocess.run(["git", "show", f"{commit}:{path}"], capture_output=True, text=True)
    return r.stdout if r.returncode == 0 else ""


def turned(path):
    crate = path.split("/")[1]
    lines = open(path, encoding="utf-8").read().split("\n")
    now, then, left = {}, {}, []
    for o, n, file in pairs(lines):
        where = f"crates/{crate}/{file}"
        if not os.path.isfile(where):
            left.append(f"{path}: no file {file}: {lines[o]}")
            continue
        if file not in now:
            now[file], then[file] = open(where, encoding="utf-8").read(), landed(where)
        old, new = lines[o][5:], lines[n][4:].removeprefix(" ")
        if now[file].count(old) != 1:
            # (the edits' own names are in snake case already, LANDED's are not)
            for line in [snake(r, old) for r in then[file].split("\n") if old in snake(r, old)] or [old]:
                a, b = respelt(line, now[file]), respelt(line.replace(old, new), now[file])
                c, d = respelt(old, now[file]), respelt(new, now[file])
                if now[file].count(c) == 1 and a.replace(c, d) == b:
                    a, b = c, d
                if now[file].count(a) == 1:
                    old, new = a, b
                    break
            else:
                left.append(f"{path}: {file}: {old}")
                continue
        elif file.endswith(".antt") and not new.startswith("use "):
            new = respelt(new, now[file])
        lines[o], lines[n] = "old: " + old, ("new: " + new).rstrip()
        now[file] = now[file].replace(old, new)
    with open(path, "w", encoding="utf-8") as f:
        f.write("\n".join(lines))
    return left


def main():
    for path in sorted(glob.glob("crates/*/must-fail/*.edit")):
        if not sys.argv[1:] or path.split("/")[1] in sys.argv[1:]:
            for it in turned(path):
                print(it)


main()
