#!/usr/bin/env python3
"""Brings the repository's own definitions to today's spelling: lookedAt -> looked_at. Run once, after port.py, at the top.

It turns names in camel case that begin with a small letter, in specs/ and proofs/ and in the clauses of src/, in the must-fail edits, and between the pages' backquotes.
Functions of src/ have none. Comments keep the field names that the message formats give (PAPER). `--check` only lists names that would fall together.
"""

import glob
import re
import sys

PAPER = set(
    "hwId vendorHwId fileHash fileName fileSize blockSize blockNum blockData loadTime sessionId notBefore notAfter hwInfo isRunning tIntervalMin"
    " tIntervalMax doDagId deviceId currentTime groupInfo tlvIndex imageBlock imageInfo groupId groupType newAddress newMask".split()
)
CAMEL = re.compile(r"(?<![\w'])[a-z][a-z0-9]*(?:[A-Z][a-z0-9]*)+(?![\w'])")
# A name that would fall together with another one.
OTHER = {"allRead": "read_all"}


def snake(name):
    return OTHER.get(name, re.sub(r"([A-Z])", lambda m: "_" + m.group(1).lower(), name))


def turned(code, names, keep=()):
    return CAMEL.sub(lambda m: snake(m.group()) if m.group() in names and m.group() not in keep else m.group(), code)


def by_line(text, mark, names):
    """Code is turned whole; behind the mark of a comment the format's own names stay."""
    out = []
    for line in text.split("\n"):
        at = line.find(mark)
        code, comment = (line, "") if at < 0 else (line[:at], line[at:])
        out.append(turned(code, names) + turned(comment, names, PAPER))
    return "\n".join(out)


def files(pattern):
    return sorted(p for p in glob.glob(pattern, recursive=True) if "/out/" not in p)


def main():
    antt = files("crates/*/specs/**/*.antt") + files("crates/*/proofs/**/*.antt")
    texts = {p: open(p, encoding="utf-8").read() for p in antt + files("crates/*/src/**/*.rt") + files("crates/*/must-fail/*.edit")}
    names = set()
    for p in antt:
        for line in texts[p].split("\n"):
            names.update(CAMEL.findall(line.split("--")[0]))
    if "--check" in sys.argv:
        for p in antt:
            words = set(re.findall(r"(?<![\w'.])[a-z_]\w*(?![\w'])", re.sub(r"--.*", "", texts[p])))
            for n in sorted(names & set(CAMEL.findall(texts[p]))):
                if snake(n) in words:
                    print(f"{p}: {n} and {snake(n)}")
        for n in names:
            for m in names:
                if n < m and snake(n) == snake(m):
                    print(n, m)
        return
    for p in files("docs/*.md") + ["README.md"]:
        text = open(p, encoding="utf-8").read()
        new = re.sub(r"`[^`\n]*`", lambda m: turned(m.group(), names, PAPER), text)
        if new != text:
            with open(p, "w", encoding="utf-8") as f:
                f.write(new)
    for p, text in texts.items():
        mark = "//" if p.endswith(".rt") else "--" if p.endswith(".antt") else "# "
        new = by_line(text, mark, names)
        if new != text:
            with open(p, "w", encoding="utf-8") as f:
                f.write(new)


main()
