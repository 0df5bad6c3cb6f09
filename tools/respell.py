#!/usr/bin/env python3
# respell.py: brings the repository's own definitions and lemmas to one spelling, everything but types and modules in snake case. It was run once, behind the
# port's own script, at the top of the repository. A name in camel case gets underscores. A dash stays where it joins two names, as in `fold-fold`, and
# becomes an underscore elsewhere. Functions of src/ keep their names, and so do files and folders. A name that would fall together with another one of a file stays, and is told.
import collections
import glob
import os
import re
import subprocess
import sys

WORD = re.compile(r"[A-Za-z_][\w'\-]*")
DEFINED = re.compile(r"^\s*((?:abbrev |unfoldable )?(?:pub )?(?:abbrev |unfoldable )?)([A-Za-z][\w'\-]*) :(?=\s)", re.M)
# these would fall together with others
CHOSEN = {"noZero": "without_zero", "countBy": "count_answer_by", "etherType": "ether_type_of", "ipNumber": "ip_number_of"}
ELSEWHERE = {"length", "append", "take", "drop", "map", "zero", "suc", "add", "mul", "sub"}


def snake(name):
    return CHOSEN.get(name) or re.sub(r"(?<=[a-z0-9])(?=[A-Z])", "_", name).lower()


def files():
    for kind in ("specs", "proofs"):
        yield from glob.glob(f"crates/*/{kind}/**/*.antt", recursive=True)
    yield from glob.glob("crates/*/src/**/*.rt", recursive=True)
    yield from glob.glob("crates/*/must-fail*/*.edit")


def code(path, text):
    """The parts of a file in which names are respelled: an antt file without its comments, clauses and imports of a Rattle file, the texts of an edit."""
    if path.endswith(".antt"):
        return [m.span() for m in re.finditer(r"^(?!\s*--).*$", text, re.M)]
    if path.endswith(".edit"):
        return [m.span() for m in re.finditer(r"^(?:old|new): .*$", text, re.M)]
    parts = [m.span() for m in re.finditer(r"^ghost use [^;]*;", text, re.M)]
    for start in re.finditer(r"^\s*(?:requires|ensures)[^{\n]*\{", text, re.M):
        depth, end = 1, start.end()
        while depth:
            depth += {"{": 1, "}": -1}.get(text[end], 0)
            end += 1
        parts.append((start.start(), end))
    return sorted(parts)


texts = {path: open(path, encoding="utf-8").read() for path in sorted(files())}
named, meant = collections.defaultdict(set), set()
for path, text in texts.items():
    if path.endswith(".antt") and not path.endswith("/Proof.antt"):
        for found in DEFINED.finditer(text):
            named[found.group(2)].add(path)
            if re.search("abbrev|unfoldable", found.group(1)):
                meant.add(snake(found.group(2)))
meant |= ELSEWHERE

wanted = {}
for name in named:
    if not name[0].islower():
        continue
    parts, new = name.split("-"), ""
    for k, part in enumerate(snake(part) for part in parts):
        new += ("" if k == 0 else "-" if part in meant and last in meant else "_") + part
        last = part
    if new != name:
        wanted[name] = new

words = {path: set(WORD.findall(" ".join(text[start:end] for start, end in code(path, text)))) for path, text in texts.items()}
for old, new in list(wanted.items()):
    twins = [other for other in wanted if other != old and wanted[other] == new]
    for path, found in words.items():
        if old in found and (new in found or any(twin in found for twin in twins)) and not path.endswith((".edit", "/Proof.antt")):
            if new in found or "-" in old:
                print(f"{old} stays: {new} stands in {path} too")
                wanted.pop(old, None)
                break

for path, text in texts.items():
    out, at = "", 0
    for start, end in code(path, text):
        out += text[at:start] + WORD.sub(lambda found: wanted.get(found.group(), found.group()), text[start:end])
        at = end
    out += text[at:]
    if not path.endswith(".edit"):  # a comment cites names in camel case, or within backquotes
        out = re.sub(r"(?<![\w'\-])[a-z]\w*[a-z0-9][A-Z]\w*(?![\w'\-])", lambda found: wanted.get(found.group(), found.group()), out)
        out = re.sub(r"`([A-Za-z][\w'\-]*)`", lambda found: f"`{wanted.get(found.group(1), found.group(1))}`", out)
    if out != text:
        open(path, "w", encoding="utf-8").write(out)
print(f"{len(wanted)} names respelled")
