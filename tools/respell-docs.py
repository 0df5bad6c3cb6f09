#!/usr/bin/env python3
# respell-docs.py OLD: brings the names that documents cite between backquotes, and in blocks of code, to the spelling that crates/ has. OLD is a checkout that
# has the names as the documents have them. It was run once. docs/PORT.md and landing notes are left as they are.
import collections
import glob
import os
import re
import sys

WORD = re.compile(r"[A-Za-z_][\w'\-]*")
DEFINED = re.compile(r"^ *(?:(?:pub|abbrev|unfoldable) )*([^\s:(){}]+) :", re.M)
CHOSEN = {"noZero": "without_zero", "countBy": "count_answer_by", "etherType": "ether_type_of", "ipNumber": "ip_number_of", "noZero-is": "without_zero_is"}


def names(root):
    found = set()
    for kind in ("specs", "proofs"):
        for path in glob.glob(f"{root}/crates/*/{kind}/**/*.antt", recursive=True):
            found |= set(DEFINED.findall(open(path, encoding="utf-8").read()))
    return found


def key(name):
    return re.sub(r"(?<=[a-z0-9])(?=[A-Z])", "_", CHOSEN.get(name, name)).lower().replace("-", "_")


before, now = names(sys.argv[1]), names(".")
by_key, wanted = collections.defaultdict(set), {}
for name in (name for name in now if not name[:1].isupper()):
    by_key[key(name)].add(name)
for name in before - now:
    if name[:1].islower():
        fitting = by_key[key(name)]
        plain = [other for other in fitting if "-" not in other]
        if len(fitting) == 1 or "-" not in name and len(plain) == 1:
            wanted[name] = (plain or sorted(fitting))[0]


def turned(found):
    return WORD.sub(lambda word: wanted.get(word.group(), word.group()), found.group())


for path in sorted(glob.glob("docs/*.md") + glob.glob("*.md") + glob.glob("*/*.md") + glob.glob("*/*/README.md")):
    if os.path.basename(path) == "PORT.md" or path.startswith("target/"):
        continue
    lines, block = open(path, encoding="utf-8").read().split("\n"), False
    for number, line in enumerate(lines):
        if line.startswith("```"):
            block = not block
        elif block:
            lines[number] = WORD.sub(lambda word: wanted.get(word.group(), word.group()), line)
        else:
            lines[number] = re.sub(r"`[^`]+`", turned, line)
    text = "\n".join(lines)
    if text != open(path, encoding="utf-8").read():
        open(path, "w", encoding="utf-8").write(text)
