#!/usr/bin/env python3
"""Brings the repository's own definitions and lemmas to the spelling of today's Rattle: functions, lemmas, fields, constructors and
local names in snake case, types as they are. `sumOver` becomes `sum_over`, `pairs-fit` becomes `pairs_fit`, `getD-∈` becomes `get_or_∈`.
A lemma that would have its function's name gets `_lem`.

usage: tools/respell.py            at the top, once, after the kit's port.py: rewrites specs/, proofs/, the clauses of src/ and must-fail/
       tools/respell.py --list     prints the old and the new names, and those that fall together

A name turns if a file of specs/ or a file of lemmas of proofs/ declares it, whatever stands in the file at hand under that name from a
library. Functions of src/, exported names, strings, inputs and outputs keep theirs. Of a comment only words in back quotes turn.
"""

import glob
import re
import sys

TOKEN = r"[^\s(){}.;,@\"«»\[\]⌜⌝|]+"
DECLARED = [
    re.compile(rf"^\s*(?:(?:pub|abbrev|unfoldable|record|data)\s+)*({TOKEN})\s*(?::|\(|\{{)", re.M),
    re.compile(rf"[({{]\s*((?:{TOKEN}\s+)*{TOKEN})\s*:(?=\s)"),
    re.compile(rf"\blet\s+({TOKEN})\s*(?::|=)(?=\s)"),
    re.compile(rf"λ\s+((?:{TOKEN}\s*)+)\."),
    re.compile(rf"^\s+({TOKEN})(?:\s+{TOKEN})*\s+=(?=\s)", re.M),
]
QUOTED = re.compile(r"`[^`\n]*`")
WORDS = {"getD": "get_or"}
# Lemmas that port.py spelled as a function of ours will be.
LEMMAS = ("left_by", "no_room", "two_bytes", "word_count")


def turned(name):
    """The new spelling, or the old one where it is a type's or has nothing to turn."""
    if not re.search(r"-|[a-zμ0-9][A-Z]", name) or "◌" in name or name.startswith("-") or re.fullmatch(r"[-→←↦]+|.*(->|→).*", name):
        return name
    if re.fullmatch(r"[A-Z][A-Za-z0-9]*'?", name) and not re.match(r"[A-Z]-", name):
        return name
    parts = []
    for part in name.split("-"):
        for old, new in WORDS.items():
            part = part.replace(old, new)
        if not re.match(r"[A-Z]", part):
            part = re.sub(r"(?<=[a-z0-9μ])([A-Z])(?=[a-z]|$|\d)", lambda m: "_" + m[1].lower(), part)
        parts.append(part)
    return "_".join(parts)


def code(text):
    """The text without its comments."""
    return re.sub(r"(^|\s)--.*", r"\1", text)


def own(path):
    parts = path.split("/")
    return parts[2] == "specs" or len(parts) == 4


def libraries(path, text):
    """What a file takes from elsewhere than the repository's own specs/ and proofs/."""
    names = set()
    for m in re.finditer(r"^\s*(?:pub\s+)?(?:ghost\s+)?use\s+(\S+?)\.\{([^}]*)\}", text, re.M):
        if re.match(r"Rattle\.(std|core|io|os|libc)\b|(?!Rattle\.)", m[1]):
            names |= {re.sub(r".*\bas\s+", "", w.strip()) for w in m[2].split(",")}
    return names


def declared(text):
    return {name for pattern in DECLARED for m in pattern.finditer(text) for name in m[1].split()}


def table(files):
    names = {}
    for path, text in files.items():
        if not path.endswith(".antt") or not own(path):
            continue
        taken = libraries(path, text)
        for name in declared(code(text)):
            new = turned(name)
            if new != name and name not in taken:
                names.setdefault(name, new)
    functions = {new for old, new in names.items() if "-" not in old}
    words = {m for path, text in files.items() if path.endswith(".antt") and own(path) for m in declared(code(text))}
    for old, new in names.items():
        if "-" in old and (new in functions or new in words):
            names[old] = new + "_lem"
    for word in LEMMAS:
        names[word] = word + "_lem"
    return names


def rewritten(path, text, names):
    taken = libraries(path, text)
    word = re.compile(TOKEN)

    def one(m):
        return names[m[0]] if m[0] in names and m[0] not in taken else m[0]

    def line(l):
        at = re.search(r"(?:^|\s)--(?=\s|$)" if path.endswith(".antt") else r"//", l)
        if path.endswith(".edit") and re.match(r"#|file:", l):
            return l
        head, tail = (l[: at.start()], l[at.start() :]) if at else (l, "")
        if not path.endswith(".antt") and '"' in head:
            return l
        return word.sub(one, head) + QUOTED.sub(lambda q: word.sub(lambda m: names.get(m[0].strip("`"), m[0].strip("`")).join(["`" * m[0].startswith("`"), "`" * m[0].endswith("`")]), q[0]), tail)

    return "\n".join(line(l) for l in text.split("\n"))


def main(argv):
    paths = [p for g in ("specs/**/*.antt", "proofs/**/*.antt", "src/*.rt", "must-fail/*.edit") for p in glob.glob("crates/*/" + g, recursive=True)]
    files = {p: open(p, encoding="utf-8").read() for p in sorted(paths)}
    names = table(files)
    words = set()
    for path, text in files.items():
        if path.endswith(".antt"):
            words |= set(re.findall(TOKEN, code(text)))
    back = {}
    for old, new in names.items():
        back.setdefault(new, []).append(old)
    clashes = {n: o + ([n] if n in words else []) for n, o in back.items() if len(o) + (n in words) > 1}
    if "--list" in argv:
        for old, new in sorted(names.items()):
            print(f"{old}\t{new}")
        for new, olds in sorted(clashes.items()):
            print(f"together: {new}: {' '.join(olds)}")
        return 0
    for path, text in files.items():
        new = rewritten(path, text, names)
        if new != text:
            with open(path, "w", encoding="utf-8") as f:
                f.write(new)
    print(f"{len(names)} names turned")
    return 0


if __name__ == "__main__":
    raise SystemExit(main(sys.argv[1:]))
