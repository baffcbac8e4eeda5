#!/usr/bin/env python3
"""Brings the repository's own names in specs/ and proofs/ to today's spelling, once, after port.py: words in snake case, types and modules as they are.

usage: python3 tools/spelling.py [--dry]      at the top of the repository

The names are those that specs/ and the lemma files of proofs/ declare, record fields among them: `judgePart` becomes `judge_part`, and the dashes of a lemma's
name underscores. A name keeps its spelling where the new one would fall together with a name of the library or with another one of the repository.
Names of functions, exported names, strings and what Rattle generates stay. Pages follow; must-fail edits are brought over apart."""

import collections
import os
import re
import sys

TOKEN = re.compile(r"(?<![A-Za-z0-9_'\u00b7\-])[A-Za-z\u03bc\u2115][A-Za-z0-9_'\u2115]*(?:-[A-Za-z0-9_'\u2115]+)*(?![A-Za-z0-9_'])")
DECLARED = re.compile(r"^(\s*)((?:abbrev |unfoldable |pub |record |data |mod )*)([^\s:(){}.;,]+)\s*(?=[:({]|$)(.*)$")
KEPT = {"use", "where", "unfolding", "module", "let", "in", "open", "constructor", "elim", "record", "rw", "simp", "omega"}


# lemmas to which port.py gave the name that a definition takes here
DASHED = {"kind_fits": "kind-fits", "last_name": "last-name", "met_by": "met-by", "object_of": "object-of", "same_bytes": "same-bytes"}
# a member that Rattle makes of a call, always behind a dot, falls together with nothing
APART = {"entry_at"}


def snake(name):
    """`callerCases-hold` is `caller_cases_hold`, and `getD` was the library's word."""
    name = name.replace("getD", "get_or")
    name = re.sub(r"(?<=[a-z0-9])([A-Z])", lambda m: "_" + m[1].lower(), name)
    return name.replace("-", "_")


def files(root):
    for folder, dirs, names in os.walk(os.path.join(root, "crates")):
        dirs[:] = sorted(d for d in dirs if d != "out")
        for name in sorted(names):
            yield os.path.join(folder, name)


def in_function(path):
    """A file of a function's own proof: what it declares answers what Rattle generates."""
    return os.path.basename(path) in ("Proof.antt", "Invariants.antt", "Answers.antt")


def gather(root):
    own, foreign, tokens = set(), set(), collections.Counter()
    for path in files(root):
        if not path.endswith((".antt", ".rt")):
            continue
        text = open(path, encoding="utf-8").read()
        code = re.sub(r"(?m)(--|//) .*$", "", text) if path.endswith(".antt") else re.sub(r"(?m)//.*$", "", text)
        for m in re.finditer(r"(?m)^\s*(?:pub )?(?:ghost )?use ([^\s{]+?)(?:\.\{([^}]*)\})?(?: as \S+)?;?$", code):
            if not m[1].startswith("Rattle.") or m[1].startswith("Rattle.std"):
                foreign.update(w.split(" as ")[0].strip() for w in (m[2] or "").split(","))
        if path.endswith(".rt"):
            continue
        # a path names modules of functions, whose names are others
        tokens.update(w for w in TOKEN.findall(re.sub(r"(?m)^\s*(?:pub )?use [^{\n]*", "", code)) if w not in DASHED and w not in APART)
        if in_function(path):
            continue
        for line in code.split("\n"):
            m = DECLARED.match(line)
            if m and m[3] not in KEPT and (m[4].startswith(":") or "record" in m[2] or "data" in m[2] or re.match(r"[({]", m[4])) and TOKEN.fullmatch(m[3]):
                own.add(m[3])
    return own, foreign, tokens


def mapping(root):
    own, foreign, tokens = gather(root)
    renamed = {}
    for name in sorted(own):
        if name[0].isupper() or name in foreign or name in DASHED:
            continue
        new = snake(name)
        if new != name:
            renamed[name] = new
    goals = collections.defaultdict(list)
    for old, new in renamed.items():
        goals[new].append(old)
    kept = {}
    for new, olds in goals.items():
        if len(olds) > 1 or new in foreign or (new in tokens and new not in renamed):
            # a definition takes the name, and a lemma keeps its dashes, which join the names that it speaks of
            definitions = [o for o in olds if "-" not in o]
            taken = new in foreign or (new in tokens and new not in renamed)
            for o in olds:
                if taken or o not in definitions or len(definitions) > 1:
                    kept[o] = new
    for o in kept:
        dashed = re.sub(r"(?<=[a-z0-9])([A-Z])", lambda m: "_" + m[1].lower(), o.replace("getD", "get_or"))
        if dashed != o and dashed not in tokens and dashed not in foreign:
            renamed[o] = dashed
        else:
            del renamed[o]
    for o, new in DASHED.items():
        if o in own:
            renamed[o] = new
    return renamed, kept


def turn(path, text, renamed):
    def word(m):
        return renamed.get(m[0], m[0])

    def camel(m):
        new = renamed.get(m[0])
        return new if new and re.search(r"[a-z0-9][A-Z]", m[0]) else m[0]

    if path.endswith(".md"):
        return re.sub(r"`[^`\n]*`", lambda m: TOKEN.sub(word, m[0]), text)
    lines = []
    for line in text.split("\n"):
        if path.endswith(".antt"):
            at = line.find("--")
            while at > 0 and not line[at - 1].isspace():
                at = line.find("--", at + 1)
            code, comment = (line, "") if at < 0 else (line[:at], line[at:])
            # strings stay
            code = re.sub(r'"[^"]*"|[^"]+', lambda m: m[0] if m[0].startswith('"') else TOKEN.sub(word, m[0]), code)
            lines.append(code + TOKEN.sub(camel, comment))
        else:
            at = line.find("//")
            code, comment = (line, "") if at < 0 else (line[:at], line[at:])
            ghostly = re.match(r"\s*(?:pub )?(?:ghost|requires|ensures)\b", code) or "≡" in code or "{ λ" in code
            code = TOKEN.sub(lambda m: m[0] if m[0] in DASHED else (word if ghostly else camel)(m), code)
            lines.append(code + TOKEN.sub(camel, comment))
    return "\n".join(lines)


def main():
    root = os.getcwd()
    renamed, kept = mapping(root)
    if "--dry" in sys.argv:
        for o in sorted(renamed):
            print(o, renamed[o])
        for o in sorted(kept):
            print("kept", o, "not", kept[o], "but", renamed.get(o, o))
        return
    paths = [p for p in files(root) if p.endswith((".antt", ".rt"))]
    for folder in ("", "docs", "bench", "tests"):
        paths += [os.path.join(root, folder, n) for n in sorted(os.listdir(os.path.join(root, folder))) if n.endswith(".md")]
    for path in paths:
        text = open(path, encoding="utf-8").read()
        new = turn(path, text, renamed)
        if new != text:
            with open(path, "w", encoding="utf-8") as f:
                f.write(new)


main()
