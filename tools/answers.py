#!/usr/bin/env python3
"""Turns the proofs by needs of an older Rattle, Proof.antt, into Invariants.antt and Answers.antt, once, after port.py and spelling.py.

usage: python3 tools/answers.py NAMES.json CRATE..     at the top of the repository

NAMES.json is what `rt check --generated FOLDER --old-names` writes, of one or more crates. An answer `search rules` is left out, since the check tries it by itself.
Paths through the steps of the code get their new names; what stands in an `elim` of two branches is left to do by hand where it names a branch's facts by number."""

import json
import os
import re
import sys


def norm(name):
    return name.replace("-", "_")


def blocks(text):
    """The declarations of a file: (signature lines, body lines) as text, by blank lines between."""
    return [b for b in re.split(r"\n\n(?=\S)", text.strip("\n")) if b.strip()]


class Names:
    def __init__(self, said):
        self.said = said
        self.needs = {norm(old): (new, at[0]) for (old, new), at in zip(said["needs"], said["asked_at"])}
        self.settled = {norm(s) for s in said["settled"]}
        self.places = {p[0]: p for p in said["places"]}
        self.args = {}
        for old, new in said["args"]:
            m, n = re.match(r"\.args \.(\S+)$", old), re.match(r"\.args \.(\S+)$", new)
            if m and n:
                self.args[m[1]] = n[1]
        self.loops = said["loops"]
        self.by_name = dict(zip([p[0] for p in said["places"]], said["places_by_name"]))
        self.clauses = dict(zip([p[0] for p in said["places"]], said["clauses"]))
        self.typed = dict(zip([p[0] for p in said["places"]], said["typed"]))

    def need(self, old):
        old = norm(old)
        for start in ("", "overflow_", "division_", "nonzero_", "bounds_"):
            if old.startswith(start) and old[len(start) :] in self.needs:
                return self.needs[old[len(start) :]]
        return None

    def chain(self, place):
        while place:
            yield self.places[place]
            place = self.places[place][1]

    def step(self, place, name):
        """The step's new name and the place after it, as seen from a place."""
        for p in self.chain(place):
            if norm(p[2][0]) == norm(name):
                return p[2][1], p[0]
        for p in self.places.values():
            if norm(p[2][0]) == norm(name):
                return p[2][1], p[0]
        return None, None

    def path(self, place, rest):
        """A path behind `c` without its `before`s."""
        words = rest.strip(".").split(".")
        first = words[0]
        if first == "args":
            if len(words) > 1:
                words[1] = self.args.get(words[1], words[1])
            return words
        if first == "requires":
            fields = (self.said["pre"] or {}).get("fields") or []
            if len(words) > 1 and words[1].isdigit() and fields:
                words[1] = fields[int(words[1])] if int(words[1]) < len(fields) else words[1]
            return words
        m = re.match(r"(?:shared|mut)?[-_]?slice[-_]known\d*$", first)
        if m and len(words) > 1 and words[1] == "given":
            for p in [place, *self.places]:
                for var, step in self.typed.get(p, []):
                    if norm(step) == norm(first):
                        return ["type_inv", var, *words[2:]]
            base = re.sub(r"\d+$", "", norm(first))
            for var, step in self.typed.get(place, []):
                if norm(step) == base:
                    return ["type_inv", var, *words[2:]]
        new, after = self.step(place, first)
        if new:
            words[0] = new
            if len(words) > 2 and words[1] == "ensures" and words[2].isdigit():
                fields = (self.clauses.get(after) or {}).get("fields") or []
                if int(words[2]) < len(fields):
                    words[2] = fields[int(words[2])]
        return words


def top_level(text):
    """The parts of a tuple `(a, b)`, or None."""
    text = text.strip()
    if not text.startswith("(") or not text.endswith(")"):
        return None
    deep, parts, begin = 0, [], 1
    for i, ch in enumerate(text):
        deep += (ch in "([{") - (ch in ")]}")
        if deep == 0 and i < len(text) - 1:
            return None
        if deep == 1 and ch == ",":
            parts.append(text[begin:i].strip())
            begin = i + 1
    parts.append(text[begin:-1].strip())
    return parts if len(parts) > 1 else None


def operand(text, at):
    """The end of the term that begins at a place: a word with its dots, or what stands in parentheses."""
    if text[at] == "(":
        deep = 0
        for i in range(at, len(text)):
            deep += (text[i] == "(") - (text[i] == ")")
            if deep == 0:
                return i + 1
    m = re.compile(r"[^\s()\[\],;]+").match(text, at)
    return m.end()


def turn(folder, module, said, log):
    path = f"{folder}/Proof.antt"
    text = open(path, encoding="utf-8").read()
    names = Names(said)
    uses, comments, helpers, answers, invariants = [], [], [], [], []
    arms, renamed = set(), {}
    parts = blocks(text)
    decls = []
    for part in parts:
        lines = part.split("\n")
        while lines and (lines[0].startswith("use ") or not lines[0].strip()):
            line = lines.pop(0)
            if line.startswith("use ") and not re.search(r"\.(Statement\.\{statement\}|Tie as tie)$", line):
                uses.append(line)
        if lines:
            decls.append("\n".join(lines))
    for d in decls:
        lead = ""
        while d.startswith("--"):
            c, _, d = d.partition("\n")
            lead += c + "\n"
        if re.match(r"pub \S+ : \{M : Type 1\}", d):
            continue
        m = re.match(r"abbrev (?:pub )?(invariant|decreases)-(\S+) : tie\.(?:invariant|decreases)-(\S+)[^\n]*\n(?:unfolding[^\n]*\n)?", d)
        if m:
            invariants.append((lead, d))
            continue
        m = re.match(r"(\S+) : tie\.Need-(\S+)", d)
        if not m:
            helpers.append(lead + d)
            continue
        found = names.need(m[2])
        if found:
            renamed[m[1]] = found[0]
        answers.append((lead, m[1], m[2], found, d))

    def respell(body, place):
        # the two branches of a join
        while True:
            at = body.find("⊎_elim (λ ")
            if at < 0:
                break
            a = at + len("⊎_elim ")
            a_end = operand(body, a)
            b = a_end + 1
            if body[b] != "(":
                break
            b_end = operand(body, b)
            e = b_end + 1
            e_end = operand(body, e)
            one, two, on = body[a + 1 : a_end - 1], body[b + 1 : b_end - 1], body[e:e_end]
            m = re.match(r"c(?:\.before)*\.(if\d*)\.branch$", on)
            l = re.match(r"λ (\S+)\. (.*)$", one, re.S)
            r = re.match(r"λ (\S+)\. (.*)$", two, re.S)
            if not (m and l and r):
                break
            n = m[1][2:]
            new, _ = names.step(place, m[1])
            then = names.by_name.get(f"Then{n}", "Then?").replace("Then", "then", 1)
            other = names.by_name.get(f"Else{n}", "Else?").replace("Else", "else", 1)
            arms.update([then, other])
            # a hole keeps the loop from coming back here
            lb = l[2].replace(f"{l[1]}.0.taken", f"{l[1]}.{new}.true").replace(f"{l[1]}.0.left", f"{l[1]}.{new}.false")
            rb = r[2].replace(f"{r[1]}.0.taken", f"{r[1]}.{new}.true").replace(f"{r[1]}.0.left", f"{r[1]}.{new}.false")
            body = body[:at] + f"elim {on} [ {then} {l[1]} ↦ {lb} | {other} {r[1]} ↦ {rb} ]" + body[e_end:]

        def one_path(m):
            return "c." + ".".join(names.path(place, m[2]))

        body = re.sub(r"(?<![\w.'-])c((?:\.before)*)((?:\.[^\s.()\[\],;]+)+)", one_path, body)
        return body

    out = []
    for lead, name, old, found, d in answers:
        head = re.match(r"(\S+) : [^\n]*\n((?:unfolding[^\n]*\n)?)", d)
        rest = d[head.end() :]
        m = re.match(r"\S+ ([^=\n]*?) ?=\s*(.*)$", rest, re.S)
        if not m:
            log.append(f"{path}: {name}: not read")
            continue
        body = m[2].strip()
        if body == "search rules":
            continue
        if not found:
            log.append(f"{path}: {name}: no need {old} any more: {body[:120]}")
            continue
        new, place = found
        binder = " ".join(w for w in m[1].split() if w not in ("κs", "κ"))
        body = respell(body, place)
        fields = names.said["asked"].get(old) or names.said["asked"].get(norm(old)) or next((v for k, v in names.said["asked"].items() if norm(k) == norm(old) or k == new), None)
        if fields:
            parts = top_level(body)
            if parts and len(parts) == len(fields):
                body = "record { " + "; ".join(f"{f} = {p}" for f, p in zip(fields, parts)) + " }"
            elif parts:
                log.append(f"{path}: {name}: clauses {fields}, {len(parts)} parts")
        unfolds = head[2]
        if "\n" in body:
            out.append(f"{lead}pub {new} : goal.{new}\n{unfolds}{new} {binder} =\n    {body}")
        else:
            out.append(f"{lead}pub {new} : goal.{new}\n{unfolds}{new} {binder} = {body}")

    inv_out = []
    for lead, d in invariants:
        m = re.match(r"abbrev (?:pub )?(invariant|decreases)-(\S+) : [^\n]*\n((?:unfolding[^\n]*\n)?)\S+ ([^=\n]*?) ?=\s*(.*)$", d, re.S)
        kind, loop, unfolds, params, body = m.groups()
        entry = next((l for l in names.loops if norm(l[0][0]) == norm(loop)), None)
        if not entry:
            log.append(f"{path}: no loop {loop}")
            continue
        at = names.loops.index(entry)
        new = entry[0][1]
        variables, changed = entry[1], names.said["changed"][at]
        if kind == "decreases" and any(v == new[len("loop-") :].split("-in-")[0] + "-end" for v in variables):
            continue
        olds = params.split()
        wanted = [("l.initial." if ch else "l.") + v for v, ch in zip(variables, changed)] + ["l." + v for v, ch in zip(variables, changed) if ch]
        if len(olds) != len(wanted):
            log.append(f"{path}: {kind}-{loop}: {len(olds)} variables, and now {len(wanted)}: {olds} {wanted}")
        table = dict(zip(olds, wanted))
        table.pop("_", None)
        body = re.sub(r"(?<![\w.'₀-])([A-Za-z_][\w'-]*₀?)(?![\w'₀-])", lambda w: table.get(w[1], w[1]), body)
        inv_out.append(f"{lead}abbrev pub {kind}-{new} : goal.{kind}-{new}\n{unfolds}{kind}-{new} l =" + ("\n    " if "\n" in body else " ") + body)

    inv_text, ans_text = "\n\n".join(inv_out), "\n\n".join(out)
    in_inv = [h for h in helpers if re.search(r"(?<![\w'-])" + re.escape(re.match(r"(?:abbrev |pub |unfoldable )*(\S+)", re.sub(r"(?m)^--.*\n", "", h))[1]) + r"(?![\w'-])", inv_text)]
    in_ans = [h for h in helpers if h not in in_inv]
    os.remove(path)
    made = []
    if inv_out:
        lines = [*uses, f"use {module}.Given as goal"]
        write(f"{folder}/Invariants.antt", "\n".join(lines) + "\n\n" + "\n\n".join([*in_inv, inv_text]) + "\n")
        made.append("Invariants")
    if out:
        lines = [*uses, f"use {module}.Goals as goal"]
        if arms:
            lines.append(f"use {module}.Goals.{{{', '.join(sorted(arms))}}}")
        write(f"{folder}/Answers.antt", "\n".join(lines) + "\n\n" + "\n\n".join([*in_ans, ans_text]) + "\n")
        made.append("Answers")
    if in_inv and out:
        log.append(f"{path}: helpers of the invariants: {[h.split()[0:3] for h in in_inv]}")


def write(path, text):
    with open(path, "w", encoding="utf-8") as f:
        f.write(text)


def main(argv):
    said = {}
    for file in argv[:1]:
        said.update(json.load(open(file)))
    log = []
    for crate in argv[1:]:
        top = f"crates/{crate}/proofs"
        for folder, dirs, files in sorted(os.walk(top)):
            if "Proof.antt" not in files:
                continue
            text = open(f"{folder}/Proof.antt", encoding="utf-8").read()
            if "tie.close" not in text:
                log.append(f"{folder}: by hand")
                continue
            inner = ".".join(os.path.relpath(folder, top).split("/"))
            key = f"Rattle-{crate}-proofs.{inner}.Lts"
            if key not in said:
                log.append(f"{folder}: no names for {key}")
                continue
            turn(folder, f"Rattle.{crate}.proofs.{inner}", said[key], log)
    print("\n".join(log))


main(sys.argv[1:])
