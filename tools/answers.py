#!/usr/bin/env python3
"""Turns each Proof.antt that answers a function's `Tie` into Invariants.antt and Answers.antt.

usage: python3 tools/answers.py NAMES.json crates/NAME        at the top, behind port.py and tools/respell.py

NAMES.json is the list that `rt names DIR` writes for the crate. It has each goal, step and place under its old name and its new one. An
answer's record has every step before the goal today, so a path `c.before.before.load.ensures` becomes `c.load-p.ensures`, and a place that is
passed to a law becomes `(goal.at.GOAL c).PLACE`. Answers that only name a tactic are left to the check. For each file it prints `ok` or why it
left it as it is; what it did not get right, the check says.
"""

import glob
import json
import os
import re
import sys

WORD = r"[^\s(){}.;,@\"«»\[\]\\]+"
NOT_INSIDE = r"(?<![\w'₀-₉.-])"
# What the check finds without an answer.
LEFT_TO_THE_CHECK = ("search rules", "search (rules)", "omega arith", "refl")


def plain(name):
    """An old name may have dashes where the list has underscores."""
    return re.sub("[-_]+", "-", name)


def mutables():
    """The `&mut` parameters of each function of the repository, in order: its last values had numbers, and have names now."""
    found = {}
    for path in glob.glob("crates/*/src/**/*.rt", recursive=True):
        crate = path.split("/")[1]
        with open(path, encoding="utf-8") as f:
            text = f.read()
        for m in re.finditer(r"fn (\w+)(?:<[^>]*>)?\((.*?)\)\s*(?:->|requires|ensures|\{|where)", text, re.S):
            found[f"{crate}::{m.group(1)}"] = re.findall(r"(\w+): &(?:'\w+ )?mut", m.group(2))
    return found


class Names:
    """What the list says of one function."""

    def __init__(self, of, mutable):
        self.goals = [new for _, new in of["needs"]]
        self.asked = [plain(old) for old, _ in of["asked_at"]]
        self.loops = {plain(old): (new, live, changed) for ((old, new), live), changed in zip(of["loops"], of["changed"])}
        self.args = [(old.split()[-1], new.split()[-1]) for old, new in of["args"]]
        self.mutable = mutable
        rows = list(zip(of["places"], of["arms"], of["places_by_name"]))
        self.parent = {plain(row[0]): row[1] and plain(row[1]) for row, _, _ in rows}
        self.place = {plain(row[0]): name for row, _, name in rows}
        # An arm is told in several places: the last has all that it tells.
        last = {arm[0]: name for _, arm, name in rows if arm}
        self.whole = {name: last[arm[0]] for _, arm, name in rows if arm}
        self.steps = {plain(row[2][0]): row[2][1] for row, _, _ in rows if row[2][0]}
        self.steps.update({old: new for old, (new, _, _) in self.loops.items()})
        self.called = {plain(row[2][0]): row[3] for row, _, _ in rows if row[3]}
        # Fields of a step that have other names.
        self.inner = {}
        for row, _, _ in rows:
            for old, new in row[4]:
                self.inner.setdefault((plain(row[2][0]), plain(old)), set()).add(new)
        # The slice that a step told of: its numbers fit, which the goal's `type_inv` says now.
        self.slices = {plain(step): name for told in of["typed"] for name, step in told if "slice-known" in plain(step)}
        self.told, self.keyed = {}, {}
        for row, arm, _ in rows:
            if arm:
                self.arm(row[0], arm)

    def arm(self, place, arm):
        """What an arm tells, by its old path; the number of its variant, by the arm's."""
        for new, step, path in arm[2]:
            if path or not plain(step).startswith("match"):
                self.told[plain(step), ".".join(path)] = f"{arm[0]}.{new}"
        m = re.match(r"At-(match\d*)-(.*)$", place)
        if m:
            own = [new for new, step, path in arm[2] if not path and plain(step) == plain(m.group(1))]
            self.keyed[plain(m.group(1)), m.group(2)] = f"{arm[0]}.{own[0]}" if own else None

    def up(self, place, count):
        for _ in range(count):
            place = place and self.parent.get(place)
        return place

    def full(self, place):
        name = self.place.get(place, place)
        return self.whole.get(name, name)

    def path(self, path, notes):
        """Today's path for an old one, from the record on: `.STEP.FIELD..`."""
        parts = [it.replace("type-inv", "type_inv") for it in path[1:].split(".")]
        step = plain(parts[0])
        if step not in self.steps and step.endswith("-lem"):
            step, parts[0] = step[:-4], parts[0][:-4]
        if len(parts) > 1 and self.keyed.get((step, parts[1])):
            return ".".join(["", self.keyed[step, parts[1]], *parts[1:]])
        for end in range(len(parts), 0, -1):
            told = self.told.get((step, ".".join(parts[1:end])))
            if told:
                return ".".join(["", told, *parts[end:]])
        if len(parts) > 1 and parts[1] == "given" and step in self.slices:
            return ".".join(["", "type_inv", self.slices[step], *parts[2:]])
        return ".".join(["", *self.fields(step, parts, notes)])

    def fields(self, step, parts, notes):
        new = self.inner.get((step, plain(parts[1])), set()) if len(parts) > 1 else set()
        if len(new) == 1:
            parts[1] = min(new)
        elif new:
            notes.append(f".{'.'.join(parts)} is one of {sorted(new)}")
        lower = {old.lower(): new for old, new in self.steps.items()}
        parts[0] = self.steps.get(step) or lower.get(step.lower()) or parts[0]
        for at in range(1, len(parts)):
            if parts[at - 1] in ("args", "ranges", "new", "utf8", "initial") or (at == 1 and step in self.loops):
                parts[at] = parts[at].replace("-", "_")
        if len(parts) > 2 and parts[1] in ("new", "auto") and parts[2].isdigit():
            lent = self.mutable.get(self.called.get(step), [])
            if int(parts[2]) < len(lent):
                parts[2] = lent[int(parts[2])]
        return parts


def declared(block):
    """The name that a block declares; of a `module _` its first line; None for a comment or a part of what stands before."""
    for line in block:
        if line.startswith("module _ "):
            return "module " + line
        if not line.startswith(("--", " ")):
            m = re.match(rf"(?:(?:abbrev|unfoldable|pub|opaque)\s+)*({WORD})(?:\s+\{{[^}}]*\}})?\s*:(?=\s|$)", line)
            if m:
                return m.group(1)
    return None


def is_comment(block):
    return all(line.startswith("--") for line in block)


def parts_of(text):
    """The file's head of comments, its `use` lines and its declarations, each a list of lines."""
    head, uses, found, waiting = [], [], [], []
    for block in (part.split("\n") for part in re.split(r"\n\s*\n", text.strip("\n"))):
        name = declared(block)
        if name is None and any(line.startswith("use ") for line in block):
            head += [line for line in block if line.startswith("--")]
            uses += re.findall(r"^use .*(?:\n(?!use |--).*)*", "\n".join(block), re.M)
        elif name is not None:
            found.append(waiting + block)
            waiting = []
        elif is_comment(block) and not found:
            head += block
        elif is_comment(block):
            waiting += block
        elif found:
            found[-1] += ["", *waiting, *block]
            waiting = []
        else:
            head += block
    return head, uses, found


def spec_arguments(block):
    """The names that `tie.spec` is given, in order; None where one is a term."""
    given, depth = [], 0
    for token in re.findall(r"\(|\)|[^\s()]+", re.search(r"tie\.spec\b(.*)", "\n".join(block), re.S).group(1)):
        depth += {"(": 1, ")": -1}.get(token, 0)
        if depth < 0:
            break
        given.append(token)
    return None if "(" in given else given


class Proof:
    """One file as it is turned."""

    def __init__(self, text, names):
        self.names, self.notes, self.places = names, [], set()
        self.head, self.uses, declarations = parts_of(text)
        self.spec = next((b for b in declarations if re.search(r"tie\.spec\b", "\n".join(b)) and "statement" in "\n".join(b)), None)
        self.declarations = {declared(b): b for b in declarations if b is not self.spec}
        self.order = [declared(b) for b in declarations if b is not self.spec]
        given = self.spec and spec_arguments(self.spec)
        self.given = given or []
        self.invariants = [it for it in self.given if re.search(r":\s*tie\.(invariant|decreases)", self.text(it))]
        answers = [it for it in self.given if it not in self.invariants]
        self.refused = self.why_not(given, answers)
        if self.refused:
            return
        self.goal = dict(zip(answers, names.goals))
        self.asked = dict(zip(answers, names.asked))
        self.laws = self.places_of_laws()
        self.after_tie = r"((?:\s+(?:%s)(?![\w'-]))*)" % "|".join(map(re.escape, self.invariants)) if self.invariants else "()"

    def text(self, name):
        return "\n".join(self.declarations.get(name, []))

    def why_not(self, given, answers):
        if given is None:
            return "no `tie.spec`, or one with terms"
        if len(answers) != len(self.names.goals) or len(set(answers)) != len(answers):
            return f"{len(answers)} answers for {len(self.names.goals)} goals"
        return None

    def places_of_laws(self):
        """The place at which each law of the file that takes a record first stands."""
        found = {}
        for name in self.order:
            if name.startswith("module "):
                m = re.search(rf"\({WORD} : tie\.({WORD})", name)
                for law in re.findall(rf"(?m)^  (?:abbrev )?({WORD})(?: \{{.*\}})? :", self.text(name)) if m else []:
                    found[law] = plain(m.group(1))
            elif name not in self.goal and name not in self.invariants:
                m = re.search(rf":\s*(?:\({WORD} : )?tie\.({WORD})", self.text(name))
                if m and not m.group(1).startswith(("Need-", "invariant", "decreases")):
                    found[name] = plain(m.group(1))
        return found

    # ---- paths

    def inline(self, text, records):
        """Takes the `let`s out that only name a place or what an arm told. Returns the text; `records` gets the names."""
        while True:
            for m in re.finditer(rf"let ({WORD}) = ({WORD})((?:\.before)*)((?:\.(?!before){WORD})*) in\s*", text):
                name, of, up, rest = m.groups()
                if of not in records or name in records:
                    continue
                if not rest:
                    record, place = records[of]
                    records[name] = (record, self.names.up(place, up.count(".before")))
                    text = text[: m.start()] + text[m.end() :]
                    break
                if any(step == plain(rest.split(".")[1]) for step, _ in self.names.told):
                    cited = re.compile(rf"{NOT_INSIDE}{re.escape(name)}(?=[.\s),;]|$)")
                    text = text[: m.start()] + cited.sub(lambda _: of + up + rest, text[m.end() :])
                    break
            else:
                return text

    def flatten(self, text, records, inside):
        """Rewrites the paths from the records, a dict from name to record and place."""
        if not records:
            return text
        records = dict(records)
        text = self.inline(text, records)
        names = "|".join(re.escape(it) for it in sorted(records, key=len, reverse=True))
        path = re.compile(rf"{NOT_INSIDE}({names})((?:\.before)*)((?:\.(?!before){WORD})*)(?![\w'₀-₉-])")
        return path.sub(lambda m: self.turned(m, text, records, inside), text)

    def turned(self, m, text, records, inside):
        name, up, rest = m.groups()
        record, place = records[name]
        if rest:
            return record + self.names.path(rest, self.notes)
        place = self.names.up(place, up.count(".before"))
        law = re.search(rf"{NOT_INSIDE}({WORD})\s+\(?$", text[: m.start()])
        is_own = name == record and not up and inside in self.laws
        if law and law.group(1) in self.laws and not (is_own and records[name][1] == self.laws[law.group(1)]):
            place = self.laws[law.group(1)]
        own = records[record][1]
        if place == own:
            return record
        if place is None:
            self.notes.append(f"{inside}: {m.group(0)} leads nowhere")
            return m.group(0)
        self.places.add(self.names.full(place))
        return f"(goal.at.{self.goal.get(inside) or self.names.full(own)} {record}).{self.names.full(place)}"

    # ---- declarations

    def invariant(self, name):
        """An invariant or a measure, or why it cannot be turned: its variables are fields of `l` now."""
        kind, old = re.search(rf":\s*tie\.(invariant|decreases)-({WORD})", self.text(name)).groups()
        if plain(old) not in self.names.loops:
            return None, f"no loop {old}"
        loop, live, changed = self.names.loops[plain(old)]
        m = re.search(rf"(?ms)^(?:(?:abbrev|pub|unfoldable)\s+)*{re.escape(name)}\s*:[^\n]*\n((?:unfolding[^\n]*\n)?){re.escape(name)}((?:\s+{WORD})*)\s*=(.*)", self.text(name))
        variables = m.group(2).split() if m else []
        if len(variables) != len(live) + sum(changed):
            return None, f"{name} has {len(variables)} variables"
        fields = {v: f"l.initial.{it}" if now else f"l.{it}" for v, it, now in zip(variables, live, changed)}
        fields.update({v: f"l.{it}" for v, it in zip(variables[len(live) :], [it for it, now in zip(live, changed) if now])})
        fields.pop("_", None)
        body = re.sub(NOT_INSIDE + WORD, lambda it: fields.get(it.group(0), it.group(0)), m.group(3))
        # A field of a record literal may be named as a variable.
        body = re.sub(r"([{;]\s*)l\.(?:initial\.)?(\w+) = ", r"\1\2 = ", body)
        before = self.text(name)[: m.start()]
        return f"{before}abbrev pub {kind}-{loop} : goal.{kind}-{loop}\n{m.group(1)}{kind}-{loop} l ={body}", None

    def is_left(self, name):
        text = re.sub(r"--[^\n]*\n", "", self.text(name))
        m = re.search(rf"\n{re.escape(name)}(?:\s+{WORD})*\s*=\s*(.*)", text, re.S)
        return name in self.goal and "\nunfolding" not in text and m is not None and m.group(1).strip() in LEFT_TO_THE_CHECK

    def answer(self, name):
        text = self.text(name)
        if name in self.goal:
            goal = self.goal[name]
            text = re.sub(rf"(?m)^({re.escape(name)})\s*:\s*tie\.{WORD}{self.after_tie}", lambda _: f"pub {goal} : goal.{goal}", text)
            text = re.sub(rf"(?m)^({re.escape(name)} c) κs\b", r"\1", text)
        if name.startswith("module "):
            text = self.module(name, text)
        else:
            text = self.clause(name, text)
        text, count = re.subn(r"(?<![\w.])((?:\w+)(?:\.[\w-]+)+-own\.keys\d+)(?![\w.])", r"(opened \1)", text)
        if count and "use borrow.Enum.Refused.{opened}" not in self.uses:
            self.uses.append("use borrow.Enum.Refused.{opened}")
        text = re.sub(rf"tie\.({WORD}){self.after_tie}", self.at, text)
        for old, new in self.names.args:
            text = re.sub(re.escape(old) + r"(?![\w'₀-₉-])", new, text)
        return self.renamed(text)

    def at(self, m):
        place = self.names.full(plain(m.group(1)))
        self.places.add(place)
        return place

    def renamed(self, text):
        """The answers under their goals' names, but not in a signature that has them already."""
        if not self.goal:
            return text
        cited = re.compile(r"(?<![^\s(){};,@\[\]])(?:%s)(?![^\s(){}.;,@\[\]])" % "|".join(re.escape(it) for it in sorted(self.goal, key=len, reverse=True)))
        lines = text.split("\n")
        return "\n".join(it if it.startswith("pub ") and ": goal." in it else cited.sub(lambda m: self.goal[m.group(0)], it) for it in lines)

    def module(self, name, text):
        binders = re.findall(rf"\(({WORD}) : tie\.({WORD})", name) + re.findall(rf"(?m)^  (?:abbrev )?({WORD}) : tie\.({WORD})", text)
        records = {it: (it, plain(place)) for it, place in binders}
        parts = re.split(rf"(?m)^(?=  (?:abbrev )?{WORD}(?: \{{.*\}})? :)", text)
        return "".join(self.flatten(part, records, name) for part in parts)

    def clause(self, name, text):
        lines = text.split("\n")
        first = next(at for at, line in enumerate(lines) if not line.startswith("--"))
        at = next((at for at in range(first + 1, len(lines)) if re.match(re.escape(name) + r"(\s|$)", lines[at])), None)
        if at is None:
            return text
        signature, clause = "\n".join(lines[:at]), "\n".join(lines[at:])
        m = re.match(rf"{re.escape(name)}((?:\s+{WORD})*)\s*=", clause)
        taken = m.group(1).split() if m else []
        if name in self.goal:
            records = {taken[0]: (taken[0], self.asked[name])} if taken else {}
        else:
            binders = re.findall(rf"\(({WORD}(?: {WORD})*) : tie\.({WORD})", signature)
            records = {it: (it, plain(place)) for some, place in binders for it in some.split()}
            m = re.search(rf":\s*tie\.({WORD}){self.after_tie}\s*→", signature)
            if m and taken and not records:
                records = {taken[0]: (taken[0], plain(m.group(1)))}
        return self.flatten(signature, records, name) + "\n" + self.flatten(clause, records, name)

    # ---- files

    def imports(self, body):
        """The `use` lines with the names that the body has."""
        found = []
        for use in self.uses:
            m = re.search(r"\{(.*)\}", use, re.S)
            if ".Tie as" in use or "Statement.{statement}" in use:
                continue
            words = [it.strip() for it in m.group(1).split(",")] if m else []
            kept = [it for it in words if all(part in body for part in it.split(" as ")[-1].strip().split("◌") if part)]
            if not m:
                found.append(use)
            elif kept:
                found.append(use[: m.start()] + "{" + ", ".join(kept) + "}")
        return found

    def files(self, module):
        """The two files' texts by name, or why the proof stays as it is."""
        invariants = []
        for name in (it for it in self.order if it in self.invariants):
            text, why = self.invariant(name)
            if why:
                return {}, why
            invariants.append(text)
        answers = [self.answer(it) for it in self.order if it not in self.invariants and not self.is_left(it)]
        found, head = {}, "".join(line + "\n" for line in self.head)
        for name, parts, made in (("Invariants", invariants, "Given"), ("Answers", answers, "Goals")):
            if parts:
                body = "\n\n".join(parts)
                uses = [*self.imports(body), f"use {module}.{made} as goal"]
                if made == "Goals" and self.places:
                    uses.append(f"use {module}.Goals." + "{" + ", ".join(sorted(self.places)) + "}")
                found[name] = head + "\n".join(uses) + "\n\n" + body + "\n"
                head = ""
        return found, None


def turn(path, module, of, mutable):
    with open(path, encoding="utf-8") as f:
        proof = Proof(f.read(), Names(of, mutable))
    if proof.refused:
        return proof.refused
    found, why = proof.files(module)
    if why:
        return why
    folder = os.path.dirname(path)
    for name, text in found.items():
        with open(f"{folder}/{name}.antt", "w", encoding="utf-8") as f:
            f.write(text)
    os.remove(path)
    if not os.listdir(folder):
        os.rmdir(folder)
    return "; ".join(["ok", *proof.notes])


def main(listed, crate):
    with open(listed, encoding="utf-8") as f:
        names = json.load(f)
    name, mutable = os.path.basename(os.path.normpath(crate)), mutables()
    for path in sorted(glob.glob(crate + "/proofs/**/Proof.antt", recursive=True)):
        function = os.path.relpath(os.path.dirname(path), crate + "/proofs").replace("/", ".")
        with open(path, encoding="utf-8") as f:
            is_tie = "Tie as tie" in f.read()
        of = names.get(f"Rattle-{name}-proofs.{function}.Lts")
        said = turn(path, f"Rattle.{name}.proofs.{function}", of, mutable) if is_tie and of else "a walk by hand" if of else "no names"
        print(f"{function}: {said}")


if len(sys.argv) != 3:
    sys.exit(__doc__)
main(*sys.argv[1:])
