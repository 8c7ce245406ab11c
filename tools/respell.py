#!/usr/bin/env python3
"""Respells the repository's own definitions and lemmas: lower camel case becomes snake case.

usage: python3 tools/respell.py        at the top of a repository that the kit's port.py has turned, once

It goes over each .antt, .rt and .edit file below crates/. A name is respelled if it stands in an .antt file there; code has none of
this form. Before that it gives other names to locals that would fall together with a definition (LOCALS), and renames a module whose
name Rattle now makes itself (MODULES). It ends by laying the files out.
"""

import os
import re
import subprocess

TOKEN = re.compile(r"(?<![0-9A-Za-z_'])[a-z][A-Za-z0-9_']*")
CAMEL = re.compile(r"[a-z][a-z0-9']*[A-Z][A-Za-z0-9']*$")
# Helpers inside a proof whose names fall together with that of the definition that they speak of, once it is respelled.
LOCALS = {
    "crates/last_request/proofs/Controls.antt": {"by_form": "over_form"},
    "crates/last_request/proofs/ReplyLaws.antt": {"by_form": "over_form"},
    "crates/transport/proofs/Repeated.antt": {"goes_on": "heard_more"},
    "crates/book/proofs/Places.antt": {"hold_at": "held_place"},
    "crates/book/proofs/Step.antt": {"on_effect": "over_effect"},
    "crates/operate_safety/proofs/Steps.antt": {"on_effect": "over_effect"},
    "crates/fragments/proofs/PartLaws.antt": {"wait_by": "wait_told"},
    "crates/outstation/proofs/StepLaws.antt": {"whole_by": "over_whole"},
}
# Rattle makes a module `contracts` of its own.
MODULES = [("outstation", "Contracts", "CallContracts")]


def snake(word):
    word = re.sub(r"(?<=[a-z0-9'])([A-Z])", lambda m: "_" + m.group(1).lower(), word)
    return re.sub(r"(?<=_[a-z])([A-Z])", lambda m: "_" + m.group(1).lower(), word)


def files():
    for folder, dirs, names in os.walk("crates"):
        dirs[:] = sorted(d for d in dirs if d != "out")
        for name in sorted(names):
            if name.endswith((".antt", ".rt", ".edit")):
                yield os.path.join(folder, name)


def read(path):
    with open(path, encoding="utf-8") as f:
        return f.read()


def main():
    texts = {p: read(p) for p in files()}
    camel = {w for p, t in texts.items() if p.endswith(".antt") for w in TOKEN.findall(t) if CAMEL.match(w)}
    for path, text in texts.items():
        local = LOCALS.get(path, {})
        new = TOKEN.sub(lambda m: local.get(m.group(0), m.group(0)), text)
        new = TOKEN.sub(lambda m: snake(m.group(0)) if m.group(0) in camel else m.group(0), new)
        for crate, old, to in MODULES:
            new = re.sub(rf"\bRattle\.{crate}\.specs\.{old}\b", f"Rattle.{crate}.specs.{to}", new)
            if path == f"crates/{crate}/specs/Lib.antt":
                new = re.sub(rf"(?m)^(pub mod ){old}$", rf"\g<1>{to}", new)
        if new != text:
            with open(path, "w", encoding="utf-8") as f:
                f.write(new)
    for crate, old, to in MODULES:
        if os.path.exists(f"crates/{crate}/specs/{old}.antt"):
            os.rename(f"crates/{crate}/specs/{old}.antt", f"crates/{crate}/specs/{to}.antt")
    for crate in sorted(os.listdir("crates")):
        if os.path.isdir(os.path.join("crates", crate, "src")):
            subprocess.run(["rt", "fmt"], cwd=os.path.join("crates", crate), stdout=subprocess.DEVNULL, check=False)


main()
