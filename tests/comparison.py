"""Shared by `compare` and `faults`: the scripts, running them, finding the first difference."""

import os
import re
import shutil
import subprocess
import sys
import threading

import cuttings
import longlines
import repeats

HERE = os.path.dirname(os.path.abspath(__file__))
ROOT = os.path.dirname(HERE)
REFERENCE = os.path.join(ROOT, "reference")
TARGET = os.path.join(REFERENCE, "target")

GROUPS = ["line", "station", "readings", "fragments"]

# Groups with scripts that are made together with their answers.
MAKERS = {"line": cuttings, "station": repeats}

# Random scripts for each group: seeds and lines. `all` mixes the calls of every group and is run
# only when every group is.
SEEDS = {
    "line": (range(1, 31), 4000),
    "station": (range(1, 41), 4000),
    "readings": (range(1, 81), 4000),
    "fragments": (range(1, 161), 4000),
    "all": (range(1, 61), 4000),
}

# A program that has not answered one script after so many seconds has failed.
TIMEOUT = 60

LINE = longlines.LINE


def build():
    """Builds the reference; returns the paths of its two programs."""
    command = ["cargo", "build", "--release", "--offline", "--quiet",
               "--manifest-path", os.path.join(REFERENCE, "Cargo.toml"), "--target-dir", TARGET]
    if subprocess.run(command).returncode != 0:
        sys.exit("the reference does not build")
    return tuple(os.path.join(TARGET, "release", name) for name in ("reference", "generate"))


def arguments():
    """PROGRAM and the groups, from the command line."""
    words = sys.argv[1:]
    if not words or any(word not in GROUPS for word in words[1:]):
        sys.exit(f"usage: {os.path.basename(sys.argv[0])} PROGRAM [{'|'.join(GROUPS)}]...")
    program = shutil.which(words[0])
    if program is None:
        sys.exit(f"no program {words[0]}")
    return os.path.abspath(program), words[1:] or GROUPS


class Script:
    """A fixed script, or a random one that is made when it is needed and then removed.

    `piece`: the program reads it in pieces of so many bytes.
    """

    def __init__(self, name, path, stored=None, words=None, piece=None):
        self.name, self.path, self.stored, self.words = name, path, stored, words
        self.piece = piece

    def make(self, generate):
        if self.words is not None:
            with open(self.path, "wb") as out:
                subprocess.run([generate] + self.words, stdout=out, check=True)

    def remove(self):
        if self.words is not None:
            os.remove(self.path)


def made(maker, directory):
    """The scripts of a maker, written to the directory with their answers."""
    for number, (name, text, answers) in enumerate(maker.scripts(), 1):
        path = os.path.join(directory, f"{maker.__name__}-{number}.script")
        stored = path[:-len("script")] + "answers"
        for target, content in ((path, text), (stored, answers)):
            with open(target, "w", encoding="ascii") as out:
                out.write(content)
        yield Script(f"{maker.__name__}: {name}", path, stored)


def in_pieces(directory):
    """The script of long lines, written to the directory with its answers, for each piece."""
    path = os.path.join(directory, "longlines.script")
    stored = path[:-len("script")] + "answers"
    for target, content in zip((path, stored), longlines.script()):
        with open(target, "wb") as out:
            out.write(content)
    for piece in longlines.PIECES:
        yield Script(f"longlines: {piece} at once", path, stored, piece=piece)


def scripts(groups, directory):
    """Every script of the groups, the fixed ones first."""
    found = []
    for group in groups:
        folder = os.path.join(HERE, group)
        for name in sorted(os.listdir(folder)):
            if name.endswith(".script"):
                path = os.path.join(folder, name)
                answers = path[:-len("script")] + "answers"
                stored = answers if os.path.exists(answers) else None
                found.append(Script(f"tests/{group}/{name}", path, stored))
        if group in MAKERS:
            found.extend(made(MAKERS[group], directory))
        if group == "line":
            found.extend(in_pieces(directory))
    for kind in list(groups) + (["all"] if set(groups) == set(GROUPS) else []):
        seeds, lines = SEEDS[kind]
        for seed in seeds:
            words = [kind, str(seed), str(lines)]
            path = os.path.join(directory, "-".join(words) + ".script")
            found.append(Script("generate " + " ".join(words), path, words=words))
    return found


def run_from(program, script, fault=None):
    """The program's answers to what an open file gives, as `run`."""
    environment = {name: value for name, value in os.environ.items() if name != "REFERENCE_FAULT"}
    if fault is not None:
        environment["REFERENCE_FAULT"] = fault
    try:
        done = subprocess.run([program], stdin=script, stdout=subprocess.PIPE,
                              stderr=subprocess.PIPE, env=environment, timeout=TIMEOUT)
    except subprocess.TimeoutExpired:
        return b"", f"no end after {TIMEOUT} s"
    except OSError as error:
        return b"", str(error)
    if done.returncode != 0:
        last = done.stderr.decode("utf-8", "replace").strip().split("\n")[-1]
        return done.stdout, f"ended with {done.returncode} {last}"
    return done.stdout, None


def feed(text, piece, pipe):
    """Writes the text in pieces, each of which one read gives."""
    try:
        for start in range(0, len(text), piece):
            os.write(pipe, text[start:start + piece])
    except OSError:
        pass  # The program has ended; its status tells.
    finally:
        os.close(pipe)


def run_in_pieces(program, path, piece):
    """As `run`, the script coming in pieces of so many bytes."""
    with open(path, "rb") as script:
        text = script.read()
    source, pipe = os.pipe2(os.O_DIRECT | os.O_CLOEXEC)
    feeder = threading.Thread(target=feed, args=(text, piece, pipe))
    feeder.start()
    with os.fdopen(source, "rb") as script:
        done = run_from(program, script)
    feeder.join()
    return done


def run(program, path, fault=None):
    """The program's answers to a script, as bytes, and why it did not end well, or None."""
    with open(path, "rb") as script:
        return run_from(program, script, fault)


def short(text, most=160):
    text = re.sub(r"[^ -~]", "?", text.decode("latin-1"))
    return text if len(text) <= most else f"{text[:most]}... ({len(text)} bytes)"


def difference(path, program, other, name):
    """Where two programs' answers first differ, in one line; None if nowhere."""
    if program == other:
        return None
    with open(path, "rb") as script:
        lines = script.read().split(b"\n")
    calls = [(number, line) for number, line in enumerate(lines, 1)
             if len(line) > LINE or (line and not line.startswith(b"#"))]
    ours, theirs = program.split(b"\n"), other.split(b"\n")
    for place in range(max(len(ours), len(theirs))):
        mine = ours[place] if place < len(ours) else b"(nothing)"
        his = theirs[place] if place < len(theirs) else b"(nothing)"
        if mine != his:
            number, call = calls[place] if place < len(calls) else (len(lines), b"(end)")
            # Long answers: begin shortly before the first byte that differs.
            same = len(os.path.commonprefix([mine, his]))
            cut = max(0, same - 40)
            mark = f"[from byte {cut}] " if cut else ""
            return (f"line {number}: {short(call)} / program says {mark}{short(mine[cut:])}"
                    f" / {name} says {mark}{short(his[cut:])}")
    return "answers differ in their ends only"
