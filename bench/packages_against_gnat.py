#!/usr/bin/env python3
"""Compares what `gnatprove prove` refuses with what GNAT does: bench/packages_against_gnat.py [-n COUNT] [-s SEED] [-c CHANGES] [-k FOLDER] PROGRAM

PROGRAM is the built gnatprove. From each number a program is made (made_programs.py): GNAT has to accept it (`gcc -c -gnatc
-gnat2012`), and so has the program. Then something in its text is changed, a name, an operator, a number, an argument, a mode, a line
or a token, and both are asked again: what one refuses the other has to refuse, but for the differences of the profile, which are
listed below, each with the reason. It is no part of the gate, and passes over where GNAT isn't there. With -k the programs on which
the two differ are kept in a folder.

In place of PROGRAM, `--write FILE` writes the programs as cases of `prove_cases`, a line each, and `--answers FILE` reads what that
program answered to them, so that a program can be tried that isn't proved yet."""

import argparse
import os
import random
import re
import shutil
import signal
import subprocess
import sys
import tempfile
from collections import Counter
from concurrent.futures import ThreadPoolExecutor

from made_programs import changed, program_of


class NoAnswer(Exception):
    """GNAT doesn't end on some wrong programs, and can't hold some values."""


def in_folder(text):
    folder = tempfile.mkdtemp()
    for name, body in text.items():
        with open(f"{folder}/{name}", "w") as file:
            file.write(body)
    return folder


def gnat(text, keep=None):
    """GNAT's errors."""
    folder = in_folder(text)
    bodies = [n for n in text if n.endswith(".adb")]
    child = subprocess.Popen(["gcc", "-c", "-gnatc", "-gnat2012", "-gnatws", "-gnatj0", *bodies], cwd=folder, stdout=subprocess.DEVNULL, stderr=subprocess.PIPE, text=True, start_new_session=True)
    try:
        _, err = child.communicate(timeout=20)
    except subprocess.TimeoutExpired:
        os.killpg(child.pid, signal.SIGKILL)
        child.communicate()
        raise NoAnswer from None
    finally:
        if keep:
            shutil.copytree(folder, keep, dirs_exist_ok=True)
        shutil.rmtree(folder)
    errors = [l for l in err.splitlines() if re.match(r"\S+:\d+:\d+: ", l) and "warning:" not in l]
    if any("capacity exceeded" in e for e in errors):
        raise NoAnswer
    return errors or ([err.strip() or "refused"] if child.returncode else [])


def program(path, text):
    """The line that the program writes."""
    folder = in_folder(text)
    run = subprocess.run([path, "prove", *text], cwd=folder, capture_output=True, text=True, timeout=60)
    shutil.rmtree(folder)
    said = (run.stdout or run.stderr).strip().splitlines()
    return said[0] if said else f"status {run.returncode}"


def case_of(text):
    """The line of `prove_cases` that runs the program on these files."""
    quoted = [re.sub(r'[\\"{}]', lambda m: "\\" + m.group(), body).replace("\n", "\\n") for body in text.values()]
    files = " ".join(f'{name} "{body}"' for name, body in zip(text, quoted))
    return f'run "prove {" ".join(text)}" {files} "" "" 1048576\n'


def programs(args):
    """Each program and its changes: how it is called, and its files."""
    for seed in range(args.s, args.s + args.n):
        whole = program_of(seed)
        yield f"{seed}/0", whole
        for turn in range(1, args.c + 1):
            yield f"{seed}/{turn}", changed(whole, random.Random(seed * 1000 + turn))


# What the program refuses and GNAT accepts in a changed program, by design. A whole program is to be accepted.
BY_DESIGN = {
    "Unexpected": "the grammar leaves it out: arrays of two indexes, bars in aggregates, block statements",
    "Overloaded": "no overloading",
    "LeftOut": "constructs that the profile leaves out",
    "TooDeep": "at most 200 levels",
    "TooWide": "static values have 128 bits",
    "L4": "no logical operators of modular types and of arrays",
    "L5": "equality of arrays of one constrained subtype",
    "L6": "no order of arrays or of Boolean",
    "L7": "no value as the choice of a membership, and none of Boolean",
    "L8": "arrays of one constrained subtype",
    "L11": "arrays of one constrained subtype",
    "L13": "the statements of a function end with return",
    "L16": "the lengths of aggregates, of which GNAT only warns",
    "L17": "aggregates of arrays where a constrained subtype is known",
    "L18": "no conversion of arrays",
    "L19": "no attributes of Boolean, no 'Range of a scalar subtype, no 'Pos and 'Val of numbers, no 'Succ and 'Pred of modular types",
    "L20": "bounds are static, in order, within the parent; nothing of Boolean",
    "L21": "no selector of Boolean; a loop's parameter has the subtype that its range names, else its type",
    "L22": "no range of Boolean",
    "L23": "no range of Boolean",
    "L25": "invariants and a variant are neighbours, and a variant is an integer",
    "L26": "branches that are arrays have one constrained subtype",
    "L27": "static initial values in packages; no out parameter of an unconstrained array",
    "L29": "a number without a type, as 7 + 7, is a number until it meets one",
    "L30": "Global has variables of packages alone",
}

# What GNAT refuses and the program accepts, by design, by GNAT's words
GNAT_ALONE = [
    (r"value not in range of|static expression fails Constraint_Check", "a static value in its base range is given to a subtype, or converted: a range check that fails"),
    (r"(minimum|maximum) allowed choice value", "a loop's parameter has the subtype that its range names, else its type"),
    (r"\(inherited\)", "a derived type has no subprograms of its parent"),
    (r"operator for .* is not directly visible", "operators are visible wherever their type is named"),
]


def sorted_out(whole, errors, said):
    """What the two answers are to one another; those that begin with ! are for a reader."""
    found = re.match(r"(\S+?):(\d+):(\d+): error: (\w+)$", said)
    if not found:
        return f"! no answer: {said[:60]}"
    code = found.group(4)
    if code == "NotBuilt":
        if not errors:
            return "both accept"
        if whole:
            return "! GNAT refuses what was made to be accepted"
        reasons = [reason for words, reason in GNAT_ALONE if any(re.search(words, e) for e in errors)]
        return f"by design, GNAT alone: {reasons[0]}" if reasons else "! GNAT alone refuses"
    if errors:
        return "both refuse" if not whole else "! both refuse what was made to be accepted"
    reason = None if whole else BY_DESIGN.get(code)
    return f"by design, {code}: {reason}" if reason else f"! the program alone refuses: {code}"


def judged(args, label, text, said):
    try:
        errors = gnat(text)
        verdict = sorted_out(label.endswith("/0"), errors, said)
    except NoAnswer:
        return label, "passed over: GNAT has no answer", [], said
    if args.k and verdict.startswith("!"):
        shutil.copytree(in_folder(text), f"{args.k}/{label.replace('/', '_')}", dirs_exist_ok=True)
    return label, verdict, errors, said


def shown(text, message):
    """The line of a text that a message stands at."""
    found = re.match(r"(\S+?):(\d+):(\d+): ", message)
    lines = text.get(found.group(1), "").split("\n") if found else []
    return lines[int(found.group(2)) - 1].strip() if found and int(found.group(2)) <= len(lines) else ""


def main():
    asked = argparse.ArgumentParser()
    asked.add_argument("-n", type=int, default=1000)
    asked.add_argument("-s", type=int, default=1)
    asked.add_argument("-c", type=int, default=1, help="changes of each program")
    asked.add_argument("-k", help="a folder for the programs on which the two differ")
    asked.add_argument("-j", type=int, default=1, help="how many are judged side by side")
    asked.add_argument("-v", action="store_true", help="also tells the programs on which the two differ by design")
    asked.add_argument("--write", help="a file for the programs, as cases")
    asked.add_argument("--answers", help="a file of the answers to them")
    asked.add_argument("program", nargs="?")
    args = asked.parse_args()
    if args.write:
        with open(args.write, "w") as file:
            file.writelines(case_of(text) for _, text in programs(args))
        return 0
    if shutil.which("gcc") is None or subprocess.run(["gcc", "-print-prog-name=gnat1"], capture_output=True, text=True).stdout.strip() == "gnat1":
        print("passed over: GNAT isn't there")
        return 0
    if args.answers:
        lines = open(args.answers).read().splitlines()
        # a report has lines of its own, of which the first is taken
        said = [re.match(r'\w+ \d+ "(.*?)(?:\\n.*)?"$', l).group(1) if l.startswith(("Refused", "Proved", "Unproved")) else l for l in lines]
        asked_of = [(label, text, answer) for (label, text), answer in zip(programs(args), said)]
    else:
        path = os.path.abspath(args.program)
        asked_of = ((label, text, program(path, text)) for label, text in programs(args))
    counts = Counter()
    with ThreadPoolExecutor(args.j) as pool:
        for (label, text, _), (_, verdict, errors, said) in zip(*(lambda all_: (all_, pool.map(lambda a: judged(args, *a), all_)))(list(asked_of))):
            counts["whole" if label.endswith("/0") else "changed", verdict] += 1
            if verdict.startswith("!") or args.v and verdict.startswith("by"):
                print(f"{label}: {verdict}")
                for message in errors[:2] + [said]:
                    print(f"    {message} | {shown(text, message)[:150]}")
    for (kind, verdict), n in sorted(counts.items()):
        print(f"{n:6} {kind}: {verdict}")
    return any(v.startswith("!") for _, v in counts)


if __name__ == "__main__":
    sys.exit(main())
