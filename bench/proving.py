#!/usr/bin/env python3
"""Prints which parts of a crate's proof take longest, in seconds: bench/proving.py NAME [--test]

The libraries below the crate are to be built, as `rt check` or `rt ci` leaves them. It is no part of the gate, and gives no
verdict. `Lts` is a function's code as the proof sees it, `Proof` its clauses as they were proved, and a module of `proofs` its
lemmas. A value of a large enum makes the `Lts` of a function long at each place where it is dropped; a box or a list of such
values doesn't."""

import os
import subprocess
import sys
import tempfile

TOP = os.path.dirname(os.path.dirname(os.path.abspath(__file__)))


def libraries(name):
    """The libraries of a crate by its line of crates.txt, lowest first."""
    with open(f"{TOP}/crates.txt", encoding="utf-8") as lines:
        for line in lines:
            if line.startswith(f"{name}:"):
                return line.split(":", 1)[1].split()
    sys.exit(f"{name}: no line of crates.txt names it")


def command(kit, name, work, more):
    root = "src/lib.rt" if os.path.isfile(f"{TOP}/crates/{name}/src/lib.rt") else "src/main.rt"
    words = [f"{kit}/bin/rattle", "check", "--crate-name", name, root]
    kits = f"{kit}/rlibs"
    for it in ["std", *libraries(name)]:
        own = f"{TOP}/crates/{it}/out/rlib"
        at = own if os.path.isdir(f"{own}/{it}.rlib") else kits
        words += ["--extern", f"{it}={at}/{it}.rlib", "-L", f"dependency={at}"]
    words += ["-L", f"dependency={kits}", "--antt-project", f"{kit}/rattle/logic/antt-project.json"]
    return [*words, "--logic-built", f"{kit}/logic_built", "--links", f"{name}=", "--jobs", "1", "--incremental", work, *more]


def main(name, *more):
    kit = os.path.dirname(subprocess.run(["rt", "doc"], capture_output=True, text=True, check=True).stdout.strip())
    with tempfile.TemporaryDirectory() as work:
        done = subprocess.run(command(kit, name, work, more), cwd=f"{TOP}/crates/{name}", stdout=subprocess.PIPE, stderr=subprocess.STDOUT, text=True)
        files = sorted((os.stat(f"{at}/{it}").st_mtime, it) for at, _, names in os.walk(work) for it in names)
    steps = [(now - before, it.removesuffix(".oantt")) for (before, _), (now, it) in zip(files, files[1:])]
    for seconds, part in sorted(steps, reverse=True)[:40]:
        print(f"{seconds:8.2f} {part}")
    print(done.stdout.strip().splitlines()[-1])


if __name__ == "__main__":
    if len(sys.argv) < 2:
        sys.exit(__doc__)
    main(*sys.argv[1:])
