#!/usr/bin/env python3
"""What `gnatprove prove` costs on a program of nearly a mebibyte with 5,000 subprograms in 10 files, and on an eighth, a quarter and a
half of it, beside `gcc -c -gnatc` on the same files: bench/programs.py PROGRAM [RUNS]

PROGRAM is the built gnatprove. The files are five packages, each with its body, with types, records, arrays, constants, aggregates,
contracts, loops with invariants, case statements, if-expressions, attributes, quantifiers, conversions and calls. The program reads
them, finds what each name stands for, types them and ends with NotBuilt. Times are processor seconds, the least of RUNS runs (5);
memory is the greatest resident size, also for each token. What is wanted: at most 3 times GNAT's time, less than 1 KiB a token, and
from an eighth to the whole at most 8 times the time, but for a logarithm. It is no part of the gate; without GNAT its times are left
out, and so is what is wanted of them."""

import math
import os
import re
import resource
import shutil
import subprocess
import sys
import tempfile

PACKAGES = 5

HEAD = """package {name} is
   type Color is (Red, Green, Blue);
   type Small is range 0 .. 100;
   subtype Index is Integer range 1 .. 8;
   type Vec is array (Index) of Integer;
   type Pair is record A : Integer; B : Vec; C : Color; end record;
   type Open is array (Positive range <>) of Small;
   Limit : constant Integer := {number};
   Zero : constant Pair := (1, (1 => 2, others => 0), Red);
   G : Integer := Limit + 1;
"""

# a subprogram: what stands in the specification, and in the body
FORMS = [
    ("procedure S{i} (N : Index; V : in out Vec)", " with Pre => V (N) < 9", "for I in Index loop V (I) := V (N) mod 7; pragma Loop_Invariant (V (I) < 9); end loop;"),
    ("function S{i} (X : Integer) return Boolean", "", "return X > G and then (if X = 1 then G in Index else G < 4);"),
    ("procedure S{i} (R : in out Pair)", "", "case R.C is when Red => R.B (1) := R.A; when others => R := (1, Zero.B, Blue); end case;"),
    ("procedure S{i} (A : Open; X : out Small)", "", "X := 3; for I in A'Range loop exit when A (I) = X; X := A (I) / 2; end loop;"),
    ("procedure S{i} (X, Y : in out Integer)", " with Post => X = Y'Old", "if X > Y then Y := Limit; elsif S{b} (X + 1) then S{p} (Y, X); end if;"),
    ("procedure S{i} (V : Vec; X : in out Small)", "", "pragma Assert (for all I in Index => V (I) > 0); X := Small (V'Last - 4 + Color'Pos (Green));"),
]


def files_of(subprograms, size):
    """The files of a program with so many subprograms, and of nearly so many bytes."""
    each, files = subprograms // PACKAGES, {}
    for p in range(PACKAGES):
        name, spec, body = f"Part_{p}", [], []
        for i in range(each):
            heading, aspect, statements = FORMS[i % len(FORMS)]
            # the function and the procedure of this form that stand before
            names = {"i": i, "b": i - 3, "p": max(4, i - 6)}
            heading, statements = heading.format(**names), statements.format(**names)
            spec.append(f"   {heading}{aspect};")
            body += [f"   {heading} is begin", f"      {statements}", "   end;"]
        files[f"part_{p}.ads"] = HEAD.format(name=name, number=p + 1) + "\n".join(spec) + f"\nend {name};\n"
        files[f"part_{p}.adb"] = f"package body {name} is\n" + "\n".join(body) + f"\nend {name};\n"
    room = size - sum(len(t) for t in files.values())
    if room < 0:
        sys.exit(f"{-room} bytes too many")
    files["part_0.adb"] += ("-- " + "x" * 60 + "\n") * (room // 64)
    return files


def least(runs, command, folder):
    """The least processor seconds of so many runs, the greatest resident size in KiB, and what was said."""
    best, most, said = math.inf, 0, ""
    for _ in range(runs):
        with tempfile.TemporaryFile() as out:
            child = subprocess.Popen(command, cwd=folder, stdout=out, stderr=subprocess.STDOUT)
            _, status, used = os.wait4(child.pid, 0)
            child.returncode = os.waitstatus_to_exitcode(status)
            out.seek(0)
            said = out.read().decode("latin-1").strip()
        best, most = min(best, used.ru_utime + used.ru_stime), max(most, used.ru_maxrss)
    return best, most, said


def main():
    program, runs = os.path.abspath(sys.argv[1]), int(sys.argv[2]) if len(sys.argv) > 2 else 5
    with_gnat = shutil.which("gcc") is not None and subprocess.run(["gcc", "-print-prog-name=gnat1"], capture_output=True, text=True).stdout.strip() != "gnat1"
    wrong, first = [], None
    for part in (8, 4, 2, 1):
        size = 1048576 // part
        files = files_of(5000 // part, size)
        folder = tempfile.mkdtemp()
        for name, text in files.items():
            open(f"{folder}/{name}", "w").write(text)
        names = sorted(files)
        tokens = sum(len(re.findall(r"\w+|:=|=>|\.\.|[^\s\w]", re.sub("--.*", "", text))) for text in files.values())
        took, memory, said = least(runs, [program, "prove", *names], folder)
        first = first or took
        line = f"{size:8} bytes {5000 // part:5} subprograms {tokens:7} tokens: {took:6.3f} s, {memory} KiB, {1024 * memory // tokens} bytes a token"
        if with_gnat:
            bodies = [n for n in names if n.endswith(".adb")]
            answers = [least(runs, ["gcc", "-c", "-gnatc", "-gnat2012", "-gnatws", n], folder) for n in bodies]
            other = sum(a[0] for a in answers)
            line += f"; GNAT {other:6.3f} s, {took / other:.2f} times that"
            if any(a[2] for a in answers):
                wrong.append(f"GNAT refuses: {[a[2] for a in answers if a[2]][0][:200]}")
            if part == 1 and took > 3 * other:
                wrong.append("more than 3 times GNAT's time")
        print(line, said, flush=True)
        if not said.endswith("error: NotBuilt"):
            wrong.append(f"the program says {said}")
        if memory > tokens:
            wrong.append("more than 1 KiB a token")
        if took > 8 / part * first * math.log2(size) / 17 * 1.2:
            wrong.append("grows faster than n log n")
        shutil.rmtree(folder)
    for line in wrong:
        print("!", line)
    return bool(wrong)


if __name__ == "__main__":
    sys.exit(main())
