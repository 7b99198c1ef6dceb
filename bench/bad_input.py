#!/usr/bin/env python3
"""Gives `gnatprove prove` large, deep and broken programs: bench/bad_input.py [-n COUNT] [-o WORD] PROGRAM

PROGRAM is the built gnatprove. Each shape of input is made with a quarter of COUNT (10,000) and with COUNT of the things that it is
named by, has a known answer, and is to take no more than linear time, up to a logarithm. After them come files of each single byte,
of bytes by chance, and a program with bytes by chance in it: each has to be answered with a status and a line, within a second.
Times are processor seconds. A run may take 4 GiB. With -o only the shapes whose name has WORD are tried. In place of PROGRAM,
`--write FILE` writes them as cases of `prove_cases`, a line each. It is no part of the gate."""

import argparse
import os
import random
import re
import resource
import shutil
import subprocess
import sys
import tempfile

SHAPES = []


def shape(make):
    SHAPES.append(make)
    return make


def accepted(name):
    return f"{name}:1:1: error: NotBuilt"


def procedure(declared, statements, params=""):
    return "\n".join([f"procedure P{params} is", *declared, "begin", *statements, "end P;"]) + "\n"


def package(name, declared):
    return "\n".join([f"package {name} is", *declared, f"end {name};"]) + "\n"


# ---- many things: a function of how many gives the files and the answer


@shape
def constants_of_a_package(n):
    return {"a.ads": package("A", [f"C{i} : constant Integer := {f'C{i - 1} + 1' if i else 0};" for i in range(n)])}, accepted("a.ads")


@shape
def named_numbers(n):
    return {"a.ads": package("A", [f"N{i} : constant := {f'N{i - 1} + 1' if i else 0};" for i in range(n)])}, accepted("a.ads")


@shape
def variables_of_a_package(n):
    return {"a.ads": package("A", [f"G{i} : Integer := {i};" for i in range(n)])}, accepted("a.ads")


@shape
def names_in_one_declaration(n):
    return {"a.ads": package("A", [", ".join(f"G{i}" for i in range(n)) + " : Integer := 1;"])}, accepted("a.ads")


@shape
def locals_of_a_subprogram(n):
    return {"p.adb": procedure([f"X{i} : Integer := {f'X{i - 1}' if i else 0};" for i in range(n)], ["null;"])}, accepted("p.adb")


@shape
def types(n):
    return {"a.ads": package("A", [f"type T{i} is range 0 .. {i + 1};" for i in range(n)])}, accepted("a.ads")


@shape
def a_chain_of_subtypes(n):
    return {"a.ads": package("A", [f"subtype S{i} is {f'S{i - 1}' if i else 'Integer'};" for i in range(n)])}, accepted("a.ads")


@shape
def a_chain_of_derived_types(n):
    return {"a.ads": package("A", [f"type S{i} is new {f'S{i - 1}' if i else 'Integer'};" for i in range(n)])}, accepted("a.ads")


@shape
def array_types(n):
    return {"a.ads": package("A", [f"type S{i} is array (1 .. 9) of {f'S{i - 1}' if i else 'Integer'};" for i in range(n)])}, accepted("a.ads")


@shape
def anonymous_subtypes(n):
    return {"a.ads": package("A", [f"X{i} : Integer range 0 .. {i};" for i in range(n)])}, accepted("a.ads")


@shape
def literals_of_an_enumeration(n):
    return {"a.ads": package("A", [f"type T is ({', '.join(f'L{i}' for i in range(n))});", f"X : T := L{n - 1};"])}, accepted("a.ads")


@shape
def components_of_a_record(n):
    return {"a.ads": package("A", ["type R is record", *[f"F{i} : Integer;" for i in range(n)], "end record;"])}, accepted("a.ads")


@shape
def a_record_by_names(n):
    parts = ", ".join(f"F{i} => {i}" for i in reversed(range(n)))
    return {"a.ads": package("A", ["type R is record", *[f"F{i} : Integer;" for i in range(n)], "end record;", f"X : R := ({parts});"])}, accepted("a.ads")


@shape
def a_record_by_place(n):
    parts = ", ".join(str(i) for i in range(n))
    return {"a.ads": package("A", ["type R is record", *[f"F{i} : Integer;" for i in range(n)], "end record;", f"X : R := ({parts});"])}, accepted("a.ads")


@shape
def a_record_with_others(n):
    return {"a.ads": package("A", ["type R is record", *[f"F{i} : Integer;" for i in range(n)], "end record;", "X : R := (F0 => 1, others => 2);"])}, accepted("a.ads")


@shape
def parts_of_records(n):
    declared = ["type R is record", *[f"F{i} : Integer;" for i in range(n)], "end record;", "X : R;"]
    return {"p.adb": procedure(declared, [f"X.F{i} := X.F{n - 1 - i};" for i in range(n)])}, accepted("p.adb")


@shape
def a_record_by_names_twice(n):
    parts = ", ".join(f"F{i} => {i}" for i in [*range(n), n - 1])
    head = f"X : R := ("
    at = len(head + ", ".join(f"F{i} => {i}" for i in range(n))) + 3
    return {"a.ads": package("A", ["type R is record", *[f"F{i} : Integer;" for i in range(n)], "end record;", f"{head}{parts});"])}, f"a.ads:{n + 4}:{at}: error: L16"


@shape
def an_array_by_place(n):
    return {"a.ads": package("A", [f"type T is array (1 .. {n}) of Integer;", f"X : T := ({', '.join(str(i) for i in range(n))});"])}, accepted("a.ads")


@shape
def an_array_by_indexes(n):
    return {"a.ads": package("A", [f"type T is array (1 .. {n}) of Integer;", f"X : T := ({', '.join(f'{i} => {i}' for i in range(n, 0, -1))});"])}, accepted("a.ads")


@shape
def an_array_by_indexes_and_others(n):
    return {"a.ads": package("A", [f"type T is array (1 .. {3 * n}) of Integer;", f"X : T := ({', '.join(f'{3 * i} => {i}' for i in range(n, 0, -1))}, others => 0);"])}, accepted("a.ads")


@shape
def an_array_of_a_subprogram(n):
    return {"p.adb": procedure([f"type T is array (1 .. {n}) of Integer;", "X : T;", "Y : Integer := 1;"], [f"X := ({', '.join(f'{i} => Y' for i in range(n, 0, -1))});"])}, accepted("p.adb")


@shape
def choices_of_a_case(n):
    return {"p.adb": procedure([], ["case X is", f"when {' | '.join(str(2 * i) for i in range(n, 0, -1))} => null;", "when others => null;", "end case;"], " (X : Integer)")}, accepted("p.adb")


@shape
def alternatives_of_a_case(n):
    return {"p.adb": procedure([f"subtype S is Integer range 1 .. {n};", "Y : S := 1;"], ["case Y is", *[f"when {i} => null;" for i in range(n, 0, -1)], "end case;"])}, accepted("p.adb")


@shape
def ranges_of_a_case_of_which_the_last_is_twice(n):
    lines = ["case X is", *[f"when {10 * i} .. {10 * i + 8} => null;" for i in range(n)], f"when {10 * n - 2} => null;", "when others => null;", "end case;"]
    return {"p.adb": procedure([], lines, " (X : Integer)")}, f"p.adb:{n + 4}:6: error: L21"


@shape
def branches_of_an_if(n):
    return {"p.adb": procedure([], ["if X = 0 then null;", *[f"elsif X = {i} then null;" for i in range(n)], "end if;"], " (X : Integer)")}, accepted("p.adb")


@shape
def branches_of_an_if_expression(n):
    return {"p.adb": procedure(["Y : Integer;"], ["Y := (if X = 0 then 1", *[f"elsif X = {i} then {i}" for i in range(n)], "else 2);"], " (X : Integer)")}, accepted("p.adb")


@shape
def statements(n):
    return {"p.adb": procedure(["Y : Integer;"], ["Y := X + 1;"] * n, " (X : Integer)")}, accepted("p.adb")


@shape
def loops(n):
    return {"p.adb": procedure([], ["for I in 1 .. 3 loop pragma Loop_Invariant (I > 0); null; end loop;"] * n)}, accepted("p.adb")


@shape
def invariants_of_a_loop(n):
    return {"p.adb": procedure([], ["loop", *["pragma Loop_Invariant (X > 0);"] * n, "exit;", "end loop;"], " (X : Integer)")}, accepted("p.adb")


@shape
def quantifiers(n):
    return {"p.adb": procedure([], ["pragma Assert (for all I in 1 .. 3 => I > X);"] * n, " (X : Integer)")}, accepted("p.adb")


@shape
def parameters(n):
    params = "; ".join(f"X{i} : Integer" for i in range(n))
    actuals = ", ".join(f"X{i} => {i}" for i in reversed(range(n)))
    body = f"procedure P ({params}) is\nbegin\nnull;\nend P;\nprocedure Q is\nbegin\nP ({actuals});\nend Q;"
    return {"a.ads": "package A is\nprocedure Q;\nend A;\n", "a.adb": f"package body A is\n{body}\nend A;\n"}, accepted("a.ads")


@shape
def subprograms_that_call_one_another(n):
    spec = [f"procedure P{i} (X : in out Integer);" for i in range(n)]
    body = [f"procedure P{i} (X : in out Integer) is begin P{(7 * i + 1) % n} (X); end;" for i in range(n)]
    return {"a.ads": package("A", spec), "a.adb": package("body A", body).replace("end body", "end")}, accepted("a.ads")


@shape
def functions_in_an_expression(n):
    body = ["function F (X : Integer) return Integer is begin return X; end F;", "procedure P (X : in out Integer) is begin", *["X := F (F (F (X)));"] * n, "end P;"]
    return {"a.ads": "package A is\nprocedure P (X : in out Integer);\nend A;\n", "a.adb": package("body A", body).replace("end body", "end")}, accepted("a.ads")


@shape
def globals_of_an_aspect(n):
    spec = [f"G{i} : Integer;" for i in range(n)] + [f"procedure P with Global => (In_Out => ({', '.join(f'G{i}' for i in reversed(range(n)))}));"]
    return {"a.ads": package("A", spec), "a.adb": "package body A is\nprocedure P is begin null; end P;\nend A;\n"}, accepted("a.ads")


@shape
def selected_names(n):
    return {"a.ads": package("A", ["G : Integer := 1;"]), "p.adb": "with A;\n" + procedure(["Y : Integer;"], ["Y := A.G + A.G;"] * n)}, accepted("a.ads")


@shape
def names_by_a_use_clause(n):
    return {"a.ads": package("A", [f"C{i} : constant Integer := {i};" for i in range(n)]), "p.adb": "with A; use A;\n" + procedure(["Y : Integer;"], [f"Y := C{i};" for i in range(n)])}, accepted("a.ads")


@shape
def packages_that_with_all_before(n):
    k = max(2, 64 * n // 10000)
    files = {f"a{i}.ads": "".join(f"with A{j}; use A{j};\n" for j in range(i)) + package(f"A{i}", [f"C{i} : constant Integer := {f'A{i - 1}.C{i - 1} + C0' if i else 1};"]) for i in range(k)}
    return files, accepted("a0.ads")


@shape
def a_circle_of_packages(n):
    k = max(2, 64 * n // 10000)
    return {f"a{i}.ads": f"with A{(i + 1) % k};\n" + package(f"A{i}", []) for i in range(k)}, "a0.ads:1:6: error: WithCycle"


@shape
def a_body_with_an_error_at_the_end(n):
    return {"p.adb": procedure(["Y : Integer;"], ["Y := X + 1;"] * n + ["Y := X and X;"], " (X : Integer)")}, f"p.adb:{n + 4}:6: error: L4"


@shape
def errors(n):
    return {"p.adb": procedure(["Y : Integer;"], ["Y := X + True;"] * n, " (X : Integer)")}, "p.adb:4:10: error: L1"


@shape
def a_long_name(n):
    name = "X" * (9 * n)
    return {"p.adb": procedure([f"{name} : Integer := 1;"], [f"{name} := {name};"])}, accepted("p.adb")


@shape
def a_long_number(n):
    return {"p.adb": procedure([], [f"pragma Assert (X = {'0' * (90 * n)}1);"], " (X : Integer)")}, accepted("p.adb")


@shape
def a_name_declared_twice(n):
    return {"a.ads": package("A", [*[f"C{i} : constant Integer := {i};" for i in range(n)], "C0 : Integer;"])}, f"a.ads:{n + 2}:1: error: Duplicate"


# ---- deep things: a function of how deep gives the statement and whether it is accepted; 200 levels may be open


def deep(n, statement, level=None):
    """Levels by COUNT: as deep as may be where it is the whole of it."""
    depth = max(1, 190 * n // 10000) if level is None else level
    return {"p.adb": procedure(["Y : Integer := 1;", "B : Boolean := True;"], statement(depth), " (X : Integer)")}, accepted("p.adb")


@shape
def parentheses(n):
    return deep(n, lambda d: [f"Y := {'(' * d}X{')' * d};"])


@shape
def nested_ifs(n):
    return deep(n, lambda d: ["if B then"] * d + ["null;"] + ["end if;"] * d)


@shape
def nested_loops(n):
    return deep(n, lambda d: [f"for I{i} in 1 .. 3 loop" for i in range(d)] + ["null;"] + ["end loop;"] * d)


@shape
def nested_cases(n):
    return deep(n, lambda d: ["case X is when 1 => null; when others =>"] * d + ["null;"] + ["end case;"] * d)


@shape
def nested_if_expressions(n):
    return deep(n // 2, lambda d: [f"Y := {'(if B then ' * d}X{' else 1)' * d};"])


@shape
def nested_if_expressions_in_conditions(n):
    return deep(n // 2, lambda d: [f"B := {'(if ' * d}B{' then B else not B)' * d};"])


@shape
def nested_quantifiers(n):
    return deep(n // 2, lambda d: [f"B := {''.join(f'(for all I{i} in 1 .. 3 => ' for i in range(d))}B{')' * d};"])


@shape
def sums(n):
    return deep(n, lambda d: [f"Y := X{' + X' * d};"])


@shape
def powers_of_numbers(n):
    return deep(n, lambda d: [f"B := 1{' + 1' * d} = X;"])


@shape
def conversions(n):
    return deep(n, lambda d: [f"Y := {'Integer (' * d}X{')' * d};"])


@shape
def nested_aggregates(n):
    d = max(1, 190 * n // 10000)
    types_ = [f"type T{i} is record F : {f'T{i - 1}' if i else 'Integer'}; end record;" for i in range(d)]
    return {"p.adb": procedure([*types_, f"Y : T{d - 1} := {'(F => ' * d}1{')' * d};"], [f"Y{'.F' * d} := 1;"])}, accepted("p.adb")


@shape
def nested_array_aggregates(n):
    d = max(1, 190 * n // 10000)
    types_ = [f"type T{i} is array (1 .. 2) of {f'T{i - 1}' if i else 'Integer'};" for i in range(d)]
    return {"p.adb": procedure([*types_, f"Y : T{d - 1} := {'(others => ' * d}1{')' * d};"], [f"Y{' (1)' * d} := 1;"])}, accepted("p.adb")


@shape
def a_level_too_many(n):
    d = 200 + n
    return {"p.adb": procedure([], [f"pragma Assert ({'(' * d}X{')' * d} = 1);"], " (X : Integer)")}, "p.adb:3:215: error: TooDeep"


# ---- static values that are large


@shape
def powers(n):
    return {"a.ads": package("A", [f"N{i} : constant := 2 ** 126 - {i};" for i in range(n)])}, accepted("a.ads")


@shape
def an_array_of_many_components(n):
    return {"a.ads": package("A", [f"type T is array (1 .. {100 * n}) of Integer;", "X : constant T := (others => 1);"])}, accepted("a.ads")


# ---- runs


def limited():
    resource.setrlimit(resource.RLIMIT_AS, (4 << 30, 4 << 30))


def run(path, files):
    """The status, the first line, processor seconds and the greatest resident size in MiB of one run."""
    folder = tempfile.mkdtemp()
    for name, text in files.items():
        with open(f"{folder}/{name}", "wb") as file:
            file.write(text if isinstance(text, bytes) else text.encode())
    with tempfile.TemporaryFile() as out:
        child = subprocess.Popen([path, "prove", *files], cwd=folder, stdout=out, stderr=subprocess.STDOUT, preexec_fn=limited)
        _, status, used = os.wait4(child.pid, 0)
        child.returncode = os.waitstatus_to_exitcode(status)
        out.seek(0)
        said = out.read().decode("latin-1").splitlines()
    shutil.rmtree(folder)
    return child.returncode, said[0] if said else "", used.ru_utime + used.ru_stime, used.ru_maxrss // 1024


def case_of(files):
    """The line of `prove_cases` that runs the program on these files."""

    def quoted(text):
        shown = []
        for byte in text if isinstance(text, bytes) else text.encode():
            at = chr(byte)
            shown.append("\\n" if at == "\n" else "\\" + at if at in '\\"{}' else at if " " <= at <= "~" else f"\\x{byte:02x}")
        return "".join(shown)

    return f'run "prove {" ".join(files)}" {" ".join(f"{name} {chr(34)}{quoted(text)}{chr(34)}" for name, text in files.items())} "" "" 1048576\n'


def broken():
    """Files that hardly any production has."""
    rng = random.Random(1)
    for byte in range(256):
        yield bytes([byte])
        yield b"procedure P is begin null; end P" + bytes([byte]) + b";"
    for _ in range(200):
        yield bytes(rng.randrange(256) for _ in range(rng.randint(0, 300)))
    words = b"procedure P is begin null ; end : := ( ) , in out Integer X 1 + if then else loop record type array of range .. <> => | ' with Pre use package body".split()
    for _ in range(300):
        yield b" ".join(rng.choice(words) for _ in range(rng.randint(1, 80)))
    whole = procedure(["type T is array (1 .. 3) of Integer;", "Y : T := (1, 2, 3);"], ["for I in Y'Range loop Y (I) := Y (I) + 1; pragma Loop_Invariant (Y (1) > 0); end loop;"]).encode()
    for _ in range(500):
        at = rng.randrange(len(whole))
        yield whole[:at] + bytes(rng.randrange(256) for _ in range(rng.randint(0, 3))) + whole[at + rng.randint(0, 3):]


ANSWER = re.compile(r"\S+:\d+:\d+: (error: \w+|info: .*|medium: .*)$")


def main():
    asked = argparse.ArgumentParser()
    asked.add_argument("-n", type=int, default=10000)
    asked.add_argument("-o", default="")
    asked.add_argument("--write", help="a file for the cases")
    asked.add_argument("program", nargs="?")
    args = asked.parse_args()
    shapes = [s for s in SHAPES if args.o in s.__name__]
    if args.write:
        with open(args.write, "w") as file:
            for make in shapes:
                file.write(f"# {make.__name__}\n")
                for count in (args.n // 4, args.n):
                    files, wanted = make(count)
                    file.write(case_of(files))
                    file.write(f"# {wanted}\n")
            if not args.o:
                file.writelines(case_of({"b.adb": text}) for text in broken())
        return 0
    path, wrong = os.path.abspath(args.program), 0
    for make in shapes:
        runs = []
        for count in (args.n // 4, args.n):
            files, wanted = make(count)
            runs.append((*run(path, files), wanted, sum(map(len, files.values()))))
        (_, _, before, _, _, less), (status, said, took, memory, wanted, more) = runs
        growth = took / max(before, 0.004) / max(4, more / less)
        verdict = "" if all(r[1] == r[4] for r in runs) else f" ! wanted {wanted}"
        verdict += " ! grows faster than linear" if took > 0.1 and growth > 2 else ""
        wrong += bool(verdict)
        print(f"{make.__name__:45} {more:8} bytes {took:7.3f} s {memory:5} MiB, {growth:5.2f} times linear: {status} {said}{verdict}", flush=True)
    count = 0
    for text in broken() if not args.o else ():
        status, said, took, _ = run(path, {"b.adb": text})
        count += 1
        if not (status in (0, 1, 2) and ANSWER.match(said)) or took > 1:
            wrong += 1
            print(f"! status {status}, {took:.3f} s, {said!r}: {text!r}")
    print(f"{count} files of bytes by chance; {wrong} wrong in all")
    return wrong > 0


if __name__ == "__main__":
    sys.exit(main())
