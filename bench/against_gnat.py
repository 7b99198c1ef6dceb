#!/usr/bin/env python3
"""Compares the worked cases of crates/ada_semantics with what GNAT's runs do: bench/against_gnat.py [-v]

The sample programs stand as Ada text in the comments of specs/Cases/, and the outcomes in the laws of src/. Each law about a run
that ends or fails is turned into a call of the sample, compiled by gnatmake with all checks, and run. Values, the kind of the
check that fails and its line have to be the same; columns are this project's own. It is no part of the gate, and passes over
where GNAT isn't there. Passed over are also: budgets, samples that no accepted program has (reads of what was never set), and
the samples and laws that are listed with a reason."""

import glob
import os
import re
import shutil
import subprocess
import sys
import tempfile

TOP = os.path.dirname(os.path.dirname(os.path.abspath(__file__)))
CRATE = f"{TOP}/crates/ada_semantics"

PASSED_OVER = {
    "steps": "both texts of its variant stand in one comment",
    "none_given": "Ada has a choice without values only where it is the single one of an aggregate",
}

LAWS_PASSED_OVER = {
    "calls::post_fails": "the contract stands in the specification, which is no part of the sample's text",
    "parts::no_start": "the same",
}

# samples with a parameter: what the law's argument changes in the text
VARIANTS = {
    "weak": lambda text, x: text.replace("X := 7;", f"X := {x};"),
    "guard": lambda text, x: text.replace(" and ", {"And": " and ", "Or": " or ", "Xor": " xor ", "AndThen": " and then ", "OrElse": " or else "}[x.split(".")[-1]]),
    "mid": lambda text, x: text.replace("<=", {"AtMost": "<=", "Less": "<"}[x.split(".")[-1]]),
    "digits": lambda text, x: text.replace("in 1", "in reverse 1") if x == "true" else text,
    "sink": lambda text, x: text.replace("Decreases", x.split(".")[-1]),
}

TYPES = """package Types is
   subtype Small is Integer range -10 .. 10;
   type Row is array (1 .. 3) of Integer;
   type Natural_Row is array (1 .. 3) of Natural;
   type Later is array (3 .. 5) of Integer;
   type Arr is array (Positive range <>) of Integer;
   type P is record A : Integer; B : Integer; end record;
   type Q is record F : P; C : Integer; end record;
   type Table is array (1 .. 2) of P;
   type Color is (Red, Green, Blue);
   type B is mod 256;
   type T is range -100 .. 100;
   type R is record N : Natural; S : Small; end record;
   function Image (X : Long_Long_Integer) return String;
   function Image (X : Integer) return String;
   function Image (X : Boolean) return String;
   function Image (X : Color) return String;
   function Image (X : B) return String;
   function Image (X : T) return String;
   function Image (X : Row) return String;
   function Image (X : Natural_Row) return String;
   function Image (X : Later) return String;
   function Image (X : Arr) return String;
   function Image (X : P) return String;
   function Image (X : Q) return String;
   function Image (X : R) return String;
   function Image (X : Table) return String;
end Types;
"""

ARRAY_IMAGE = """   function Image (X : {0}) return String is
      function Items (I : Integer) return String is
        (if I > X'Last then "" else Image (Integer (X (I))) & (if I = X'Last then "" else ", ") & Items (I + 1));
   begin
      return "[" & Image (X'First) & " .. " & Image (X'Last) & ": " & (if X'Length = 0 then "" else Items (X'First)) & "]";
   end Image;
"""

TYPES_BODY = """package body Types is
   function Image (X : Long_Long_Integer) return String is
     (if X < 0 then Long_Long_Integer'Image (X) else Long_Long_Integer'Image (X) (2 .. Long_Long_Integer'Image (X)'Last));
   function Image (X : Integer) return String is (Image (Long_Long_Integer (X)));
   function Image (X : Boolean) return String is (if X then "True" else "False");
   function Image (X : Color) return String is (Image (Integer (Color'Pos (X))));
   function Image (X : B) return String is (Image (Long_Long_Integer (X)));
   function Image (X : T) return String is (Image (Long_Long_Integer (X)));
   function Image (X : P) return String is ("{" & Image (X.A) & ", " & Image (X.B) & "}");
   function Image (X : Q) return String is ("{" & Image (X.F) & ", " & Image (X.C) & "}");
   function Image (X : R) return String is ("{" & Image (X.N) & ", " & Image (X.S) & "}");
   function Image (X : Table) return String is ("[1 .. 2: " & Image (X (1)) & ", " & Image (X (2)) & "]");
""" + "".join(ARRAY_IMAGE.format(t) for t in ["Row", "Natural_Row", "Later", "Arr"]) + "end Types;\n"

KINDS = {
    "Overflow": "overflow check failed", "Range": "range check failed", "Index": "index check failed", "Division": "divide by zero",
    "Pre": "failed precondition", "Post": "failed postcondition", "Assert": "", "Assume": "Assume", "InvFirst": "Loop_Invariant",
    "InvKept": "Loop_Invariant", "Variant": "Loop_Variant",
}


# ---- the samples and the laws


def samples():
    """The Ada text of each sample, by the module of its cases and its name; with the numbers of its lines."""
    found = {}
    for path in glob.glob(f"{CRATE}/specs/Cases/*.antt"):
        module, text, fresh = os.path.basename(path)[:-5], {}, True
        with open(path, encoding="utf-8") as lines:
            for line in lines:
                numbered = re.match(r"^-- *(\d+)  (.*)$", line.rstrip("\n"))
                named = re.match(r"^abbrev pub (\w+) :.*Text$", line)
                if numbered:
                    if fresh:
                        text, fresh = {}, False
                    text[int(numbered.group(1))] = numbered.group(2)
                elif named and text:
                    found[module, named.group(1)] = dict(text)
                    fresh = True
                elif not line.startswith("--"):
                    fresh = True
    return found


def tokens(text):
    return re.findall(r"[()\[\]{}∷;=]|[^\s()\[\]{}∷;=]+", text)


def parsed(words):
    """A term of a law: a list for an application, and ('list', ..) for a list."""

    def one(i):
        if words[i] == "(":
            term, i = chain(i + 1, ")")
            return term, i + 1
        if words[i] == "[":
            assert words[i + 1] == "]"
            return ("list", []), i + 2
        if words[i] == "{":
            fields, i = {}, i + 1
            while words[i] != "}":
                name = words[i]
                assert words[i + 1] == "="
                value, i = chain(i + 2, ";}")
                fields[name] = value
                i += words[i] == ";"
            return fields, i + 1
        return words[i], i + 1

    def chain(i, ends):
        parts = []
        while i < len(words) and words[i] not in ends and words[i] != "∷":
            part, i = one(i)
            parts.append(part)
        term = parts[0] if len(parts) == 1 else parts
        if i < len(words) and words[i] == "∷":
            rest, i = chain(i + 1, ends)
            return ("list", [term, *rest[1]]), i
        return term, i

    return chain(0, "")[0]


def laws():
    """Each law about a run: where it stands, the sample with its argument, the subprogram, the inputs and the outcome."""
    for path in sorted(glob.glob(f"{CRATE}/src/*.rt")):
        with open(path, encoding="utf-8") as file:
            text = file.read()
        uses = {}
        for module, names in re.findall(r"Cases\.(\w+)\.\{([^}]*)\}", text):
            for name in names.split(","):
                uses.setdefault(name.strip(), module)
        for name, body in re.findall(r"ensures (\w+) \{ (plain .*?≡.*?) \}\n", text, re.S):
            left, right = body.split("≡")
            run, outcome = parsed(tokens(left)), parsed(tokens(right))
            _, sample, sub, params, globals_, _ = run
            argument = None
            if isinstance(sample, list):
                sample, argument = sample[0], " ".join(str(x) for x in sample[1:])
            yield f"{os.path.basename(path)[:-3]}::{name}", uses.get(sample), sample, argument, int(sub), params[1], globals_[1], outcome


# ---- values


def number(term):
    kind, value = term
    return int(value) if kind in ("int", "pos") else -int(value) - 1 if kind == "negsuc" else number(value)


def value(term):
    """A value of a law: ('number', n), ('truth', b), ('array', first, last, items), ('record', items)."""
    kind = term[0]
    if kind == "int":
        return ("number", int(term[1]))
    if kind == "number":
        return ("number", number(term[1]))
    if kind == "truth":
        return ("truth", term[1] == "true")
    if kind == "row":
        return ("array", 1, 3, [("number", int(x)) for x in term[1:]])
    if kind == "p":
        return ("record", [("number", int(x)) for x in term[1:]])
    if kind == "table":
        return ("array", 1, 2, [value(x) for x in term[1:]])
    if kind in ("integers", "array"):
        items = term[3] if kind == "integers" else term[3][1] if term[3][0] == "vals_of" else ("list", [["int", "0"]] * int(term[3][1]))
        return ("array", number(term[1]), number(term[2]), [value(x) for x in items[1]])
    if kind == "record_of":
        return ("record", [value(x) for x in term[1][1][1]])
    raise ValueError(term)


def shown(v):
    if v[0] == "number":
        return str(v[1])
    if v[0] == "truth":
        return str(v[1])
    if v[0] == "array":
        return f"[{v[1]} .. {v[2]}: " + ", ".join(shown(x) for x in v[3]) + "]"
    return "{" + ", ".join(shown(x) for x in v[1]) + "}"


def written(v, kind):
    """The value as Ada text of a type."""
    if v[0] == "number":
        if kind == "Color":
            return f"Color'Val ({v[1]})"
        return f"({v[1]})" if v[1] >= -2147483647 else "Integer'First"
    if v[0] == "truth":
        return str(v[1])
    if v[0] == "array" and not v[3]:
        return f"{kind}'({v[1]} .. {v[2]} => 0)"
    inner = {"Table": "P", "Q": "P"}.get(kind, "Integer")
    if v[0] == "array":
        return f"{kind}'(" + ", ".join(f"{v[1] + i} => {written(x, inner)}" for i, x in enumerate(v[3])) + ")"
    return f"{kind}'(" + ", ".join(written(x, inner) for x in v[1]) + ")"


# ---- the Ada program of a law


def profile(text):
    """The parameters of a subprogram's first line, as (name, mode, type), and its result's type."""
    inner = re.search(r"\((.*?)\)", text)
    params = []
    if inner and not re.match(r"^\s*(procedure|function) \w+ (is|with|return)", text):
        for part in inner.group(1).split(";"):
            names, rest = part.split(":")
            words = rest.split()
            mode = "in out" if words[:2] == ["in", "out"] else words[0] if words[0] in ("in", "out") else "in"
            params += [(name.strip(), mode, words[-1]) for name in names.split(",")]
    result = re.search(r"return (\w+)", text)
    return params, result.group(1) if result and text.strip().startswith("function") else None


def program(lines, sub, params, globals_):
    """The files of a law's program, and the number of lines before the sample's own."""
    last = max(lines)
    body = [lines.get(i, "") for i in range(1, last + 1)]
    name = re.match(r"(?:package body|procedure|function) (\w+)", body[0]).group(1)
    heads = [line for line in body if re.match(r"^\s*(procedure|function) ", line)]
    head = heads[sub] if body[0].startswith("package") else heads[0]
    called = re.match(r"^\s*(?:procedure|function) (\w+)", head).group(1)
    formals, result = profile(head)
    files = {}
    prefix = "with Types; use Types;\n"
    if body[0].startswith("package"):
        variable = re.search(r"-- (\w+) : Integer in the package", body[0])
        spec = f"with Types; use Types;\npackage {name} is\n   pragma Elaborate_Body;\n"
        if variable:
            spec += f"   {variable.group(1)} : Integer := 0;\n"
        # a contract stands in the specification where the subprogram is called from outside
        spec += "".join(re.sub(r" is( *--.*)?$", ";", h) + "\n" for h in heads if " with " not in h or h == head) + f"end {name};\n"
        body = [re.sub(r" with .* is$", " is", line) if line == head else line for line in body]
        files[f"{name.lower()}.ads"] = spec
        called = f"{name}.{called}"
    else:
        variable = None
    files[f"{name.lower()}.adb"] = prefix + "\n".join(body) + "\n"
    given, declared, actuals, prints = iter(params), [], [], []
    for k, (_, mode, kind) in enumerate(formals):
        start = ""
        if mode != "out":
            v = next(given)
            start = f" := {written(v, kind)}"
        declared.append(f"         V{k} : {kind}{start};")
        actuals.append(f"V{k}")
        prints.append(f"Image (V{k})")
    call = called + (f" ({', '.join(actuals)})" if actuals else "")
    if result:
        prints.append("Image (Z)")
    if variable:
        prints.append(f"Image ({name}.{variable.group(1)})")
    main = f"with Ada.Text_IO, Ada.Exceptions, Types, {name}; use Ada.Text_IO, Types;\nprocedure Main is\nbegin\n"
    if variable and globals_:
        main += f"   {name}.{variable.group(1)} := {written(globals_[0], 'Integer')};\n"
    main += "   declare\n" + "\n".join(declared) + "\n   begin\n      declare\n"
    main += f"         Z : {result} := {call};\n      begin\n" if result else f"      begin\n         {call};\n"
    main += '         Put_Line ("ends"' + "".join(f' & " " & {p}' for p in prints) + ");\n      end;\n   end;\n"
    main += 'exception\n   when E : others => Put_Line (Ada.Exceptions.Exception_Name (E) & " " & Ada.Exceptions.Exception_Message (E));\nend Main;\n'
    files["main.adb"] = main
    return files, 1


def wanted(outcome, params, globals_, has_globals):
    """What the run is to print, or the check that is to fail: ('ends', text), ('fails', line, kind)."""
    if outcome == "not_a_start":
        return ("fails", None, "Pre")
    if not isinstance(outcome, list):
        return None
    if outcome[0] == "fails" and outcome[1][0] == "key":
        return ("fails", int(outcome[1][1]), outcome[1][3].split(".")[1])
    if outcome[0] == "ends_with":
        return ("ends", [shown(value(x)) for x in outcome[1][1]])
    if outcome[0] == "gives_back":
        return ("ends", [shown(value(x)) for x in outcome[1][1]] + [shown(value(outcome[2]))])
    if outcome[0] == "ends":
        fields = outcome[1][1] if isinstance(outcome[1], list) else outcome[1]
        slots = [x for key in ("params", "globals") for x in fields[key][1]]
        return ("ends", [shown(value(x[1])) for x in slots])
    return None


def agrees(want, printed, before, text):
    """Whether GNAT's run printed what is wanted, where `text` is the line of the check: GNAT calls the check of `'Succ` and `'Pred` an
    overflow, and tells that of `**` and of a contract that stands in the specification at another place."""
    if want[0] == "ends":
        return printed == " ".join(["ends", *want[1]])
    _, line, kind = want
    if kind in ("Pre", "Post", "Assert", "Assume", "InvFirst", "InvKept", "Variant"):
        right = "ASSERTION_ERROR" in printed and KINDS[kind].lower() in printed.lower()
    else:
        right = KINDS[kind] in printed or (kind == "Range" and re.search(r"'(Succ|Pred)\b", text or "") is not None and "overflow check failed" in printed)
    elsewhere = line is None or kind == "Pre" or ".ads:" in printed or " s-" in printed
    return right and (elsewhere or re.search(rf":{line + before}\b", printed) is not None)


def main():
    loud = "-v" in sys.argv
    if shutil.which("gnatmake") is None:
        print("GNAT isn't there: nothing was compared")
        return 0
    texts, same, differ, passed = samples(), 0, [], 0
    with tempfile.TemporaryDirectory() as work:
        done = {}
        for law, module, sample, argument, sub, params, globals_, outcome in laws():
            lines = texts.get((module, sample))
            want = wanted(outcome, params, globals_, False)
            refused = lines and any("refused" in x for x in lines.values())
            if lines is None or want is None or sample in PASSED_OVER or law in LAWS_PASSED_OVER or refused:
                passed += 1
                if loud and outcome not in ("short", "reads_unset"):
                    print("passed over:", law, sample)
                continue
            if argument is not None:
                if sample not in VARIANTS:
                    passed += 1
                    continue
                lines = {i: VARIANTS[sample](x.split("   -- ")[0], argument) for i, x in lines.items()}
            files, before = program(lines, sub, [value(x) for x in params], [value(x) for x in globals_])
            key = repr(sorted(files.items()))
            if key not in done:
                for old in os.listdir(work):
                    os.remove(f"{work}/{old}")
                for file, text in {**files, "types.ads": TYPES, "types.adb": TYPES_BODY}.items():
                    with open(f"{work}/{file}", "w", encoding="utf-8") as out:
                        out.write(text)
                made = subprocess.run(["gnatmake", "-q", "-gnat2012", "-gnata", "-gnateE", "-gnato11", "-gnatws", "main.adb"], cwd=work, capture_output=True, text=True)
                ran = subprocess.run([f"{work}/main"], capture_output=True, text=True) if made.returncode == 0 else None
                done[key] = ran.stdout.strip() if ran else "not compiled: " + (made.stderr or made.stdout).strip()
            if agrees(want, done[key], before, lines.get(want[1]) if want[0] == "fails" else None):
                same += 1
            else:
                differ.append((law, want, done[key]))
    for law, want, printed in differ:
        print(f"{law}: {want} but GNAT: {printed[:300]}")
    print(f"{same} laws agree with GNAT's runs, {len(differ)} differ, {passed} are passed over")
    return 1 if differ else 0


if __name__ == "__main__":
    sys.exit(main())
