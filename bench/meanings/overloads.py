#!/usr/bin/env python3
"""Asks clang++ and g++ which of some functions a call means, and prints a row for each call on which both agree.

A row has each function's parameters, behind them `.` where an ellipsis follows, how many at the end have default arguments
where any has one, and `;`, then the arguments, which are lvalues, and behind `=` the number of the function, `a` where the
call is ambiguous, or `n` where none is viable. A type is a letter and then what stands round it from inside: `k` const, `p` a
pointer, `r` a reference.
"""
import random
import subprocess
import sys
import tempfile
import os

BASES = {"i": "int", "u": "unsigned", "l": "long", "s": "short", "c": "char", "b": "bool", "d": "double", "f": "float",
         "v": "void", "e": "E"}
PARAMETERS = ["i", "l", "c", "b", "d", "f", "u", "e", "ip", "ikp", "vp", "vkp", "ir", "ikr", "er", "ekr", "dkr", "dr",
              "ipp", "ipkp", "ikpkp", "ipkr", "ckr", "lkr"]
ARGUMENTS = ["i", "l", "c", "b", "d", "f", "s", "e", "ek", "ip", "ikp", "vp", "ik", "ipp", "dk"]


def named(of, name):
    """The declaration of a name with a type."""
    text = name
    base = BASES[of[0]]
    rest = of[1:]
    if rest.startswith("k"):
        base = "const " + base
        rest = rest[1:]
    before = ""
    for letter in rest:
        before += {"k": " const", "p": " *", "r": " &"}[letter]
    return f"{base}{before} {text}"


def ask(compiler, functions, arguments):
    lines = ["enum E { e0 };"]
    for number, of in enumerate(PARAMETERS):
        lines.append(f"extern {named(of.rstrip('r'), 'd' + str(number))};")
    for number, (parameters, ellipsis, defaults) in enumerate(functions):
        written = [named(of, "") + (f" = d{PARAMETERS.index(of)}" if len(parameters) - defaults <= place else "")
                   for place, of in enumerate(parameters)] + (["..."] if ellipsis else [])
        lines.append(f"char (&f({', '.join(written)}))[{number + 1}];")
    for number, of in enumerate(arguments):
        lines.append(f"extern {named(of, 'a' + str(number))};")
    call = ", ".join("a" + str(number) for number in range(len(arguments)))
    lines.append(f"int chosen[sizeof(f({call}))]; int main() {{ return sizeof(chosen) / sizeof(int); }}")
    with tempfile.TemporaryDirectory() as folder:
        source = os.path.join(folder, "a.cpp")
        with open(source, "w") as out:
            out.write("\n".join(lines) + "\n")
        program = os.path.join(folder, "a")
        done = subprocess.run([compiler, "-std=c++98", "-w", source, "-o", program], capture_output=True, text=True)
        if done.returncode == 0:
            return str(subprocess.run([program]).returncode)
        if "ambiguous" in done.stderr:
            return "a"
        if "no matching function" in done.stderr or "cannot convert" in done.stderr or "too few" in done.stderr or "too many" in done.stderr or "could not convert" in done.stderr or "invalid conversion" in done.stderr or "discards qualifiers" in done.stderr or "cannot bind" in done.stderr:
            return "n"
        return "?"


def main():
    draw = random.Random(int(sys.argv[1]))
    rows = 0
    while rows < int(sys.argv[2]):
        count = draw.choice([1, 1, 2, 2, 3])
        functions = []
        for _ in range(draw.choice([2, 3, 3, 4])):
            length = count if draw.random() < 0.7 else draw.choice([0, 1, 2, 3, 4])
            defaults = draw.choice([0] * 5 + list(range(length + 1)))
            one = (tuple(draw.choice(PARAMETERS) for _ in range(length)), draw.random() < 0.2, defaults)
            if one[:2] not in [other[:2] for other in functions]:
                functions.append(one)
        arguments = [draw.choice(ARGUMENTS) for _ in range(count)]
        one, two = ask("clang++", functions, arguments), ask("g++", functions, arguments)
        if one != two or one == "?":
            print("apart:", functions, arguments, one, two, file=sys.stderr)
            continue
        if one == "n" and draw.random() < 0.8:
            continue
        text = "".join("".join(of + "," for of in parameters) + ("." if ellipsis else "") + (str(defaults) if defaults else "") + ";"
                       for parameters, ellipsis, defaults in functions)
        print(text + "".join(of + "," for of in arguments) + "=" + one)
        rows += 1


main()
