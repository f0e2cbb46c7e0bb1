#!/usr/bin/env python3
"""Asks clang++ and g++ which conversions there are and which of two overloaded functions they call, and writes the
answers as rows that the definitions must compute (crates/cxx_meaning/proofs/Conversions/Compilers.antt).

Usage: conversions.py > crates/cxx_meaning/proofs/Conversions/Compilers.antt"""
import subprocess, sys, tempfile, os, re

COMPILERS = [["clang++", "-std=c++98", "-pedantic-errors", "-w", "-ferror-limit=0"], ["g++", "-std=c++98", "-pedantic-errors", "-w", "-fmax-errors=0"]]

BASES = ["bool", "char", "signed char", "unsigned char", "short", "unsigned short", "int", "unsigned", "long", "unsigned long", "wchar_t", "float", "double", "long double"]
NAMES = ["Bool", "Char", "SignedChar", "UnsignedChar", "Short", "UnsignedShort", "Int", "Unsigned", "Long", "UnsignedLong", "WideChar", "Float", "Double", "LongDouble"]

PRELUDE = """enum E { e0 }; enum L { l0 = 4294967296 };
struct A { }; struct B : A { }; struct C : B { }; struct X;
typedef int F();
"""

def bad_lines(compiler, text):
    with tempfile.TemporaryDirectory() as d:
        p = os.path.join(d, "t.cpp")
        open(p, "w").write(text)
        r = subprocess.run(compiler + ["-fsyntax-only", p], capture_output=True, text=True)
        return {int(m.group(1)) for m in re.finditer(r"t\.cpp:(\d+):\d+: (?:fatal )?error", r.stderr)}

def ran(compiler, text):
    with tempfile.TemporaryDirectory() as d:
        p = os.path.join(d, "t.cpp")
        open(p, "w").write(text)
        subprocess.run(compiler + ["-o", os.path.join(d, "t"), p], check=True, capture_output=True)
        return subprocess.run([os.path.join(d, "t")], check=True, capture_output=True, text=True).stdout.split()

def ask(lines, prelude=PRELUDE):
    """For each line whether both compilers take it; None where they differ."""
    text = prelude + "\n".join(lines) + "\n"
    first = prelude.count("\n") + 1
    answers = [[first + i not in bad for i in range(len(lines))] for bad in [bad_lines(c, text) for c in COMPILERS]]
    return [a if a == b else None for a, b in zip(*answers)]

def chosen(calls):
    """For each (declarations, call): 1 or 2, the function that both compilers call, 0 where the call is ambiguous."""
    lines = [f"namespace n{i} {{ {d} int t() {{ return sizeof({c}); }} }}" for i, (d, c) in enumerate(calls)]
    text = PRELUDE + "\n".join(lines) + "\n"
    first = PRELUDE.count("\n") + 1
    result = []
    for compiler in COMPILERS:
        bad = bad_lines(compiler, text)
        good = [i for i in range(len(calls)) if first + i not in bad]
        kept = "\n".join(lines[i] if i in set(good) else "" for i in range(len(calls)))
        text2 = PRELUDE + kept + "\n#include <stdio.h>\nint main() { " + " ".join(f'printf("%d\\n", n{i}::t());' for i in good) + " }\n"
        out = ran(compiler, text2)
        answers = [0] * len(calls)
        for i, o in zip(good, out):
            answers[i] = int(o)
        result.append(answers)
    return [a if a == b else None for a, b in zip(*result)]

# operands: a declaration, the expression, its type in the definitions, whether it is an lvalue
OPERANDS = [("int", "int"), ("const int", "const_of int"), ("int *", "to int"), ("const int *", "to (const_of int)"), ("int * const", "const_of (to int)"), ("int **", "to (to int)"),
    ("const int **", "to (to (const_of int))"), ("int * const *", "to (const_of (to int))"), ("const int * const *", "to (const_of (to (const_of int)))"),
    ("int (@)[3]", "three int"), ("const int (@)[3]", "three (const_of int)"), ("int (*@)[3]", "to (three int)"), ("const int (*@)[3]", "to (three (const_of int))"),
    ("int *(@)[3]", "three (to int)"), ("void *", "to void"), ("const void *", "to (const_of void)"), ("F *", "to function"), ("E", "an_e"), ("bool", "bool"), ("double", "double"),
    ("A", "a"), ("B", "b"), ("const C", "const_of c"), ("A *", "to a"), ("C *", "to c"), ("const B *", "to (const_of b)"), ("volatile int", "volatile_of int"), ("C **", "to (to c)"), ("X *", "to x")]
TARGETS = OPERANDS[:9] + [OPERANDS[i] for i in (11, 12, 14, 15, 16, 17, 18, 19, 20, 21, 23, 24, 25, 28)] + [
    ("volatile int *", "to (volatile_of int)"), ("const int * const * const *", "to (const_of (to (const_of (to (const_of int)))))"), ("int &", "ref int"), ("const int &", "ref (const_of int)"), ("volatile int &", "ref (volatile_of int)"), ("const long &", "ref (const_of long)"),
    ("A &", "ref a"), ("const A &", "ref (const_of a)"), ("const C &", "ref (const_of c)"), ("int * const &", "ref (const_of (to int))"), ("const int * const &", "ref (const_of (to (const_of int)))"), ("int (&@)[3]", "ref (three int)"),
    ("const int (&@)[3]", "ref (three (const_of int))"), ("void * const &", "ref (const_of (to void))"), ("A * const &", "ref (const_of (to a))"), ("F &", "ref function"), ("E &", "ref an_e"), ("const bool &", "ref (const_of bool)"), ("void *const *", "to (const_of (to void))")]

def declared(of, name):
    return of.replace("@", name) if "@" in of else f"{of} {name}"

def bits(values):
    return " ∷ ".join("true" if v else "false" for v in values) + " ∷ []"

def main():
    head = open(os.path.join(os.path.dirname(os.path.abspath(__file__)), "../../crates/cxx_meaning/proofs/Conversions/Rows.antt")).read()
    head = head[:head.index("abbrev Converts")]
    head = head.replace("-- Conversions and their order, worked, each as the standard has it.", "-- Conversions and their order, as clang++ and g++ have them: made by bench/meanings/conversions.py.")
    unfolding = sys.argv[1] if len(sys.argv) > 1 else ""
    rows = open(os.path.join(os.path.dirname(os.path.abspath(__file__)), "../../crates/cxx_meaning/proofs/Conversions/Rows.antt")).read()
    unfolding = [l for l in rows.split("\n") if l.startswith("unfolding ")][0]
    ordering = [l for l in rows.split("\n") if l.startswith("unfolding ")][-1]
    out = [head]
    differ = []

    # conversions
    lines, keys = [], []
    for i, (o, _) in enumerate(OPERANDS):
        for j, (t, _) in enumerate(TARGETS):
            lines.append(f"namespace n{i}_{j} {{ extern {declared(o, 'v')}; int f({declared(t, 'p')}); int t() {{ return f(v); }} }}")
    answers = ask(lines)
    out.append("abbrev found : CxxOperand → List CxxType → List Bool\nfound from targets = map (λ target. is_found (standard_sequence graph from target)) targets\n  where\n    is_found : Result (Option CxxStandard) ClassId → Bool\n    is_found (Ok (Some sequence)) = true\n    is_found _ = false\n")
    n = len(TARGETS)
    for i, (o, od) in enumerate(OPERANDS):
        got = answers[i * n:(i + 1) * n]
        take = [(t, a) for t, a in zip(TARGETS, got) if a is not None]
        differ += [f"{declared(o, 'v')} to {t[0]}" for t, a in zip(TARGETS, got) if a is None]
        ts = " ∷ ".join(td if " " not in td else f"({td})" for (_, td), _ in take) + " ∷ []"
        out.append(f"-- {o.replace('@', '')}\ntaken_{i + 1} : found (lvalue {od if ' ' not in od else '(' + od + ')'}) ({ts}) ≡ ({bits([a for _, a in take])})\n{unfolding}\ntaken_{i + 1} = refl\n")

    # every pair of arithmetic parameters for every arithmetic argument
    out.append("abbrev sequence : CxxOperand → CxxType → CxxStandard\nsequence from target = by (standard_sequence graph from target)\n  where\n    by : Result (Option CxxStandard) ClassId → CxxStandard\n    by (Ok (Some found)) = found\n    by _ = sequence_by from target no_steps\n\nabbrev orders : CxxOperand → List (CxxType × CxxType) → List Order\norders from pairs = map (λ pair. order_of graph (sequence from pair.0) (sequence from pair.1)) pairs\n")
    pairs = [(p, q) for p in range(14) for q in range(p + 1, 14)]
    names = {0: "Same", 1: "Better", 2: "Worse"}
    out.append("abbrev pairs : List (CxxType × CxxType)\npairs = " + " ∷ ".join(f"(fundamental base.{NAMES[p]}, fundamental base.{NAMES[q]})" for p, q in pairs) + " ∷ []\n")
    for a in range(14):
        calls = [(f"extern {BASES[a]} v; char (&f({BASES[p]}))[1]; char (&f({BASES[q]}))[2];", "f(v)") for p, q in pairs]
        got = chosen(calls)
        assert None not in got, BASES[a]
        out.append(f"-- {BASES[a]}\nordered_{a + 1} : orders (lvalue (fundamental base.{NAMES[a]})) pairs ≡ ({' ∷ '.join(names[g] for g in got)} ∷ [])\n{ordering}\nordered_{a + 1} = refl\n")

    # two parameters of other types
    for i, (o, od) in enumerate(OPERANDS):
        got = answers[i * n:(i + 1) * n]
        ok = [j for j in range(n) if got[j]]
        calls, ps = [], []
        for x in range(len(ok)):
            for y in range(x + 1, len(ok)):
                p, q = TARGETS[ok[x]], TARGETS[ok[y]]
                bare = lambda s: re.sub(r"\s*\bconst$", "", s[0].replace("@", "")).replace("const int", "int") if s[0] in ("const int", "int * const", "int", "int *", "const C") else s[0]
                if bare(p) == bare(q) or p[0] in ("const int", "int * const") or q[0] in ("const int", "int * const"):
                    continue
                calls.append((f"extern {declared(o, 'v')}; char (&f({declared(p[0], 'p')}))[1]; char (&f({declared(q[0], 'p')}))[2];", "f(v)"))
                ps.append((p, q))
        if not calls:
            continue
        got2 = chosen(calls)
        differ += [f"{declared(o, 'v')}: {p[0]} or {q[0]}" for (p, q), g in zip(ps, got2) if g is None]
        keep = [((p, q), g) for (p, q), g in zip(ps, got2) if g is not None]
        w = lambda d: d
        out.append(f"-- {o.replace('@', '')}\npreferred_{i + 1} : orders (lvalue {od if ' ' not in od else '(' + od + ')'}) ({' ∷ '.join(f'({w(p[1])}, {w(q[1])})' for (p, q), _ in keep)} ∷ []) ≡ ({' ∷ '.join(names[g] for _, g in keep)} ∷ [])\n{ordering}\npreferred_{i + 1} = refl\n")
    sys.stdout.write("\n".join(out).rstrip() + "\n")
    sys.stderr.write(f"{sum(a is not None for a in answers)} conversions; compilers differ on {len(differ)}: {differ}\n")

main()
