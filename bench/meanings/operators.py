#!/usr/bin/env python3
"""Asks clang++ and g++ what each operator gives for each pair of operands, and writes the answers as rows that the
definitions must compute.

Usage: operators.py > crates/cxx_meaning/proofs/Conversions/Operators.antt"""
import subprocess, sys, tempfile, os, re

COMPILERS = [["clang++", "-std=c++98", "-pedantic-errors", "-w", "-ferror-limit=0"], ["g++", "-std=c++98", "-pedantic-errors", "-w", "-fmax-errors=0"]]
PRELUDE = """#include <stdio.h>
enum E { e0 }; enum L { l0 = 4294967296 };
struct A { }; struct B : A { }; struct C : B { }; struct X;
typedef int F();
template <class T> char (&lv(T &))[2];
char (&lv(...))[1];
"""
# what is tried, the declared type, and its type in the definitions
OPERANDS = [("int", "lvalue int"), ("const int", "lvalue (const_of int)"), ("char", "lvalue char"), ("bool", "lvalue bool"), ("unsigned", "lvalue (fundamental base.Unsigned)"),
    ("long", "lvalue long"), ("unsigned long", "lvalue (fundamental base.UnsignedLong)"), ("wchar_t", "lvalue wide"), ("float", "lvalue float"), ("double", "lvalue double"), ("long double", "lvalue (fundamental base.LongDouble)"),
    ("E", "lvalue an_e"), ("L", "lvalue an_l"), ("int *", "lvalue (to int)"), ("const int *", "lvalue (to (const_of int))"), ("volatile int * const", "lvalue (const_of (to (volatile_of int)))"), ("int (@)[3]", "lvalue (three int)"), ("int **", "lvalue (to (to int))"),
    ("const int **", "lvalue (to (to (const_of int)))"), ("void *", "lvalue (to void)"), ("const void *", "lvalue (to (const_of void))"), ("F *", "lvalue (to function)"), ("A *", "lvalue (to a)"), ("const C *", "lvalue (to (const_of c))"), ("X *", "lvalue (to x)"), ("0", "zero"), ("1", "rvalue int")]
RESULTS = [("bool", "bool"), ("char", "char"), ("short", "short"), ("int", "int"), ("unsigned", "fundamental base.Unsigned"), ("long", "long"), ("unsigned long", "fundamental base.UnsignedLong"), ("wchar_t", "wide"),
    ("float", "float"), ("double", "double"), ("long double", "fundamental base.LongDouble"), ("E", "an_e"), ("L", "an_l"), ("int *", "to int"), ("const int *", "to (const_of int)"), ("volatile int *", "to (volatile_of int)"),
    ("int **", "to (to int)"), ("const int **", "to (to (const_of int))"), ("const int * const *", "to (const_of (to (const_of int)))"), ("void *", "to void"), ("const void *", "to (const_of void)"), ("A *", "to a"), ("const A *", "to (const_of a)"),
    ("const C *", "to (const_of c)"), ("X *", "to x"), ("const volatile int *", "to (qualified (record { is_const = true; is_volatile = true }) int)"), ("volatile int * const *", "to (const_of (to (volatile_of int)))"), ("int (*@)[3]", "to (three int)"), ("int ***", "to (to (to int))"), ("const int ***", "to (to (to (const_of int)))"), ("void **", "to (to void)"), ("const void **", "to (to (const_of void))"), ("A **", "to (to a)"), ("const C **", "to (to (const_of c))"), ("X **", "to (to x)"), ("F *", "to function"), ("F **", "to (to function)"), ("volatile void *", "to (volatile_of void)"), ("const volatile void *", "to (qualified (record { is_const = true; is_volatile = true }) void)"), ("E *", "to an_e"), ("L *", "to an_l")] + [(b + " *", "to (fundamental base." + n + ")") for b, n in (("char", "Char"), ("bool", "Bool"), ("unsigned", "Unsigned"), ("long", "Long"), ("unsigned long", "UnsignedLong"), ("wchar_t", "WideChar"), ("float", "Float"), ("double", "Double"), ("long double", "LongDouble"))]
UNARY = [("*", "STAR"), ("&", "AMPERSAND"), ("+", "PLUS"), ("-", "MINUS"), ("~", "TILDE"), ("!", "EXCLAMATION"), ("++", "INCREMENT"), ("--", "DECREMENT")]
BINARY = [("[]", "LEFT_BRACKET"), ("*", "STAR"), ("/", "SLASH"), ("%", "PERCENT"), ("+", "PLUS"), ("-", "MINUS"), ("<<", "SHIFT_LEFT"), ("<", "LESS"), ("==", "EQUAL_TO"), ("&", "AMPERSAND"), ("&&", "LOGICAL_AND"), ("=", "EQUALS"), ("*=", "STAR_EQUALS"), ("%=", "PERCENT_EQUALS"),
    ("+=", "PLUS_EQUALS"), ("-=", "MINUS_EQUALS"), (">>=", "SHIFT_RIGHT_EQUALS"), ("|=", "BAR_EQUALS"), (",", "COMMA")]

def declared(of, name):
    return of.replace("@", name) if "@" in of else f"{of} {name}"

def variable(i):
    return OPERANDS[i][0] if OPERANDS[i][0] in "01" else f"v{i}"

DECLARED = "extern bool b0;\n" + "".join(f"extern {declared(o, f'v{i}')};\n" for i, (o, _) in enumerate(OPERANDS) if o not in "01")
KINDS = "".join(f"char (&kind({declared(t, 'p')}))[{k + 1}];\n" for k, (t, _) in enumerate(RESULTS)) + f"char (&kind(...))[{len(RESULTS) + 1}];\n"

def run(args, text, link):
    with tempfile.TemporaryDirectory() as d:
        p = os.path.join(d, "t.cpp")
        open(p, "w").write(text)
        if not link:
            return subprocess.run(args + ["-fsyntax-only", p], capture_output=True, text=True).stderr
        subprocess.run(args + ["-o", os.path.join(d, "t"), p], check=True, capture_output=True)
        return subprocess.run([os.path.join(d, "t")], check=True, capture_output=True, text=True).stdout

def answers(expressions):
    """For each expression: None where both compilers refuse it, (lvalue, result) where both give that, 'differ' else."""
    result = []
    first = (PRELUDE + DECLARED + KINDS).count("\n") + 1
    for c in COMPILERS:
        lines = [f"void t{i}() {{ {e}; }}" for i, e in enumerate(expressions)]
        err = run(c, PRELUDE + DECLARED + KINDS + "\n".join(lines) + "\n", False)
        bad = {int(m.group(1)) - first for m in re.finditer(r"t\.cpp:(\d+):\d+: (?:fatal )?error", err)}
        good = [i for i in range(len(expressions)) if i not in bad]
        lines = [f"int k{i}() {{ return sizeof(kind({expressions[i]})); }} int l{i}() {{ return sizeof(lv({expressions[i]})); }}" for i in good]
        err = run(c, PRELUDE + DECLARED + KINDS + "\n".join(lines) + "\n", False)
        bad2 = {good[int(m.group(1)) - first] for m in re.finditer(r"t\.cpp:(\d+):\d+: (?:fatal )?error", err)}
        kept = [i for i in good if i not in bad2]
        lines = [lines[j] for j, i in enumerate(good) if i not in bad2]
        out = run(c, PRELUDE + DECLARED + KINDS + "\n".join(lines) + "\nint main() {\n" + "\n".join(f'printf("%d %d\\n", k{i}(), l{i}());' for i in kept) + "\n}\n", True)
        a = [None] * len(expressions)
        for i in bad2:
            a[i] = "unknown"
        for i, line in zip(kept, out.split("\n")):
            k, l = line.split()
            a[i] = "unknown" if int(k) > len(RESULTS) else (int(l) == 2, int(k) - 1)
        result.append(a)
    return [x if x == y else "differ" for x, y in zip(*result)]

def is_left_out(symbol, i, j):
    """Where this profile and the compilers are known to differ: a pointer is compared with 0 by every comparison (5.9), and
    a pointer to a function with no pointer to an object."""
    pointer = lambda k: "*" in OPERANDS[k][0] or "[" in OPERANDS[k][0]
    name = lambda k: OPERANDS[k][0]
    if symbol == "<":
        return (pointer(i) and name(j) == "0") or (pointer(j) and name(i) == "0")
    return symbol == "==" and sorted([name(i), name(j)])[0] == "F *" and "void" in name(i) + name(j) or symbol == "==" and sorted([name(i), name(j)])[1] == "F *" and "void" in name(i) + name(j)

def code(answer):
    if answer in ("differ", "unknown"):
        return 998
    return 999 if answer is None else answer[1] + (100 if answer[0] else 0)

def main():
    here = os.path.dirname(os.path.abspath(__file__))
    rows = open(os.path.join(here, "../../crates/cxx_meaning/proofs/Conversions/Rows.antt")).read()
    unfolding = [l for l in rows.split("\n") if l.startswith("unfolding ")][0]
    more = "built_in_result unary_result unary_family_result unary_by follow is_stepped steps_to before after binary_result family_result compound_result compound compound_on binary_by subscripted added added_to subtracted distance beside_integer compared_by compared_pointers assigned usual common_pointer common_other common_class both_ready is_complete_object is_complete_class conditional arms_of arms_of_arithmetic arms_of_enumeration arms_of_pointer arms_of_void shared_pointers"
    head = rows[:rows.index("abbrev Converts")].replace("-- Conversions and their order, worked, each as the standard has it.", "-- Built-in operators, as clang++ and g++ have them: made by bench/meanings/operators.py.")
    out = [head]
    arms = "unfolding is_derived is_pending promoted usual common_pointer common_other common_class both_ready conditional arms_of arms_of_arithmetic arms_of_enumeration arms_of_pointer arms_of_void shared_pointers"
    n = len(OPERANDS)
    results = " ∷ ".join(f"({t})" for _, t in RESULTS) + " ∷ []"
    operands = " ∷ ".join(f"({t})" for _, t in OPERANDS) + " ∷ []"
    out.append(f"""abbrev results : List CxxType
results = {results}

abbrev operands : List CxxOperand
operands = {operands}

abbrev place_from : ℕ → CxxType → List CxxType → ℕ
place_from n t [] = 998
place_from n t (u ∷ us) = if same_type t u then n else place_from (n + 1) t us

-- the place of the type of the whole among the results, 100 more for an lvalue, 999 where there is no meaning
abbrev code_of : Result (Option CxxBuiltIn) ClassId → ℕ
code_of (Ok None) = 999
code_of (Ok (Some whole)) = if whole.lvalue then 100 + place_from 0 (adjusted whole.result) results else place_from 0 (adjusted whole.result) results
code_of (Err class) = 997

-- where the definition and the compilers differ: the operands, and the code of the definition
abbrev differences : (CxxOperand → ℕ) → ℕ → List CxxOperand → List ℕ → List (ℕ × ℕ)
differences given i (one ∷ ones) (code ∷ codes) = if nat_eq code 998 || nat_eq (given one) code then differences given (i + 1) ones codes else (i, given one) ∷ differences given (i + 1) ones codes
differences given i _ _ = []

abbrev unary_of : ℕ → List ℕ → List (ℕ × ℕ)
unary_of operator codes = differences (λ one. code_of (built_in_result graph operator (one ∷ []))) 0 operands codes

abbrev binary_from : ℕ → List CxxOperand → List (List ℕ) → List (List (ℕ × ℕ))
binary_from operator (one ∷ ones) (codes ∷ others) = differences (λ two. code_of (built_in_result graph operator (one ∷ two ∷ []))) 0 operands codes ∷ binary_from operator ones others
binary_from operator _ _ = []

abbrev arms_of_one : CxxOperand → List ℕ → List (ℕ × ℕ)
arms_of_one one codes = differences (λ two. code_of (conditional graph one two)) 0 operands codes

abbrev binary_of : ℕ → List (List ℕ) → List (ℕ × ℕ)
binary_of operator codes = flat_map (λ found. found) (binary_from operator operands codes)
""")
    expressions, keys = [], []
    for s, name in UNARY:
        for i in range(n):
            expressions.append(f"{s} {variable(i)}")
    for s in ("++", "--"):
        for i in range(n):
            expressions.append(f"{variable(i)} {s}")
    for s, name in BINARY:
        for i in range(n):
            for j in range(n):
                expressions.append(f"{variable(i)}[{variable(j)}]" if s == "[]" else f"{variable(i)} {s} {variable(j)}")
    for i in range(n):
        for j in range(n):
            expressions.append(f"b0 ? {variable(i)} : {variable(j)}")
    got = [code(a) for a in answers(expressions)]
    first = (len(UNARY) + 2) * n
    for k, (s, _) in enumerate(BINARY):
        for i in range(n):
            for j in range(n):
                if is_left_out(s, i, j):
                    got[first + (k * n + i) * n + j] = 998
    at = 0
    numbers = lambda cs: " ∷ ".join(map(str, cs)) + " ∷ []"
    for s, name in UNARY:
        out.append(f"-- {s}\nunary_{name} : unary_of punct.{name} ({numbers(got[at:at + n])}) ≡ []\n{unfolding} {more}\nunary_{name} = refl\n")
        at += n
    for s, name in (("++", "INCREMENT"), ("--", "DECREMENT")):
        out.append(f"-- {s} behind its operand\nbehind_{name} : differences (λ one. code_of (built_in_result graph punct.{name} (one ∷ rvalue int ∷ []))) 0 operands ({numbers(got[at:at + n])}) ≡ []\n{unfolding} {more}\nbehind_{name} = refl\n")
        at += n
    for s, name in BINARY:
        lists = []
        for i in range(n):
            lists.append(f"({numbers(got[at:at + n])})")
            at += n
        table = " ∷\n    ".join(lists)
        out.append(f"-- {s}, a line for each left operand\nbinary_{name} : binary_of punct.{name} (\n    {table} ∷ []) ≡ []\n{unfolding} {more}\nbinary_{name} = refl\n")
    for i in range(n):
        codes = [998 if {i, j} == {0, 1} else got[at + j] for j in range(n)]      # here `int` and `const int` give a value
        at += n
        out.append(f"-- {OPERANDS[i][0].replace('@', '')} as the second operand of ? :\narms_{i} : arms_of_one ({OPERANDS[i][1]}) ({numbers(codes)}) ≡ []\n{arms}\narms_{i} = refl\n")
    text = "\n".join(out).rstrip() + "\n"
    uses = """use Rattle.cxx_model.specs.declared.punct.TheConstants as punct
use Rattle.cxx_model.specs.Types.Same.{same_type}
use Rattle.cxx_meaning.specs.Conversions.Arithmetic.{usual}
use Rattle.cxx_meaning.specs.Conversions.BuiltIn.{CxxBuiltIn, built_in_result, unary_result, unary_family_result, unary_by, follow, is_stepped, steps_to, before, after, binary_result, family_result, compound_result, compound, compound_on, binary_by, subscripted, added, added_to, subtracted, distance, beside_integer, compared_by, compared_pointers, assigned}
use Rattle.cxx_meaning.specs.Conversions.Conditional.{conditional, arms_of, arms_of_arithmetic, arms_of_enumeration, arms_of_pointer, arms_of_void, shared_pointers}
use Rattle.cxx_meaning.specs.Conversions.Pointers.{common_pointer, common_other, common_class, both_ready, is_complete_object, is_complete_class}
"""
    text = text.replace("use Rattle.cxx_meaning.specs.declared.steps", uses + "use Rattle.cxx_meaning.specs.declared.steps", 1).replace("{ℕ, ◌≡◌, Bool,", "{ℕ, ◌≡◌, ◌+◌, ◌||◌, nat_eq, flat_map, if◌then◌else◌, Bool,").replace("number_bound, unknown_bound}", "number_bound, unknown_bound, adjusted}")
    text = text.replace("abbrev graph : CxxGraph", "-- and X is declared alone\nabbrev graph : CxxGraph", 1)
    sys.stdout.write(text)
    sys.stderr.write(f"{len(got)} expressions, {sum(g == 998 for g in got)} not asked, {sum(g == 999 for g in got)} refused\n")

main()
