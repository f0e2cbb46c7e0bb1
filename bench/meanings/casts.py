#!/usr/bin/env python3
"""Asks clang++ and g++ which casts they take, and writes the answers on which both agree as rows that the definitions must
compute. Casts that this profile refuses on purpose are not among them: `reinterpret_cast` to the same arithmetic or
enumeration type, from a pointer to any integral type but `long` and `unsigned long`, between pointers to functions and to
objects, and `static_cast` from a floating value to an enumeration.

Usage: casts.py > crates/cxx_meaning/proofs/Conversions/CastRows.antt"""
import random, re, subprocess, sys, tempfile, os

P = "pointer_to ({})"
def const(t): return f"qualified only_const ({t})"
def volatile(t): return f"qualified only_volatile ({t})"
INT, CHAR, LONG, DOUBLE, BOOL = (f"fundamental base.{n}" for n in ("Int", "Char", "Long", "Double", "Bool"))
ULONG, VOID, E, B, D = "fundamental base.UnsignedLong", "fundamental base.Void", "enumeration 0", "class_type 0", "class_type 1"
F = f"function_of ({VOID}) no_types false no_cv"
G = f"function_of ({INT}) (type_then ({INT}) no_types) false no_cv"

# a declarator with the place of the name, the type in the definitions, and what it is: a number, a pointer to an object, to a
# function, or another
TYPES = [
    ("int @", INT, "number"), ("const int @", const(INT), "number"), ("char @", CHAR, "number"), ("long @", LONG, "number"),
    ("unsigned long @", ULONG, "number"), ("double @", DOUBLE, "floating"), ("bool @", BOOL, "number"), ("E @", E, "enum"),
    ("int *@", P.format(INT), "object"), ("const int *@", P.format(const(INT)), "object"), ("volatile int *@", P.format(volatile(INT)), "object"),
    ("int *const @", const(P.format(INT)), "object"), ("char *@", P.format(CHAR), "object"), ("const char *@", P.format(const(CHAR)), "object"),
    ("void *@", P.format(VOID), "object"), ("const void *@", P.format(const(VOID)), "object"), ("int **@", P.format(P.format(INT)), "object"),
    ("const int **@", P.format(P.format(const(INT))), "object"), ("int *const *@", P.format(const(P.format(INT))), "object"),
    ("const int *const *@", P.format(const(P.format(const(INT)))), "object"), ("E *@", P.format(E), "object"),
    ("B *@", P.format(B), "object"), ("const B *@", P.format(const(B)), "object"), ("D *@", P.format(D), "object"),
    ("const D *@", P.format(const(D)), "object"), ("void (*@)()", P.format(F), "function"), ("int (*@)(int)", P.format(G), "function"),
    ("int (*@)[3]", P.format(f"array_of ({INT}) (number_bound 3)"), "object"),
]
SOURCES = TYPES + [("int @[3]", f"array_of ({INT}) (number_bound 3)", "object"), ("B @", B, "class"), ("D @", D, "class"), ("const B @", const(B), "class"), ("const D @", const(D), "class")]
REFERENCES = [("int &@", INT), ("const int &@", const(INT)), ("char &@", CHAR), ("const char &@", const(CHAR)), ("int *&@", P.format(INT)), ("const int *&@", P.format(const(INT))), ("B &@", B), ("const B &@", const(B)), ("D &@", D), ("const D &@", const(D)), ("E &@", E), ("void (&@)()", F)]
TARGETS = TYPES + [("void @", VOID, "void")] + [(d, f"reference_to ({t})", "reference") for d, t in REFERENCES]
CASTS = ["const_cast", "static_cast", "reinterpret_cast", "cast"]

def on_purpose(cast, source, target):
    s, t = source[2], target[2]
    if cast in ("reinterpret_cast", "cast"):
        if s in ("number", "enum", "floating") and t in ("number", "enum", "floating") and cast == "reinterpret_cast":
            return True
        if s in ("object", "function") and t == "number" and target[1] not in (LONG, ULONG):
            return True
        if {s, t} == {"object", "function"} or "(&@)()" in target[0] or t == "reference" and s == "function":
            return True
    return s == "floating" and t == "enum"

def lines(cases):
    out = ["enum E { e0 }; struct B { int b; }; struct D : B { int d; };"]
    for n, (cast, source, target) in enumerate(cases):
        t = target[0].replace("@", "")
        call = f"({t})x{n}" if cast == "cast" else f"{cast}<{t}>(x{n})"
        parameter = "extern " + source[0].replace("@", f"x{n}") + ";"
        out.append(f"void f{n}() {{ {parameter} {call}; }}")
    return out

def refused(compiler, text):
    with tempfile.TemporaryDirectory() as d:
        p = os.path.join(d, "t.cpp")
        open(p, "w").write("\n".join(text) + "\n")
        flags = ["-ferror-limit=0"] if compiler == "clang++" else ["-fmax-errors=0"]
        r = subprocess.run([compiler, "-std=c++98", "-w", "-fsyntax-only", *flags, p], capture_output=True, text=True)
        return {int(m.group(1)) for m in re.finditer(r"t\.cpp:(\d+):\d+: error", r.stderr)}

def main():
    r = random.Random(7)
    cases = [(c, s, t) for c in CASTS for s in SOURCES for t in TARGETS if not on_purpose(c, s, t)]
    r.shuffle(cases)
    text = lines(cases)
    clang, gcc = refused("clang++", text), refused("g++", text)
    rows, differ = {True: [], False: []}, 0
    for n, case in enumerate(cases):
        a, b = (n + 2) not in clang, (n + 2) not in gcc
        if a != b:
            differ += 1
            continue
        rows[a].append(case)
    out = ["""-- Casts of objects that clang++ and g++ both take, or both refuse: made by bench/meanings/casts.py.
use Rattle.std.specs.Prelude.{ℕ, ◌≡◌, Bool, true, false, List, [], ◌∷◌, Option, Some, None, Result, Ok, Err, pos, refl}
use Rattle.cxx_model.specs.declared.base.Base.TheVariants as base
use Rattle.cxx_model.specs.declared.facts.Access.TheVariants.{Public}
use Rattle.cxx_model.specs.declared.facts.ScopeKind.TheVariants as kind
use Rattle.cxx_model.specs.declared.sequence.ConstantKind.TheVariants as constant
use Rattle.cxx_model.specs.declared.types.Cv.{Cv}
use Rattle.cxx_model.specs.Facts.Declarations as facts
use Rattle.cxx_model.specs.Facts.Declarations.{CxxFact, CxxGraph, Declares, unnamed}
use Rattle.cxx_model.specs.Facts.Pending.{is_pending}
use Rattle.cxx_model.specs.Types.Trees.{CxxType, fundamental, class_type, enumeration, pointer_to, reference_to, array_of, function_of, qualified, no_types, type_then, number_bound}
use Rattle.cxx_meaning.specs.Conversions.Asking.{Asked}
use Rattle.cxx_meaning.specs.Conversions.Casts.{CxxCast, added, between, cast, cast_between, cast_by_two, cast_else, cast_operand, cast_unless, const_cast, goes_down, reinterpret_cast, static_cast, static_kinds, static_objects, static_only, static_pointers, static_unless}
use Rattle.cxx_meaning.specs.Conversions.Derived.{is_derived}
use Rattle.cxx_meaning.specs.Conversions.Enumerations.{promoted}
use Rattle.cxx_meaning.specs.Conversions.Kinds.{no_cv}
use Rattle.cxx_meaning.specs.Conversions.Standard.{CxxOperand, only_const, class_step, is_text, pointer_to_class, pointer_to_other, related, related_kinds, step_of_enumeration, steps_between, steps_by_kinds, steps_by_relation, steps_of_arithmetic, steps_of_enumeration, steps_of_kinds, steps_of_pointer, steps_of_pointers, steps_of_reference, steps_of_related, steps_of_unrelated, steps_of_value, steps_to_class, steps_to_scalar, value_step}

abbrev only_volatile : Cv
only_volatile = record { is_const = false; is_volatile = true }

abbrev here : ℕ → Declares → CxxFact
here scope what = record { place = record { line = 1; column = 1 }; scope = scope; name = unnamed; access = Public; what = what }

-- enum E { e0 }; struct B { int b; }; struct D : B { int d; };
abbrev sample : CxxGraph
sample = record { facts = here 0 (facts.scope None kind.Space) ∷ here 0 (facts.enumeration 0) ∷ here 0 (facts.enumerator 0 (pos 0)) ∷ here 0 (facts.class (record { 0 = 0 }) false) ∷ here 0 (facts.complete (record { 0 = 0 })) ∷ here 0 (facts.class (record { 0 = 1 }) false) ∷ here 0 (facts.ancestor (record { 0 = 1 }) (record { 0 = 0 }) 1 Public) ∷ here 0 (facts.complete (record { 0 = 1 })) ∷ []; classes = None ∷ None ∷ []; patterns = [] }

abbrev object_of : CxxType → CxxOperand
object_of t = record { of = t; lvalue = true; constant = constant.No }

abbrev is_some : Asked (Option CxxCast) → Bool
is_some (Ok (Some found)) = true
is_some _ = false

abbrev is_yes : Asked Bool → Bool
is_yes (Ok true) = true
is_yes _ = false
"""]
    unfold = "unfolding added between cast cast_between cast_by_two cast_else cast_operand cast_unless const_cast goes_down reinterpret_cast static_cast static_kinds static_objects static_only static_pointers static_unless is_derived is_pending promoted class_step is_text pointer_to_class pointer_to_other related related_kinds step_of_enumeration steps_between steps_by_kinds steps_by_relation steps_of_arithmetic steps_of_enumeration steps_of_kinds steps_of_pointer steps_of_pointers steps_of_reference steps_of_related steps_of_unrelated steps_of_value steps_to_class steps_to_scalar value_step"
    count = int(sys.argv[1]) if sys.argv[1:] else 120
    n = 0
    for taken in (True, False):
        for cast, source, target in rows[taken][:count]:
            n += 1
            call = {"const_cast": f"const_cast (object_of ({source[1]})) ({target[1]})", "reinterpret_cast": f"reinterpret_cast (object_of ({source[1]})) ({target[1]})", "static_cast": f"is_yes (static_cast sample true (object_of ({source[1]})) ({target[1]}))", "cast": f"is_some (cast sample true (object_of ({source[1]})) ({target[1]}))"}[cast]
            t = target[0].replace("@", "")
            shown = f"({t})x" if cast == "cast" else f"{cast}<{t}>(x)"
            out.append(f"-- {source[0].replace('@', 'x')}; {shown}\ncast_{n} : {call} ≡ {'true' if taken else 'false'}\n{unfold}\ncast_{n} = refl\n")
    sys.stdout.write("\n".join(out).rstrip() + "\n")
    sys.stderr.write(f"{n} rows, {len(cases)} casts, {differ} on which the compilers differ\n")

main()
