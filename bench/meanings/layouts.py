#!/usr/bin/env python3
"""Asks clang++ and g++ for the sizes of types and of classes, and writes the answers as rows that the definitions must
compute. Layouts in which this profile differs from both compilers on purpose (an empty base takes a byte here, and no
member stands in the padding at the end of a base) are not among them.

Usage: layouts.py > crates/cxx_meaning/proofs/Conversions/Layouts.antt"""
import random, subprocess, sys, tempfile, os

from extents import WORDS, extent

BASES = [("bool", "Bool"), ("char", "Char"), ("short", "Short"), ("int", "Int"), ("unsigned", "Unsigned"), ("long", "Long"), ("wchar_t", "WideChar"), ("float", "Float"), ("double", "Double"), ("long double", "LongDouble")]

def member(r, earlier):
    """A declarator and the type in the definitions."""
    k = r.randrange(10)
    b, n = r.choice(BASES)
    t = f"fundamental base.{n}"
    if k < 5:
        return f"{b} @", t
    if k == 5:
        c = r.randrange(1, 5)
        return f"{b} @[{c}]", f"array_of ({t}) (number_bound {c})"
    if k == 6:
        return f"{b} *@", f"pointer_to ({t})"
    if k == 7:
        c = r.randrange(2, 4)
        return f"{b} *@[{c}]", f"array_of (pointer_to ({t})) (number_bound {c})"
    if earlier and k == 8:
        e = r.choice(earlier)
        return f"K{e} @", f"class_type {e}"
    if earlier and k == 9:
        e = r.choice(earlier)
        return f"K{e} @[2]", f"array_of (class_type {e}) (number_bound 2)"
    return f"{b} @", t

def unit(seed):
    r = random.Random(seed)
    classes = []
    for k in range(r.randrange(1, 4)):
        union = r.random() < 0.2
        virtual = not union and r.random() < 0.25
        base = None
        plain = [i for i, c in enumerate(classes) if not c[0]]
        if plain and not union and r.random() < 0.3:
            base = r.choice(plain)
        members = [member(r, [i for i, c in enumerate(classes) if not (union and False)] if not union else []) for _ in range(r.randrange(0, 5))]
        reference = not union and r.random() < 0.1
        classes.append((union, virtual, base, members, reference))
    return classes

def text(n, classes):
    out = []
    for k, (union, virtual, base, members, reference) in enumerate(classes):
        body = " ".join(m.replace("@", f"m{i}") + ";" for i, (m, _) in enumerate(members))
        if reference:
            body += " int &r;"
        if virtual:
            body += " virtual void f();"
        head = ("union" if union else "struct") + f" K{k}" + (f" : K{base}" if base is not None else "")
        out.append(f"{head} {{ {body} }};")
    return f"namespace n{n} {{ " + " ".join(out) + " }"

def facts(classes):
    out = ["here 0 (facts.scope None kind.Space)"]
    for k, (union, virtual, base, members, reference) in enumerate(classes):
        c = f"(record {{ 0 = {k} }})"
        out.append(f"here 0 (facts.class {c} {'true' if union else 'false'})")
        out.append(f"here 0 (facts.scope (Some (record {{ 0 = 0 }})) (kind.Class {c}))")
        if base is not None:
            out.append(f"here 0 (facts.ancestor {c} (record {{ 0 = {base} }}) 1 Public)")
        for _, t in members:
            out.append(f"here {k + 1} (facts.object ({t}) member.Nonstatic false None None)")
        if reference:
            out.append(f"here {k + 1} (facts.object (reference_to (fundamental base.Int)) member.Nonstatic false None None)")
        if virtual:
            out.append(f"here {k + 1} (facts.function (function_of (fundamental base.Void) no_types false no_words) member.Nonstatic virtual_flags 0 None)")
        out.append(f"here 0 (facts.complete {c})")
    return " ∷ ".join(out) + " ∷ []"

def sizes(units):
    source = "#include <stdio.h>\n" + "\n".join(text(i, u) for i, u in enumerate(units)) + "\nint main() {\n"
    source += "\n".join(f'printf("%d %d\\n", (int)sizeof(n{i}::K{len(u) - 1}), (int)__alignof__(n{i}::K{len(u) - 1}));' for i, u in enumerate(units)) + "\n}\n"
    found = []
    for c in ("clang++", "g++"):
        with tempfile.TemporaryDirectory() as d:
            p = os.path.join(d, "t.cpp")
            open(p, "w").write(source)
            subprocess.run([c, "-std=c++98", "-w", "-c", "-o", os.path.join(d, "t.o"), p], check=True)
            subprocess.run([c, "-std=c++98", "-w", "-Wl,--unresolved-symbols=ignore-all", "-o", os.path.join(d, "t"), os.path.join(d, "t.o")], check=True)
            found.append([tuple(map(int, l.split())) for l in subprocess.run([os.path.join(d, "t")], check=True, capture_output=True, text=True).stdout.split("\n") if l])
    return [a if a == b else None for a, b in zip(*found)]

def differs_on_purpose(classes):
    """A base that is empty or ends in padding."""
    return any(c[2] is not None for c in classes)

def main():
    units, seed = [], 0
    while len(units) < 80:
        u = unit(seed)
        seed += 1
        if not (differs_on_purpose(u) and seed % 3):
            units.append(u)
    out = ["""-- Sizes and alignments of classes, as clang++ and g++ have them: made by bench/meanings/layouts.py.
use Rattle.std.specs.Prelude.{ℕ, ◌≡◌, Bool, true, false, List, [], ◌∷◌, Option, Some, None, Ok, Err, refl}
use Rattle.cxx_model.specs.declared.base.Base.TheVariants as base
use Rattle.cxx_model.specs.declared.facts.Access.TheVariants.{Public}
use Rattle.cxx_model.specs.declared.facts.FunctionFlags.{FunctionFlags}
use Rattle.cxx_model.specs.declared.facts.MemberKind.TheVariants as member
use Rattle.cxx_model.specs.declared.facts.ScopeKind.TheVariants as kind
use Rattle.cxx_model.specs.declared.types.Cv.{Cv}
use Rattle.cxx_model.specs.Facts.Declarations as facts
use Rattle.cxx_model.specs.Facts.Declarations.{CxxFact, CxxGraph, CxxSpecialisation, Declares, unnamed}
use Rattle.cxx_model.specs.Types.Trees.{CxxType, fundamental, class_type, pointer_to, reference_to, array_of, function_of, no_types, number_bound}
use Rattle.cxx_meaning.specs.Conversions.Sizes.{added, class_extent, enumerations_in, extent_of, layouts_of, member_extent, object_extent}

""" + WORDS + extent("three", 3)]
    answers = sizes(units)
    n = 0
    for u, a in zip(units, answers):
        if a is None or differs_on_purpose(u) and not sys.argv[1:]:
            continue
        n += 1
        out.append(f"-- {text(n, u)[len(f'namespace n{n} {{ '):-2]}\nlayout_{n} : HasExtent {len(u) - 1} ({facts(u)}) {a[0]} {a[1]}\nunfolding object_extent extent_of enumerations_in layouts_of class_extent member_extent added\nlayout_{n} = refl\n")
    sys.stdout.write("\n".join(out).rstrip() + "\n")
    sys.stderr.write(f"{n} layouts\n")

main()
