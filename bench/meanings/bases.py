#!/usr/bin/env python3
"""Asks clang++ and g++ for the sizes of classes with bases, and writes rows that the definitions must compute: the size and
the alignment by the rule of this profile, worked out here, and beside them what both compilers have where that is another.
The profile gives each base its whole size, and an empty one a byte; both compilers let members stand in the padding at the
end of some bases, and let an empty base take nothing.

Usage: bases.py > crates/cxx_meaning_laws/proofs/Bases.antt"""
import os, random, subprocess, sys, tempfile

from extents import WORDS, extent

BASES = [("bool", "Bool", 1), ("char", "Char", 1), ("short", "Short", 2), ("int", "Int", 4), ("unsigned", "Unsigned", 4), ("long", "Long", 8), ("wchar_t", "WideChar", 4), ("float", "Float", 4), ("double", "Double", 8), ("long double", "LongDouble", 16)]

class Class:
    def __init__(self, bases, members, virtual):
        self.bases, self.members, self.virtual = bases, members, virtual

def unit(seed):
    r = random.Random(seed)
    classes = []
    for k in range(r.randrange(2, 5)):
        free = list(range(k))
        bases = []
        if k:
            for b in r.sample(free, min(k, r.choice([0, 1, 1, 2]))):
                # a base that is reached twice is left out: both compilers warn of it
                if not any(shares(classes, b, o) for o in bases):
                    bases.append(b)
        members = [r.choice(BASES) for _ in range(r.randrange(0, 4))]
        classes.append(Class(bases, members, r.random() < 0.2))
    return classes

def above(classes, k):
    return {k}.union(*(above(classes, b) for b in classes[k].bases))

def shares(classes, one, two):
    return bool(above(classes, one) & above(classes, two))

def rounded(n, a):
    return (n + a - 1) // a * a

def layout(classes, k):
    """By the rule of this profile: the size, the alignment, and whether the class is polymorphic."""
    c = classes[k]
    parts = [layout(classes, b) for b in c.bases]
    polymorphic = c.virtual or any(p[2] for p in parts)
    size = 8 if polymorphic and not any(p[2] for p in parts) else 0
    alignment = 8 if polymorphic else 1
    for s, a in [(p[0], p[1]) for p in parts] + [(m[2], m[2]) for m in c.members]:
        size = rounded(size, a) + s
        alignment = max(alignment, a)
    return rounded(max(size, 1), alignment), alignment, polymorphic

def text(classes):
    out = []
    for k, c in enumerate(classes):
        body = " ".join(f"{m[0]} m{i};" for i, m in enumerate(c.members)) + (" virtual void f();" if c.virtual else "")
        head = f"struct K{k}" + (" : " + ", ".join(f"K{b}" for b in c.bases) if c.bases else "")
        out.append(f"{head} {{ {body.strip()} }};")
    return " ".join(out)

def facts(classes):
    out = ["here 0 (facts.scope None kind.Space)"]
    for k, c in enumerate(classes):
        n = f"(record {{ 0 = {k} }})"
        out.append(f"here 0 (facts.class {n} false)")
        out.append(f"here 0 (facts.scope (Some (record {{ 0 = 0 }})) (kind.Class {n}))")
        for b in c.bases:
            out.append(f"here {k + 1} (facts.ancestor {n} (record {{ 0 = {b} }}) 1 Public)")
        for m in c.members:
            out.append(f"here {k + 1} (facts.object (fundamental base.{m[1]}) member.Nonstatic false None None)")
        if c.virtual:
            out.append(f"here {k + 1} (facts.function (function_of (fundamental base.Void) no_types false no_words) member.Nonstatic virtual_flags 0 None)")
        out.append(f"here 0 (facts.complete {n})")
    return " ∷ ".join(out) + " ∷ []"

def sizes(units):
    source = "#include <stdio.h>\n" + "\n".join(f"namespace n{i} {{ {text(u)} }}" for i, u in enumerate(units)) + "\nint main() {\n"
    source += "\n".join(f'printf("%d %d\\n", (int)sizeof(n{i}::K{len(u) - 1}), (int)__alignof__(n{i}::K{len(u) - 1}));' for i, u in enumerate(units)) + "\n}\n"
    found = []
    for c in ("clang++", "g++"):
        with tempfile.TemporaryDirectory() as d:
            p = os.path.join(d, "t.cpp")
            open(p, "w").write(source)
            subprocess.run([c, "-std=c++98", "-w", "-c", "-o", os.path.join(d, "t.o"), p], check=True)
            subprocess.run([c, "-std=c++98", "-w", "-Wl,--unresolved-symbols=ignore-all", "-o", os.path.join(d, "t"), os.path.join(d, "t.o")], check=True)
            found.append([tuple(map(int, l.split())) for l in subprocess.run([os.path.join(d, "t")], check=True, capture_output=True, text=True).stdout.split("\n") if l])
    assert found[0] == found[1]
    return found[0]

HEAD = """-- Sizes and alignments of classes with bases, with what clang++ and g++ have where that is another: made by
-- bench/meanings/bases.py.
use Rattle.std.specs.Prelude.{ℕ, ◌≡◌, true, false, List, [], ◌∷◌, Option, Some, None, Ok, refl}
use Rattle.cxx_model.specs.declared.base.Base.TheVariants as base
use Rattle.cxx_model.specs.declared.facts.Access.TheVariants.{Public}
use Rattle.cxx_model.specs.declared.facts.FunctionFlags.{FunctionFlags}
use Rattle.cxx_model.specs.declared.facts.MemberKind.TheVariants as member
use Rattle.cxx_model.specs.declared.facts.ScopeKind.TheVariants as kind
use Rattle.cxx_model.specs.declared.types.Cv.{Cv}
use Rattle.cxx_model.specs.Facts.Declarations as facts
use Rattle.cxx_model.specs.Facts.Declarations.{CxxFact, CxxSpecialisation, Declares, unnamed}
use Rattle.cxx_model.specs.Types.Trees.{fundamental, class_type, function_of, no_types}
use Rattle.cxx_meaning.specs.Conversions.Sizes.{added, class_extent, enumerations_in, extent_of, layouts_of, member_extent, object_extent}

""" + WORDS + extent("four", 4)

def main():
    units, seen, seed = [], set(), 0
    while len(units) < 30:
        u = unit(seed)
        seed += 1
        if u[-1].bases and text(u) not in seen:
            seen.add(text(u))
            units.append(u)
    out, others = [HEAD], 0
    for n, (u, theirs) in enumerate(zip(units, sizes(units))):
        size, alignment, _ = layout(u, len(u) - 1)
        assert alignment == theirs[1]
        said = "" if theirs[0] == size else f" (both compilers: {theirs[0]})"
        others += bool(said)
        out.append(f"-- {text(u)}{said}\nlayout_{n + 1} : HasExtent {len(u) - 1} ({facts(u)}) {size} {alignment}\nunfolding object_extent extent_of enumerations_in layouts_of class_extent member_extent added\nlayout_{n + 1} = refl\n")
    sys.stdout.write("\n".join(out).rstrip() + "\n")
    sys.stderr.write(f"{len(units)} layouts, of which the compilers have {others} otherwise\n")

main()
