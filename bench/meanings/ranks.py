#!/usr/bin/env python3
"""Asks clang++ and g++ by which rank each fundamental type is converted to each, and writes the ranks as rows that the
definitions must compute. A rank is told by overloaded calls with one argument: a parameter of its own type is preferred to
all others (an exact match), one is preferred to all but that (a promotion), and no two of the others to one another. Nothing
is converted from or to `void`: of that type there is no parameter, and no parameter takes it.

Usage: ranks.py > crates/cxx_meaning_laws/proofs/Ranks.antt"""
import os, re, subprocess, sys, tempfile

COMPILERS = [["clang++", "-std=c++98", "-pedantic-errors", "-w", "-ferror-limit=0"], ["g++", "-std=c++98", "-pedantic-errors", "-w", "-fmax-errors=0"]]
BASES = ["void", "bool", "char", "signed char", "unsigned char", "short", "unsigned short", "int", "unsigned", "long", "unsigned long", "wchar_t", "float", "double", "long double"]
NAMES = ["Void", "Bool", "Char", "SignedChar", "UnsignedChar", "Short", "UnsignedShort", "Int", "Unsigned", "Long", "UnsignedLong", "WideChar", "Float", "Double", "LongDouble"]
PRELUDE = "template<class T> T v();\n"

def bad_lines(compiler, lines):
    with tempfile.TemporaryDirectory() as d:
        p = os.path.join(d, "t.cpp")
        open(p, "w").write(PRELUDE + "\n".join(lines) + "\n")
        r = subprocess.run(compiler + ["-fsyntax-only", p], capture_output=True, text=True)
        return {int(m.group(1)) - 2 for m in re.finditer(r"t\.cpp:(\d+):\d+: (?:fatal )?error", r.stderr)}

def taken(compiler, lines):
    bad = bad_lines(compiler, lines)
    return [i not in bad for i in range(len(lines))]

def ranks(compiler):
    """For each two types the rank of the conversion, or None."""
    n = len(BASES)
    call = lambda k, declarations, wanted, of: f"namespace n{k} {{ {declarations} typedef char t[sizeof(f(v<{of}>())) == {wanted} ? 1 : -1]; }}"
    pairs = [(a, p) for a in range(n) for p in range(n)]
    found = dict(zip(pairs, taken(compiler, [call(k, f"char (&f({BASES[p]} x))[1];", 1, BASES[a]) for k, (a, p) in enumerate(pairs)])))
    triples = [(a, p, q) for a in range(1, n) for p in range(1, n) for q in range(1, n) if p != q]
    first = dict(zip(triples, taken(compiler, [call(k, f"char (&f({BASES[p]}))[1]; char (&f({BASES[q]}))[2];", 1, BASES[a]) for k, (a, p, q) in enumerate(triples)])))
    def rank(a, p):
        if not found[a, p]:
            return None
        loses = [q for q in range(1, n) if q != p and first[a, q, p]]
        wins = [q for q in range(1, n) if q != p and first[a, p, q]]
        others = n - 2
        if len(wins) == others:
            assert p == a
            return "Exact"
        if len(wins) == others - 1 and loses == [a]:
            return "Promotion"
        assert not wins, (BASES[a], BASES[p])
        return "Conversion"
    return [[rank(a, p) for p in range(n)] for a in range(n)]

HEAD = """-- The rank of the conversion from each fundamental type to each, as clang++ and g++ have it: made by bench/meanings/ranks.py.
use Rattle.std.specs.Prelude.{◌≡◌, false, List, [], ◌∷◌, map, Option, Some, None, Ok, refl}
use Rattle.cxx_model.specs.declared.base.Base.{Base}
use Rattle.cxx_model.specs.declared.base.Base.TheVariants as base
use Rattle.cxx_model.specs.declared.sequence.ConstantKind.TheVariants as constant
use Rattle.cxx_model.specs.declared.sequence.Rank.{Rank}
use Rattle.cxx_model.specs.declared.sequence.Rank.TheVariants.{Exact, Promotion, Conversion}
use Rattle.cxx_model.specs.Facts.Declarations.{CxxGraph}
use Rattle.cxx_model.specs.Types.Trees.{fundamental}
use Rattle.cxx_meaning.specs.Conversions.Asking.{Asked}
use Rattle.cxx_meaning.specs.Conversions.Standard.{CxxOperand, CxxStandard, rank, standard_sequence, steps_between, steps_of_value, steps_by_kinds, steps_to_scalar, steps_of_kinds, steps_of_arithmetic, value_step}

abbrev graph : CxxGraph
graph = record { facts = []; classes = []; patterns = [] }

abbrev value : Base → CxxOperand
value of = record { of = fundamental of; lvalue = false; constant = constant.No }

abbrev ranked : Asked (Option CxxStandard) → Option Rank
ranked (Ok (Some one)) = Some (rank one)
ranked _ = None

abbrev bases : List Base
bases = BASES

abbrev ranks : Base → List (Option Rank)
ranks from = map (λ to. ranked (standard_sequence graph (value from) (fundamental to))) bases
"""

def main():
    one, two = (ranks(c) for c in COMPILERS)
    assert one == two
    out = [HEAD.replace("BASES", " ∷ ".join(f"base.{n}" for n in NAMES) + " ∷ []").replace("abbrev bases : List Base\nbases", "abbrev bases : List Base\nbases")]
    for a, row in enumerate(one):
        said = " ∷ ".join("None" if r is None else f"Some {r}" for r in row) + " ∷ []"
        out.append(f"-- {BASES[a]}\nranked_{a + 1} : ranks base.{NAMES[a]} ≡ ({said})\nunfolding standard_sequence steps_between steps_of_value steps_by_kinds steps_to_scalar steps_of_kinds steps_of_arithmetic value_step\nranked_{a + 1} = refl\n")
    sys.stdout.write("\n".join(out).rstrip() + "\n")
    count = {k: sum(r == k for row in one for r in row) for k in ("Exact", "Promotion", "Conversion", None)}
    sys.stderr.write(f"{len(BASES) ** 2} pairs: {count}\n")

main()
