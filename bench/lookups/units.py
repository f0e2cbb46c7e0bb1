#!/usr/bin/env python3
"""Random namespaces and classes with lookups in them, as rows of crates/cxx_lookup_tests (its src/rows.rt says how they are
written). What each lookup finds is worked out here by the rules of 3.4.1, 3.4.3.2, 7.3.3, 7.3.4 and 10.2, over lists of all
paths, and a row is written only where clang++ and g++ find the same.

Usage: units.py SEED COUNT"""
import random, re, subprocess, sys, tempfile, os

COMPILERS = [["clang++", "-std=c++98", "-w", "-ferror-limit=0", "-fsyntax-only"], ["g++", "-std=c++98", "-w", "-fmax-errors=0", "-fsyntax-only"]]


def errors(compiler, text):
    with tempfile.TemporaryDirectory() as d:
        path = os.path.join(d, "t.cpp")
        with open(path, "w") as f:
            f.write(text)
        run = subprocess.run(compiler + [path], capture_output=True, text=True)
        found = {}
        for m in re.finditer(r"t\.cpp:(\d+):\d+: (?:fatal )?error: (.*)", run.stderr):
            found.setdefault(int(m.group(1)), []).append(m.group(2))
        return found


class Unit:
    """Facts and text, side by side. Fact 0 is the scope of the unit."""

    def __init__(self):
        self.words = []           # words of the row
        self.facts = [("s", 0)]   # what each fact is
        self.scopes = [(None, "s", None)]  # parent, kind, class
        self.text = []
        self.queries = []         # (word, first part of a line, expected, line numbers)

    def fact(self, word, *what):
        self.words.append(word)
        self.facts.append(what)
        return len(self.facts) - 1

    def open(self, kind, parent, of=None):
        self.fact(f"{kind}{parent}" + (f",{of}" if of is not None else ""), kind, parent)
        self.scopes.append((parent, kind, of))
        return len(self.scopes) - 1

    def chain(self, scope):
        out = []
        while scope is not None:
            out.append(scope)
            scope = self.scopes[scope][0]
        return out

    # ---- the declarations of x

    def own(self, scope):
        """(scope, the declaration meant) of each x that stands in a scope"""
        out = []
        for number, what in enumerate(self.facts):
            if what[0] in "ofCdazmyt" and what[1] == scope:
                out.append((scope, number))
            if what[0] == "u" and what[1] == scope:
                out.append((scope, what[2]))
        return out

    def is_function(self, number):
        return self.facts[number][0] in "fmz"

    def unhidden(self, seen):
        return [(s, n) for s, n in seen if not (self.facts[n][0] in "C" and any(t == s and self.facts[m][0] in "ofdazm" for t, m in seen))]

    def result(self, seen):
        facts = sorted({n for s, n in self.unhidden(seen)})
        if not facts:
            return None
        for n in facts[1:]:
            if not (self.is_function(facts[0]) and self.is_function(n)):
                return ("two", facts[0], n)
        return ("set", facts)

    def nominated(self, scope):
        return [what[2] for what in self.facts if what[0] == "D" and what[1] == scope]

    def reached(self, scope):
        out, work = [], self.nominated(scope)
        while work:
            n = work.pop(0)
            if n not in out:
                out.append(n)
                work += self.nominated(n)
        return out

    def ordinary(self, scope):
        chain = self.chain(scope)
        for at in chain:
            seen = list(self.own(at))
            for inner in chain[: chain.index(at) + 1]:
                for n in self.reached(inner):
                    common = [s for s in self.chain(inner) if s in self.chain(n) and self.scopes[s][1] == "s"][0]
                    if common == at:
                        seen += self.own(n)
            found = self.result(seen)
            if found:
                return found
        return None

    def qualified(self, space):
        visited, seen, work = [], [], [space]
        while work:
            n = work.pop(0)
            if n in visited:
                continue
            visited.append(n)
            own = self.own(n)
            seen += own
            if not own:
                work += self.nominated(n)
        return self.result(seen)

    # ---- members

    def members(self, scope, own):
        """10.2 with all paths: pairs of a declaration and a path, those hidden left out"""
        pairs = []

        def walk(c, path):
            for number in own[c][1]:
                pairs.append((tuple(path), number, c))
            for i, base in enumerate(own[c][0]):
                walk(base, path + [i + 1])

        walk(scope, [])
        left = [p for p in pairs if not any(q[0] == p[0][: len(q[0])] and len(q[0]) < len(p[0]) for q in pairs)]
        left = [p for p in left if not (self.facts[p[1]][0] == "C" and any(q[0] == p[0] and self.facts[q[1]][0] in "dazm" for q in left))]
        left.sort(key=lambda p: (p[0], p[1]))
        if not left:
            return "-"
        first = left[0]
        nonstatic = lambda p: self.facts[p[1]][0] in "dm"
        show = lambda p: f"{p[1]}@{'.'.join(map(str, p[0]))}"
        for other in left[1:]:
            if other[2] != first[2] or (other[0] != first[0] and (nonstatic(first) or nonstatic(other))):
                return show(first) + "/" + show(other)
        facts = sorted({p[1] for p in left})
        return ",".join(map(str, facts)) + f"@{'.'.join(map(str, first[0]))}"


def shown(found):
    if not found:
        return "-"
    if found[0] == "two":
        return f"{found[1]}/{found[2]}"
    return ",".join(map(str, found[1]))


def declared(kind, number):
    return {
        "o": f"extern char x[{number}];",
        "f": f"char (&x(char (*)[{number}]))[{number}];",
        "C": f"struct x {{ char m[{number}]; }};",
        "d": f"char x[{number}];",
        "a": f"static char x[{number}];",
        "m": f"char (&x(char (*)[{number}]))[{number}];",
        "z": f"static char (&x(char (*)[{number}]))[{number}];",
    }[kind]


def tests(name, numbers, unit, unique):
    """a line for each declaration that may be found"""
    for n in numbers:
        if unit.is_function(n):
            yield n, f"typedef char q{next(unique)}[sizeof({name}((char (*)[{n}])0)) == {n} ? 1 : -1];"
        else:
            yield n, f"typedef char q{next(unique)}[sizeof({name}) == {n} ? 1 : -1];"


def counter():
    n = 0
    while True:
        n += 1
        yield n


def judged(unit, queries, text, spans):
    """the queries for which both compilers find what is expected"""
    answers = [errors(c, text) for c in COMPILERS]
    lines_of_queries = {line for q in spans for line, n in q}
    if any(line not in lines_of_queries for a in answers for line in a):
        return None
    good = []
    for (word, expected), span in zip(queries, spans):
        ok = True
        for a in answers:
            passed = sorted(n for line, n in span if line not in a)
            text_of = " ".join(" ".join(a.get(line, [])) for line, n in span)
            if "/" in expected:
                ok = ok and not passed and ("ambiguous" in text_of or "multiple base" in text_of)
            elif expected.endswith("-"):
                # g++ says only once in a function that a name is not declared
                ok = ok and ("declared" in text_of or "no member" in text_of or "not a member" in text_of) and "ambiguous" not in text_of and "multiple base" not in text_of
            else:
                numbers = sorted(int(n) for n in expected.split(":")[-1].split("@")[0].split(","))
                ok = ok and passed == numbers
        if ok:
            good.append(f"?{word}={expected}")
        else:
            sys.stderr.write(f"differs: {word} {expected}: {' '.join(unit.words)}\n")
    return good


def spaces(rng):
    unit, unique = Unit(), counter()
    names = {0: ""}
    lines = []

    def inside(scope, code):
        path = []
        s = scope
        while s != 0:
            path.append(s)
            s = unit.scopes[s][0]
        return " ".join(f"namespace N{p} {{" for p in reversed(path)) + " " + code + " }" * len(path)

    def path(scope):
        return "" if scope == 0 else path(unit.scopes[scope][0]) + f"::N{scope}"

    def spaces_now():
        return [i for i, s in enumerate(unit.scopes) if s[1] == "s"]

    def can(scope, kind):
        kinds = [unit.facts[n][0] for _, n in unit.own(scope)]
        return not ("o" in kinds or (kind == "o" and "f" in kinds) or (kind == "f" and "o" in kinds) or (kind == "C" and "C" in kinds))

    for _ in range(rng.randint(6, 18)):
        at = rng.choice(spaces_now())
        what = rng.choice("sssoofffCDDDDuu")
        if what == "s" and len(spaces_now()) < 8:
            unit_scope = unit.open("s", at)
            lines.append(inside(unit_scope, ""))
        elif what in "ofC" and can(at, what):
            n = len(unit.facts)
            classes_so_far = sum(w.startswith("+") for w in unit.words)
            unit.fact({"o": f"o{at},23", "f": f"f{at},23,3", "C": f"+ C{at},23,{classes_so_far}"}[what], what, at)
            lines.append(inside(at, declared(what, n)))
        elif what == "D":
            to = rng.choice(spaces_now())
            if to != 0:
                unit.fact(f"D{at},{to}", "D", at, to)
                lines.append(inside(at, f"using namespace {path(to)};"))
        elif what == "u":
            source = rng.choice(spaces_now())
            targets = sorted({n for _, n in unit.own(source)})
            if source != at and targets:
                for t in targets:
                    unit.fact(f"u{at},23,{t}", "u", at, t)
                lines.append(inside(at, f"using {path(source)}::x;"))
    queries, spans = [], []
    text = list(lines)
    numbers = [n for n, f in enumerate(unit.facts) if f[0] in "ofC"]

    def ask(word, name, expected, wrap):
        span = []
        for n, code in tests(name, numbers, unit, unique):
            text.append(wrap(code))
            span.append((len(text), n))
        queries.append((word, expected))
        spans.append(span)

    for at in spaces_now():
        ask(f"o{at},23", "x", shown(unit.ordinary(at)), lambda code: inside(at, code))
        if at != 0:
            ask(f"q{at},23", path(at) + "::x", shown(unit.qualified(at)), lambda code: code)
    for g in range(rng.randint(0, 2)):
        at = rng.choice(spaces_now())
        outer = unit.open("b", unit.open("p", at))
        body = []
        for _ in range(rng.randint(1, 3)):
            to = rng.choice(spaces_now())
            if to != 0 and rng.random() < 0.7:
                unit.fact(f"D{outer},{to}", "D", outer, to)
                body.append(f"using namespace {path(to)};")
            elif rng.random() < 0.3 and not unit.own(outer):
                n = len(unit.facts)
                unit.fact(f"o{outer},23", "o", outer)
                numbers.append(n)
                body.append(f"char x[{n}];")
        inner = unit.open("b", outer)
        to = rng.choice(spaces_now())
        more = []
        if to != 0:
            unit.fact(f"D{inner},{to}", "D", inner, to)
            more.append(f"using namespace {path(to)};")
        start = inside(at, f"void g{g}() {{ " + " ".join(body) + " { " + " ".join(more)).rstrip()
        closing = " }" * (len(unit.chain(at)) - 1)
        head = start[: len(start) - len(closing)] if closing else start
        text.append(head)
        ask(f"o{inner},23", "x", shown(unit.ordinary(inner)), lambda code: code)
        text.append("}")
        ask(f"o{outer},23", "x", shown(unit.ordinary(outer)), lambda code: code)
        text.append("}" + closing)
    return unit, queries, "\n".join(text) + "\n", spans


def classes(rng):
    unit, unique = Unit(), counter()
    own, scopes, text, late = {}, {}, [], []
    count = rng.randint(3, 8)
    for c in range(count):
        bases = sorted(rng.sample(range(c), min(c, rng.choice([0, 1, 1, 2, 2, 3])))) if c else []
        rng.shuffle(bases)
        unit.words.append("+")
        unit.fact(f"C0,{c},{c}", "n", 0)
        scope = unit.open("c", 0, c)
        unit.fact(f"i{scope},{c},{c}", "n", scope)
        for i, b in enumerate(bases):
            unit.fact(f"B{scope},{c},{b},{i + 1}", "B", scope)
        body, numbers = [], []
        if rng.random() < (0.9 if c < 2 else 0.35):
            kinds = rng.choice(["d", "d", "a", "C", "m", "z", "mm", "zz", "mz", "zm", "Cd", "Cm", "Ca", "d", "m"])
            for kind in kinds:
                n = len(unit.facts)
                unit.fact({"d": f"d{scope},23", "a": f"a{scope},23", "m": f"m{scope},23,3", "z": f"z{scope},23,3"}.get(kind) or f"+ C{scope},23,{c}", kind, scope)
                body.append(declared(kind, n))
                numbers.append(n)
        unit.fact(f"K{scope},{c}", "K", scope)
        own[c], scopes[c] = (bases, numbers), scope
        heads = ", ".join(f"C{b}" for b in bases)
        text.append(f"struct C{c}" + (f" : {heads}" if heads else "") + " { " + " ".join(body) + f" void t{c}(); }};")
    unit.words = [w.replace("+ C", "C") for w in unit.words]
    queries, spans = [], []
    numbers = [n for c in own for n in own[c][1]]
    for c in range(count):
        block = unit.open("b", scopes[c])
        expected = unit.members(c, own)
        text.append(f"void C{c}::t{c}() {{")
        span = []
        for n, code in tests("x", numbers, unit, unique):
            text.append(code)
            span.append((len(text), n))
        text.append("}")
        for word in [f"m{c},23", f"o{block},23"]:
            queries.append((word, expected if word[0] == "m" or expected == "-" else f"c{c}:{expected}"))
            spans.append(span)
    return unit, queries, "\n".join(text) + "\n", spans


def main():
    rng = random.Random(int(sys.argv[1]))
    left = int(sys.argv[2])
    turn = 0
    while left > 0:
        turn += 1
        unit, queries, text, spans = (spaces if turn % 2 else classes)(rng)
        good = judged(unit, queries, text, spans)
        if good:
            print(" ".join(unit.words), " ".join(good))
            left -= 1


main()
