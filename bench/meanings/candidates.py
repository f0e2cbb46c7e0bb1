#!/usr/bin/env python3
"""Writes the rows of crates/cxx_candidate_tests (its src/rows.rt says how they are written): random classes with conversion
functions, operators on them, and the types of the parameters of the built-in candidates.

What is expected is worked out here from the text of 13.6 p3 to p23, over the pointers and enumerations that the operands have
or that the conversion functions of their classes give; pointers to members (p11, p16) and ?: (p24, p25) are not among them. The
standard has no order of candidates; that of the rows is: the arithmetic ones first and then those of the other paragraphs of
an operator in turn, the left type slowest, the types as ARITHMETIC has them, the pointers and enumerations as the operands and,
for each, the declarations of its conversion functions have them, and behind each candidate that changes an object the one for
a volatile object.

Then both compilers are asked. They list built-in candidates where an operator is ambiguous, and only those that are viable and
not worse than others; so each class gets besides its own conversion functions
  - template<class T> operator T&(), by which each candidate is viable and no better than others, and which gives the compilers
    no type for which they make candidates;
  - operator volatile int&(), since clang++ lists candidates for volatile objects only where a conversion function gives a
    volatile type, and arithmetic candidates only where one gives an arithmetic type or an enumeration.
No candidate of = is viable for a class on the left (13.3.1.2 p4), and its overloads are members: its rows stand by 13.6 alone.
Each operator has an overload for a class Q too, so that a single built-in candidate is ambiguous with it; where
there is no built-in candidate the overload is chosen, and there is no error.

Compared with clang++: all candidates, as sets, where each operand is a class. Left out are
  - candidates with a type that C++98 has not (long long, __int128, __float128, char16_t, char32_t);
  - more words of cv: clang++ adds to each pointer those that it finds anywhere in the operands' conversions;
  - sides: clang++ has (T*, ptrdiff_t) and (T*&, ptrdiff_t) only for the T of the left operand, and (ptrdiff_t, T*) only for
    those of the right one, while 13.6 p13 and p21 have both for each T;
  - references to functions: clang++ has no pointer for a function to which a conversion function gives a reference.
Compared with g++: each candidate that it lists is one of 13.6, but for more words of cv (the common type of two pointers); and
all that are of pointers and enumerations and change no object, as sets. g++ lists no other arithmetic types than those
that the operands have and their conversions give, promoted, changes no object but those to which a conversion gives a
reference, has the sides of clang++, and need not list a candidate of two pointers or enumerations of one type where but one
operand gives it; where it has but one candidate for [] there is no ambiguity and no list.
Where an operand is no class, only the best candidates are listed: each must be one of 13.6.

No row is written for which a compiler differs beyond this.

Usage: candidates.py FOLDER-OF-THE-CRATE"""
import os, random, re, subprocess, sys, tempfile

CLANG = ["clang++", "-std=c++98", "-w", "-ferror-limit=0", "-fshow-overloads=all", "-fno-caret-diagnostics", "-fsyntax-only"]
GCC = ["g++", "-std=c++98", "-w", "-fmax-errors=0", "-fno-diagnostics-show-caret", "-fsyntax-only"]

# ---- types: letters, a base first and then what is around it

NAMES = {"v": "void", "b": "bool", "c": "char", "a": "signed char", "h": "unsigned char", "s": "short", "t": "unsigned short", "w": "wchar_t",
         "i": "int", "j": "unsigned int", "l": "long", "m": "unsigned long", "f": "float", "d": "double", "e": "long double"}
# 13.6 p2, 3.9.1
PROMOTED_INTEGRAL = "ijlm"
PROMOTED = PROMOTED_INTEGRAL + "fde"
INTEGRAL = "bcahstw" + PROMOTED_INTEGRAL
ARITHMETIC = "bcahstw" + PROMOTED


def is_function(t):
    return t.endswith("(")


def is_array(t):
    return "[" in t and not any(x in t[t.index("["):] for x in "*&(")


def without_words(t):
    """without const and volatile of its own (3.9.3)"""
    return t.rstrip("ky")


def is_object(t):
    """3.9 p9"""
    return not is_function(t) and without_words(t) != "v"


def value(t):
    """the type of a value: references looked through, 4.2 and 4.3, no words of cv"""
    if t.endswith("&"):
        t = t[:-1]
    if is_function(t):
        return t + "*"
    if is_array(t):
        # the outermost bound stands last
        i = t.index("[")
        return t[:i] + t[i + 1:] + "*"
    return without_words(t)


def declared(t, name=""):
    """a declaration of a name of a type"""
    base, around = t[0], t[1:]
    words = ""
    while around and around[0] in "ky":
        words += {"k": "const ", "y": "volatile "}[around[0]]
        around = around[1:]
    text = name
    last = ""
    for x in reversed(around):
        if x in "[(" and last in ("*", "&") and last:
            text = f"({text})"
        if x == "*":
            text = "*" + text
        elif x == "&":
            text = "&" + text
        elif x == "k":
            text = "const " + text
        elif x == "y":
            text = "volatile " + text
        elif x == "[":
            text = text + "[3]"
        elif x == "(":
            text = text + "()"
        # words stand behind a star
        last = x if x in "*&[(" else "*"
    base = NAMES.get(base) or (f"E{base}" if base.isdigit() else base)
    return f"{words}{base} {text}".strip()


def plain(text):
    """the text of a type without what the compilers write differently"""
    text = re.sub(r"[\w:]+ \{aka ([^{}]*)\}", r"\1", text)
    text = re.sub(r"\b(enum|struct) ", "", text.replace("_Bool", "bool").replace("(void)", "()"))
    for old, new in (("short int", "short"), ("short unsigned", "unsigned short"), ("long unsigned int", "unsigned long"), ("long int", "long")):
        text = text.replace(old, new)
    return re.sub(r"\s*([*&()\[\],])\s*", r"\1", re.sub(r"\s+", " ", text)).strip()


def unworded(text):
    return plain(re.sub(r"\b(const|volatile|__restrict|restrict)\b", "", text))


# ---- units

class Unit:
    def __init__(self, enumerations, classes):
        self.enumerations = enumerations
        self.classes = classes  # pairs: the bases, the types of the conversion functions

    def words(self):
        out = ["%"] * self.enumerations
        for bases, own in self.classes:
            out += [":" + "".join(chr(65 + b) for b in bases)] + [">" + t for t in own] + [";"]
        return out

    def text(self, more=lambda c: ""):
        lines = [f"enum E{n} {{ e{n} }};" for n in range(self.enumerations)]
        for c, (bases, own) in enumerate(self.classes):
            heads = ", ".join(chr(65 + b) for b in bases)
            body = "".join(f" typedef {declared(t, f'T{c}_{i}')}; operator T{c}_{i}() const;" for i, t in enumerate(own))
            lines.append(f"struct {chr(65 + c)}" + (f" : {heads}" if heads else "") + f" {{{body}{more(c)} }};")
        return lines

    def shown(self):
        """for a comment"""
        out = []
        for c, (bases, own) in enumerate(self.classes):
            heads = ", ".join(chr(65 + b) for b in bases)
            out.append(f"{chr(65 + c)}" + (f" : {heads}" if heads else "") + " { " + ", ".join(plain(declared(t)) for t in own) + " }")
        return "; ".join(out)

    def conversions(self, c):
        """12.3.2 p5: those that are not hidden, by their classes and places, in the order of their declarations"""
        bases, own = self.classes[c]
        found = [(c, i, t) for i, t in enumerate(own)]
        for b in bases:
            found += [one for one in self.conversions(b) if one[2] not in own]
        return sorted(found)

    def given(self, operand):
        """the types to which an operand may be converted by conversion functions, or its own"""
        c = class_in(operand)
        return [operand] if c is None else [t for _, _, t in self.conversions(c)]

    def values(self, operand):
        return [value(t) for t in self.given(operand)]


def once(things):
    return list(dict.fromkeys(things))


# ---- 13.6

def changing(firsts, seconds):
    return [(t + words + "&", *second) for t in firsts for second in seconds for words in ("", "y")]


def pairs(firsts, seconds):
    return [(t, u) for t in firsts for u in seconds]


def same(ts):
    return [(t, t) for t in ts]


def expected(unit, operator, operands):
    values = [t for one in operands for t in unit.values(one)]
    pointers = once(t for t in values if t.endswith("*"))
    objects = [t for t in pointers if is_object(t[:-1])]
    functions = [t for t in pointers if is_function(t[:-1])]
    enumerations = once(t for t in values if t.isdigit())
    distance = ["l"]
    out = []
    if operator in ("++", "--"):
        rest = [("i",)] if len(operands) == 2 else [()]
        # p3, p4
        out += changing(ARITHMETIC if operator == "++" else ARITHMETIC.replace("b", ""), rest)
        # p5
        out += changing(objects, rest)
    elif len(operands) == 1:
        if operator == "*":
            # p6, p7
            out += [(t,) for t in objects + functions]
        if operator in "+-":
            # p9
            out += [(t,) for t in PROMOTED]
        if operator == "+":
            # p8
            out += [(t,) for t in pointers]
        if operator == "~":
            # p10
            out += [(t,) for t in PROMOTED_INTEGRAL]
        if operator == "!":
            # p23
            out += [("b",)]
    else:
        comparison = operator in ("<", ">", "<=", ">=", "==", "!=")
        # p12
        if operator in ("*", "/", "+", "-") or comparison:
            out += pairs(PROMOTED, PROMOTED)
        # p13
        if operator in ("+", "-", "[]"):
            out += pairs(objects, distance)
        if operator in ("+", "[]"):
            out += pairs(distance, objects)
        # p14
        if operator == "-":
            out += same(objects)
        # p15
        if comparison:
            out += same(pointers) + same(enumerations)
        # p17
        if operator in ("%", "&", "^", "|", "<<", ">>"):
            out += pairs(PROMOTED_INTEGRAL, PROMOTED_INTEGRAL)
        # p18
        if operator in ("=", "*=", "/=", "+=", "-="):
            out += changing(ARITHMETIC, [(u,) for u in PROMOTED])
        # p19, p20
        if operator == "=":
            for t in pointers + enumerations:
                out += changing([t], [(t,)])
        # p21
        if operator in ("+=", "-="):
            out += changing(objects, [("l",)])
        # p22
        if operator in ("%=", "<<=", ">>=", "&=", "^=", "|="):
            out += changing(INTEGRAL, [(u,) for u in PROMOTED_INTEGRAL])
        # p23
        if operator in ("&&", "||"):
            out += [("b", "b")]
    return out, objects


# ---- the compilers

def program(unit, operator, operands):
    """a text whose last line has the operator alone"""
    def more(c):
        return " template<class T> operator T&() const;" + ("" if "iy&" in unit.classes[c][1] else " operator volatile int&() const;")

    lines = ["struct Q { int q[7]; };"] + unit.text(more)
    if operator != "[]":
        lines.append(f"void operator{operator}({', '.join(['Q'] * len(operands)) if operator not in ('++', '--') or len(operands) == 1 else 'Q, int'});")
    for i, t in enumerate(operands):
        lines.append(f"extern {declared(t, f'x{i}')};")
    if len(operands) == 1:
        text = f"{operator}x0"
    elif operator in ("++", "--"):
        text = f"x0{operator}"
    elif operator == "[]":
        text = "x0[x1]"
    else:
        text = f"x0 {operator} x1"
    return lines + ["void f() {", text + ";", "}"]


def listed(compiler, lines):
    """the candidates that are listed for the last statement: None where there is another error"""
    with tempfile.TemporaryDirectory() as d:
        path = os.path.join(d, "t.cpp")
        with open(path, "w") as f:
            f.write("\n".join(lines) + "\n")
        run = subprocess.run(compiler + [path], capture_output=True, text=True, env=dict(os.environ, LC_ALL="C"))
    at = len(lines) - 1
    found = []
    for line in run.stderr.split("\n"):
        m = re.match(r".*t\.cpp:(\d+):\d+: error: (.*)", line)
        if m and (int(m.group(1)) != at or not re.search(r"ambiguous|no viable|no match|not provide", m.group(2))):
            return None
        m = re.match(r".*note: built-in candidate operator[^A-Za-z_( ]+\s*\((.*)\)$", line) or re.match(r".*note: candidate: 'operator[^A-Za-z_( ]+\s*\((.*)\)' \(built-in\)$", line)
        if m:
            found.append(plain(m.group(1)))
    return found


def split(text):
    """the parameters of a candidate"""
    depth, out, last = 0, [], ""
    for x in text:
        depth += x in "(["
        depth -= x in ")]"
        if x == "," and depth == 0:
            out.append(last)
            last = ""
        else:
            last += x
    # 8.3.5 p3: the words of a parameter itself do not count
    return tuple(re.sub(r"\*(const|volatile| )+$", "*", t) for t in out + [last])


def is_of_the_language(candidate):
    return not any(re.search(r"long long|__int128|__float128|char16_t|char32_t", t) for t in candidate)


def text_of(candidate):
    return tuple(plain(declared(t)) for t in candidate)


def class_in(operand):
    """the number of the class, where an operand is of one"""
    of = without_words(operand)
    return ord(of) - 65 if len(of) == 1 and of.isupper() else None


def judged(unit, operator, operands, candidates, objects):
    """which compilers confirm the row: a set of words, or None with what differs"""
    sides = operands[:1] if operator in ("++", "--") else operands
    classes = [class_in(one) for one in sides]
    if operator == "=" or all(c is None for c in classes):
        return set(), ""
    of_classes = None not in classes
    lines = program(unit, operator, operands)
    wanted = {text_of(one) for one in candidates}
    bare = {tuple(unworded(t) for t in one) for one in wanted}
    # the sides of pointers beside a distance
    aside = set()
    if len(operands) == 2 and operator in ("+", "-", "[]", "+=", "-="):
        of_sides = [unit.values(one) for one in operands]
        for t in objects:
            if t not in of_sides[0]:
                aside |= {text_of(one) for one in ((t, "l"), (t + "&", "l"), (t + "y&", "l"))}
            if t not in of_sides[1]:
                aside |= {text_of(("l", t))}
    # what clang++ has as no pointer
    given = [t for one in operands for t in unit.given(one)]
    references = {text_of([value(t)])[0] for t in given if is_function(t.rstrip("&"))} - {text_of([value(t)])[0] for t in given if not is_function(t.rstrip("&"))}
    confirmed = set()
    for name, compiler in (("clang++", CLANG), ("g++", GCC)):
        answer = listed(compiler, lines)
        if answer is None:
            continue
        found = {split(one) for one in answer}
        found = {one for one in found if is_of_the_language(one)}
        extra = {one for one in found - wanted if tuple(unworded(t) for t in one) not in bare}
        if extra:
            return None, f"{name} lists too {sorted(extra)}"
        if not of_classes:
            if found:
                confirmed.add(name + " in part")
            continue
        if name == "clang++":
            missing = {one for one in wanted - found - aside if not any(t in references for t in one)}
        else:
            kept = {text_of(one) for one in candidates if not any(t[-1] == "&" for t in one) and any(t[-1] == "*" or t.isdigit() for t in one)}
            kept -= {text_of(one) for one in candidates if one[0] == one[-1] and any(one[0] not in unit.values(x) for x in operands)}
            missing = kept - found - aside
            if operator == "[]" and not found and len(missing) == 1:
                continue
        if missing:
            return None, f"{name} lists not {sorted(missing)}"
        if not wanted or found and (name == "clang++" or kept):
            confirmed.add(name)
    return confirmed, ""


# ---- rows

POINTERS = ["i*", "ik*", "iy*", "iky*", "c*", "ck*", "v*", "vk*", "d*", "b*", "i**", "i*k*", "ck**", "i[*", "ik[*", "i(*", "v(*", "i(**", "e*", "w*"]
OTHERS = ["i[&", "ck[&", "i[[&", "i(&", "i*&", "i*k&", "ck*y&", "v*&", "d*k"]
NUMBERS = ["i", "l", "b", "d", "w", "iy&", "ck&", "f&", "m", "h", "e"]
OPERATORS = {1: ["++", "--", "*", "+", "-", "~", "!", "&"],
             2: ["++", "--", "*", "/", "%", "+", "-", "<<", ">>", "<", ">", "<=", ">=", "==", "!=", "&", "^", "|", "&&", "||", "=", "*=", "/=", "%=", "+=", "-=", "<<=", ">>=", "&=", "^=", "|=", ",", "[]"]}


# 14.7.1 p1: an operand of a class that is an implicit instantiation of a template wants it complete, and no pointer to it does;
# where two operands want it, the class that was declared first is said.
BY_HAND = [
    ("B is A<>, not complete: + of B, int", ": ; ^ ?+ @B @i =!B"),
    ("B is A<>, not complete: ! of const B", ": ; ^ ?! @Bk =!B"),
    ("B is A<>, not complete: [] of B, int", ": ; ^ ?[] @B @i =!B"),
    ("B is A<>, not complete; C { int* }: - of C, B", ": ; ^ : >i* ; ?- @C @B =!B"),
    ("B is A<>, not complete; D is C<>, not complete: == of D, B", ": ; ^ : ; ^ ?== @D @B =!B"),
    ("B is A<>, not complete; D is C<>, not complete: == of B, D", ": ; ^ : ; ^ ?== @B @D =!B"),
    ("B is A<>, not complete; D is C<>, not complete: ++ of D", ": ; ^ : ; ^ ?++ @D @i =!D"),
    ("B is A<>, not complete: * of B*", ": ; ^ ?* @B* =B*,"),
    ("B is A<>, not complete: [] of B[3], int", ": ; ^ ?[] @B[ @i =B*l,lB*,"),
    ("B is A<>, not complete; C { int*, B* }: [] of C, int", ": ; ^ : >i* >B* ; ?[] @C @i =i*l,B*l,li*,lB*,"),
    ("B is A<>, not complete; C { B& }: ! of C", ": ; ^ : >B& ; ?! @C =b,"),
]


def random_unit(r):
    enumerations = r.choice([0, 1, 1, 2])
    classes, roots = [], []
    pool = POINTERS + OTHERS + NUMBERS + [f"{n}{x}" for n in range(enumerations) for x in ("", "&", "k&", "*", "k*")] * 2
    for c in range(r.choice([1, 2, 2, 3, 4])):
        bases = r.sample(range(c), min(c, r.choice([0, 0, 1, 1, 2])))
        # no class twice among the bases
        whole = [x for b in bases for x in roots[b]]
        if len(whole) != len(set(whole)):
            bases, whole = bases[:1], roots[bases[0]]
        own = r.sample(pool + [f"{chr(65 + x)}*" for x in range(c + 1)], r.choice([0, 1, 2, 3, 4]))
        below = [t for b in bases for t in classes[b][1]]
        if below and r.random() < 0.6:
            own = once(own + [r.choice(below)])
        r.shuffle(own)
        classes.append((bases, own))
        roots.append([c] + whole)
    return Unit(enumerations, classes)


def random_operand(r, unit):
    if r.random() < 0.8:
        return chr(65 + r.randrange(len(unit.classes))) + r.choice(["", "", "", "k"])
    plain_types = POINTERS + ["i[", "ck[", "i[[", "i(", "i", "c", "d", "wk", "A*", "Ak*"]
    return r.choice(plain_types + [f"{n}{x}" for n in range(unit.enumerations) for x in ("", "", "k", "*")])


def main():
    folder = sys.argv[1]
    r = random.Random(23)
    rows, seen, counts, left = [x for comment, row in BY_HAND for x in ("# " + comment, row)], set(), {}, {}
    turn = 0
    while turn < int(os.environ.get("TURNS", "300")):
        turn += 1
        unit = random_unit(r)
        # each operator in turn
        all_of = [(op, n) for n in (1, 2) for op in OPERATORS[n]]
        operator, n = all_of[turn % len(all_of)]
        if r.random() < 0.35:
            operator, n = r.choice([("+", 2), ("-", 2), ("==", 2), ("<", 2), ("[]", 2), ("*", 1), ("+", 1), ("!=", 2)])
        operands = [random_operand(r, unit) for _ in range(n)]
        if n == 2 and operator in ("++", "--"):
            operands[1] = "i"
        changes = operator in ("++", "--") or operator[-1] == "=" and operator not in ("<=", ">=", "==", "!=")
        if changes and r.random() < 0.8:
            operands[0] = operands[0].rstrip("k") if operands[0][0].isupper() else operands[0]
        candidates, objects = expected(unit, operator, operands)
        row = " ".join(unit.words() + ["?" + operator] + ["@" + t for t in operands] + ["=" + "".join("".join(one) + "," for one in candidates)])
        if row in seen:
            continue
        seen.add(row)
        confirmed, differs = judged(unit, operator, operands, candidates, objects)
        if confirmed is None:
            left[differs.split(" ")[0]] = left.get(differs.split(" ")[0], 0) + 1
            sys.stderr.write(f"differs: {row[:row.rindex('=')]} {differs[:400]}\n")
            continue
        for name in confirmed:
            counts[name] = counts.get(name, 0) + 1
        by = " by " + " and ".join(sorted(x for x in confirmed)) if confirmed else ""
        shown = ", ".join(plain(declared(t)) for t in operands)
        rows += [f"# {unit.shown()}: {operator} of {shown}" + (f", listed{by}" if by else ""), row]
    with open(os.path.join(folder, "stdin"), "w") as f:
        f.write("\n".join(rows) + "\n")
    with open(os.path.join(folder, "stdout"), "w") as f:
        f.write(f"{len(rows) // 2} candidates, 0 otherwise\n")
    sys.stderr.write(f"{len(rows) // 2} rows, {sum('listed by' in x for x in rows)} with a list; {counts}; left out: {left}\n")


main()
