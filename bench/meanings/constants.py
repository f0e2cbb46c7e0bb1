#!/usr/bin/env python3
"""Asks clang++ and g++ for the values of constant expressions, and prints a row for each: the expression, and its value, or
`none` where both refuse it. Left out are expressions on which the compilers differ, and shifts to the left of a value with a
sign to one that its type has not, which both take.

Usage: constants.py > tests/constants.txt"""
import os, random, subprocess, sys, tempfile

COMPILERS = [["clang++", "-std=c++98", "-pedantic-errors", "-ferror-limit=0"], ["g++", "-std=c++98", "-pedantic-errors", "-fmax-errors=0"]]
# In its mode of C++98 clang++ lets an overflow pass with a warning; so whether there is a value is asked in that of C++11.
ASKED = [["clang++", "-std=c++11", "-pedantic-errors", "-ferror-limit=0"], COMPILERS[1]]
TYPES = {"b": "bool", "c": "char", "a": "signed char", "h": "unsigned char", "s": "short", "t": "unsigned short", "i": "int", "j": "unsigned", "l": "long", "m": "unsigned long", "w": "wchar_t"}
RANGES = {"b": (0, 1), "c": (-128, 127), "a": (-128, 127), "h": (0, 255), "s": (-2**15, 2**15 - 1), "t": (0, 2**16 - 1), "i": (-2**31, 2**31 - 1), "j": (0, 2**32 - 1), "l": (-2**63, 2**63 - 1), "m": (0, 2**64 - 1), "w": (-2**31, 2**31 - 1)}
SIZED = dict(TYPES, f="float", d="double", e="long double", p="int *")
SUFFIX = {"j": "u", "l": "L", "m": "UL"}
PRELUDE = ""
BINARY = ["*", "/", "%", "+", "-", "<<", ">>", "<", ">", "<=", ">=", "==", "!=", "&", "^", "|", "&&", "||"]

def literal(letter, value):
    """A value of a type, as an expression."""
    if letter in "ijlm":
        if value == -2**31 and letter == "i":
            return "(-2147483647 - 1)"
        if value == -2**63:
            return "(-9223372036854775807L - 1)"
        text = str(abs(value)) + SUFFIX.get(letter, "")
        return f"(-{text})" if value < 0 else text
    return f"(({TYPES[letter]}){literal('i', value)})"

def value(letter, n):
    return literal(letter, n), [f"={letter}{n}"]

def unary(op, one):
    return f"({op}{one[0]})", one[1] + [f"1{op}"]

def binary(op, one, two):
    return f"({one[0]} {op} {two[0]})", one[1] + two[1] + [f"2{op}"]

def cast(letter, one):
    return f"(({SIZED[letter]}){one[0]})", one[1] + [f"({letter}"]

def size(letter):
    return f"sizeof({SIZED[letter]})", [f"@{letter}"]

def choice(test, one, two):
    return f"({test[0]} ? {one[0]} : {two[0]})", test[1] + one[1] + two[1] + ["?"]

def V(text):
    return value(text[0], int(text[1:]))

MOST, LEAST = V("i2147483647"), V("i-2147483648")
BY_HAND = [
    binary("+", MOST, V("i1")), binary("-", LEAST, V("i1")), binary("*", MOST, V("i2")), unary("-", LEAST), binary("/", LEAST, V("i-1")),
    binary("/", V("i1"), V("i0")), binary("%", V("i1"), V("i0")), binary("/", V("m1"), V("m0")), binary("+", MOST, V("j1")),
    binary("-", V("j0"), V("j1")), unary("-", V("j1")), unary("-", V("m1")), binary("*", V("m18446744073709551615"), V("m18446744073709551615")),
    binary("*", V("j4294967295"), V("j4294967295")), binary("+", V("l9223372036854775807"), V("i1")), binary("/", V("i-7"), V("i2")),
    binary("%", V("i-7"), V("i2")), binary("%", V("i7"), V("i-2")), binary(">>", V("i-7"), V("i1")), binary("<<", V("i1"), V("i30")),
    binary("<<", V("i1"), V("i32")), binary("<<", V("i1"), V("i-1")), binary(">>", V("i1"), V("i32")), binary("<<", V("j1"), V("i31")),
    binary("<<", V("i1"), V("l3")), binary("<<", V("l1"), V("i40")), binary("<<", V("j4294967295"), V("c4")), binary(">>", V("m18446744073709551615"), V("i63")),
    cast("c", V("i200")), cast("h", V("i-1")), cast("b", V("i256")), cast("s", V("i100000")), cast("m", V("i-1")), cast("j", V("l-1")),
    cast("i", V("j4294967295")), cast("l", V("m18446744073709551615")), cast("w", V("l4294967295")),
    unary("~", V("h1")), unary("~", V("j0")), unary("~", V("b1")), unary("!", V("l4294967296")), unary("+", V("c-5")), unary("-", V("t65535")),
    binary("<", V("i-1"), V("j0")), binary("<", V("i-1"), V("l0")), binary("<", V("l-1"), V("j0")), binary("<", V("l-1"), V("m0")), binary("==", V("c-1"), V("h255")),
    binary("==", V("i-1"), V("j4294967295")), binary("&", V("i-1"), V("h255")), binary("|", V("i-256"), V("i1")), binary("^", V("l-1"), V("j1")), binary("&", V("l-1"), V("m12")),
    binary("&&", V("i0"), binary("/", V("i1"), V("i0"))), binary("||", V("i1"), binary("%", V("i1"), V("i0"))), binary("||", V("i0"), V("c0")),
    choice(V("i1"), V("i-1"), V("j0")), choice(V("i0"), V("c1"), V("c-2")), choice(V("i0"), V("l1"), V("i-1")), choice(V("i1"), V("i2"), V("m3")),
    choice(V("i1"), V("i2"), binary("/", V("i1"), V("i0"))), choice(V("i0"), binary("+", MOST, V("i1")), V("i4")),
    binary("-", size("i"), size("l")), binary("*", size("p"), V("i-1")), binary("<", V("i-1"), size("c")),
    cast("c", binary("+", V("c127"), V("c1"))), binary("+", V("h255"), V("h1")), binary("*", V("s32767"), V("s32767")), binary("*", V("t65535"), V("t65535")), size("e"), size("w"),
]

def leaf(r):
    if r.randrange(12) == 0:
        return size(r.choice(list(SIZED)))
    letter = r.choice(list(TYPES))
    low, high = RANGES[letter]
    n = r.choice([low, high, 0, 1, -1, 2, 3, 7, r.randrange(low, high + 1)])
    return value(letter, max(low, min(high, n)))

def tree(r, depth):
    if depth == 0:
        return leaf(r)
    k = r.randrange(10)
    if k < 6:
        op = r.choice(BINARY)
        if op in ("<<", ">>"):
            one = tree(r, depth - 1)
            if op == "<<":
                one = cast(r.choice("jm"), one)
            return binary(op, one, value(r.choice("icj"), r.randrange(0, 40)))
        return binary(op, tree(r, depth - 1), tree(r, depth - 1))
    if k < 7:
        return unary(r.choice("+-~!"), tree(r, depth - 1))
    if k < 9:
        return cast(r.choice(list(TYPES)), tree(r, depth - 1))
    return choice(tree(r, depth - 1), tree(r, depth - 1), tree(r, depth - 1))

def run(compiler, text, program=False):
    with tempfile.TemporaryDirectory() as d:
        p = os.path.join(d, "t.cpp")
        open(p, "w").write(text)
        if not program:
            return subprocess.run([*compiler, "-fsyntax-only", p], capture_output=True, text=True).returncode == 0
        made = subprocess.run([*compiler, p, "-o", os.path.join(d, "t")], capture_output=True, text=True)
        if made.returncode:
            sys.exit(made.stderr[:2000])
        return subprocess.run([os.path.join(d, "t")], capture_output=True, text=True, check=True).stdout.split("\n")

def taken(compiler, cases):
    return [run(compiler, f"{PRELUDE}\ntemplate<bool B> struct T {{}};\ntypedef T<(({c[0]}) < 0)> t;\ntypedef char a[({c[0]}) < 0 ? 2 : 1];\n") for c in cases]

def values(compiler, cases):
    lines = ["#include <cstdio>", PRELUDE, "int main() {"]
    for n, (text, _) in enumerate(cases):
        parts = [f"typedef char s{n}[({text}) < 0 ? 2 : 1];"] + [f"typedef char p{n}_{k}[(((unsigned long)({text}) >> {8 * k}) & 255) + 1];" for k in range(8)]
        lines += parts + [f'std::printf("%lu' + " %lu" * 8 + f'\\n", sizeof(s{n}), ' + ", ".join(f"sizeof(p{n}_{k})" for k in range(8)) + ");"]
    out = []
    for line in run(compiler, "\n".join(lines + ["}"]) + "\n", True):
        if line:
            sign, *parts = (int(w) - 1 for w in line.split())
            total = sum(p << (8 * k) for k, p in enumerate(parts))
            out.append(total - 2**64 if sign else total)
    return out

def main():
    r = random.Random(11)
    cases = BY_HAND + [tree(r, r.choice([1, 2, 2, 3])) for _ in range(170)]
    clang, gcc = (taken(c, cases) for c in ASKED)
    good = [c for c, a, b in zip(cases, clang, gcc) if a and b]
    rows = dict(zip((c[0] for c in good), zip(*(values(c, good) for c in COMPILERS))))
    refused = differ = 0
    for case, a, b in zip(cases, clang, gcc):
        if a != b or a and rows[case[0]][0] != rows[case[0]][1]:
            differ += 1
            continue
        refused += not a
        print(f"{case[0]} => {rows[case[0]][0] if a else 'none'}")
    sys.stderr.write(f"{refused} refused, {differ} on which the compilers differ\n")

main()
