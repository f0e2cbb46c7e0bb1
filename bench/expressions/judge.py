#!/usr/bin/env python3
"""judge.py [--checks FOLDER] [--table FILE] [--look] [WORD ..]

Holds a table of units and their plain forms (in the form that `tests/run` reads) against clang++ and g++. Nothing of this
project runs: what is judged is what the table expects. Of a unit that is whole:

  both compilers accept the unit and its plain form;
  both bind the same functions and conversions, and the plain form leaves no conversion unwritten (bind.py);
  the plain form has its gaps, numbers, sections and parentheses by the rules.

Of a faulty unit: both compilers refuse it, unless the report says `not built` or `left out`; the place is that of a token,
and the names that are told stand at their places. `(own)` in the name of a case says that a compiler differs by a choice of
this project; such a case must differ. WORDs choose the cases whose name holds one of them. --look shows on which line
and column each compiler has its first error. FOLDER holds bind.py and cc.py.
"""

import argparse
import collections
import pathlib
import re
import sys

TOP = pathlib.Path(__file__).resolve().parent.parent.parent
WORDS = "static_cast const_cast reinterpret_cast bool char short int long signed unsigned float double wchar_t void const volatile extern enum true false sizeof".split()
TOKEN = re.compile(r"""L?"(?:\\.|[^"\\])*"|L?'(?:\\.|[^'\\])*'|[A-Za-z_]\w*|\.?\d\w*|\.\.\.|->\*|<<=|>>=|->|\+\+|--|<<|>>|<=|>=|==|!=|&&|\|\||[-+*/%&|^]=|\.\*|::|<:|:>|<%|%>|[^\s\w]""")
TYPES = set("bool char short int long signed unsigned float double wchar_t void const volatile".split())


def cases(path):
    names = set()
    for number, case in enumerate(path.read_text("latin-1").split("----\n"), 1):
        found = re.fullmatch(r"name: ([^\n]+)\n(.*?)\n=>( 1| 7|)\n(.*)", case, re.DOTALL)
        if not found or found[1] in names or "\n=>" in found[4] or (found[3] and not found[4]):
            sys.exit(f"judge.py: case {number} of {path.name} is none: {case[:80]!r}")
        names.add(found[1])
        yield found.groups()


# ------------------------------------------------------------------ the text of a plain form
def roles(words, enumerations):
    """The role of each word of a line; the gap between two words goes by their roles alone."""
    out, in_cast = [], 0
    for k, word in enumerate(words):
        before = words[k - 1] if k else None
        value = before is not None and (re.match(r"""L?["']|\d""", before) or before in (")", "]", "true", "false") or out[-1] in ("named", "follows") and before != ",")
        if word == "<" and before in ("static_cast", "const_cast", "reinterpret_cast"):
            out.append("joins")
            in_cast += 1
        elif word == ">" and in_cast:
            out.append("closes")
            in_cast -= 1
        elif word in "([":
            out.append("opens")
        elif word in ")]":
            out.append("closes")
        elif word in ",;":
            out.append("follows")
        elif word in ("++", "--"):
            out.append("follows" if value else "leads")
        elif word in ("*", "&", "+", "-"):
            out.append("alone" if value else "leads")
        elif word in ("!", "~"):
            out.append("leads")
        elif re.match(r"[A-Za-z_]\w*$", word) and word not in WORDS and word not in enumerations:
            out.append("named")
        else:
            out.append("alone")
    return out


def spaced(line, enumerations):
    words = TOKEN.findall(line)
    kinds = roles(words, enumerations)
    text = ""
    for k, word in enumerate(words):
        if k:
            one, two = kinds[k - 1], kinds[k]
            if not (one in ("opens", "joins", "leads") or two in ("closes", "joins", "follows") or one in ("named", "closes") and two == "opens"):
                text += " "
        text += word
    return text


def wrong_text(plain):
    """What is wrong with the words of a plain form: gaps, numbers, sections."""
    enumerations = set(re.findall(r"^enum (\w+) \{", plain, re.M))
    last = 0
    for line in plain.splitlines():
        if spaced(line, enumerations) != line:
            yield f"gaps: {line!r} should be {spaced(line, enumerations)!r}"
        function = re.search(r"\w+__\d+\(", line) and " = " not in line and not line.startswith("extern")
        section = 1 if line.startswith("enum ") and "{" in line else 2 if function else 3
        if section < last:
            yield f"sections: {line!r}"
        last = section
    if not plain.endswith("\n") and plain:
        yield "no newline at the end"
    numbers = list(dict.fromkeys(re.findall(r"\b[A-Za-z_]\w*__\d+\b", re.sub(r'"(?:\\.|[^"\\])*"', '""', plain))))
    for k, name in enumerate(numbers, 1):
        if not name.endswith(f"__{k}"):
            yield f"numbers: {name} should have the number {k}"
            break


SIMPLE = ("DeclRefExpr", "IntegerLiteral", "CharacterLiteral", "StringLiteral", "CXXBoolLiteralExpr", "CallExpr", "ArraySubscriptExpr",
          "CXXStaticCastExpr", "CXXConstCastExpr", "CXXReinterpretCastExpr")
QUIET = ("ImplicitCastExpr", "MaterializeTemporaryExpr", "ExprWithCleanups", "ConstantExpr")


def bare(node):
    while node.get("kind") in QUIET and node.get("inner"):
        node = node["inner"][0]
    return node


def is_comma(node):
    return node.get("kind") == "BinaryOperator" and node.get("opcode") == ","


def wrong_brackets(tree):
    """Where an operand stands without its parentheses, or has some too many, in a plain form's tree of clang."""
    out = []

    def visit(node, operand, listed):
        node = bare(node)
        kind = node.get("kind", "")
        if kind == "ParenExpr":
            inner = bare(node["inner"][0])
            needed = operand and inner.get("kind") not in SIMPLE or listed and is_comma(inner)
            if not needed:
                out.append(f"parentheses too many round {inner.get('kind')} at column {node['range']['begin'].get('col')}")
            node, kind = inner, inner.get("kind", "")
        elif operand and kind not in SIMPLE:
            out.append(f"no parentheses round {kind} at column {node.get('range', {}).get('begin', {}).get('col')}")
        elif listed and is_comma(node):
            out.append("no parentheses round a comma")
        inner = [each for each in node.get("inner", []) if isinstance(each, dict) and each.get("kind")]
        if kind in ("BinaryOperator", "CompoundAssignOperator", "UnaryOperator", "ConditionalOperator"):
            for each in inner:
                visit(each, True, False)
        elif kind == "ArraySubscriptExpr":
            visit(inner[0], True, False)
            visit(inner[1], False, False)
        elif kind == "CallExpr":
            visit(inner[0], True, False)
            for each in inner[1:]:
                visit(each, False, True)
        elif kind == "InitListExpr":
            for each in inner:
                visit(each, False, True)
        elif kind == "VarDecl":
            for each in inner:
                visit(each, False, True)
        elif kind == "EnumConstantDecl":
            pass
        else:
            for each in inner:
                visit(each, False, False)

    visit(tree, False, False)
    return out


# ------------------------------------------------------------------ the text of a report
def wrong_report(unit, said):
    lines = unit.split("\n")

    def at(place):
        line, column = map(int, place.split(":"))
        if line == len(lines) and column == len(lines[-1]) + 1:
            return ""
        if not 1 <= line <= len(lines) or not 1 <= column <= len(lines[line - 1]):
            return None
        starts = {m.start() + 1: m.group() for m in TOKEN.finditer(lines[line - 1])}
        return starts.get(column)

    first = re.match(r"(\d+:\d+): (.+)\n", said)
    if not first:
        yield "no report"
        return
    token = at(first[1])
    if token is None:
        yield f"no token begins at {first[1]}"
        return
    name = re.match(r"(?:undeclared name|ambiguous name|wrong kind of name|conflicting declaration of|left out: address of several functions$) ?(\S*)", first[2])
    if name and name[1] and token != name[1]:
        yield f"at {first[1]} stands {token!r}"
    if first[2] in ("ambiguous call", "no viable function") and not re.match(r"[A-Za-z_]", token):
        yield f"at {first[1]} stands {token!r}"
    if first[2] in ("ambiguous call", "no viable function", "conflicting declaration of") and "\n  " not in said:
        yield "no evidence"
    for place in re.findall(r"at (\d+:\d+)", said):
        if not re.match(r"[A-Za-z_]", at(place) or ""):
            yield f"no name begins at {place}"


# ------------------------------------------------------------------ one case
def good(unit, plain, bind, cc):
    """The ways in which a compiler differs, and what is wrong with the text."""
    differs, wrong = [], list(wrong_text(plain))
    for what, text in (("unit", unit), ("plain form", plain)):
        for compiler in ("clang", "g++"):
            answer = cc.ask(compiler, text.encode("latin-1"))
            if not answer["ok"]:
                first = answer["errors"][0] if answer["errors"] else (0, 0, "?")
                differs.append(f"{compiler} refuses the {what}: {first[0]}:{first[1]}: {first[2]}")
    result, why, info = bind.compare(unit.encode("latin-1"), plain.encode("latin-1"))
    # Braces round the value of an object that is no array mean the value (8.5 p13, 8.5.2), and are a list to bind.py.
    braced = re.fullmatch(r"initializer of \S+: list\((.*)\) against (.*)", why or "")
    if braced and braced[1] == braced[2]:
        info["holes"] = {"braces": 1}
    elif result != "agree":
        differs.append(f"{result}: {why}")
    tree = cc.tree(plain.encode("latin-1"))
    if tree:
        wrong += wrong_brackets(tree)
    return differs, wrong, info.get("holes")


def faulty(unit, said, cc):
    differs, wrong, lines = [], list(wrong_report(unit, said)), []
    for compiler in ("clang", "g++"):
        answer = cc.ask(compiler, unit.encode("latin-1"))
        if answer["ok"]:
            differs.append(f"{compiler} accepts the unit")
        else:
            first = answer["errors"][0] if answer["errors"] else (0, 0, "?")
            lines.append(f"{compiler} {first[0]}:{first[1]} {first[2]}")
    return differs, wrong, lines


def main():
    words = argparse.ArgumentParser(description=__doc__, formatter_class=argparse.RawDescriptionHelpFormatter)
    words.add_argument("--checks", default=TOP.parent / "shared/check")
    words.add_argument("--table", type=pathlib.Path, default=TOP / "tests/expressions.txt")
    words.add_argument("--look", action="store_true")
    words.add_argument("word", nargs="*")
    given = words.parse_args()
    sys.path.insert(0, str(given.checks))
    import bind
    import cc

    count, bad = collections.Counter(), 0
    for name, unit, kind, said in cases(given.table):
        if given.word and not any(word in name for word in given.word):
            continue
        own = "(own)" in name
        if kind == " 1":
            differs, wrong, lines = faulty(unit, said, cc)
            report = said.split("\n")[0].split(": ", 1)[1]
            early = report == "not built" or report.startswith("left out")
            if given.look and not early:
                print(f"{name}: {said.splitlines()[0]}; {'; '.join(lines)}")
            if early:
                sort, differs = "left out or not built", []
                own = False
            else:
                sort = "faulty"
        else:
            differs, wrong, holes = good(unit, said, bind, cc)
            sort = "good"
            if holes:
                count["good, compared in part"] += 1
                if given.look:
                    print(f"compared in part: {name}: {holes}")
        count[sort + (", own" if own else "")] += 1
        if own and not differs:
            wrong.append("marked as own, and both compilers agree")
        if differs and not own:
            wrong += differs
        elif own and given.look:
            print(f"own: {name}: {'; '.join(differs)}")
        if wrong:
            bad += 1
            print(f"{sort}: {name}")
            for each in wrong:
                print(f"    {each}")
    print("; ".join(f"{sort} {n}" for sort, n in sorted(count.items())) + f"; {bad} not as expected")
    return 1 if bad else 0


if __name__ == "__main__":
    sys.exit(main())
