#!/usr/bin/env python3
"""Counts the places of older forms in crates/*/src, crates/*/specs and crates/*/proofs: the counts of docs/DESIGN-PASS.md.

  forms.py [POINT]     from the top of a checkout; with a point (1 to 8) it lists that point's places one by one

What it finds are places to look at, not faults: the page says of each what became of it.
"""
import collections, glob, re, sys

POINTS = {
    1: "own enums; numbers for variants; answers by bool of what alters; 0 for none",
    2: "functions of one shape, with their names, types and constants masked",
    3: "loops",
    4: "impls of comparing, copying, converting and printing by hand; matches that only wrap again",
    5: "clauses that stand three times; parameters that go together in three functions",
    6: "arrays of fixed length; a list with a count beside it; an index kept beside a slice",
    7: "a switch on the call to make; function pointers, dyn",
    8: "answers, and lines of proofs outside them",
}


def sources(pattern):
    return {f: open(f, encoding="utf-8").read() for f in sorted(glob.glob(pattern, recursive=True))}


SRC = sources("crates/*/src/**/*.rt")


def lines(pattern, texts=SRC):
    found = []
    for name, text in texts.items():
        for number, line in enumerate(text.split("\n"), 1):
            if re.search(pattern, line) and not line.strip().startswith("//"):
                found.append(f"{name}:{number}: {line.strip()}")
    return found


def functions():
    """Name, parameters and body of each function with a body."""
    for name, text in SRC.items():
        for m in re.finditer(r"(?m)^( *)(?:pub(?:\(crate\))? )?fn (\w+)", text):
            end = re.compile(r"(?m)^" + m.group(1) + r"\}").search(text, m.end())
            if not end:
                continue
            whole = text[m.start():end.end()]
            if ";" in whole.split("{")[0] and "requires" not in whole and "ensures" not in whole:
                continue
            yield name, m.group(2), whole


def body(whole, indent):
    at = re.search(r"(?m)^" + indent + r"\{|\) (?:-> [^{\n]*)?\{$", whole)
    return whole[at.end():] if at else ""


def shape(code):
    code = re.sub(r"//.*", "", code)
    code = re.sub(r'"[^"]*"', "S", code)
    code = re.sub(r"\b[0-9][0-9_]*\b", "N", code)
    keep = {"if", "else", "for", "in", "while", "let", "mut", "match", "return", "Some", "None", "Ok", "Err", "self", "true", "false"}
    return " ".join(w if w in keep or not re.match(r"\w", w) else "x" for w in re.findall(r"\w+|[^\w\s]", code))


def point_1():
    found = lines(r"^(pub(\(crate\))? )?enum ")
    found += lines(r"=> [0-9][0-9_]*,$")
    found += lines(r"fn \w+.*&mut .*-> bool")
    for name, text in SRC.items():
        for m in re.finditer(r"(?m)^\s+0$", text):
            found.append(f"{name}: 0 for none")
    return found


def point_2():
    groups = collections.defaultdict(list)
    for name, function, whole in functions():
        indent = re.match(r" *", whole).group(0)
        code = body(whole, indent)
        if "#[test]" in whole or len(code.strip().split("\n")) < 4:
            continue
        groups[shape(code)].append(f"{name} {function}")
    return ["  ".join(g) for g in groups.values() if len(g) > 1]


def point_3():
    return lines(r"^\s*('[a-z]+: |let .*= )?(for|while|loop)\b")


def point_4():
    found = lines(r"^impl\S* .*\b(From<.*>|TryFrom<.*>|PartialEq|Eq|PartialOrd|Ord|Clone|Copy|Default|Display) for |^impl<.*> From<")
    found += lines(r"\b(Err|Ok|Some|None)(\(\w*\))? => (Err|Ok|Some|None|Answer::)")
    return found


def point_5():
    clauses = collections.Counter()
    pairs = collections.defaultdict(set)
    for name, text in SRC.items():
        for m in re.finditer(r"(requires|ensures)(?: \w+)? \{ (.*) \}", text):
            clauses[m.group(2)] += 1
    for name, function, whole in functions():
        m = re.match(r".*?\(([^)]*)\)", whole, re.S)
        if not m:
            continue
        names = re.findall(r"(\w+): [^,]+", m.group(1))
        for i, a in enumerate(names):
            for b in names[i + 1:]:
                pairs[tuple(sorted((a.lstrip("_"), b.lstrip("_"))))].add(name.split("/")[1] + "::" + function)
    found = [f"{n} times: {c}" for c, n in clauses.most_common() if n >= 3]
    found += [f"{' and '.join(p)}: {', '.join(sorted(w))}" for p, w in sorted(pairs.items(), key=lambda x: -len(x[1])) if len(w) >= 3]
    return found


def point_6():
    return lines(r"\[[A-Za-z<>]+; ?(N|[0-9_]+)\]") + lines(r"\w+: &mut \[\w+\], used: usize") + lines(r"^\s*(pub\(crate\) )?at: usize")


def point_7():
    return lines(r"match \*?call\b|\bdyn |: fn\(")


def point_8():
    answers = 0
    for text in sources("crates/*/proofs/**/Answers.antt").values():
        answers += len(re.findall(r"(?m)^(?:abbrev )?pub \S+ :", text))
    rest = sum(t.count("\n") for f, t in sources("crates/*/proofs/**/*.antt").items() if not f.endswith("Answers.antt"))
    return [f"answers: {answers}", f"lines of proofs outside them: {rest}", f"lines of specs: {sum(t.count(chr(10)) for t in sources('crates/*/specs/**/*.antt').values())}"]


def main():
    wanted = [int(a) for a in sys.argv[1:]]
    for point, what in POINTS.items():
        found = globals()[f"point_{point}"]()
        if not wanted:
            print(f"{point}  {'; '.join(found) if point == 8 else len(found)}  {what}")
        elif point in wanted:
            print("\n".join(found))


main()
