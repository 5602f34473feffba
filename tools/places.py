#!/usr/bin/env python3
"""Lists the places in src/ that docs/DESIGN-PASS.md counts.

usage: tools/places.py [POINT..]        at the top of a checkout; POINT is 1 to 8, all of them by default

Each line is FILE:LINE and what was found there. What is found is a candidate: the page says which of them are places.
"""
import collections
import difflib
import itertools
import pathlib
import re
import sys

FILES = {str(p): p.read_text() for p in sorted(pathlib.Path("crates").glob("*/src/**/*.rt"))}
ITEM = re.compile(r"^ *(?:pub(?:\([a-z]+\))? )?(?:final )?fn (\w+)", re.M)
WORD = re.compile(r"[A-Za-z_]\w*|\d\w*|\S")
KEYWORDS = {"for", "in", "if", "else", "match", "while", "let", "mut", "return", "Some", "None", "Ok", "Err", "as"}


def line_of(text, at):
    return text.count("\n", 0, at) + 1


def braces(text, at):
    """The end of the block that opens at or behind a place."""
    depth = 0
    for i in range(text.index("{", at), len(text)):
        depth += {"{": 1, "}": -1}.get(text[i], 0)
        if depth == 0:
            return i + 1
    return len(text)


def parameters_in(head):
    """The parameter list at the head of a function, behind the type parameters."""
    head, depth, start = head.replace("->", "  "), 0, 0
    if head.startswith("<"):
        for start, sign in enumerate(head):
            depth += {"<": 1, ">": -1}.get(sign, 0)
            if depth == 0:
                break
    start = head.index("(", start)
    for end in range(start, len(head)):
        depth += {"(": 1, ")": -1}.get(head[end], 0)
        if depth == 0:
            break
    return head[start:end]


def functions():
    """Path, line, name, parameters, clauses and body of every function."""
    for path, text in FILES.items():
        for found in ITEM.finditer(text):
            opened = re.compile(r"^ *\{(?:\})?$|\{(?:\})?$", re.M)
            at = found.end()
            while True:
                brace = opened.search(text, at)
                if brace is None:
                    break
                line = text[text.rfind("\n", 0, brace.start()) + 1 : brace.end()]
                if not re.match(r" *(requires|ensures)", line):
                    break
                at = brace.end()
            if brace is None:
                continue
            head = text[found.end() : brace.start()]
            body = text[brace.start() : braces(text, brace.start())]
            clauses = re.findall(r"(?:requires|ensures)[^{]*\{(.*)\}", head)
            parameters = re.findall(r"(\w+): ", parameters_in(head))
            yield path, line_of(text, found.start()), found[1], parameters, clauses, body


def each(pattern, flags=re.M):
    for path, text in FILES.items():
        for found in re.finditer(pattern, text, flags):
            yield path, line_of(text, found.start()), " ".join(found[0].split())[:90]


def shaped():
    """Enums of two cases of which one or both hold a value."""
    for path, text in FILES.items():
        for found in re.finditer(r"enum (\w+)[^{]*\{", text):
            body = re.sub(r"//.*", "", text[found.end() : braces(text, found.start()) - 1])
            cases = [c for c in re.split(r",(?![^()]*\))", body) if c.strip()]
            if len(cases) == 2 and any("(" in c for c in cases):
                yield path, line_of(text, found.start()), "enum " + found[1]


def point_1():
    yield from shaped()
    yield from each(r"^ +(?:pub(?:\(crate\))? )?\w+: bool,")
    yield from each(r"Err\(_\w*\) => Err\(|else \{\s+return Err\(Refusal::Memory\)|Err\(_\) => Err\(Refusal::Memory\)")
    yield from each(r"//.*(?:or the length|or their number|the length where|where there is none|with the number 0).*")
    yield from each(r"-> (?:Result<)?Option<&'static str>|-> \(u8, usize\)")


def shape_of(body):
    return ["I" if re.match(r"[A-Za-z_]", w) and w not in KEYWORDS else "N" if w[0].isdigit() else w for w in WORD.findall(body)]


def point_2():
    known = [(f, shape_of(f[5])) for f in functions()]
    known = [k for k in known if len(k[1]) >= 18 and "tests" not in k[0][0]]
    for (one, a), (other, b) in itertools.combinations(known, 2):
        if abs(len(a) - len(b)) * 6 > len(a) + len(b):
            continue
        matcher = difflib.SequenceMatcher(None, a, b, autojunk=False)
        if matcher.quick_ratio() > 0.93 and matcher.ratio() > 0.93:
            yield one[0], one[1], f"fn {one[2]} as fn {other[2]} in {other[0]}:{other[1]}"


def point_3():
    yield from each(r"^ +while (?!let).*")
    yield from each(r"^ +for _ in 0\.\..*")
    for path, text in FILES.items():
        for found in re.finditer(r"for (\w+) in \S*\.\.[^{]*\{", text):
            body = text[found.end() : braces(text, found.start())]
            if re.search(r"\[" + found[1] + r"\b", body):
                yield path, line_of(text, found.start()), found[0]
        for found in re.finditer(r"^ +(?:while|loop|for)[^{\n]*\{", text, re.M):
            body = text[found.end() : braces(text, found.start())]
            for counter in re.findall(r"^ +(\w+) (?:\+=|-=) 1;", body, re.M):
                yield path, line_of(text, found.start()), f"{counter} counted in: {found[0].strip()}"


def point_4():
    for path, line, name, _, _, body in functions():
        inner = " ".join(body.split())
        if re.fullmatch(r"\{ \*?[\w.]+ == \*?[\w.]+ \}", inner):
            yield path, line, f"fn {name} is =="
        if inner.count("=> \"") + inner.count("=> b\"") >= 2:
            yield path, line, f"fn {name}: words by match"
    yield from each(r"impl(?:<[^>]*>)? (?:PartialEq|Eq|PartialOrd|Ord|Clone|Debug|Hash)\b.*")
    yield from each(r"^ +_ => false,|^ +None => false,|^ +Some\(\w+\) => \*\w+,")


def point_5():
    for crate in sorted({p.split("/")[1] for p in FILES}):
        clauses, groups = collections.defaultdict(set), collections.defaultdict(set)
        first = {}
        for path, line, name, parameters, facts, _ in functions():
            if path.split("/")[1] != crate:
                continue
            for fact in facts:
                fact = " ".join(re.sub(r"\b(?:self|result)\b", "x", fact).split())
                if len(fact) < 60:
                    clauses[fact].add(name)
                    first.setdefault(fact, (path, line))
            names = [n for n in parameters if n not in ("rt", "heap")]
            for three in itertools.combinations(sorted(set(names)), 3):
                groups[three].add(name)
                first.setdefault(three, (path, line))
        for fact, names in clauses.items():
            if len(names) >= 3:
                yield *first[fact], f"in {len(names)} functions: {fact}"
        told = set()
        for three, names in sorted(groups.items(), key=lambda g: -len(g[1])):
            key = frozenset(names)
            if len(names) >= 3 and key not in told:
                told.add(key)
                yield *first[three], f"in {len(names)} functions: {', '.join(three)}"


def point_6():
    yield from each(r"^ +(?:pub(?:\(crate\))? )?\w+: \[[^\]]+; \w+\],")
    yield from each(r"\w+: &(?:mut )?\[[^\]]+\],\s+(?:at|count|len|from|end): (?:&mut )?usize")
    yield from each(r"let mut \w+ = \[[^;\]]+; \w+\];")
    yield from each(r"&(?:mut )?\w+\[0\.\.\w+\]")
    yield from each(r"^ +(?:pub(?:\(crate\))? )?(?:count|len|rows|settled): usize,")


def point_7():
    yield from each(r"enum (?:Step|Task|Plan|Pending|Tag|Command|Side)\b")
    yield from each(r"\bdyn \w+|: fn\(")
    for path, line, name, parameters, _, body in functions():
        arms = re.findall(r"=> (?:\{\s+)?(\w+)\(", body)
        if len([a for a in arms if a[0].islower()]) >= 3:
            yield path, line, f"fn {name}: a match that calls {len(arms)} functions"


def point_8():
    for answers in sorted(pathlib.Path("crates").glob("*/proofs/**/Answers.antt")):
        yield str(answers), 1, f"{len(re.findall(r'^pub ', answers.read_text(), re.M))} answers"
    proofs = {p: p.read_text() for p in pathlib.Path("crates").glob("*/*/**/*.antt")}
    uses = collections.Counter(w for t in proofs.values() for w in set(re.findall(r"[\w'◌-]+", t)))
    attributes = " ".join(FILES.values())
    for path in sorted(pathlib.Path("crates").glob("*/proofs/*.antt")):
        text = proofs[path]
        for found in re.finditer(r"^(?:abbrev |unfoldable )?pub (?:abbrev |unfoldable )?([\w'-]+) :", text, re.M):
            inside = len(re.findall(r"(?<![\w'-])" + re.escape(found[1]) + r"(?![\w'-])", text))
            if uses[found[1]] == 1 and inside <= 2 and found[1] not in attributes:
                yield str(path), line_of(text, found.start()), f"lemma {found[1]} is cited nowhere"


def main():
    for point in [int(a) for a in sys.argv[1:]] or range(1, 9):
        places = sorted(set(globals()[f"point_{point}"]()))
        print(f"point {point}: {len(places)}")
        for path, line, what in places:
            print(f"  {path}:{line}: {what}")


main()
