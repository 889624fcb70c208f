#!/usr/bin/env python3
"""Lists rows of crates/*/src where an older form of code may stand, a point each, to be read by a person.

usage: tools/places.py POINT [FOLDER]    POINT is 1 to 7; FOLDER is the repository's top (default: here)

1  enums; functions that answer a flag, a number or a pair of numbers; zeros that may stand for 'none' or 'done'
2  functions and blocks of match arms that are alike but for names and numbers
3  loops over ranges, `while` loops, counters
4  conversions, comparisons, copies field by field and names written by hand
5  clauses that stand three times or more, and pairs of parameters that three functions or more take together
6  arrays of a fixed size, and structs with a count beside a buffer
7  dyn, function pointers, closures' bounds, enums of steps
"""
import collections
import os
import re
import sys

ROWS = {
    1: [
        r"^ *(pub(\(crate\))? )?enum ",
        r"-> (bool|u8|u32|usize|\(u8, usize\)|\(u8, usize, usize, usize\)|Option<\(u8, usize\)>|Option<Fault>)( |$|\{)",
        r"(=> 0,$|None => 0|unwrap_or\(0\)|code == 0|\.code\(\) \{|== 0 \{$)",
    ],
    3: [r"(\bfor [^=]* in [^;]*\.\.|\bwhile |enumerate\(\)|\+= 1;)"],
    4: [
        r"fn (code|number|byte|character|function|place|body|state|online|kind|name|at_most)\(",
        r"fn (from|to)_[a-z_]+\(",
        r"(\.code\(\) ==|category: alarm\.category)",
    ],
    6: [r"\[[A-Za-z0-9_<>]+; *[0-9A-Z_]+\]"],
    7: [r"(\bdyn |\bfn\(|impl Fn|Fn(Once|Mut)?\(|enum (Step|Operation|Act|Call)\b)"],
}


def sources(top):
    for folder, dirs, files in sorted(os.walk(os.path.join(top, "crates"))):
        if os.path.relpath(folder, top).split(os.sep)[2:3] == ["src"]:
            for name in sorted(files):
                if name.endswith(".rt"):
                    path = os.path.join(folder, name)
                    yield os.path.relpath(path, top), open(path, encoding="utf-8").read()


def is_code(line):
    return not re.match(r"\s*(//|ensures|requires|ghost )", line)


def by_line(point, top):
    for path, text in sources(top):
        for number, line in enumerate(text.split("\n"), 1):
            if is_code(line) and any(re.search(p, line) for p in ROWS[point]):
                yield "%s:%d: %s" % (path, number, line.strip())


def functions(text):
    """Each function's line, name, head (parameters and clauses) and body."""
    for m in re.finditer(r"^( *)(?:pub(?:\(crate\))? )?fn (\w+)", text, re.M):
        end = re.search(r"^%s(\}|\{\}|.*;)$" % m.group(1), text[m.end():], re.M)
        whole = text[m.start():m.end() + (end.end() if end else 0)]
        head, _, body = whole.partition("\n%s{\n" % m.group(1))
        if not body:
            head, _, body = whole.partition("{\n")
        yield text.count("\n", 0, m.start()) + 1, m.group(2), head, body


def shape(body):
    seen = {}
    words = re.findall(r"\w+|[^\w\s]", body)
    return tuple(seen.setdefault(w, len(seen)) if re.match(r"\w", w) else w for w in words)


def alike(top):
    groups = collections.defaultdict(list)
    for path, text in sources(top):
        for line, name, _, body in functions(text):
            s = shape(body)
            if len(s) >= 8:
                groups[s].append("%s:%d %s" % (path, line, name))
    for rows in groups.values():
        if len(rows) > 1:
            yield "; ".join(rows)


def together(top):
    clauses, pairs = collections.Counter(), collections.defaultdict(list)
    for path, text in sources(top):
        for line, name, head, _ in functions(text):
            for c in set(re.findall(r"^\s*(?:ensures|requires)\*?(?: \w+)? (\{.*\})$", head, re.M)):
                clauses[c] += 1
            parameters = re.findall(r"(\w+): (&mut |&)?(?:'\w+ )?(?:mut )?([\w\[\]<>'_ ;]+)", head.split("ensures")[0].split("requires")[0])
            named = sorted({"%s: %s%s" % p for p in parameters})
            for i, a in enumerate(named):
                for b in named[i + 1:]:
                    pairs[a, b].append(name)
    for c, n in clauses.most_common():
        if n >= 3:
            yield "%d times: %s" % (n, c)
    for (a, b), names in sorted(pairs.items(), key=lambda x: -len(x[1])):
        if len(names) >= 3:
            yield "%d functions: %s, %s (%s)" % (len(names), a.strip(), b.strip(), " ".join(names))


def main():
    point, top = int(sys.argv[1]), sys.argv[2] if len(sys.argv) > 2 else "."
    rows = list({2: alike, 5: together}.get(point, lambda t: by_line(point, t))(top))
    print("\n".join(rows))
    print("%d rows" % len(rows))


if __name__ == "__main__":
    main()
