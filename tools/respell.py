#!/usr/bin/env python3
"""Spells the definitions and lemmas of this repository as today's Rattle does: snake case, with plain underscores.

usage: python3 tools/respell.py [FOLDER]      below FOLDER/crates (default: where it is run), after port.py, once; a second run writes nothing

What turns is each name that a file of a crate's specs/ or proofs/ declares, unless it begins with a capital, and the name of each function's
proof: `sameBytes` and `same-bytes-eq` become `same_bytes` and `same_bytes_eq`. It turns wherever it stands as a whole word in the .antt files, and in the clauses, the
`ghost use` items and the comments' code of the .rt files. A name that a file brings in from a library stays in that file. Functions of src/
and their parameters stay. Where a lemma would have the name of a definition, it gets `_lem`, and a line says so.
"""

import collections
import os
import re
import sys

NAME = r"[^\s(){}.;,@\"«»]+"
HEAD = re.compile(rf"^( *)((?:abbrev|unfoldable|pub|ruleset|data|record)\s+)*({NAME})((?:\s*\{{[^{{}}]*\}}|\s*\([^()]*\))*)\s*:(?:\s|$)")
USE = re.compile(r"\buse ([^\s;{]+)\.\{([^}]*)\}")
CLAUSE = re.compile(r"(?:requires|ensures)\s*\*?\s*(?:\w+\s*)?\{|ghost\s+use\b|ghost\s*(?:\w+\s*(?::\s*)?)?\{")


def snake(n):
    """The name in snake case."""
    n = n.replace("-", "_")
    n = re.sub(r"(?<=[a-z0-9'])([A-Z])(?=[A-Z0-9_]|$)", lambda m: "_" + m[1].lower(), n)
    n = re.sub(r"([A-Z])", lambda m: "_" + m[1].lower(), n)
    return re.sub(r"(?<!^)__+", "_", n)


def files(root, *ends):
    for folder, dirs, names in os.walk(os.path.join(root, "crates")):
        dirs[:] = sorted(d for d in dirs if d not in ("out", "must-fail"))
        for n in sorted(names):
            if n.endswith(ends):
                yield os.path.join(folder, n)


def read(path):
    with open(path, encoding="utf-8") as f:
        return f.read()


def declared(text):
    """The names that a file of specs/ or proofs/ declares: items, constructors and fields, each on a line of its own."""
    found = set()
    for line in text.split("\n"):
        m = HEAD.match(line)
        if m and not line.lstrip().startswith("--"):
            found.add(m[3])
        m = re.match(rf"^ *(?:abbrev |unfoldable |pub )*(?:ruleset|record|data) (?:pub )?({NAME})", line)
        if m:
            found.add(m[1])
    return found


def own_crates(root):
    return set(os.listdir(os.path.join(root, "crates")))


def lent(text, crates):
    """The names that a file brings in from a library."""
    found = set()
    for path, names in USE.findall(text):
        parts = path.split(".")
        if parts[0] == "Rattle" and len(parts) > 1 and parts[1] in crates:
            continue
        for n in names.split(","):
            found.update(n.split(" as ")[-1:] if " as " in n else [n.strip()])
    return {n.strip() for n in found}


def shared(path):
    """Whether a file holds definitions or lemmas that others cite, and not the proof of one function."""
    return os.path.basename(os.path.dirname(path)) in ("specs", "proofs")


def table(root):
    """What each name becomes. A lemma that would have its definition's name gets `_lem`."""
    names = set()
    for p in files(root, ".antt"):
        text = read(p)
        if shared(p):
            names |= declared(text)
        names.update(re.findall(r"^pub ([^\s:]+-spec) :", text, re.M))
    turned = {n: snake(n) for n in names if not n[0].isupper() and n[0] != "◌" and snake(n) != n}
    at = collections.defaultdict(list)
    for n in sorted(names):
        at[turned.get(n, n)].append(n)
    for s, ns in at.items():
        if len(ns) > 1:
            definition = [n for n in ns if re.search("[A-Z]", n)]
            if len(ns) != 2 or len(definition) != 1:
                sys.exit(f"respell: {', '.join(ns)} would fall together")
            lemma = next(n for n in ns if n not in definition)
            turned[lemma] = s + "_lem"
            print(f"respell: {definition[0]} is {s}, and the lemma {lemma} {s}_lem")
    return turned, own_crates(root)


def turn_words(text, turned, keep):
    return re.sub(NAME, lambda m: turned[m[0]] if m[0] in turned and m[0] not in keep else m[0], text)


def turn_spans(text, turned, keep):
    """The code spans of a comment or a page."""
    return re.sub(r"`[^`\n]+`", lambda m: turn_words(m[0][:-1], {"`" + k: "`" + v for k, v in turned.items()} | turned, keep) + "`", text)


def turn_antt(text, turned, keep):
    done = []
    for line in text.split("\n"):
        m = re.search(r"(^|\s)--(\s|$)", line)
        code, comment = (line[:m.start()], line[m.start():]) if m else (line, "")
        done.append(turn_words(code, turned, keep) + turn_spans(comment, turned, keep))
    return "\n".join(done)


def spans(text):
    """Where the clauses and the `ghost use` items of a .rt file stand."""
    i = 0
    while m := CLAUSE.search(text, i):
        line = text.rfind("\n", 0, m.start()) + 1
        if "//" in text[line:m.start()]:
            i = m.end()
            continue
        j = m.end()
        if text[j - 1] == "{":
            deep = 1
            while deep:
                deep += (text[j] == "{") - (text[j] == "}")
                j += 1
        else:
            j = text.index(";", j)
        yield m.start(), j
        i = j


def turn_rt(text, turned, keep):
    out, i = [], 0
    for a, b in spans(text):
        out.append(re.sub(r"//[^\n]*", lambda m: turn_spans(m[0], turned, keep), text[i:a]))
        out.append(turn_words(text[a:b], turned, keep))
        i = b
    out.append(re.sub(r"//[^\n]*", lambda m: turn_spans(m[0], turned, keep), text[i:]))
    return "".join(out)


def main(root):
    turned, crates = table(root)
    n = 0
    for p in files(root, ".antt", ".rt"):
        text = read(p)
        keep = lent(text, crates)
        new = turn_antt(text, turned, keep) if p.endswith(".antt") else turn_rt(text, turned, keep)
        if new != text:
            n += 1
            with open(p, "w", encoding="utf-8") as f:
                f.write(new)
    print(f"respell: {len(turned)} names, {n} files")


if __name__ == "__main__":
    main(sys.argv[1] if len(sys.argv) > 1 else ".")
