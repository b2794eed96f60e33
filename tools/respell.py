#!/usr/bin/env python3
"""Respells the definitions and lemmas of this repository after /opt/rattle/port/port.py, as today's Rattle spells them.

usage: respell.py [--names] [TOP]     (--names prints the table and writes nothing)

Facts and types: upper camel case, so 'All-in' becomes AllIn. Definitions and fields: snake case. In a lemma's name a dash stays
where it joins the names of two functions, as in window-suc; every other dash becomes '_'. Names that Rattle makes stay, and so does
all that is not declared in specs/ or proofs/. Names that would fall together are marked in what it prints: look there before it writes (--names)."""
import collections, glob, os, re, sys

DECLARED = re.compile(r"( *)((?:(?:abbrev|pub|unfoldable|opaque)\s+)*)(?:(record|data)\s+)?([^\s:(){},.=|]+)((?:\s+[({].*)?)\s*:(?:\s|$)")
TOKEN = re.compile(r"[^\s(){}\[\].;,@\"«»`]+")
# functions of the library that lemmas here name
LIBRARY = set("length take drop append replicate get nth suc zero set map max min push".split())
# names whose plain turn is a variant of an enum in the same file
OTHERS = {"No-mark": "LacksMark", "No-number": "IsNoNumber"}
LOCAL = re.compile(r"\blet ([a-z][\w']*(?:-[\w']+)+)(?= [:=])")
MADE = re.compile(r"(?:abbrev )?pub [^\s:]+ : (?:goal|need|given)\.")


def declared(top):
    found = collections.defaultdict(set)
    for part in ("specs", "proofs"):
        for path in glob.glob(os.path.join(top, "crates", "*", part, "**", "*.antt"), recursive=True):
            for line in open(path, encoding="utf-8"):
                if MADE.match(line):
                    continue
                for name in LOCAL.findall(line):
                    found[name].add("definition")
                m = DECLARED.match(line)
                if not m or m[4] in ("use", "let", "λ") or line.lstrip().startswith(("let ", "elim ", "--")):
                    continue
                field = part == "specs" and m[1] == "  " and "pub" in m[2] and not m[5]
                kind = "definition" if m[3] or field or "abbrev" in m[2] or "unfoldable" in m[2] else "lemma"
                found[m[4]].add(kind)
    return found


def turned(name, kinds, functions):
    if name in OTHERS:
        return OTHERS[name]
    if name[0].isupper():
        return "".join(p[:1].upper() + p[1:] for p in name.split("-"))
    if "definition" in kinds:
        return name.replace("-", "_")
    parts = name.split("-")
    out, last = parts[0], parts[0]
    for p in parts[1:]:
        known = last in functions and p in functions
        out, last = (out + "-" + p, p) if known else (out + "_" + p, last + "_" + p)
    return out


def table(top):
    found = declared(top)
    functions = LIBRARY | {n for n, k in found.items() if "definition" in k and not n[0].isupper()}
    rows = {n: turned(n, k, functions) for n, k in found.items() if "-" in n}
    rows = {a: b for a, b in rows.items() if a != b}
    return rows, found


def files(top):
    for ext in ("antt", "rt"):
        for path in sorted(glob.glob(os.path.join(top, "crates", "**", "*." + ext), recursive=True)):
            if "/out/" not in path:
                yield path


def main(argv):
    show = "--names" in argv
    rest = [a for a in argv if not a.startswith("--")]
    top = rest[0] if rest else "."
    rows, found = table(top)
    back = collections.defaultdict(set)
    for a, b in rows.items():
        back[b].add(a)
    words = set()
    for path in files(top):
        words |= set(TOKEN.findall(open(path, encoding="utf-8").read()))
    for a, b in sorted(rows.items()):
        print(a, b, "FALLS TOGETHER" if len(back[b]) > 1 else "STANDS ALREADY" if b in found else "is a word" if b in words else "")
    if show:
        return 0
    count = 0
    for path in files(top):
        text = open(path, encoding="utf-8").read()
        new = TOKEN.sub(lambda m: rows.get(m[0], m[0]), text)
        if new != text:
            open(path, "w", encoding="utf-8").write(new)
            count += 1
    print(f"{len(rows)} names, {count} files")
    return 0


if __name__ == "__main__":
    sys.exit(main(sys.argv[1:]))
