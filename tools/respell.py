"""Brings the names of the repository's own definitions and lemmas to today's spelling: words in snake case, types and facts in camel case.

Run once at the top of the repository, after the kit's script: `python3 tools/respell.py`; `--list` prints what it would rename, and changes nothing.
It renames what specs/ and proofs/ declare, wherever antt, clauses, must-fail edits and pages name it. Names that the kit makes or its library has keep their spelling.
"""

import os
import re
import sys

SEPARATORS = r"\s(){}\[\];,«»\"."
TOKEN = re.compile(r"[^" + SEPARATORS + r"]+")
DECLARED = re.compile(r"\s*(?:(?:abbrev|unfoldable|pub|data|record) )*([^" + SEPARATORS + r":=|λ∷]+)(?: (?:\(.*\)|\{.*\}))? : (.*)")
USED = re.compile(r"(?:pub |ghost )?use ((?:[^\s.{;]+\.)*[^\s.{;]+)(?:\.\{(.*)\})?")
HYPHEN = re.compile(r"[\w'′]-[\w'′]")
# names that would fall together with a word of the kit's library that the same file uses
APART = {"put-mid": "put_middle", "bit-and": "bit_of_and", "bit-or": "bit_of_or", "length-take": "length_of_take"}


def files(*endings):
    for top in ("crates", "docs"):
        for folder, _, names in os.walk(top):
            if "/out" not in folder:
                for name in sorted(names):
                    if name.endswith(endings):
                        yield os.path.join(folder, name)


def read(path):
    with open(path, encoding="utf-8") as f:
        return f.read()


def is_shared(path):
    """A file of definitions or lemmas, and not the proof of one function."""
    return path.count("/") == 3 and path.endswith(".antt")


def respelled(name):
    if name in APART:
        return APART[name]
    parts = name.split("-")
    if name[0].isupper():
        return "".join(p[:1].upper() + p[1:] for p in parts)
    return "_".join(parts)


def imported(text, crates):
    """The names that a file takes from the kit."""
    names = set()
    for used in map(USED.match, text.split("\n")):
        parts = used[1].split(".") if used else []
        if used and used[2] and not (parts[0] == "Rattle" and parts[1] in crates):
            names |= {x.strip() for n in used[2].split(",") for x in n.split(" as ")}
    return names


def uncommented(line, mark):
    at = line.find(mark)
    return line if at < 0 else line[:at]


def survey():
    crates = set(os.listdir("crates"))
    own, kit, tokens = {}, set(), set()
    for path in files(".antt"):
        kit |= imported(read(path), crates)
        for line in read(path).split("\n"):
            if USED.match(line):
                continue
            line = uncommented(line, "-- ")
            declared = DECLARED.match(line)
            if declared and HYPHEN.search(declared[1]) and not declared[2].startswith("goal."):
                own.setdefault(declared[1], set()).add(path)
            if is_shared(path):
                tokens |= {t for t in TOKEN.findall(line) if HYPHEN.search(t)}
    return own, kit, tokens


def renames():
    own, kit, tokens = survey()
    names = {n for n in own} | {t for t in tokens if re.fullmatch(r"[\w'′]+(-[\w'′]+)+", t)}
    return {n: respelled(n) for n in names if n in APART or n not in kit}, own, kit


def turn(line, table, after_dot):
    def one(m):
        t = m[0]
        if t not in table:
            return t
        if m.start() and line[m.start() - 1] == "." and not after_dot(t, line[: m.start()]):
            return t
        return table[t]

    return TOKEN.sub(one, line)


def turn_antt(text, table, shared, fields):
    out = []
    for line in text.split("\n"):
        at = re.search(r"(^|\s)-- ", line)
        code, rest = (line, "") if not at else (line[: at.start()], line[at.start():])
        if shared:
            code = turn(code, table, lambda t, before: True)
        else:
            code = turn(code, table, lambda t, before: t in fields and not re.search(r"(goal|^use .*)\.$", before) or re.search(r"\.(specs|proofs)\.\w+\.$", before))
        out.append(code + rest)
    return "\n".join(out)


def turn_rust(text, table):
    out = []
    for line in text.split("\n"):
        at = line.find("//")
        code, rest = (line, "") if at < 0 else (line[:at], line[at:])
        pieces = re.split(r'("(?:[^"\\]|\\.)*")', code)
        pieces[0::2] = [turn(p, table, lambda t, before: True) for p in pieces[0::2]]
        out.append("".join(pieces) + rest)
    return "\n".join(out)


def turn_page(text, table):
    return re.sub(r"`[^`\n]+`", lambda m: turn(m[0], {"`" + k + "`": "`" + v + "`" for k, v in table.items()} | table, lambda t, before: False), text)


def main():
    table, own, kit = renames()
    for new in sorted(set(table.values())):
        olds = [o for o in table if table[o] == new]
        if len(olds) > 1 or new in own or new in kit:
            print("falls together:", new, olds, "own" if new in own else "", "kit" if new in kit else "", file=sys.stderr)
    if "--list" in sys.argv:
        for old in sorted(table):
            print(old, table[old], "" if old in own else "(local)")
        return
    crates = set(os.listdir("crates"))
    fields = {n for n, where in own.items() if any(is_shared(p) for p in where)}
    for path in list(files(".antt", ".rt", ".edit", ".md")) + ["README.md"]:
        text = read(path)
        if path.endswith(".antt"):
            taken = imported(text, crates)
            mine = {o: n for o, n in table.items() if o not in taken and (is_shared(path) or o in own and (o in fields or path in own[o]))}
            new = turn_antt(text, mine, is_shared(path), fields)
        elif path.endswith(".md"):
            new = turn_page(text, table)
        else:
            new = turn_rust(text, {o: n for o, n in table.items() if o in own})
        if new != text:
            with open(path, "w", encoding="utf-8") as f:
                f.write(new)


main()
