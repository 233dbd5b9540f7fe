#!/usr/bin/env python3
"""Spells the repository's own definitions and lemmas as the library does, in the folder that is given (the top of a checkout).

Run once, after the kit's port.py. A name in camel case comes into snake case, as 'takeAt' to 'take_at'. A dash stays where it joins the
names of two definitions, and is an underscore elsewhere, as in 'layout-bytes' and 'block_told'. A lemma that would have the name of a
definition gets '_lem'. A definition that says a fact has the name of a type. Types, modules, the functions and types of src/, strings and the names that the prover makes keep their spelling.
Writes the table of names to tools/names.tsv.
"""
import os
import re
import sys

WORD = re.compile(r'[^\s(){}.;,@"«»`]+')
DECL = re.compile(r"^(\s*)((?:(?:abbrev|unfoldable|pub|rec) )*)(record |data |infix\w* \d+ )?(\S+?)((?: (?:\{[^{}]*\}|\([^()]*\)))*) :(?= |$)")
# words of the library that a lemma's name may be made of
LIBRARY = set("length take drop append reverse map replicate get_or get set cons nil add mul sub div mod pow suc zero and or not eq le lt max min sum filter cond leb ltb eqb".split())
# definitions in small letters that say a fact
FACTS = set()
MADE = ("tie", "goal", "c", "w", "l", "g", "t")


def files(root):
    for top in ("crates", "docs", "README.md", "oracle/README.md"):
        path = os.path.join(root, top)
        if os.path.isfile(path):
            yield path
        for folder, dirs, names in os.walk(path):
            dirs[:] = sorted(d for d in dirs if d not in ("out", "target"))
            for n in sorted(names):
                yield os.path.join(folder, n)


def snake(name):
    """The name in snake case, but for the parts of it that name a type."""
    turn = lambda part: part if part[:1].isupper() else re.sub(r"(?<=[a-z0-9])([A-Z])", lambda m: "_" + m[1].lower(), part)
    return "-".join(turn(part) for part in name.split("-"))


def bare(name):
    return name.strip("◌")


def strip_comments(text):
    return re.sub(r"(?m)(^|(?<=\s))--( .*)?$", "", text)


def declared(root):
    """The names that files of specs/ and lemma files of proofs/ declare: definitions, and lemmas."""
    defs, lemmas = set(), set()
    FACTS.clear()
    for path in files(root):
        if not path.endswith(".antt"):
            continue
        inside = re.search(r"crates/[^/]+/(specs|proofs)/(.*)$", path)
        answers = inside[1] == "proofs" and "/" in inside[2]
        block = None
        for line in strip_comments(open(path, encoding="utf-8").read()).split("\n"):
            m = DECL.match(line)
            if not m or m[4] in ("let", "use", "module", "where"):
                continue
            name = bare(m[4])
            indent, words, kind = m[1], m[2], m[3]
            if re.search("abbrev|unfoldable", words) and re.search(r"→ Type [01]$", line) and name[0].islower():
                FACTS.add(name)
            if not re.match(r"[A-Za-z]", name) or "=" in name:
                continue
            if answers and not indent and not words and not kind:
                lemmas.add(name) if "tie." not in line and "goal." not in line else None
                continue
            if kind in ("record ", "data "):
                defs.add(name)
                block = indent
            elif "abbrev" in words or "unfoldable" in words or re.search(r"[a-z0-9][A-Z]", name) and "-" not in name:
                defs.add(name)
            elif block is not None and len(indent) > len(block) and "-" not in name:
                defs.add(name)
            else:
                lemmas.add(name)
            if block is not None and not kind and len(indent) <= len(block):
                block = None
    return defs, lemmas - defs


def respelled(name, names):
    """The name as the library would spell it, where `names` are the names of definitions."""
    s = snake(name)
    if name in FACTS:
        return re.sub(r"(?:^|[_-])(\w)", lambda m: m[1].upper(), s)
    if s.endswith("-spec"):
        return s.replace("-", "_")
    parts = s.split("-")
    out = parts[0]
    for a, b in zip(parts, parts[1:]):
        out += ("-" if a.rstrip("'") in names and b.rstrip("'") in names else "_") + b
    return out


def table(root):
    defs, lemmas = declared(root)
    names = {respelled(d, ()) for d in defs if "-" not in d} | {d for d in FACTS if "-" not in d} | LIBRARY
    turned, taken = {}, {}
    for group in (sorted(defs), sorted(lemmas)):
        for old in group:
            new = respelled(old, names)
            if taken.get(new, old) != old:
                print(f"{old} and {taken[new]} fall together: {new}_lem")
                new += "_lem"
            assert taken.get(new, old) == old, (old, new, taken[new])
            taken[new] = old
            if new != old:
                turned[old] = new
    return turned


class Turner:
    def __init__(self, turned):
        self.turned = turned

    def one(self, m, text, aliases, rust):
        word = m[0]
        inner = bare(word)
        new = self.turned.get(inner)
        if new is None:
            return word
        if rust and not re.search("[A-Z-]", inner):
            return word  # a function of src/ may be called so
        if not re.search("[A-Z]", inner) and text[m.start() - 1 : m.start()] == ".":
            head = re.search(r"([^\s(){};,@\"«».]+)(?:\.[^\s(){};,@\"«».]+)*\.$", text[: m.start()])
            if not (head and (head[1][0].isupper() or head[1] in aliases)):
                return word
        return word.replace(inner, new)

    def code(self, text, aliases=(), rust=False):
        out, at = [], 0
        for m in re.finditer(r'"[^"\n]*"', text):
            out += [self.words(text[at : m.start()], aliases, rust), m[0]]
            at = m.end()
        return "".join(out + [self.words(text[at:], aliases, rust)])

    def words(self, text, aliases=(), rust=False):
        return WORD.sub(lambda m: self.one(m, text, aliases, rust), text)

    def prose(self, text):
        text = re.sub(r"`[^`\n]*`", lambda m: self.words(m[0]), text)
        return WORD.sub(lambda m: self.turned[m[0]] if re.search("[A-Z]", m[0]) and m[0] in self.turned else m[0], text)

    def antt(self, text):
        aliases = set(re.findall(r"(?m)^use Rattle\.\S+ as (\S+)", text)) - set(MADE)
        out = []
        for line in text.split("\n"):
            m = re.search(r"(^|\s)--( |$)", line)
            at = m.start() if m else len(line)
            out.append(self.code(line[:at], aliases) + self.prose(line[at:]))
        return "\n".join(out)

    def rt(self, text):
        out = []
        for line in text.split("\n"):
            m = re.search(r"(^|\s)//", line)
            at = m.start() if m else len(line)
            out.append(self.code(line[:at], (), True) + self.prose(line[at:]))
        return "\n".join(out)

    def edit(self, text):
        in_antt = re.search(r"(?m)^file: \S+\.antt$", text)
        turn = self.antt if in_antt else self.rt
        return "\n".join(k + turn(v) if k else line for line in text.split("\n") for k, v in [split_edit(line)])


def split_edit(line):
    m = re.match(r"(old: |new: |# )", line)
    return (m[1], line[m.end() :]) if m else ("", line)


def main(root):
    turned = table(root)
    t = Turner(turned)
    for path in files(root):
        how = {".antt": t.antt, ".rt": t.rt, ".edit": t.edit, ".md": lambda s: re.sub(r"`[^`\n]*`", lambda m: t.words(m[0]), s)}.get(os.path.splitext(path)[1])
        if how is None:
            continue
        text = open(path, encoding="utf-8").read()
        new = how(text)
        if new != text:
            with open(path, "w", encoding="utf-8") as f:
                f.write(new)
    os.makedirs(os.path.join(root, "tools"), exist_ok=True)
    with open(os.path.join(root, "tools/names.tsv"), "w", encoding="utf-8") as f:
        f.writelines(f"{old}\t{new}\n" for old, new in sorted(turned.items()))
    print(f"{len(turned)} names")


if __name__ == "__main__":
    main(sys.argv[1] if len(sys.argv) > 1 else ".")
