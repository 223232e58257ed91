#!/usr/bin/env python3
"""Brings the repository's own definitions, fields and lemmas to today's spelling, and its clauses to a constant by its name.

usage: respell.py            at the top of a checkout, once, after port.py
       respell.py --list     prints the names that it would turn, and writes nothing

Words are in snake case: oldestOf becomes oldest_of, a field not-zero becomes not_zero, and a lemma begin-free becomes begin_free. A dash
stays in a lemma's name where it joins two names, as in active-count. The names of src/, of C, of strings and of files keep their spelling;
names that Rattle makes for a function's proof are left to the scripts that turn proof files.
A clause that asked for the constant SLOTS names it: 'ensures* { do ⌜ result ≡ f (← (⟦kinds::SLOTS⟧).entry) x ⌝ }' becomes
'ensures { result ≡ f SLOTS x }'. The edits in must-fail/ are turned by the same rules.
"""
import os
import re
import sys

W = r"[^\s(){}\[\].;,:@\"«»\\∷λ]+"
HEAD = r"(?:abbrev pub |unfoldable pub |pub |abbrev |unfoldable |mutual )?"
# where two names would fall together, the lemma is told apart; a name that the library has too stays
APART = {"frees-pin": "frees_the_pin", "and-false": "and-false", "tableAfter": "table_left", "outAfter": "out_left", "goes_on": "goes_on", "record_of": "record_of"}


def read(path):
    with open(path, encoding="utf-8") as f:
        return f.read()


def snake(part):
    return re.sub(r"([a-z0-9])([A-Z])", lambda m: m[1] + "_" + m[2].lower(), part) if part[:1].islower() else part


def files(root, *ends):
    for folder, dirs, names in os.walk(os.path.join(root, "crates")):
        dirs[:] = sorted(d for d in dirs if d != "out")
        for name in sorted(names):
            if name.endswith(ends):
                yield os.path.join(folder, name)


def declared(root):
    """The own names: (definitions and lemmas, fields and constructors), and the words that a dash may join."""
    tops, inner, words = {}, {}, set()
    for path in files(root, ".antt"):
        text = read(path)
        in_block = False
        nested = None
        for line in text.split("\n"):
            # what stands in a module with parameters
            at = len(line) - len(line.lstrip(" "))
            if re.match(r" *module _\b", line):
                nested = at if nested is None else min(nested, at)
            m = re.match(rf" +(?:abbrev pub |unfoldable pub |pub )({W})(?= |:)", line)
            if m and nested is not None and at > nested and not in_block:
                tops.setdefault(m[1], path)
                continue
            m = re.match(rf"{HEAD}(data|record) ", line)
            if m:
                in_block = True
                continue
            m = re.match(rf"{HEAD}({W})(?= .*:|:)", line)
            if m and not line.startswith(("use ", "--")) and not re.match(rf"{HEAD}{W} .*(?<![:≡])=", line.split(" : ")[0] if " : " in line else line):
                in_block = False
                if " : " in line or line.endswith(" :"):
                    kind = line.split(" : ", 1)[-1].split()[0] if " : " in line else ""
                    if not kind.startswith(("tie.", "goal.")):
                        tops.setdefault(m[1], path)
                        if "/specs/" in path:
                            words.add(snake(m[1]))
                continue
            if line and not line.startswith((" ", "--")):
                in_block = False
            m = re.match(rf" +(?:pub )?((?:{W} )+): ", line)
            if in_block and m:
                for name in m[1].split():
                    inner.setdefault(name, path)
    return tops, inner, words


def table(root):
    """Each own name that changes, and its new spelling."""
    tops, inner, words = declared(root)
    for path in files(root, ".rt"):
        words.update(re.findall(r"\bfn (\w+)", read(path)))
    words |= {"length", "drop", "take", "set", "min", "max", "replicate", "append", "cond", "get_or", "getD"}
    to = {}
    for name in sorted(set(tops) | set(inner)):
        if not re.match(r"[A-Za-z_]", name):
            continue
        parts = [snake(p) for p in name.split("-")]
        new = parts[0]
        for before, after in zip(parts, parts[1:]):
            is_joint = name not in inner and before in words and after in words and not name.endswith("-spec")
            new += ("-" if is_joint else "_") + after
        to[name] = APART.get(name, new)
    taken = {}
    for name, new in sorted(to.items(), key=lambda it: ("-" in it[0] or "/proofs/" in tops.get(it[0], ""), it[0])):
        taken.setdefault(new, name)
        if taken[new] != name and name not in APART:
            to[name] = new + "_lem"
    return {name: new for name, new in to.items() if name != new}, set(inner)


TOKEN = re.compile(r"--[^\n]*|//[^\n]*|\"(?:[^\"\\\n]|\\.)*\"|" + W)


def renamed(text, to, inner, is_source=False):
    """The text with each own name in its new spelling. A name behind a dot is turned where it is a field, or where a module stands before."""

    aliases = set(re.findall(r"use Rattle[\w.·]+\.(?:specs|proofs)\.(?!Goals|Given|Tie|Lts|Reads)[A-Z]\w* as (\w+)", text))

    def turn(m):
        t = m[0]
        if t.startswith(("--", "//")):
            return re.sub(r"[A-Za-z_][\w'-]*", lambda w: to.get(w[0], w[0]) if re.search("[a-z][A-Z]", w[0]) else w[0], t)
        if t.startswith("\""):
            return t
        # in source a plain word is a name of the program's own
        if t not in to or (is_source and not re.search("-|[a-z][A-Z]", t)):
            return t
        before = text[: m.start()]
        if before.endswith("."):
            path = re.search(r"([\w'·+⟦⟧:-]+\.)+$", before)
            is_module = path and re.search(r"(^|\.)([A-Z][\w']*\.|proofs\.|specs\.)$", path[0])
            is_alias = path and path[0][:-1] in aliases
            if t not in inner and not is_module and not is_alias:
                return t
        return to[t]

    return TOKEN.sub(turn, text)


def clauses(text):
    """The clauses of the text: where each begins and ends, and its kind, label and inside."""
    for m in re.finditer(r"\b(ensures|requires)(\*?)( \w+)? \{", text):
        depth, i = 1, m.end()
        while i < len(text) and depth:
            depth += {"{": 1, "}": -1}.get(text[i], 0)
            i += 1
        if not depth:
            yield m.start(), i, m[1], m[2], m[3] or "", text[m.end() : i - 1]


def unasked(text):
    """Clauses that asked for a constant name it; what then holds no star loses it."""
    for start, end, kind, star, label, inside in reversed(list(clauses(text))):
        if "←" not in inside and "⌜" not in inside:
            continue
        names = dict(re.findall(r"(\w+) ← \(?⟦(?:\w+::)?(\w+)⟧\)?(?:\.entry)?", inside))
        inside = re.sub(r"\s*\w+ ← \(?⟦(?:\w+::)?\w+⟧\)?(?:\.entry)?\s*;?", "", inside)
        inside = re.sub(r"\(← \(?⟦(?:\w+::)?(\w+)⟧\)?(?:\.entry)?\)", r"\1", inside)
        for n, c in names.items():
            inside = re.sub(rf"(?<![\w'.-]){n}(?![\w'-])", c, inside)
        inside = re.sub(r"^\s*do\s*(?=⌜)", "", inside.strip())
        if inside.startswith("⌜") and inside.endswith("⌝") and inside.count("⌜") == 1:
            text = f"{text[:start]}{kind}{label} {{ {inside[1:-1].strip()} }}{text[end:]}"
    return text


def imported(text, of_kinds):
    """A constant that a clause names is imported."""
    for name in sorted(of_kinds):
        if not any(re.search(rf"\b{name}\b", it[5]) for it in clauses(text)):
            continue
        if re.search(rf"(?m)^(pub )?use [^;]*\b{name}\b[^;]*;", text) or re.search(rf"(?m)^(pub )?const {name}\b", text):
            continue
        one = re.search(r"(?m)^use kinds::(\w+);$", text)
        many = re.search(r"(?m)^use kinds::\{([^}]*)\};$", text)
        if many:
            all_names = sorted([name] + many[1].split(", "), key=str.lower)
            text = text[: many.start(1)] + ", ".join(all_names) + text[many.end(1) :]
        elif one:
            text = text[: one.start()] + f"use kinds::{{{', '.join(sorted([one[1], name], key=str.lower))}}};" + text[one.end() :]
        else:
            ghosts = list(re.finditer(r"(?m)^ghost use [^;]*;\n", text))
            at = ghosts[-1].end() if ghosts else 0
            text = f"{text[:at]}\nuse kinds::{name};\n{text[at:]}"
    return text


def main():
    root = "."
    to, inner = table(root)
    if "--list" in sys.argv[1:]:
        for name in sorted(to):
            print(name, "->", to[name])
        return 0
    for path in files(root, ".rt", ".antt", ".edit"):
        old = text = read(path)
        text = unasked(text)
        if path.endswith(".rt"):
            text = imported(text, {"SLOTS", "CALLS"})
        is_source = path.endswith(".rt") or (path.endswith(".edit") and re.search(r"(?m)^file: src/", text) is not None)
        text = renamed(text, to, inner, is_source)
        if text != old:
            with open(path, "w", encoding="utf-8") as f:
                f.write(text)
    return 0


if __name__ == "__main__":
    raise SystemExit(main())
