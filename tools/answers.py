#!/usr/bin/env python3
"""Turns a crate's older Proof.antt files, which name each goal of a function, into Invariants.antt and Answers.antt.

usage: answers.py NAMES CRATE [FUNCTION]

NAMES is the names.json that `rt check --generated DIR --old-names` writes for the crate, CRATE its folder. A goal that was answered by the
search alone is left to the check. What it can't turn it prints with 'left:', and writes as it stood.
"""
import json
import os
import re
import sys

PATH = r"[^\s(){}\[\],;:=\"«»\\]+"


def read(path):
    with open(path, encoding="utf-8") as f:
        return f.read()


def plain(name):
    name = re.sub(r"^(Need-)?", "", name)
    name = re.sub(r"^(overflow|nonzero)[-_]", "", name)
    return name.replace("_", "-")


def source_names(crate):
    words = set()
    for folder, dirs, names in os.walk(os.path.join(crate, "..")):
        dirs[:] = [d for d in dirs if d not in ("out", "proofs", "must-fail")]
        for n in names:
            if n.endswith(".rt"):
                words.update(re.findall(r"\w+", re.sub(r"//[^\n]*", "", read(os.path.join(folder, n)))))
    return words


def labels(crate):
    """The labels of each function's ensures and requires, by its name."""
    found = {}
    for folder, dirs, names in os.walk(os.path.join(crate, "..")):
        dirs[:] = [d for d in dirs if d not in ("out", "proofs", "must-fail")]
        for n in names:
            if not n.endswith(".rt"):
                continue
            text = re.sub(r"//[^\n]*", "", read(os.path.join(folder, n)))
            for m in re.finditer(r"\bfn (\w+)", text):
                depth, i = 0, m.end()
                head = []
                # up to the body: a block that follows no clause word
                rest = text[m.end() :]
                at = 0
                kinds = {"ensures": [], "requires": [], "crate": os.path.relpath(folder, os.path.join(crate, "..")).split("/")[0]}
                while True:
                    c = re.match(r"[^{]*?\b(ensures|requires)\*?( \w+)? \{", rest[at:], re.S)
                    b = re.match(r"[^{]*\{", rest[at:], re.S)
                    if not c or not b or c.end() > b.end():
                        break
                    kinds[c[1]].append((c[2] or "").strip() or None)
                    depth, j = 1, at + c.end()
                    while depth and j < len(rest):
                        depth += {"{": 1, "}": -1}.get(rest[j], 0)
                        j += 1
                    at = j
                found.setdefault(m[1], []).append(kinds)
    return found


def named(labels, rest):
    """The clause that the places of nested pairs lead to."""
    rest = list(rest)
    while rest and rest[0].isdigit():
        k = int(rest.pop(0))
        if k < len(labels) - 1 and (k == 0 or not rest or not rest[0].isdigit()) or k == len(labels) - 1:
            return [labels[k]] + rest if labels[k] else [str(k)] + rest
        labels = labels[k:]
    return [labels[0]] + rest


class Turn:
    def __init__(self, entry, crate, words, clauses, where):
        self.e, self.words, self.clauses, self.where = entry, words, clauses, where
        self.places = {}
        for i, p in enumerate(entry["places"]):
            self.places.setdefault(p[0], i)
        self.needs = {}
        for (old, new), at in zip(entry["needs"], entry["asked_at"]):
            self.needs.setdefault(plain(old), (new, at[0]))
        self.said = []
        self.crate = where.split(".")[0]
        self.function = where.split(".")[-1]

    def left(self, what):
        self.said.append(f"left: {self.where}: {what}")

    def field(self, f):
        g = f.replace("-", "_")
        return g if g in self.words or g in ("type_inv", "well_formed") else f

    def resolve(self, at, fields, fn=None):
        """The path from the place `at` along `fields`: a place, or the path's new text with the function whose clauses it names."""
        place = self.places.get(at) if isinstance(at, str) else at
        fields = list(fields)
        while fields and fields[0] == "before":
            parent = self.e["places"][place][1]
            if parent is not None:
                place = self.places[parent]
            fields.pop(0)
        if not fields:
            return ("place", place)
        step, rest = fields[0], fields[1:]
        # the step by its name, here or nearest before the goal: the walk back may count other steps now
        found = place
        while found is not None and plain(self.e["places"][found][2][0]) .lower() != plain(step).lower():
            parent = self.e["places"][found][1]
            found = None if parent is None else self.places[parent]
        if found is None:
            found = self.goal
            while found is not None and plain(self.e["places"][found][2][0]) .lower() != plain(step).lower():
                parent = self.e["places"][found][1]
                found = None if parent is None else self.places[parent]
        place = place if found is None else found
        name, _, (old, new), callee, _ = self.e["places"][place]
        if step == "requires" and rest[:1] and rest[0].isdigit():
            own = [k["requires"] for k in self.clauses.get(self.function, []) if len(k["requires"]) > int(rest[0]) and all(k["requires"])]
            if own:
                rest = [own[0][int(rest[0])]] + rest[1:]
        if step in ("args", "requires", "type-inv", "type_inv", "ranges", "well-formed", "well_formed", "utf8"):
            return ("value", "c." + step.replace("-", "_") + "".join("." + self.field(f) for f in rest), None, [])
        if plain(step).lower() != plain(old).lower():
            # a step may be named by the place it leads to
            self.left(f"{name} has the step {old}, not {step}")
            return None
        arms = self.e["arms"][place]
        typed = dict((b, a) for a, b in self.e["typed"][place])
        if old in typed and rest[:1] == ["given"]:
            return ("value", f"c.type_inv.{typed[old]}" + "".join("." + f for f in rest[1:]), None, [])
        if arms:
            best = None
            for field, of, path in arms[2]:
                if plain(of) == plain(old) and path and rest[: len(path)] == path and (best is None or len(path) > len(best[1])):
                    best = (field, path)
            if best:
                rest = rest[len(best[1]) :]
                return ("value", f"c.{arms[0]}.{best[0]}" + "".join("." + self.field(f) for f in rest), None, [])
        label = None
        out = [self.field(f) for f in rest]
        if callee and out[:1] == ["ensures"]:
            label = self.labels_of(callee)
            if label and len(out) > 1 and out[1].isdigit():
                out[1:] = named(label, out[1:])
                label = None
            elif len(out) > 1:
                label = None
        return ("value", "c." + new + "".join("." + f for f in out), label, [])

    def labels_of(self, callee):
        found = self.clauses.get(callee.split("::")[-1], [])
        found = [k["ensures"] for k in found if k["crate"] == callee.split("::")[0]] or [k["ensures"] for k in found]
        if not found:
            return None
        return found[0] if len(found[0]) > 1 else None

    def body(self, text, at, names):
        """The body of an answer at the place `at`, where names are its arguments."""
        env = {"c": ("place", self.places.get(at))}
        self.goal = self.places.get(at)
        if env["c"][1] is None:
            self.left(f"no place {at}")
        out, i = "", 0
        token = re.compile(r"let (\w[\w'₀-]*) = (" + PATH + r") in(?=\s)|\"(?:[^\"\\]|\\.)*\"|--[^\n]*|[^\s(){}\[\],;:=\"«»\\]+|[\s\S]")
        while i < len(text):
            m = token.match(text, i)
            i = m.end()
            if m[1]:
                fields = m[2].split(".")
                if fields[0] in env:
                    r = self.along(env, fields)
                    if r and r[0] == "place":
                        env[m[1]] = r
                        # the line goes
                        out = out.rstrip(" ")
                        while i < len(text) and text[i] in " \n":
                            i += 1
                        if not out.endswith(("\n", "(")):
                            out += " "
                        else:
                            out += "    "
                        continue
                    if r:
                        env[m[1]] = ("alias", m[1], r[2])
                        out += f"let {m[1]} = {r[1]} in"
                        continue
                out += m[0]
                env.pop(m[1], None)
                continue
            t = m[0]
            fields = t.split(".")
            if fields[0] in env and (len(fields) > 1 or fields[0] != "c"):
                r = self.along(env, fields)
                if r and r[0] == "value":
                    out += r[1]
                    continue
                if r and r[0] == "place":
                    self.left(f"a place stands alone: {t}")
            out += t
        # an array's length is said of the array itself now
        out = re.sub(r"simp length-map at (c\.well_formed[\w.]*)", r"\1", out)
        # a test of `!b` says what `b` is
        return re.sub(r"\bnot-(?:true|false) \S+ (c\.[\w-]*-not-[\w-]+\.(?:true|false))", r"\1", out)

    def goal_labels(self, goal, function):
        """The labels of the clauses that a goal covers, where there are several."""
        if goal.startswith("returns"):
            kinds, kind = self.clauses.get(function, []), "ensures"
        else:
            m = re.match(r"(\w+?)(-.*)?-requires(-\d+)?$", goal)
            if not m:
                return None
            kinds, kind = self.clauses.get(m[1], []), "requires"
        kinds = sorted(kinds, key=lambda k: k["crate"] != self.crate)
        found = [k[kind] for k in kinds if len(k[kind]) > 1 and all(k[kind])]
        if kind == "ensures" and kinds and kinds[0]["crate"] == self.crate and len(kinds[0][kind]) < 2:
            return None
        return found[0] if found else None

    def labelled(self, body, names, is_inside=False):
        """The last tuple of the body as a record with a field for each clause."""
        text = body.rstrip()
        if not text.endswith(")"):
            return body if is_inside else self.said_once(text, names)
        depth, i = 0, len(text) - 1
        while i >= 0:
            depth += {")": 1, "]": 1, "}": 1, "(": -1, "[": -1, "{": -1}.get(text[i], 0)
            if depth == 0:
                break
            i -= 1
        parts, depth, start = [], 0, i + 1
        for j in range(i + 1, len(text) - 1):
            depth += {"(": 1, "[": 1, "{": 1, ")": -1, "]": -1, "}": -1}.get(text[j], 0)
            if depth == 0 and text[j] == ",":
                parts.append(text[start:j].strip())
                start = j + 1
        parts.append(text[start:-1].strip())
        if not parts[-1]:
            parts.pop()
        while len(parts) < len(names) and parts[-1].startswith("(") and parts[-1].endswith(")"):
            inner, depth, start, more = parts[-1][1:-1], 0, 0, []
            for j, ch in enumerate(inner):
                depth += {"(": 1, "[": 1, "{": 1, ")": -1, "]": -1, "}": -1}.get(ch, 0)
                if depth == 0 and ch == ",":
                    more.append(inner[start:j].strip())
                    start = j + 1
            if not more:
                break
            parts[-1:] = more + [inner[start:].strip()]
        if len(parts) == 1:
            inside = self.labelled_inside(text, i, names)
            return inside if inside else body if is_inside else self.said_once(text, names)
        if len(parts) != len(names):
            self.left(f"a tuple of {len(parts)} for {len(names)} clauses")
            return body
        if text[:i].endswith(("omega ", "grind ", "search ", "rw ", "cc ", "simp ")):
            return body
        return text[:i] + "record { " + "; ".join(f"{n} = {x}" for n, x in zip(names, parts)) + " }"

    def said_once(self, text, names):
        """A lemma's pair is named, and its parts are the clauses."""
        at = [m.end() for m in re.finditer(r" in(?=\s)", text)]
        at = at[-1] if at else 0
        last = text[at:].strip()
        if re.match(r"(unfit|called|kept|refused|accepted|unfit_lists|omega|grind|search|rw|cc|simp|elim|record|absurd|\?)\b", last) or "∙" in re.sub(r"\([^()]*(?:\([^()]*(?:\([^()]*\)[^()]*)*\)[^()]*)*\)", "", last):
            return text
        lead = "\n    "
        return f"{text[:at]}{lead}let said = {last} in{lead}record {{ " + "; ".join(f"{n} = said.{k}" for k, n in enumerate(names)) + " }"

    def labelled_inside(self, text, i, names):
        inner = self.labelled(text[i + 1 : -1], names, True)
        return text[: i + 1] + inner + ")" if inner != text[i + 1 : -1] else None

    def along(self, env, fields):
        head = env[fields[0]]
        if head[0] == "place":
            return self.resolve(head[1], fields[1:])
        _, name, label = head
        rest = [self.field(f) for f in fields[1:]]
        if label and rest and rest[0].isdigit():
            rest = named(label, rest)
        return ("value", ".".join([name] + rest), None if rest else label, [])


def blocks(text):
    """The top-level parts of a file: comments before the first use, use lines, declarations."""
    parts, current = [], []
    for line in text.split("\n"):
        if not line.strip():
            if current:
                parts.append(current)
            current = []
        else:
            current.append(line)
    if current:
        parts.append(current)
    return parts


def declaration(part):
    comments = []
    lines = list(part)
    while lines and lines[0].startswith("--"):
        comments.append(lines.pop(0))
    if not lines:
        return None
    m = re.match(r"(?:abbrev pub |pub |abbrev |unfoldable |unfoldable pub )?([^\s:]+) :\s?(.*)", lines[0]) or re.match(r"(?:abbrev pub |pub |abbrev |unfoldable )?([^\s:({]+)( .*)", lines[0])
    if not m:
        return None
    sig, rest = [lines[0]], lines[1:]
    while rest and rest[0].startswith(" "):
        sig.append(rest.pop(0))
    unfolding = []
    while rest and rest[0].startswith("unfolding"):
        unfolding.append(rest.pop(0))
        while rest and rest[0].startswith(" "):
            unfolding.append(rest.pop(0))
    return {"name": m[1], "type": m[2], "comments": comments, "sig": sig, "unfolding": unfolding, "body": rest, "lines": part}


def turn_file(path, entry, crate, words, clauses):
    folder = os.path.dirname(path)
    name = os.path.basename(os.path.abspath(crate))
    inside = os.path.relpath(folder, os.path.join(crate, "proofs")).replace("/", ".")
    t = Turn(entry, crate, words, clauses, f"{name}.{inside}")
    head, uses, invariants, answers, helpers = [], [], [], [], []
    pending = []
    for part in blocks(read(path)):
        if any(l.startswith("use ") for l in part):
            for l in part:
                if l.startswith("use "):
                    if not re.search(r"\.(Statement\.\{statement\}|Tie as tie|Reads as reads|Lts as lts|Lts as \w+)$", l) or ".Tie as" in l and False:
                        uses.append(l)
                elif l.startswith("--"):
                    head.append(l)
                else:
                    uses[-1] += "\n" + l
            continue
        d = declaration(part)
        if d is None:
            if all(l.startswith("--") for l in part):
                (pending if uses else head).extend(part)
            else:
                t.left("a part that is no declaration: " + part[0])
            continue
        d["comments"] = pending + d["comments"]
        pending = []
        full_type = d["type"] + " " + " ".join(d["sig"][1:])
        if re.match(r"tie\.(invariant|decreases)-", d["type"].strip()):
            invariants.append(d)
        elif d["type"].strip().startswith("tie.Need-"):
            answers.append(d)
        elif re.search(r"[-_]spec$", d["name"]) and "statement" in full_type:
            continue
        else:
            helpers.append(d)
    out_i, out_a = [], []
    loops = {plain(old): (new, vs, ch) for ((old, new), vs), ch in zip(entry["loops"], entry["changed"])}
    for d in invariants:
        kind, loop = re.match(r"tie\.(invariant|decreases)-(\S+)", d["type"].strip()).groups()
        if plain(loop) not in loops:
            t.left(f"no loop {loop}")
            continue
        new, vs, ch = loops[plain(loop)]
        text = "\n".join(d["body"])
        m = re.match(r"(\S+)((?: \S+)*?) =(\s[\s\S]*)$", text)
        params = m[2].split()
        body = m[3]
        to = {}
        names = [(v, "initial." if c else "") for v, c in zip(vs, ch)] + [(v, "") for v, c in zip(vs, ch) if c]
        if len(params) != len(names):
            # the constants of the source are no parameters now
            known = {v.replace("_", "-"): (v, c) for v, c in zip(vs, ch)}
            for p in params:
                v, c = known.get(p.rstrip("₀").replace("_", "-"), (None, None))
                if v:
                    to[p] = f"l.initial.{v}" if p.endswith("₀") and c else f"l.{v}"
                else:
                    t.left(f"{kind}-{loop} has the parameter {p}, and no variable")
        else:
            for p, (v, i) in zip(params, names):
                to[p] = f"l.{i}{v}"

        def swap(w):
            if re.search(r"[{;]\s*$", body[: w.start()]) and re.match(r"\s*=\s", body[w.end() :]):
                return w[0]
            fields = w[0].split(".")
            if fields[0] in to:
                return ".".join([to[fields[0]]] + [t.field(f) for f in fields[1:]])
            return w[0]

        body = re.sub(r"[^\s(){}\[\],;:=\"«»\\]+", swap, body)
        out_i += d["comments"] + [f"abbrev pub {kind}-{new} : goal.{kind}-{new}"] + d["unfolding"] + [f"{kind}-{new} l =" + body, ""]
    for d in helpers:
        out_a += d["lines"] + [""]
    kept = 0
    for d in answers:
        need = re.match(r"tie\.Need-(\S+)", d["type"].strip())[1]
        text = "\n".join(d["body"])
        m = re.match(r"(\S+)((?: \S+)*?) =(\s[\s\S]*)$", text)
        if not m:
            t.left(f"no body for {d['name']}")
            out_a += d["lines"] + [""]
            continue
        if m[3].strip() == "search rules" and not d["unfolding"]:
            continue
        args = [a for a in m[2].split() if a not in ("κs", "κ")]
        if plain(need) not in t.needs:
            t.left(f"no goal for {need}")
            out_a += d["comments"] + ["-- left: " + l for l in d["body"]] + [""]
            continue
        new, at = t.needs[plain(need)]
        if new.startswith(("shape_of-", "enum_")):
            continue
        body = t.body(m[3], at, args)
        names = t.goal_labels(new, inside.split(".")[-1])
        if names:
            body = t.labelled(body, names)
        kept += 1
        out_a += d["comments"] + [f"pub {new} : goal.{new}"] + d["unfolding"] + [f"{new} {' '.join(args)} =" + body, ""]
    own = f"Rattle.{name}.proofs.{inside}"
    if out_i:
        text = "\n".join(head + uses + [f"use {own}.Given as goal", ""] + out_i).rstrip() + "\n"
        with open(os.path.join(folder, "Invariants.antt"), "w", encoding="utf-8") as f:
            f.write(text)
    if kept or helpers:
        text = "\n".join(([] if out_i else head) + uses + [f"use {own}.Goals as goal", ""] + out_a).rstrip() + "\n"
        with open(os.path.join(folder, "Answers.antt"), "w", encoding="utf-8") as f:
            f.write(text)
    os.remove(path)
    return t.said


def main(argv):
    names, crate = argv[0], argv[1].rstrip("/")
    table = json.load(open(names, encoding="utf-8"))
    words, clauses = source_names(crate), labels(crate)
    for key, entry in sorted(table.items()):
        m = re.match(r"Rattle-[\w-]+?-proofs\.(.*)\.Lts$", key)
        if not m:
            continue
        path = os.path.join(crate, "proofs", m[1].replace(".", "/"), "Proof.antt")
        if len(argv) > 2 and m[1] != argv[2]:
            continue
        if not os.path.exists(path) or "tie.spec" not in read(path):
            continue
        for line in turn_file(path, entry, crate, words, clauses):
            print(line)
    return 0


if __name__ == "__main__":
    raise SystemExit(main(sys.argv[1:]))
