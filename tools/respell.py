#!/usr/bin/env python3
"""Respells the repository's own names of specs/ and proofs/, once, on what the kit's port.py leaves.

usage: python3 tools/respell.py [ROOT]

A definition, a lemma, a field or a constructor in camel case goes into snake case (`blackAt` -> `black_at`), a constant's dashes become
underscores (`CB-BLACK` -> `CB_BLACK`), and so do a lemma's, but for the one dash that joins two names (`all-table`, `Kept-all`). Types and
modules keep theirs, as do functions of src/, exported names, strings and what Rattle itself names. It prints names that fall together.
"""

import glob
import os
import re
import sys

WORD = re.compile(r"[^\s(){}.;,:@\"«»\[\]\\]+")
DECLARES = re.compile(r"^\s*((?:abbrev|unfoldable|pub|data|record)\s+)*([^\s:(){}.;,@\"\[\]λ]+)\s+:\s*(.*)")
LIBRARY = "length take drop set get_or append zip_with map replicate filter reverse sum cond not all any count min max number".split()
SPECIAL = {"get_d_default": "get_or_default", "getD": "get_or", "both-ticks": "both_ticks"}
# Names that a library has too.
KEPT = {"and-false", "and-true", "or-false"}
# Lemmas that the kit's script has respelled already, and that a definition beside them would hide.
LEMMAS = {"closed_at": "closed_at_lem", "next_level": "next_level_lem", "swept_step": "swept_step_lem"}
MADE = re.compile(r"^(tie|goal|lts|«?Lts)\b|^\{M : Type 1\} → statement M")


def texts(root):
    out = []
    for kind in ("specs", "proofs"):
        out += glob.glob(os.path.join(root, "crates", "*", kind, "**", "*.antt"), recursive=True)
    return sorted(out)


def snake(word):
    word = word.replace("getD", "get_or")
    return re.sub(r"(?<=[a-z0-9])([A-Z])", lambda m: "_" + m.group(1).lower(), word)


def is_camel(word):
    return bool(re.match(r"[a-z]", word) and re.search(r"[A-Z]", word.split("-")[0] + "".join(word.split("-")[1:]))) and not re.search(
        r"(^|-)[A-Z]", word
    )


def respelled(word, names):
    if word in SPECIAL:
        return SPECIAL[word]
    if re.fullmatch(r"[A-Z][A-Z0-9]*(-[A-Z0-9]+)+", word):
        return word.replace("-", "_")
    if re.match(r"[^a-zA-Z]", word):
        return word
    parts = [snake(p) if re.match(r"[a-z]", p) else p for p in word.split("-")]
    if len(parts) == 1:
        return parts[0]
    if re.match(r"[A-Z]", parts[0]):
        return parts[0] + "-" + "_".join(parts[1:])
    for k in range(1, len(parts)):
        left, right = "_".join(parts[:k]), "_".join(parts[k:])
        if left in names and right in names:
            return left + "-" + right
    return "_".join(parts)


def main(argv):
    root = argv[0] if argv else "."
    files = texts(root)
    declared, defined = set(), set(LIBRARY)
    for path in files:
        with open(path, encoding="utf-8") as f:
            lines = f.read().split("\n")
        proof = os.path.basename(path) == "Proof.antt"
        for line in lines:
            m = DECLARES.match(line)
            if not m or line.lstrip().startswith("--"):
                continue
            name, of = m.group(2), m.group(3)
            if proof and (MADE.match(of) or name.endswith("-spec")):
                continue
            declared.add(name)
            if "/specs/" in path and "-" not in name:
                defined.add(snake(name))
    to = {}
    for name in sorted((declared | set(SPECIAL)) - KEPT):
        new = respelled(name, defined)
        if new != name:
            to[name] = new
    # a lemma that would have a definition's name gets another end
    for name in sorted(to):
        if "-" in name and name not in SPECIAL and (to[name] in defined or to[name] in map(to.get, filter(is_camel, to))):
            to[name] += "_lem"
    # names that fall together
    back = {}
    for name, new in to.items():
        back.setdefault(new, []).append(name)
    for new, olds in sorted(back.items()):
        if len(olds) > 1 or new in declared:
            print("together:", new, olds, "declared" if new in declared else "")

    def line_of(line, code):
        """A line with its names respelled; in a comment only those in camel case."""
        out, at, comment = [], 0, False
        cut = "//" if code else "--"
        for m in re.finditer(r'"(?:[^"\\]|\\.)*"|' + ("//" if code else r"(?<!\S)--(?=\s|$)") + "|" + WORD.pattern, line):
            out.append(line[at : m.start()])
            at = m.end()
            w = m.group(0)
            if w == cut or (code and w.startswith("//")):
                comment = True
            elif w[0] != '"' and w in to and (not comment or is_camel(w)):
                w = to[w]
            elif w in LEMMAS and not (code or comment) and line[: m.start()][-1:] != ".":
                w = LEMMAS[w]
            out.append(w)
        return "".join(out) + line[at:]

    seen_after_dot = {}
    for path in files + sorted(glob.glob(os.path.join(root, "crates", "*", "src", "**", "*.rt"), recursive=True)):
        with open(path, encoding="utf-8") as f:
            text = f.read()
        code = path.endswith(".rt")
        new = "\n".join(line_of(line, code) for line in text.split("\n"))
        for m in re.finditer(r"^use (?!Rattle\.)\S+?\.\{([^}]*)\}", text, re.M):
            for it in m.group(1).split(","):
                it = it.strip().split(" as ")[-1]
                if it in back and re.search(r"(?<![\w-])(" + "|".join(map(re.escape, back[it])) + r")(?![\w-])", text):
                    print("a library's name:", it, back[it], path)
        for m in re.finditer(r"\.(" + WORD.pattern + ")", text):
            if m.group(1) in to and "-" in m.group(1):
                seen_after_dot.setdefault(m.group(1), set()).add(os.path.relpath(path, root))
        if new != text:
            with open(path, "w", encoding="utf-8") as f:
                f.write(new)
    for name, paths in sorted(seen_after_dot.items()):
        print("after a dot:", name, "->", to[name], len(paths), sorted(paths)[0])
    with open("/tmp/respelled.tsv", "w", encoding="utf-8") as f:
        for name, new in sorted(to.items()):
            f.write(f"{name}\t{new}\n")
    print(len(to), "names respelled")


if __name__ == "__main__":
    main(sys.argv[1:])
