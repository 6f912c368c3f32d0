#!/usr/bin/env python3
"""Brings the repository's own names in definitions, lemmas and clauses to one spelling: words in snake case, types in
camel case. A dash stays in names of the library and in names that the toolchain makes (goals and what stands in them).

usage: python3 tools/respell.py [--list]     at the top of the repository; --list changes nothing and prints the names
"""

import os
import re
import subprocess
import sys

TOKEN = r"[^\s(){}\[\].,;:@\"`λ→×⌜⌝⟨⟩=∷]+"
HYPHEN = re.compile(r"^[^\W\d_][^-]*(?:-[^\W_][^-]*)+$")
SIGNATURE = re.compile(r"^\s*(?:(?:pattern|unfoldable|abbrev|axiom|pub)\s+)*((?:" + TOKEN + r"\s+)*?" + TOKEN + r")\s*:\s")
DECLARED = re.compile(r"^\s*(?:pub\s+)?(?:record|data)\s+(" + TOKEN + ")")
GOAL = re.compile(r":\s*goal\.")
# Cycles that were named after their members, and the names that they get.
CYCLES = {
    "again_arm_arms_binding_branch_cycle_done_end_end_arm_end_if_end_let_end_parts_end_tag_ends_expr_forall_list_one_parts_tagcase_two": "expressions",
    "array_composed_elements_parts_record_union_value": "parts_of_values",
    "show_show_array_show_record_show_union": "shown_values",
}


def files(root, endings):
    for folder, dirs, names in os.walk(root):
        dirs[:] = sorted(d for d in dirs if d not in ("out", "target", ".git"))
        for n in sorted(names):
            if n.endswith(endings):
                yield os.path.join(folder, n)


def is_answer(path):
    return os.path.basename(path) in ("Answers.antt", "Invariants.antt", "Choices.antt", "Proof.antt")


def declared_in(path):
    """The hyphened names that a file declares, with fields, constructors and the variables of its signatures and patterns."""
    found = set()
    for line in open(path, encoding="utf-8"):
        line = line.split("--")[0]
        m = DECLARED.match(line)
        if m:
            found.add(m.group(1))
            continue
        found.update(re.findall(r"^use .* as (\S+)$", line))
        if re.match(r"^\s*(?:pub )?use\s", line) or GOAL.search(line):
            continue
        m = SIGNATURE.match(line)
        if m:
            found.update(m.group(1).split())
        found.update(w for binder in re.findall(r"[({]([^(){}:]+):", line) for w in binder.split())
        found.update(re.findall(r"\blet (" + TOKEN + r")\s*[:=]", line))
        for names in re.findall(r"λ ((?:" + TOKEN + r" ?)+)\.", line):
            found.update(names.split())
    return {n for n in found if HYPHEN.match(n) and n.isprintable()}


def new_spelling(name):
    words = name.split("-")
    if name[0].isupper():
        return "".join(w[0].upper() + w[1:] for w in words)
    return "_".join(words)


def library_names(text):
    """The names that a file takes from the library: these keep their spelling there."""
    lists = re.findall(r"use (?:Rattle\.std|lib|mathlib|Prim)[\w.']*\.\{([^}]*)\}", text)
    return {n.strip() for names in lists for n in names.split(",")}


def turned(text, table):
    table = {n: w for n, w in table.items() if n not in library_names(text)}
    word = re.compile(r"(?<![\w'-])(" + "|".join(sorted(map(re.escape, table), key=len, reverse=True)) + r")(?![\w'-])")
    return word.sub(lambda m: table[m.group(1)], text)


def turned_page(text, words):
    """A page: a hyphened name whose new spelling the crates have."""
    return re.sub(r"[A-Za-z][\w']*(?:-[\w']+)+", lambda m: new_spelling(m.group(0)) if new_spelling(m.group(0)) in words else m.group(0), text)


def turned_rt(text, table):
    """Source files: names stand in clauses and ghost items; strings stay."""
    return "".join(part if part.startswith('"') else turned(part, table) for part in re.split(r'("(?:[^"\\\n]|\\.)*")', text))


def main(argv):
    own = {}
    for path in files("crates", (".antt",)):
        for n in declared_in(path):
            own.setdefault(n, new_spelling(n))
    if argv[:1] == ["--list"]:
        for n in sorted(own):
            print(n, own[n])
        return 0
    for path in files("crates", (".antt", ".rt")):
        text = open(path, encoding="utf-8").read()
        new = (turned_rt if path.endswith(".rt") else turned)(text, own)
        for old_cycle, cycle in CYCLES.items():
            new = new.replace("+" + old_cycle, "+" + cycle).replace(old_cycle, cycle)
        if new != text:
            open(path, "w", encoding="utf-8").write(new)
    words = set()
    for path in files("crates", (".antt",)):
        words.update(re.findall(r"[\w']+", open(path, encoding="utf-8").read()))
    for path in files(".", (".md",)):
        text = open(path, encoding="utf-8").read()
        new = re.sub(r"`[^`\n]*`", lambda m: turned_page(m.group(0), words), text)
        if new != text:
            open(path, "w", encoding="utf-8").write(new)
    for folder, dirs, _ in os.walk("crates", topdown=False):
        for d in dirs:
            if d.startswith("+") and d[1:] in CYCLES:
                os.rename(os.path.join(folder, d), os.path.join(folder, "+" + CYCLES[d[1:]]))
    for crate in sorted(os.listdir("crates")):
        subprocess.run(["rt", "fmt"], cwd=os.path.join("crates", crate), stdout=subprocess.DEVNULL)
    return 0


if __name__ == "__main__":
    raise SystemExit(main(sys.argv[1:]))
