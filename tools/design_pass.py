#!/usr/bin/env python3
"""Lists the places in src/ at a commit that may be written in an older form, by the points of docs/DESIGN-PASS.md.

    python3 tools/design_pass.py COMMIT         the counts
    python3 tools/design_pass.py COMMIT POINT   the lines of one point

A line that is listed is a candidate: the page says of each what was made of it.
"""
import re
import subprocess
import sys
from collections import Counter, defaultdict

PATTERNS = {
    "1 kinds as numbers": r"0x[0-9A-F]{2}|^\s*\d+ => |\(code: u8\)|\bcode\(\)|from_code",
    "1 flags beside values": r":\s*bool\b(?!.*->)",
    "3 index loops": r"for \w+ in .*\.\.|\bwhile\b|\+= 1;",
    "4 by hand": r"fn (same|alike|are_\w+|is_\w+_of|code|from_code|widen|wide|narrow|word|number_from|reverse|refusal_of|\w+_rank)\b"
    r"|impl.*\b(Display|From|TryFrom|PartialEq|Ord)\b.* for |Some\((_|\w+)\) => (true|Some\()|None => (None|false),|text == |is\(text",
    "6 buffers with a length": r"\[u8; ?\d+\]|\bcount: u(8|size),|\[0(u8)?; ?\d+\]",
    "7 switches": r"^\s+(\w+::)+\w+(\([^)]*\))? => (self\.)?\w+\(.*\),?$",
}


def sources(commit):
    names = subprocess.run(["git", "ls-tree", "-r", "--name-only", commit, "crates"], capture_output=True, text=True, check=True)
    for name in names.stdout.split("\n"):
        if re.match(r"crates/\w+/src/.*\.rt$", name):
            text = subprocess.run(["git", "show", f"{commit}:{name}"], capture_output=True, text=True, check=True)
            yield name, text.stdout


def functions(text):
    """Name, parameters, contract and body of each function."""
    for m in re.finditer(r"^( *)(?:pub(?:\(crate\))? )?fn (\w+)", text, re.M):
        rest = text[m.end():]
        body = re.search(r"^" + m.group(1) + r"\{(\}|$.*?^" + m.group(1) + r"\})| \{\n.*?^" + m.group(1) + r"\}", rest, re.M | re.S)
        if not body:
            continue
        head = rest[: body.start()]
        parameters = re.findall(r"(?:^|[(,]\s*|\n\s*)(?:mut )?(\w+): ", head.split("->")[0])
        yield m.group(2), tuple(parameters), head, body.group(0)


def shape(body):
    """The tokens of a body, names and literals apart."""
    keep = {"match", "if", "else", "for", "in", "while", "let", "return", "mut", "as"}
    tokens = re.findall(r'"[^"]*"|\w+|\S', re.sub(r"//.*", "", body))
    return " ".join(t if t in keep or not re.match(r'[\w"]', t) else "_" for t in tokens)


def main():
    commit, only = sys.argv[1], sys.argv[2] if len(sys.argv) > 2 else None
    found = defaultdict(list)
    shapes, clauses, together = defaultdict(list), defaultdict(list), Counter()
    for name, text in sources(commit):
        for i, line in enumerate(text.split("\n"), 1):
            for point, pattern in PATTERNS.items():
                if not line.lstrip().startswith(("//", "ghost use", "ensures", "requires")) and re.search(pattern, line):
                    found[point].append(f"{name}:{i}: {line.strip()}")
            if re.match(r"^(pub(\(crate\))? )?enum ", line):
                found["1 own enums"].append(f"{name}:{i}: {line.strip()}")
        for function, parameters, head, body in functions(text):
            s = shape(body)
            if len(s.split()) > 8:
                shapes[s].append(f"{name}: {function}")
            for clause in re.findall(r"(?:requires|ensures)(?: \w+)? \{ (.*) \}", head):
                clauses[clause].append(f"{name}: {function}")
            pairs = [p for p in parameters if p != "self"]
            for i, a in enumerate(pairs):
                for b in pairs[i + 1:]:
                    together[(name.split("/")[1], a, b)] += 1
    for s, group in shapes.items():
        if len(group) > 1:
            found["2 functions of one shape"].append("; ".join(group))
    for clause, group in clauses.items():
        if len(group) > 2:
            found["5 clauses in three contracts"].append(f"{len(group)} times: {clause}")
    for (crate, a, b), n in together.items():
        if n > 2:
            found["5 parameters together"].append(f"{crate}: {a} and {b}, {n} times")
    for point in sorted(found):
        print(f"{point}: {len(found[point])}")
        if only and point.startswith(only):
            print("\n".join("    " + line for line in found[point]))


main()
