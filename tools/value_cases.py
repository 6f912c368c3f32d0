#!/usr/bin/env python3
"""Writes crates/value_cases/stdin and stdout from the rules of docs/VALUES.md and docs/REFUSALS.md alone."""
import pathlib
import sys

M = 2**31 - 1
FAULTS = ["undef", "miss_elt", "pos_over", "neg_over", "unknown", "zero_divide"]


class Refused(Exception):
    pass


def table(text):
    rows = []
    if text != "-":
        for part in text.split("/"):
            sort, numbers = part.split(":")
            rows.append((sort, [int(n) for n in numbers.split(",")]))
    return rows


def refuse(word, at):
    number = {"cut": 1, "strange": 2, "undeclared": 5, "clash": 6}[word]
    raise Refused(f"{word} ({number}) at offset {at}")


def signed(b):
    return int.from_bytes(b, "big", signed=True)


def read(rows, t, b, at):
    """The text of the value of type t at `at`, and where it ends."""
    sort, uses = ("boolean", []) if t == 0 else ("integer", []) if t == 1 else rows[t - 2]
    if at >= len(b):
        refuse("cut", at)
    kind = b[at]
    own = {"boolean": 0x50, "integer": 0x51, "array": 0x53, "record": 0x54, "union": 0x55}[sort]
    if kind not in (0x52, own):
        refuse("clash", at)
    body = {0x50: 1, 0x51: 4, 0x52: 1, 0x53: 6, 0x54: 1, 0x55: 1}[kind]
    if at + 1 + body > len(b):
        refuse("cut", at)
    end = at + 1 + body
    if kind == 0x52:
        code = b[at + 1]
        if code < 1 or code > (6 if sort == "integer" else 2):
            refuse("clash", at)
        return FAULTS[code - 1], end
    if kind == 0x50:
        if b[at + 1] > 1:
            refuse("strange", at)
        return ("false", "true")[b[at + 1]], end
    if kind == 0x51:
        n = signed(b[at + 1 : at + 5])
        if n < -M:
            refuse("strange", at)
        return str(n), end
    if kind == 0x53:
        low, count = signed(b[at + 1 : at + 5]), b[at + 5] * 256 + b[at + 6]
        if low < -M or (count == 0 and low != 1) or low + count - 1 > M:
            refuse("strange", at)
        texts = []
        for _ in range(count):
            text, end = read(rows, uses[0], b, end)
            texts.append(text)
        return f"[{low}:" + (" " + ", ".join(texts) if texts else "") + "]", end
    if kind == 0x54:
        if b[at + 1] != len(uses):
            refuse("clash", at)
        texts = []
        for i, u in enumerate(uses):
            text, end = read(rows, u, b, end)
            texts.append(f"{i}: {text}")
        return "record [" + ", ".join(texts) + "]", end
    if b[at + 1] >= len(uses):
        refuse("clash", at)
    text, end = read(rows, uses[b[at + 1]], b, end)
    return f"union [{b[at + 1]}: {text}]", end


def answer(rows_text, t, b):
    rows = table(rows_text)
    if t > len(rows) + 1:
        return "undeclared (5) at offset 0"
    try:
        text, end = read(rows, t, b, 0)
        if end < len(b):
            refuse("cut", end)
    except Refused as e:
        return str(e)
    return f"{text} ({end} bytes, {end} skipped)"


def integer(n):
    return "51" + (n & 0xFFFFFFFF).to_bytes(4, "big").hex()


def array(low, *elements, count=None):
    n = len(elements) if count is None else count
    return "53" + (low & 0xFFFFFFFF).to_bytes(4, "big").hex() + n.to_bytes(2, "big").hex() + "".join(elements)


def record(*members, count=None):
    return "54" + f"{len(members) if count is None else count:02x}" + "".join(members)


def union(tag, value):
    return "55" + f"{tag:02x}" + value


def cases():
    plain = "-"
    for b in ("-", "50", "5000", "5001", "5002", "50ff", "5100000000", "51", "5200", "5201", "5202", "5203", "5206", "5207", "52",
              "53", "00", "60", "ff", "500100", "50015001"):
        yield plain, 0, b
    for b in ("-", "51", "51000000", integer(0), integer(M), integer(-M), "5180000000", integer(-1), "5200", "5201", "5202", "5203",
              "5204", "5205", "5206", "5207", "52ff", "52", "5001", "41", integer(5) + "51", integer(5) + "00"):
        yield plain, 1, b
    yield plain, 2, "5001"
    yield plain, 255, "-"
    arrays = "array:1/array:2/array:0"
    for b in (array(1), array(0), array(2), array(-1), array(1, integer(3), "5202"), array(-5, integer(1)), array(M, integer(1)),
              array(M, integer(1), integer(2)), array(-M, integer(7)), "5380000000" + "0001" + integer(1), "5380000000" + "0000",
              "53000000010002" + integer(1), "530000000100", "53", array(1, "5001"), array(1, integer(1), "5180000000"),
              array(1, integer(1), "5207"), "5201", "5203", "5200", "5001", array(1, count=65535), array(M - 1, integer(1), integer(2)),
              array(M, "5001", "5001"), array(1, integer(1)) + "52", array(0, count=1)):
        yield arrays, 2, b
    for b in (array(1, array(1), array(1, integer(9))), array(1, array(2)), array(1, "5201", array(-3, "5206")), array(1, "5206"),
              array(1, array(1, "5001"))):
        yield arrays, 3, b
    yield arrays, 4, array(1, "5001", "5000", "5201")
    yield arrays, 4, array(1, "5203")
    yield arrays, 5, array(1)
    rows = "record:1,0/union:1,2/array:2/record:3,4,0,1,2,3,4,1"
    pair = record(integer(4), "5001")
    for b in (pair, record("5206", "5202"), record(integer(4), "5206"), record(integer(4), "5002"), record(integer(4)),
              record(integer(4), count=2), record(integer(4), "5001", "5001"), record(integer(4), "5001", count=3), "54", "5401",
              record("5180000000", "5002"), record("50", "50"), pair + "5001", "5202", "5203", "5502"):
        yield rows, 2, b
    for b in (union(0, integer(1)), union(1, pair), union(2, integer(1)), union(255, ""), "55", "5500", union(1, integer(1)),
              union(1, record(integer(4), "5009")), union(0, "5204"), union(1, "5204"), "5201"):
        yield rows, 3, b
    yield rows, 4, array(1, pair, "5201", pair)
    yield rows, 4, array(1, pair, pair[:-2])
    wide = record(union(0, integer(1)), array(1, pair), "5000", integer(-1), pair, union(1, "5202"), array(1), "5206")
    yield rows, 5, wide
    yield rows, 5, wide[:-2] + "07"
    yield rows, 5, wide[:-2]
    yield rows, 6, "5001"
    yield "array:1", 2, array(1, *[integer(k) for k in range(300)])
    yield "array:0", 2, array(-10, *["5001"] * 500)
    # 65,536 bytes, and the same with its last byte missing
    full = array(1, array(1, *["5001"] * 32761))
    assert len(full) == 2 * 65536
    yield "array:0/array:2", 3, full
    yield "array:0/array:2", 3, full[:-2]


def main():
    where = pathlib.Path(__file__).resolve().parent.parent / "crates" / "value_cases"
    given, wanted = [], []
    for rows, t, b in cases():
        given.append(f"{rows} {t} {b}")
        wanted.append(answer(rows, t, bytes.fromhex("" if b == "-" else b)))
    given += ["- 1 5", "- 1 5g", "array:2 2 -", "record: 2 -", "tree:1 2 -", "record:1,1,1,1,1,1,1,1,1 2 -"]
    wanted += ["expected two hexadecimal digits for each byte", "byte 1: expected two hexadecimal digits",
               "row 1: expected type numbers lower than the row's own", "row 1: expected 1 to 8 type numbers (an array has one)",
               "row 1: expected array:T, record:T,.. or union:T,..", "row 1: expected 1 to 8 type numbers (an array has one)"]
    (where / "stdin").write_text("\n".join(given) + "\n")
    (where / "stdout").write_text("\n".join(wanted) + "\n")


sys.setrecursionlimit(10000)
main()
