#!/usr/bin/env python3
"""Writes what crates/operation_tables must print, from the rules of docs/ARITHMETIC.md alone.

An integer is a Python int or the name of an error value. Python's numbers do not wrap, so a result is
computed exactly and then held to the range.
"""
M = 2**31 - 1
FAULTS = ["undef", "miss_elt", "pos_over", "neg_over", "unknown", "zero_divide"]
NUMBERS = [-2147483647, -2147483646, -46341, -7, -2, -1, 0, 1, 2, 7, 46340, 65536, 2147483646, 2147483647]
OPERANDS = NUMBERS + FAULTS
RULED = {"pos_over", "neg_over", "unknown"}


def proper(x):
    return isinstance(x, int)


def held(x):
    return "pos_over" if x > M else "neg_over" if x < -M else x


def without_rules(*xs):
    """undef, miss_elt and zero_divide: no rule applies."""
    return any(x in ("undef", "miss_elt", "zero_divide") for x in xs)


def add(j, k):
    if without_rules(j, k):
        return "undef"
    for a, b in ((j, k), (k, j)):
        if a == "pos_over":
            return "pos_over" if b == "pos_over" or (proper(b) and b >= 0) else "unknown"
    for a, b in ((j, k), (k, j)):
        if a == "neg_over":
            return "neg_over" if b == "neg_over" or (proper(b) and b <= 0) else "unknown"
    if "unknown" in (j, k):
        return "unknown"
    return held(j + k)


def neg(j):
    if without_rules(j):
        return "undef"
    return {"pos_over": "neg_over", "neg_over": "pos_over", "unknown": "unknown"}.get(j) if not proper(j) else held(-j)


def sub(j, k):
    return add(j, neg(k))


def mul(j, k):
    if without_rules(j, k):
        return "undef"

    def by_pos_over(b):
        if b == "neg_over" or (proper(b) and b <= -1):
            return "neg_over"
        if b == "pos_over" or (proper(b) and b >= 1):
            return "pos_over"
        return 0 if b == 0 else "unknown"

    for a, b in ((k, j), (j, k)):
        if a == "pos_over":
            return by_pos_over(b)
    for a, b in ((k, j), (j, k)):
        if a == "neg_over":
            return neg(by_pos_over(b))
    for a, b in ((k, j), (j, k)):
        if a == "unknown":
            return 0 if b == 0 else "unknown"
    return held(j * k)


def toward_zero(j, k):
    q = abs(j) // abs(k)
    return q if (j < 0) == (k < 0) else -q


def div(j, k):
    if not (proper(j) and proper(k)):
        return "undef"
    return "zero_divide" if k == 0 else held(toward_zero(j, k))


def mod(j, k):
    if not (proper(j) and proper(k)):
        return "undef"
    return "zero_divide" if k == 0 else held(j - k * toward_zero(j, k))


def greatest(j, k):
    if without_rules(j, k):
        return "undef"
    if "pos_over" in (j, k):
        return "pos_over"
    for a, b in ((j, k), (k, j)):
        if a == "neg_over":
            return b
    if "unknown" in (j, k):
        return "unknown"
    return j if j > k else k


def least(j, k):
    if without_rules(j, k):
        return "undef"
    for a, b in ((j, k), (k, j)):
        if a == "pos_over":
            return b
    if "neg_over" in (j, k):
        return "neg_over"
    if "unknown" in (j, k):
        return "unknown"
    return j if j < k else k


def order(connective, j, k):
    """<, <=, >, >=: true, false or undef."""
    if without_rules(j, k):
        return "undef"
    low = connective in ("<", "<=")
    if k == "pos_over":
        return "undef" if j in ("pos_over", "unknown") else low
    if j == "pos_over":
        return "undef" if k == "unknown" else not low
    if j == "neg_over":
        return "undef" if k in ("neg_over", "unknown") else low
    if k == "neg_over":
        return "undef" if j == "unknown" else not low
    if "unknown" in (j, k):
        return "undef"
    return {"<": j < k, "<=": j <= k, ">": j > k, ">=": j >= k}[connective]


def magnitude(j):
    if proper(j):
        return held(abs(j))
    return {"pos_over": "pos_over", "neg_over": "pos_over", "unknown": "unknown"}.get(j, "undef")


def show(x):
    return str(x).lower() if isinstance(x, bool) else str(x)


def row(name, j, values):
    print(f"{name} {show(j)}: " + " ".join(show(v) for v in values))


def main():
    for name, f in (("+", add), ("-", sub), ("*", mul), ("/", div), ("mod", mod), ("max", greatest), ("min", least)):
        for j in OPERANDS:
            row(name, j, [f(j, k) for k in OPERANDS])
    for name, same in (("=", True), ("~=", False)):
        for j in OPERANDS:
            row(name, j, [(j == k) == same if proper(j) and proper(k) else "undef" for k in OPERANDS])
    for name in ("<", "<=", ">", ">="):
        for j in OPERANDS:
            row(name, j, [order(name, j, k) for k in OPERANDS])
    for j in OPERANDS:
        row("one", j, [neg(j), magnitude(j), not proper(j)] + [j == f for f in FAULTS])
    truths = [True, False, "undef", "miss_elt"]
    for p in truths:
        error = not isinstance(p, bool)
        both = [(p and q) if not error and isinstance(q, bool) else "undef" for q in truths]
        either = [(p or q) if not error and isinstance(q, bool) else "undef" for q in truths]
        row("boolean", p, ["undef" if error else not p, error, p == "undef", p == "miss_elt", "and"] + both + ["or"] + either)
    for v in (-(2**63), -(2**31), -M, 0, M, 2**31, 2**63 - 1):
        print(f"judge {v}: {held(v)}")
    for c in range(8):
        print(f"code {c}: " + (f"{FAULTS[c - 1]} {c}" if 1 <= c <= 6 else "none"))


main()
