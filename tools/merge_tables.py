#!/usr/bin/env python3
"""Writes crates/merge_tables/stdin and stdout from the rules of docs/MERGING.md alone."""
import itertools
import pathlib

M = 2**31 - 1
FAULTS = ["undef", "miss_elt", "pos_over", "neg_over", "unknown", "zero_divide"]
BARRED = {"undef", "miss_elt", "zero_divide"}


def held(x):
    return "pos_over" if x > M else "neg_over" if x < -M else x


def plus(parts):
    """By what occurs and the exact sum."""
    numbers = [p for p in parts if isinstance(p, int)]
    seen = {p for p in parts if not isinstance(p, int)}
    if seen & BARRED:
        return "undef"
    if "unknown" in seen or {"pos_over", "neg_over"} <= seen:
        return "unknown"
    if "pos_over" in seen:
        return "unknown" if any(n < 0 for n in numbers) else "pos_over"
    if "neg_over" in seen:
        return "unknown" if any(n > 0 for n in numbers) else "neg_over"
    return held(sum(numbers))


def times(parts):
    """Signs and magnitudes, an over counting as 2 ** 31."""
    if set(parts) & BARRED:
        return "undef"
    if 0 in parts:
        return 0
    if "unknown" in parts:
        return "unknown"
    product = 1
    for p in parts:
        product *= {"pos_over": 2**31, "neg_over": -(2**31)}.get(p, p)
    return held(product)


def best(parts, start, ranks):
    if set(parts) & BARRED:
        return "undef"
    return max([start] + parts, key=ranks)


def greatest(parts):
    ranks = {"neg_over": -M - 1, "unknown": M + 1, "pos_over": M + 2}
    return best(parts, "neg_over", lambda p: ranks.get(p, p))


def least(parts):
    ranks = {"pos_over": -M - 1, "unknown": M + 1, "neg_over": M + 2}
    return best(parts, "pos_over", lambda p: ranks[p] if p in ranks else -p)


def truth(parts, how):
    if any(not isinstance(p, bool) for p in parts):
        return "undef"
    return how(parts)


def show(x):
    return str(x).lower() if isinstance(x, bool) else str(x)


SORTS = [-M, -1, 0, 1, M] + FAULTS
INTEGERS = [[]] + [[p] for p in SORTS] + [list(p) for p in itertools.product(SORTS, repeat=2)]
INTEGERS += [
    [M, 1, -1], [1, M, -1], [-1, 1, M], [-M, -1, 1], [M, M, -M], [M, M, -M, -M], [65536, 65536], [65536, 65536, 0],
    [-65536, 65536], [-65536, 32768], [46340, 46341], [-46341, -46341], [2, 3, "unknown", 0], [2, 3, "unknown"],
    ["pos_over", 0, 5], ["pos_over", 0, -5], ["neg_over", 0, -5], ["neg_over", 0, 5], ["pos_over", "pos_over", 1],
    ["neg_over", "neg_over", "neg_over"], [7, "undef", "pos_over"], [7, "zero_divide"], [0, "miss_elt"], [120, -40, 85, 0, -7],
    [1] * 40, [2] * 31, [2] * 30, [-2] * 31, [-2] * 32,
]
BOOLEANS = [list(p) for n in range(4) for p in itertools.product([True, False, "undef", "miss_elt"], repeat=n)]


def main():
    where = pathlib.Path(__file__).resolve().parent.parent / "crates" / "merge_tables"
    given, wanted = [], []
    for parts in INTEGERS:
        line = "integers:" + "".join(f" {p}" for p in parts)
        answers = [plus(parts), plus(parts), times(parts), greatest(parts), least(parts)]
        given.append(line)
        wanted.append(line + " -> " + " ".join(map(show, answers)))
    for parts in BOOLEANS:
        line = "booleans:" + "".join(f" {show(p)}" for p in parts)
        given.append(line)
        wanted.append(line + " -> " + " ".join(map(show, [truth(parts, all), truth(parts, any)])))
    wanted.append(f"32768 parts: {held(65536 * 32768)} and one more: too many")
    (where / "stdin").write_text("\n".join(given) + "\n")
    (where / "stdout").write_text("\n".join(wanted) + "\n")


main()
