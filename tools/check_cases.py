#!/usr/bin/env python3
"""Writes crates/check_cases/stdin and stdout from the rules of docs/LANGUAGE.md and docs/REFUSALS.md alone.

A second reader of modules, written apart from the proved one, judges hand-made modules, every front of each, and
each of them with one byte changed.
"""
import pathlib
import sys

NUMBER = {"cut": 1, "strange": 2, "deep": 3, "twin": 4, "undeclared": 5, "clash": 6}
PLAIN = {0x30, 0x31, 0x32, 0x33, 0x34, 0x35, 0x36, 0x37, 0x38, 0x39, 0x3B, 0x3C, 0x3D, 0x3E, 0x3F, 0x40, 0x42}


class Refused(Exception):
    pass


def refuse(word, at):
    raise Refused(f"{word} ({NUMBER[word]}) at offset {at}")


class Reader:
    def __init__(self, b):
        self.b, self.at, self.rows, self.functions = b, 0, [], []

    def kind(self, allowed):
        at = self.at
        if at >= len(self.b):
            refuse("cut", len(self.b))
        if self.b[at] not in allowed:
            refuse("strange", at)
        return self.b[at]

    def body(self, at, n):
        if at + 1 + n > len(self.b):
            refuse("cut", at)
        self.at = at + 1 + n
        return self.b[at + 1 : at + 1 + n]

    def use(self, limit):
        at = self.at
        self.kind({0x10})
        (t,) = self.body(at, 1)
        if t >= limit:
            refuse("undeclared", at)
        return t

    def uses(self, n, limit):
        return [self.use(limit) for _ in range(n)]

    def module(self):
        self.kind({0x01})
        rows, functions = self.body(0, 2)
        if rows > 60 or not 1 <= functions <= 60:
            refuse("strange", 0)
        for i in range(rows):
            self.row(i + 2)
        for _ in range(functions):
            self.function()
        if self.at < len(self.b):
            refuse("cut", self.at)

    def row(self, limit):
        at = self.at
        kind = self.kind({0x12, 0x13, 0x14})
        count = 1
        if kind == 0x12:
            self.body(at, 0)
        else:
            (count,) = self.body(at, 1)
            if not 1 <= count <= 8:
                refuse("strange", at)
        row = (kind, self.uses(count, limit))
        if row in self.rows:
            refuse("twin", at)
        self.rows.append(row)

    def function(self):
        at = self.at
        self.kind({0x20})
        params, results = self.body(at, 2)
        if not 1 <= params <= 8 or not 1 <= results <= 8:
            refuse("strange", at)
        limit = len(self.rows) + 2
        p, r = self.uses(params, limit), self.uses(results, limit)
        if self.expression(p, 1) != r:
            refuse("clash", at)
        self.functions.append((p, r))

    def sort(self, t, kind):
        """The uses of type t if its row is of that kind."""
        if t >= 2 and self.rows[t - 2][0] == kind:
            return self.rows[t - 2][1]
        return None

    def declared(self, t, kind, at):
        if t >= len(self.rows) + 2:
            refuse("undeclared", at)
        found = self.sort(t, kind)
        if found is None:
            refuse("clash", at)
        return found

    def opened(self, depth, at):
        if depth > 100:
            refuse("deep", at)

    def bind(self, names, more, at):
        if len(names) + len(more) > 96:
            refuse("deep", at)
        return names + more

    def expression(self, names, depth):
        at = self.at
        kind = self.kind(PLAIN)
        self.opened(depth, at)
        return getattr(self, f"kind_{kind:02x}")(at, names, depth)

    def end(self, names, again, results, depth):
        at = self.at
        kind = self.kind(PLAIN | {0x3A})
        if kind == 0x3A:
            self.opened(depth, at)
            self.body(at, 0)
            if self.expression(names, depth + 1) != again:
                refuse("clash", at)
        elif kind == 0x36:
            self.opened(depth, at)
            self.body(at, 0)
            test = self.expression(names, depth + 1)
            self.end(names, again, results, depth + 1)
            self.end(names, again, results, depth + 1)
            if test != [0]:
                refuse("clash", at)
        elif kind == 0x37:
            self.opened(depth, at)
            self.body(at, 0)
            more = self.expression(names, depth + 1)
            self.end(self.bind(names, more, at), again, results, depth + 1)
        elif kind == 0x38:
            self.opened(depth, at)
            for t in self.arms(at, names, depth):
                self.end(self.bind(names, [t], at), again, results, depth + 1)
        elif self.expression(names, depth) != results:
            refuse("clash", at)

    def arms(self, at, names, depth):
        (count,) = self.body(at, 1)
        if not 1 <= count <= 8:
            refuse("strange", at)
        test = self.expression(names, depth + 1)
        tags = self.sort(test[0], 0x14) if len(test) == 1 else None
        if tags is None or len(tags) != count:
            refuse("clash", at)
        return tags

    def kind_30(self, at, names, depth):
        (count,) = self.body(at, 1)
        if not 2 <= count <= 8:
            refuse("strange", at)
        members = [self.expression(names, depth + 1) for _ in range(count)]
        if any(len(m) != 1 for m in members):
            refuse("clash", at)
        return [m[0] for m in members]

    def kind_31(self, at, names, depth):
        if self.body(at, 4) == b"\x80\0\0\0":
            refuse("strange", at)
        return [1]

    def kind_32(self, at, names, depth):
        if self.body(at, 1)[0] > 1:
            refuse("strange", at)
        return [0]

    def kind_33(self, at, names, depth):
        code, t = self.body(at, 2)
        if t >= len(self.rows) + 2:
            refuse("undeclared", at)
        if not 1 <= code <= (6 if t == 1 else 2):
            refuse("clash", at)
        return [t]

    def kind_34(self, at, names, depth):
        (n,) = self.body(at, 1)
        if n >= len(names):
            refuse("undeclared", at)
        return [names[n]]

    def kind_35(self, at, names, depth):
        (code,) = self.body(at, 1)
        if not 1 <= code <= 28:
            refuse("strange", at)
        one = code in (8, 9) or code >= 18
        operands = [self.expression(names, depth + 1) for _ in range(1 if one else 2)]
        if any(len(o) != 1 for o in operands):
            refuse("clash", at)
        types = [o[0] for o in operands]
        if code <= 15 or 21 <= code <= 24:
            fits = all(t == 1 for t in types)
        elif code <= 18:
            fits = all(t == 0 for t in types)
        elif code >= 26:
            fits = self.sort(types[0], 0x12) is not None
        else:
            fits = True
        if not fits:
            refuse("clash", at)
        return [1] if code <= 9 or code >= 26 else [0]

    def kind_36(self, at, names, depth):
        self.body(at, 0)
        test, taken, other = [self.expression(names, depth + 1) for _ in range(3)]
        if test != [0] or taken != other:
            refuse("clash", at)
        return taken

    def kind_37(self, at, names, depth):
        self.body(at, 0)
        more = self.expression(names, depth + 1)
        return self.expression(self.bind(names, more, at), depth + 1)

    def kind_38(self, at, names, depth):
        results = []
        for t in self.arms(at, names, depth):
            results.append(self.expression(self.bind(names, [t], at), depth + 1))
        if any(r != results[0] for r in results):
            refuse("clash", at)
        return results[0]

    def kind_39(self, at, names, depth):
        (count,) = self.body(at, 1)
        if not 1 <= count <= 8:
            refuse("strange", at)
        results = self.uses(count, len(self.rows) + 2)
        again = self.expression(names, depth + 1)
        self.end(self.bind(names, again, at), again, results, depth + 1)
        return results

    def kind_3b(self, at, names, depth):
        merge, t = self.body(at, 2)
        if merge > 6:
            refuse("strange", at)
        if merge == 0:
            wanted, result = self.declared(t, 0x12, at), [t]
        elif t != 0:
            refuse("strange", at)
        else:
            wanted = result = [1] if merge <= 4 else [0]
        low, high = self.expression(names, depth + 1), self.expression(names, depth + 1)
        part = self.expression(self.bind(names, [1], at), depth + 1)
        if low != [1] or high != [1] or part != wanted:
            refuse("clash", at)
        return result

    def kind_3c(self, at, names, depth):
        (f,) = self.body(at, 1)
        if f >= len(self.functions):
            refuse("undeclared", at)
        if self.expression(names, depth + 1) != self.functions[f][0]:
            refuse("clash", at)
        return self.functions[f][1]

    def kind_3d(self, at, names, depth):
        (t,) = self.body(at, 1)
        wanted = self.declared(t, 0x13, at)
        if self.expression(names, depth + 1) != wanted:
            refuse("clash", at)
        return [t]

    def kind_3e(self, at, names, depth):
        (n,) = self.body(at, 1)
        part = self.expression(names, depth + 1)
        fields = self.sort(part[0], 0x13) if len(part) == 1 else None
        if fields is None:
            refuse("clash", at)
        if n >= len(fields):
            refuse("undeclared", at)
        return [fields[n]]

    def kind_3f(self, at, names, depth):
        t, tag = self.body(at, 2)
        tags = self.declared(t, 0x14, at)
        if tag >= len(tags):
            refuse("undeclared", at)
        if self.expression(names, depth + 1) != [tags[tag]]:
            refuse("clash", at)
        return [t]

    def kind_40(self, at, names, depth):
        (t,) = self.body(at, 1)
        wanted = self.declared(t, 0x12, at)[0]
        low, elements = self.expression(names, depth + 1), self.expression(names, depth + 1)
        if low != [1] or any(e != wanted for e in elements):
            refuse("clash", at)
        return [t]

    def kind_42(self, at, names, depth):
        self.body(at, 0)
        array, index = self.expression(names, depth + 1), self.expression(names, depth + 1)
        row = self.sort(array[0], 0x12) if len(array) == 1 else None
        if row is None or index != [1]:
            refuse("clash", at)
        return [row[0]]


def answer(b):
    if len(b) > 16384:
        return "oversize (14)"
    r = Reader(b)
    try:
        r.module()
    except Refused as e:
        return str(e)
    return f"ok, rows {len(r.rows)}, functions {len(r.functions)}"


# ── modules by hand ──


def h(*parts):
    return b"".join(bytes([p]) if isinstance(p, int) else p for p in parts)


def num(n):
    return h(0x31, (n & 0xFFFFFFFF).to_bytes(4, "big"))


def name(n):
    return h(0x34, n)


def op(code, *operands):
    return h(0x35, code, *operands)


def uses(*types):
    return h(*[h(0x10, t) for t in types])


def fn(params, results, body):
    return h(0x20, len(params), len(results), uses(*params), uses(*results), body)


def record_row(*types):
    return h(0x13, len(types), uses(*types))


def union_row(*types):
    return h(0x14, len(types), uses(*types))


def array_row(t):
    return h(0x12, uses(t))


def module(rows, *functions):
    return h(0x01, len(rows), len(functions), *rows, *functions)


TRUE, FALSE = h(0x32, 1), h(0x32, 0)
ROWS = [array_row(1), record_row(1, 0), union_row(1, 3), array_row(3)]


def one(body, params=(1,), results=(1,), rows=ROWS):
    return module(rows, fn(list(params), list(results), body))


def listed(*members):
    return h(0x30, len(members), *members)


def bases():
    """Correct modules, which together use every kind."""
    yield module([], fn([1], [1], op(1, name(0), num(1))))
    for code in list(range(1, 8)):
        yield one(op(code, name(0), num(3)))
    for code in range(10, 16):
        yield one(op(code, name(0), num(3)), results=(0,))
    yield one(op(16, TRUE, op(17, FALSE, op(18, TRUE))), results=(0,))
    yield one(op(8, op(9, name(0))))
    for code in range(19, 26):
        yield one(op(code, name(0)), results=(0,))
    yield one(op(19, TRUE), results=(0,))
    yield one(op(25, name(0)), params=(4,), results=(0,))
    for code in (26, 27, 28):
        yield one(op(code, name(0)), params=(2,))
    yield one(listed(name(0), TRUE), results=(1, 0))
    yield one(h(0x33, 6, 1))
    yield one(h(0x33, 2, 4), results=(4,))
    yield one(h(0x36, TRUE, name(0), num(0)))
    yield one(h(0x37, listed(num(1), FALSE), name(2)), results=(0,))
    yield one(h(0x38, 2, name(0), name(1), h(0x3E, 0, name(1))), params=(4,))
    yield one(h(0x39, 1, uses(1), num(0), h(0x36, op(12, name(1), num(9)), h(0x3A, op(1, name(1), num(1))), name(1))))
    yield one(
        h(0x39, 2, uses(1, 0), listed(num(0), name(0)),
          h(0x38, 2, h(0x3F, 4, 0, name(1)), h(0x37, TRUE, h(0x3A, listed(name(2), name(3)))), listed(num(1), TRUE))),
        params=(1,), results=(1, 0))
    yield one(h(0x3B, 0, 2, num(1), num(3), name(1)), results=(2,))
    for merge in range(1, 5):
        yield one(h(0x3B, merge, 0, num(1), name(0), op(3, name(1), name(1))))
    for merge in (5, 6):
        yield one(h(0x3B, merge, 0, num(1), name(0), op(12, name(1), num(2))), results=(0,))
    yield module(ROWS, fn([1], [1, 0], listed(name(0), TRUE)), fn([1], [0, 1], h(0x37, h(0x3C, 0, name(0)), listed(name(2), name(1)))))
    yield one(h(0x3D, 3, listed(name(0), TRUE)), results=(3,))
    yield one(h(0x3E, 1, name(0)), params=(3,), results=(0,))
    yield one(h(0x3F, 4, 1, h(0x3D, 3, listed(num(-1), FALSE))), results=(4,))
    yield one(h(0x40, 2, num(1), listed(num(5), h(0x33, 2, 1))), results=(2,))
    yield one(h(0x42, name(0), num(1)), params=(5,), results=(3,))


def changed(b):
    """Every front of b, b with a byte more, and b with one byte changed."""
    for i in range(len(b)):
        yield b[:i]
    yield b + b"\0"
    for i in range(len(b)):
        for v in (0, (b[i] + 1) % 256, 0x3A, 255):
            if v != b[i]:
                yield b[:i] + bytes([v]) + b[i + 1 :]


def nested(n):
    """n expression records one inside another."""
    e = name(0)
    for _ in range(n - 1):
        e = op(8, e)
    return e


def bound(n):
    """A function of one parameter that binds n names."""
    e = name(0)
    for _ in range(n):
        e = h(0x37, num(1), e)
    return e


def many_names(n):
    """n names in scope at the end, by lists of eight."""
    e, have, shape = name(0), 1, []
    while have < n:
        k = min(8, n - have)
        shape.append(k)
        have += k
    for k in reversed(shape):
        e = h(0x37, num(1) if k == 1 else listed(*[num(i) for i in range(k)]), e)
    return e


def limits():
    yield one(nested(100))
    yield one(nested(101))
    yield one(nested(101))[:-2] + b"\x41"
    yield one(nested(101))[:-1]
    for n in (95, 96, 97):
        yield one(many_names(n))
    for n in (96, 97):
        deep = many_names(n - 1)
        yield one(deep[:-2] + h(0x3B, 1, 0, num(1), num(2), num(3)))
        yield one(deep[:-2] + h(0x38, 2, h(0x3F, 4, 0, num(1)), num(1), num(2)))
        yield one(deep[:-2] + h(0x39, 1, uses(1), num(1), num(2)))
    for n in (0, 1, 60, 61):
        rows = [array_row(1)] + [array_row(i + 2) for i in range(n - 1)] if n else []
        yield module(rows, fn([1], [1], name(0)))
    for n in (1, 60, 61):
        yield module([], *[fn([1], [1], name(0))] * n)
    yield h(0x01, 0, 0)
    for n in (8, 9):
        yield module([], fn([1] * n, [1], name(0)))
        yield module([], fn([1], [1] * n, listed(*[name(0)] * n)))
        yield module([record_row(*[1] * n)], fn([1], [1], name(0)))
    yield module([array_row(1), array_row(1)], fn([1], [1], name(0)))
    yield module([record_row(1, 0), union_row(1, 0), record_row(1, 0)], fn([1], [1], name(0)))
    yield module([record_row(1, 0), union_row(1, 0)], fn([1], [1], name(0)))
    yield module([record_row(1, 0), record_row(0, 1)], fn([1], [1], name(0)))
    yield module([array_row(2)], fn([1], [1], name(0)))
    yield module([array_row(3), array_row(1)], fn([1], [1], name(0)))
    yield module([], fn([1], [1], h(0x3C, 0, name(0))))
    yield module([], fn([1], [1], h(0x3C, 1, name(0))), fn([1], [1], name(0)))
    yield module([], fn([2], [1], name(0)))
    yield one(h(0x3A, name(0)))
    yield one(h(0x39, 1, uses(1), num(0), op(8, h(0x3A, num(1)))))
    yield one(h(0x39, 1, uses(1), h(0x3A, num(0)), num(1)))
    # types are judged after the last part: a later fault inside comes first
    yield one(op(1, TRUE, h(0x34, 7)))
    yield one(op(1, TRUE, h(0x41)))
    yield one(op(1, TRUE, num(1))[:-1])
    # but a tagcase's test and arm count before its arms
    yield one(h(0x38, 2, name(0), h(0x41), h(0x41)))
    yield one(h(0x38, 1, h(0x3F, 4, 0, num(1)), h(0x41)))
    yield one(h(0x38, 9, h(0x41)))
    yield one(h(0x38, 2, listed(num(1), num(2)), num(1), num(2)))
    yield one(h(0x39, 1, uses(1), num(0), TRUE))
    yield one(h(0x39, 1, uses(1), num(0), h(0x37, TRUE, TRUE)))
    yield one(h(0x39, 1, uses(1), num(0), h(0x3A, TRUE)))
    yield one(h(0x36, num(1), name(0), TRUE))
    yield one(h(0x39, 1, uses(1), num(0), h(0x36, num(1), num(2), h(0x3A, num(3)))))
    # a module of 16,384 bytes, and of one more
    for size in (16384, 16385):
        yield padded(size)


def padded(size):
    """A correct module of that many bytes: functions of equal size, and a last one that fills up."""
    functions, left = [], size - 3
    big = fn([1], [1], chain(90))
    while left - len(big) >= 60 and len(functions) < 59:
        functions.append(big)
        left -= len(big)
    functions.append(filling(left))
    return module([], *functions)


def chain(k):
    """A sum of k numbers, nested to the right."""
    e = num(0)
    for i in range(k):
        e = op(1, num(i), e)
    return e


def filling(size):
    """A function of that many bytes: sums take 7 bytes, negations 2, errors in place of numbers 2 less."""
    for k in range(0, 99):
        for n in range(0, 99 - k):
            for last in (num(0), name(0), h(0x33, 1, 1)):
                e = last
                for i in range(k):
                    e = op(1, num(i), e)
                for _ in range(n):
                    e = op(8, e)
                f = fn([1], [1], e)
                if len(f) == size:
                    return f
    raise SystemExit(f"no filling of {size} bytes")


def main():
    where = pathlib.Path(__file__).resolve().parent.parent / "crates" / "check_cases"
    cases = []
    for b in bases():
        assert answer(b).startswith("ok"), (b.hex(), answer(b))
        cases.append(b)
        cases += changed(b)
    cases += limits()
    seen, given, wanted = set(), [], []
    for b in cases:
        if b not in seen:
            seen.add(b)
            given.append(b.hex() or "-")
            wanted.append(answer(b))
    (where / "stdin").write_text("\n".join(given) + "\n")
    (where / "stdout").write_text("\n".join(wanted) + "\n")


sys.setrecursionlimit(10000)
if __name__ == "__main__":
    main()
