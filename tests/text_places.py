#!/usr/bin/env python3
"""Damaged texts against the program check_reading: each place worked out by trying completions.

usage: text_places.py PATH-OF-check_reading [COUNT [SEED]]

A front begins a well-shaped file when some completion exists. Here that is found by following the grammar over whole tokens and
trying every number of the range at each place where one may stand: no digit is looked at by itself. The acceptance of a whole text is
worked out from the sets it lists."""
import random
import subprocess
import sys


class Exhausted(Exception):
    """The front has ended inside what the grammar allows: a completion exists."""


def fixed(t, at, word):
    rest = t[at : at + len(word)]
    if rest == word:
        return [at + len(word)]
    if len(t) - at < len(word) and word.startswith(t[at:]):
        raise Exhausted
    return []


def number(t, at, lo, hi):
    found = []
    for v in range(lo, hi + 1):
        d = str(v)
        if len(t) - at <= len(d) and d.startswith(t[at:]):
            raise Exhausted
        if t.startswith(d, at):
            found.append((v, at + len(d)))
    return found


def members(t, at, lo, xs):
    """What follows the opening bracket or a member: (set, place)."""
    for e in fixed(t, at, ")"):
        yield xs, e
    starts = [at] if not xs else fixed(t, at, " ")
    for s in starts:
        if lo <= 127:
            for v, e in number(t, s, lo, 127):
                yield from members(t, e, v + 1, xs + [v])


def a_set(t, at):
    for s in fixed(t, at, "("):
        yield from ends_first(members(t, s, 0, []))


def ends_first(g):
    return g


def sets(t, at, found):
    for e in fixed(t, at, ")"):
        yield found, e
    if len(found) < 4:
        for s in [at] if not found else fixed(t, at, " "):
            for x, e in a_set(t, s):
                yield from sets(t, e, found + [x])


def a_list(t, at):
    for s in fixed(t, at, "("):
        yield from sets(t, s, [])


def lines(t, at, word, n, rows):
    if len(rows) == n:
        yield rows, at
        return
    for a in fixed(t, at, "(%s %d " % (word, len(rows))):
        for f, b in number(t, a, 0, 1):
            for c in fixed(t, b, " "):
                for x, d in a_set(t, c):
                    for e in fixed(t, d, ")\n"):
                        yield from lines(t, e, word, n, rows + [(f, x)])


def conditions(t, at, n, found):
    if len(found) == n:
        yield found, at
        return
    for a in fixed(t, at, "(if "):
        for x, b in a_list(t, a):
            for c in fixed(t, b, " "):
                for y, d in a_list(t, c):
                    for e in fixed(t, d, ")\n"):
                        yield from conditions(t, e, n, found + [(x, y)])


def games(t):
    for a in fixed(t, 0, "(game "):
        for i, b in number(t, a, 1, 128):
            for c in fixed(t, b, " "):
                for o, d in number(t, c, 1, 128):
                    for e in fixed(t, d, " "):
                        for k, f in number(t, e, 0, 8):
                            for g in fixed(t, f, ")\n"):
                                for ins, h in lines(t, g, "in", i, []):
                                    for outs, l in lines(t, h, "out", o, []):
                                        for qs, end in conditions(t, l, k, []):
                                            yield (ins, outs, qs), end


def begins(t):
    """Whether t begins a well-shaped file. An alternative that has ended does not hide the others: each is tried by itself."""
    try:
        return any(end == len(t) for _, end in games(t))
    except Exhausted:
        return True


def whole(t):
    try:
        for g, end in games(t):
            if end == len(t):
                return g
    except Exhausted:
        pass
    return None


def accepted(g):
    ins, outs, qs = g
    graphs = (ins, outs)
    if any(v >= len(h) for h in graphs for _, x in h for v in x):
        return 2
    if any(all(f == 0 for f, _ in h) for h in graphs):
        return 3
    if any(v >= len(ins) for x, _ in qs for s in x for v in s) or any(v >= len(outs) for _, y in qs for s in y for v in s):
        return 7
    return 0


def expected(t):
    g = whole(t)
    if g is not None:
        n = accepted(g)
        return "same" if n == 0 else "(refused %d)" % n
    lo, hi = 0, len(t)
    while lo < hi:
        mid = (lo + hi + 1) // 2
        if begins(t[:mid]):
            lo = mid
        else:
            hi = mid - 1
    return "(refused 11 %d)" % lo


def text(xs):
    return "(%s)" % " ".join(xs)


def some(rng, top):
    n = rng.choice([0, 1, 1, 2, 3])
    return sorted(rng.sample(range(top), min(n, top)))


def a_game(rng):
    i, o, k = rng.choice([1, 2, 3, 10, 11]), rng.choice([1, 2, 3]), rng.choice([0, 0, 1, 2, 8])
    out = "(game %d %d %d)\n" % (i, o, k)
    for word, n in (("in", i), ("out", o)):
        for s in range(n):
            top = n if rng.random() < 0.9 else 128
            xs = some(rng, top)
            out += "(%s %d %d %s)\n" % (word, s, 1 if s == 0 else rng.randrange(2), text(map(str, xs)))
    for _ in range(k):
        both = [text(text(map(str, some(rng, n))) for _ in range(rng.randrange(5))) for n in (i, o)]
        out += "(if %s %s)\n" % tuple(both)
    return out


def damaged(rng, t):
    for _ in range(rng.choice([0, 1, 1, 1, 2])):
        at = rng.randrange(len(t) + 1)
        c = rng.choice("0123456789 ()\nigofx")
        how = rng.randrange(5)
        if how == 0:
            t = t[:at] + t[at + 1 :]
        elif how == 1:
            t = t[:at] + c + t[at:]
        elif how == 2:
            t = t[:at] + c + t[at + 1 :]
        elif how == 3:
            t = t[:at]
        else:
            t = t[:at] + t[max(0, at - 1) :]
        t = t or "x"
    return t


def main():
    program, count, seed = sys.argv[1], int((sys.argv + ["", "20000"])[2] or 20000), int((sys.argv + ["", "", "1"])[3] or 1)
    rng = random.Random(seed)
    texts = [damaged(rng, a_game(rng)) for _ in range(count)]
    data = b"".join(b"%05d" % len(t) + t.encode("latin-1") for t in texts)
    got = subprocess.run([program], input=data, stdout=subprocess.PIPE, check=True).stdout.decode().split("\n")[:-1]
    wrong = 0
    kinds = {}
    for t, g in zip(texts, got):
        e = expected(t)
        kinds[e.split(" ")[0] + (" " + e.split(" ")[1].rstrip(")") if " " in e else "")] = kinds.get(e.split(" ")[0] + (" " + e.split(" ")[1].rstrip(")") if " " in e else ""), 0) + 1
        if e != g:
            wrong += 1
            if wrong < 10:
                print("wrong:", repr(t), "expected", e, "got", g)
    print("%d texts, %d answers, %d wrong; %s" % (len(texts), len(got), wrong, kinds))
    sys.exit(1 if wrong or len(got) != len(texts) else 0)


main()
