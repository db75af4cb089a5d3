#!/usr/bin/env python3
"""Writes the jobs of ../crates/test_ticket to its file stdin and the answers to its file stdout.

The answers follow document 01's sentences: a prime has no divisor at all from 2 up and below itself, where the engine
stops at the root, and D has a square factor exactly where the determinant of Sylvester's matrix of D and its
derivative is 0, which the engine does not compute; for small fields every square is tried as well.

    tickets.py                 writes the stored jobs
    tickets.py SEED N DIR      writes N jobs of random words to DIR instead
"""
import itertools
import os
import random
import struct
import sys

KIND = 1 << 28


def word(kind, value):
    return kind * KIND + value


def ticket(q, n, coefficients, b, end=None):
    return [word(1, q), word(2, n)] + [word(3, c) for c in coefficients] + [word(4, b), word(15, n + 4 if end is None else end)]


def is_odd_prime(q):
    return q % 2 == 1 and 1 < q < 4096 and all(q % d for d in range(2, q))


def determinant_is_zero(rows, q):
    rows = [row[:] for row in rows]
    for column in range(len(rows)):
        pivot = next((r for r in range(column, len(rows)) if rows[r][column] % q), None)
        if pivot is None:
            return True
        rows[column], rows[pivot] = rows[pivot], rows[column]
        inverse = pow(rows[column][column], q - 2, q)
        for r in range(column + 1, len(rows)):
            factor = rows[r][column] * inverse % q
            if factor:
                rows[r] = [(a - factor * b) % q for a, b in zip(rows[r], rows[column])]
    return False


def times(a, b, q):
    product = [0] * (len(a) + len(b) - 1)
    for i, x in enumerate(a):
        for j, y in enumerate(b):
            product[i + j] = (product[i + j] + x * y) % q
    return product


def divides(h, d, q):
    """Whether the monic h divides d."""
    rest = list(d)
    for top in range(len(rest) - 1, len(h) - 2, -1):
        factor = rest[top]
        for i, x in enumerate(h):
            rest[top - len(h) + 1 + i] = (rest[top - len(h) + 1 + i] - factor * x) % q
    return not any(rest)


def has_square_factor(d, n, q):
    """d is monic of degree n."""
    slope = [(i + 1) * d[i + 1] % q for i in range(n)]
    f, g = d[::-1], slope[::-1]
    rows = [[0] * i + f + [0] * (n - 2 - i) for i in range(n - 1)] + [[0] * i + g + [0] * (n - 1 - i) for i in range(n)]
    answer = determinant_is_zero(rows, q)
    if q ** (n // 2) <= 400:
        squares = (times(list(h) + [1], list(h) + [1], q) for k in range(1, n // 2 + 1) for h in itertools.product(range(q), repeat=k))
        assert answer == any(divides(s, d, q) for s in squares), (q, d)
    return answer


def answer(words):
    kinds, values = [w // KIND for w in words], [w % KIND for w in words]
    if len(words) < 7 or kinds[0] != 1 or kinds[1] != 2:
        return [1, 0, 0, 0]
    q, n = values[:2]
    if not is_odd_prime(q):
        return [2, 0, 0, 0]
    if n % 2 or n < 2 or n > 64:
        return [3, 0, 0, 0]
    if len(words) != n + 5 or kinds[2:] != [3] * (n + 1) + [4, 15] or values[-1] != n + 4:
        return [4, 0, 0, 0]
    d = values[2:n + 3]
    if any(c >= q for c in d):
        return [5, 0, 0, 0]
    if d[n] != 1:
        return [6, 0, 0, 0]
    if has_square_factor(d, n, q):
        return [7, 0, 0, 0]
    return [0, q, n, values[n + 3]] + d


def changed(words, i, w):
    return words[:i] + [w] + words[i + 1:]


def neighbours():
    good = ticket(3, 4, [1, 1, 0, 0, 1], 6)
    small = ticket(3, 2, [1, 0, 1], 1)
    largest = ticket(4093, 64, [1, 1] + [0] * 62 + [1], KIND - 1)
    yield from (good, small, largest)
    # 1: every number of words around 7, and the kinds of the first two
    for words in (small, good, largest):
        yield from (words[:k] for k in range(min(len(words), 11)))
        yield from (changed(words, i, word(k, words[i] % KIND)) for i in (0, 1) for k in range(16))
    # 2: every q near the ends, composites, primes; with n wrong as well
    for q in (0, 1, 2, 3, 4, 5, 7, 9, 15, 25, 49, 3721, 4087, 4089, 4091, 4093, 4094, 4095, 4096, 4097, 4099, 16769023, KIND - 1):
        yield ticket(q, 4, [1, 1, 0, 0, 1], 6)
        yield ticket(q, 3, [1, 1, 0, 1], 6)
    # 3: n with as many words as it asks for, where that is possible
    for n in list(range(0, 10)) + list(range(60, 70)):
        yield ticket(7, n, [1, 3] + [0] * (n - 2) + [1] if n > 1 else [1] * (n + 1), 5)
    yield from (changed(good, 1, word(2, n)) for n in (0, 1, 2, 3, 5, 6, 64, 65, 66, 67, 128, KIND - 2, KIND - 1))
    # 4: number of words, kinds, the end word; with a coefficient that is too large as well
    for words in (small, good, largest):
        yield words + [word(15, words[-1] % KIND)]
        yield words + [0]
        yield words[:-1]
        yield from (changed(words, i, word(k, words[i] % KIND)) for i in range(2, len(words)) for k in ((5,) if len(words) > 20 else range(16)))
        yield from (changed(words, len(words) - 1, word(15, e)) for e in (0, len(words) - 2, len(words) - 1, len(words), KIND - 1))
        yield changed(changed(words, len(words) - 1, word(15, 0)), 2, word(3, 4093))
    # 5: each coefficient q − 1, q and largest; the leading one too; 6: leading coefficients 0, 2, q − 1
    for words, q in ((small, 3), (good, 3), (largest, 4093)):
        n = words[1] % KIND
        yield from (changed(words, i, word(3, c)) for i in (range(2, n + 3) if n < 60 else (2, n + 1, n + 2)) for c in (0, 1, q - 1, q, KIND - 1))
        yield from (changed(changed(words, 2, word(3, q)), n + 2, word(3, c)) for c in (0, 1, q))
    # 6 before 7: a square that is not monic, and the zero polynomial
    yield ticket(5, 4, [2, 0, 0, 0, 2], 1)
    yield ticket(5, 4, [0, 0, 0, 0, 0], 1)
    yield ticket(5, 4, [4, 4, 4, 3, 2], 1)
    # 7: x^6 + 1 over 3 elements, whose derivative is 0, squares at every degree, one linear factor squared, a high power of q
    yield ticket(3, 6, [1, 0, 0, 0, 0, 0, 1], 9)
    yield ticket(5, 10, [3] + [0] * 9 + [1], 9)
    yield ticket(61, 62, [3] + [0] * 60 + [7, 1], 9)
    for n in range(2, 65, 2):
        for q in (3, 5, 4093) if n < 10 else ((3, 5, 4093)[n // 2 % 3],):
            h = [(k * k + n) % q for k in range(n // 2)] + [1]
            d = times(h, h, q)
            yield ticket(q, n, d, n)
            yield ticket(q, n, changed(d, 0, (d[0] + 1) % q), n)
            yield ticket(q, n, times([q - 1, 1], times([q - 1, 1], [1] * (n - 1), q), q), n)
            yield ticket(q, n, times([q - 1, 1], times([q - 2, 1], [1] * (n - 2) + [1], q), q), n)


def drawn(draw):
    """Random words, mostly near a ticket."""
    q = draw.choice([3, 3, 5, 7, 11, 101, 4091, 4093, draw.randrange(5000)])
    n = draw.choice([2, 4, 6, 8, 10, 64, 2 * draw.randrange(1, 33), draw.randrange(70)])
    top = draw.choice([max(q, 1), max(q, 1), max(q, 1), q + 2])
    words = ticket(q, n, [draw.randrange(top) for _ in range(n)] + [draw.choice([1, 1, 1, 1, 2])], draw.randrange(KIND))
    for _ in range(draw.choice([0, 0, 0, 1, 1, 3])):
        words[draw.randrange(len(words))] = draw.choice([draw.randrange(1 << 32), word(draw.randrange(16), draw.randrange(70))])
    if draw.random() < 0.15:
        words = [draw.randrange(1 << 32) for _ in range(draw.randrange(81))]
    if draw.random() < 0.1:
        words = words[:draw.randrange(len(words) + 1)]
    return words[:80]


def main():
    folder = os.path.join(os.path.dirname(os.path.abspath(__file__)), "..", "crates", "test_ticket")
    jobs = list(neighbours())
    draw = random.Random(1)
    jobs += [drawn(draw) for _ in range(60)]
    if len(sys.argv) == 4:
        draw = random.Random(int(sys.argv[1]))
        jobs = [drawn(draw) for _ in range(int(sys.argv[2]))]
        folder = sys.argv[3]
    with open(os.path.join(folder, "stdin"), "wb") as f:
        f.write(struct.pack("<I", len(jobs)))
        for words in jobs:
            f.write(struct.pack("<%dI" % (1 + len(words)), len(words), *words))
    with open(os.path.join(folder, "stdout"), "w") as f:
        for words in jobs:
            f.write("".join("%d " % x for x in answer(words)) + "\n")


if __name__ == "__main__":
    main()
