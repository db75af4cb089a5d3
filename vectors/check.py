#!/usr/bin/env python3
"""Checks every line of the vectors against documents 01 and 02, followed word by word: the walk, the formulas, the order of
refusals, the lines that the program prints."""
import functools
import glob
import json
import os
import sys

HERE = os.path.dirname(os.path.abspath(__file__))
KIND = 1 << 28
PRIMES = [q for q in range(3, 4096, 2) if all(q % p for p in range(3, q, 2) if p * p <= q)]


# ---- polynomials: lists of numbers below q, constant term first, no zeros at the end

def trim(a):
    while a and a[-1] == 0:
        a.pop()
    return a


def deg(a):
    return len(a) - 1


def add(q, a, b, sign=1):
    c = [0] * max(len(a), len(b))
    for i, v in enumerate(a):
        c[i] = v
    for i, v in enumerate(b):
        c[i] = (c[i] + sign * v) % q
    return trim(c)


def sub(q, a, b):
    return add(q, a, b, -1)


def mul(q, a, b):
    if not a or not b:
        return []
    c = [0] * (len(a) + len(b) - 1)
    for i, v in enumerate(a):
        if v:
            for j, w in enumerate(b):
                c[i + j] += v * w
    return trim([v % q for v in c])


def divmod_(q, a, b):
    a = a[:]
    u = pow(b[-1], -1, q)
    quotient = [0] * max(0, len(a) - len(b) + 1)
    for k in range(len(a) - len(b), -1, -1):
        v = a[k + len(b) - 1] * u % q
        quotient[k] = v
        if v:
            for i, w in enumerate(b):
                a[k + i] = (a[k + i] - v * w) % q
    return trim(quotient), trim(a)


def div(q, a, b):
    return divmod_(q, a, b)[0]


def mod(q, a, b):
    return divmod_(q, a, b)[1]


def monic(q, a):
    return mul(q, a, [pow(a[-1], -1, q)]) if a else []


def gcd(q, a, b):
    return gcd(q, b, mod(q, a, b)) if b else monic(q, a)


def bezout(q, a, b):
    """g, u, v with g = u*a + v*b, g monic."""
    u, v = ([1], []), ([], [1])
    while b:
        t, r = divmod_(q, a, b)
        a, b = b, r
        u, v = v, tuple(sub(q, x, mul(q, t, y)) for x, y in zip(u, v))
    if not a:
        return [], [], []
    c = [pow(a[-1], -1, q)]
    return mul(q, a, c), mul(q, u[0], c), mul(q, u[1], c)


# ---- the ticket

def refusal(w):
    """The first number of 1 to 7 that applies, or 0."""
    if len(w) < 7 or w[0] // KIND != 1 or w[1] // KIND != 2:
        return 1
    q, n = w[0] % KIND, w[1] % KIND
    if q not in PRIMES:
        return 2
    if n % 2 or n < 2 or n > 64:
        return 3
    if len(w) != n + 5 or [v // KIND for v in w[2:]] != [3] * (n + 1) + [4, 15] or w[-1] % KIND != n + 4:
        return 4
    c = [v % KIND for v in w[2:n + 3]]
    if max(c) >= q:
        return 5
    if c[n] != 1:
        return 6
    derivative = trim([i * v % q for i, v in enumerate(c)][1:])
    if deg(gcd(q, c, derivative)) > 0:
        return 7
    return 0


def read(w):
    """q, g, D, b of a ticket past 1 to 7."""
    n = w[1] % KIND
    return w[0] % KIND, n // 2 - 1, [v % KIND for v in w[2:n + 3]], w[n + 3] % KIND


# ---- the walk

def floor_root(q, g, D):
    """The monic d of degree g + 1 with deg(D - d^2) at most g."""
    d, half = [0] * (g + 1) + [1], pow(2, -1, q)
    for k in range(g, -1, -1):
        rest = sub(q, D, mul(q, d, d))
        d[k] = (rest[k + g + 1] if k + g + 1 < len(rest) else 0) * half % q
    assert deg(sub(q, D, mul(q, d, d))) <= g
    return d


def step(q, D, d, P, Q):
    a = div(q, add(q, P, d), Q)
    P1 = sub(q, mul(q, a, Q), P)
    Q1, rest = divmod_(q, sub(q, D, mul(q, P1, P1)), Q)
    assert not rest
    return a, P1, Q1


def walk(w, unit=False):
    """The answer, the pairs (P_i, Q_i) for i below the steps made with deg p_{i-1}, and the last convergent if asked for.
    R-3 divides (-1)^m Q_m by the square of p_{m-1}'s leading coefficient. As p_i = a_i p_{i-1} + p_{i-2} and every a_i has a
    degree of 1 or more, that is the product of the leading coefficients of the a_i."""
    q, g, D, b = read(w)
    d = floor_root(q, g, D)
    P, Q, degree, lead, seen = [], [1], 0, 1, []
    p, s = ([1], []), ([], [1])
    for i in range(b):
        seen.append((P, Q, degree))
        a, P, Q = step(q, D, d, P, Q)
        degree += deg(a)
        lead = lead * a[-1] % q
        if unit:
            p = add(q, mul(q, a, p[0]), p[1]), p[0]
            s = add(q, mul(q, a, s[0]), s[1]), s[0]
        if deg(Q) == 0:
            m = i + 1
            return [0, degree, m, (-1) ** m * Q[0] * pow(lead, -2, q) % q], seen, (p[0], s[0])
    return [11, b, degree, 0], seen, None


def regulator(w):
    r = refusal(w)
    return [r, 0, 0, 0] if r else walk(w)[0]


# ---- half the walk

def half(w):
    """Stops "at the first i from 0 up where Q_{i+1} is a constant times Q_i, giving m = 2i+1, or else where
    P_{i+1} = P_{i+2}, giving m = 2i+2"; R by the duplication rules, 2(deg a_1 + .. + deg a_i) + deg d or
    2(deg a_1 + .. + deg a_{i+1}) + deg Q_{i+1}."""
    r = refusal(w)
    if r:
        return [r, 0, 0, 0]
    q, g, D, b = read(w)
    d = floor_root(q, g, D)
    before = [1]
    a, P, Q = step(q, D, d, [], before)
    total = degree = 0
    for i in range(b):
        degree += deg(a)
        if monic(q, Q) == monic(q, before):
            return [0, 2 * total + deg(d), 2 * i + 1, 0]
        a, after, next_Q = step(q, D, d, P, Q)
        total += deg(a)
        if P == after:
            return [0, 2 * total + deg(Q), 2 * i + 2, 0]
        before, P, Q = Q, after, next_Q
    return [11, b, degree, 0]


# ---- several primes

def shape(w):
    """14 or 3, or 0: "kind 2, then n+1 words of kind 12, kind 4, one to sixteen words of kind 1, then kind 15 with the number of
    words before it"."""
    n = w[0] % KIND if w else 0
    primes = len(w) - (n + 4)
    if not 1 <= primes <= 16 or [v // KIND for v in w] != [2] + [12] * (n + 1) + [4] + [1] * primes + [15] or w[-1] % KIND != len(w) - 1:
        return 14
    return 3 if n % 2 or n < 2 or n > 64 else 0


def single(w, q):
    """The words of the single job at q; 28-bit two's complement is read off the bytes. Modulo 0 nothing is reduced."""
    n = w[0] % KIND
    integers = [int.from_bytes((v << 4 & 0xffffffff).to_bytes(4, "big"), "big", signed=True) >> 4 for v in w[1:n + 2]]
    return [KIND + q, 2 * KIND + n] + [3 * KIND + (c % q if q else c % KIND) for c in integers] + [w[n + 2], 15 * KIND + n + 4]


def several(w):
    """The number of outcomes, then the four numbers of each."""
    r = shape(w)
    if r:
        return [1, r, 0, 0, 0]
    primes = [v % KIND for v in w[w[0] % KIND + 3:-1]]
    return [len(primes)] + [v for q in primes for v in regulator(single(w, q))]


def pad(a, k):
    assert len(a) <= k
    return a + [0] * (k - len(a))


def unit(w):
    """R-3: p is made monic, s is divided by the same constant."""
    answer, _, (p, s) = walk(w, True)
    assert deg(p) == answer[1]
    q, g, D, b = read(w)
    p, s = monic(q, p), mul(q, s, [pow(p[-1], -1, q)])
    assert sub(q, mul(q, p, p), mul(q, D, mul(q, s, s))) == [answer[3]]
    return answer + pad(p, answer[1] + 1) + pad(s, answer[1] + 1)


def lent_unit(w, lengths, fill):
    """The answer and every place of the four lists at the end."""
    answer, written = regulator(w), [[], [], [], []]
    if answer[0] == 0 and min(lengths) < answer[1] + 1:
        answer = [12, 0, 0, 0]
    if answer[0] == 0:
        both, places = unit(w)[4:], answer[1] + 1
        written = [both[:places], both[places:], [0] * places, [0] * places]
    return answer + [v for length, list_ in zip(lengths, written) for v in list_ + [fill] * (length - len(list_))]


# ---- listing and lookup

def records(w, R, seen):
    """Index, distance, mirror, Q and P of each record. "The mirror becomes R less the distance plus deg Q" (R-6)."""
    q, g, D, b = read(w)
    for index, (P, Q, distance) in enumerate(seen, 1):
        yield index, distance, R - distance + deg(Q), pad(monic(q, Q), g + 1), pad(mod(q, P, Q), g)


def listing(w):
    if refusal(w):
        return [refusal(w), 0, 0, 0, 0]
    answer, seen, _ = walk(w)
    if answer[0]:
        return answer + [0]
    out = []
    for index, distance, mirror, Q, P in records(w, answer[1], seen):
        out += [5 * KIND + index, 6 * KIND + (distance >> 28), 7 * KIND + distance % KIND]
        out += [10 * KIND + (mirror >> 28), 11 * KIND + mirror % KIND] + [8 * KIND + v for v in Q] + [9 * KIND + v for v in P]
    return answer + [len(out)] + out


def lent_listing(w, lengths, fill):
    """The answer and every place of the list at the end."""
    row, (length,) = listing(w), lengths
    answer, written = row[:4], row[5:]
    if len(written) > length:
        answer, written = [13, 0, 0, 0], []
    return answer + written + [fill] * (length - len(written))


def read_back(words, n):
    """Index, distance, mirror, Q and P of each record, from the words of a listing."""
    values = [v % KIND for v in words]
    for at in range(0, len(values), n + 4):
        index, high, low, mirror_high, mirror_low = values[at:at + 5]
        Q, P = values[at + 5:at + 5 + n // 2], values[at + 5 + n // 2:at + n + 4]
        yield index, high * KIND + low, mirror_high * KIND + mirror_low, Q, P


def lookup(words, n, y):
    """Offset and length of the last record with a distance of at most y; 0 and 0 is refusal 8."""
    if n % 2 or n < 2 or n > 64 or not words or len(words) % (n + 4):
        return [0, 0]
    kinds = [5, 6, 7, 10, 11] + [8] * (n // 2) + [9] * (n // 2 - 1)
    distances = [distance for _, distance, _, _, _ in read_back(words, n)]
    if [v // KIND for v in words] != kinds * len(distances) or distances[0] or distances != sorted(set(distances)):
        return [0, 0]
    return [(n + 4) * (sum(distance <= y for distance in distances) - 1), n + 4]


def conjugates(q, R, listed):
    """Whether the records are as R-6 has them, without its formula: "the record at that distance, or record 1 where the
    mirror is R, is the conjugate: the same Q, and P negated modulo Q", and the mirror of record 1 alone is R. As P has a
    lower degree than Q, P negated modulo Q has the coefficients of P negated modulo q."""
    at = {distance: (Q, P) for _, distance, _, Q, P in listed}
    at[R] = at[0]
    return all(at.get(mirror) == (Q, [-c % q for c in P]) and (mirror == R) == (index == 1) for index, _, mirror, Q, P in listed)


# ---- the program

READ, LENT = 280, 8192  # the bytes that "orders" reads; the words of the listing that it lends


def lines_of(data):
    """The lines that "orders" prints for these bytes."""
    data = data[:READ]
    if len(data) % 4:
        return ["refused 1"]
    w = [int.from_bytes(data[i:i + 4], "little") for i in range(0, len(data), 4)]
    r = refusal(w)
    if r:
        return [f"refused {r}"]
    answer, seen, _ = walk(w)
    if answer[0]:
        return [f"spent {answer[1]} {answer[2]}"]
    q, g, D, b = read(w)
    if answer[2] * (2 * g + 6) > LENT:
        return ["refused 13"]
    lines = ["found " + " ".join(map(str, answer[1:]))]
    for index, distance, mirror, Q, P in records(w, answer[1], seen):
        lines.append(" ".join(map(str, [index, distance, mirror] + Q + P)))
    return lines


def program_samples():
    """The program's cases in the files of samples: file and line, the bytes of standard input, the printed lines."""
    for path in sorted(glob.glob(os.path.join(HERE, "samples", "*.jsonl"))):
        with open(path) as file:
            for at, case in enumerate(map(json.loads, file), 1):
                if case["call"] == "orders":
                    yield f"samples/{os.path.basename(path)}:{at}", bytes.fromhex(case["hex"]), case["answer"]


# ---- product and giant step

def is_ideal(q, g, D, Q, P):
    if len(Q) != g + 1 or len(P) != g or any(v >= q for v in Q + P):
        return False
    Q, P = trim(Q[:]), trim(P[:])
    return bool(Q) and Q[-1] == 1 and deg(P) < deg(Q) and not mod(q, sub(q, D, mul(q, P, P)), Q)


def sized(a):
    return [len(a)] + a


def product(q, D, Q1, P1, Q2, P2):
    """S, Q, P of the product."""
    T, u, v = bezout(q, Q1, Q2)
    S, t, W = bezout(q, T, add(q, P1, P2))
    U, V = mul(q, t, u), mul(q, t, v)
    assert S == gcd(q, gcd(q, Q1, Q2), add(q, P1, P2))
    assert S == add(q, add(q, mul(q, U, Q1), mul(q, V, Q2)), mul(q, W, add(q, P1, P2)))
    Q = div(q, mul(q, Q1, Q2), mul(q, S, S))
    inner = add(q, mul(q, U, sub(q, P2, P1)), mul(q, W, div(q, sub(q, D, mul(q, P1, P1)), Q1)))
    return S, Q, mod(q, add(q, P1, mul(q, div(q, Q1, S), inner)), Q)


def reduction(q, g, D, d, S, Q, P):
    """The giant step's ideal and f, from the product."""
    total, start = 0, deg(Q)
    while deg(Q) > g:
        _, P, Q = step(q, D, d, P, Q)
        total += deg(div(q, add(q, P, d), Q))
    f = deg(Q) - start + total - deg(S)
    assert -2 * g <= f <= 0
    return monic(q, Q), mod(q, P, Q), f


def wide(y):
    """The high and the low 32 bits."""
    return [y >> 32, y % 2 ** 32]


def combine(w, Q1, P1, y1, Q2, P2, y2):
    r = refusal(w)
    if not r:
        q, g, D, _ = read(w)
        r = 0 if is_ideal(q, g, D, Q1, P1) and is_ideal(q, g, D, Q2, P2) else 9
    if r:
        return [r, 0, 0, 0, r, 0, 0, 0, 0, 0, 0]
    S, Q, P = product(q, D, *(trim(a[:]) for a in (Q1, P1, Q2, P2)))
    answer = [0] + sized(S) + sized(Q) + sized(P)
    if max(y1, y2) > 2 ** 40:
        return answer + [10, 0, 0, 0, 0, 0, 0]
    Q, P, f = reduction(q, g, D, floor_root(q, g, D), S, Q, P)
    distance = y1 + y2 + f
    return answer + [0] + sized(Q) + sized(P) + [-f, int(distance < 0)] + wide(abs(distance))


# ---- the ideal at or below a distance

NEAR = 256  # y up to which the walk itself is compared


def onward(q, D, d, Q, P, distance, y):
    """Single steps from an ideal to the last at a distance of at most y; with its distance and the next one's."""
    while True:
        after = distance + deg(div(q, add(q, P, d), Q))
        if after > y:
            return monic(q, Q), mod(q, P, Q), distance, after
        _, P, Q = step(q, D, d, P, Q)
        distance = after


@functools.lru_cache(maxsize=None)
def halving(q, D, d, y):
    """As R-5 says: "the ideal for y comes from the one for y div 2 by a giant step with itself and then single steps".
    That for 0 is the walk's first. A y and its halves share their answers, which are kept, so D and d are tuples."""
    g = len(d) - 2
    if y == 0:
        return onward(q, D, d, [1], [], 0, 0)
    Q, P, distance, _ = halving(q, D, d, y // 2)
    Q, P, f = reduction(q, g, D, d, *product(q, D, Q, P, Q, P))
    return onward(q, D, d, Q, P, 2 * distance + f, y)


def ideal_at(w, y):
    r = refusal(w) or (10 if y > 2 ** 40 else 0)
    if r:
        return [r, 0, 0, 0, 0, 0, 0]
    q, g, D, _ = read(w)
    d = floor_root(q, g, D)
    Q, P, distance, after = halving(q, tuple(D), tuple(d), y)
    assert distance <= y < after and is_ideal(q, g, D, pad(Q, g + 1), pad(P, g))
    if y <= NEAR:
        assert (Q, P, distance, after) == onward(q, D, d, [1], [], 0, y)
    return [0] + sized(Q) + sized(P) + wide(distance) + wide(after)


# ---- the estimate

def estimate(w):
    """Counts "field elements at which D's value is a nonzero square and a non-square". The whole number nearest to N/M,
    "an exact half going up", is the largest up to N/M + 1/2 = (2N + M) / 2M."""
    r = refusal(w)
    if r:
        return [r] + [0] * 6
    q, g, D, _ = read(w)
    if q > 13 or 2 * g + 2 > 8:
        return [15] + [0] * 6
    squares = {z * z % q for z in range(1, q)}
    values = [sum(c * e ** i for i, c in enumerate(D)) % q for e in range(q)]
    a = sum(v in squares for v in values)
    t = q - a - values.count(0)
    numerator, denominator = q ** (g + 1 + a + t), (q - 1) ** (a + 1) * (q + 1) ** t
    nearest = (2 * numerator + denominator) // (2 * denominator)
    return [0] + wide(numerator) + wide(denominator) + wide(nearest)


# ---- the files

class Numbers:
    """A line's numbers, taken from the front."""

    def __init__(self, line):
        self.rest = [int(v) for v in line.split()]
        assert all(0 <= v < 2 ** 32 for v in self.rest)

    def take(self, k):
        assert len(self.rest) >= k
        out, self.rest = self.rest[:k], self.rest[k:]
        return out

    def counted(self):
        return self.take(self.take(1)[0])

    def wide(self):
        high, low = self.take(2)
        return high << 32 | low


def expected(name, numbers):
    w = numbers.counted()
    if name == "samples/lookups":
        return lookup(w, numbers.take(1)[0], numbers.wide())
    if name == "products":
        Q1, P1, y1 = numbers.counted(), numbers.counted(), numbers.wide()
        Q2, P2, y2 = numbers.counted(), numbers.counted(), numbers.wide()
        return combine(w, Q1, P1, y1, Q2, P2, y2)
    if os.path.basename(name) == "ideals_at":
        return ideal_at(w, numbers.wide())
    if name in ("samples/units", "samples/listings"):
        lengths, fill = numbers.counted(), numbers.take(1)[0]
        return (lent_unit if name == "samples/units" else lent_listing)(w, lengths, fill)
    calls = {"regulators": regulator, "half": half, "several": several, "allowed": several, "units": unit, "listings": listing,
             "estimates": estimate}
    return calls[os.path.basename(name)](w)


def tallied(name, answer):
    """The numbers of the answer's outcomes, 0 or that of a refusal."""
    if name == "samples/lookups":
        return [0 if answer[1] else 8]
    return answer[1::4] if "several" in name or name == "allowed" else answer[:1]


def stored_listings():
    """The found listings of the two files and of the program's cases, as they stand there: file and line, q, R and the
    records."""
    for name in "listings", "samples/listings":
        with open(os.path.join(HERE, name + ".txt")) as file:
            for at, line in enumerate(file, 1):
                numbers = Numbers(line)
                w = numbers.counted()
                if name == "samples/listings":
                    numbers.counted(), numbers.take(1)  # the lent list
                number, R, m, _ = numbers.take(4)
                if number == 0:
                    q, n = (v % KIND for v in w[:2])
                    words = numbers.counted() if name == "listings" else numbers.take(m * (n + 4))
                    yield f"{name}.txt:{at}", q, R, list(read_back(words, n))
    for where, data, lines in program_samples():
        if lines[0].startswith("found"):
            q, n = (int.from_bytes(data[i:i + 4], "little") % KIND for i in (0, 4))
            rows = [[int(v) for v in line.split()] for line in lines[1:]]
            yield where, q, int(lines[0].split()[1]), [(*row[:3], row[3:3 + n // 2], row[3 + n // 2:]) for row in rows]


def main():
    wrong = mirrored = 0
    samples = ["regulators", "half", "several", "units", "listings", "ideals_at", "estimates"]
    for name in samples + ["allowed", "products"] + ["samples/" + name for name in samples + ["lookups"]]:
        jobs = total = 0
        tally = {}
        with open(os.path.join(HERE, name + ".txt")) as file:
            for at, line in enumerate(file, 1):
                numbers = Numbers(line)
                total += len(numbers.rest)
                jobs += 1
                mine = expected(name, numbers)
                for kind in tallied(name, mine):
                    tally[kind] = tally.get(kind, 0) + 1
                if mine != numbers.rest:
                    wrong += 1
                    print(f"{name}.txt:{at}: the documents give {mine}, the line has {numbers.rest}")
        print(f"{name}: {jobs} jobs, {total} numbers; by answer: " + ", ".join(f"{k}: {tally[k]}" for k in sorted(tally)))
    cases = list(program_samples())
    for where, data, lines in cases:
        if lines_of(data) != lines:
            wrong += 1
            print(f"{where}: the documents give {lines_of(data)}, the case has {lines}")
    print(f"samples of the program: {len(cases)}")
    for where, q, R, listed in stored_listings():
        mirrored += len(listed)
        if not conjugates(q, R, listed):
            wrong += 1
            print(f"{where}: a mirror is not the distance of the conjugate")
    wrong += not mirrored
    print(f"records compared with the conjugate at their mirror: {mirrored}")
    sys.exit(1 if wrong else 0)


if __name__ == "__main__":
    main()
