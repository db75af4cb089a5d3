#!/usr/bin/env python3
"""Makes long.txt: one D with a quasi-period near a million, found with the largest budget and spent one step before the end.

The walk is check.py's. R is held to a count that shares nothing with it: D has degree 6, so y^2 = D(x) is a curve of genus 2 with two points at
infinity, whose Jacobian has J = (N1^2 + N2) / 2 - q points, N1 and N2 the curve's points over the fields of q and of q^2 elements; R divides J,
and here R is J itself.
"""
import os

import check

Q = 1009
D = [261, 894, 850, 250, 513, 639, 1]


def legendre(q):
    squares = {v * v % q for v in range(1, q)}
    return [0] + [1 if v in squares else -1 for v in range(1, q)]


def jacobian(q, D):
    """The number of points of the Jacobian. An element of the field of q^2 is a square where its norm is one in the field of q."""
    symbol = legendre(q)
    r = symbol.index(-1)
    n1, n2 = q + 2, q * q + 2
    for u in range(q):
        for v in range(q):
            a = b = 0
            for c in reversed(D):
                a, b = (a * u + b * v * r + c) % q, (a * v + b * u) % q
            if v == 0:
                n1 += symbol[a]
            n2 += symbol[(a * a - r * b * b) % q] if v else (a != 0)
    assert (n1 * n1 + n2) % 2 == 0
    return (n1 * n1 + n2) // 2 - q


def ticket(q, D, b):
    n = len(D) - 1
    return [check.KIND + q, 2 * check.KIND + n] + [3 * check.KIND + c for c in D] + [4 * check.KIND + b, 15 * check.KIND + n + 4]


def walk(q, D):
    """R, m, c and the degree one step before. No convergent is made: the leading coefficient of p_{m-1}, by whose square R-3
    divides (-1)^m Q_m, is the product of those of the partial quotients."""
    d = check.floor_root(q, len(D) // 2 - 1, D)
    P, S, degree, before, lead, i = [], [1], 0, 0, 1, 0
    while i == 0 or len(S) > 1:
        a, P, S = check.step(q, D, d, P, S)
        before, degree, lead, i = degree, degree + check.deg(a), lead * a[-1] % q, i + 1
    return degree, i, (-1) ** i * S[0] * pow(lead, -2, q) % q, before


def main():
    assert check.refusal(ticket(Q, D, 0)) == 0
    R, m, c, before = walk(Q, D)
    assert R == jacobian(Q, D), (R, jacobian(Q, D))
    with open(os.path.join(os.path.dirname(os.path.abspath(__file__)), "long.txt"), "w") as file:
        for b, answer in [(check.KIND - 1, [0, R, m, c]), (m - 1, [11, m - 1, before, 0])]:
            w = ticket(Q, D, b)
            print(*[len(w)], *w, *answer, file=file)


if __name__ == "__main__":
    main()
