\\ The lines of ../crates/test_polynomial/stdout by PARI/GP's own arithmetic; `make` runs it.
\\ A polynomial is a line of its coefficients, constant term first, each with a space after it.
show(f) = { if (f != 0, foreach (Vecrev(lift(f)), c, print1(c, " "))); print() };

\\ n coefficients from a linear congruence that starts at `seed`.
sample(q, seed, n) =
{
  my(s = seed);
  Mod(1, q) * Pol(Vecrev(vector(n, i, s = (s * 75 + 74) % 65537; s % q)));
};

\\ The monic gcd, alone, then with the factors u and v of u*f + v*h; where there is none, zeros. f divided by zero has quotient 0 and remainder f.
divisor(f, h) =
{
  my(u, v, d, c);
  if (f == 0 && h == 0, for (i = 1, 4, show(0)); return);
  [u, v, d] = gcdext(f, h); c = pollead(d);
  show(d / c); show(d / c); show(u / c); show(v / c);
};

run(q, m, n, seed) =
{
  my(a = sample(q, seed, m), b = sample(q, seed + 1, n), c = sample(q, seed + 2, 9), e);
  show(a * b);
  e = if (b == 0, [0, a], divrem(a, b)~);
  show(e[1]); show(e[2]);
  divisor(a, b); divisor(a * c, b * c);
};

run(3, 9, 5, 1);
run(7, 20, 8, 2);
run(101, 33, 33, 3);
run(4093, 65, 33, 4);
run(4093, 33, 65, 5);
run(5, 6, 0, 6);
run(4091, 0, 4, 7);
run(61, 1, 1, 8);
quit
