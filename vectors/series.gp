\\ The methods behind the vectors: partial quotients from the Laurent series of a root, and modules in Hermite normal form.
\\ Nothing here uses the engine's walk; P, Q, d and their recurrences do not occur.
\\ A polynomial over the field of q elements is a polynomial in x with coefficients Mod(c, q).

\\ Coefficients as numbers, constant term first; none for zero.
numbers(f) = if (f == 0, [], Vecrev(lift(f)));
poly(c, q) = Mod(1, q) * Pol(Vecrev(c));
monic(f) = f / pollead(f);

\\ The polynomial part of x^k * sqrt(D), from the power series of sqrt(D / x^n) in 1/x.
root(D, k) =
{
  my(n = poldegree(D), s = sqrt(polrecip(D) + O(x^(n / 2 + k + 1))));
  Pol(Vec(s));
};

\\ Partial quotients by Euclid's algorithm on u / v, which differs from the series by less than x^-k: those with twice the
\\ denominator's degree at most k are the series' own. It stops after `most` of them, and after the first for which ends(a) holds.
quotients(u, v, k, most, ends) =
{
  my(list = List(), degree = 0, step);
  while (v != 0 && #list < most,
    step = divrem(u, v);
    if (#list, degree += poldegree(step[1]));
    if (2 * degree > k, break);
    listput(list, step[1]);
    if (#list > 1 && ends(step[1]), break);
    [u, v] = [v, step[2]]);
  Vec(list);
};

\\ Partial quotients a_0 .. a_most of sqrt(D), or as far as the first of degree n/2 from a_1 on. The norm of the convergent
\\ before a_i has degree n/2 - deg a_i, so that one is the first with a constant norm.
expansion(D, most) =
{
  my(n = poldegree(D), k = 64, list);
  while (1,
    list = quotients(root(D, k), Mod(1, characteristic(D)) * x^k, k, most + 1, a -> poldegree(a) == n / 2);
    if (#list == most + 1 || (#list > 1 && poldegree(list[#list]) == n / 2), return(list));
    k *= 2);
};

\\ The product of [a, 1; 1, 0] over list[from .. to]: its columns are the last two convergents.
continuant(list, from, to) =
{
  my(middle = (from + to) \ 2);
  if (from > to, return(matid(2)));
  if (from == to, return([list[from], 1; 1, 0]));
  continuant(list, from, middle) * continuant(list, middle + 1, to);
};

\\ p^2 - D s^2.
norm2(D, p, s) = p^2 - D * s^2;

\\ The convergent [p, s] of list[1 .. m], divided by the leading coefficient of its p.
monicpair(list, m) = { my(C = continuant(list, 1, m)); [C[1, 1], C[2, 1]] / pollead(C[1, 1]) };

\\ The [p, s] of least degree with s monic and p^2 - D s^2 constant, up to deg p = R; [] where there is none. Every s is tried, against
\\ the root of D s^2, which is monic too. A constant times s has that constant times the root beside it.
least(D, q, R) =
{
  my(n = poldegree(D), s, e, p);
  for (j = 0, R - n / 2,
    for (i = 0, q^j - 1,
      s = (x^j + Pol(digits(i, q))) * Mod(1, q);
      e = D * s^2; p = root(e, 0);
      if (poldegree(p^2 - e) <= 0, return([p, s]))));
  [];
};

\\ The module spanned by the columns of M over 1, sqrt(D), as [S, Q, P] with basis S*Q, S*(P + sqrt(D)).
ideal(M) =
{
  my(H = mathnf(M), S = pollead(H[2, 2])^-1 * H[2, 2], Q, P);
  Q = monic(H[1, 1] / S);
  P = (H[1, 2] / pollead(H[2, 2])) / S % Q;
  [S, Q, P];
};

\\ The product of two ideals, spanned by the products of their bases.
times(D, I1, I2) =
{
  my([Q, P] = I1, [T, U] = I2);
  ideal([Q * T, Q * U, T * P, P * U + D; 0, Q, T, P + U]);
};

\\ The first ideal of degree at most g in the expansion of (P + sqrt(D)) / Q. With the convergent A / B before it,
\\ t = (Q*A - P*B) + B*sqrt(D) has norm +-Q*(the new Q), and the new ideal is t/Q times the old. Answers it with deg t - deg Q.
reduced(D, ideal1) =
{
  my([Q, P] = ideal1, q = characteristic(D), g = poldegree(D) / 2 - 1, k = 8 * g + 8, r = root(D, k), list, C, G, B, t, next1);
  if (poldegree(Q) <= g, return([Q, P, 0]));
  list = quotients(P * x^k + r, Q * x^k, k, 4 * g + 4, a -> 0);
  for (j = 1, #list,
    C = continuant(list, 1, j) * Mod(1, q);
    B = C[2, 1];
    G = Q * C[1, 1] - P * B;
    if (poldegree(norm2(D, G, B)) - poldegree(Q) <= g,
      t = poldegree(G * x^k + B * r) - k;
      next1 = ideal([G * Q, G * P + B * D; B * Q, G + B * P]);
      \\ t times the old ideal is Q times the new ideal
      if (next1[1] != Q, error("reduced"));
      return([next1[2], next1[3], t - poldegree(Q)])));
  error("reduced");
};

\\ An ideal: g + 1 and g coefficients below q, Q monic, deg P < deg Q, Q divides D - P^2.
isideal(D, q, c, e) =
{
  my(g = poldegree(D) / 2 - 1, Q, P);
  if (#c != g + 1 || #e != g, return(0));
  if (vecmax(concat(c, e)) >= q, return(0));
  Q = poly(c, q); P = poly(e, q);
  Q != 0 && pollead(Q) == 1 && poldegree(P) < poldegree(Q) && (D - P^2) % Q == 0;
};
