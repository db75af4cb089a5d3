\\ The jobs of ideals_at.txt and their expected answers: request R-5, the ideal at or below a distance. ideals_at()
\\ prints the file. Nothing here halves y, and nothing steps from an ideal to the next by P and Q. Three methods
\\ answer a job, as many as reach it, and must agree:
\\ - near: Euclid's algorithm on the series of sqrt(D) as far as y, past R too;
\\ - turned: the same as far as y modulo R, where the quasi-period is within reach, the distances raised by the rest;
\\ - far: repeated squares of one ideal as modules in Hermite normal form, as many of them multiplied as y has room
\\   for, then Euclid's algorithm on the series of (P + sqrt(D)) / Q. A distance is the degree of a generator.
read("half.gp");

\\ y up to which near answers, and quasi-periods up to which turned does.
within = 600; reach = 1300;

\\ [Q, P, distance, next] of the last convergent p of sqrt(D) with a degree of at most y, from its partial quotients:
\\ the ideal spanned by p + s*sqrt(D), the degree of p and that of the next p. Q is also the norm, made monic.
convergent(D, list, y) =
{
  my(i = 0, delta = 0, C, p, s, I1);
  while (delta + poldegree(list[i + 1]) <= y, i++; delta += poldegree(list[i]));
  C = continuant(list, 1, i) * Mod(1, characteristic(D)); p = C[1, 1]; s = C[2, 1];
  I1 = ideal([p, D * s; s, p]);
  if (I1[1] != 1 || I1[2] != monic(norm2(D, p, s)) || poldegree(p) != delta, error("not the ideal of the convergent"));
  [I1[2], I1[3], delta, delta + poldegree(list[i + 1])];
};

near(D, y) =
{
  my(k = 2 * (y + poldegree(D)));
  convergent(D, quotients(root(D, k), Mod(1, characteristic(D)) * x^k, k, y + 2, a -> 0), y);
};

\\ R where the quasi-period is within reach, else 0.
regulator(D) =
{
  my(list = expand(D, reach));
  if (#list > 1 && poldegree(list[#list]) == poldegree(D) / 2, sum(j = 1, #list - 1, poldegree(list[j])));
};

turned(D, R, y) = { my(v = convergent(D, expand(D, reach), y % R)); v[3] += y - y % R; v[4] += y - y % R; v };

\\ The product of two ideals with their distances, reduced. The distances' sum is the degree of the product's
\\ generator; it is divided by S and multiplied by the reduction's t/Q.
multiplied(D, I1, I2) =
{
  my(T = times(D, I1[1 .. 2], I2[1 .. 2]), K = reduced(D, T[2 .. 3]));
  [K[1], K[2], I1[3] + I2[3] + K[3] - poldegree(T[1])];
};

\\ The ideal of the first convergent, its square, the square of that, .. up to the first distance above 2^40.
squares = Map();
squaresof(D) =
{
  my(list, next1);
  if (mapisdefined(squares, D, &list), return(list));
  list = List([near(D, poldegree(D) / 2)[1 .. 3]]);
  while (list[#list][3] <= 2^40,
    next1 = multiplied(D, list[#list], list[#list]);
    if (next1[3] <= list[#list][3], error("the squares do not rise"));
    listput(list, next1));
  mapput(squares, D, list);
  list;
};

\\ From an ideal with a distance of at most y to [Q, P, distance, next]. With a convergent A / B of (P + sqrt(D)) / Q,
\\ (Q*A - P*B) + B*sqrt(D) over Q takes the ideal to a later one, and its degree is what the distance rises by.
onward(D, I1, y) =
{
  my([Q, P, delta] = I1, k = 2 * (y - delta + poldegree(D)), r = root(D, k), list, C, G, B, t = 0, G1, B1, t1, next1);
  list = quotients(P * x^k + r, Q * x^k, k, y - delta + 2, a -> 0);
  for (j = 1, #list,
    C = continuant(list, 1, j) * Mod(1, characteristic(D));
    B1 = C[2, 1]; G1 = Q * C[1, 1] - P * B1;
    t1 = poldegree(G1 * x^k + B1 * r) - k - poldegree(Q);
    if (delta + t1 > y && j == 1, return([Q, P, delta, delta + t1]));
    if (delta + t1 > y,
      next1 = ideal([G * Q, G * P + B * D; B * Q, G + B * P]);
      \\ G + B*sqrt(D) times the old ideal is Q times the new one
      if (next1[1] != Q, error("onward"));
      return([next1[2], next1[3], delta + t, delta + t1]));
    [G, B, t] = [G1, B1, t1]);
  error("onward");
};

far(D, y) =
{
  my(list = squaresof(D), g = poldegree(D) / 2 - 1, I1 = concat(one(characteristic(D)), [0]), next1);
  forstep (i = #list, 1, -1,
    while (I1[3] + list[i][3] - 2 * g <= y,
      next1 = multiplied(D, I1, list[i]);
      if (next1[3] > y || next1[3] <= I1[3], break);
      I1 = next1));
  onward(D, I1, y);
};

\\ The methods that reach y.
ideal_at(D, y) =
{
  my(v = far(D, y), R = regulator(D));
  if (y <= within && near(D, y) != v, error("near and far differ"));
  if (R && turned(D, R, y) != v, error("turned and far differ"));
  v;
};

\\ ---- jobs

\\ No job twice.
asked = Map();
idealjob(w, y) =
{
  my(r = refusal(w), n, v);
  if (mapisdefined(asked, [w, y]), return);
  mapput(asked, [w, y], 1);
  if (!r && y > 2^40, r = 10);
  if (r, line(concat([[#w], w, halves(y), [r, 0, 0, 0, 0, 0, 0]])); return);
  n = value(w[2]);
  v = ideal_at(poly([value(u) | u <- w[3 .. n + 3]], value(w[1])), y);
  line(concat([[#w], w, halves(y), [0], sized(v[1]), sized(v[2]), halves(v[3]), halves(v[4])]));
};

\\ Budgets have no effect: none, few, the most.
budget() = [0, 0, 1, 2, 9, 300, top][1 + random(7)];
ideals(q, c, list) = foreach (list, y, idealjob(ticket(q, c, budget()), y));

\\ y about 0, the first distance past it, R, 2R and 2^40; some on the last turn.
aboutturn(q, c, most) =
{
  my(R = regulator(poly(c, q)), n = #c - 1, last, any);
  if (!R, error("R is not within reach"));
  last = 2^40 \ R * R;
  ideals(q, c, [random(n / 2), n / 2, R - 1, R, R + random(n / 2)]);
  any = [n / 2 - 1, n / 2 + 1, 2 * R - 1, 2 * R, 2 * R + n / 2, last - 1, last, 2^40, 2^40 - 1, 2^40 - R];
  ideals(q, c, vecextract(any, vecsort(vector(most, i, 1 + random(#any)), , 8)));
  ideals(q, c, [random(R), R + random(R), random(2^40)]);
};

\\ y and some of its halves, which check.py passes on its way to y.
halvesof(q, c, y, shifts) = ideals(q, c, [y >> k | k <- shifts]);

ideals_at() =
{
  my(q, n, h, c, y, R = 7, last = 2^40 \ R * R, printed1 = [1, 1, 0, 0, 1]);
  setrand(7);
  \\ the printed example, R = 7 and m = 6: every y on two turns and a part, budgets about m, the ends of the range
  for (y = 0, 17, idealjob(ticket(3, printed1, [0, 6, top, 5][1 + y % 4]), y));
  foreach ([0, 1, 5, 6, 7, top], b, foreach ([2, 11, 2^40], y, idealjob(ticket(3, printed1, b), y)));
  ideals(3, printed1, concat([last - 2 .. last + 2], [100 * R, 2^32 - 1, 2^32, 2^32 + 1, 2^40 - 1, 2^40 - R]));
  foreach ([2^40 + 1, 2^40 + 2, 2^40 + R, 2^41, 2^42 - 1, 2^63, 2^64 - 2^40, 2^64 - 1], y,
    foreach ([0, 6], b, idealjob(ticket(3, printed1, b), y)));
  \\ n = 2: every number is a distance, every ideal is (1)
  foreach ([3, 5, 4093], q, ideals(q, someD(q, 2), [0, 1, 2, 3, 1000, random(2^40), 2^40 - 1, 2^40, 2^40 + 1]));
  \\ m = 1: the distances are the multiples of n/2
  aboutturn(5, [2, 0, 0, 0, 1], 9);
  foreach ([[3, 4], [5, 6], [101, 8], [4093, 16], [7, 32], [4093, 64]], v,
    [q, n] = v; ideals(q, periodD(q, n, 1), [n / 2 - 1, n / 2, n - 1, n, random(2^40), 2^40]));
  \\ m = 2 and 3
  foreach ([[3, 4], [5, 6], [101, 8], [1009, 12], [4093, 4]], v,
    for (m = 2, 3, aboutturn(v[1], periodD(v[1], v[2], m), 2)));
  \\ any D with R within reach
  forstep (i = 2, #small, 2,
    [q, n, h] = small[i]; if (n > 2, c = someD(q, n); if (regulator(poly(c, q)), aboutturn(q, c, 3))));
  \\ short quasi-periods at large degrees: many degrees between one distance and the next
  forstep (n = 6, 30, 4, q = primes1[1 + random(10)]; aboutturn(q, shortD(q, n, random(n / 2)), 2));
  foreach ([[3, 36, 4], [4093, 48, 9], [31, 64, 3], [4091, 64, 12]], v,
    [q, n, h] = v; c = shortD(q, n, h); R = regulator(poly(c, q));
    ideals(q, c, [random(R), R - 1, R, R + n / 2 - 1, 2^40 \ R * R]));
  \\ R far out of reach: the first distances, then 2^40 or a random y, and some of its halves
  foreach ([[4093, 64], [3, 64], [1009, 32], [3, 32], [5, 20], [101, 20], [4091, 12], [13, 12], [4093, 8], [3, 22]], v,
    [q, n] = v; c = someD(q, n);
    ideals(q, c, [n / 2 - 1, n / 2, n / 2 + 1, n - 1, 100]);
    y = if (v == [4093, 64] || n == 20, 2^40, random([2^39, 2^40]));
    halvesof(q, c, y, if (n > 40, [0, 1, 24], [0, 1, 5, 16, 30])));
  turns();
  idealrefusals();
};

\\ The number J of points of the Jacobian of y^2 = D, of genus n/2 - 1, is a multiple of R: the difference of the two
\\ points at infinity has the order R in it. So the ideal at the distance J is (1), however far R is out of reach.
turns() =
{
  my(q, n, c, D, J);
  \\ the first is the D of long.txt
  foreach ([[1009, 6], [4093, 6], [1009, 8], [101, 10], [31, 14], [3, 32], [3, 50]], v,
    [q, n] = v; c = if (v == [1009, 6], [261, 894, 850, 250, 513, 639, 1], someD(q, n));
    D = poly(c, q); J = subst(hyperellcharpoly(D), x, 1);
    if (far(D, J) != concat(one(q), [J, J + n / 2]), error("not (1)"));
    ideals(q, c, [J - 1, J, J + n / 2]));
};

\\ Each refusal with y allowed, just not allowed and the largest; 10 comes after 1 to 7.
idealrefusals() =
{
  my(q, c, w, h, e, good = ticket(3, [1, 1, 0, 0, 1], 0), seven = ticket(5, [2, 0, 1], 1));
  my(long = ticket(4093, periodD(4093, 64, 1), 0));
  my(all1 = (w -> foreach ([0, 9, 2^40, 2^40 + 1, 2^64 - 1], y, idealjob(w, y))));
  my(some = (w -> idealjob(w, random(20)); idealjob(w, if (random(2), 2^40 + 1 + random(5), 2^64 - 1 - random(5)))));
  \\ one of each number
  all1([]); all1(seven[1 .. 6]); w = good; w[1] = word(2, 3); all1(w);
  w = good; w[1] = word(1, 9); all1(w); w = good; w[2] = word(2, 5); all1(w);
  all1(good[1 .. 8]); w = good; w[9] = word(15, 9); all1(w);
  all1(ticket(3, [1, 3, 0, 0, 1], 0)); all1(ticket(3, [1, 1, 0, 0, 2], 0)); all1(ticket(3, [1, 0, 2, 0, 1], 0));
  \\ the kinds of the words, 13 among them; counts; the ticket at several primes
  for (i = 1, #good, foreach ([0, 13], k, if (k != kind(good[i]), w = good; w[i] = word(k, value(good[i])); some(w))));
  foreach ([1, 2, 5], k, some(seven[1 .. k]));
  foreach ([seven, long], u, all1(u); some(u[1 .. #u - 1]); some(concat(u, [u[#u]])));
  foreach ([-1, 1], k, w = seven; w[#w] += k; some(w));
  some(together([-71, -96, 10, 0, 1], 7, [5, 7]));
  \\ 2: what is not an odd prime below 4,096, and primes beside
  foreach ([0, 1, 2, 4, 7, 25, 4087, 4091, 4093, 4096, 4099, top], q, w = good; w[1] = word(1, q); some(w));
  \\ 3: odd n, 0, 66, with n + 5 words where that is 7 or more
  foreach ([0, 1, 3, 63, 65, 66], n,
    w = ticket(3, concat(vector(n), [1]), 6); while (#w < 7, w = concat(w, [0])); some(w));
  \\ 5 and 6: a coefficient and the leading one
  foreach ([3, 4093], q, foreach ([0, 2, q - 1, q, top], v, foreach ([1, 5], i,
    c = [1, 1, 0, 0, 1]; c[i] = v; some(ticket(q, c, 2)))));
  \\ one fault more each time: the first number counts
  w = good;
  foreach ([[4, word(3, 7)], [7, word(3, 2)], [9, word(15, 9)], [2, word(2, 3)], [1, word(1, 2)], [1, word(0, 2)]], v,
    w[v[1]] = v[2]; some(w));
  \\ 7: a square, with D + 1 beside it
  foreach ([2, 8, 16, 64], n,
    q = primes1[1 + random(10)];
    h = poly(concat(chance(1 + random(n / 2), q), [1]), q); e = poly(concat(chance(n - 2 * poldegree(h), q), [1]), q);
    c = numbers(h^2 * e); some(ticket(q, c, 1));
    c[1] = (c[1] + 1) % q; some(ticket(q, c, 1)));
};
