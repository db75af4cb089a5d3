\\ The jobs of half.txt and their expected answers: request R-2, half the walk. half() prints the file. Nothing here
\\ goes by the middle of the walk: the whole quasi-period is expanded by Euclid's algorithm on the series of sqrt(D),
\\ as for the other files.
read("make.gp");

\\ No less than any quasi-period below.
longest = 21000;

\\ [number, three values]: 0 R m 0 where m is at most twice the budget b; 11 b e 0, e the degrees of a_0 to a_(b-1),
\\ where it is not.
halfanswer(w) =
{
  my(r = refusal(w), n, D, b, list, m, C);
  if (r, return([r, 0, 0, 0]));
  n = value(w[2]); b = value(w[n + 4]);
  D = poly([value(v) | v <- w[3 .. n + 3]], value(w[1]));
  list = expand(D, min(2 * b + 1, longest));
  m = if (poldegree(list[#list]) == n / 2 && #list > 1, #list - 1, 0);
  if (m && m <= 2 * b,
    C = continuant(list, 1, m);
    if (poldegree(norm2(D, C[1, 1], C[2, 1])) != 0, error("the norm is not constant"));
    return([0, poldegree(C[1, 1]), m, 0]));
  if (!m && #list <= 2 * b, error("neither found nor spent"));
  [11, b, sum(j = 1, b, poldegree(list[j])), 0];
};

\\ No ticket twice.
halved = Map();
halfjob(w) =
{
  if (mapisdefined(halved, w), return);
  mapput(halved, w, 1);
  line(concat([[#w], w, halfanswer(w)]));
};

\\ Budgets about half the quasi-period m of D: where m is even m = 2b, 2b + 2 and 2b - 2, else 2b + 1, 2b + 3 and
\\ 2b - 1.
abouthalf(q, c) =
{
  my(m = halfanswer(ticket(q, c, top))[3]);
  if (!m, error("no quasi-period"));
  foreach ([m \ 2, m \ 2 - 1, m \ 2 + 1], b, if (b >= 0, halfjob(ticket(q, c, b))));
  if (random(3) == 0, halfjob(ticket(q, c, 0)));
  if (random(4) == 0, halfjob(ticket(q, c, top)));
  if (random(4) == 0, halfjob(ticket(q, c, m + random(2))));
};

\\ As shortD, with the quasi-period m.
periodD(q, n, m) = { my(c); until (halfanswer(ticket(q, c, m))[3] == m, c = shortD(q, n, m - 1)); c };

\\ The expansion of sqrt(D) to the end of the quasi-period, from the series to x^-k: Euclid's algorithm on leading
\\ parts, as many quotients at a time as they tell, for quasi-periods of thousands.
leading(f, s) = Pol(Vec(f)[1 .. poldegree(f) + 1 - s]);
longexpansion(D, k) =
{
  my(n = poldegree(D), u = root(D, k), v = Mod(1, characteristic(D)) * x^k, list = List(), degree = 0, s, part, M);
  while (1,
    s = max(poldegree(v) - 600, 0);
    part = quotients(leading(u, s), leading(v, s), 2 * poldegree(v) - poldegree(u) - s, k, a -> 0);
    for (j = 1, #part,
      if (#list, degree += poldegree(part[j]));
      if (2 * degree > k, error("the series is too short"));
      listput(list, part[j]);
      if (#list > 1 && poldegree(part[j]) == n / 2, return(Vec(list))));
    M = continuant(part, 1, #part);
    [u, v] = (-1)^#part * [M[2, 2] * u - M[1, 2] * v, M[1, 1] * v - M[2, 1] * u]);
};

\\ D, found by search, with a quasi-period about 20,000: the least budget that finds it, and one less.
longhalf(q, c, k) =
{
  my(D = poly(c, q), m);
  mapput(known, D, longexpansion(D, k));
  m = #expand(D, longest) - 1;
  foreach ([(m + 1) \ 2, (m - 1) \ 2], b, halfjob(ticket(q, c, b)));
};

half() =
{
  my(q, n, h);
  setrand(6);
  \\ the printed example with every budget to 8 and the largest; m = 1
  foreach ([0, 1, 2, 3, 4, 5, 6, 7, 8, top], b, halfjob(ticket(3, [1, 1, 0, 0, 1], b)));
  abouthalf(3, [1, 0, 1]); abouthalf(5, [2, 0, 0, 0, 1]);
  \\ m = 1, 2 and 3 in small and large fields and degrees
  foreach ([[3, 4], [5, 6], [7, 4], [101, 8], [1009, 12], [4093, 4], [4093, 32], [4091, 64]], v, for (m = 1, 3, abouthalf(v[1], periodD(v[1], v[2], m))));
  \\ n = 2: m is 1
  foreach ([3, 5, 31, 1009, 4093], q, abouthalf(q, someD(q, 2)));
  \\ any D, with quasi-periods of up to some thousands
  for (i = 2, #small, [q, n, h] = small[i]; if (n > 2, for (j = 1, min(h, 2), abouthalf(q, someD(q, n)))));
  \\ every degree with a short quasi-period, also where q is large
  forstep (n = 4, 64, 4, q = primes1[1 + random(10)]; abouthalf(q, shortD(q, n, random(n / 2))));
  for (r = 2, 9, abouthalf(4093, shortD(4093, 20, r)));
  \\ spent long before the middle
  foreach ([0, 1, 2, 3, 20, 60], b, foreach ([[4093, 64], [1009, 32], [3, 64]], v, halfjob(ticket(v[1], someD(v[1], v[2]), b))));
  foreach ([[5, 48], [7, 40], [4091, 12], [2039, 8], [4093, 6]], v, halfjob(ticket(v[1], someD(v[1], v[2]), 250)));
  \\ long ones: two by the test of P, two by that of Q
  longhalf(149, [96, 20, 40, 108, 55, 21, 1], 43000);
  longhalf(29, [19, 13, 9, 12, 6, 0, 20, 14, 1], 43000);
  longhalf(13, [8, 2, 11, 5, 12, 1, 9, 1, 0, 1, 1], 43000);
  longhalf(3, [2, 1, 0, 1, 2, 1, 1, 1, 1, 2, 2, 2, 1, 1, 0, 1, 2, 1, 1, 1, 1], 61000);
  halfrefusals();
};

\\ Each refusal beside tickets that just escape it.
halfrefusals() =
{
  my(q, c, w, h, e, good = ticket(3, [1, 1, 0, 0, 1], 3), seven = ticket(5, [2, 0, 1], 1), long = ticket(4093, shortD(4093, 64, 5), 3));
  \\ 1 and 4: counts, and the kinds of the words, 13 among them; the ticket at several primes
  for (k = 0, 6, halfjob(seven[1 .. k]));
  for (i = 1, #good, foreach ([0, 3, 13, 15], k, if (k != kind(good[i]), w = good; w[i] = word(k, value(good[i])); halfjob(w))));
  foreach ([good, seven, long], u,
    halfjob(u); halfjob(u[1 .. #u - 1]); halfjob(concat(u, [u[#u]]));
    foreach ([-1, 1], k, w = u; w[#w] += k; halfjob(w)));
  halfjob(together([-71, -96, 10, 0, 1], 7, [5, 7]));
  \\ 2: what is not an odd prime below 4,096, and primes beside
  foreach ([0, 1, 2, 4, 7, 9, 25, 3721, 4087, 4091, 4093, 4095, 4096, 4099, top], q, w = good; w[1] = word(1, q); halfjob(w));
  \\ 3: odd n, 0, 66 and more, with n + 5 words
  foreach ([0, 1, 3, 63, 65, 66, 128], n, w = ticket(3, concat(vector(n), [1]), 6); while (#w < 7, w = concat(w, [0])); halfjob(w));
  \\ 5 and 6: a coefficient and the leading one
  foreach ([3, 101, 4093], q, foreach ([0, 2, q - 1, q, 4096, top], v, foreach ([1, 5], i, c = [1, 1, 0, 0, 1]; c[i] = v; halfjob(ticket(q, c, 2)))));
  \\ two faults at once: the first number counts
  w = good; w[4] = word(3, 7); halfjob(w); w[7] = word(3, 2); halfjob(w); w[9] = word(15, 9); halfjob(w); w[2] = word(2, 3); halfjob(w); w[1] = word(1, 2); halfjob(w); w[1] = word(0, 2); halfjob(w);
  \\ 7: a square, with D + 1 beside it; the derivative may be zero
  foreach ([2, 4, 8, 16, 32, 64], n,
    q = primes1[1 + random(10)];
    h = poly(concat(chance(1 + random(n / 2), q), [1]), q); e = poly(concat(chance(n - 2 * poldegree(h), q), [1]), q);
    c = numbers(h^2 * e); halfjob(ticket(q, c, 1));
    c[1] = (c[1] + 1) % q; halfjob(ticket(q, c, 1)));
  foreach ([[3, 6], [5, 10], [31, 62]], v, c = numbers(poly(concat(chance(v[2] / v[1], v[1]), [1]), v[1])^v[1]); halfjob(ticket(v[1], c, 3)); c[2] = 1; halfjob(ticket(v[1], c, 3)));
};
