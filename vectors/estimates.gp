\\ The jobs of estimates.txt and their expected answers: request R-7, the estimate of the class number. estimates() prints
\\ the file. Two methods, in rational numbers, must agree:
\\ - product: q / (q - chi) over the polynomials x - e, chi the quadratic symbol of D modulo x - e, by Kronecker's symbol;
\\ - points: a + t from the greatest common divisor of D and x^q - x, a - t from the number of points of the curve
\\   y^2 = D over F_q, which the characteristic polynomial of its Frobenius tells. No value of D is asked for.
read("make.gp");

\\ The quadratic symbols of D modulo x - e for all e: 1, -1 or 0.
symbols(D, q) = [kronecker(lift(polcoef(D % (x - e), 0)), q) | e <- [0 .. q - 1]];

\\ E' for w = 1 as source 000 writes it.
product(D, q, g) = q^(g + 1) / (q - 1) * vecprod([q / (q - chi) | chi <- symbols(D, q)]);

\\ [a, t]. The curve of genus g has q + 1 + s points, s the coefficient of x^(2g-1); without it, g = 0, s is 0. Two of the
\\ points are at infinity, as D is monic of even degree; each e has 1 + chi. So s + 1 is 2 + a - t.
points(D, q, g) =
{
  my(both = q - poldegree(gcd(D, x^q - x)), difference = polcoef(hyperellcharpoly(D), 2 * g - 1) - 1);
  [both + difference, both - difference] / 2;
};

\\ [number, numerator, denominator, nearest]: 15 where q is above 13 or n above 8, after 1 to 7.
estimate(w) =
{
  my(r = refusal(w), q, n, g, D, a, t, N, M, E);
  if (r, return([r, 0, 0, 0]));
  q = value(w[1]); n = value(w[2]); g = n / 2 - 1;
  if (q > 13 || n > 8, return([15, 0, 0, 0]));
  D = poly([value(v) | v <- w[3 .. n + 3]], q);
  E = product(D, q, g);
  [a, t] = points(D, q, g);
  N = q^(g + 1 + a + t); M = (q - 1)^(a + 1) * (q + 1)^t;
  if (N / M != E, error("the product and the points differ"));
  [0, N, M, floor(E + 1/2)];
};

\\ ---- jobs

\\ No ticket twice.
estimated = Map();
estimatejob(w) =
{
  my(v);
  if (mapisdefined(estimated, w), return);
  mapput(estimated, w, 1);
  v = estimate(w);
  line(concat([[#w], w, [v[1]], halves(v[2]), halves(v[3]), halves(v[4])]));
};

\\ Budgets have no effect: none, few, the most.
estimateD(q, c) = estimatejob(ticket(q, c, [0, 1, 2, 40, top][1 + random(5)]));

\\ A random polynomial that is zero at k elements or more.
zeros(q, n, k) =
  numbers(vecprod([x - e | e <- numtoperm(q, random(q!))[1 .. k]]) * poly(concat(chance(n - k, q), [1]), q));

\\ A random D with one symbol at every element.
sameD(q, n, chi) =
{
  my(c);
  until (nosquare(c, q), until (symbols(poly(c, q), q) == vector(q, e, chi), c = concat(chance(n, q), [1])));
  c;
};

\\ Every D over F_q of degree n that f divides and that has no square factor.
everyD(q, n, f) =
{
  my(k = n - poldegree(f), c);
  for (i = 0, q^k - 1,
    c = numbers(Mod(1, q) * f * (x^k + Pol(digits(i, q))));
    if (nosquare(c, q), estimateD(q, c)));
};

\\ Of many random D, with few zeros and with many, one for each a and t.
eachpair(q, n) =
{
  my(seen = Map(), c, v);
  for (k = 0, min(q, n), for (try = 1, 300,
    c = zeros(q, n, k); v = vecsort(symbols(poly(c, q), q));
    if (!mapisdefined(seen, v) && nosquare(c, q), mapput(seen, v, 1); estimateD(q, c))));
};

estimates() =
{
  setrand(8);
  \\ the printed example, and a D with the largest q and n: the budget has no effect
  foreach ([[3, [1, 1, 0, 0, 1]], [13, someD(13, 8)]], v,
    foreach ([0, 1, 5, 6, 7, 300, top - 1, top], b, estimatejob(ticket(v[1], v[2], b))));
  \\ every D over F_3 of degrees 2 and 4; those of degrees 6 and 8 that are zero at every element, with the estimates 27/2
  \\ and 81/2: no other is an exact half, as N/M is in lowest terms (q is prime to q - 1 and q + 1) and M is 2 here alone
  foreach ([2, 4], n, everyD(3, n, 1));
  foreach ([6, 8], n, everyD(3, n, x^3 - x));
  foreach ([3, 5, 7, 11, 13], q, foreach ([2, 4, 6, 8], n,
    eachpair(q, n);
    for (i = 1, 3, estimateD(q, someD(q, n)))));
  \\ the smallest and the largest: t = q and a = q, for each q and n that has such a D
  foreach ([[3, 4], [3, 6], [3, 8], [5, 4], [5, 6], [5, 8], [7, 6], [7, 8], [11, 6], [11, 8], [13, 6], [13, 8]], v,
    for (i = 1, 2, estimateD(v[1], sameD(v[1], v[2], -1))));
  foreach ([[3, 6], [3, 8], [5, 6], [5, 8], [7, 6], [7, 8], [11, 6], [11, 8], [13, 8]], v,
    for (i = 1, 2, estimateD(v[1], sameD(v[1], v[2], 1))));
  toolarge();
  estimaterefusals();
};

\\ A random D of degree n with a square factor, and D + 1.
squareandmore(q, n) =
{
  my(h = poly(concat(chance(1 + random(n / 2), q), [1]), q), c);
  c = numbers(h^2 * poly(concat(chance(n - 2 * poldegree(h), q), [1]), q)); estimateD(q, c);
  c[1] = (c[1] + 1) % q; estimateD(q, c);
};

\\ 15; 7, 6, 5, 4, 3 and 2 come before it.
toolarge() =
{
  my(q, n, c, w);
  foreach ([[17, 2], [17, 8], [17, 10], [17, 64], [4093, 2], [4093, 8], [4093, 10], [4093, 64], [3, 10], [3, 12], [3, 64],
    [13, 10], [13, 12], [13, 64], [19, 4], [11, 10], [4091, 6]], v,
    [q, n] = v; c = someD(q, n); estimateD(q, c);
    squareandmore(q, n);
    c[n + 1] = 2; estimateD(q, c);
    c[1 + random(n)] = q; estimateD(q, c);
    w = ticket(q, c, 0); w[#w] += 1; estimatejob(w));
  foreach ([9, 11, 65, 66], n, estimateD(17, concat(vector(n), [1])));
  foreach ([15, 21, 4095, 4096, 4099, top], q, estimateD(q, [2, 1, 1]));
};

\\ Each refusal of 1 to 7 beside tickets that just escape it.
estimaterefusals() =
{
  my(c, w, good = ticket(3, [1, 1, 0, 0, 1], 3), seven = ticket(5, [2, 0, 1], 1), long = ticket(13, someD(13, 8), 0));
  \\ 1 and 4: counts, and the kinds of the words, 13 among them; the ticket at several primes
  for (k = 0, 6, estimatejob(seven[1 .. k]));
  for (i = 1, #good, foreach ([0, 3, 13, 15], k,
    if (k != kind(good[i]), w = good; w[i] = word(k, value(good[i])); estimatejob(w))));
  foreach ([good, seven, long], u,
    estimatejob(u); estimatejob(u[1 .. #u - 1]); estimatejob(concat(u, [u[#u]])); estimatejob(concat(u, [0]));
    foreach ([-1, 1], k, w = u; w[#w] += k; estimatejob(w)));
  estimatejob(together([-71, -96, 10, 0, 1], 7, [5, 7]));
  \\ 2: what is not an odd prime, and primes beside
  foreach ([0, 1, 2, 4, 5, 6, 7, 8, 9, 10, 11, 12, 13, 14, 15, 16, 25], q, w = good; w[1] = word(1, q); estimatejob(w));
  \\ 3: odd n, 0, 66 and more, with n + 5 words where that is 7 or more
  foreach ([0, 1, 3, 5, 7, 9, 65, 66, 128], n,
    w = ticket(3, concat(vector(n), [1]), 6); while (#w < 7, w = concat(w, [0])); estimatejob(w));
  \\ 5 and 6: a coefficient and the leading one
  foreach ([3, 7, 13], q, foreach ([0, 2, q - 1, q, q + 1, 4096, top], v, foreach ([1, 5], i,
    c = [1, 1, 0, 0, 1]; c[i] = v; estimatejob(ticket(q, c, 2)))));
  \\ one fault more each time: the first number counts
  w = good;
  foreach ([[4, word(3, 7)], [7, word(3, 2)], [9, word(15, 9)], [2, word(2, 3)], [1, word(1, 2)], [1, word(0, 2)]], v,
    w[v[1]] = v[2]; estimatejob(w));
  \\ 7, beside D + 1; the derivative may be zero
  foreach ([3, 5, 7, 11, 13], q, foreach ([2, 4, 6, 8], n, squareandmore(q, n)));
  c = [1, 0, 0, 2, 0, 0, 1]; estimateD(3, c); c[2] = 1; estimateD(3, c);
};
