\\ The jobs of the vectors and their expected answers, as lines of numbers; README.md gives the layout of a line.
\\ Each of regulators(), several(), allowed(), units(), listings(), products() prints one file; samples() compares the sample
\\ answers' listings.
read("series.gp");

line(v) = print(strjoin([Str(t) | t <- v], " "));
word(kind, value) = kind * 2^28 + value;
kind(w) = w \ 2^28;
value(w) = w % 2^28;
top = 2^28 - 1;

\\ ---- tickets and answers

\\ The words for q, the coefficients c of D (constant term first) and the budget b.
ticket(q, c, b) = concat([[word(1, q), word(2, #c - 1)], [word(3, v) | v <- c], [word(4, b), word(15, #c + 3)]]);

\\ No square of a polynomial of degree 1 or more divides D.
nosquare(c, q) = vecmax(factormod(Pol(Vecrev(c)), q)[, 2]) == 1;

\\ The first refusal of 1 to 7, or 0. Primality is PARI's own; a square factor is read off the factorization.
refusal(w) =
{
  my(q, n, c);
  if (#w < 7, return(1));
  if (kind(w[1]) != 1 || kind(w[2]) != 2, return(1));
  q = value(w[1]); n = value(w[2]);
  if (q == 2 || q >= 4096 || !isprime(q), return(2));
  if (n % 2 || n < 2 || n > 64, return(3));
  if (#w != n + 5, return(4));
  if (#[v | v <- w[3 .. n + 3], kind(v) != 3], return(4));
  if (kind(w[n + 4]) != 4 || w[n + 5] != word(15, n + 4), return(4));
  c = [value(v) | v <- w[3 .. n + 3]];
  if (vecmax(c) >= q, return(5));
  if (c[n + 1] != 1, return(6));
  if (!nosquare(c, q), return(7));
  0;
};

\\ Expansions already made, by D: several budgets share one.
known = Map();
expand(D, most) =
{
  my(old);
  if (mapisdefined(known, D, &old) && (#old > most || poldegree(old[#old]) == poldegree(D) / 2 && #old > 1), return(old));
  old = expansion(D, most);
  mapput(known, D, old);
  old;
};

\\ [number, three values]: found R m c is 0 R m c, with c the norm of the monic pair; spent k e is 11 k e 0; a refusal has zeros.
answer(w) =
{
  my(r = refusal(w), n, D, b, list, m, p, s, e);
  if (r, return([r, 0, 0, 0]));
  n = value(w[2]); b = value(w[n + 4]);
  D = poly([value(v) | v <- w[3 .. n + 3]], value(w[1]));
  if (b == 0, return([11, 0, 0, 0]));
  list = expand(D, min(b, 6000));
  m = if (poldegree(list[#list]) == n / 2 && #list > 1, #list - 1, 0);
  if (m && m <= b,
    [p, s] = monicpair(list, m);
    e = norm2(D, p, s);
    if (poldegree(e) != 0, error("the norm is not constant"));
    return([0, poldegree(p), m, lift(polcoef(e, 0))]));
  if (!m && #list <= b, error("neither found nor spent"));
  [11, b, sum(j = 1, b, poldegree(list[j])), 0];
};

\\ ---- choices of D

chance(c, q) = vector(c, i, random(q));

\\ A random D without square factors, as coefficients.
someD(q, n) = { my(c); until (nosquare(c, q), c = concat(chance(n, q), [1])); c };

\\ A D of degree n whose expansion is [d; a_1, .., a_r, 2d, ..] with palindromic a of total degree at most n/2, so that the
\\ quasi-period is at most r + 1 however large q is. D = d^2 + (2*d*t + u)/s with [s, t; t, u] the product of the [a_j, 1; 1, 0].
shortD(q, n, r) =
{
  my(a, M, s, t, u, d, e, c);
  while (1,
    a = vector(r);
    for (j = 1, (r + 1) \ 2, a[j] = poly(concat(chance(1 + (random(4) == 0), q), [1 + random(q - 1)]), q); a[r + 1 - j] = a[j]);
    M = apply(f -> Pol(f * Mod(1, q)), continuant(a, 1, r));
    s = M[1, 1]; t = M[1, 2]; u = M[2, 2];
    e = n / 2 - poldegree(s);
    if (e < 0, next);
    d = ((-1)^r * u * t / 2) % s + s * (poly(concat(chance(e, q), [1]), q) / pollead(s));
    if (poldegree(d) < n / 2, next);
    d = monic(d);
    if ((2 * d * t + u) % s != 0, next);
    c = numbers(d^2 + (2 * d * t + u) / s);
    if (#c == n + 1 && nosquare(c, q), return(c)));
};

\\ [q, n, number of D]: random D with quasi-periods of up to some thousands.
{small = [[3, 2, 2], [3, 4, 7], [3, 6, 5], [3, 8, 5], [3, 10, 4], [3, 12, 2], [3, 14, 1], [3, 16, 1], [5, 2, 1], [5, 4, 6], [5, 6, 4],
  [5, 8, 2], [5, 10, 1], [7, 4, 4], [7, 6, 3], [7, 8, 1], [11, 4, 3], [13, 4, 3], [13, 6, 1], [17, 4, 3], [31, 4, 3], [31, 6, 1],
  [61, 4, 2], [101, 2, 1], [101, 4, 2], [257, 4, 1], [1009, 4, 1], [2039, 4, 1], [4091, 2, 1], [4093, 4, 1]]};
primes1 = [3, 5, 7, 11, 31, 101, 1009, 2003, 4091, 4093];

\\ ---- regulators

job(w) = line(concat([[#w], w, answer(w)]));

\\ Budgets about the quasi-period m of D.
about(q, c) =
{
  my(m = answer(ticket(q, c, top))[3]);
  job(ticket(q, c, m - 1)); job(ticket(q, c, m)); job(ticket(q, c, m + 1));
  if (m > 1, job(ticket(q, c, 0)));
  if (random(4) == 0, job(ticket(q, c, top)));
};

regulators() =
{
  my(c, q, n, h, w);
  setrand(1);
  about(3, [1, 1, 0, 0, 1]); about(3, [1, 0, 1]); about(5, [2, 0, 0, 0, 1]);
  for (i = 1, #small, [q, n, h] = small[i]; for (j = 1, h, about(q, someD(q, n))));
  \\ quasi-periods 1,023 to 1,025 at n = 4, found by search: listings of 8,184, 8,192 and 8,200 words, about the program's 8,192
  about(1999, [989, 1412, 0, 0, 1]); about(1999, [101, 1091, 0, 0, 1]); about(1999, [1808, 1993, 0, 0, 1]);
  \\ every degree with a short quasi-period, also where q is large
  forstep (n = 2, 64, 2, q = primes1[1 + random(10)]; about(q, shortD(q, n, random(n / 2))));
  for (r = 0, 12, about(4093, shortD(4093, 24, r)));
  \\ spent long before the end
  foreach ([0, 1, 2, 3, 7, 20, 60, 200], b, foreach ([[4093, 64], [1009, 32], [101, 20]], v, job(ticket(v[1], someD(v[1], v[2]), b))));
  foreach ([[3, 64], [5, 48], [7, 40], [4091, 12], [2039, 8], [4093, 6]], v, job(ticket(v[1], someD(v[1], v[2]), 500)));
  refusals();
};

\\ Each refusal beside tickets that just escape it.
refusals() =
{
  my(c, w, v, q, good = ticket(3, [1, 1, 0, 0, 1], 6), seven = ticket(5, [2, 0, 1], 1), long = ticket(4093, shortD(4093, 64, 5), 6));
  \\ 1: counts, and the kinds of the first two words
  for (k = 0, 7, job(seven[1 .. k]));
  foreach ([good, seven], u, for (i = 1, #u, foreach ([0, 1, 2, 3, 4, 5, 14, 15], k, if (k != kind(u[i]), w = u; w[i] = word(k, value(u[i])); job(w)))));
  \\ 4: counts and the end word; the longest ticket has 69 words
  foreach ([good, seven, long], u,
    job(u); job(u[1 .. #u - 1]); job(concat(u, [u[#u]])); job(concat(u, [0]));
    foreach ([-1, 1], k, w = u; w[#w] += k; job(w);
      w = concat(u[1 .. #u - 1], [word(15, value(u[#u]) + k)]); if (k > 0, w = concat(w, [w[#w]])); job(w)));
  \\ 2: what is not an odd prime below 4,096, and primes beside
  foreach ([0, 1, 2, 3, 4, 5, 6, 7, 8, 9, 15, 21, 25, 27, 49, 91, 121, 127, 1024, 3481, 3721, 3969, 4033, 4061, 4087, 4089, 4091, 4092, 4093, 4095, 4096, 4097, 4099, 8191, 65537, top],
    q, w = good; w[1] = word(1, q); job(w));
  \\ 3: odd n, 0, 1, 66 and more, each with n + 5 words where that is 7 or more
  foreach ([0, 1, 3, 5, 63, 65, 66, 67, 68, 128, top], n, w = good; w[2] = word(2, n); job(w);
    if (n < 129, w = ticket(3, concat(vector(n), [1]), 6); job(w); while (#w < 7, w = concat(w, [0])); job(w)));
  \\ 5 and 6: the leading coefficient and the others
  foreach ([3, 5, 101, 4093], q, foreach ([0, 1, 2, q - 1, q, q + 1, 4095, 4096, top], v,
    for (i = 1, 5, if (v == q || v == q - 1 || i == 5, c = [1, 1, 0, 0, 1]; c[i] = v; job(ticket(q, c, 0))))));
  \\ two faults at once: the first number counts
  job(concat([[word(1, 9), word(2, 5)], good[3 .. 9]]));
  job(concat([[word(2, 9), word(2, 5)], good[3 .. 9]]));
  job(concat([[word(1, 3), word(2, 5)], good[3 .. 9]]));
  w = good; w[4] = word(3, 7); job(w); w[7] = word(3, 2); job(w); w[9] = word(15, 9); job(w); w[2] = word(2, 3); job(w); w[1] = word(1, 2); job(w); w[1] = word(0, 2); job(w);
  job(ticket(3, [1, 0, 2, 0, 2], 6)); job(ticket(3, [0, 0, 0, 0, 3], 6)); job(ticket(3, [0, 3, 0, 0, 2], 6)); job(ticket(3, [0, 0, 0, 0, 1], 6));
  \\ 7: a square at every degree, with D + 1 beside it; the derivative may be zero
  job(ticket(3, [1, 0, 2, 0, 1], 6));
  forstep (n = 2, 64, 2,
    q = primes1[1 + random(10)];
    my(h = poly(concat(chance(1 + random(n / 2), q), [1]), q), e = poly(concat(chance(n - 2 * poldegree(h), q), [1]), q));
    c = numbers(h^2 * e); job(ticket(q, c, 1));
    c[1] = (c[1] + 1) % q; job(ticket(q, c, 1)));
  foreach ([[3, 6], [3, 12], [3, 18], [3, 36], [5, 10], [5, 20], [7, 14], [11, 22], [31, 62]], v,
    c = numbers(poly(concat(chance(v[2] / v[1], v[1]), [1]), v[1])^v[1]);
    job(ticket(v[1], c, 3)); c[2] = 1; job(ticket(v[1], c, 3)));
  job(ticket(3, [1, 0, 0, 0, 0, 0, 1], 9)); job(ticket(3, [1, 1, 0, 0, 0, 0, 1], 9)); job(ticket(3, [1, 0, 0, 1, 0, 0, 1], 9)); job(ticket(3, [0, 0, 0, 0, 0, 0, 1], 9));
};

\\ ---- several primes: request R-1

\\ The words for the integer coefficients c of D (constant term first), the budget b and the primes of a list.
together(c, b, list) = concat([[word(2, #c - 1)], [word(12, v % 2^28) | v <- c], [word(4, b)], [word(1, q) | q <- list], [word(15, #c + 2 + #list)]]);

\\ 14 or 3, or 0.
shape(w) =
{
  my(n, k);
  if (#w == 0, return(14));
  n = value(w[1]); k = #w - n - 4;
  if (k < 1 || k > 16, return(14));
  if ([kind(v) | v <- w] != concat([[2], vector(n + 1, i, 12), [4], vector(k, i, 1), [15]]), return(14));
  if (value(w[#w]) != #w - 1, return(14));
  if (n % 2 || n < 2 || n > 64, return(3));
  0;
};

\\ The integer of a word of kind 12; the answer of the single job at q.
integer(w) = if (bittest(w, 27), value(w) - 2^28, value(w));
at(q, c, b) = if (isprime(q), answer(ticket(q, [v % q | v <- c], b)), [2, 0, 0, 0]);

outcomes(w) =
{
  my(r = shape(w), n, c);
  if (r, return([[r, 0, 0, 0]]));
  n = value(w[1]); c = [integer(v) | v <- w[2 .. n + 2]];
  [at(value(v), c, value(w[n + 3])) | v <- w[n + 4 .. #w - 1]];
};

\\ No ticket twice.
made = Map();
severaljob(w) =
{
  my(a);
  if (mapisdefined(made, w), return);
  mapput(made, w, 1);
  a = outcomes(w);
  line(concat([[#w], w, [#a], concat(a)]));
};

\\ The primes of the list in tickets of sixteen.
sixteens(c, b, list) = forstep (i = 1, #list, 16, severaljob(together(c, b, list[i .. min(i + 15, #list)])));

\\ An integer polynomial that has a short quasi-period at each of the primes: their product is below 2^27.
shortinteger(list, n) = centerlift(chinese([Mod(shortD(q, n, random(n / 2)), q) | q <- list]));

\\ A coefficient of any size; a value that is no odd prime now and then.
anyinteger() = random([-2^27, 2^27 - 1]) >> random(28);
anyprime(most) = if (random(12) == 0, random(most + 3), my(q = 2); while (q == 2, q = randomprime(most + 1)); q);

several() =
{
  my(c, q, m, list, odd = [0, 1, 2, 3, 4, 5, 9, 15, 4087, 4091, 4093, 4095, 4096, 4097, 4099, top]);
  setrand(5);
  \\ R = 8 at every prime from 5 on; and its neighbour, where R differs
  foreach ([-71, -72], k, sixteens([k, -96, 10, 0, 1], 1000, primes([3, 199])));
  \\ budgets about the quasi-period
  foreach ([0, 1, 5, 6, 7, 8, top], b, foreach ([-71, -72], k, severaljob(together([k, -96, 10, 0, 1], b, [3, 5, 7, 11, 13, 17]))));
  for (i = 1, 8, c = concat(vector(4, j, anyinteger()), [1]); list = vector(4, j, anyprime(60));
    foreach (list, q, m = at(q, c, top)[3]; if (m, foreach ([m - 1, m, m + 1], b, severaljob(together(c, b, list))))));
  \\ one prime and sixteen, equal ones, none, seventeen and more
  c = [-71, -96, 10, 0, 1];
  foreach ([0, 1, 2, 15, 16, 17, 18, 32, 100], k, severaljob(together(c, 7, vector(k, i, 5))); severaljob(together(c, 100, vector(k, i, prime(i + 1)))));
  severaljob(together(c, 6, [5, 7, 5])); severaljob(together(c, 7, [3, 5, 3, 5, 4, 5]));
  \\ q that is no odd prime below 4,096, alone and among primes
  sixteens(c, 7, odd); sixteens(c, 7, Vecrev(odd));
  foreach (odd, v, severaljob(together(c, 7, [v])); severaljob(together([1, 0, 0, 0, 3], 7, [5, v, 3])));
  \\ the ends of the range, at every place
  foreach ([-2^27, -2^27 + 1, -4093, -3, -1, 0, 1, 2, 3, 4093, 2^27 - 2, 2^27 - 1], v,
    for (i = 1, 5, c = [1, 1, 0, 0, 1]; c[i] = v; severaljob(together(c, 30, [3, 5, 7, 31, 4093])));
    severaljob(together(vector(5, i, v), 30, [3, 5, 7, 31, 4093])); severaljob(together(concat(vector(4, i, v), [1]), 30, [3, 5, 7, 31, 4093])));
  \\ a leading coefficient that is 1 at some primes, 0 or another number at others
  foreach ([106, -104, 2^27 - 1, -2^27, 3 * 5 * 4093, -3 * 5 * 4093 + 1], v, severaljob(together([1, 1, 0, 0, v], 40, [3, 5, 7, 11, 13, 53, 4093])));
  severaljob(together(vector(5), 9, [3, 5])); severaljob(together([0, 0, 0, 0, 1], 9, [3, 5])); severaljob(together([0, 15, 0, 0, 1], 9, [3, 5, 7]));
  \\ degrees: short quasi-periods at two or three primes, spent at the others
  foreach ([2, 4, 6, 8, 16, 32, 62, 64], n, foreach ([[4091, 4093], [3, 5, 4093], [7, 11, 13, 31, 101]], v,
    c = shortinteger(v, n); severaljob(together(c, n, v)); severaljob(together(c, 40, concat(v, [3, 17, 1009, 2])))));
  \\ any D at any primes
  foreach ([[2, 4095, 6], [4, 200, 24], [6, 17, 12], [8, 5, 6], [16, 4095, 4], [64, 4095, 4]], v, for (i = 1, v[3],
    c = concat(vector(v[1], j, anyinteger()), [if (random(6), 1, anyinteger())]);
    severaljob(together(c, if (v[1] > 8, 20, if (random(2), random(60), top)), vector(1 + random(16), j, anyprime(v[2]))))));
  shapes();
};

\\ 14 and 3 beside each other.
shapes() =
{
  my(w, c, good = together([-71, -96, 10, 0, 1], 7, [5, 7, 9]), small = together([2, 0, 1], 1, [5]), long = together(concat(vector(64, i, -i), [1]), 3, vector(16, i, 3)));
  \\ the kind of each word in turn, 13 among them
  foreach ([good, small], u, for (i = 1, #u, foreach ([0, 1, 2, 3, 4, 12, 13, 15], k, if (k != kind(u[i]), w = u; w[i] = word(k, value(u[i])); severaljob(w)))));
  \\ every shorter list, one word more, the end word one off
  foreach ([good, small], u, for (k = 0, #u, severaljob(u[1 .. k])));
  foreach ([good, small, long], u,
    severaljob(u); severaljob(u[1 .. #u - 1]); severaljob(u[2 .. #u]); severaljob(concat(u, [u[#u]])); severaljob(concat(u, [0])); severaljob(concat(u, u));
    foreach ([-1, 1], k, w = u; w[#w] += k; severaljob(w); w = concat(u[1 .. #u - 1], [word(15, value(u[#u]) + k)]); if (k > 0, w = concat(w, [w[#w]])); severaljob(w));
    severaljob(concat(u[1 .. #u - 1], [word(1, 5), word(15, #u)])); severaljob(concat(u[1 .. #u - 1], [word(1, 5), u[#u]]));
    severaljob(concat([u[1 .. 2], u[4 .. #u - 1], [word(15, #u - 2)]])); severaljob(concat([u[1 .. 2], u[2 .. #u - 1], [word(15, #u)]]));
    \\ the n of word 0 is that of the shape
    foreach ([-2, -1, 1, 2], k, w = u; w[1] += k; severaljob(w)); w = u; w[1] = word(2, top); severaljob(w); w[1] = word(2, 0); severaljob(w));
  severaljob(ticket(5, [4, 4, 0, 0, 1], 7)); severaljob([word(15, 0)]); severaljob([word(2, 0), word(15, 1)]);
  \\ 3: the right shape with a wrong n, whatever the rest; 14 before it
  foreach ([0, 1, 3, 5, 63, 65, 66, 67, 128], n, foreach ([[3], [9, 0], vector(16, i, 5)], list,
    w = together(concat(vector(n, i, -i), [1]), 6, list); severaljob(w); severaljob(w[1 .. #w - 1]);
    w[#w] -= 1; severaljob(w); w[#w] += 1; w[#w - 1] = word(13, 3); severaljob(w)));
  severaljob(together(concat(vector(3), [1]), 6, vector(17, i, 5)));
};

\\ ---- which q are allowed: request R-4

\\ Every q from 0 to 4,223 and some above: squares of primes, primes up to the largest of 28 bits, numbers whose lower
\\ 12 or 16 bits are an odd prime, ends of ranges. x^2 + 1 has no square factor at any odd prime.
{large = [4489, 5041, 8191, 20483, 65521, 65535, 65536, 65537, 65539, 2^20 + 7, 2^24 + 43, 2^27 + 3, 16381^2, 2^28 - 57, 2^28 - 2, top]};
allowed() = sixteens([1, 0, 1], 1, concat([0 .. 4223], large));

\\ ---- units and listings

\\ [[q, c, m]] where the listing has at most `most` words, else [].
brief(q, c, most) = { my(a = answer(ticket(q, c, most \ (#c + 3)))); if (a[1], [], [[q, c, a[3]]]) };

\\ Choices of D with brief listings: random ones, one of each degree, and more up to `count`.
shorts(most, count) =
{
  my(list = [], q, n, h, v);
  for (i = 1, #small, [q, n, h] = small[i];
    if (n * q < 4000, for (j = 1, h, for (try = 1, 6, v = brief(q, someD(q, n), most); if (#v, list = concat(list, v); break)))));
  forstep (n = 2, 64, 2, q = primes1[1 + random(10)]; list = concat(list, brief(q, shortD(q, n, random(min(n / 2, most \ (n + 4)))), most)));
  while (#list < count, q = primes1[1 + random(5)]; n = 4 + 2 * random(4); list = concat(list, brief(q, shortD(q, n, random(n / 2)), most)));
  list;
};
printed = [[3, [1, 1, 0, 0, 1], 6], [3, [1, 0, 1], 1], [5, [2, 0, 0, 0, 1], 1]];

\\ The k coefficients of f, zeros above its degree.
pad(f, k) = { my(c = numbers(f)); concat(c, vector(k - #c)) };

\\ The monic unit of D as two lists of R + 1 coefficients.
unit(w, R, m) =
{
  my(n = value(w[2]), q = value(w[1]), D = poly([value(v) | v <- w[3 .. n + 3]], q), pair1 = monicpair(expand(D, m), m));
  if (q^(R - n / 2) <= 3000 && pair1 != least(D, q, R), error("not the least pair"));
  concat(pad(pair1[1], R + 1), pad(pair1[2], R + 1));
};

units() =
{
  my(w, a);
  setrand(2);
  foreach (concat([printed, shorts(400, 118), [[7, someD(7, 6), top], [101, someD(101, 4), top]]]), v,
    w = ticket(v[1], v[2], min(top, v[3] + random(2))); a = answer(w);
    line(concat([[#w], w, a, unit(w, a[2], a[3])])));
};

\\ A distance in two words, high and low 28 bits.
twowords(k, j, y) = [word(k, y >> 28), word(j, y % 2^28)];

\\ The ideal spanned by the multiples of p + s*sqrt(D).
multiples(D, p, s) = ideal([p, D * s; s, p]);

\\ Request R-6: the mirrors of the records that the p + s*sqrt(D) generate, given as [p, s]. The conjugate ideal, spanned by
\\ the multiples of p - s*sqrt(D), is the ideal of exactly one record; the mirror is the distance of that record, or R if it
\\ is the first. It is also the degree of p - s*sqrt(D) times the unit u + t*sqrt(D), that is of A + B*sqrt(D). With
\\ root(D, 0), the polynomial part of sqrt(D), in its place, only terms of degrees below deg B are lost.
mirrors(D, generators, R, unit1) =
{
  my(ideals = [multiples(D, v[1], v[2]) | v <- generators], out = List(), [u, t] = unit1, p, s, I1, places, y, A, B);
  foreach (generators, v,
    [p, s] = v;
    I1 = multiples(D, p, -s);
    places = select(J -> J == I1, ideals, 1);
    if (#places != 1, error("the conjugate is not that of just one record"));
    y = if (places[1] == 1, R, poldegree(generators[places[1]][1]));
    A = p * u - D * s * t; B = p * t - s * u;
    if (poldegree(B) >= y || poldegree(A + B * root(D, 0)) != y, error("not the degree of the conjugate generator times the unit"));
    listput(out, y));
  Vec(out);
};

\\ Record i + 1: Q_i from the norm of the convergent before a_i, P_i from its product with the conjugate of the one before that.
records(D, list, m, R) =
{
  my(g = poldegree(D) / 2 - 1, ideals = List(), generators = List(), C = matid(2) * Mod(1, characteristic(D)), Q, P, mirrors1);
  for (i = 0, m - 1,
    Q = monic(Pol((-1)^i * norm2(D, C[1, 1], C[2, 1])));
    P = Pol((-1)^(i + 1) * (C[1, 1] * C[1, 2] - D * C[2, 1] * C[2, 2])) % Q;
    \\ the same ideal as the multiples of p + s*sqrt(D)
    if ([1, Q, P] != multiples(D, C[1, 1], C[2, 1]), error("not the ideal of the convergent"));
    listput(ideals, [Q, P]); listput(generators, [C[1, 1], C[2, 1]]);
    C = C * [list[i + 1], 1; 1, 0]);
  mirrors1 = mirrors(D, Vec(generators), R, monicpair(list, m));
  concat(vector(m, i, concat([[word(5, i)], twowords(6, 7, poldegree(generators[i][1])), twowords(10, 11, mirrors1[i]),
    [word(8, v) | v <- pad(ideals[i][1], g + 1)], [word(9, v) | v <- pad(ideals[i][2], g)]])));
};

listings() =
{
  my(jobs, w, a, r, D);
  setrand(3);
  jobs = concat([printed, shorts(320, 112), [[7, someD(7, 6), top], [101, someD(101, 4), top]]]);
  foreach (jobs, v,
    w = ticket(v[1], v[2], v[3]); a = answer(w); D = poly(v[2], v[1]);
    r = records(D, expand(D, a[3]), a[3], a[2]);
    line(concat([[#w], w, a, [#r], r])));
  foreach (jobs[1 .. 12], v, w = ticket(v[1], v[2], v[3] - 1); line(concat([[#w], w, answer(w), [0]])));
  foreach ([[0, 0, 0, 0, 1], [3, 0, 0, 0, 1], [1, 0, 0, 0, 2]], c, w = ticket(3, c, 4); line(concat([[#w], w, answer(w), [0]])));
};

\\ Compares the found listings of the sample answers: the line has the ticket, the lent list's length and what it held, the
\\ answer, and every word at the end.
samples() =
{
  my(count = 0, v, w, a, r, D);
  foreach (readstr("samples/listings.txt"), text,
    v = apply(eval, strsplit(text, " ")); w = v[2 .. v[1] + 1]; v = v[v[1] + 5 .. #v]; a = v[1 .. 4];
    if (answer(w) != a && a[1] != 13, error("a sample's answer"));
    if (a[1], next);
    D = poly([value(c) | c <- w[3 .. value(w[2]) + 3]], value(w[1]));
    r = records(D, expand(D, a[3]), a[3], a[2]);
    if (r != v[5 .. 4 + #r], error("a sample's records"));
    count++);
  print("found listings of the samples: ", count);
};

\\ ---- products and giant steps

\\ A random ideal of degree 1 to `most` as [Q, P]; the unit ideal where chance finds none.
someideal(D, q, most) =
{
  my(P, F, Q, k);
  for (try = 1, 40,
    P = poly(chance(most + 1, q), q);
    F = factor(D - P^2); Q = Pol(Mod(1, q));
    for (j = 1, #F[, 1], k = random(F[j, 2] + 1); if (poldegree(Q) + k * poldegree(F[j, 1]) <= most, Q *= F[j, 1]^k));
    if (poldegree(Q) > 0, return([monic(Q), P % Q])));
  one(q);
};

\\ An ideal of degree as near g as some trials give.
wide(D, q) =
{
  my(g = poldegree(D) / 2 - 1, best = someideal(D, q, g), I1);
  for (try = 1, 6, I1 = someideal(D, q, g); if (poldegree(I1[1]) > poldegree(best[1]), best = I1));
  best;
};

conj2(I1) = [I1[1], -I1[2] % I1[1]];
one(q) = [Pol(Mod(1, q)), Pol(Mod(0, q))];
sized(f) = { my(v = numbers(f)); concat([#v], v) };
halves(y) = [y >> 32, y % 2^32];

\\ A pair as two lists of coefficients, g + 1 and g of them.
pair(I1, g) = [pad(I1[1], g + 1), pad(I1[2], g)];

\\ Lists of any lengths are jobs: [ticket, pair, distance, pair, distance].
combine(w, a, y, b, z) =
{
  my(head, r, n, q, D, g, I1, I2, S, K, f, t, giant);
  head = concat([[#w], w, [#a[1]], a[1], [#a[2]], a[2], halves(y), [#b[1]], b[1], [#b[2]], b[2], halves(z)]);
  r = refusal(w);
  if (!r,
    q = value(w[1]); n = value(w[2]); g = n / 2 - 1;
    D = poly([value(v) | v <- w[3 .. n + 3]], q);
    if (!isideal(D, q, a[1], a[2]) || !isideal(D, q, b[1], b[2]), r = 9));
  if (r, line(concat(head, [r, 0, 0, 0, r, 0, 0, 0, 0, 0, 0])); return);
  I1 = [poly(a[1], q), poly(a[2], q)]; I2 = [poly(b[1], q), poly(b[2], q)];
  [S, I1[1], I1[2]] = times(D, I1, I2);
  if (y > 2^40 || z > 2^40, giant = [10, 0, 0, 0, 0, 0, 0],
    K = reduced(D, I1);
    f = K[3] - poldegree(S);
    if (f > 0 || f < -2 * g, error("f"));
    t = y + z + f;
    giant = concat([[0], sized(K[1]), sized(K[2]), [-f, t < 0], halves(abs(t))]));
  line(concat([head, [0], sized(S), sized(I1[1]), sized(I1[2]), giant]));
};

fields = [[3, 2, 1], [3, 4, 4], [5, 4, 2], [7, 4, 2], [101, 4, 1], [3, 6, 4], [5, 6, 2], [31, 6, 1], [3, 8, 4], [7, 8, 2], [101, 8, 1], [4093, 8, 1], [5, 10, 1], [13, 12, 1], [1009, 16, 1], [3, 18, 1], [4091, 20, 1], [3, 32, 1], [4093, 64, 1]];

\\ A distance: mostly small, 0 or the largest allowed now and then.
away() = if (random(8) == 0, 2^40 - random(2), if (random(5) < 3, random(200)));

products() =
{
  my(c, D, w, q, n, h, g, I1, I2, A, B, L, F, go);
  setrand(4);
  \\ the two of the marked table: records 3 and 3, 2 and 6
  w = ticket(3, [1, 1, 0, 0, 1], 6);
  combine(w, [[0, 1], [1]], 3, [[0, 1], [1]], 3);
  combine(w, [[1, 1], [1]], 2, [[1, 1], [2]], 6);
  for (i = 1, #fields, [q, n, h] = fields[i]; g = n / 2 - 1; for (j = 1, h,
    c = someD(q, n); D = poly(c, q); w = ticket(q, c, random(2) * random(1000));
    go = ((u, v) -> combine(w, pair(u, g), away(), pair(v, g), away()));
    go(one(q), one(q));
    if (g == 0, next);
    I1 = wide(D, q); I2 = wide(D, q);
    go(I1, I2); go(I1, one(q)); go(one(q), I2); go(I1, I1); go(I1, conj2(I1));
    if (n > 40, next);
    go(I2, conj2(I1)); go(I2, I2);
    \\ a common factor with its conjugate on the other side
    A = someideal(D, q, (g + 1) \ 2); B = someideal(D, q, g \ 2);
    L = times(D, A, B); if (poldegree(L[2]) <= g, go(L[2 .. 3], conj2(A)); go(conj2(A), wide(D, q));
      I2 = times(D, conj2(A), someideal(D, q, g - (g + 1) \ 2)); if (poldegree(I2[2]) <= g, go(L[2 .. 3], I2[2 .. 3])));
    \\ a factor of D is its own conjugate
    F = ([f | f <- factor(D)[, 1], poldegree(f) <= g]);
    if (#F, A = [monic(F[1 + random(#F)]), Pol(Mod(0, q))]; go(A, A); go(A, wide(D, q)));
    \\ powers
    L = someideal(D, q, 1); go(L, L); I2 = times(D, L, L); if (poldegree(I2[2]) <= g, go(I2[2 .. 3], L))));
  badpairs();
  deepest(4093, 31); deepest(3, 31);
};

\\ Two ideals of degree g with coprime Q and quotients of degree 1 all through Euclid's algorithm: g + 1 divisions, the most that a product takes.
\\ D is found from them: P^2 modulo Q and U^2 modulo T.
deepest(q, g) =
{
  my(f = poly([], q), h = poly([1], q), Q, T, P, U, D);
  for (i = 1, g, [f, h] = [h, poly([random(q), 1 + random(q - 1)], q) * h + f]);
  T = monic(h); Q = monic(h + f);
  until (nosquare(numbers(D), q),
    P = poly(chance(g, q), q); U = poly(chance(g, q), q);
    D = lift(chinese(Mod(P^2, Q), Mod(U^2, T))) + Q * T * poly(concat(chance(2, q), [1]), q));
  combine(ticket(q, numbers(D), 0), pair([Q, P], g), 2^40, pair([T, U], g), 1);
};

\\ Refusals of pairs and distances, beside what is allowed.
badpairs() =
{
  my(c, D, w, q, g, I1, I2, a, b, u, both);
  foreach ([[3, 2], [3, 4], [5, 8]], v,
    q = v[1]; g = v[2] / 2 - 1; c = someD(q, v[2]); D = poly(c, q); w = ticket(q, c, 0);
    I1 = wide(D, q); I2 = someideal(D, q, if (g > 1, g - 1, g));
    a = pair(I1, g); b = pair(I2, g);
    both = (u -> combine(w, u, 1, b, 2); combine(w, a, 1, u, 2));
    both(a); both([a[1], concat(a[2], [0])]); both([concat(a[1], [0]), a[2]]); both([concat([0], a[1]), a[2]]); both([a[1][1 .. g], a[2]]); both([[], []]);
    \\ zero, not monic, a coefficient of q or more, not dividing
    both([vector(g + 1), vector(g)]); both([2 * a[1], a[2]]);
    u = a; u[1][1] += q; both(u); u = a; u[1][1] = 2^32 - 1; both(u); u = pair(one(q), g); both(u); u[1][1] = 2; both(u); u[1][1] = q + 1; both(u);
    if (g == 0, next);
    u = pair(one(q), g); u[2][1] = 1; both(u); u[2][1] = q; both(u); u = a; u[2][1] += q; both(u); u = a; u[2][1] = (u[2][1] + 1) % q; both(u);
    u = a; u[1][1] = (u[1][1] + 1) % q; both(u); both([a[1], a[2][1 .. g - 1]]);
    \\ P of Q's degree: Q still divides D - P^2
    if (g > 1, both(pair([I2[1], I2[2] + I2[1]], g)); both(pair(I2, g)));
    \\ distances about 2^40
    foreach ([2^40, 2^40 + 1, 2^64 - 1, 2^40 - 1], y, combine(w, a, y, b, 0); combine(w, a, 2, b, y); combine(w, a, y, b, y));
    u = a; u[1] = 2 * u[1]; combine(w, u, 2^41, b, 0));
  \\ the ticket comes first
  foreach ([[3, [0, 0, 0, 0, 1]], [3, [0, 0, 0, 0, 2]], [9, [0, 0, 0, 0, 1]], [3, [0, 0, 4, 0, 1]]], v,
    combine(ticket(v[1], v[2], 0), [[1, 0], [0]], 0, [[1, 0], [0]], 0); combine(ticket(v[1], v[2], 0), [[1], [0]], 2^41, [[1, 0], [0]], 0));
  combine([], [[1, 0], [0]], 0, [[1, 0], [0]], 0);
};
