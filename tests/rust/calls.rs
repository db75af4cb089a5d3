// Calls the static library from Rust: every stored vector, the sample answers, half the walk against the whole, the
// ideal at a distance against the listing, each record against the conjugate at its mirror, and the estimate against
// Euler's criterion.
use std::fs;

#[repr(C)]
struct Numbers {
    words: u64,
    number: u64,
    first: u64,
    second: u64,
    third: u64,
}

#[repr(C)]
struct Several {
    words: u64,
    count: u64,
}

#[repr(C)]
struct Part {
    offset: u64,
    length: u64,
}

#[repr(C)]
struct ProductNumbers {
    words: u64,
    number: u64,
    s_size: u64,
    q_size: u64,
    p_size: u64,
}

#[repr(C)]
struct GiantStepNumbers {
    words: u64,
    number: u64,
    q_size: u64,
    p_size: u64,
    f: i64,
    distance: i64,
}

#[repr(C)]
struct IdealNumbers {
    words: u64,
    number: u64,
    q_size: u64,
    p_size: u64,
    distance: u64,
    next: u64,
}

#[repr(C)]
struct EstimateNumbers {
    words: u64,
    number: u64,
    numerator: u64,
    denominator: u64,
    nearest: u64,
}

extern "C" {
    fn foskadoin_product(ticket: *const u32, length: usize, q1: *const u32, q1n: usize, p1: *const u32, p1n: usize, q2: *const u32, q2n: usize, p2: *const u32, p2n: usize, s: &mut [u32; 129], q: &mut [u32; 129], p: &mut [u32; 129]) -> ProductNumbers;
    fn foskadoin_giant_step(ticket: *const u32, length: usize, q1: *const u32, q1n: usize, p1: *const u32, p1n: usize, d1: u64, q2: *const u32, q2n: usize, p2: *const u32, p2n: usize, d2: u64, q: &mut [u32; 129], p: &mut [u32; 129]) -> GiantStepNumbers;
    fn foskadoin_regulator(ticket: *const u32, length: usize) -> Numbers;
    fn foskadoin_half(ticket: *const u32, length: usize) -> Numbers;
    fn foskadoin_regulators(ticket: *const u32, length: usize, out: &mut [u64; 64]) -> Several;
    fn foskadoin_unit(ticket: *const u32, length: usize, p: *mut u32, pn: usize, s: *mut u32, sn: usize, x: *mut u32, xn: usize, y: *mut u32, yn: usize) -> Numbers;
    fn foskadoin_listing(ticket: *const u32, length: usize, out: *mut u32, n: usize) -> Numbers;
    fn foskadoin_lookup(list: *const u32, length: usize, n: u64, y: u64) -> Part;
    fn foskadoin_ideal_at(ticket: *const u32, length: usize, y: u64, q: &mut [u32; 129], p: &mut [u32; 129]) -> IdealNumbers;
    fn foskadoin_estimate(ticket: *const u32, length: usize) -> EstimateNumbers;
}

// What a safe caller writes around the calls: slices do not overlap and carry their lengths.
fn regulator(ticket: &[u32]) -> Numbers {
    unsafe { foskadoin_regulator(ticket.as_ptr(), ticket.len()) }
}

fn half(ticket: &[u32]) -> Numbers {
    unsafe { foskadoin_half(ticket.as_ptr(), ticket.len()) }
}

fn regulators(ticket: &[u32], out: &mut [u64; 64]) -> Several {
    unsafe { foskadoin_regulators(ticket.as_ptr(), ticket.len(), out) }
}

fn unit(ticket: &[u32], l: &mut [Vec<u32>; 4]) -> Numbers {
    let [p, s, x, y] = l;
    unsafe { foskadoin_unit(ticket.as_ptr(), ticket.len(), p.as_mut_ptr(), p.len(), s.as_mut_ptr(), s.len(), x.as_mut_ptr(), x.len(), y.as_mut_ptr(), y.len()) }
}

fn listing(ticket: &[u32], out: &mut [u32]) -> Numbers {
    unsafe { foskadoin_listing(ticket.as_ptr(), ticket.len(), out.as_mut_ptr(), out.len()) }
}

fn lookup(list: &[u32], n: u64, y: u64) -> &[u32] {
    let part = unsafe { foskadoin_lookup(list.as_ptr(), list.len(), n, y) };
    &list[part.offset as usize..][..part.length as usize]
}

fn ideal_at(ticket: &[u32], y: u64, q: &mut [u32; 129], p: &mut [u32; 129]) -> IdealNumbers {
    unsafe { foskadoin_ideal_at(ticket.as_ptr(), ticket.len(), y, q, p) }
}

fn estimate(ticket: &[u32]) -> EstimateNumbers {
    unsafe { foskadoin_estimate(ticket.as_ptr(), ticket.len()) }
}

// A line's numbers after each other.
struct Line(Vec<u32>, usize);

impl Line {
    fn take(&mut self, n: usize) -> Vec<u32> {
        self.1 += n;
        self.0[self.1 - n..self.1].to_vec()
    }

    fn counted(&mut self) -> Vec<u32> {
        let n = self.take(1)[0];
        self.take(n as usize)
    }

    fn wide(&mut self) -> u64 {
        let l = self.take(2);
        (l[0] as u64) << 32 | l[1] as u64
    }

    // The next counted polynomial stands in the array, with zeros above its degree.
    fn polynomial(&mut self, places: &[u32; 129], size: u64) {
        let want = self.counted();
        assert_eq!(size, want.len() as u64);
        assert_eq!(places[..want.len()], want);
        assert!(places[want.len()..].iter().all(|c| *c == 0));
    }
}

fn lines(folder: &str, name: &str) -> Vec<Line> {
    let text = fs::read_to_string(format!("{folder}/{name}")).expect(name);
    text.lines().map(|l| Line(l.split(' ').map(|w| w.parse().unwrap()).collect(), 0)).collect()
}

fn says(a: &Numbers, ticket: &[u32], four: &[u32]) {
    assert_eq!(a.words, ticket.len() as u64);
    assert_eq!([a.number, a.first, a.second, a.third], [four[0] as u64, four[1] as u64, four[2] as u64, four[3] as u64]);
}

// The words of the single job at q, from a ticket past 14 and 3.
fn single(ticket: &[u32], q: u32) -> Vec<u32> {
    let (n, values) = (ticket[0] % (1 << 28), 1 << 28);
    let signed = |w: &u32| ((w << 4) as i32 >> 4) as i64;
    let residue = |w: &u32| signed(w).checked_rem_euclid(q as i64).unwrap_or(0) as u32;
    let mut words = vec![values + q, 2 * values + n];
    words.extend(ticket[1..n as usize + 2].iter().map(|w| 3 * values + residue(w)));
    words.extend([ticket[n as usize + 2], 15 * values + n + 4]);
    words
}

fn ticket(q: u32, coefficients: &[u32], b: u32) -> Vec<u32> {
    let n = coefficients.len() as u32;
    let mut words = vec![1 << 28 | q, 2 << 28 | n];
    words.extend(coefficients.iter().map(|c| 3 << 28 | c));
    words.extend([3 << 28 | 1, 4 << 28 | b, 15 << 28 | (n + 4)]);
    words
}

// Half the walk with budget b against the whole walk with budget 2b, and with b for the degree of a spent answer. D is
// x^n and the terms with these coefficients.
fn compare(q: u32, coefficients: &[u32], b: u32) {
    let [job, twice] = [b, 2 * b].map(|b| ticket(q, coefficients, b));
    let whole = regulator(&twice);
    let want = match whole.number {
        11 => [11, b as u64, regulator(&job).second],
        number => [number, whole.first, whole.second],
    };
    says(&half(&job), &job, &[want[0] as u32, want[1] as u32, want[2] as u32, 0]);
}

// Random numbers below what each call names.
fn chances(mut state: u64) -> impl FnMut(u32) -> u32 {
    move |below| {
        state = state.wrapping_mul(6364136223846793005).wrapping_add(1442695040888963407);
        (state >> 33) as u32 % below
    }
}

// Every monic D of degree 4 over F_3 with the budgets 0 to 12, and 2,000 tickets of other q and n.
fn halves() -> usize {
    for k in 0..81 {
        for b in 0..=12 {
            compare(3, &[k % 3, k / 3 % 3, k / 9 % 3, k / 27], b);
        }
    }
    let mut chance = chances(1);
    for _ in 0..2000 {
        let q = [5, 7, 11, 13, 17, 61, 1009, 4093, 15][chance(9) as usize];
        let n = [2, 4, 4, 6, 6, 8, 12, 64][chance(8) as usize];
        let coefficients: Vec<u32> = (0..n).map(|_| chance(q)).collect();
        let size = chance(9);
        compare(q, &coefficients, chance(1 << size));
    }
    81 * 13 + 2000
}

fn value(word: &u32) -> u32 {
    word % (1 << 28)
}

fn distance(record: &[u32]) -> u64 {
    (value(&record[1]) as u64) << 28 | value(&record[2]) as u64
}

fn mirror(record: &[u32]) -> u64 {
    (value(&record[3]) as u64) << 28 | value(&record[4]) as u64
}

// Request R-6. The mirror of record 1 alone is R, and that record is its own conjugate; lookup at R hands back the last
// record. Every other mirror is below R, and lookup at it hands back the conjugate: a record at just that distance, with
// the same Q and with P negated modulo Q, whose own mirror is the distance of the record that it is the conjugate of.
// Answers how many records there are.
fn conjugates(records: &[u32], n: usize, q: u32, r: u64) -> usize {
    let size = n + 4;
    for (at, record) in records.chunks(size).enumerate() {
        let y = mirror(record);
        assert_eq!((y == r, y < r), (at == 0, at > 0), "the mirror of record 1 alone is R");
        let there = lookup(records, n as u64, y);
        let other = if y < r { there } else { record };
        if y < r {
            assert_eq!([distance(other), mirror(other)], [y, distance(record)]);
        } else {
            assert_eq!(there.as_ptr(), records[records.len() - size..].as_ptr());
        }
        let ((own_q, own_p), (other_q, other_p)) = (record[5..].split_at(n / 2), other[5..].split_at(n / 2));
        assert_eq!(own_q, other_q);
        // as P has a lower degree than Q, each coefficient is negated modulo q
        assert!(own_p.iter().map(|c| (q - value(c)) % q).eq(other_p.iter().map(value)));
    }
    records.len() / size
}

// Every y from 0 to 2R against the listing, from R on with the distances raised, each with one of three budgets; and each
// record against its conjugate. D is x^n and the terms with these coefficients. Answers how many y, none where R is above
// 200, and how many records; no y and no record where the listing is not found: D has a square factor, or m is above 200.
fn whole_turns(q: u32, coefficients: &[u32]) -> (u64, usize) {
    let n = coefficients.len();
    let mut list = vec![0; 1 << 12];
    let a = listing(&ticket(q, coefficients, 200), &mut list);
    if a.number != 0 {
        return (0, 0);
    }
    let (r, records) = (a.first, &list[..a.second as usize * (n + 4)]);
    let mirrored = conjugates(records, n, q, r);
    if r > 200 {
        return (0, mirrored);
    }
    for y in 0..=2 * r {
        let record = lookup(records, n as u64, y % r);
        let index = value(&record[0]) as usize;
        let next = records.chunks(n + 4).nth(index).map_or(r, distance);
        let (mut places_q, mut places_p) = ([9; 129], [9; 129]);
        let job = ticket(q, coefficients, [0, 3, (1 << 28) - 1][y as usize % 3]);
        let b = ideal_at(&job, y, &mut places_q, &mut places_p);
        assert_eq!([b.words, b.number], [job.len() as u64, 0]);
        assert_eq!([b.distance, b.next], [distance(record), next].map(|d| d + y / r * r));
        let (record_q, record_p) = record[5..].split_at(n / 2);
        for (places, size, words) in [(places_q, b.q_size, record_q), (places_p, b.p_size, record_p)] {
            assert!(places.into_iter().eq(words.iter().map(value).chain(std::iter::repeat(0)).take(129)));
            assert_eq!(size as usize, places.iter().rposition(|c| *c != 0).map_or(0, |top| top + 1));
        }
    }
    (2 * r + 1, mirrored)
}

// Every monic D of degree 4 over F_3, and 600 random D of other q and n. Answers how many y and how many records.
fn turns() -> (u64, usize) {
    let mut chance = chances(2);
    let all = (0..81).map(|k| whole_turns(3, &[k % 3, k / 3 % 3, k / 9 % 3, k / 27]));
    let others = (0..600).map(|_| {
        let q = [3, 5, 7, 11, 13][chance(5) as usize];
        let n = [2, 4, 6, 6, 8, 10][chance(6) as usize];
        whole_turns(q, &(0..n).map(|_| chance(q)).collect::<Vec<u32>>())
    });
    all.chain(others).fold((0, 0), |sum, one| (sum.0 + one.0, sum.1 + one.1))
}

// Request R-7, without a stored answer and without a division of the fraction N/M. Refusals 1 to 7 are those of half with
// the budget 0; by Euler's criterion v^((q-1)/2) is 1 for a nonzero square, q - 1 for a non-square and 0 for 0; the nearest
// w has w - 1/2 <= N/M < w + 1/2. Answers the number, and whether the fraction is an exact half.
fn by_powers(q: u32, coefficients: &[u32], b: u32) -> (u64, bool) {
    let (n, job) = (coefficients.len() as u32, ticket(q, coefficients, b));
    let number = match half(&ticket(q, coefficients, 0)).number {
        11 if q > 13 || n > 8 => 15,
        11 => 0,
        refusal => refusal,
    };
    let a = estimate(&job);
    assert_eq!([a.words, a.number], [job.len() as u64, number]);
    if number != 0 {
        assert_eq!([a.numerator, a.denominator, a.nearest], [0; 3]);
        return (number, false);
    }
    let (base, terms) = (q as u64, coefficients.iter().chain(&[1]));
    let value = |e: u64| terms.clone().zip(0..).map(|(c, i)| *c as u64 * e.pow(i)).sum::<u64>() % base;
    let euler = |e: u64| value(e).pow((q - 1) / 2) % base;
    let [squares, others] = [1, base - 1].map(|sign| (0..base).filter(|e| euler(*e) == sign).count() as u32);
    let numerator = base.pow(n / 2 + squares + others);
    let denominator = (base - 1).pow(squares + 1) * (base + 1).pow(others);
    assert_eq!([a.numerator, a.denominator], [numerator, denominator]);
    let [top, bottom, w] = [numerator, denominator, a.nearest].map(u128::from);
    assert!(2 * w * bottom <= 2 * top + bottom && 2 * top + bottom < 2 * (w + 1) * bottom);
    (0, 2 * w * bottom == 2 * top + bottom)
}

// Every monic D of some degrees over the small fields, q^n - q^(n-1) of which have no square factor; and 2,000 random D,
// some with q or n too large, some with a coefficient of q. Answers how many.
fn by_criterion() -> usize {
    let (mut compared, mut exact) = (0, 0);
    for (q, n) in [(3, 2), (3, 4), (3, 6), (3, 8), (5, 2), (5, 4), (7, 2), (7, 4), (11, 2), (13, 2u32)] {
        let mut found = 0;
        for k in 0..u32::pow(q, n) {
            let coefficients: Vec<u32> = (0..n).map(|i| k / q.pow(i) % q).collect();
            let (number, is_half) = by_powers(q, &coefficients, k % 3);
            found += (number == 0) as u32;
            exact += is_half as u32;
            compared += 1;
        }
        assert_eq!(found, q.pow(n) - q.pow(n - 1));
    }
    // 27/2 in degree 6 and 81/2 in degree 8, over F_3
    assert_eq!(exact, 8 + 72);
    let mut chance = chances(3);
    let mut tally = [0; 16];
    for _ in 0..2000 {
        let q = [3, 5, 7, 11, 13, 13, 17, 4093, 15][chance(9) as usize];
        let n = [2, 4, 6, 8, 8, 10][chance(6) as usize];
        let coefficients: Vec<u32> = (0..n).map(|_| if chance(200) == 0 { q } else { chance(q) }).collect();
        tally[by_powers(q, &coefficients, (1 << chance(29)) - 1).0 as usize] += 1;
    }
    assert!(tally[0] > 500 && tally[15] > 200 && tally[7] > 100 && tally[5] > 5);
    compared + 2000
}

// All 64 numbers of the array, with a number on either side of it, and each prime's outcome against the single job's.
fn several(mut line: Line) {
    let (ticket, count) = (line.counted(), line.take(1)[0] as usize);
    let want = line.take(4 * count);
    let mut room = [9; 66];
    let a = regulators(&ticket, (&mut room[1..65]).try_into().unwrap());
    assert_eq!([a.words, a.count], [ticket.len() as u64, count as u64]);
    let places = want.iter().map(|v| *v as u64).chain(std::iter::repeat(0)).take(64);
    assert!(room.into_iter().eq(std::iter::once(9).chain(places).chain([9])));
    if want[0] != 3 && want[0] != 14 {
        let first = ticket.len() - 1 - count;
        for (word, four) in ticket[first..].iter().zip(want.chunks(4)) {
            let job = single(&ticket, word % (1 << 28));
            says(&regulator(&job), &job, four);
        }
    }
}

// A sample answer of a call that is lent lists: their lengths and the number in every place of them, then the answer
// and every place at the end.
fn lent(mut line: Line, call: impl Fn(&[u32], &mut [Vec<u32>]) -> Numbers) {
    let (ticket, lengths, fill) = (line.counted(), line.counted(), line.take(1)[0]);
    let mut l: Vec<Vec<u32>> = lengths.iter().map(|n| vec![fill; *n as usize]).collect();
    says(&call(&ticket, &mut l), &ticket, &line.take(4));
    let want: Vec<Vec<u32>> = lengths.iter().map(|n| line.take(*n as usize)).collect();
    assert_eq!(l, want);
    assert_eq!(line.1, line.0.len());
}

fn main() {
    let folder = std::env::args().nth(1).expect("the folder of the vectors");
    let mut jobs = 0;
    for name in ["regulators.txt", "samples/regulators.txt"] {
        for mut line in lines(&folder, name) {
            let ticket = line.counted();
            says(&regulator(&ticket), &ticket, &line.take(4));
            jobs += 1;
        }
    }
    for name in ["half.txt", "samples/half.txt"] {
        for mut line in lines(&folder, name) {
            let ticket = line.counted();
            says(&half(&ticket), &ticket, &line.take(4));
            jobs += 1;
        }
    }
    says(&half(&[]), &[], &[1, 0, 0, 0]);
    let compared = halves();
    for name in ["several.txt", "samples/several.txt", "allowed.txt"] {
        for line in lines(&folder, name) {
            several(line);
            jobs += 1;
        }
    }
    for mut line in lines(&folder, "units.txt") {
        let (ticket, four) = (line.counted(), line.take(4));
        let places = four[1] as usize + 1;
        let mut l = [9, 9, 9, 9].map(|mark| vec![mark; places + 1]);
        says(&unit(&ticket, &mut l), &ticket, &four);
        let want = [line.take(places), line.take(places), vec![0; places], vec![0; places]].map(|w| [w, vec![9]].concat());
        assert_eq!(l, want);
        jobs += 1;
    }
    for line in lines(&folder, "samples/units.txt") {
        lent(line, |ticket, l| unit(ticket, l.try_into().unwrap()));
        jobs += 1;
    }
    for line in lines(&folder, "samples/listings.txt") {
        lent(line, |ticket, l| listing(ticket, &mut l[0]));
        jobs += 1;
    }
    for mut line in lines(&folder, "samples/lookups.txt") {
        let (list, n, y, part) = (line.counted(), line.take(1)[0] as u64, line.wide(), line.take(2));
        let found = lookup(&list, n, y);
        assert_eq!((found.as_ptr(), found.len()), (list[part[0] as usize..].as_ptr(), part[1] as usize));
        assert_eq!(line.1, line.0.len());
        jobs += 1;
    }
    let mut mirrored = 0;
    for mut line in lines(&folder, "listings.txt") {
        let (ticket, four, want) = (line.counted(), line.take(4), line.counted());
        let mut out = vec![9; want.len() + 1];
        says(&listing(&ticket, &mut out), &ticket, &four);
        assert_eq!(out, [want.clone(), vec![9]].concat());
        if four[0] == 0 {
            let n = (ticket[1] % (1 << 28)) as u64;
            for record in want.chunks(n as usize + 4) {
                let y = (record[1] as u64 % (1 << 28)) << 28 | record[2] as u64 % (1 << 28);
                assert_eq!(lookup(&want, n, y).as_ptr(), record.as_ptr());
                assert_eq!(lookup(&want, n, y), record);
            }
            assert!(lookup(&out, n, 0).is_empty());
            mirrored += conjugates(&out[..want.len()], n as usize, value(&ticket[0]), four[1] as u64);
        }
        jobs += 1;
    }
    for mut line in lines(&folder, "products.txt") {
        let t = line.counted();
        let (q1, p1, d1, q2, p2, d2) = (line.counted(), line.counted(), line.wide(), line.counted(), line.counted(), line.wide());
        let (mut s, mut q, mut p) = ([9; 129], [9; 129], [9; 129]);
        let a = unsafe { foskadoin_product(t.as_ptr(), t.len(), q1.as_ptr(), q1.len(), p1.as_ptr(), p1.len(), q2.as_ptr(), q2.len(), p2.as_ptr(), p2.len(), &mut s, &mut q, &mut p) };
        assert_eq!([a.words, a.number], [t.len() as u64, line.take(1)[0] as u64]);
        line.polynomial(&s, a.s_size);
        line.polynomial(&q, a.q_size);
        line.polynomial(&p, a.p_size);
        let b = unsafe { foskadoin_giant_step(t.as_ptr(), t.len(), q1.as_ptr(), q1.len(), p1.as_ptr(), p1.len(), d1, q2.as_ptr(), q2.len(), p2.as_ptr(), p2.len(), d2, &mut q, &mut p) };
        assert_eq!([b.words, b.number], [t.len() as u64, line.take(1)[0] as u64]);
        line.polynomial(&q, b.q_size);
        line.polynomial(&p, b.p_size);
        assert_eq!(b.f, -(line.take(1)[0] as i64));
        let sign = if line.take(1)[0] == 1 { -1 } else { 1 };
        assert_eq!(b.distance, sign * line.wide() as i64);
        jobs += 1;
    }
    for name in ["ideals_at.txt", "samples/ideals_at.txt"] {
        for mut line in lines(&folder, name) {
            let (ticket, y) = (line.counted(), line.wide());
            let (mut q, mut p) = ([9; 129], [9; 129]);
            let a = ideal_at(&ticket, y, &mut q, &mut p);
            assert_eq!([a.words, a.number], [ticket.len() as u64, line.take(1)[0] as u64]);
            line.polynomial(&q, a.q_size);
            line.polynomial(&p, a.p_size);
            assert_eq!([a.distance, a.next], [line.wide(), line.wide()]);
            assert_eq!(line.1, line.0.len());
            jobs += 1;
        }
    }
    for name in ["estimates.txt", "samples/estimates.txt"] {
        for mut line in lines(&folder, name) {
            let ticket = line.counted();
            let a = estimate(&ticket);
            assert_eq!([a.words, a.number], [ticket.len() as u64, line.take(1)[0] as u64]);
            assert_eq!([a.numerator, a.denominator, a.nearest], [line.wide(), line.wide(), line.wide()]);
            assert_eq!(line.1, line.0.len());
            jobs += 1;
        }
    }
    let none = estimate(&[]);
    assert_eq!([none.words, none.number, none.numerator, none.denominator, none.nearest], [0, 1, 0, 0, 0]);
    let estimated = by_criterion();
    let (looked, more) = turns();
    mirrored += more;
    assert!(looked > 10_000);
    assert_eq!(mirrored, 15_508);
    assert_eq!(jobs, 5400);
    let halved = format!("{compared} tickets by half the walk and by the whole");
    let turned = format!("{looked} distances by halving and by listing");
    let conjugate = format!("{mirrored} records and the conjugates at their mirrors");
    let counted = format!("{estimated} estimates by the call and by Euler's criterion");
    println!("Rust: {jobs} jobs, {halved}, {turned}, {conjugate}, {counted}, 0 wrong");
}
