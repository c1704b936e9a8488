//! Writes input files for the program `docket`.
//!
//! `generate DIR COUNT SEED` writes COUNT files, lawful ones and damaged ones.
//! `generate largest FILE` writes one accepted file with as many lines as a
//! lawful file can have, and `generate largest FILE POSITIONS` one with that
//! many positions, 4, 8, 12 and so on to 32.
//!
//! Prices come from `plain.rs`, so that claims are often grantable and marks
//! often fair; what a program must answer is decided by neither.

#[allow(dead_code)]
#[path = "plain.rs"]
mod plain;

use plain::{Article, Book, Entry, Kind, Market, Priced, Record, Rules, Side};
use std::path::Path;
use std::{env, fs, io, process};

fn main() -> io::Result<()> {
    let args: Vec<String> = env::args().skip(1).collect();
    let args: Vec<&str> = args.iter().map(String::as_str).collect();
    match args[..] {
        ["largest", file] => fs::write(file, largest(MOST).text()),
        ["largest", file, positions] => match positions.parse() {
            Ok(n) if n % 4 == 0 && (4..=MOST).contains(&n) => fs::write(file, largest(n).text()),
            _ => usage(),
        },
        [dir, count, seed] => match (count.parse(), seed.parse()) {
            (Ok(count), Ok(seed)) => write_many(Path::new(dir), count, seed),
            _ => usage(),
        },
        _ => usage(),
    }
}

fn usage() -> ! {
    eprintln!("usage: generate DIR COUNT SEED\n       generate largest FILE [POSITIONS]");
    process::exit(2)
}

fn write_many(dir: &Path, count: u64, seed: u64) -> io::Result<()> {
    fs::create_dir_all(dir)?;
    for i in 0..count {
        let mut rng = Rng::new(seed, i);
        let mut text = lawful(&mut rng).text().into_bytes();
        if rng.chance(50) {
            for _ in 0..rng.from(1, 2) {
                damage(&mut rng, &mut text);
            }
        }
        fs::write(dir.join(format!("{i:05}.in")), text)?;
    }
    Ok(())
}

// ---------------------------------------------------------------------------
// Random numbers: splitmix64

struct Rng(u64);

impl Rng {
    fn new(seed: u64, stream: u64) -> Rng {
        let mut rng = Rng(seed);
        rng.0 = rng.next() ^ stream.wrapping_mul(0xd1b5_4a32_d192_ed03);
        rng
    }

    fn next(&mut self) -> u64 {
        self.0 = self.0.wrapping_add(0x9e37_79b9_7f4a_7c15);
        let mut z = self.0;
        z = (z ^ (z >> 30)).wrapping_mul(0xbf58_476d_1ce4_e5b9);
        z = (z ^ (z >> 27)).wrapping_mul(0x94d0_49bb_1331_11eb);
        z ^ (z >> 31)
    }

    fn below(&mut self, n: usize) -> usize {
        (self.next() % n as u64) as usize
    }

    fn from(&mut self, least: u64, most: u64) -> u64 {
        least + self.next() % (most - least + 1)
    }

    fn chance(&mut self, percent: u64) -> bool {
        self.next() % 100 < percent
    }

    fn pick<T: Copy>(&mut self, choices: &[T]) -> T {
        choices[self.below(choices.len())]
    }
}

// ---------------------------------------------------------------------------
// Files

struct Claim {
    article: usize,
    legs: Vec<usize>,
    sets: u64,
}

impl Claim {
    /// The numbers of its line, with other sets.
    fn numbers(&self, sets: u64) -> [u64; 5] {
        let leg = |i: usize| self.legs.get(i).map_or(0, |&leg| leg as u64 + 1);
        [self.article as u64, leg(0), leg(1), leg(2), sets]
    }
}

/// A file in the making; legs are indices of positions.
struct Draft {
    sheet: String,
    book: Book,
    positions: Vec<Entry>,
    records: Vec<Record>,
    free: Vec<u64>,
    claims: Vec<Claim>,
    last_claim: Option<[u64; 5]>,
    marks: Vec<i64>,
}

impl Draft {
    fn new(sheet: String, book: Book) -> Draft {
        Draft {
            sheet,
            book,
            positions: Vec::new(),
            records: Vec::new(),
            free: Vec::new(),
            claims: Vec::new(),
            last_claim: None,
            marks: Vec::new(),
        }
    }

    fn share(
        size: u64,
        price: u64,
        reduced: bool,
        floor: u64,
        futures: Option<u64>,
        tracking: Option<u64>,
    ) -> Draft {
        let word = if reduced { "yes" } else { "no" };
        let rate = |r: Option<u64>| r.map_or("none".to_string(), |r| r.to_string());
        let sheet = format!(
            "size={size}\nmarket=share\nprice={price}\nreduced={word}\nfloor={floor}\nfutures={}\ntracking={}\n",
            rate(futures),
            rate(tracking)
        );
        let market = Market::share(price, reduced, floor, futures, tracking);
        let market = market.expect("a share sheet in range");
        Draft::new(
            sheet,
            Book {
                rules: Rules::Share,
                market,
                size,
            },
        )
    }

    fn currency(size: u64, price: u64, spot: u64) -> Draft {
        let sheet = format!("size={size}\nmarket=currency\nprice={price}\nspot={spot}\n");
        let market = Market::currency(price, spot).expect("a currency sheet in range");
        Draft::new(
            sheet,
            Book {
                rules: Rules::Currency,
                market,
                size,
            },
        )
    }

    fn enter(&mut self, entry: Entry) {
        let record = Record::new(&entry, self.book.size).expect("a record in range");
        self.positions.push(entry);
        self.records.push(record);
        self.free.push(record.quantity);
    }

    fn holds(&self, entry: &Entry) -> bool {
        let series = |e: &Entry| (e.side, e.kind, e.strike, e.days);
        self.positions.iter().any(|p| series(p) == series(entry))
    }

    fn has_line(&self, article: usize, legs: &[usize]) -> bool {
        self.claims
            .iter()
            .any(|c| c.article == article && c.legs == legs)
    }

    /// The article with this number.
    fn article(&self, number: usize) -> Article {
        self.book.articles()[number - 1]
    }

    fn requirement(&self, article: usize, legs: &[usize]) -> Option<i64> {
        let price = |&leg: &usize| self.book.priced(self.records[leg]);
        let priced: Vec<Priced> = legs.iter().map(price).collect();
        let legs: Vec<&Priced> = priced.iter().collect();
        self.book.set(self.article(article), &legs).ok()
    }

    /// The most sets that the free units fill.
    fn fillable(&self, legs: &[usize]) -> u64 {
        let sets = |&leg: &usize| self.free[leg] / self.records[leg].per_set(self.book.size);
        legs.iter().map(sets).min().unwrap_or(0)
    }

    fn claim(&mut self, article: usize, legs: Vec<usize>, sets: u64) {
        for &leg in &legs {
            let taken = sets * self.records[leg].per_set(self.book.size);
            self.free[leg] = self.free[leg].saturating_sub(taken);
        }
        self.claims.push(Claim {
            article,
            legs,
            sets,
        });
    }

    fn alone(&self) -> Vec<i64> {
        self.records.iter().map(|r| self.book.alone(r)).collect()
    }

    /// Lowers a mark where a set's marks pass its requirement.
    fn lower(&self, marks: &mut [i64], article: usize, legs: &[usize]) {
        let Some(requirement) = self.requirement(article, legs) else {
            return;
        };
        let taken = |leg: usize| self.records[leg].per_set(self.book.size) as i64;
        let worth: i64 = legs.iter().map(|&leg| marks[leg] * taken(leg)).sum();
        if worth > requirement {
            let contracts = |&leg: &usize| self.records[leg].kind != Kind::Unit;
            let claimed = |&leg: &usize| contracts(&leg) && self.free[leg] == 0;
            let leg = legs.iter().copied().find(claimed);
            let leg = leg.or(legs.iter().copied().find(contracts));
            marks[leg.expect("every article has a leg in contracts")] -= worth - requirement;
        }
    }

    /// Fair marks: each position alone, lowered first for the claims made and
    /// then for every other set. Lowering one set's marks breaches no other.
    fn fair(&self) -> Vec<i64> {
        let mut marks = self.alone();
        for claim in &self.claims {
            self.lower(&mut marks, claim.article, &claim.legs);
        }
        for article in 1..=self.book.articles().len() {
            let shape = self.article(article).shape();
            let mut legs = Vec::new();
            self.lower_all(&mut marks, article, shape, &mut legs);
        }
        marks
    }

    fn lower_all(
        &self,
        marks: &mut [i64],
        article: usize,
        shape: &[(Side, Kind)],
        legs: &mut Vec<usize>,
    ) {
        let Some((&(side, kind), later)) = shape.split_first() else {
            self.lower(marks, article, legs);
            return;
        };
        for leg in self.of_kind(side, kind) {
            if !legs.contains(&leg) {
                legs.push(leg);
                self.lower_all(marks, article, later, legs);
                legs.pop();
            }
        }
    }

    fn of_kind(&self, side: Side, kind: Kind) -> Vec<usize> {
        let fits = |&i: &usize| self.records[i].side == side && self.records[i].kind == kind;
        (0..self.records.len()).filter(fits).collect()
    }

    fn text(&self) -> String {
        let mut text = self.sheet.clone();
        for p in &self.positions {
            let (side, kind) = (p.side as char, p.kind as char);
            text += &format!(
                "pos={side},{kind},{},{},{},{}\n",
                p.strike, p.days, p.price, p.quantity
            );
        }
        let claims = self.claims.iter().map(|c| c.numbers(c.sets));
        for [article, a, b, c, sets] in claims.chain(self.last_claim) {
            text += &format!("claim={article},{a},{b},{c},{sets}\n");
        }
        for mark in &self.marks {
            text += &format!("mark={mark}\n");
        }
        text
    }
}

// ---------------------------------------------------------------------------
// Lawful files

const PRICES: [u64; 14] = [
    1, 24, 25, 26, 149, 150, 174, 175, 199, 200, 201, 5_000, 499_999, 500_000,
];
const RATES: [u64; 8] = [0, 1, 75, 150, 500, 2_000, 9_999, 10_000];
const SIZES: [u64; 6] = [1, 10, 50, 100, 100, 1_000];
const DAYS: [u64; 7] = [0, 30, 100, 269, 270, 271, 4_000];

fn lawful(rng: &mut Rng) -> Draft {
    let mut draft = sheet(rng);
    let count = match rng.below(20) {
        0 => 0,
        1..=9 => rng.from(1, 6),
        10..=14 => rng.from(7, 16),
        15..=18 => rng.from(17, 32),
        _ => 33,
    };
    let days: Vec<u64> = (0..rng.from(1, 3)).map(|_| rng.pick(&DAYS)).collect();
    let repeats = rng.chance(4);
    for _ in 0..count {
        position(rng, &mut draft, &days, repeats);
    }
    let many = count > 16 && rng.chance(30);
    let claims = match rng.below(10) {
        _ if many => rng.from(63, 66),
        0..=2 => 0,
        3..=7 => rng.from(1, 8),
        _ => rng.from(9, 40),
    };
    for _ in 0..claims {
        claim(rng, &mut draft, many);
    }
    if rng.chance(6) {
        odd_claim(rng, &mut draft);
    }
    if draft.positions.len() <= 32 {
        marks(rng, &mut draft);
    }
    draft
}

fn sheet(rng: &mut Rng) -> Draft {
    let size = if rng.chance(70) {
        rng.pick(&SIZES)
    } else {
        rng.from(1, 1_000)
    };
    let price = match rng.below(3) {
        0 => rng.pick(&PRICES),
        1 => rng.from(1, 500),
        _ => rng.from(500, 500_000),
    };
    let rate = |rng: &mut Rng| match rng.chance(50) {
        true => rng.pick(&RATES),
        false => rng.from(0, 10_000),
    };
    if rng.chance(35) {
        let spot = rate(rng);
        return Draft::currency(size, price, spot);
    }
    let reduced = rng.chance(40);
    let floor = rate(rng);
    let futures = if rng.chance(80) {
        Some(rate(rng))
    } else {
        None
    };
    let tracking = if rng.chance(80) {
        Some(rng.from(0, 300))
    } else {
        None
    };
    Draft::share(size, price, reduced, floor, futures, tracking)
}

fn position(rng: &mut Rng, draft: &mut Draft, days: &[u64], repeats: bool) {
    for _ in 0..20 {
        let entry = entry(rng, draft, days);
        if repeats || !draft.holds(&entry) {
            draft.enter(entry);
            return;
        }
    }
}

fn entry(rng: &mut Rng, draft: &Draft, days: &[u64]) -> Entry {
    let price = draft.book.market.price as u64;
    let kind = rng.pick(b"UCCCPPPFR");
    let side = if kind == b'R' { b'L' } else { rng.pick(b"LS") };
    let contracts = match rng.below(4) {
        0 => rng.pick(&[1, 4_999, 5_000]),
        1 => rng.from(1, 5_000),
        _ => rng.from(1, 20),
    };
    let near = |rng: &mut Rng| {
        let spread = price / 5 + 5;
        (price + rng.from(0, 2 * spread))
            .saturating_sub(spread)
            .clamp(1, 500_000)
    };
    let (strike, days, price, quantity) = match kind {
        b'U' => {
            let odd = if rng.chance(30) {
                rng.below(draft.book.size as usize) as u64
            } else {
                0
            };
            (
                0,
                0,
                0,
                (contracts * draft.book.size + odd).min(5_000 * draft.book.size),
            )
        }
        b'F' => (0, rng.pick(days), near(rng), contracts),
        b'R' => (0, 0, 0, contracts),
        _ => {
            let strike = match rng.below(12) {
                0 => rng.pick(&[1, 500_000]),
                1 | 2 => price,
                _ => near(rng),
            };
            let value = if kind == b'C' {
                price.saturating_sub(strike)
            } else {
                strike.saturating_sub(price)
            };
            let premium = match rng.below(12) {
                0 => rng.pick(&[0, 500_000]),
                1 => value,
                _ => (value + rng.from(0, price / 20 + 2)).min(500_000),
            };
            (strike, rng.pick(days), premium, contracts)
        }
    };
    Entry {
        side,
        kind,
        strike,
        days,
        price,
        quantity,
    }
}

fn claim(rng: &mut Rng, draft: &mut Draft, small: bool) {
    for _ in 0..60 {
        let article = 1 + rng.below(draft.book.articles().len());
        let mut legs = Vec::new();
        for &(side, kind) in draft.article(article).shape() {
            let fitting = draft.of_kind(side, kind);
            if !fitting.is_empty() {
                legs.push(rng.pick(&fitting));
            }
        }
        if legs.len() < draft.article(article).shape().len() {
            continue;
        }
        let fillable = draft.fillable(&legs);
        let allowed = draft.requirement(article, &legs).is_some() && fillable > 0;
        if allowed && !draft.has_line(article, &legs) {
            let sets = match rng.below(200) {
                0 => fillable + 1,
                _ if small => 1,
                1..=99 => fillable,
                _ => rng.from(1, fillable),
            };
            draft.claim(article, legs, sets);
            return;
        }
    }
}

/// A claim that is most often refused: made again, or of any numbers.
fn odd_claim(rng: &mut Rng, draft: &mut Draft) {
    let last = draft.positions.len() as u64 + 1;
    let sets = rng.pick(&[0, 1, 1, 1, 2, 5_000, 5_001]);
    draft.last_claim = Some(match draft.claims.first() {
        Some(first) if rng.chance(30) => first.numbers(sets),
        _ => {
            let first = rng.from(0, last);
            let second = if rng.chance(25) {
                first
            } else {
                rng.from(0, last)
            };
            let third = rng.pick(&[0, 0, 1, 2, last]);
            [rng.from(0, 7), first, second, third, sets]
        }
    });
}

fn marks(rng: &mut Rng, draft: &mut Draft) {
    let count = draft.records.len();
    let mut marks = match rng.below(10) {
        0 | 1 => return,
        2 | 3 => draft.alone(),
        _ => draft.fair(),
    };
    match rng.below(10) {
        0 if count > 0 => {
            let i = rng.below(count);
            marks[i] += rng.pick(&[1, 1, 10_000]);
        }
        1 if count > 0 => {
            let i = rng.below(count);
            marks[i] -= rng.pick(&[1, 1, 10_000, 1_000_000_000]);
        }
        2 => {
            for mark in &mut marks {
                *mark -= rng.from(0, 1_000_000) as i64;
            }
        }
        3 if count > 0 && rng.chance(50) => {
            let i = rng.below(count);
            let limit = rng.pick(&[50_000_000_000, 50_000_000_000_000]);
            marks[i] = rng.pick(&[1, -1]) * (limit + rng.pick(&[0, 1]));
        }
        4 if rng.chance(30) => marks.push(0),
        4 if rng.chance(30) => {
            marks.pop();
        }
        _ => {}
    }
    draft.marks = marks;
}

// ---------------------------------------------------------------------------
// Damage

const NUMBERS: [&str; 34] = [
    "",
    "0",
    "00",
    "01",
    "1",
    "-0",
    "-1",
    "--1",
    "+1",
    "1,1",
    "1=1",
    "none",
    "6",
    "7",
    "32",
    "33",
    "64",
    "1000",
    "1001",
    "4000",
    "4001",
    "5000",
    "5001",
    "10000",
    "10001",
    "500000",
    "500001",
    "50000000000",
    "-50000000001",
    "50000000000000",
    "-50000000000001",
    "999999999999999",
    "1000000000000000",
    "-999999999999999",
];
const BYTES: &[u8] = b"LSUCPFRXAZlz=,,\n\n\r --000123456789\0\xff";

fn damage(rng: &mut Rng, text: &mut Vec<u8>) {
    match rng.below(14) {
        0 => {
            let at = rng.below(text.len() + 1);
            text.truncate(at);
        }
        1 | 2 if !text.is_empty() => {
            let at = rng.below(text.len());
            text[at] = byte(rng);
        }
        3 if !text.is_empty() => {
            let at = rng.below(text.len());
            text.remove(at);
        }
        4 => {
            let at = rng.below(text.len() + 1);
            let byte = byte(rng);
            text.insert(at, byte);
        }
        5 if rng.chance(8) => {
            let filler = rng.pick(b"x\n");
            text.resize(rng.from(65_535, 65_538) as usize, filler);
        }
        5..=7 => damage_lines(rng, text),
        8 => damage_letter(rng, text),
        _ => damage_number(rng, text),
    }
}

fn byte(rng: &mut Rng) -> u8 {
    if rng.chance(80) {
        rng.pick(BYTES)
    } else {
        rng.next() as u8
    }
}

/// Removes, doubles or swaps lines.
fn damage_lines(rng: &mut Rng, text: &mut Vec<u8>) {
    let mut lines: Vec<Vec<u8>> = text
        .split_inclusive(|&b| b == b'\n')
        .map(<[u8]>::to_vec)
        .collect();
    if lines.is_empty() {
        return;
    }
    let at = rng.below(lines.len());
    match rng.below(3) {
        0 => {
            lines.remove(at);
        }
        1 => {
            let line = lines[at].clone();
            let to = if rng.chance(50) {
                at
            } else {
                rng.below(lines.len())
            };
            lines.insert(to, line);
        }
        _ => {
            let other = if rng.chance(50) {
                (at + 1) % lines.len()
            } else {
                rng.below(lines.len())
            };
            lines.swap(at, other);
        }
    }
    *text = lines.concat();
}

/// Replaces a capital letter.
fn damage_letter(rng: &mut Rng, text: &mut [u8]) {
    let places: Vec<usize> = (0..text.len())
        .filter(|&i| text[i].is_ascii_uppercase())
        .collect();
    if !places.is_empty() {
        text[rng.pick(&places)] = rng.pick(b"LSUCPFRLSUCPFRX");
    }
}

/// Replaces one of the numbers.
fn damage_number(rng: &mut Rng, text: &mut Vec<u8>) {
    let digit = |i: usize| text[i].is_ascii_digit();
    let starts: Vec<usize> = (0..text.len())
        .filter(|&i| digit(i) && (i == 0 || !digit(i - 1)))
        .collect();
    if starts.is_empty() {
        return;
    }
    let start = rng.pick(&starts);
    let end = (start..text.len())
        .find(|&i| !digit(i))
        .unwrap_or(text.len());
    let number = rng.pick(&NUMBERS);
    text.splice(start..end, number.bytes());
}

// ---------------------------------------------------------------------------
// The largest files

const MOST: usize = 32;

/// A share sheet with so many positions, a multiple of 4 up to 32, a fair mark for each, and at most two
/// claim lines for each, no two alike. The positions are long and short calls and puts of as many strikes
/// as leave room for futures and units of either side; four are those of one strike alone.
fn largest(positions: usize) -> Draft {
    let strikes = (positions / 4 - 1).max(1);
    let mut draft = Draft::share(1_000, 450_000, false, 500, Some(2_000), Some(150));
    let days = 1_000;
    let quantity = 5_000;
    for i in 0..strikes as u64 {
        let strike = 435_000 + 5_000 * i;
        let call = 450_000u64.saturating_sub(strike) + 12_345 - 1_000 * i;
        let put = strike.saturating_sub(450_000) + 5_432 + 1_000 * i;
        for (side, kind, price) in [
            (b'L', b'C', call),
            (b'S', b'C', call),
            (b'L', b'P', put),
            (b'S', b'P', put),
        ] {
            draft.enter(Entry {
                side,
                kind,
                strike,
                days,
                price,
                quantity,
            });
        }
    }
    let sides: &[u8] = if positions > 4 { b"LS" } else { b"" };
    for &side in sides {
        draft.enter(Entry {
            side,
            kind: b'F',
            strike: 0,
            days,
            price: 451_234,
            quantity,
        });
        draft.enter(Entry {
            side,
            kind: b'U',
            strike: 0,
            days: 0,
            price: 0,
            quantity: quantity * 1_000,
        });
    }
    // Sets are few enough for every claim to find its units free.
    for (article, most) in [(1, 12), (2, 12), (3, 10), (4, 7), (5, 12), (6, 11)] {
        for line in 0..most * positions / MOST {
            let mut legs = Vec::new();
            for (i, &(side, kind)) in draft.article(article).shape().iter().enumerate() {
                let fitting = draft.of_kind(side, kind);
                let at = line + i * (1 + line / strikes);
                legs.extend(fitting.get(at % fitting.len().max(1)));
            }
            let whole = legs.len() == draft.article(article).shape().len();
            if whole && !draft.has_line(article, &legs) {
                draft.claim(article, legs, 400 + line as u64);
            }
        }
    }
    draft.marks = draft.fair();
    draft
}
