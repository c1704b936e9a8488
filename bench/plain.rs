//! The program `docket` in plain Rust: reads one docket from standard input
//! and prints its total and verdict, or why it is refused.

use std::fmt;
use std::io::{self, Read, Write};

const FILE_LIMIT: usize = 65_536;
const MAX_POSITIONS: usize = 32;
const MAX_CLAIMS: usize = 64;
const MAX_CENTS: u64 = 500_000;
const MAX_DAYS: u64 = 4_000;
const MAX_CONTRACTS: u64 = 5_000;
const MAX_SETS: u64 = 5_000;
const MAX_SIZE: u64 = 1_000;
const MAX_RATE: u64 = 10_000;
const UNIT_MARK_LIMIT: i64 = 50_000_000_000;
const CONTRACT_MARK_LIMIT: i64 = 50_000_000_000_000;

/// Parts in a cent, and also a rate of 100%.
const WHOLE: i64 = 10_000;

fn main() -> io::Result<()> {
    let mut file = Vec::new();
    io::stdin()
        .take(FILE_LIMIT as u64 + 1)
        .read_to_end(&mut file)?;
    let text = match judge(&file) {
        Ok(report) => report.to_string(),
        Err(fault) => fault.to_string(),
    };
    io::stdout().write_all(text.as_bytes())
}

/// Judges a whole file.
fn judge(file: &[u8]) -> Result<Report, Fault> {
    if file.len() > FILE_LIMIT {
        return Err(Fault::FileTooLong);
    }
    let (docket, marks) = read(file)?;
    let total = docket.total();
    let floor = if marks.is_empty() {
        None
    } else {
        Some(docket.certify(&marks).map_err(Fault::Certify)?)
    };
    Ok(Report {
        positions: docket.positions.len(),
        claims: docket.claims.len(),
        total,
        floor,
    })
}

// ---------------------------------------------------------------------------
// What is printed

struct Report {
    positions: usize,
    claims: usize,
    total: i128,
    floor: Option<i128>,
}

impl fmt::Display for Report {
    fn fmt(&self, f: &mut fmt::Formatter) -> fmt::Result {
        writeln!(f, "positions={}", self.positions)?;
        writeln!(f, "claims={}", self.claims)?;
        writeln!(f, "total={}", self.total)?;
        match self.floor {
            None => writeln!(f, "floor=none\nverdict=none"),
            Some(floor) => {
                let verdict = if floor < self.total { "gap" } else { "least" };
                writeln!(f, "floor={floor}\nverdict={verdict}")
            }
        }
    }
}

/// Why a file is refused.
#[derive(Clone, Copy, Debug)]
enum Fault {
    Line {
        line: usize,
        place: usize,
        cause: LineCause,
    },
    Call {
        line: usize,
        refusal: Refusal,
    },
    Certify(Refusal),
    FileTooLong,
}

/// What is wrong with a line.
#[derive(Clone, Copy, Debug)]
enum LineCause {
    Missing = 1,
    WrongKey = 2,
    IllFormed = 3,
    ClaimedBefore = 4,
}

/// Why a call on a docket, or the making of a sheet, is refused.
#[derive(Clone, Copy, Debug)]
pub enum Refusal {
    Size,
    Field(usize),
    HeldAlready(usize),
    PositionsFull,
    NoSuchArticle,
    Sets,
    NoSuchLeg(usize),
    LegTwice(usize),
    Book(BookFault),
    UnitsShort(usize),
    LinesFull,
    MarkCount { given: usize, held: usize },
    MarkBeyondLimit(usize),
    AboveAlone(usize),
    Unfair { article: usize, legs: [usize; 3] },
    Sheet,
}

/// Why a book does not allow a set.
#[derive(Clone, Copy, Debug)]
pub enum BookFault {
    WrongLeg(usize),
    Days(usize),
    NoTracking,
}

impl BookFault {
    fn cause_and_leg(self) -> (usize, usize) {
        match self {
            BookFault::WrongLeg(leg) => (1, leg),
            BookFault::Days(leg) => (2, leg),
            BookFault::NoTracking => (3, 0),
        }
    }
}

impl Refusal {
    /// The number of the refusal and its details.
    fn numbers(self) -> [usize; 5] {
        match self {
            Refusal::Size => [1, 0, 0, 0, 0],
            Refusal::Field(field) => [2, field, 0, 0, 0],
            Refusal::HeldAlready(position) => [3, position, 0, 0, 0],
            Refusal::PositionsFull => [4, 0, 0, 0, 0],
            Refusal::NoSuchArticle => [5, 0, 0, 0, 0],
            Refusal::Sets => [6, 0, 0, 0, 0],
            Refusal::NoSuchLeg(leg) => [7, leg, 0, 0, 0],
            Refusal::LegTwice(leg) => [8, leg, 0, 0, 0],
            Refusal::Book(fault) => {
                let (cause, leg) = fault.cause_and_leg();
                [9, cause, leg, 0, 0]
            }
            Refusal::UnitsShort(leg) => [10, leg, 0, 0, 0],
            Refusal::LinesFull => [11, 0, 0, 0, 0],
            Refusal::MarkCount { given, held } => [15, given, held, 0, 0],
            Refusal::MarkBeyondLimit(position) => [16, position, 0, 0, 0],
            Refusal::AboveAlone(position) => [17, 0, position, 0, 0],
            Refusal::Unfair {
                article,
                legs: [a, b, c],
            } => [17, article, a, b, c],
            Refusal::Sheet => [18, 0, 0, 0, 0],
        }
    }
}

impl fmt::Display for Fault {
    fn fmt(&self, f: &mut fmt::Formatter) -> fmt::Result {
        let [number, a, b, c, d] = match *self {
            Fault::Line { line, place, cause } => [19, line, place, cause as usize, 0],
            Fault::Call { line, refusal } => {
                let [number, first, second, ..] = refusal.numbers();
                [20, line, number, first, second]
            }
            Fault::Certify(refusal) => refusal.numbers(),
            Fault::FileTooLong => [22, 0, 0, 0, 0],
        };
        writeln!(f, "refused={number},{a},{b},{c},{d}")
    }
}

// ---------------------------------------------------------------------------
// Positions

#[derive(Clone, Copy, PartialEq, Eq, Debug)]
pub enum Side {
    Long,
    Short,
}

#[derive(Clone, Copy, PartialEq, Eq, Debug)]
pub enum Kind {
    Unit,
    Call,
    Put,
    Futures,
    Receipt,
}

/// A position's fields as they stand in the file.
pub struct Entry {
    pub side: u8,
    pub kind: u8,
    pub strike: u64,
    pub days: u64,
    pub price: u64,
    pub quantity: u64,
}

#[derive(Clone, Copy, Debug)]
pub struct Record {
    pub side: Side,
    pub kind: Kind,
    pub strike: i64,
    pub days: u64,
    pub price: i64,
    pub quantity: u64,
}

impl Record {
    /// Checks the fields in their order.
    pub fn new(entry: &Entry, size: u64) -> Result<Record, Refusal> {
        let side = match entry.side {
            b'L' => Side::Long,
            b'S' => Side::Short,
            _ => return Err(Refusal::Field(1)),
        };
        let kind = match (entry.kind, side) {
            (b'U', _) => Kind::Unit,
            (b'C', _) => Kind::Call,
            (b'P', _) => Kind::Put,
            (b'F', _) => Kind::Futures,
            (b'R', Side::Long) => Kind::Receipt,
            _ => return Err(Refusal::Field(2)),
        };
        let (strikes, days, prices, most) = match kind {
            Kind::Unit => (0..=0, 0..=0, 0..=0, MAX_CONTRACTS * size),
            Kind::Call | Kind::Put => (1..=MAX_CENTS, 0..=MAX_DAYS, 0..=MAX_CENTS, MAX_CONTRACTS),
            Kind::Futures => (0..=0, 0..=MAX_DAYS, 1..=MAX_CENTS, MAX_CONTRACTS),
            Kind::Receipt => (0..=0, 0..=0, 0..=0, MAX_CONTRACTS),
        };
        let checks = [
            (3, entry.strike, strikes),
            (4, entry.days, days),
            (5, entry.price, prices),
            (6, entry.quantity, 1..=most),
        ];
        for (field, value, range) in checks {
            if !range.contains(&value) {
                return Err(Refusal::Field(field));
            }
        }
        Ok(Record {
            side,
            kind,
            strike: entry.strike as i64,
            days: entry.days,
            price: entry.price as i64,
            quantity: entry.quantity,
        })
    }

    fn same_series(&self, other: &Record) -> bool {
        (self.side, self.kind, self.strike, self.days)
            == (other.side, other.kind, other.strike, other.days)
    }

    fn is(&self, side: Side, kind: Kind) -> bool {
        self.side == side && self.kind == kind
    }

    /// Units or contracts of this position that one set takes.
    pub fn per_set(&self, size: u64) -> u64 {
        if self.kind == Kind::Unit {
            size
        } else {
            1
        }
    }
}

/// A record with what one unit or contract of it requires by itself.
pub struct Priced {
    pub record: Record,
    alone: i64,
}

// ---------------------------------------------------------------------------
// The market

/// Requirements of one unit are in parts.
pub struct Market {
    pub price: i64,
    long: i64,
    short: i64,
    option_rate: i64,
    floor_rate: i64,
    futures_rate: Option<i64>,
    tracking_rate: Option<i64>,
}

fn price_in_range(price: u64) -> Result<i64, Refusal> {
    if (1..=MAX_CENTS).contains(&price) {
        Ok(price as i64)
    } else {
        Err(Refusal::Sheet)
    }
}

fn rate_in_range(rate: u64) -> Result<i64, Refusal> {
    if rate <= MAX_RATE {
        Ok(rate as i64)
    } else {
        Err(Refusal::Sheet)
    }
}

impl Market {
    pub fn share(
        price: u64,
        reduced: bool,
        floor: u64,
        futures: Option<u64>,
        tracking: Option<u64>,
    ) -> Result<Market, Refusal> {
        let price = price_in_range(price)?;
        let (option_rate, short) = match price {
            200.. if reduced => (3_000, price * 13_000),
            200.. => (5_000, price * 15_000),
            175..=199 => (6_000, 300 * WHOLE),
            150..=174 => (8_000, 300 * WHOLE),
            25..=149 => (10_000, price * 20_000),
            _ => (10_000, (price + 25) * WHOLE),
        };
        Ok(Market {
            price,
            long: price * option_rate,
            short,
            option_rate,
            floor_rate: rate_in_range(floor)?,
            futures_rate: futures.map(rate_in_range).transpose()?,
            tracking_rate: tracking.map(rate_in_range).transpose()?,
        })
    }

    pub fn currency(price: u64, spot: u64) -> Result<Market, Refusal> {
        let price = price_in_range(price)?;
        let spot = rate_in_range(spot)?;
        Ok(Market {
            price,
            long: price * spot,
            short: price * (WHOLE + spot),
            option_rate: spot,
            floor_rate: 75,
            futures_rate: None,
            tracking_rate: None,
        })
    }
}

// ---------------------------------------------------------------------------
// The books

#[derive(Clone, Copy, PartialEq, Eq, Debug)]
pub enum Rules {
    Share,
    Currency,
}

#[derive(Clone, Copy, PartialEq, Eq, Debug)]
pub enum Article {
    CallSpread,
    PutSpread,
    Straddle,
    ProtectivePut,
    Conversion,
    Reconversion,
    EscrowedCall,
}

/// The rules on one market, for contracts of one size.
pub struct Book {
    pub rules: Rules,
    pub market: Market,
    pub size: u64,
}

impl Book {
    pub fn articles(&self) -> &'static [Article] {
        use Article::*;
        match self.rules {
            Rules::Share => &[
                CallSpread,
                PutSpread,
                Straddle,
                ProtectivePut,
                Conversion,
                Reconversion,
            ],
            Rules::Currency => &[CallSpread, PutSpread, Straddle, ProtectivePut, EscrowedCall],
        }
    }

    fn article(&self, number: u64) -> Option<Article> {
        let index = usize::try_from(number).ok()?.checked_sub(1)?;
        self.articles().get(index).copied()
    }

    fn contract(&self, per_unit: i64) -> i64 {
        self.size as i64 * per_unit
    }

    fn contract_cents(&self, cents: i64) -> i64 {
        self.contract(cents * WHOLE)
    }

    /// What one unit or contract requires by itself.
    pub fn alone(&self, r: &Record) -> i64 {
        match (r.kind, r.side) {
            (Kind::Unit, Side::Long) => self.market.long,
            (Kind::Unit, Side::Short) => self.market.short,
            (Kind::Call | Kind::Put, Side::Long) => self.long_option(r),
            (Kind::Call | Kind::Put, Side::Short) => self.short_option(r),
            (Kind::Futures, _) => {
                self.contract(r.price * self.market.futures_rate.unwrap_or(WHOLE))
            }
            (Kind::Receipt, _) => 0,
        }
    }

    fn long_option(&self, r: &Record) -> i64 {
        let in_money = self.moneyness(r).max(0);
        let time_value = (r.price - in_money).max(0);
        let time_rate = if r.days < 270 { WHOLE } else { WHOLE / 2 };
        self.contract(time_value * time_rate + self.market.long.min(in_money * WHOLE))
    }

    fn short_option(&self, r: &Record) -> i64 {
        let premium = r.price * WHOLE;
        let out_of_money = (-self.moneyness(r)).max(0);
        let rated = self.market.option_rate * self.market.price - out_of_money * WHOLE;
        let base = if r.kind == Kind::Put {
            r.strike
        } else {
            self.market.price
        };
        let floor = self.market.floor_rate * base;
        self.contract(premium + rated.max(floor))
    }

    /// Cents in the money; out of the money it is negative.
    fn moneyness(&self, r: &Record) -> i64 {
        if r.kind == Kind::Put {
            r.strike - self.market.price
        } else {
            self.market.price - r.strike
        }
    }

    pub fn priced(&self, record: Record) -> Priced {
        let alone = self.alone(&record);
        Priced { record, alone }
    }

    /// What one set requires, where the article allows it.
    pub fn set(&self, article: Article, legs: &[&Priced]) -> Result<i64, BookFault> {
        article.check_legs(legs)?;
        self.set_of_legs(article, legs)
    }

    /// The same of legs that have their sides and kinds.
    fn set_of_legs(&self, article: Article, legs: &[&Priced]) -> Result<i64, BookFault> {
        article.check_days(legs)?;
        match article {
            Article::CallSpread | Article::PutSpread => {
                let difference = (legs[0].record.strike - legs[1].record.strike).abs();
                Ok(legs[1].alone.min(self.contract_cents(difference)))
            }
            Article::Straddle => {
                let (call, put) = (legs[0], legs[1]);
                let inverted = (put.record.strike - call.record.strike).max(0);
                Ok(call.alone.max(put.alone).max(self.contract_cents(inverted)))
            }
            Article::ProtectivePut => {
                let put = &legs[0].record;
                let loss = (self.market.price + put.price - put.strike).max(0);
                Ok(self
                    .contract(self.market.long)
                    .min(self.contract_cents(loss)))
            }
            Article::Conversion => {
                let [put, call, futures] = [0, 1, 2].map(|i| &legs[i].record);
                let cost = futures.price - put.strike.min(call.strike) + put.price - call.price;
                Ok(self.tracking()?.max(self.contract_cents(cost)))
            }
            Article::Reconversion => {
                let [put, call, futures] = [0, 1, 2].map(|i| &legs[i].record);
                let cost = put.strike.max(call.strike) - futures.price + call.price - put.price;
                Ok(self.tracking()?.max(self.contract_cents(cost)))
            }
            Article::EscrowedCall => Ok(0),
        }
    }

    fn tracking(&self) -> Result<i64, BookFault> {
        let rate = self.market.tracking_rate.ok_or(BookFault::NoTracking)?;
        Ok(self.contract(self.market.price * rate))
    }
}

impl Article {
    pub fn shape(self) -> &'static [(Side, Kind)] {
        use Kind::*;
        use Side::*;
        match self {
            Article::CallSpread => &[(Long, Call), (Short, Call)],
            Article::PutSpread => &[(Long, Put), (Short, Put)],
            Article::Straddle => &[(Short, Call), (Short, Put)],
            Article::ProtectivePut => &[(Long, Put), (Long, Unit)],
            Article::Conversion => &[(Long, Put), (Short, Call), (Long, Futures)],
            Article::Reconversion => &[(Short, Put), (Long, Call), (Short, Futures)],
            Article::EscrowedCall => &[(Short, Call), (Long, Receipt)],
        }
    }

    fn leg_count(self) -> usize {
        self.shape().len()
    }

    fn check_legs(self, legs: &[&Priced]) -> Result<(), BookFault> {
        for (i, (leg, &(side, kind))) in legs.iter().zip(self.shape()).enumerate() {
            if !leg.record.is(side, kind) {
                return Err(BookFault::WrongLeg(i + 1));
            }
        }
        Ok(())
    }

    fn check_days(self, legs: &[&Priced]) -> Result<(), BookFault> {
        let days = |i: usize| legs[i].record.days;
        match self {
            Article::CallSpread | Article::PutSpread if days(1) > days(0) => {
                Err(BookFault::Days(2))
            }
            Article::Conversion | Article::Reconversion => {
                match (1..legs.len()).find(|&i| days(i) != days(0)) {
                    Some(i) => Err(BookFault::Days(i + 1)),
                    None => Ok(()),
                }
            }
            _ => Ok(()),
        }
    }
}

// ---------------------------------------------------------------------------
// The docket

/// A claim as it stands in the file; legs are position numbers from 1.
#[derive(Clone, Copy, Debug)]
struct Claim {
    article: u64,
    legs: [u64; 3],
    sets: u64,
}

struct ClaimLine {
    claim: Claim,
    requirement: i64,
}

struct Position {
    priced: Priced,
    free: u64,
}

struct Docket {
    book: Book,
    positions: Vec<Position>,
    claims: Vec<ClaimLine>,
}

impl Docket {
    fn new(book: Book) -> Docket {
        Docket {
            book,
            positions: Vec::new(),
            claims: Vec::new(),
        }
    }

    fn enter(&mut self, entry: &Entry) -> Result<(), Refusal> {
        let record = Record::new(entry, self.book.size)?;
        if let Some(i) = self
            .positions
            .iter()
            .position(|p| p.priced.record.same_series(&record))
        {
            return Err(Refusal::HeldAlready(i + 1));
        }
        if self.positions.len() == MAX_POSITIONS {
            return Err(Refusal::PositionsFull);
        }
        self.positions.push(Position {
            priced: self.book.priced(record),
            free: record.quantity,
        });
        Ok(())
    }

    fn has_claim(&self, claim: &Claim) -> bool {
        self.claims
            .iter()
            .any(|line| line.claim.article == claim.article && line.claim.legs == claim.legs)
    }

    /// Claims sets that have no line yet.
    fn claim(&mut self, claim: Claim) -> Result<(), Refusal> {
        let article = self
            .book
            .article(claim.article)
            .ok_or(Refusal::NoSuchArticle)?;
        if !(1..=MAX_SETS).contains(&claim.sets) {
            return Err(Refusal::Sets);
        }
        let legs = self.legs(article, &claim)?;
        for i in 1..legs.len() {
            if legs[..i].contains(&legs[i]) {
                return Err(Refusal::LegTwice(i + 1));
            }
        }
        let priced: Vec<&Priced> = legs
            .iter()
            .map(|&leg| &self.positions[leg].priced)
            .collect();
        let requirement = self.book.set(article, &priced).map_err(Refusal::Book)?;
        let size = self.book.size;
        for (i, &leg) in legs.iter().enumerate() {
            let position = &self.positions[leg];
            if position.free < claim.sets * position.priced.record.per_set(size) {
                return Err(Refusal::UnitsShort(i + 1));
            }
        }
        if self.claims.len() == MAX_CLAIMS {
            return Err(Refusal::LinesFull);
        }
        for leg in legs {
            let position = &mut self.positions[leg];
            position.free -= claim.sets * position.priced.record.per_set(size);
        }
        self.claims.push(ClaimLine { claim, requirement });
        Ok(())
    }

    /// The legs of a claim as indices of positions.
    fn legs(&self, article: Article, claim: &Claim) -> Result<Vec<usize>, Refusal> {
        let mut legs = Vec::new();
        for (i, &leg) in claim.legs.iter().enumerate() {
            if i < article.leg_count() {
                if leg == 0 || leg > self.positions.len() as u64 {
                    return Err(Refusal::NoSuchLeg(i + 1));
                }
                legs.push(leg as usize - 1);
            } else if leg != 0 {
                return Err(Refusal::NoSuchLeg(i + 1));
            }
        }
        Ok(legs)
    }

    fn total(&self) -> i128 {
        let claimed: i128 = self
            .claims
            .iter()
            .map(|line| line.claim.sets as i128 * line.requirement as i128)
            .sum();
        let unclaimed: i128 = self
            .positions
            .iter()
            .map(|p| p.free as i128 * p.priced.alone as i128)
            .sum();
        claimed + unclaimed
    }

    /// The floor of the marks, where they are fair.
    fn certify(&self, marks: &[i64]) -> Result<i128, Refusal> {
        if marks.len() != self.positions.len() {
            return Err(Refusal::MarkCount {
                given: marks.len(),
                held: self.positions.len(),
            });
        }
        for (i, (position, &mark)) in self.positions.iter().zip(marks).enumerate() {
            let limit = match position.priced.record.kind {
                Kind::Unit => UNIT_MARK_LIMIT,
                _ => CONTRACT_MARK_LIMIT,
            };
            if mark.abs() > limit {
                return Err(Refusal::MarkBeyondLimit(i + 1));
            }
        }
        self.check_fair(marks)?;
        Ok(self
            .positions
            .iter()
            .zip(marks)
            .map(|(p, &mark)| p.priced.record.quantity as i128 * mark as i128)
            .sum())
    }

    /// Looks for the first breach: positions alone, then each article's sets. For a leg, only the
    /// positions of its side and its kind are tried, in order.
    fn check_fair(&self, marks: &[i64]) -> Result<(), Refusal> {
        for (i, (position, &mark)) in self.positions.iter().zip(marks).enumerate() {
            if mark > position.priced.alone {
                return Err(Refusal::AboveAlone(i + 1));
            }
        }
        for (i, &article) in self.book.articles().iter().enumerate() {
            let check = |legs: &[usize]| self.check_set(i + 1, article, legs, marks);
            match *article.shape() {
                [first, second] => {
                    let seconds = self.of(second);
                    for a in self.of(first) {
                        for &b in &seconds {
                            check(&[a, b])?;
                        }
                    }
                }
                [first, second, third] => {
                    let (seconds, thirds) = (self.of(second), self.of(third));
                    for a in self.of(first) {
                        for &b in &seconds {
                            for &c in &thirds {
                                check(&[a, b, c])?;
                            }
                        }
                    }
                }
                _ => unreachable!("an article has two or three legs"),
            }
        }
        Ok(())
    }

    /// The positions of a side and a kind.
    fn of(&self, (side, kind): (Side, Kind)) -> Vec<usize> {
        let is = |&i: &usize| self.positions[i].priced.record.is(side, kind);
        (0..self.positions.len()).filter(is).collect()
    }

    /// Judges a set whose legs have their sides and kinds, and so are distinct.
    fn check_set(
        &self,
        number: usize,
        article: Article,
        legs: &[usize],
        marks: &[i64],
    ) -> Result<(), Refusal> {
        let mut priced = [&self.positions[legs[0]].priced; 3];
        for (priced, &leg) in priced.iter_mut().zip(legs) {
            *priced = &self.positions[leg].priced;
        }
        let Ok(requirement) = self.book.set_of_legs(article, &priced[..legs.len()]) else {
            return Ok(());
        };
        let size = self.book.size;
        let worth: i64 = legs
            .iter()
            .zip(priced)
            .map(|(&leg, priced)| marks[leg] * priced.record.per_set(size) as i64)
            .sum();
        if worth > requirement {
            let mut named = [0; 3];
            for (name, &leg) in named.iter_mut().zip(legs) {
                *name = leg + 1;
            }
            return Err(Refusal::Unfair {
                article: number,
                legs: named,
            });
        }
        Ok(())
    }
}

// ---------------------------------------------------------------------------
// Reading the file

/// A line's bytes without the ending one.
#[derive(Clone, Copy)]
struct Line<'a> {
    number: usize,
    bytes: &'a [u8],
}

impl<'a> Line<'a> {
    fn fault(&self, place: usize, cause: LineCause) -> Fault {
        Fault::Line {
            line: self.number,
            place,
            cause,
        }
    }

    fn refused(&self, refusal: Refusal) -> Fault {
        Fault::Call {
            line: self.number,
            refusal,
        }
    }

    /// The key, and the place where the value begins.
    fn key(&self) -> Result<(&'a [u8], usize), Fault> {
        match self.bytes.iter().position(|&b| b == b'=') {
            Some(i) => Ok((&self.bytes[..i], i + 2)),
            None => Err(self.fault(1, LineCause::WrongKey)),
        }
    }

    fn fields(self, place: usize) -> Fields<'a> {
        Fields {
            line: self,
            place,
            rest: Some(&self.bytes[place - 1..]),
        }
    }
}

struct Lines<'a> {
    rest: &'a [u8],
    number: usize,
}

impl<'a> Lines<'a> {
    fn next(&mut self) -> Result<Option<Line<'a>>, Fault> {
        if self.rest.is_empty() {
            return Ok(None);
        }
        self.due().map(Some)
    }

    fn due(&mut self) -> Result<Line<'a>, Fault> {
        self.number += 1;
        match self.rest.iter().position(|&b| b == b'\n') {
            Some(end) => {
                let line = Line {
                    number: self.number,
                    bytes: &self.rest[..end],
                };
                self.rest = &self.rest[end + 1..];
                Ok(line)
            }
            None => Err(Fault::Line {
                line: self.number,
                place: 1,
                cause: LineCause::Missing,
            }),
        }
    }

    /// The only field of a line that has to have this key.
    fn single<T>(
        &mut self,
        key: &str,
        parse: impl Fn(&[u8]) -> Option<T>,
    ) -> Result<(Line<'a>, T), Fault> {
        let line = self.due()?;
        let (found, place) = line.key()?;
        if found != key.as_bytes() {
            return Err(line.fault(1, LineCause::WrongKey));
        }
        let mut fields = line.fields(place);
        let value = fields.next(parse)?;
        fields.finish()?;
        Ok((line, value))
    }
}

/// The fields of a line that are still to be read.
struct Fields<'a> {
    line: Line<'a>,
    place: usize,
    rest: Option<&'a [u8]>,
}

impl Fields<'_> {
    fn next<T>(&mut self, parse: impl Fn(&[u8]) -> Option<T>) -> Result<T, Fault> {
        let ill_formed = self.line.fault(self.place, LineCause::IllFormed);
        let rest = self.rest.ok_or(ill_formed)?;
        let field = match rest.iter().position(|&b| b == b',') {
            Some(comma) => {
                self.rest = Some(&rest[comma + 1..]);
                self.place += comma + 1;
                &rest[..comma]
            }
            None => {
                self.rest = None;
                self.place += rest.len();
                rest
            }
        };
        parse(field).ok_or(ill_formed)
    }

    fn finish(&self) -> Result<(), Fault> {
        match self.rest {
            Some(_) => Err(self.line.fault(self.place, LineCause::IllFormed)),
            None => Ok(()),
        }
    }
}

fn number(field: &[u8]) -> Option<u64> {
    if field.is_empty() || field.len() > 15 || (field[0] == b'0' && field.len() > 1) {
        return None;
    }
    field.iter().try_fold(0, |n, b| {
        b.is_ascii_digit().then(|| n * 10 + u64::from(b - b'0'))
    })
}

fn signed(field: &[u8]) -> Option<i64> {
    match field.strip_prefix(b"-") {
        Some(digits) => number(digits).filter(|&n| n != 0).map(|n| -(n as i64)),
        None => number(field).map(|n| n as i64),
    }
}

fn rate_or_none(field: &[u8]) -> Option<Option<u64>> {
    if field == b"none" {
        Some(None)
    } else {
        number(field).map(Some)
    }
}

fn letter(field: &[u8]) -> Option<u8> {
    match field {
        &[c @ b'A'..=b'Z'] => Some(c),
        _ => None,
    }
}

fn rules(field: &[u8]) -> Option<Rules> {
    match field {
        b"share" => Some(Rules::Share),
        b"currency" => Some(Rules::Currency),
        _ => None,
    }
}

fn yes_or_no(field: &[u8]) -> Option<bool> {
    match field {
        b"yes" => Some(true),
        b"no" => Some(false),
        _ => None,
    }
}

fn entry(mut fields: Fields) -> Result<Entry, Fault> {
    let entry = Entry {
        side: fields.next(letter)?,
        kind: fields.next(letter)?,
        strike: fields.next(number)?,
        days: fields.next(number)?,
        price: fields.next(number)?,
        quantity: fields.next(number)?,
    };
    fields.finish()?;
    Ok(entry)
}

fn claim(mut fields: Fields) -> Result<Claim, Fault> {
    let claim = Claim {
        article: fields.next(number)?,
        legs: [
            fields.next(number)?,
            fields.next(number)?,
            fields.next(number)?,
        ],
        sets: fields.next(number)?,
    };
    fields.finish()?;
    Ok(claim)
}

fn mark(mut fields: Fields) -> Result<i64, Fault> {
    let mark = fields.next(signed)?;
    fields.finish()?;
    Ok(mark)
}

fn read_book(lines: &mut Lines) -> Result<Book, Fault> {
    let (line, size) = lines.single("size", number)?;
    if !(1..=MAX_SIZE).contains(&size) {
        return Err(line.refused(Refusal::Size));
    }
    let (_, rules) = lines.single("market", rules)?;
    let (_, price) = lines.single("price", number)?;
    let (last, market) = match rules {
        Rules::Share => {
            let (_, reduced) = lines.single("reduced", yes_or_no)?;
            let (_, floor) = lines.single("floor", number)?;
            let (_, futures) = lines.single("futures", rate_or_none)?;
            let (last, tracking) = lines.single("tracking", rate_or_none)?;
            (
                last,
                Market::share(price, reduced, floor, futures, tracking),
            )
        }
        Rules::Currency => {
            let (last, spot) = lines.single("spot", number)?;
            (last, Market::currency(price, spot))
        }
    };
    let market = market.map_err(|refusal| last.refused(refusal))?;
    Ok(Book {
        rules,
        market,
        size,
    })
}

/// Which lines may still come.
#[derive(Clone, Copy, PartialEq, Eq, PartialOrd, Ord)]
enum Stage {
    Positions,
    Claims,
    Marks,
}

fn read(file: &[u8]) -> Result<(Docket, Vec<i64>), Fault> {
    let mut lines = Lines {
        rest: file,
        number: 0,
    };
    let mut docket = Docket::new(read_book(&mut lines)?);
    let mut marks = Vec::new();
    let mut stage = Stage::Positions;
    while let Some(line) = lines.next()? {
        let (key, place) = line.key()?;
        let fields = line.fields(place);
        match key {
            b"pos" if stage == Stage::Positions => {
                let entry = entry(fields)?;
                docket
                    .enter(&entry)
                    .map_err(|refusal| line.refused(refusal))?;
            }
            b"claim" if stage <= Stage::Claims => {
                stage = Stage::Claims;
                let claim = claim(fields)?;
                if docket.has_claim(&claim) {
                    return Err(line.fault(1, LineCause::ClaimedBefore));
                }
                docket
                    .claim(claim)
                    .map_err(|refusal| line.refused(refusal))?;
            }
            b"mark" if marks.len() < MAX_POSITIONS => {
                stage = Stage::Marks;
                marks.push(mark(fields)?);
            }
            _ => return Err(line.fault(1, LineCause::WrongKey)),
        }
    }
    Ok((docket, marks))
}
