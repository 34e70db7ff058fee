//! Measures the library against the plain version: first that both answer alike, then the times, as tables.
use bench::banks::{self, Rng};
use bench::{ours, plain};
use std::collections::HashSet;
use std::fs::File;
use std::hint::black_box;
use std::path::{Path, PathBuf};
use std::process::{Command, Stdio};
use std::time::{Duration, Instant};

const RANDOM: usize = 20_000;
const MANY: usize = 2_000;
const DRAWS: usize = 20;

// ---- Both answer alike

/// Refusals have numbers below it. 18 is returned no more.
const REFUSALS: usize = 26;
const NEVER: [usize; 1] = [18];

/// How often each refusal was given, 0 for accepted.
struct Alike {
    refusals: [usize; REFUSALS],
    calls: usize,
}

impl Alike {
    fn note<T: PartialEq + std::fmt::Debug>(&mut self, call: &str, input: &dyn std::fmt::Debug, a: Result<T, u8>, b: Result<T, u8>) {
        if a != b {
            eprintln!("{call} differs: ours {a:?}, plain {b:?}, on {input:?}");
            std::process::exit(1);
        }
        self.calls += 1;
        self.refusals[*a.as_ref().err().unwrap_or(&0) as usize] += 1;
    }

    fn same_buffers(&self, call: &str, input: &dyn std::fmt::Debug, a: &[u8], b: &[u8]) {
        if a != b {
            eprintln!("{call} differs in the buffer: ours {a:?}, plain {b:?}, on {input:?}");
            std::process::exit(1);
        }
    }

    fn grammar(&mut self, g: &[u8]) {
        self.note("check_grammar", &g, ours::check_grammar(g), plain::check_grammar(g));
    }

    fn count(&mut self, g: &[u8], n: u64) {
        self.note("count", &(g, n), ours::count(g, n), plain::count(g, n));
    }

    fn unrank(&mut self, g: &[u8], n: u64, d: u64, room: usize) {
        let (mut x, mut y) = (vec![77; room], vec![77; room]);
        let input = (g, n, d, room);
        self.note("unrank", &input, ours::unrank(g, n, d, &mut x), plain::unrank(g, n, d, &mut y));
        self.same_buffers("unrank", &input, &x, &y);
    }

    fn rank(&mut self, g: &[u8], s: &[u8]) {
        self.note("rank", &(g, s), ours::rank(g, s), plain::rank(g, s));
    }

    fn history(&mut self, h: &[u8]) {
        self.note("check_history", &h, ours::check_history(h), plain::check_history(h));
    }

    fn remaining(&mut self, g: &[u8], h: &[u8], n: u64, v: u64) {
        self.note("remaining", &(g, h, n, v), ours::remaining(g, h, n, v), plain::remaining(g, h, n, v));
    }

    fn draw(&mut self, g: &[u8], h: &[u8], n: u64, v: u64, q: u64, room: usize) {
        let (mut x, mut y) = (vec![77; room], vec![77; room]);
        let input = (g, h, n, v, q, room);
        self.note("draw", &input, ours::draw(g, h, n, v, q, &mut x), plain::draw(g, h, n, v, q, &mut y));
        self.same_buffers("draw", &input, &x, &y);
    }

    fn remaining_matching(&mut self, g: &[u8], h: &[u8], p: &[u8], v: u64) {
        let input = (g, h, p, v);
        self.note("remaining_matching", &input, ours::remaining_matching(g, h, p, v), plain::remaining_matching(g, h, p, v));
    }

    fn draw_matching(&mut self, g: &[u8], h: &[u8], p: &[u8], v: u64, q: u64, room: usize) {
        let (mut x, mut y) = (vec![77; room], vec![77; room]);
        let input = (g, h, p, v, q, room);
        let ours = ours::draw_matching(g, h, p, v, q, &mut x);
        self.note("draw_matching", &input, ours, plain::draw_matching(g, h, p, v, q, &mut y));
        self.same_buffers("draw_matching", &input, &x, &y);
    }

    fn draw_weighted(&mut self, g: &[u8], h: &[u8], (n, v): (u64, u64), w: &[u8], ticket: u64, room: usize) {
        let (mut x, mut y) = (vec![77; room], vec![77; room]);
        let input = (g, h, n, v, w, ticket, room);
        let ours = ours::draw_weighted(g, h, n, v, w, ticket, &mut x);
        self.note("draw_weighted", &input, ours, plain::draw_weighted(g, h, n, v, w, ticket, &mut y));
        self.same_buffers("draw_weighted", &input, &x, &y);
    }

    fn append(&mut self, h: &[u8], s: &[u8], v: u64, p: u64) {
        let (mut x, mut y) = (h.to_vec(), h.to_vec());
        let input = (h, s, v, p);
        self.note("append", &input, ours::append(&mut x, s, v, p), plain::append(&mut y, s, v, p));
        self.same_buffers("append", &input, &x, &y);
    }
}

/// Small random inputs, all eleven calls on each. Patterns and weights have random numbers of their own.
fn random_inputs(alike: &mut Alike) {
    let (mut rng, mut patterns, mut weights) = (Rng::new(1), Rng::new(5), Rng::new(8));
    for _ in 0..RANDOM {
        let g = banks::small_bank(&mut rng);
        let n = match rng.below(12) {
            0 => 0,
            1 => 16,
            2 => 17,
            3 => rng.next(),
            _ => 1 + rng.below(5),
        };
        let v = match rng.below(12) {
            0 => 16,
            1 => rng.next(),
            2 => 1 << (4 + rng.below(60)),
            _ => banks::small_voice(&mut rng) as u64,
        };
        let total = plain::count(&g, n).unwrap_or(0);
        let derivable = |rng: &mut Rng| {
            let mut s = vec![0; 16];
            let d = rng.below(total.max(1));
            plain::unrank(&g, n, d, &mut s).ok()?;
            s.truncate(n as usize);
            Some(s)
        };
        let h = banks::small_history(&mut rng, &mut |rng| derivable(rng));
        let s = match rng.below(8) {
            0 => vec![0; rng.index(40)],
            1 | 2 => banks::small_sentence(&mut rng),
            _ => derivable(&mut rng).unwrap_or_default(),
        };
        let room = if rng.below(6) == 0 { rng.index(6) } else { 17 };
        let number = |rng: &mut Rng| match rng.below(5) {
            0 => rng.next(),
            1 => total,
            _ => rng.below(total.saturating_add(2).min(1 << 40)),
        };
        alike.grammar(&g);
        alike.count(&g, n);
        alike.unrank(&g, n, number(&mut rng), room);
        alike.rank(&g, &s);
        alike.history(&h);
        alike.remaining(&g, &h, n, v);
        alike.draw(&g, &h, n, v, number(&mut rng), room);
        let p = match rng.below(8) {
            0 => rng.below(18),
            1 => s.len() as u64,
            2 => 1 << rng.below(64),
            3..=5 => rng.below(s.len().max(1) as u64),
            _ => 0,
        };
        alike.append(&h, &s, v, p);
        random_pattern(alike, &mut patterns, (&g, &h, n, v), &mut |rng| derivable(rng));
        random_weights(alike, &mut weights, (&g, &h, n, v));
    }
}

/// The two calls with a pattern on such an input, with several draws.
fn random_pattern(
    alike: &mut Alike,
    rng: &mut Rng,
    input: (&[u8], &[u8], u64, u64),
    sentence: &mut dyn FnMut(&mut Rng) -> Option<Vec<u8>>,
) {
    let (g, h, n, v) = input;
    let words = g.get(1).copied().unwrap_or(0);
    // of a sentence in the history, of a derivable one, of random words; or blanks alone, also of a wrong length
    let first = h.get(8..24).filter(|s| n as usize <= s.len()).map(|s| s[..n as usize].to_vec());
    let s = match (rng.below(6), first) {
        (0, _) => banks::small_sentence(rng),
        (1, _) => vec![255; n.min(40) as usize],
        (2 | 3, Some(first)) => first,
        _ => sentence(rng).unwrap_or_else(|| banks::small_sentence(rng)),
    };
    let p = banks::small_pattern(rng, &s, words);
    let room = if rng.below(6) == 0 { rng.index(6) } else { 17 };
    alike.remaining_matching(g, h, &p, v);
    let left = plain::remaining_matching(g, h, &p, v).map_or(0, |(_, _, left)| left);
    for q in [0, rng.below(left.saturating_add(2)), left.wrapping_sub(1), left, rng.next()] {
        alike.draw_matching(g, h, &p, v, q, room);
    }
}

/// The call with weights on such an input, in its voice or in that of a record, with several tickets.
fn random_weights(alike: &mut Alike, rng: &mut Rng, (g, h, n, v): (&[u8], &[u8], u64, u64)) {
    let w = banks::small_weights(rng, g.get(1).copied().unwrap_or(0));
    let v = if rng.below(2) == 0 { v } else { h.get(7).map_or(0, |&b| b as u64 / 16) };
    let room = if rng.below(6) == 0 { rng.index(6) } else { 17 };
    let tickets = tickets(g, h, (n, v), &w).unwrap_or(0);
    for ticket in [0, rng.below(tickets.saturating_add(2)), tickets.wrapping_sub(1), tickets, rng.next()] {
        alike.draw_weighted(g, h, (n, v), &w, ticket, room);
    }
}

// ---- Times

struct Row {
    ours: f64,
    plain: f64,
}

struct Table {
    title: String,
    first: &'static str,
    rows: Vec<(String, Row)>,
}

/// The tables so far: of each row the best time of each side over the sweeps.
#[derive(Default)]
struct Report {
    tables: Vec<Table>,
    current: usize,
}

impl Report {
    fn table(&mut self, title: String, first: &'static str) {
        self.current = match self.tables.iter().position(|t| t.title == title) {
            Some(i) => i,
            None => {
                self.tables.push(Table { title, first, rows: Vec::new() });
                self.tables.len() - 1
            }
        };
    }

    fn row(&mut self, what: &str, row: Row) {
        let rows = &mut self.tables[self.current].rows;
        match rows.iter_mut().find(|(w, _)| w == what) {
            Some((_, old)) => {
                old.ours = old.ours.min(row.ours);
                old.plain = old.plain.min(row.plain);
            }
            None => rows.push((what.to_string(), row)),
        }
    }

    fn print(&self) {
        for t in &self.tables {
            println!("\n{}\n\n| {} | ours | plain Rust | ratio |\n|---|---:|---:|---:|", t.title, t.first);
            for (what, row) in &t.rows {
                println!("| {what} | {} | {} | {:.2} |", shown(row.ours), shown(row.plain), row.ours / row.plain);
            }
        }
    }
}

/// A call's time in nanoseconds. The inputs go through in chunks of some 100 µs; each chunk is timed for ours and then for plain, round after
/// round, and counts with its best round. The rounds end once none was better by a two-hundredth for as long as `BUDGET`.
fn measure<A>(inputs: usize, mut ours: impl FnMut(usize) -> A, mut plain: impl FnMut(usize) -> A) -> Row {
    let mut slow = f64::MAX;
    for _ in 0..5 {
        let from = Instant::now();
        black_box(ours(black_box(0)));
        black_box(plain(black_box(0)));
        slow = slow.min(from.elapsed().as_nanos() as f64 / 2.0);
    }
    let chunk = ((100_000.0 / slow) as usize).clamp(1, 5_000);
    let chunks = inputs.div_ceil(chunk).max(1);
    let mut best = vec![(u64::MAX, u64::MAX); chunks];
    let begun = Instant::now();
    let (mut better, mut sum) = (begun, u64::MAX);
    let mut round = 0;
    while round < 5 || better.elapsed() < BUDGET && begun.elapsed() < MOST {
        for (c, b) in best.iter_mut().enumerate() {
            let from = Instant::now();
            for i in 0..chunk {
                black_box(ours(black_box((c * chunk + i) % inputs)));
            }
            let between = Instant::now();
            for i in 0..chunk {
                black_box(plain(black_box((c * chunk + i) % inputs)));
            }
            let end = Instant::now();
            b.0 = b.0.min((between - from).as_nanos() as u64);
            b.1 = b.1.min((end - between).as_nanos() as u64);
        }
        round += 1;
        let now = best.iter().map(|b| b.0 + b.1).sum::<u64>();
        if round <= 5 || now < sum - sum / 200 {
            (better, sum) = (Instant::now(), now);
        }
    }
    let calls = (chunk * chunks) as f64;
    Row { ours: best.iter().map(|b| b.0).sum::<u64>() as f64 / calls, plain: best.iter().map(|b| b.1).sum::<u64>() as f64 / calls }
}

fn shown(ns: f64) -> String {
    if ns < 1_000.0 {
        format!("{ns:.0} ns")
    } else if ns < 100_000.0 {
        format!("{:.2} µs", ns / 1e3)
    } else if ns < 1_000_000.0 {
        format!("{:.0} µs", ns / 1e3)
    } else {
        format!("{:.2} ms", ns / 1e6)
    }
}

const BUDGET: Duration = Duration::from_millis(250);
const MOST: Duration = Duration::from_secs(3);

// ---- Inputs

#[derive(Default)]
struct Case {
    name: &'static str,
    /// The same shape with other seeds: other chains and rule numbers. The first is the one that histories belong to.
    banks: Vec<Vec<u8>>,
    length: u64,
    total: u64,
    sentences: Vec<Vec<u8>>,
    numbers: Vec<u64>,
    /// Histories of 1,000 distinct derivable sentences, and 500 of them as calls of *Log* leave it.
    full: Vec<Vec<u8>>,
    half: Vec<u8>,
    /// As many records, with repeats and other lengths.
    mixed: Vec<Vec<u8>>,
    /// The full ones in voices 0 to 15 in turn; all others are in voice 0.
    spoken: Vec<Vec<u8>>,
    /// The full ones with every second record broken off; all others are played in full.
    broken: Vec<Vec<u8>>,
    patterns: Vec<Patterns>,
    weighted: Vec<Weighted>,
}

/// Patterns with as many blanks each, made from sentences that no full history has: 2,000 for the empty history, of which the first 20 are
/// for the full ones in turn. With each a draw number below what is left, with the empty history and with its full one.
struct Patterns {
    what: &'static str,
    patterns: Vec<Vec<u8>>,
    empty: Vec<u64>,
    full: Vec<u64>,
}

impl Patterns {
    fn new(c: &Case, what: &'static str, blanks: usize) -> Self {
        let mut rng = Rng::new(6);
        let heard: HashSet<&[u8]> = c.full.iter().flat_map(|h| h[4..].chunks_exact(20)).map(|r| &r[4..4 + c.length as usize]).collect();
        let unheard: Vec<&Vec<u8>> = c.sentences.iter().filter(|s| !heard.contains(&s[..])).collect();
        let patterns: Vec<Vec<u8>> = (0..MANY).map(|i| banks::blanked(&mut rng, unheard[i % unheard.len()], blanks)).collect();
        let mut below = |h: &[u8], p: &[u8]| {
            let (_, _, left) = plain::remaining_matching(&c.banks[0], h, p, 0).expect("an accepted pattern");
            rng.below(left)
        };
        let empty = patterns.iter().map(|p| below(&EMPTY, p)).collect();
        let full = patterns.iter().take(DRAWS).enumerate().map(|(i, p)| below(&c.full[i % c.full.len()], p)).collect();
        Patterns { what, patterns, empty, full }
    }
}

/// Weights with their bank and length, which need not be those of the other rows, and with full histories of that length. The tickets are
/// below the total: 2,000 for the empty history, 20 for the full ones in turn.
struct Weighted {
    what: String,
    bank: Vec<u8>,
    length: u64,
    weights: Vec<u8>,
    full: Vec<Vec<u8>>,
    empty: Vec<u64>,
    heard: Vec<u64>,
}

impl Weighted {
    /// All weights 1.
    fn ones(c: &Case) -> Self {
        let (bank, full) = (c.banks[0].clone(), c.full.clone());
        let weights = vec![1; bank[1] as usize];
        Weighted::new(format!("all weights 1, length {}", c.length), bank, c.length, weights, full)
    }

    /// Random weights, as large as every total weight that is needed allows. `place` names start and length.
    fn heavy(bank: Vec<u8>, length: u64, place: &str) -> Self {
        let (most, weights) = (2..=255)
            .rev()
            .map(|most| (most, banks::weights(&mut Rng::new(9), bank[1], most)))
            .find(|(_, weights)| tickets(&bank, &EMPTY, (length, 0), weights).is_some())
            .expect("room for weights");
        let mut rng = Rng::new(10);
        let full = (0..4).map(|_| banks::history(&distinct(&bank, length, &mut rng), &mut rng)).collect();
        Weighted::new(format!("weights 1 to {most}, {place}"), bank, length, weights, full)
    }

    fn new(what: String, bank: Vec<u8>, length: u64, weights: Vec<u8>, full: Vec<Vec<u8>>) -> Self {
        let mut rng = Rng::new(11);
        let mut below = |h: &[u8]| rng.below(tickets(&bank, h, (length, 0), &weights).expect("some tickets"));
        let empty = (0..MANY).map(|_| below(&EMPTY)).collect();
        let heard = (0..DRAWS).map(|i| below(&full[i % full.len()])).collect();
        Weighted { what, bank, length, weights, full, empty, heard }
    }
}

/// How many tickets there are, unless there is none.
fn tickets(bank: &[u8], history: &[u8], (length, voice): (u64, u64), weights: &[u8]) -> Option<u64> {
    Some(plain::draw_weighted(bank, history, length, voice, weights, 0, &mut [0; 16]).ok()?.0)
}

fn sentence(bank: &[u8], n: u64, d: u64) -> Vec<u8> {
    let mut s = vec![0; n as usize];
    plain::unrank(bank, n, d, &mut s).expect("d is below T");
    s
}

/// 1,000 distinct sentences of a bank in which none has two derivations.
fn distinct(bank: &[u8], length: u64, rng: &mut Rng) -> Vec<Vec<u8>> {
    let total = plain::count(bank, length).expect("an accepted bank");
    let (mut met, mut sentences) = (HashSet::new(), Vec::new());
    while sentences.len() < 1_000 {
        let d = rng.below(total);
        if met.insert(d) {
            sentences.push(sentence(bank, length, d));
        }
    }
    sentences
}

fn case(name: &'static str, banks: Vec<Vec<u8>>, length: u64, mixed: bool) -> Case {
    let mut rng = Rng::new(2);
    let bank = &banks[0];
    for b in &banks {
        plain::count(b, length).expect("an accepted bank");
    }
    let total = plain::count(bank, length).expect("an accepted bank");
    let numbers: Vec<u64> = (0..MANY).map(|_| rng.below(total - 1_000)).collect();
    let sentences = numbers.iter().map(|&d| sentence(bank, length, d)).collect();
    let mut case = Case { name, length, total, sentences, numbers, banks, ..Case::default() };
    for _ in 0..4 {
        let mut heard = distinct(&case.banks[0], length, &mut rng);
        case.full.push(banks::history(&heard, &mut rng));
        case.half = banks::logged(&heard[..500]);
        if mixed {
            heard.truncate(400);
            for _ in 0..300 {
                heard.push(heard[rng.index(400)].clone());
            }
            for _ in 0..300 {
                let n = 1 + rng.index(16);
                heard.push((0..n).map(|_| rng.below(50) as u8).collect());
            }
            rng.shuffle(&mut heard);
            case.mixed.push(banks::history(&heard, &mut rng));
            let full = case.full.last().unwrap();
            case.spoken.push(banks::spoken(full.clone(), &mut |i, _| ((i % 16) as u8, 0)));
            let played = |i: usize, length: usize| if i % 2 == 1 { 1 + (i / 2 % (length - 1)) as u8 } else { 0 };
            case.broken.push(banks::spoken(full.clone(), &mut |i, length| (0, played(i, length))));
        }
    }
    case.half.resize(4 + 20 * 1_000, 0);
    let n = length as usize;
    case.patterns =
        [("no blank", 0), ("half blanks", n / 2), ("all blanks", n)].map(|(what, blanks)| Patterns::new(&case, what, blanks)).into();
    case
}

fn cases() -> Vec<Case> {
    let mut cases = vec![
        case("matrix", vec![banks::matrix()], 5, true),
        case("right-linear", (0..16).map(|s| banks::right_linear(255, s)).collect(), 16, false),
        case("ladder", (0..16).map(banks::ladder).collect(), 16, false),
        case("dense", (0..16).map(banks::dense).collect(), 8, false),
    ];
    // At length 16 T leaves no room for weights; the nonterminals of the ladder's second rung have length 8.
    let places = [(0, 5, "length 5"), (0, 8, "length 8"), (1, 8, "length 8 from the second rung"), (0, 8, "length 8")];
    for (c, (start, length, place)) in cases.iter_mut().zip(places) {
        c.weighted = vec![Weighted::ones(c), Weighted::heavy(banks::started(c.banks[0].clone(), start), length, place)];
    }
    cases
}

const EMPTY: [u8; 4] = [0; 4];

/// The inputs of the tables.
fn table_inputs(alike: &mut Alike, cases: &[Case]) {
    for c in cases {
        let g = &c.banks[0];
        let n = c.length;
        for b in &c.banks {
            alike.grammar(b);
            for m in 1..=16 {
                alike.count(b, m);
            }
        }
        for (&d, s) in c.numbers.iter().zip(&c.sentences) {
            alike.unrank(g, n, d, 16);
            alike.rank(g, s);
            alike.draw(g, &EMPTY, n, 0, d, 16);
            alike.append(&c.half, s, 0, 0);
        }
        let made = c.full.iter().chain(&c.mixed).chain(&c.spoken).chain(&c.broken).map(Vec::as_slice);
        for h in [&EMPTY[..], &c.half].into_iter().chain(made) {
            alike.history(h);
            for v in 0..16 {
                alike.remaining(g, h, n, v);
                for &d in &c.numbers[..DRAWS] {
                    alike.draw(g, h, n, v, d, 16);
                }
                let left = plain::remaining(g, h, n, v).expect("an accepted history").2;
                alike.draw(g, h, n, v, left - 1, 16);
                alike.draw(g, h, n, v, left, 16);
            }
            pattern_inputs(alike, c, h);
        }
        for p in &c.patterns {
            for (pattern, &q) in p.patterns.iter().zip(&p.empty) {
                alike.remaining_matching(g, &EMPTY, pattern, 0);
                alike.draw_matching(g, &EMPTY, pattern, 0, q, 16);
            }
            for (i, (pattern, &q)) in p.patterns.iter().zip(&p.full).enumerate() {
                alike.draw_matching(g, &c.full[i % c.full.len()], pattern, 0, q, 16);
            }
        }
        weight_inputs(alike, c);
    }
    brimful_inputs(alike);
    for rules in RULES {
        alike.grammar(&banks::right_linear(rules, 0));
        alike.count(&banks::right_linear(rules, 0), 16);
    }
    for n in AMBIGUOUS {
        for s in ambiguous_sentences(n) {
            alike.rank(&banks::every_tree(), &s);
        }
    }
}

/// A history with a pattern of every kind, and with two made from sentences of its own, in their voice: one whole, one with half blanks.
fn pattern_inputs(alike: &mut Alike, c: &Case, h: &[u8]) {
    let (g, n) = (&c.banks[0], c.length as usize);
    let mut rng = Rng::new(7);
    let mut asked: Vec<(Vec<u8>, u64)> = c.patterns.iter().map(|p| (p.patterns[0].clone(), 0)).collect();
    for (record, blanks) in h[4..].chunks_exact(20).filter(|r| r[2] as usize == n).zip([0, n / 2]) {
        asked.push((banks::blanked(&mut rng, &record[4..4 + n], blanks), record[3] as u64 / 16));
    }
    for (p, v) in asked {
        alike.remaining_matching(g, h, &p, v);
        let left = plain::remaining_matching(g, h, &p, v).expect("an accepted pattern").2;
        for q in [0, rng.below(left.max(1)), left.wrapping_sub(1), left] {
            alike.draw_matching(g, h, &p, v, q, 16);
        }
    }
}

/// The weights with their tickets, and each history with the first ticket and the last, and with tickets beyond.
fn weight_inputs(alike: &mut Alike, c: &Case) {
    for Weighted { bank: g, length: n, weights: w, full, empty, heard, .. } in &c.weighted {
        for &ticket in empty {
            alike.draw_weighted(g, &EMPTY, (*n, 0), w, ticket, 16);
        }
        for (i, &ticket) in heard.iter().enumerate() {
            alike.draw_weighted(g, &full[i % full.len()], (*n, 0), w, ticket, 16);
        }
        let made = full.iter().chain(&c.mixed).chain(&c.spoken).chain(&c.broken).map(Vec::as_slice);
        for h in [&EMPTY[..], &c.half].into_iter().chain(made) {
            for v in [0, 1, 15] {
                let tickets = tickets(g, h, (*n, v), w).expect("some tickets");
                for ticket in [0, tickets / 2, tickets - 1, tickets, u64::MAX] {
                    alike.draw_weighted(g, h, (*n, v), w, ticket, 16);
                }
            }
        }
    }
}

/// A total weight of 2^64 - 1, with every derivation's sentence heard in turn; and one of 2^64.
fn brimful_inputs(alike: &mut Alike) {
    let (n, w, mut rng) = (8, &banks::BRIMFUL, Rng::new(12));
    for more in [false, true] {
        let g = banks::brimful(more);
        let mut histories = vec![EMPTY.to_vec()];
        for d in 0..plain::count(&g, n).expect("an accepted bank") {
            histories.push(banks::history(&[sentence(&g, n, d)], &mut rng));
        }
        for h in &histories {
            for ticket in [0, 1, rng.next(), u64::MAX - 1, u64::MAX] {
                alike.draw_weighted(&g, h, (n, 0), w, ticket, 16);
            }
        }
    }
}

const RULES: [usize; 4] = [32, 64, 128, 255];
const AMBIGUOUS: [usize; 4] = [3, 5, 8, 16];

/// Sentences of so many words, each with every tree.
fn ambiguous_sentences(n: usize) -> Vec<Vec<u8>> {
    let mut rng = Rng::new(4);
    (0..MANY).map(|_| (0..n).map(|_| rng.below(5) as u8).collect()).collect()
}

// ---- Tables

fn calls_table(report: &mut Report, c: &Case) {
    report.table(format!("**{}**: {} bytes, length {}, T = {}", c.name, c.banks[0].len(), c.length, c.total), "call");
    let g = &c.banks[0][..];
    let n = c.length;
    let mut out = [0u8; 16];
    let mut out2 = [0u8; 16];
    let kinds = c.banks.len();
    let row = measure(kinds, |i| ours::check_grammar(&c.banks[i]), |i| plain::check_grammar(&c.banks[i]));
    report.row("check_grammar", row);
    let row = measure(kinds, |i| ours::count(&c.banks[i], n), |i| plain::count(&c.banks[i], n));
    report.row("count", row);
    let row = measure(MANY, |i| ours::unrank(g, n, c.numbers[i], &mut out), |i| plain::unrank(g, n, c.numbers[i], &mut out2));
    report.row("unrank", row);
    let row = measure(MANY, |i| ours::rank(g, &c.sentences[i]), |i| plain::rank(g, &c.sentences[i]));
    report.row("rank", row);
    let empty = vec![EMPTY.to_vec()];
    let mut histories = vec![("empty", &empty, MANY), ("full", &c.full, DRAWS)];
    if !c.mixed.is_empty() {
        histories.push(("full, repeats and other lengths", &c.mixed, DRAWS));
    }
    for (what, h, draws) in histories {
        let k = h.len();
        let row = measure(k, |i| ours::check_history(&h[i]), |i| plain::check_history(&h[i]));
        report.row(&format!("check_history, {what}"), row);
        sampling_rows(report, c, what, h, draws);
    }
    for (what, h) in [("full history in sixteen voices", &c.spoken), ("full history, half of it broken off", &c.broken)] {
        if !h.is_empty() {
            sampling_rows(report, c, what, h, DRAWS);
        }
    }
    // the four bytes of K and head are put back before each call
    let (mut h, mut h2) = (c.half.clone(), c.half.clone());
    let header: [u8; 4] = c.half[..4].try_into().unwrap();
    let row = measure(
        MANY,
        |i| {
            h[..4].copy_from_slice(&header);
            ours::append(&mut h, &c.sentences[i], 0, 0)
        },
        |i| {
            h2[..4].copy_from_slice(&header);
            plain::append(&mut h2, &c.sentences[i], 0, 0)
        },
    );
    report.row("append, half full", row);
}

/// *remaining* and *draw* in voice 0.
fn sampling_rows(report: &mut Report, c: &Case, what: &str, h: &[Vec<u8>], draws: usize) {
    let (g, n, k) = (&c.banks[0][..], c.length, h.len());
    let (mut out, mut out2) = ([0u8; 16], [0u8; 16]);
    let row = measure(k, |i| ours::remaining(g, &h[i], n, 0), |i| plain::remaining(g, &h[i], n, 0));
    report.row(&format!("remaining, {what}"), row);
    let row = measure(
        draws,
        |i| ours::draw(g, &h[i % k], n, 0, c.numbers[i], &mut out),
        |i| plain::draw(g, &h[i % k], n, 0, c.numbers[i], &mut out2),
    );
    report.row(&format!("draw, {what}"), row);
}

/// *remaining* and *draw* with a pattern, in voice 0.
fn patterns_table(report: &mut Report, c: &Case) {
    report.table(format!("With a pattern on the {} bank, length {}", c.name, c.length), "call");
    let g = &c.banks[0][..];
    let (mut out, mut out2) = ([0u8; 16], [0u8; 16]);
    let empty = vec![EMPTY.to_vec()];
    for Patterns { what, patterns: p, empty: alone, full } in &c.patterns {
        for (history, h, q) in [("empty", &empty, alone), ("full", &c.full, full)] {
            let k = h.len();
            let row = measure(
                q.len(),
                |i| ours::remaining_matching(g, &h[i % k], &p[i], 0),
                |i| plain::remaining_matching(g, &h[i % k], &p[i], 0),
            );
            report.row(&format!("remaining, {what}, {history}"), row);
            let row = measure(
                q.len(),
                |i| ours::draw_matching(g, &h[i % k], &p[i], 0, q[i], &mut out),
                |i| plain::draw_matching(g, &h[i % k], &p[i], 0, q[i], &mut out2),
            );
            report.row(&format!("draw, {what}, {history}"), row);
        }
    }
}

/// *draw* with weights, in voice 0.
fn weights_table(report: &mut Report, c: &Case) {
    report.table(format!("With weights on the {} bank", c.name), "call");
    let (mut out, mut out2) = ([0u8; 16], [0u8; 16]);
    let none = vec![EMPTY.to_vec()];
    for Weighted { what, bank: g, length: n, weights: w, full, empty, heard } in &c.weighted {
        for (history, h, tickets) in [("empty", &none, empty), ("full", full, heard)] {
            let k = h.len();
            let row = measure(
                tickets.len(),
                |i| ours::draw_weighted(g, &h[i % k], *n, 0, w, tickets[i], &mut out),
                |i| plain::draw_weighted(g, &h[i % k], *n, 0, w, tickets[i], &mut out2),
            );
            report.row(&format!("draw, {what}, {history}"), row);
        }
    }
}

fn growth_tables(report: &mut Report, cases: &[Case]) {
    for c in &cases[1..3] {
        report.table(format!("*count* on the {} bank, by length", c.name), "length");
        for m in 1..=16 {
            let row = measure(16, |i| ours::count(&c.banks[i], m), |i| plain::count(&c.banks[i], m));
            report.row(&m.to_string(), row);
        }
    }
    report.table("*count* at length 16 on right-linear banks, by rules".to_string(), "rules");
    for rules in RULES {
        let made: Vec<Vec<u8>> = (0..16).map(|s| banks::right_linear(rules, s)).collect();
        let row = measure(16, |i| ours::count(&made[i], 16), |i| plain::count(&made[i], 16));
        report.row(&rules.to_string(), row);
    }
    report.table("*rank* on the bank with every tree over five words, by length".to_string(), "length");
    let g = banks::every_tree();
    for n in AMBIGUOUS {
        let s = ambiguous_sentences(n);
        let row = measure(MANY, |i| ours::rank(&g, &s[i]), |i| plain::rank(&g, &s[i]));
        report.row(&n.to_string(), row);
    }
    for c in cases {
        report.table(format!("*remaining* on the {} bank, by records", c.name), "records");
        for k in [0, 10, 100, 1_000] {
            let records: Vec<Vec<u8>> = (0..k).map(|r| c.full[0][8 + 20 * r..8 + 20 * r + c.length as usize].to_vec()).collect();
            let h = banks::history(&records, &mut Rng::new(3));
            let g = &c.banks[0][..];
            let row = measure(1, |_| ours::remaining(g, black_box(&h), c.length, 0), |_| plain::remaining(g, black_box(&h), c.length, 0));
            report.row(&k.to_string(), row);
        }
    }
}

/// What a listing would cost through the C interface: every draw is whole.
fn draws_table(report: &mut Report, c: &Case) {
    report.table(format!("Draws 0 to 999 as single calls on the {} bank", c.name), "history");
    let g = &c.banks[0][..];
    let (mut out, mut out2) = ([0u8; 16], [0u8; 16]);
    for (what, h) in [("empty", &EMPTY[..]), ("full", &c.full[0])] {
        let row = measure(
            1,
            |_| (0..1_000).map(|q| ours::draw(g, h, c.length, 0, q, &mut out).unwrap().1).sum::<u64>(),
            |_| (0..1_000).map(|q| plain::draw(g, h, c.length, 0, q, &mut out2).unwrap().1).sum::<u64>(),
        );
        report.row(what, row);
    }
}

fn run(program: &Path, input: &Path, output: Stdio) -> std::process::Child {
    Command::new(program)
        .stdin(File::open(input).expect("the input"))
        .stdout(output)
        .stderr(Stdio::null())
        .spawn()
        .expect("a listing program")
}

fn output(program: &Path, input: &Path) -> Vec<u8> {
    run(program, input, Stdio::piped()).wait_with_output().expect("its output").stdout
}

/// Both listing programs as processes, on the same input files.
fn listing_table(report: &mut Report, cases: &[Case], ours: &Path, plain: &Path, room: &Path) {
    let mut inputs = vec![("no input: start and end of a process".to_string(), Vec::new())];
    for c in cases {
        let g = &c.banks[0];
        for (what, h) in [("empty history", &EMPTY[..]), ("full history", &c.full[0])] {
            let mut bytes = vec![c.length as u8];
            bytes.extend((g.len() as u16).to_le_bytes());
            bytes.extend(g);
            bytes.extend(h);
            inputs.push((format!("{}, {what}", c.name), bytes));
        }
    }
    report.table("The listing program as a process, output thrown away".to_string(), "input");
    for (i, (what, bytes)) in inputs.iter().enumerate() {
        let file: PathBuf = room.join(format!("listing-input-{i}"));
        std::fs::write(&file, bytes).expect("a place for the input");
        if output(ours, &file) != output(plain, &file) {
            eprintln!("the listings differ on {what}");
            std::process::exit(1);
        }
        let time = |program: &Path| {
            let from = Instant::now();
            run(program, &file, Stdio::null()).wait().expect("its end");
            from.elapsed().as_nanos() as f64
        };
        let mut row = Row { ours: f64::MAX, plain: f64::MAX };
        for _ in 0..80 {
            row.ours = row.ours.min(time(ours));
            row.plain = row.plain.min(time(plain));
        }
        report.row(what, row);
    }
}

fn main() {
    let arguments: Vec<PathBuf> = std::env::args().skip(1).map(PathBuf::from).collect();
    let cases = cases();
    let mut alike = Alike { refusals: [0; REFUSALS], calls: 0 };
    random_inputs(&mut alike);
    table_inputs(&mut alike, &cases);
    println!("Both gave the same answers and buffers in {} calls. Answers by refusal, 0 first:", alike.calls);
    println!("{:?}", alike.refusals);
    if (0..REFUSALS).any(|refusal| (alike.refusals[refusal] == 0) != NEVER.contains(&refusal)) {
        eprintln!("some refusal was never given, or 18 was");
        std::process::exit(1);
    }
    let mut report = Report::default();
    let mut sweep = || {
        for c in &cases {
            calls_table(&mut report, c);
        }
        for c in &cases[..3] {
            patterns_table(&mut report, c);
        }
        for c in &cases {
            weights_table(&mut report, c);
        }
        growth_tables(&mut report, &cases);
        draws_table(&mut report, &cases[0]);
        if let [ours, plain, room] = &arguments[..] {
            listing_table(&mut report, &cases, ours, plain, room);
        }
    };
    lower::<16>(&mut sweep);
    lower::<32>(&mut sweep);
    lower::<48>(&mut sweep);
    lower::<64>(&mut sweep);
    report.print();
}

/// Runs a sweep with the stack so many bytes lower: where tables lie on the stack changes times by a tenth and more.
#[inline(never)]
fn lower<const BYTES: usize>(sweep: &mut dyn FnMut()) {
    let space = [0u8; BYTES];
    black_box(&space);
    sweep();
    black_box(&space);
}
