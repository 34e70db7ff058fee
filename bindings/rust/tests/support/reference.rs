//! Document 01, with document 02's U1, U2, U4, U5, U6 and U7, once more in plain Rust, for the tests alone: slow, and
//! written from the documents' text. Where there are few derivations they are written down one by one; else the answers
//! come from exact counts.
use super::case::{Answer, Call, Case};
use std::collections::BTreeSet;

/// The most derivations, over all needed pairs, that are written down.
const LISTED: u128 = 300;

#[derive(Clone, Copy, PartialEq, Eq)]
pub enum Rule {
    Word(u8),
    Pair(usize, usize),
}

/// An accepted grammar: for each nonterminal its rules in the order of its chain.
pub struct Grammar {
    pub words: u8,
    pub start: usize,
    pub chains: Vec<Vec<Rule>>,
}

/// "Bank bytes", and 1 to 8.
pub fn read_grammar(bytes: &[u8]) -> Result<Grammar, u8> {
    let [n, w, r, s] = *bytes.first_chunk::<4>().ok_or(1)?;
    if !(1..=32).contains(&n) || w == 0 || r == 0 || s >= n {
        return Err(2);
    }
    let n = usize::from(n);
    if bytes.len() != 4 + n + 4 * usize::from(r) {
        return Err(3);
    }
    let (heads, rules) = bytes[4..].split_at(n);
    let rules: Vec<&[u8]> = rules.chunks(4).collect();
    let mut bodies = vec![];
    for rule in &rules {
        let (a, b) = (usize::from(rule[1]), usize::from(rule[2]));
        bodies.push(match rule[0] {
            0 if rule[1] < w && b == 0 => Rule::Word(rule[1]),
            1 if a < n && b < n => Rule::Pair(a, b),
            _ => return Err(4),
        });
    }
    if heads.iter().chain(rules.iter().map(|rule| &rule[3])).any(|&link| link > r) {
        return Err(5);
    }
    let mut met = vec![false; rules.len()];
    let mut chains = vec![];
    for &head in heads {
        let (mut chain, mut at) = (vec![], usize::from(head));
        while at != 0 {
            if met[at - 1] {
                return Err(6);
            }
            met[at - 1] = true;
            chain.push(bodies[at - 1]);
            at = usize::from(rules[at - 1][3]);
        }
        chains.push(chain);
    }
    if met.contains(&false) {
        return Err(7);
    }
    for chain in &chains {
        if chain.iter().enumerate().any(|(i, rule)| chain[..i].contains(rule)) {
            return Err(8);
        }
    }
    Ok(Grammar { words: w, start: usize::from(s), chains })
}

/// Document 02, U2: "The pair (S, length) is needed. If (A, m) is needed, so are (B, k) and (C, m - k) for each pair
/// rule of A and each k."
pub fn needed(grammar: &Grammar, length: usize) -> BTreeSet<(usize, usize)> {
    let (mut pairs, mut found) = (BTreeSet::new(), vec![(grammar.start, length)]);
    while let Some((a, m)) = found.pop() {
        if !pairs.insert((a, m)) {
            continue;
        }
        for rule in &grammar.chains[a] {
            if let Rule::Pair(b, c) = *rule {
                found.extend((1..m).flat_map(|k| [(b, k), (c, m - k)]));
            }
        }
    }
    pairs
}

/// T(A, m) at `[m][A]` for the pairs that the length needs, and 0 for all others; or 10, where one is above 2^64 - 1.
pub fn totals(grammar: &Grammar, length: usize) -> Result<Vec<Vec<u64>>, u8> {
    weighed(grammar, length, |_| 1).ok_or(10)
}

/// The same with each pair's total weight, in place of how many derivations it has; nothing, where one is above 2^64 -
/// 1.
fn weighed(grammar: &Grammar, length: usize, weigh: impl Fn(u8) -> u64) -> Option<Vec<Vec<u64>>> {
    let needed = needed(grammar, length);
    let mut t = vec![vec![0; grammar.chains.len()]];
    for m in 1..=length {
        let total = |a| if needed.contains(&(a, m)) { next(grammar, &t, a, &weigh) } else { 0 };
        let row = (0..grammar.chains.len()).map(|a| u64::try_from(total(a)).ok()).collect::<Option<_>>()?;
        t.push(row);
    }
    Some(t)
}

/// The total weight of (A, m), from the rows below m; T(A, m), where each word weighs 1.
pub fn next(grammar: &Grammar, t: &[Vec<u64>], a: usize, weigh: impl Fn(u8) -> u64) -> u128 {
    let m = t.len();
    let mut sum = 0u128;
    for rule in &grammar.chains[a] {
        match *rule {
            Rule::Word(word) if m == 1 => sum += u128::from(weigh(word)),
            Rule::Word(_) => {}
            Rule::Pair(b, c) => {
                for k in 1..m {
                    sum = sum.saturating_add(u128::from(t[k][b]) * u128::from(t[m - k][c]));
                }
            }
        }
    }
    sum
}

/// How many derivations a sentence has, and the lowest of their numbers, 0 where there are none.
#[derive(Clone, Copy, Debug, PartialEq, Eq)]
pub struct Readings {
    pub count: u64,
    pub lowest: u64,
}

/// Document 02, U1: "Byte 255 is a blank and any other byte is that word."
fn word_fits(word: u8, byte: u8) -> bool {
    byte == 255 || byte == word
}

/// Whether a sentence of the pattern's length fits it.
pub fn fits(sentence: &[u8], pattern: &[u8]) -> bool {
    assert_eq!(sentence.len(), pattern.len());
    sentence.iter().zip(pattern).all(|(&word, &byte)| word_fits(word, byte))
}

/// The full list of one length.
pub enum Full<'a> {
    Listed(Vec<Vec<u8>>),
    Counted(Counted<'a>),
}

impl<'a> Full<'a> {
    pub fn new(grammar: &'a Grammar, length: usize) -> Result<Full<'a>, u8> {
        let t = totals(grammar, length)?;
        let all: u128 = t.iter().flatten().map(|&count| u128::from(count)).sum();
        if all <= LISTED {
            return Ok(Full::Listed(listed(grammar, length)));
        }
        Ok(Full::Counted(Counted { grammar, length, t }))
    }

    pub fn total(&self) -> u64 {
        match self {
            Full::Listed(list) => list.len() as u64,
            Full::Counted(counted) => counted.t[counted.length][counted.grammar.start],
        }
    }

    /// The sentence of a derivation number below the total.
    pub fn sentence(&self, number: u64) -> Vec<u8> {
        match self {
            Full::Listed(list) => list[number as usize].clone(),
            Full::Counted(counted) => {
                let mut words = vec![];
                counted.unrank(counted.grammar.start, counted.length, number, &mut words);
                words
            }
        }
    }

    /// Of a sentence of the list's length.
    pub fn readings(&self, sentence: &[u8]) -> Readings {
        match self {
            Full::Listed(list) => {
                let places = || (0..).zip(list).filter(|(_, entry)| *entry == sentence).map(|(d, _)| d);
                Readings { count: places().count() as u64, lowest: places().min().unwrap_or(0) }
            }
            Full::Counted(counted) => counted.readings(sentence),
        }
    }

    /// The unheard list: its length, and entry q, if there is one, as its derivation number. `struck` are the heard
    /// derivation numbers.
    fn unheard(&self, heard: &BTreeSet<&[u8]>, struck: &BTreeSet<u64>, q: u64) -> (u64, Option<u64>) {
        if let Full::Listed(list) = self {
            let left: Vec<usize> = (0..list.len()).filter(|&d| !heard.contains(&list[d][..])).collect();
            let entry = if q < left.len() as u64 { Some(left[q as usize] as u64) } else { None };
            return (left.len() as u64, entry);
        }
        // The gaps between the struck numbers, one after another.
        let (mut from, mut ahead) = (0, q);
        for &number in struck {
            let gap = number - from;
            if ahead < gap {
                break;
            }
            ahead -= gap;
            from = number + 1;
        }
        let left = self.total() - struck.len() as u64;
        (left, if q < left { Some(from + ahead) } else { None })
    }

    /// How many derivations of the list have a sentence that fits the pattern.
    pub fn fitting(&self, pattern: &[u8]) -> u64 {
        match self {
            Full::Listed(list) => list.iter().filter(|entry| fits(entry, pattern)).count() as u64,
            Full::Counted(counted) => counted.fitting_runs(pattern)[pattern.len()][0][counted.grammar.start],
        }
    }

    /// The unheard list where only what fits the pattern is on it: its length, and entry q, if there is one, as its
    /// derivation number among all. `struck` are the derivation numbers of the heard sentences that fit.
    pub fn unheard_fitting(
        &self,
        pattern: &[u8],
        heard: &BTreeSet<&[u8]>,
        struck: &BTreeSet<u64>,
        q: u64,
    ) -> (u64, Option<u64>) {
        match self {
            Full::Listed(list) => {
                let unheard = |entry: &[u8]| fits(entry, pattern) && !heard.contains(entry);
                let left: Vec<u64> = (0..).zip(list).filter(|(_, entry)| unheard(entry)).map(|(d, _)| d).collect();
                (left.len() as u64, if q < left.len() as u64 { Some(left[q as usize]) } else { None })
            }
            Full::Counted(counted) => {
                let (n, start, runs) = (counted.length, counted.grammar.start, counted.fitting_runs(pattern));
                let left = runs[n][0][start] - struck.len() as u64;
                if q >= left {
                    return (left, None);
                }
                // Entry q is the last derivation that has no more than q unheard ones that fit before it.
                let before = |d: u64| {
                    let (fitting, _) = counted.fitting_before(&runs, pattern, start, 0, n, d);
                    fitting - struck.range(..d).count() as u64
                };
                let (mut low, mut high) = (0, self.total() - 1);
                while low < high {
                    let middle = high - (high - low) / 2;
                    if before(middle) <= q {
                        low = middle;
                    } else {
                        high = middle - 1;
                    }
                }
                (left, Some(low))
            }
        }
    }
}

/// Document 02, U7: "A derivation weighs the product of its words' weights."
pub fn weight(sentence: &[u8], weights: &[u8]) -> u64 {
    sentence.iter().map(|&word| u64::from(weights[usize::from(word)])).product()
}

/// The full list of one length with weights: "Derivations take that many consecutive tickets each, in the old order,
/// heard ones none."
pub struct Tickets<'a> {
    full: &'a Full<'a>,
    weights: &'a [u8],
    total_weights: Vec<Vec<u64>>,
}

impl<'a> Tickets<'a> {
    /// Or 24, "the weights are not W bytes or one is 0", or 25, "a needed pair's total weight is above 2^64 - 1".
    pub fn new(full: &'a Full, grammar: &Grammar, length: usize, weights: &'a [u8]) -> Result<Tickets<'a>, u8> {
        if weights.len() != usize::from(grammar.words) || weights.contains(&0) {
            return Err(24);
        }
        let total_weights = weighed(grammar, length, |word| u64::from(weights[usize::from(word)])).ok_or(25)?;
        Ok(Tickets { full, weights, total_weights })
    }

    /// How many tickets there would be before those of derivation d, if none were heard, and how many would be its own.
    pub fn share(&self, d: u64) -> (u64, u64) {
        match self.full {
            Full::Listed(list) => {
                let own = |entry: &Vec<u8>| weight(entry, self.weights);
                (list[..d as usize].iter().map(own).sum(), own(&list[d as usize]))
            }
            Full::Counted(counted) => {
                let start = counted.grammar.start;
                counted.weight_before(&self.total_weights, self.weights, start, counted.length, d)
            }
        }
    }

    /// How many tickets there are, and the derivation number of the one that owns a ticket, if there is one. `struck`
    /// are the heard derivation numbers.
    pub fn owner(&self, heard: &BTreeSet<&[u8]>, struck: &BTreeSet<u64>, ticket: u64) -> (u64, Option<u64>) {
        if let Full::Listed(list) = self.full {
            let (mut tickets, mut owner) = (0, None);
            for (d, entry) in (0..).zip(list).filter(|(_, entry)| !heard.contains(&entry[..])) {
                let own = tickets..tickets + weight(entry, self.weights);
                if own.contains(&ticket) {
                    owner = Some(d);
                }
                tickets = own.end;
            }
            return (tickets, owner);
        }
        let all = match self.full.total() {
            0 => 0,
            total => {
                let (before, own) = self.share(total - 1);
                before + own
            }
        };
        // What the heard ones weigh, each with those before it.
        let mut sum = 0;
        let mut add = |d: u64| {
            sum += self.share(d).1;
            (d, sum)
        };
        let heard: Vec<(u64, u64)> = struck.iter().map(|&d| add(d)).collect();
        let passed =
            |d: u64| heard[..heard.partition_point(|&(number, _)| number < d)].last().map_or(0, |&(_, sum)| sum);
        let tickets = all - passed(u64::MAX);
        if ticket >= tickets {
            return (tickets, None);
        }
        // The last derivation that has no more than so many tickets of unheard ones before it.
        let (mut low, mut high) = (0, self.full.total() - 1);
        while low < high {
            let middle = high - (high - low) / 2;
            if self.share(middle).0 - passed(middle) <= ticket {
                low = middle;
            } else {
                high = middle - 1;
            }
        }
        (tickets, Some(low))
    }
}

/// Every derivation of the start and that length, as its sentence, in order.
pub fn listed(grammar: &Grammar, length: usize) -> Vec<Vec<u8>> {
    let needed = needed(grammar, length);
    let mut lists: Vec<Vec<Vec<Vec<u8>>>> = vec![vec![]];
    for m in 1..=length {
        let mut row = vec![];
        for (a, chain) in grammar.chains.iter().enumerate() {
            let mut list = vec![];
            for rule in chain.iter().filter(|_| needed.contains(&(a, m))) {
                match *rule {
                    Rule::Word(word) if m == 1 => list.push(vec![word]),
                    Rule::Word(_) => {}
                    Rule::Pair(b, c) => {
                        for k in 1..m {
                            for left in &lists[k][b] {
                                for right in &lists[m - k][c] {
                                    list.push([&left[..], &right[..]].concat());
                                }
                            }
                        }
                    }
                }
            }
            row.push(list);
        }
        lists.push(row);
    }
    lists.pop().unwrap().swap_remove(grammar.start)
}

pub struct Counted<'a> {
    pub grammar: &'a Grammar,
    pub length: usize,
    pub t: Vec<Vec<u64>>,
}

impl Counted<'_> {
    fn unrank(&self, a: usize, m: usize, mut d: u64, words: &mut Vec<u8>) {
        for rule in &self.grammar.chains[a] {
            match *rule {
                Rule::Word(word) if m == 1 => {
                    if d == 0 {
                        words.push(word);
                        return;
                    }
                    d -= 1;
                }
                Rule::Word(_) => {}
                Rule::Pair(b, c) => {
                    for k in 1..m {
                        let (left, right) = (self.t[k][b], self.t[m - k][c]);
                        if u128::from(d) < u128::from(left) * u128::from(right) {
                            self.unrank(b, k, d / right, words);
                            self.unrank(c, m - k, d % right, words);
                            return;
                        }
                        d -= left * right;
                    }
                }
            }
        }
        unreachable!("the number is below the total");
    }

    /// How many derivations each run of places has with words that are allowed there, at `[m][p][A]`; 2^64 - 1 where
    /// that isn't needed and there are more.
    fn runs(&self, allowed: impl Fn(usize, u8) -> bool) -> Vec<Vec<Vec<u64>>> {
        let chains = &self.grammar.chains;
        let mut runs: Vec<Vec<Vec<u64>>> = vec![vec![]];
        for m in 1..=self.length {
            let mut row = vec![];
            for p in 0..=self.length - m {
                let mut cell = vec![0u64; chains.len()];
                for (a, chain) in chains.iter().enumerate() {
                    for rule in chain {
                        match *rule {
                            Rule::Word(word) => cell[a] += u64::from(m == 1 && allowed(p, word)),
                            Rule::Pair(b, c) => {
                                for k in 1..m {
                                    let both = runs[k][p][b].saturating_mul(runs[m - k][p + k][c]);
                                    cell[a] = cell[a].saturating_add(both);
                                }
                            }
                        }
                    }
                }
                row.push(cell);
            }
            runs.push(row);
        }
        runs
    }

    fn fitting_runs(&self, pattern: &[u8]) -> Vec<Vec<Vec<u64>>> {
        self.runs(|p, word| word_fits(word, pattern[p]))
    }

    /// How many derivations of A over m places from p on fit the pattern and have a number below d; and whether the one
    /// with number d fits.
    fn fitting_before(
        &self,
        runs: &[Vec<Vec<u64>>],
        pattern: &[u8],
        a: usize,
        p: usize,
        m: usize,
        mut d: u64,
    ) -> (u64, bool) {
        let mut before = 0;
        for rule in &self.grammar.chains[a] {
            match *rule {
                Rule::Word(word) if m == 1 => {
                    let fits = word_fits(word, pattern[p]);
                    if d == 0 {
                        return (before, fits);
                    }
                    before += u64::from(fits);
                    d -= 1;
                }
                Rule::Word(_) => {}
                Rule::Pair(b, c) => {
                    for k in 1..m {
                        let (left, right) = (self.t[k][b], self.t[m - k][c]);
                        let fitting_right = runs[m - k][p + k][c];
                        if u128::from(d) < u128::from(left) * u128::from(right) {
                            let (lefts, left_fits) = self.fitting_before(runs, pattern, b, p, k, d / right);
                            let (rights, right_fits) = self.fitting_before(runs, pattern, c, p + k, m - k, d % right);
                            let here = lefts * fitting_right + if left_fits { rights } else { 0 };
                            return (before + here, left_fits && right_fits);
                        }
                        before += runs[k][p][b] * fitting_right;
                        d -= left * right;
                    }
                }
            }
        }
        unreachable!("the number is below the total");
    }

    /// What the derivations of A and length m with a number below d weigh together, and what the one with number d
    /// weighs.
    fn weight_before(&self, total_weights: &[Vec<u64>], weights: &[u8], a: usize, m: usize, mut d: u64) -> (u64, u64) {
        let mut before = 0;
        for rule in &self.grammar.chains[a] {
            match *rule {
                Rule::Word(word) if m == 1 => {
                    let own = u64::from(weights[usize::from(word)]);
                    if d == 0 {
                        return (before, own);
                    }
                    before += own;
                    d -= 1;
                }
                Rule::Word(_) => {}
                Rule::Pair(b, c) => {
                    for k in 1..m {
                        let (left, right) = (self.t[k][b], self.t[m - k][c]);
                        let right_weight = total_weights[m - k][c];
                        if u128::from(d) < u128::from(left) * u128::from(right) {
                            let (lefts, left_own) = self.weight_before(total_weights, weights, b, k, d / right);
                            let (rights, right_own) = self.weight_before(total_weights, weights, c, m - k, d % right);
                            return (before + lefts * right_weight + left_own * rights, left_own * right_own);
                        }
                        before += total_weights[k][b] * right_weight;
                        d -= left * right;
                    }
                }
            }
        }
        unreachable!("the number is below the total");
    }

    fn readings(&self, sentence: &[u8]) -> Readings {
        assert_eq!(sentence.len(), self.length);
        let runs = self.runs(|p, word| word == sentence[p]);
        let count = runs[sentence.len()][0][self.grammar.start];
        let lowest = if count == 0 { 0 } else { self.place(&runs, sentence, self.grammar.start, 0, sentence.len()) };
        Readings { count, lowest }
    }

    /// How many derivations of A and length m stand before the first one of the words from p on.
    fn place(&self, runs: &[Vec<Vec<u64>>], sentence: &[u8], a: usize, p: usize, m: usize) -> u64 {
        let mut before = 0;
        for rule in &self.grammar.chains[a] {
            match *rule {
                Rule::Word(word) if m == 1 => {
                    if word == sentence[p] {
                        return before;
                    }
                    before += 1;
                }
                Rule::Word(_) => {}
                Rule::Pair(b, c) => {
                    for k in 1..m {
                        let right = self.t[m - k][c];
                        if runs[k][p][b] != 0 && runs[m - k][p + k][c] != 0 {
                            let left_place = self.place(runs, sentence, b, p, k);
                            let right_place = self.place(runs, sentence, c, p + k, m - k);
                            return before + left_place * right + right_place;
                        }
                        before += self.t[k][b] * right;
                    }
                }
            }
        }
        unreachable!("the sentence has a derivation");
    }
}

fn two_bytes(bytes: &[u8], at: usize) -> usize {
    usize::from(bytes[at]) + 256 * usize::from(bytes[at + 1])
}

/// A record's sentence. Document 02, U4, of the voice: "The high four bits of a record's fourth byte hold it." U5: "The
/// low four bits of the fourth byte give the words played; 0 means all."
#[derive(Clone, Copy, Debug, PartialEq, Eq)]
pub struct Record<'a> {
    pub voice: u8,
    pub played: u8,
    pub words: &'a [u8],
}

/// "Diary bytes", and 11 to 14: the records along the chain.
pub fn read_history(bytes: &[u8]) -> Result<Vec<Record<'_>>, u8> {
    if bytes.len() < 4 || two_bytes(bytes, 0) > 1000 || bytes.len() < 4 + 20 * two_bytes(bytes, 0) {
        return Err(11);
    }
    let (k, head) = (two_bytes(bytes, 0), two_bytes(bytes, 2));
    let records: Vec<&[u8]> = bytes[4..4 + 20 * k].chunks(20).collect();
    for record in &records {
        let (length, played) = (usize::from(record[2]), usize::from(record[3] & 0x0f));
        if !(1..=16).contains(&length) || played >= length || record[4 + length..].iter().any(|&byte| byte != 0) {
            return Err(12);
        }
    }
    if head > k || records.iter().any(|record| two_bytes(record, 0) > k) {
        return Err(13);
    }
    let (mut met, mut at, mut chain) = (vec![false; k], head, vec![]);
    while at != 0 {
        if met[at - 1] {
            return Err(14);
        }
        met[at - 1] = true;
        let record = records[at - 1];
        let words = &record[4..4 + usize::from(record[2])];
        chain.push(Record { voice: record[3] >> 4, played: record[3] & 0x0f, words });
        at = two_bytes(record, 0);
    }
    if met.contains(&false) {
        return Err(14);
    }
    Ok(chain)
}

/// 9.
fn fitting(length: u64) -> Result<usize, u8> {
    if (1..=16).contains(&length) { Ok(length as usize) } else { Err(9) }
}

/// 22.
fn fitting_voice(voice: u64) -> Result<u8, u8> {
    if voice <= 15 { Ok(voice as u8) } else { Err(22) }
}

/// 21: "a pattern byte other than 255 is W or more".
fn known_words(pattern: &[u8], grammar: &Grammar) -> Result<(), u8> {
    if pattern.iter().any(|&byte| byte != 255 && byte >= grammar.words) { Err(21) } else { Ok(()) }
}

/// 23: the figure of *Log* "is the sentence's length or more".
fn fitting_played(played: u64, length: usize) -> Result<u8, u8> {
    if played < length as u64 { Ok(played as u8) } else { Err(23) }
}

/// The sentences of that length heard in that voice, and the derivation numbers of those that have a derivation; or 15.
/// "Only a record played in full makes a sentence heard."
fn heard<'a>(
    records: &[Record<'a>],
    length: usize,
    voice: u8,
    full: &Full,
) -> Result<(BTreeSet<&'a [u8]>, BTreeSet<u64>), u8> {
    let in_full = records.iter().filter(|record| record.voice == voice && record.played == 0);
    let heard: BTreeSet<&[u8]> = in_full.map(|record| record.words).filter(|words| words.len() == length).collect();
    let mut struck = BTreeSet::new();
    for sentence in &heard {
        match full.readings(sentence) {
            Readings { count: 0, .. } => {}
            Readings { count: 1, lowest } => assert!(struck.insert(lowest)),
            _ => return Err(15),
        }
    }
    Ok((heard, struck))
}

/// For a pattern: the sentences heard as above, and of the derivation numbers those whose sentence fits; or 15, which
/// "still reads every diary sentence of that length".
fn heard_fitting<'a>(
    records: &[Record<'a>],
    pattern: &[u8],
    voice: u8,
    full: &Full,
) -> Result<(BTreeSet<&'a [u8]>, BTreeSet<u64>), u8> {
    let (heard, mut struck) = heard(records, pattern.len(), voice, full)?;
    struck.retain(|&number| fits(&full.sentence(number), pattern));
    Ok((heard, struck))
}

/// The figures, and the buffer after the call; or the first refusal that applies.
fn attempt(case: &Case) -> Result<(Vec<u64>, Vec<u8>), u8> {
    let written = |sentence: &[u8]| [sentence, &case.sentence[sentence.len()..]].concat();
    match case.call {
        Call::CheckGrammar => {
            let grammar = read_grammar(&case.grammar)?;
            Ok((vec![grammar.chains.len() as u64, u64::from(grammar.words)], vec![]))
        }
        Call::CheckHistory => Ok((vec![read_history(&case.history)?.len() as u64], vec![])),
        Call::Count => {
            let grammar = read_grammar(&case.grammar)?;
            let length = fitting(case.length)?;
            Ok((vec![totals(&grammar, length)?[length][grammar.start]], vec![]))
        }
        Call::Unrank => {
            let grammar = read_grammar(&case.grammar)?;
            let length = fitting(case.length)?;
            let full = Full::new(&grammar, length)?;
            if case.number >= full.total() {
                return Err(16);
            }
            if case.sentence.len() < length {
                return Err(20);
            }
            Ok((vec![full.total()], written(&full.sentence(case.number))))
        }
        Call::Rank => {
            let grammar = read_grammar(&case.grammar)?;
            let length = fitting(case.sentence.len() as u64)?;
            let full = Full::new(&grammar, length)?;
            let Readings { count, lowest } = full.readings(&case.sentence);
            if count == 0 { Err(17) } else { Ok((vec![lowest, full.total(), count], vec![])) }
        }
        Call::Remaining => {
            let grammar = read_grammar(&case.grammar)?;
            let length = fitting(case.length)?;
            let voice = fitting_voice(case.voice)?;
            let full = Full::new(&grammar, length)?;
            let records = read_history(&case.history)?;
            let (heard, struck) = heard(&records, length, voice, &full)?;
            let (left, _) = full.unheard(&heard, &struck, 0);
            assert_eq!(left, full.total() - struck.len() as u64);
            Ok((vec![full.total(), struck.len() as u64, left], vec![]))
        }
        Call::Draw => {
            let grammar = read_grammar(&case.grammar)?;
            let length = fitting(case.length)?;
            let voice = fitting_voice(case.voice)?;
            let full = Full::new(&grammar, length)?;
            let records = read_history(&case.history)?;
            let (heard, struck) = heard(&records, length, voice, &full)?;
            let (left, entry) = full.unheard(&heard, &struck, case.number);
            let number = entry.ok_or(16)?;
            if case.sentence.len() < length {
                return Err(20);
            }
            Ok((vec![left, number], written(&full.sentence(number))))
        }
        Call::Append => {
            let length = fitting(case.sentence.len() as u64)?;
            let voice = fitting_voice(case.voice)?;
            let played = fitting_played(case.played, length)?;
            let k = read_history(&case.history)?.len();
            if k == 1000 || case.history.len() < 4 + 20 * (k + 1) {
                return Err(19);
            }
            let mut after = case.history.clone();
            let (low, high) = ((k + 1) as u8, ((k + 1) / 256) as u8);
            after[..4].copy_from_slice(&[low, high, low, high]);
            let record = &mut after[4 + 20 * k..][..20];
            record.fill(0);
            record[..2].copy_from_slice(&case.history[2..4]);
            record[2] = length as u8;
            record[3] = voice << 4 | played;
            record[4..4 + length].copy_from_slice(&case.sentence);
            Ok((vec![k as u64 + 1], after))
        }
        Call::RemainingMatching | Call::DrawMatching => {
            let grammar = read_grammar(&case.grammar)?;
            let length = fitting(case.pattern.len() as u64)?; // "The named length is the pattern's."
            let voice = fitting_voice(case.voice)?;
            let full = Full::new(&grammar, length)?;
            known_words(&case.pattern, &grammar)?;
            let records = read_history(&case.history)?;
            let (heard, struck) = heard_fitting(&records, &case.pattern, voice, &full)?;
            if case.call == Call::RemainingMatching {
                let (left, _) = full.unheard_fitting(&case.pattern, &heard, &struck, u64::MAX);
                let total = full.fitting(&case.pattern);
                assert_eq!(left, total - struck.len() as u64);
                return Ok((vec![total, struck.len() as u64, left], vec![]));
            }
            let (left, entry) = full.unheard_fitting(&case.pattern, &heard, &struck, case.number);
            let number = entry.ok_or(16)?;
            if case.sentence.len() < length {
                return Err(20);
            }
            Ok((vec![left, number], written(&full.sentence(number))))
        }
        Call::DrawWeighted => {
            let grammar = read_grammar(&case.grammar)?;
            let length = fitting(case.length)?;
            let voice = fitting_voice(case.voice)?;
            let full = Full::new(&grammar, length)?;
            let tickets = Tickets::new(&full, &grammar, length, &case.weights)?;
            let records = read_history(&case.history)?;
            let (heard, struck) = heard(&records, length, voice, &full)?;
            let (many, owner) = tickets.owner(&heard, &struck, case.number);
            let number = owner.ok_or(16)?;
            if case.sentence.len() < length {
                return Err(20);
            }
            Ok((vec![many, number], written(&full.sentence(number))))
        }
    }
}

pub fn answer(case: &Case) -> Answer {
    match attempt(case) {
        Ok((figures, buffer)) => Answer { refusal: 0, figures, buffer },
        Err(refusal) => Answer { refusal, figures: vec![0; case.call.figures()], buffer: case.buffer().to_vec() },
    }
}

/// Whether the two ways say the same: every sentence and its readings, what fits each of the patterns, and who owns
/// each of the first and the last tickets of every derivation, written down and by counts.
pub fn ways_agree(
    grammar: &Grammar,
    length: usize,
    tried: &[Vec<u8>],
    patterns: &[Vec<u8>],
    weights: &[Vec<u8>],
) -> bool {
    let t = totals(grammar, length).expect("counts that fit");
    let list = Full::Listed(listed(grammar, length));
    let counted = Full::Counted(Counted { grammar, length, t });
    // With every third of the sentences heard that have one derivation.
    let single = (0..list.total()).map(|d| (d, list.sentence(d))).filter(|(_, s)| list.readings(s).count == 1);
    let third: Vec<(u64, Vec<u8>)> = single.step_by(3).collect();
    let heard: BTreeSet<&[u8]> = third.iter().map(|(_, sentence)| &sentence[..]).collect();
    list.total() == counted.total()
        && (0..list.total()).all(|d| {
            let sentence = list.sentence(d);
            sentence == counted.sentence(d) && list.readings(&sentence) == counted.readings(&sentence)
        })
        && tried.iter().all(|sentence| list.readings(sentence) == counted.readings(sentence))
        && patterns.iter().all(|pattern| {
            let struck = third.iter().filter(|(_, sentence)| fits(sentence, pattern)).map(|&(d, _)| d).collect();
            let entry = |full: &Full, q| full.unheard_fitting(pattern, &heard, &struck, q);
            let many = list.fitting(pattern);
            many == counted.fitting(pattern) && (0..=many).all(|q| entry(&list, q) == entry(&counted, q))
        })
        && weights.iter().all(|weights| {
            let of = |full| Tickets::new(full, grammar, length, weights);
            match (of(&list), of(&counted)) {
                (Ok(list_tickets), Ok(counted_tickets)) => {
                    let struck: BTreeSet<u64> = third.iter().map(|&(d, _)| d).collect();
                    (0..list.total()).all(|d| {
                        let (before, own) = list_tickets.share(d);
                        let owner = |tickets: &Tickets, ticket| tickets.owner(&heard, &struck, ticket);
                        counted_tickets.share(d) == (before, own)
                            && [before, before.saturating_add(own - 1), before.saturating_add(own)]
                                .into_iter()
                                .all(|ticket| owner(&list_tickets, ticket) == owner(&counted_tickets, ticket))
                    })
                }
                (list_tickets, counted_tickets) => list_tickets.err() == counted_tickets.err(),
            }
        })
}
