//! The calls of document 01, with document 02's U1, U2 and U4 to U7, in plain Rust: the yardstick. Written from the documents alone; no
//! unsafe code, no threads, nothing kept between calls. An error is the refusal's number.

const MOST_RECORDS: usize = 1000;
const LAST_VOICE: u64 = 15;

/// The byte of a pattern that any word fits.
pub const BLANK: u8 = 255;

/// An accepted grammar: words and pairs by nonterminal, in chain order.
struct Grammar {
    nonterminals: usize,
    words_below: u8,
    start: usize,
    words: [u8; 256],
    word_from: [u8; 33],
    pairs: [(u8, u8); 256],
    pair_from: [u8; 33],
}

impl Grammar {
    fn words(&self, a: usize) -> &[u8] {
        &self.words[self.word_from[a] as usize..self.word_from[a + 1] as usize]
    }

    fn pairs(&self, a: usize) -> &[(u8, u8)] {
        &self.pairs[self.pair_from[a] as usize..self.pair_from[a + 1] as usize]
    }

    /// The refusals 1 to 8, and the rules sorted out by kind on the way.
    fn read(bytes: &[u8]) -> Result<Grammar, u8> {
        let &[n, w, r, s, ref rest @ ..] = bytes else {
            return Err(1);
        };
        if !(1..=32).contains(&n) || w == 0 || r == 0 || s >= n {
            return Err(2);
        }
        let count = r as usize;
        if rest.len() != n as usize + 4 * count {
            return Err(3);
        }
        let (heads, rules) = rest.split_at(n as usize);
        let mut far = heads.iter().any(|&h| h > r);
        for rule in rules.chunks_exact(4) {
            let fits = match rule[0] {
                0 => rule[1] < w && rule[2] == 0,
                1 => rule[1] < n && rule[2] < n,
                _ => false,
            };
            if !fits {
                return Err(4);
            }
            far |= rule[3] > r;
        }
        if far {
            return Err(5);
        }

        let mut g = Grammar {
            nonterminals: n as usize,
            words_below: w,
            start: s as usize,
            words: [0; 256],
            word_from: [0; 33],
            pairs: [(0, 0); 256],
            pair_from: [0; 33],
        };
        let mut seen = [false; 256];
        let (mut words, mut pairs) = (0, 0);
        for (a, &head) in heads.iter().enumerate() {
            let mut at = head as usize;
            while at != 0 {
                if seen[at] {
                    return Err(6);
                }
                seen[at] = true;
                let rule = &rules[4 * at - 4..4 * at];
                if rule[0] == 0 {
                    g.words[words] = rule[1];
                    words += 1;
                } else {
                    g.pairs[pairs] = (rule[1], rule[2]);
                    pairs += 1;
                }
                at = rule[3] as usize;
            }
            g.word_from[a + 1] = words as u8;
            g.pair_from[a + 1] = pairs as u8;
        }
        if words + pairs != count {
            return Err(7);
        }
        for a in 0..g.nonterminals {
            let mut met = [0u64; 4];
            for &x in g.words(a) {
                let (i, bit) = (x as usize / 64, 1u64 << (x % 64));
                if met[i] & bit != 0 {
                    return Err(8);
                }
                met[i] |= bit;
            }
            let mut met = [0u32; 32];
            for &(b, c) in g.pairs(a) {
                let bit = 1u32 << (c & 31);
                let row = &mut met[b as usize & 31];
                if *row & bit != 0 {
                    return Err(8);
                }
                *row |= bit;
            }
        }
        Ok(g)
    }
}

/// The places of the ones of a mask, rising.
struct Bits(u32);

impl Iterator for Bits {
    type Item = usize;

    fn next(&mut self) -> Option<usize> {
        if self.0 == 0 {
            return None;
        }
        let i = self.0.trailing_zeros() as usize;
        self.0 &= self.0 - 1;
        Some(i)
    }
}

/// T by nonterminal and length.
pub type Totals = [[u64; 17]; 32];

pub const NO_TOTALS: Totals = [[0; 17]; 32];

/// The nonterminals that are needed at each length from 1 to n: the start symbol at n, and with a nonterminal those of its pair rules at every
/// shorter length.
fn needed(g: &Grammar, n: usize) -> [u32; 17] {
    let mut at = [0u32; 17];
    at[n] = 1 << (g.start & 31);
    let (mut met, mut halves) = (0u32, 0u32);
    for m in (2..=n).rev() {
        for a in Bits(at[m] & !met) {
            for &(b, c) in g.pairs(a) {
                halves |= 1 << (b & 31) | 1 << (c & 31);
            }
        }
        met |= at[m];
        at[m - 1] = halves;
    }
    at
}

/// The left lengths k of a run of m words: bit k on the left and bit m - k on the right.
fn splits(left: u32, right: u32, m: usize) -> Bits {
    Bits(left & right.reverse_bits() >> (31 - m))
}

/// 10, or T of the needed pairs in a table of zeros. Which lengths a nonterminal has is a mask, so that no product with a zero is looked at.
fn fill_totals(g: &Grammar, n: usize, t: &mut Totals) -> Result<(), u8> {
    let needed = needed(g, n);
    let mut lengths = [0u32; 32];
    for a in Bits(needed[1]) {
        t[a][1] = g.words(a).len() as u64;
        lengths[a] = u32::from(t[a][1] != 0) << 1;
    }
    for m in 2..=n {
        for a in Bits(needed[m]) {
            let mut sum = 0u64;
            for &(b, c) in g.pairs(a) {
                let (b, c) = (b as usize & 31, c as usize & 31);
                for k in splits(lengths[b], lengths[c], m) {
                    let product = t[b][k].checked_mul(t[c][m - k]).ok_or(10)?;
                    sum = sum.checked_add(product).ok_or(10)?;
                }
            }
            t[a][m] = sum;
            lengths[a] |= u32::from(sum != 0) << m;
        }
    }
    Ok(())
}

/// The refusals 1 to 9 and 22. A call that takes no voice names 0. Inlined, so that the grammar is not copied once more.
#[inline(always)]
fn open(grammar: &[u8], length: u64, voice: u64) -> Result<(Grammar, usize), u8> {
    let g = Grammar::read(grammar)?;
    if !(1..=16).contains(&length) {
        return Err(9);
    }
    if voice > LAST_VOICE {
        return Err(22);
    }
    Ok((g, length as usize))
}

/// The refusals 1 to 9, 22 and 10; then T is in the table.
fn prepare(grammar: &[u8], length: u64, voice: u64, t: &mut Totals) -> Result<(Grammar, usize), u8> {
    let (g, n) = open(grammar, length, voice)?;
    fill_totals(&g, n, t)?;
    Ok((g, n))
}

/// The refusals 1 to 9, 22, 10 and 21; then T is in the table.
fn prepare_matching(grammar: &[u8], pattern: &[u8], voice: u64, t: &mut Totals) -> Result<Grammar, u8> {
    let (g, _) = prepare(grammar, pattern.len() as u64, voice, t)?;
    if pattern.iter().any(|&w| w != BLANK && w >= g.words_below) {
        return Err(21);
    }
    Ok(g)
}

/// Writes the sentence of the derivation d of a; its length is that of `out`.
fn write(g: &Grammar, t: &Totals, a: usize, mut d: u64, out: &mut [u8]) {
    let m = out.len();
    if m == 1 {
        out[0] = g.words(a)[d as usize];
        return;
    }
    for &(b, c) in g.pairs(a) {
        let (b, c) = (b as usize & 31, c as usize & 31);
        for k in 1..m {
            let (x, y) = (t[b][k], t[c][m - k]);
            let here = x * y;
            if d < here {
                let (left, right) = out.split_at_mut(k);
                write(g, t, b, d / y, left);
                write(g, t, c, d % y, right);
                return;
            }
            d -= here;
        }
    }
    unreachable!("d is below T");
}

/// Which nonterminals derive the runs of a sentence: sets as masks, by first position and length.
struct Parser<'a> {
    g: &'a Grammar,
    t: &'a Totals,
    /// The nonterminals with a word rule for a word.
    of_word: [u32; 256],
    /// The nonterminals with a pair rule for a pair.
    of_pair: [[u32; 32]; 32],
    /// The nonterminals that stand left, and right, in some pair rule.
    lefts: u32,
    rights: u32,
    /// Those with a derivation of a run, and those with two or more.
    some: [[u32; 17]; 16],
    many: [[u32; 17]; 16],
}

enum Found {
    None,
    One(u64),
    Many,
}

impl<'a> Parser<'a> {
    fn new(g: &'a Grammar, t: &'a Totals) -> Self {
        let mut p =
            Parser { g, t, of_word: [0; 256], of_pair: [[0; 32]; 32], lefts: 0, rights: 0, some: [[0; 17]; 16], many: [[0; 17]; 16] };
        for a in 0..g.nonterminals {
            for &w in g.words(a) {
                p.of_word[w as usize] |= 1 << a;
            }
            for &(b, c) in g.pairs(a) {
                let (b, c) = (b as usize & 31, c as usize & 31);
                p.of_pair[b][c] |= 1 << a;
                p.lefts |= 1 << b;
                p.rights |= 1 << c;
            }
        }
        p
    }

    /// Fills the masks for a sentence of 1 to 16 words, shorter runs first.
    fn fill(&mut self, s: &[u8]) {
        let n = s.len();
        for (p, &w) in s.iter().enumerate() {
            self.some[p][1] = self.of_word[w as usize];
            self.many[p][1] = 0;
        }
        for m in 2..=n {
            for p in 0..=n - m {
                let (mut some, mut many) = (0, 0);
                for k in 1..m {
                    let left = self.some[p][k] & self.lefts;
                    let right = self.some[p + k][m - k] & self.rights;
                    if left == 0 || right == 0 {
                        continue;
                    }
                    for b in Bits(left) {
                        for c in Bits(right) {
                            let heads = self.of_pair[b][c];
                            many |= some & heads;
                            some |= heads;
                            if (self.many[p][k] >> b | self.many[p + k][m - k] >> c) & 1 != 0 {
                                many |= heads;
                            }
                        }
                    }
                }
                self.some[p][m] = some;
                self.many[p][m] = many;
            }
        }
    }

    /// How many derivations a sentence has: a second pass, with counts, for those that have several. Only counts that nothing needs may wrap.
    fn derivations(&self, s: &[u8]) -> u64 {
        let n = s.len();
        let at = |p: usize, m: usize| (m - 1) * n + p;
        let mut counts = vec![[0u64; 32]; n * n];
        for p in 0..n {
            for a in Bits(self.some[p][1]) {
                counts[at(p, 1)][a] = 1;
            }
        }
        for m in 2..=n {
            for p in 0..=n - m {
                let mut row = [0u64; 32];
                for k in 1..m {
                    for b in Bits(self.some[p][k] & self.lefts) {
                        for c in Bits(self.some[p + k][m - k] & self.rights) {
                            let both = counts[at(p, k)][b].wrapping_mul(counts[at(p + k, m - k)][c]);
                            for a in Bits(self.of_pair[b][c]) {
                                row[a] = row[a].wrapping_add(both);
                            }
                        }
                    }
                }
                counts[at(p, m)] = row;
            }
        }
        counts[at(0, n)][self.g.start]
    }

    /// The place of the first derivation of a over m words from p on.
    fn place(&self, s: &[u8], a: usize, p: usize, m: usize) -> u64 {
        if m == 1 {
            return self.g.words(a).iter().position(|&w| w == s[p]).unwrap() as u64;
        }
        let mut before = 0;
        for &(b, c) in self.g.pairs(a) {
            let (b, c) = (b as usize & 31, c as usize & 31);
            for k in 1..m {
                let (x, y) = (self.t[b][k], self.t[c][m - k]);
                if self.some[p][k] >> b & self.some[p + k][m - k] >> c & 1 != 0 {
                    return before + self.place(s, b, p, k) * y + self.place(s, c, p + k, m - k);
                }
                before += x * y;
            }
        }
        unreachable!("the run has a derivation");
    }

    fn find(&mut self, s: &[u8]) -> Found {
        let (n, start) = (s.len(), self.g.start);
        self.fill(s);
        if self.some[0][n] >> start & 1 == 0 {
            Found::None
        } else if self.many[0][n] >> start & 1 != 0 {
            Found::Many
        } else {
            Found::One(self.place(s, start, 0, n))
        }
    }

    /// The counts of a pattern of 1 to 16 bytes, shorter runs first. Only counts that nothing needs may wrap.
    fn fitting(&self, pattern: &'a [u8]) -> Fitting<'a> {
        let n = pattern.len();
        let mut from = [0; 17];
        for m in 2..=n {
            from[m] = from[m - 1] + n + 2 - m;
        }
        let mut f = Fitting { g: self.g, t: self.t, pattern, from, counts: Vec::with_capacity(n * (n + 1) / 2) };
        let mut some = [[0u32; 17]; 16];
        for (p, &w) in pattern.iter().enumerate() {
            let mut row = [0; 32];
            if w == BLANK {
                for a in 0..self.g.nonterminals {
                    row[a] = self.g.words(a).len() as u64;
                    some[p][1] |= u32::from(row[a] != 0) << a;
                }
            } else {
                some[p][1] = self.of_word[w as usize];
                for a in Bits(some[p][1]) {
                    row[a] = 1;
                }
            }
            f.counts.push(row);
        }
        for m in 2..=n {
            for p in 0..=n - m {
                let mut row = [0u64; 32];
                for k in 1..m {
                    let left = some[p][k] & self.lefts;
                    let right = some[p + k][m - k] & self.rights;
                    if left == 0 || right == 0 {
                        continue;
                    }
                    let (lefts, rights) = (f.row(p, k), f.row(p + k, m - k));
                    for b in Bits(left) {
                        for c in Bits(right) {
                            let heads = self.of_pair[b][c];
                            let both = lefts[b].wrapping_mul(rights[c]);
                            some[p][m] |= heads;
                            for a in Bits(heads) {
                                row[a] = row[a].wrapping_add(both);
                            }
                        }
                    }
                }
                f.counts.push(row);
            }
        }
        f
    }
}

/// How many derivations over a run of a pattern fit it, by nonterminal.
struct Fitting<'a> {
    g: &'a Grammar,
    t: &'a Totals,
    pattern: &'a [u8],
    /// Where the runs of a length begin among the rows.
    from: [usize; 17],
    counts: Vec<[u64; 32]>,
}

impl Fitting<'_> {
    /// The counts of the run of m bytes from p on.
    fn row(&self, p: usize, m: usize) -> &[u64; 32] {
        &self.counts[self.from[m] + p]
    }

    fn total(&self) -> u64 {
        self.row(0, self.pattern.len())[self.g.start]
    }

    fn fits(&self, s: &[u8]) -> bool {
        s.iter().zip(self.pattern).all(|(w, b)| b == w || *b == BLANK)
    }

    /// The place of a sentence's first derivation of a over m words from p on, among those that fit; the parser holds the sentence.
    fn place(&self, parser: &Parser, s: &[u8], a: usize, p: usize, m: usize) -> u64 {
        if m == 1 {
            // where a word stands in the pattern, no other fits
            return if self.pattern[p] == BLANK { self.g.words(a).iter().position(|&w| w == s[p]).unwrap() as u64 } else { 0 };
        }
        let mut before = 0;
        for &(b, c) in self.g.pairs(a) {
            let (b, c) = (b as usize & 31, c as usize & 31);
            for k in 1..m {
                let (x, y) = (self.row(p, k)[b], self.row(p + k, m - k)[c]);
                if parser.some[p][k] >> b & parser.some[p + k][m - k] >> c & 1 != 0 {
                    return before + self.place(parser, s, b, p, k) * y + self.place(parser, s, c, p + k, m - k);
                }
                before += x * y;
            }
        }
        unreachable!("the run has a derivation");
    }

    /// Writes the sentence of the fitting derivation e of a from p on; its length is that of `out`. Gives its number among all.
    fn write(&self, a: usize, p: usize, mut e: u64, out: &mut [u8]) -> u64 {
        let m = out.len();
        if m == 1 {
            let (words, byte) = (self.g.words(a), self.pattern[p]);
            let d = if byte == BLANK { e as usize } else { words.iter().position(|&w| w == byte).unwrap() };
            out[0] = words[d];
            return d as u64;
        }
        let mut before = 0;
        for &(b, c) in self.g.pairs(a) {
            let (b, c) = (b as usize & 31, c as usize & 31);
            for k in 1..m {
                let (x, y) = (self.row(p, k)[b], self.row(p + k, m - k)[c]);
                let here = x * y;
                if e < here {
                    let (left, right) = out.split_at_mut(k);
                    let d = self.write(b, p, e / y, left);
                    return before + d * self.t[c][m - k] + self.write(c, p + k, e % y, right);
                }
                e -= here;
                before += self.t[b][k] * self.t[c][m - k];
            }
        }
        unreachable!("e is below the count of the run");
    }
}

/// The tickets of the derivations of a nonterminal and a length: each owns as many as it weighs, one after another in the order of the
/// derivations.
struct Tickets<'a> {
    g: &'a Grammar,
    weights: &'a [u8],
    /// The first ticket of each word rule, by its place among `g.words`.
    first: [u16; 256],
    /// The lengths that a nonterminal has, as a mask.
    lengths: [u32; 32],
    /// T, and the total weight, by nonterminal and length.
    t: &'a mut Totals,
    v: &'a mut Totals,
}

/// The owner of a ticket: its number among the derivations, its weight, and how many of its tickets stand before that one.
struct Owner {
    number: u64,
    weight: u64,
    before: u64,
}

impl<'a> Tickets<'a> {
    /// 24, 25, or T and the total weights of the needed pairs in two tables of zeros.
    fn new(g: &'a Grammar, n: usize, weights: &'a [u8], t: &'a mut Totals, v: &'a mut Totals) -> Result<Self, u8> {
        if weights.len() != g.words_below as usize || weights.contains(&0) {
            return Err(24);
        }
        let mut tickets = Tickets { g, weights, first: [0; 256], lengths: [0; 32], t, v };
        tickets.fill(n).ok_or(25)?;
        Ok(tickets)
    }

    /// Fills both tables side by side, unless a total weight is too large. No weight is 0: a count is no larger than its total weight, so it
    /// fits too, and the two are 0 together.
    fn fill(&mut self, n: usize) -> Option<()> {
        let needed = needed(self.g, n);
        for a in Bits(needed[1]) {
            let mut sum = 0;
            for i in self.g.word_from[a]..self.g.word_from[a + 1] {
                self.first[i as usize] = sum;
                sum += u16::from(self.weights[self.g.words[i as usize] as usize]);
            }
            self.t[a][1] = self.g.words(a).len() as u64;
            self.v[a][1] = u64::from(sum);
            self.lengths[a] = u32::from(sum != 0) << 1;
        }
        for m in 2..=n {
            for a in Bits(needed[m]) {
                let (mut count, mut weight) = (0, 0u64);
                for &(b, c) in self.g.pairs(a) {
                    let (b, c) = (b as usize & 31, c as usize & 31);
                    for k in splits(self.lengths[b], self.lengths[c], m) {
                        let product = self.v[b][k].checked_mul(self.v[c][m - k])?;
                        weight = weight.checked_add(product)?;
                        count += self.t[b][k] * self.t[c][m - k];
                    }
                }
                self.t[a][m] = count;
                self.v[a][m] = weight;
                self.lengths[a] |= u32::from(count != 0) << m;
            }
        }
        Some(())
    }

    /// The first ticket and the weight of a sentence's first derivation of a over m words from p on; the parser holds the sentence.
    fn place(&self, parser: &Parser, s: &[u8], a: usize, p: usize, m: usize) -> (u64, u64) {
        if m == 1 {
            let rule = self.g.word_from[a] as usize + self.g.words(a).iter().position(|&w| w == s[p]).unwrap();
            return (u64::from(self.first[rule]), u64::from(self.weights[s[p] as usize]));
        }
        let mut before = 0;
        for &(b, c) in self.g.pairs(a) {
            let (b, c) = (b as usize & 31, c as usize & 31);
            for k in splits(self.lengths[b], self.lengths[c], m) {
                let (x, y) = (self.v[b][k], self.v[c][m - k]);
                if parser.some[p][k] >> b & parser.some[p + k][m - k] >> c & 1 != 0 {
                    let (left, weight) = self.place(parser, s, b, p, k);
                    let (right, other) = self.place(parser, s, c, p + k, m - k);
                    return (before + left * y + weight * right, weight * other);
                }
                before += x * y;
            }
        }
        unreachable!("the run has a derivation");
    }

    /// Writes the sentence of a ticket's owner among the derivations of a; its length is that of `out`.
    fn write(&self, a: usize, mut ticket: u64, out: &mut [u8]) -> Owner {
        let m = out.len();
        if m == 1 {
            let rules = self.g.word_from[a] as usize..self.g.word_from[a + 1] as usize;
            let first = &self.first[rules];
            let d = first.partition_point(|&f| u64::from(f) <= ticket) - 1;
            out[0] = self.g.words(a)[d];
            return Owner { number: d as u64, weight: u64::from(self.weights[out[0] as usize]), before: ticket - u64::from(first[d]) };
        }
        let mut before = 0;
        for &(b, c) in self.g.pairs(a) {
            let (b, c) = (b as usize & 31, c as usize & 31);
            for k in splits(self.lengths[b], self.lengths[c], m) {
                let (x, y) = (self.v[b][k], self.v[c][m - k]);
                let here = x * y;
                if ticket < here {
                    let (start, end) = out.split_at_mut(k);
                    let left = self.write(b, ticket / y, start);
                    // A ticket of the right derivation stands for as many here as the left one weighs.
                    let among = left.before * y + ticket % y;
                    let right = self.write(c, among / left.weight, end);
                    return Owner {
                        number: before + left.number * self.t[c][m - k] + right.number,
                        weight: left.weight * right.weight,
                        before: right.before * left.weight + among % left.weight,
                    };
                }
                ticket -= here;
                before += self.t[b][k] * self.t[c][m - k];
            }
        }
        unreachable!("the ticket is below the total weight");
    }
}

fn two(bytes: &[u8], at: usize) -> usize {
    u16::from_le_bytes([bytes[at], bytes[at + 1]]) as usize
}

/// An accepted history: its records, and the number of the first on the chain.
struct History<'a> {
    records: &'a [u8],
    head: usize,
}

impl<'a> History<'a> {
    fn count(&self) -> usize {
        self.records.len() / 20
    }

    fn record(&self, r: usize) -> &'a [u8] {
        &self.records[20 * (r - 1)..20 * r]
    }

    /// The refusals 11 to 14.
    fn read(bytes: &'a [u8]) -> Result<Self, u8> {
        if bytes.len() < 4 {
            return Err(11);
        }
        let (k, head) = (two(bytes, 0), two(bytes, 2));
        if k > MOST_RECORDS || bytes.len() < 4 + 20 * k {
            return Err(11);
        }
        let h = History { records: &bytes[4..4 + 20 * k], head };
        let mut far = head > k;
        for record in h.records.chunks_exact(20) {
            let length = record[2] as usize;
            let played = record[3] as usize % 16;
            if !(1..=16).contains(&length) || played >= length {
                return Err(12);
            }
            if record[4 + length..].iter().any(|&b| b != 0) {
                return Err(12);
            }
            far |= two(record, 0) > k;
        }
        if far {
            return Err(13);
        }
        // A chain that ends meets no record twice.
        let mut at = head;
        for _ in 0..k {
            if at == 0 {
                return Err(14);
            }
            at = two(h.record(at), 0);
        }
        if at != 0 {
            return Err(14);
        }
        Ok(h)
    }

    /// The derivation numbers of the sentences of n words, heard in a voice, with one derivation, rising, each once; or 15.
    fn heard(&self, g: &Grammar, t: &Totals, n: usize, voice: u64) -> Result<Vec<u64>, u8> {
        let mut numbers = Vec::with_capacity(self.count());
        if self.count() == 0 {
            return Ok(numbers);
        }
        let mut parser = Parser::new(g, t);
        // A record played in full has the voice in its fourth byte and nothing beside it.
        let in_full = 16 * voice as u8;
        // Which records are first makes no difference: each is asked by itself.
        for record in self.records.chunks_exact(20) {
            if record[2] as usize != n || record[3] != in_full {
                continue;
            }
            match parser.find(&record[4..4 + n]) {
                Found::None => {}
                Found::One(d) => numbers.push(d),
                Found::Many => return Err(15),
            }
        }
        numbers.sort_unstable();
        numbers.dedup();
        Ok(numbers)
    }

    /// The same for a pattern: the places among the fitting derivations, of the sentences that fit. 15 asks every sentence of n words.
    fn heard_fitting(&self, parser: &mut Parser, f: &Fitting, voice: u64) -> Result<Vec<u64>, u8> {
        let mut places = Vec::with_capacity(self.count());
        let (n, start, in_full) = (f.pattern.len(), f.g.start, 16 * voice as u8);
        for record in self.records.chunks_exact(20) {
            if record[2] as usize != n || record[3] != in_full {
                continue;
            }
            let s = &record[4..4 + n];
            parser.fill(s);
            if parser.many[0][n] >> start & 1 != 0 {
                return Err(15);
            }
            if parser.some[0][n] >> start & 1 != 0 && f.fits(s) {
                places.push(f.place(parser, s, start, 0, n));
            }
        }
        places.sort_unstable();
        places.dedup();
        Ok(places)
    }

    /// The same for tickets: the first ticket and the weight of each such derivation.
    fn heard_tickets(&self, tickets: &Tickets, n: usize, voice: u64) -> Result<Vec<(u64, u64)>, u8> {
        let mut heard = Vec::with_capacity(self.count());
        if self.count() == 0 {
            return Ok(heard);
        }
        let mut parser = Parser::new(tickets.g, tickets.t);
        let (start, in_full) = (tickets.g.start, 16 * voice as u8);
        for record in self.records.chunks_exact(20) {
            if record[2] as usize != n || record[3] != in_full {
                continue;
            }
            let s = &record[4..4 + n];
            parser.fill(s);
            if parser.many[0][n] >> start & 1 != 0 {
                return Err(15);
            }
            if parser.some[0][n] >> start & 1 != 0 {
                heard.push(tickets.place(&parser, s, start, 0, n));
            }
        }
        heard.sort_unstable_by_key(|&(first, _)| first);
        heard.dedup();
        Ok(heard)
    }
}

/// The derivation number of the unheard derivation with q unheard ones before it.
fn skip(q: u64, heard: &[u64]) -> u64 {
    let (mut low, mut high) = (0, heard.len());
    while low < high {
        let mid = (low + high) / 2;
        if heard[mid] - mid as u64 <= q {
            low = mid + 1;
        } else {
            high = mid;
        }
    }
    q + low as u64
}

/// The ticket with so many tickets of unheard derivations before it, itself one of them.
fn skip_tickets(mut ticket: u64, heard: &[(u64, u64)]) -> u64 {
    for &(first, weight) in heard {
        if ticket < first {
            break;
        }
        ticket += weight;
    }
    ticket
}

/// What many draws on one grammar, history, length and voice share.
pub struct Prepared<'a> {
    g: Grammar,
    t: &'a Totals,
    n: usize,
    heard: Vec<u64>,
    pub total: u64,
    pub left: u64,
}

impl<'a> Prepared<'a> {
    pub fn new(grammar: &[u8], history: &[u8], length: u64, voice: u64, t: &'a mut Totals) -> Result<Self, u8> {
        let (g, n) = prepare(grammar, length, voice, t)?;
        let heard = History::read(history)?.heard(&g, t, n, voice)?;
        let total = t[g.start][n];
        let left = total - heard.len() as u64;
        Ok(Prepared { g, t, n, heard, total, left })
    }

    pub fn heard(&self) -> u64 {
        self.heard.len() as u64
    }

    /// The derivation number, and the sentence into the first bytes of the buffer.
    pub fn draw(&self, q: u64, out: &mut [u8]) -> Result<u64, u8> {
        if q >= self.left {
            return Err(16);
        }
        if out.len() < self.n {
            return Err(20);
        }
        let d = skip(q, &self.heard);
        write(&self.g, self.t, self.g.start, d, &mut out[..self.n]);
        Ok(d)
    }
}

// ---- The calls

#[inline(never)]
pub fn check_grammar(grammar: &[u8]) -> Result<(u64, u64), u8> {
    let g = Grammar::read(grammar)?;
    Ok((g.nonterminals as u64, g.words_below as u64))
}

#[inline(never)]
pub fn check_history(history: &[u8]) -> Result<u64, u8> {
    Ok(History::read(history)?.count() as u64)
}

#[inline(never)]
pub fn count(grammar: &[u8], length: u64) -> Result<u64, u8> {
    let mut t = NO_TOTALS;
    let (g, n) = prepare(grammar, length, 0, &mut t)?;
    Ok(t[g.start][n])
}

#[inline(never)]
pub fn unrank(grammar: &[u8], length: u64, number: u64, out: &mut [u8]) -> Result<u64, u8> {
    let mut t = NO_TOTALS;
    let (g, n) = prepare(grammar, length, 0, &mut t)?;
    let total = t[g.start][n];
    if number >= total {
        return Err(16);
    }
    if out.len() < n {
        return Err(20);
    }
    write(&g, &t, g.start, number, &mut out[..n]);
    Ok(total)
}

#[inline(never)]
pub fn rank(grammar: &[u8], sentence: &[u8]) -> Result<(u64, u64, u64), u8> {
    let mut t = NO_TOTALS;
    let (g, n) = prepare(grammar, sentence.len() as u64, 0, &mut t)?;
    let mut parser = Parser::new(&g, &t);
    match parser.find(sentence) {
        Found::None => Err(17),
        Found::Many => Ok((parser.place(sentence, g.start, 0, n), t[g.start][n], parser.derivations(sentence))),
        Found::One(d) => Ok((d, t[g.start][n], 1)),
    }
}

#[inline(never)]
pub fn remaining(grammar: &[u8], history: &[u8], length: u64, voice: u64) -> Result<(u64, u64, u64), u8> {
    let mut t = NO_TOTALS;
    let (g, n) = prepare(grammar, length, voice, &mut t)?;
    let heard = History::read(history)?.heard(&g, &t, n, voice)?.len() as u64;
    let total = t[g.start][n];
    Ok((total, heard, total - heard))
}

#[inline(never)]
pub fn draw(grammar: &[u8], history: &[u8], length: u64, voice: u64, q: u64, out: &mut [u8]) -> Result<(u64, u64), u8> {
    let mut t = NO_TOTALS;
    let prepared = Prepared::new(grammar, history, length, voice, &mut t)?;
    let d = prepared.draw(q, out)?;
    Ok((prepared.left, d))
}

#[inline(never)]
pub fn remaining_matching(grammar: &[u8], history: &[u8], pattern: &[u8], voice: u64) -> Result<(u64, u64, u64), u8> {
    let mut t = NO_TOTALS;
    let g = prepare_matching(grammar, pattern, voice, &mut t)?;
    let history = History::read(history)?;
    let mut parser = Parser::new(&g, &t);
    let fitting = parser.fitting(pattern);
    let heard = history.heard_fitting(&mut parser, &fitting, voice)?.len() as u64;
    let total = fitting.total();
    Ok((total, heard, total - heard))
}

#[inline(never)]
pub fn draw_matching(grammar: &[u8], history: &[u8], pattern: &[u8], voice: u64, q: u64, out: &mut [u8]) -> Result<(u64, u64), u8> {
    let mut t = NO_TOTALS;
    let g = prepare_matching(grammar, pattern, voice, &mut t)?;
    let history = History::read(history)?;
    let mut parser = Parser::new(&g, &t);
    let fitting = parser.fitting(pattern);
    let heard = history.heard_fitting(&mut parser, &fitting, voice)?;
    let left = fitting.total() - heard.len() as u64;
    if q >= left {
        return Err(16);
    }
    let n = pattern.len();
    if out.len() < n {
        return Err(20);
    }
    let d = fitting.write(g.start, 0, skip(q, &heard), &mut out[..n]);
    Ok((left, d))
}

#[inline(never)]
pub fn draw_weighted(
    grammar: &[u8],
    history: &[u8],
    length: u64,
    voice: u64,
    weights: &[u8],
    ticket: u64,
    out: &mut [u8],
) -> Result<(u64, u64), u8> {
    let (g, n) = open(grammar, length, voice)?;
    let (mut t, mut v) = (NO_TOTALS, NO_TOTALS);
    let tickets = match Tickets::new(&g, n, weights, &mut t, &mut v) {
        Ok(tickets) => tickets,
        // 10 comes before these two
        Err(refusal) => return count(grammar, length).and(Err(refusal)),
    };
    let heard = History::read(history)?.heard_tickets(&tickets, n, voice)?;
    let left = tickets.v[g.start][n] - heard.iter().map(|&(_, weight)| weight).sum::<u64>();
    if ticket >= left {
        return Err(16);
    }
    if out.len() < n {
        return Err(20);
    }
    let owner = tickets.write(g.start, skip_tickets(ticket, &heard), &mut out[..n]);
    Ok((left, owner.number))
}

#[inline(never)]
pub fn append(history: &mut [u8], sentence: &[u8], voice: u64, played: u64) -> Result<u64, u8> {
    let n = sentence.len();
    if !(1..=16).contains(&n) {
        return Err(9);
    }
    if voice > LAST_VOICE {
        return Err(22);
    }
    if played >= n as u64 {
        return Err(23);
    }
    let h = History::read(history)?;
    let (new, head) = (h.count() + 1, h.head);
    if new > MOST_RECORDS || history.len() < 4 + 20 * new {
        return Err(19);
    }
    let record = &mut history[20 * new - 16..20 * new + 4];
    record.fill(0);
    record[..2].copy_from_slice(&(head as u16).to_le_bytes());
    record[2] = n as u8;
    record[3] = (16 * voice + played) as u8;
    record[4..4 + n].copy_from_slice(sentence);
    history[..2].copy_from_slice(&(new as u16).to_le_bytes());
    history[2..4].copy_from_slice(&(new as u16).to_le_bytes());
    Ok(new as u64)
}
