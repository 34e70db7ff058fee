//! Cases from a seed: grammars of several families, histories, patterns, weights, voices, words played, numbers, and
//! damage of every kind.
use super::case::{Call, Case};
use super::reference::{Full, Grammar, Readings, Tickets, fits, next, read_grammar, totals};
use std::collections::BTreeSet;

/// Numbers from a seed (splitmix64).
pub struct Rng(u64);

impl Rng {
    pub fn new(seed: u64) -> Rng {
        Rng(seed)
    }

    /// The numbers of one case of a run: a case can be made without those before it.
    pub fn of_case(seed: u64, case: u64) -> Rng {
        let mut rng = Rng(seed);
        let first = rng.next();
        Rng(first ^ Rng(case).next())
    }

    pub fn next(&mut self) -> u64 {
        self.0 = self.0.wrapping_add(0x9e37_79b9_7f4a_7c15);
        let mut z = self.0;
        z = (z ^ (z >> 30)).wrapping_mul(0xbf58_476d_1ce4_e5b9);
        z = (z ^ (z >> 27)).wrapping_mul(0x94d0_49bb_1331_11eb);
        z ^ (z >> 31)
    }

    pub fn below(&mut self, n: usize) -> usize {
        self.below_u64(n as u64) as usize
    }

    pub fn below_u64(&mut self, n: u64) -> u64 {
        ((u128::from(self.next()) * u128::from(n)) >> 64) as u64
    }

    pub fn byte(&mut self) -> u8 {
        self.next() as u8
    }

    /// True once in n times.
    pub fn once_in(&mut self, n: usize) -> bool {
        self.below(n) == 0
    }

    pub fn pick<T: Copy>(&mut self, items: &[T]) -> T {
        items[self.below(items.len())]
    }

    pub fn bytes(&mut self, n: usize) -> Vec<u8> {
        (0..n).map(|_| self.byte()).collect()
    }

    pub fn shuffle<T>(&mut self, items: &mut [T]) {
        for i in (1..items.len()).rev() {
            items.swap(i, self.below(i + 1));
        }
    }
}

// ---- Grammars

type Body = [u8; 3];

fn word(a: usize) -> Body {
    [0, a as u8, 0]
}

fn pair(a: usize, b: usize) -> Body {
    [1, a as u8, b as u8]
}

/// A grammar as each nonterminal's rules in chain order.
pub struct Draft {
    pub words: usize,
    pub start: usize,
    pub chains: Vec<Vec<Body>>,
}

impl Draft {
    fn new(words: usize, chains: Vec<Vec<Body>>) -> Draft {
        Draft { words, start: 0, chains }
    }

    pub fn rules(&self) -> usize {
        self.chains.iter().map(Vec::len).sum()
    }

    /// Adds a rule where it fits and its chain has none like it.
    fn add(&mut self, a: usize, place: usize, body: Body) {
        if self.rules() < 255 && !self.chains[a].contains(&body) {
            self.chains[a].insert(place, body);
        }
    }

    /// The rules are numbered chain by chain.
    pub fn bytes(&self) -> Vec<u8> {
        self.numbered(&(1..=self.rules()).collect::<Vec<usize>>())
    }

    /// The rules take these numbers, chain by chain.
    fn numbered(&self, numbers: &[usize]) -> Vec<u8> {
        let (n, r) = (self.chains.len(), self.rules());
        let mut bytes = vec![0; 4 + n + 4 * r];
        bytes[..4].copy_from_slice(&[n as u8, self.words as u8, r as u8, self.start as u8]);
        let mut taken = 0;
        for (a, chain) in self.chains.iter().enumerate() {
            let mut link = 4 + a;
            for body in chain {
                let number = numbers[taken];
                taken += 1;
                bytes[link] = number as u8;
                let at = 4 + n + 4 * (number - 1);
                bytes[at..at + 3].copy_from_slice(body);
                link = at + 3;
            }
        }
        bytes
    }
}

fn random_draft(rng: &mut Rng, n: usize, w: usize, r: usize) -> Draft {
    let (n, w) = (1 + rng.below(n), 1 + rng.below(w));
    let mut draft = Draft::new(w, vec![vec![]; n]);
    for _ in 0..1 + rng.below(r) {
        let a = rng.below(n);
        let body = if rng.once_in(2) { word(rng.below(w)) } else { pair(rng.below(n), rng.below(n)) };
        let place = rng.below(draft.chains[a].len() + 1);
        draft.add(a, place, body);
    }
    draft.start = rng.below(n);
    draft
}

/// Document 01's F, with any number of words.
pub fn f_words(words: usize) -> Draft {
    Draft::new(words, vec![vec![pair(1, 1), pair(1, 0)], (0..words).map(word).collect()])
}

/// Document 01's G, with any number of words: ambiguous.
pub fn g_words(words: usize) -> Draft {
    Draft::new(words, vec![[pair(0, 0)].into_iter().chain((0..words).map(word)).collect()])
}

/// A row of groups, one word of each: the house matrix grammar is five groups of ten.
pub fn groups(sizes: &[usize]) -> Draft {
    let count = sizes.len();
    let group = |i: usize| count - 1 + i;
    let mut chains: Vec<Vec<Body>> =
        (0..count - 1).map(|i| vec![pair(group(i), if i + 2 == count { group(i + 1) } else { i + 1 })]).collect();
    let mut next = 0;
    for size in sizes {
        chains.push((next..next + size).map(word).collect());
        next += size;
    }
    Draft::new(next, chains)
}

/// Words at the bottom, each level twice the one below, and a start over any of them: large counts at few lengths,
/// zeros at the others.
fn tower(rng: &mut Rng) -> Draft {
    let levels = 2 + rng.below(4);
    let most = 230;
    let any = 1 + rng.below(most);
    let words = rng.pick(&[1, 2, 3, 15, 16, 17, 128, 200, most, any]);
    let mut chains = vec![vec![], (0..words).map(word).collect()];
    for level in 1..levels {
        chains.push(vec![pair(level, level)]);
    }
    let n = chains.len() + rng.below(2); // sometimes one that derives nothing
    chains.resize(n, vec![]);
    let mut draft = Draft::new(words, chains);
    for _ in 0..1 + rng.below(5) {
        let body = pair(1 + rng.below(n - 1), 1 + rng.below(n - 1));
        draft.add(0, 0, body);
    }
    draft
}

/// T(S, 16) = 2^64 - 1 = 15 * 17 * (16^2 + 1) * (16^4 + 1) * (16^8 + 1), or one more with `extra`; unambiguous.
pub fn brimful(extra: bool) -> Draft {
    let [s, a15, a17, a16, a1, b2, b4, c2, c4, c8, x2, x4, x8, y2, y4, y8] = std::array::from_fn(|i| i);
    let mut chains = vec![vec![]; 16];
    chains[s] = vec![pair(y8, x8)];
    if extra {
        chains[s].push(pair(c8, c8));
    }
    chains[a15] = (0..15).map(word).collect();
    chains[a17] = (0..17).map(word).collect();
    chains[a16] = (0..16).map(word).collect();
    chains[a1] = vec![word(16)];
    chains[b2] = vec![pair(a16, a16)];
    chains[b4] = vec![pair(b2, b2)];
    chains[c2] = vec![pair(a1, a1)];
    chains[c4] = vec![pair(c2, c2)];
    chains[c8] = vec![pair(c4, c4)];
    chains[x2] = vec![pair(a16, a16), pair(a1, a1)];
    chains[x4] = vec![pair(b2, b2), pair(c2, c2)];
    chains[x8] = vec![pair(b4, b4), pair(c4, c4)];
    chains[y2] = vec![pair(a15, a17)];
    chains[y4] = vec![pair(y2, x2)];
    chains[y8] = vec![pair(y4, x4)];
    Draft::new(17, chains)
}

/// The same by weight: the derivations of 16 words weigh 2^64 - 1 together, or one more with `extra`. Each of the
/// groups of 15, 17 and 16 words is one of few words, which weigh as much together.
pub fn laden(rng: &mut Rng, extra: bool) -> (Draft, Vec<u8>) {
    let mut draft = brimful(extra);
    let mut weights = vec![];
    for (group, whole) in [(1, 15), (2, 17), (3, 16), (4, 1u8)] {
        let mut rest = whole;
        draft.chains[group].clear();
        while rest > 0 {
            let part = if rng.once_in(2) { rest } else { 1 + rng.below(rest.into()) as u8 };
            draft.chains[group].push(word(weights.len()));
            weights.push(part);
            rest -= part;
        }
    }
    draft.words = weights.len();
    (draft, weights)
}

/// A grammar of few rules, and beside it one with very many derivations: out of reach, or in pair rules, so that some lengths need
/// them and others don't.
fn beside(rng: &mut Rng) -> Draft {
    let mut draft = random_draft(rng, 4, 4, 10);
    let many = if rng.once_in(2) { tower(rng) } else { f_words(15 + rng.below(200)) };
    let n = draft.chains.len();
    for chain in many.chains {
        let moved =
            |body: Body| if body[0] == 1 { pair(n + usize::from(body[1]), n + usize::from(body[2])) } else { body };
        draft.chains.push(chain.into_iter().map(moved).collect());
    }
    draft.words = draft.words.max(many.words);
    for _ in 0..rng.below(4) {
        let all = draft.chains.len();
        let (a, b, c) = (rng.below(n), rng.below(all), rng.below(n));
        draft.add(a, 0, if rng.once_in(2) { pair(b, c) } else { pair(c, b) });
    }
    draft
}

fn draft(rng: &mut Rng) -> Draft {
    let mut draft = match rng.below(18) {
        0..=4 => random_draft(rng, 4, 4, 10),
        5 | 6 => random_draft(rng, 8, 6, 30),
        7 if rng.once_in(4) => random_draft(rng, 32, 255, 255),
        7 => random_draft(rng, 32, 20, 60),
        8 => {
            let any = 1 + rng.below(60);
            let words = rng.pick(&[1, 2, 3, 13, 14, 15, 16, 17, 253, any]);
            f_words(words)
        }
        9 => {
            let words = 1 + rng.below(8);
            g_words(words)
        }
        10 | 11 => {
            let sizes: Vec<usize> = (0..2 + rng.below(5)).map(|_| 1 + rng.below(4)).collect();
            groups(&sizes)
        }
        12 if rng.once_in(2) => groups(&[10; 5]),
        12 => {
            let size = 12 + rng.below(4);
            groups(&[size; 16])
        }
        13 | 14 => tower(rng),
        15 | 16 => beside(rng),
        _ => brimful(rng.once_in(3)),
    };
    // Something of another kind beside it, reached or not.
    while rng.once_in(4) {
        if draft.chains.len() < 32 && rng.once_in(2) {
            draft.chains.push(vec![]);
        }
        let n = draft.chains.len();
        let a = if rng.once_in(2) { n - 1 } else { rng.below(n) };
        let body = match rng.below(3) {
            0 => pair(a, a),
            1 => pair(rng.below(n), rng.below(n)),
            _ => word(rng.below(draft.words)),
        };
        let place = rng.below(draft.chains[a].len() + 1);
        draft.add(a, place, body);
    }
    if rng.once_in(6) {
        draft.start = rng.below(draft.chains.len());
    }
    if rng.once_in(6) {
        let more = (draft.words + rng.below(3)).min(255);
        draft.words = rng.pick(&[more, more, 255]);
    }
    if rng.once_in(3) {
        let a = rng.below(draft.chains.len());
        rng.shuffle(&mut draft.chains[a]);
    }
    draft
}

/// The rows of T up to 16, with 2^64 - 1 in place of what is above it.
pub fn rows(grammar: &Grammar) -> Vec<Vec<u64>> {
    let mut t = vec![vec![0; grammar.chains.len()]];
    for _ in 1..=16 {
        let total = |a| next(grammar, &t, a, |_| 1).try_into().unwrap_or(u64::MAX);
        t.push((0..grammar.chains.len()).map(total).collect());
    }
    t
}

/// An accepted grammar, its rules numbered in some order. Mostly its start has a sentence of several words.
pub fn grammar(rng: &mut Rng) -> Vec<u8> {
    let draft = draft(rng);
    let mut numbers: Vec<usize> = (1..=draft.rules()).collect();
    if rng.once_in(2) {
        rng.shuffle(&mut numbers);
    }
    let mut bytes = draft.numbered(&numbers);
    let t = rows(&read_grammar(&bytes).expect("an accepted grammar"));
    let full = |a: usize| t.iter().skip(2).any(|row| row[a] > 0);
    let starts: Vec<usize> = (0..draft.chains.len()).filter(|&a| full(a)).collect();
    if !full(draft.start) && !starts.is_empty() && !rng.once_in(8) {
        bytes[3] = rng.pick(&starts) as u8;
    }
    bytes
}

fn near(rng: &mut Rng, byte: u8) -> u8 {
    let (small, middle, any) = (rng.below(8) as u8, rng.below(64) as u8, rng.byte());
    rng.pick(&[byte.wrapping_add(1), byte.wrapping_sub(1), small, middle, any, 255])
}

/// Damage that aims at one of 1 to 8; it may bring another instead, or none.
pub fn damage_grammar(rng: &mut Rng, bytes: &mut Vec<u8>, aim: u8) {
    if bytes.len() < 4 {
        return;
    }
    let (n, w, r) = (usize::from(bytes[0]), bytes[1], usize::from(bytes[2]));
    let whole = n >= 1 && r >= 1 && bytes.len() == 4 + n + 4 * r;
    if aim > 3 && !whole {
        return;
    }
    let rule = |i: usize| 4 + n + 4 * i;
    match aim {
        1 => bytes.truncate(rng.below(4)),
        2 => match rng.below(5) {
            0 => bytes[0] = rng.pick(&[0, 33, 34, 64, 128, 255]),
            1 => bytes[1] = 0,
            2 => bytes[2] = 0,
            3 => bytes[3] = bytes[0],
            _ => bytes[3] = bytes[0].saturating_add(rng.byte()),
        },
        3 => match rng.below(4) {
            0 => {
                let more = 1 + rng.below(6);
                bytes.extend(rng.bytes(more));
            }
            1 => {
                let fewer = 1 + rng.below(8);
                bytes.truncate(bytes.len().saturating_sub(fewer).max(4));
            }
            2 => bytes[2] = near(rng, bytes[2]).max(1),
            _ => bytes[0] = (near(rng, bytes[0]) % 33).max(1),
        },
        4 => {
            let at = rule(rng.below(r));
            match rng.below(5) {
                0 => bytes[at] = rng.pick(&[2, 3, 128, 254, 255]),
                1 => bytes[at] = 2 + rng.below(254) as u8,
                2 if bytes[at] == 0 => bytes[at + 1] = w.saturating_add(rng.below(3) as u8),
                2 => bytes[at + 1] = (n + rng.below(3)) as u8,
                3 if bytes[at] == 0 => bytes[at + 2] = 1 + rng.below(255) as u8,
                3 => bytes[at + 2] = (n + rng.below(3)) as u8,
                _ => bytes[at] = 1 - bytes[at].min(1),
            }
        }
        5 => {
            let link = if rng.once_in(2) { 4 + rng.below(n) } else { rule(rng.below(r)) + 3 };
            bytes[link] = (r + 1 + rng.below(3)).min(255) as u8;
        }
        6 => {
            let link = if rng.once_in(2) { 4 + rng.below(n) } else { rule(rng.below(r)) + 3 };
            bytes[link] = 1 + rng.below(r) as u8;
        }
        7 => {
            // Passes over a rule, or cuts a chain.
            let link = if rng.once_in(2) { 4 + rng.below(n) } else { rule(rng.below(r)) + 3 };
            let next = usize::from(bytes[link]);
            if (1..=r).contains(&next) {
                bytes[link] = if rng.once_in(3) { 0 } else { bytes[rule(next - 1) + 3] };
            }
        }
        _ => {
            // Makes a rule like another of its chain, the next or a later one.
            let from = rng.below(r);
            let mut to = from;
            for _ in 0..1 + rng.below(4) {
                let next = usize::from(bytes[rule(to) + 3]);
                if !(1..=r).contains(&next) {
                    break;
                }
                to = next - 1;
            }
            bytes.copy_within(rule(from)..rule(from) + 3, rule(to));
        }
    }
}

// ---- Histories

/// The words of a sentence, the voice it was played in, and how many of the words were played: 0 for all.
#[derive(Clone)]
pub struct Spoken {
    pub voice: u8,
    pub played: u8,
    pub words: Vec<u8>,
}

impl Spoken {
    pub fn in_full(voice: u8, words: Vec<u8>) -> Spoken {
        Spoken { voice, played: 0, words }
    }
}

/// The bytes of a history with these sentences along its chain. Numbered backward it is what *Log* leaves.
pub fn history(sentences: &[Spoken], numbers: &[usize], slack: &[u8]) -> Vec<u8> {
    let k = sentences.len();
    let mut bytes = vec![0; 4 + 20 * k];
    bytes[..2].copy_from_slice(&(k as u16).to_le_bytes());
    let mut link = 2;
    for (Spoken { voice, played, words }, &number) in sentences.iter().zip(numbers) {
        bytes[link..link + 2].copy_from_slice(&(number as u16).to_le_bytes());
        link = 4 + 20 * (number - 1);
        bytes[link + 2] = words.len() as u8;
        bytes[link + 3] = 16 * voice + played;
        bytes[link + 4..link + 4 + words.len()].copy_from_slice(words);
    }
    bytes.extend(slack);
    bytes
}

fn random_history(rng: &mut Rng, sentences: &[Spoken]) -> Vec<u8> {
    let k = sentences.len();
    let mut numbers: Vec<usize> = match rng.below(3) {
        0 => (1..=k).collect(),
        _ => (1..=k).rev().collect(),
    };
    if rng.once_in(2) {
        rng.shuffle(&mut numbers);
    }
    let slack = match rng.below(6) {
        0 => rng.below(60),
        1 => 20,
        2 => 19,
        _ => 0,
    };
    let slack = if rng.once_in(3) { vec![0; slack] } else { rng.bytes(slack) };
    history(sentences, &numbers, &slack)
}

fn random_sentence(rng: &mut Rng, words: usize, length: usize) -> Vec<u8> {
    (0..length).map(|_| if rng.once_in(40) { rng.byte() } else { rng.below(words) as u8 }).collect()
}

/// Damage that aims at one of 11 to 14; it may bring another instead, or none.
pub fn damage_history(rng: &mut Rng, bytes: &mut Vec<u8>, aim: u8) {
    if bytes.len() < 4 {
        return;
    }
    let k = usize::from(bytes[0]) + 256 * usize::from(bytes[1]);
    if aim > 11 && bytes.len() < 4 + 20 * k {
        return;
    }
    let set = |bytes: &mut Vec<u8>, at: usize, value: usize| {
        bytes[at..at + 2].copy_from_slice(&(value as u16).to_le_bytes());
    };
    let link = if k == 0 || rng.once_in(3) { 2 } else { 4 + 20 * rng.below(k) };
    match aim {
        11 => match rng.below(5) {
            0 => bytes.truncate(rng.below(4)),
            1 => bytes.truncate((4 + 20 * k).saturating_sub(1 + rng.below(20))),
            2 => {
                let more = rng.pick(&[k + 1, k + 2, k + 256, 1000]);
                set(bytes, 0, more);
            }
            3 => {
                // Too many, and room for them.
                let more = rng.pick(&[1001, 1002, 1024, 1256]);
                set(bytes, 0, more);
                if rng.once_in(8) {
                    bytes.resize(4 + 20 * more, 0);
                }
            }
            _ => {
                let more = rng.pick(&[1001, 0x8000, 0xffff]);
                set(bytes, 0, more);
            }
        },
        12 if k > 0 => {
            let at = 4 + 20 * rng.below(k);
            let (length, voice, played) = (usize::from(bytes[at + 2]), bytes[at + 3] & 0xf0, bytes[at + 3] & 0x0f);
            match rng.below(8) {
                0 => bytes[at + 2] = rng.pick(&[0, 17, 18, 32, 128, 255]),
                // As many words played as there are or more, any figure, any fourth byte: not all do harm.
                1 => bytes[at + 3] = voice + length.min(15) as u8,
                2 => bytes[at + 3] = voice + (length + 1 + rng.below(15)).min(15) as u8,
                3 => bytes[at + 3] = voice + rng.below(16) as u8,
                4 => bytes[at + 3] = rng.pick(&[1, 8, 15, 16, 17, 128, 136, 240, 241, 255]),
                // The words that were played, and no others.
                5 if played > 0 => {
                    bytes[at + 2] = played;
                    bytes[at + 4 + usize::from(played)..at + 20].fill(0);
                }
                6 if length < 16 => bytes[at + 4 + length] = 1 + rng.below(255) as u8,
                7 if length < 16 => bytes[at + 19] = 1 + rng.below(255) as u8,
                _ => bytes[at + 2] = (length as u8).saturating_sub(1),
            }
        }
        13 => {
            let far = rng.pick(&[k + 1, k + 2, k + 256, 0xffff]);
            set(bytes, link, far);
        }
        _ => {
            let other = rng.below(k + 1);
            set(bytes, link, other);
        }
    }
}

// ---- Cases

/// Lengths that 9 refuses; several are right in their low byte or low half.
const BAD_LENGTHS: [u64; 12] =
    [0, 17, 18, 32, 255, 256, 256 + 3, 65536 + 5, (1 << 32) + 2, (1 << 32) + 5, 1 << 63, u64::MAX];

/// What 22 refuses as a voice, and 23 as the words played of any sentence.
pub const ABOVE_FIFTEEN: [u64; 12] =
    [16, 17, 31, 32, 128, 255, 256, 65536, 1 << 32, (1 << 32) + 256, 1 << 63, u64::MAX];

/// A number above 15, often with these low bits.
fn above_fifteen(rng: &mut Rng, low: u64) -> u64 {
    let above = if rng.once_in(4) { rng.next() | 16 } else { rng.pick(&ABOVE_FIFTEEN) };
    if rng.once_in(2) { above | low } else { above }
}

/// A voice from 0 to 15.
fn voice(rng: &mut Rng) -> u8 {
    let (small, any) = (1 + rng.below(3) as u8, rng.below(16) as u8);
    rng.pick(&[0, 0, small, any, 15])
}

/// The voice that a call is handed: mostly the one that is meant, else one above 15, often with the same low bits.
fn voice_asked(rng: &mut Rng, voice: u8) -> u64 {
    if rng.once_in(30) { above_fifteen(rng, u64::from(voice)) } else { u64::from(voice) }
}

/// The voices of a history: mostly the one that is meant and perhaps another, so that sentences are heard in it;
/// sometimes all sixteen, sometimes another alone.
fn voices(rng: &mut Rng, voice: u8) -> Vec<u8> {
    let other = rng.below(16) as u8;
    match rng.below(12) {
        0..=4 => vec![voice],
        5..=8 => vec![voice, voice, other],
        9 => vec![other],
        _ => (0..16).collect(),
    }
}

/// How many quarters of a history's records are broken off: often none, sometimes nearly all.
fn quarters(rng: &mut Rng) -> usize {
    rng.pick(&[0, 0, 0, 1, 2, 2, 4])
}

/// How many words of a sentence were played, 0 for all; broken off so many times in four.
fn played(rng: &mut Rng, words: &[u8], quarters: usize) -> u8 {
    if rng.below(4) < quarters { rng.below(words.len()) as u8 } else { 0 }
}

/// The words played that *Log* is handed: mostly all, or fewer than the sentence has; else as many, more, or far more.
fn played_asked(rng: &mut Rng, length: usize) -> u64 {
    let fewer = rng.below_u64(length.max(1) as u64);
    match rng.below(24) {
        0 => length as u64,
        1 => length as u64 + 1 + rng.below_u64(4),
        2 => rng.below_u64(17),
        3 => above_fifteen(rng, fewer),
        4..=13 => fewer,
        _ => 0,
    }
}

/// A length from 1 to 16, often one that has derivations.
fn length(rng: &mut Rng, grammar: &Grammar) -> usize {
    if rng.once_in(16) {
        return 1 + rng.below(16);
    }
    let t = rows(grammar);
    let mut full: Vec<usize> = (1..=16).filter(|&m| t[m][grammar.start] > 0).collect();
    if rng.once_in(2) && full.iter().any(|m| (2..=6).contains(m)) {
        full.retain(|m| (2..=6).contains(m));
    }
    for _ in 0..4 {
        let m = if full.is_empty() { 1 + rng.below(16) } else { rng.pick(&full) };
        if totals(grammar, m).is_ok() || rng.once_in(4) {
            return m;
        }
    }
    1 + rng.below(16)
}

/// A number about a total: most of them below it.
fn number(rng: &mut Rng, total: u64) -> u64 {
    match rng.below(24) {
        0 => 0,
        1 => total.wrapping_sub(1),
        2 => total,
        3 => total.saturating_add(1),
        4 => rng.pick(&[u64::MAX, u64::MAX - 1, 1 << 63, 1 << 32]),
        5 => rng.next(),
        6 => (1 << 32) + rng.below_u64(total.max(1)) % (1 << 32),
        7 => total.saturating_sub(1 + rng.below_u64(5)),
        8 => rng.below_u64(5),
        _ => rng.below_u64(total.max(1)),
    }
}

/// How many records.
fn size(rng: &mut Rng, large: usize) -> usize {
    match rng.below(large) {
        0 => rng.pick(&[1000, 999, 998, 300, 256, 255]),
        1 | 2 => rng.below(200),
        _ => match rng.below(8) {
            0 => 0,
            1..=4 => 1 + rng.below(4),
            5 | 6 => 1 + rng.below(12),
            _ => 1 + rng.below(40),
        },
    }
}

/// A buffer about so long, with junk in it.
fn buffer(rng: &mut Rng, length: usize) -> Vec<u8> {
    let size = match rng.below(8) {
        0 => length.saturating_sub(1),
        1 => rng.below(length + 1),
        2 => length + 1 + rng.below(4),
        3 => 16 + rng.below(64),
        _ => length,
    };
    rng.bytes(size)
}

/// Adds a sentence's words again, in all these voices or in some, in one perhaps several times; in full or broken off.
fn again(rng: &mut Rng, sentences: &mut Vec<Spoken>, voices: &[u8]) {
    if sentences.is_empty() {
        return;
    }
    let words = sentences[rng.below(sentences.len())].words.clone();
    let mut add = |rng: &mut Rng, voice: u8| {
        sentences.push(Spoken { voice, played: played(rng, &words, 2), words: words.clone() });
    };
    if rng.once_in(3) {
        voices.iter().for_each(|&voice| add(rng, voice));
    }
    for _ in 0..1 + rng.below(5) {
        let voice = rng.pick(voices);
        add(rng, voice);
    }
    rng.shuffle(sentences);
    sentences.truncate(1000);
}

/// The sentences of a history for a grammar, played in the named voice and in others, in full or broken off: derivable
/// ones of the named length and of others, repeats, strangers.
fn sentences(rng: &mut Rng, grammar: &Grammar, length: usize, voice: u8, count: usize) -> Vec<Spoken> {
    let full = Full::new(grammar, length).ok();
    let total = full.as_ref().map_or(0, Full::total);
    let other_length = 1 + rng.below(6);
    let other = if rng.once_in(3) { Full::new(grammar, other_length).ok() } else { None };
    let (all, voices): (Vec<u8>, Vec<u8>) = ((0..16).collect(), voices(rng, voice));
    let others: Vec<u8> = (0..16).filter(|&other| other != voice).collect();
    let quarters = quarters(rng);
    let mut sentences: Vec<Spoken> = vec![];
    if (1..=60).contains(&total) && rng.once_in(8) {
        // All of them, or all but one.
        sentences = (0..total).map(|d| Spoken::in_full(voice, full.as_ref().unwrap().sentence(d))).collect();
        if rng.once_in(2) {
            let out = rng.below(sentences.len());
            sentences.remove(out);
        }
        if rng.once_in(3) {
            sentences.iter_mut().for_each(|sentence| sentence.voice = rng.pick(&voices));
        }
        if rng.once_in(3) {
            sentences.iter_mut().for_each(|sentence| sentence.played = played(rng, &sentence.words, quarters));
        }
        rng.shuffle(&mut sentences);
        return sentences;
    }
    let from = rng.below_u64(total.max(1)); // a run of neighbours begins there
    let ambiguous = rng.below(6); // 0: ambiguous ones too, 1: in other voices only, 2: broken off only
    for i in 0..count {
        let next = match (rng.below(12), &full) {
            (0, _) if i > 0 => sentences[rng.below(i)].words.clone(),
            (1, _) => {
                let length = 1 + rng.below(16);
                random_sentence(rng, usize::from(grammar.words), length)
            }
            (2, _) => random_sentence(rng, usize::from(grammar.words), length),
            (3, _) => match &other {
                Some(other) if other.total() > 0 => other.sentence(rng.below_u64(other.total())),
                _ => rng.bytes(length),
            },
            (4..=6, Some(full)) if total > 0 => {
                let d = (u128::from(from) + i as u128) % u128::from(total);
                full.sentence(d as u64)
            }
            (7, Some(full)) if total > 0 => full.sentence(rng.below_u64(total.min(10))),
            (8, Some(full)) if total > 0 => full.sentence(total - 1 - rng.below_u64(total.min(10))),
            (9, Some(full)) if total > 0 => {
                // A neighbour of a derivable one.
                let mut sentence = full.sentence(rng.below_u64(total));
                let at = rng.below(length);
                sentence[at] = if rng.once_in(3) { 255 } else { near(rng, sentence[at]) };
                sentence
            }
            (_, Some(full)) if total > 0 => full.sentence(rng.below_u64(total)),
            _ => random_sentence(rng, usize::from(grammar.words), length),
        };
        let many = next.len() == length && full.as_ref().is_some_and(|full| full.readings(&next).count > 1);
        let mut spoken = Spoken { voice: rng.pick(&voices), played: played(rng, &next, quarters), words: next };
        match ambiguous {
            0 => {}
            1 if many => spoken.voice = rng.pick(&others),
            2 if many => spoken.played = 1 + rng.below(length - 1) as u8,
            _ if many => spoken.words = rng.bytes(length),
            _ => {}
        }
        sentences.push(spoken);
    }
    match rng.below(9) {
        0 => again(rng, &mut sentences, &others),
        _ if [1, 2].contains(&ambiguous) => {}
        1 => again(rng, &mut sentences, &voices),
        2 => again(rng, &mut sentences, &all),
        3 | 4 => again(rng, &mut sentences, &[voice]),
        _ => {}
    }
    sentences
}

/// Puts blanks into a sentence: none, one, at all places but one, at all; or at each by chance.
fn blank(rng: &mut Rng, bytes: &mut [u8]) {
    let (at, quarters, kind) = (rng.below(bytes.len()), 1 + rng.below(3), rng.below(8));
    for (i, byte) in bytes.iter_mut().enumerate() {
        let here = match kind {
            0 | 1 => false,
            2 => true,
            3 => i == at,
            4 => i != at,
            _ => rng.below(4) < quarters,
        };
        if here {
            *byte = 255;
        }
    }
}

/// A pattern of so many bytes, made from a derivable sentence, from one that was played, or from random words.
/// Sometimes it has a byte about the last word, or 254; sometimes a length that 9 refuses.
pub fn pattern(rng: &mut Rng, grammar: &Grammar, full: Option<&Full>, length: usize, played: &[Spoken]) -> Vec<u8> {
    let same: Vec<&Spoken> = played.iter().filter(|spoken| spoken.words.len() == length).collect();
    let total = full.map_or(0, Full::total);
    let mut bytes = match (rng.below(8), full) {
        (0, _) => random_sentence(rng, usize::from(grammar.words), length),
        (1..=3, _) if !same.is_empty() => rng.pick(&same).words.clone(),
        (_, Some(full)) if total > 0 => full.sentence(rng.below_u64(total)),
        _ => random_sentence(rng, usize::from(grammar.words), length),
    };
    blank(rng, &mut bytes);
    if rng.once_in(16) {
        let last = grammar.words - 1;
        bytes[rng.below(length)] = rng.pick(&[last, grammar.words, last.saturating_add(2), 254]);
    }
    if rng.once_in(25) {
        let size = rng.pick(&[0, 17, 18, 32, 255, 256, 256 + length, 65536 + length]);
        bytes.resize(size, 255);
    }
    bytes
}

/// Adds sentences that fit the pattern, most of them in the voice and in full: a few; or all of them or all but one,
/// where there are few. Seldom one with several derivations.
fn add_fitting(rng: &mut Rng, full: &Full, pattern: &[u8], voice: u8, sentences: &mut Vec<Spoken>) {
    let many = full.fitting(pattern);
    if many == 0 {
        return;
    }
    let few = many <= 30 && rng.once_in(4);
    let out = if rng.once_in(2) { rng.below_u64(many) } else { many };
    let entries: Vec<u64> = match few {
        true => (0..many).filter(|&q| q != out).collect(),
        false => (0..1 + rng.below(6)).map(|_| rng.below_u64(many)).collect(),
    };
    for q in entries {
        let (_, number) = full.unheard_fitting(pattern, &BTreeSet::new(), &BTreeSet::new(), q);
        let words = full.sentence(number.expect("an entry below how many there are"));
        if full.readings(&words).count > 1 && !rng.once_in(30) {
            continue;
        }
        let played = if rng.once_in(8) { rng.below(words.len()) as u8 } else { 0 };
        let voice = if rng.once_in(8) { rng.below(16) as u8 } else { voice };
        sentences.push(Spoken { voice, played, words });
    }
    rng.shuffle(sentences);
    sentences.truncate(1000);
}

/// A weight for each word: all alike, small ones, any, or ones with a few others among them.
pub fn weights(rng: &mut Rng, words: u8) -> Vec<u8> {
    let (kind, alike, small) = (rng.below(9), 1 + rng.below(255) as u8, 2 + rng.below(3));
    let mut weigh = |_| match kind {
        0 => 1,
        1 => alike,
        2..=4 => 1 + rng.below(small) as u8,
        5 => rng.pick(&[1, 2, 16, 255]),
        6 => 1 + rng.below(255) as u8,
        _ if rng.once_in(4) => 1 + rng.below(255) as u8,
        _ => 1,
    };
    (0..words).map(&mut weigh).collect()
}

/// Damage that aims at 24: a weight of 0, at an end or anywhere, or too few weights or too many.
fn spoil_weights(rng: &mut Rng, weights: &mut Vec<u8>) {
    let last = weights.len() - 1;
    match rng.below(6) {
        0 => weights[0] = 0,
        1 => weights[last] = 0,
        2 => weights[rng.below(last + 1)] = 0,
        3 => weights.truncate(last),
        4 => weights.push(rng.pick(&[0, 1, 255])),
        _ => {
            let size = rng.pick(&[0, 1, 16, 254, 255, 256, 256 + last + 1]);
            weights.resize(size, 1);
        }
    }
}

/// A ticket: about how many there are, or an end of one derivation's, or right beside them. `sentences` are heard.
fn ticket(rng: &mut Rng, full: &Full, tickets: &Tickets, sentences: &[&Spoken]) -> u64 {
    let readings = sentences.iter().map(|spoken| full.readings(&spoken.words));
    let struck: BTreeSet<u64> = readings.filter(|r| r.count == 1).map(|Readings { lowest, .. }| lowest).collect();
    let passed = |d: u64| struck.range(..d).map(|&number| tickets.share(number).1).sum::<u64>();
    let ends = |d: u64| {
        let (before, own) = tickets.share(d);
        let own = if struck.contains(&d) { 0 } else { own };
        (before - passed(d), before - passed(d) + own)
    };
    let total = full.total();
    if total == 0 || rng.once_in(2) {
        let many = if total == 0 { 0 } else { ends(total - 1).1 };
        return number(rng, many);
    }
    let (first, behind) = ends(rng.below_u64(total));
    rng.pick(&[first, first, behind.saturating_sub(1), behind, first.saturating_sub(1), first.saturating_add(1)])
}

fn spoil_grammar(rng: &mut Rng, bytes: &mut Vec<u8>) {
    match rng.below(12) {
        0 => {
            for _ in 0..1 + rng.below(3) {
                let at = rng.below(bytes.len().max(1));
                if at < bytes.len() {
                    bytes[at] = near(rng, bytes[at]);
                }
            }
        }
        1 if rng.once_in(4) => {
            let size = rng.below(40);
            *bytes = rng.bytes(size);
        }
        _ => {
            for _ in 0..1 + rng.below(3) / 2 {
                let aim = 1 + rng.below(8) as u8;
                damage_grammar(rng, bytes, aim);
            }
        }
    }
}

fn spoil_history(rng: &mut Rng, bytes: &mut Vec<u8>) {
    match rng.below(12) {
        0 => {
            let at = rng.below(bytes.len().max(1));
            if at < bytes.len() {
                bytes[at] = near(rng, bytes[at]);
            }
        }
        1 if rng.once_in(4) => {
            let size = rng.below(60);
            *bytes = rng.bytes(size);
        }
        _ => {
            for _ in 0..1 + rng.below(3) / 2 {
                let aim = 11 + rng.below(4) as u8;
                damage_history(rng, bytes, aim);
            }
        }
    }
}

fn history_case(rng: &mut Rng, call: Call) -> Case {
    let mut case = Case::new(call);
    let count = size(rng, 100);
    let words = rng.pick(&[2, 5, 50, 255]);
    let voice = voice(rng);
    let (voices, quarters) = (voices(rng, voice), quarters(rng));
    let sentences: Vec<Spoken> = (0..count)
        .map(|_| {
            let length = 1 + rng.below(16);
            let words = random_sentence(rng, words, length);
            Spoken { voice: rng.pick(&voices), played: played(rng, &words, quarters), words }
        })
        .collect();
    case.history = random_history(rng, &sentences);
    if call == Call::Append {
        case.voice = voice_asked(rng, voice);
        let length = if rng.once_in(12) { rng.pick(&[0, 17, 18, 20, 255, 256, 257, 272]) } else { 1 + rng.below(16) };
        case.sentence = random_sentence(rng, words, length);
        case.played = played_asked(rng, length);
        // Room for the record, often just so; what stands there is junk.
        let size = 4 + 20 * (count + 1);
        let size = match rng.below(8) {
            0 => size - 1 - rng.below(20),
            1 => size + rng.below(50),
            2 => case.history.len(),
            _ => size,
        };
        let more = size.saturating_sub(case.history.len());
        case.history.extend(rng.bytes(more));
        case.history.truncate(size.max(4 + 20 * count));
    }
    if rng.once_in(if call == Call::Append { 4 } else { 2 }) {
        spoil_history(rng, &mut case.history);
    }
    case
}

/// A case of that call.
pub fn case(rng: &mut Rng, call: Call) -> Case {
    if !call.takes_grammar() {
        return history_case(rng, call);
    }
    let mut case = Case::new(call);
    if call.takes_weights() && rng.once_in(20) {
        let extra = rng.once_in(3);
        let (draft, weights) = laden(rng, extra);
        (case.grammar, case.weights) = (draft.bytes(), weights);
    } else {
        case.grammar = grammar(rng);
    }
    let read = read_grammar(&case.grammar).expect("an accepted grammar");
    if call == Call::CheckGrammar {
        if rng.once_in(2) {
            spoil_grammar(rng, &mut case.grammar);
        }
        return case;
    }
    let n = length(rng, &read);
    let full = Full::new(&read, n).ok();
    let mut total = full.as_ref().map_or(0, Full::total);
    if call.takes_length() {
        case.length = if rng.once_in(30) { rng.pick(&BAD_LENGTHS) } else { n as u64 };
    }
    let mut heard = 0;
    let mut asked_ticket = None;
    if call.takes_history() {
        let voice = voice(rng);
        case.voice = voice_asked(rng, voice);
        let large = if read.chains.len() > 12 { 1500 } else { 250 };
        let count = size(rng, large);
        let mut sentences = sentences(rng, &read, n, voice, count);
        let mut asked = vec![255; n];
        if call.takes_pattern() {
            case.pattern = pattern(rng, &read, full.as_ref(), n, &sentences);
            if let (Some(full), true) = (&full, case.pattern.len() == n) {
                asked.clone_from(&case.pattern);
                total = full.fitting(&asked);
                if rng.once_in(2) {
                    add_fitting(rng, full, &asked, voice, &mut sentences);
                }
            }
        }
        let in_voice = |spoken: &&Spoken| spoken.voice == voice && spoken.played == 0;
        let fitting = |spoken: &&Spoken| spoken.words.len() == n && fits(&spoken.words, &asked);
        let same: Vec<&Spoken> = sentences.iter().filter(in_voice).filter(fitting).collect();
        heard = same.len() as u64;
        if call.takes_weights() {
            if case.weights.is_empty() {
                case.weights = weights(rng, read.words);
            }
            let tickets = full.as_ref().and_then(|full| Tickets::new(full, &read, n, &case.weights).ok());
            if let (Some(full), Some(tickets)) = (&full, tickets) {
                asked_ticket = Some(ticket(rng, full, &tickets, &same));
            }
            if rng.once_in(25) {
                spoil_weights(rng, &mut case.weights);
            }
        }
        case.history = random_history(rng, &sentences);
        if rng.once_in(8) {
            spoil_history(rng, &mut case.history);
        }
    }
    if call.takes_number() {
        let about = if rng.once_in(2) { total.saturating_sub(heard) } else { total };
        case.number = asked_ticket.unwrap_or_else(|| number(rng, about));
        case.sentence = buffer(rng, n);
    }
    if call == Call::Rank {
        case.sentence = match (rng.below(12), &full) {
            (0, _) => random_sentence(rng, usize::from(read.words), n),
            (1, _) => rng.bytes(n),
            (2, _) if rng.once_in(2) => {
                let size = rng.pick(&[0, 17, 18, 255, 256, 256 + n, 65536 + n]);
                random_sentence(rng, usize::from(read.words), size)
            }
            (3, Some(full)) if total > 0 => {
                let mut sentence = full.sentence(rng.below_u64(total));
                let at = rng.below(n);
                sentence[at] = if rng.once_in(4) { 255 } else { near(rng, sentence[at]) };
                sentence
            }
            (_, Some(full)) if total > 0 => full.sentence(number(rng, total).min(total - 1)),
            _ => random_sentence(rng, usize::from(read.words), n),
        };
    }
    drop(full);
    if rng.once_in(6) {
        spoil_grammar(rng, &mut case.grammar);
    }
    case
}
