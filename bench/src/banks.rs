//! The inputs: banks, histories, and small random ones. Every run makes the same.

/// Numbers that look random, from a seed (splitmix64).
pub struct Rng(u64);

impl Rng {
    pub fn new(seed: u64) -> Self {
        Rng(seed)
    }

    pub fn next(&mut self) -> u64 {
        self.0 = self.0.wrapping_add(0x9E37_79B9_7F4A_7C15);
        let mut z = self.0;
        z = (z ^ (z >> 30)).wrapping_mul(0xBF58_476D_1CE4_E5B9);
        z = (z ^ (z >> 27)).wrapping_mul(0x94D0_49BB_1331_11EB);
        z ^ (z >> 31)
    }

    /// A number below n.
    pub fn below(&mut self, n: u64) -> u64 {
        ((self.next() as u128 * n as u128) >> 64) as u64
    }

    pub fn index(&mut self, n: usize) -> usize {
        self.below(n as u64) as usize
    }

    pub fn shuffle<T>(&mut self, list: &mut [T]) {
        for i in (1..list.len()).rev() {
            list.swap(i, self.index(i + 1));
        }
    }

    /// k of the numbers below n.
    pub fn some_of(&mut self, n: usize, k: usize) -> Vec<usize> {
        let mut all: Vec<usize> = (0..n).collect();
        self.shuffle(&mut all);
        all.truncate(k);
        all
    }
}

#[derive(Clone, Copy)]
pub enum Rule {
    Word(u8),
    Pair(u8, u8),
}

/// The bytes of a bank; which rule has which number is left to `numbers`.
fn encode(words: u8, start: u8, chains: &[Vec<Rule>], numbers: &[usize]) -> Vec<u8> {
    let count: usize = chains.iter().map(Vec::len).sum();
    let mut heads = vec![0u8; chains.len()];
    let mut rules = vec![0u8; 4 * count];
    let mut next_number = numbers.iter();
    for (a, chain) in chains.iter().enumerate() {
        let mine: Vec<usize> = chain.iter().map(|_| *next_number.next().unwrap()).collect();
        heads[a] = mine.first().map_or(0, |&i| i as u8 + 1);
        for (i, rule) in chain.iter().enumerate() {
            let link = mine.get(i + 1).map_or(0, |&j| j as u8 + 1);
            let bytes = match *rule {
                Rule::Word(w) => [0, w, 0, link],
                Rule::Pair(b, c) => [1, b, c, link],
            };
            rules[4 * mine[i]..4 * mine[i] + 4].copy_from_slice(&bytes);
        }
    }
    let mut bank = vec![chains.len() as u8, words, count as u8, start];
    bank.extend(heads);
    bank.extend(rules);
    bank
}

fn shuffled(words: u8, start: u8, chains: &mut [Vec<Rule>], rng: &mut Rng) -> Vec<u8> {
    for chain in chains.iter_mut() {
        rng.shuffle(chain);
    }
    let count = chains.iter().map(Vec::len).sum();
    let numbers = rng.some_of(count, count);
    encode(words, start, chains, &numbers)
}

/// The house matrix bank.
pub fn matrix() -> Vec<u8> {
    let mut chains = vec![Vec::new(); 9];
    for (a, (b, c)) in [(4, 1), (5, 2), (6, 3), (7, 8)].into_iter().enumerate() {
        chains[a].push(Rule::Pair(b, c));
    }
    for w in 0..50 {
        chains[4 + w as usize / 10].push(Rule::Word(w));
    }
    let numbers: Vec<usize> = (0..54).collect();
    encode(50, 0, &chains, &numbers)
}

/// A deterministic automaton: 20 states and 12 classes of words, no word in two classes. A state has pair rules (class, state), no class
/// twice, and word rules, the words it may end with. So no sentence has two derivations.
pub fn right_linear(rules: usize, seed: u64) -> Vec<u8> {
    const STATES: usize = 20;
    const CLASSES: usize = 12;
    let mut rng = Rng::new(seed);
    let mut chains = vec![Vec::new(); STATES + CLASSES];
    let class_words = (25 * rules / 255).max(CLASSES);
    let last_words = (70 * rules / 255).max(2);
    for w in 0..class_words {
        chains[STATES + w % CLASSES].push(Rule::Word(w as u8));
    }
    let mut spread = |count: usize, of: usize, rule: &mut dyn FnMut(usize, &mut Rng) -> Rule| {
        for a in 0..STATES {
            let mine = count / STATES + usize::from(a < count % STATES);
            for i in rng.some_of(of, mine) {
                let r = rule(i, &mut rng);
                chains[a].push(r);
            }
        }
    };
    spread(last_words, 64, &mut |i, _| Rule::Word(i as u8));
    spread(rules - class_words - last_words, CLASSES, &mut |i, rng| Rule::Pair((STATES + i) as u8, rng.index(STATES) as u8));
    shuffled(64, 0, &mut chains, &mut rng)
}

/// A ladder of five rungs, whose nonterminals have the lengths 16, 8, 4, 2 and 1: 1, 6, 8, 8 and 9 of them. Every pair rule is a pair of the
/// next rung, no pair stands twice on a rung, and no word twice on the last. So no sentence has two derivations.
pub fn ladder(seed: u64) -> Vec<u8> {
    let mut rng = Rng::new(seed);
    let mut chains = Vec::new();
    let rungs = [(1, 36), (6, 60), (8, 64), (8, 79)];
    let sizes = [1, 6, 8, 8, 9];
    for (i, (size, pairs)) in rungs.into_iter().enumerate() {
        let (from, below) = (chains.len() + size, sizes[i + 1]);
        let first = chains.len();
        chains.resize(first + size, Vec::new());
        for (j, pair) in rng.some_of(below * below, pairs).into_iter().enumerate() {
            chains[first + j % size].push(Rule::Pair((from + pair / below) as u8, (from + pair % below) as u8));
        }
    }
    let first = chains.len();
    chains.resize(first + 9, Vec::new());
    for w in 0..16 {
        chains[first + w % 9].push(Rule::Word(w as u8));
    }
    shuffled(16, 0, &mut chains, &mut rng)
}

/// Four states, four classes of one word and four pair rules a state, as in `right_linear`; and beside them 23 nonterminals with two words and
/// three pair rules each, so that every run of words has very many derivations from them. The start uses them only beside a nonterminal that
/// derives nothing, so they are in no sentence, and no sentence has two derivations.
pub fn dense(seed: u64) -> Vec<u8> {
    const STATES: usize = 4;
    const CLASSES: usize = 4;
    const DEAD: usize = STATES + CLASSES;
    const FIRST: usize = DEAD + 1;
    const OTHERS: usize = 32 - FIRST;
    let mut rng = Rng::new(seed);
    let mut chains = vec![Vec::new(); 32];
    for a in 0..STATES {
        for c in 0..CLASSES {
            chains[a].push(Rule::Pair((STATES + c) as u8, rng.index(STATES) as u8));
        }
        chains[a].extend(rng.some_of(CLASSES, 2).into_iter().map(|w| Rule::Word(w as u8)));
    }
    for c in 0..CLASSES {
        chains[STATES + c].push(Rule::Word(c as u8));
    }
    for a in FIRST..32 {
        chains[0].push(Rule::Pair(a as u8, DEAD as u8));
        chains[a].extend(rng.some_of(CLASSES, 2).into_iter().map(|w| Rule::Word(w as u8)));
        for pair in rng.some_of(OTHERS * OTHERS, 3) {
            chains[a].push(Rule::Pair((FIRST + pair / OTHERS) as u8, (FIRST + pair % OTHERS) as u8));
        }
    }
    shuffled(CLASSES as u8, 0, &mut chains, &mut rng)
}

/// S is two S, or one of five words: every sentence of m words has every tree with m leaves.
pub fn every_tree() -> Vec<u8> {
    let chain = [Rule::Pair(0, 0)].into_iter().chain((0..5).map(Rule::Word)).collect();
    encode(5, 0, &[chain], &[0, 1, 2, 3, 4, 5])
}

/// Weights for which the bank below has the total 2^64 - 1 at length 8.
pub const BRIMFUL: [u8; 3] = [1, 255, 2];

/// That total is 255 * 257 * (256^2 + 1) * (256^4 + 1), with factors of the lengths 1, 1, 2 and 4. With one rule more it is 2^64.
pub fn brimful(more: bool) -> Vec<u8> {
    use Rule::{Pair, Word};
    let mut chains = [
        vec![Pair(1, 2)],
        vec![Pair(3, 4)],               // 256^4 - 1
        vec![Pair(9, 9), Pair(10, 10)], // 256^4 + 1
        vec![Pair(7, 8)],               // 256^2 - 1
        vec![Pair(5, 5), Pair(6, 6)],   // 256^2 + 1
        vec![Word(0), Word(1)],         // 256
        vec![Word(0)],                  // 1
        vec![Word(1)],                  // 255
        vec![Word(1), Word(2)],         // 257
        vec![Pair(5, 5)],               // 256^2
        vec![Pair(6, 6)],               // 1, of two words
        vec![Pair(10, 10)],             // 1, of four words
    ];
    if more {
        chains[0].push(Pair(11, 11));
    }
    let numbers: Vec<usize> = (0..17).collect();
    encode(3, 0, &chains, &numbers)
}

/// The same bank with another start.
pub fn started(mut bank: Vec<u8>, start: u8) -> Vec<u8> {
    bank[3] = start;
    bank
}

/// Weights from 1 to `most`.
pub fn weights(rng: &mut Rng, words: u8, most: u64) -> Vec<u8> {
    (0..words).map(|_| 1 + rng.below(most) as u8).collect()
}

/// A history of these sentences, in voice 0 and played in full, chained in an order of its own.
pub fn history(sentences: &[Vec<u8>], rng: &mut Rng) -> Vec<u8> {
    let k = sentences.len();
    let order = rng.some_of(k, k);
    let mut next = vec![0u16; k];
    for pair in order.windows(2) {
        next[pair[0]] = pair[1] as u16 + 1;
    }
    let head = order.first().map_or(0, |&i| i as u16 + 1);
    let mut bytes = Vec::with_capacity(4 + 20 * k);
    bytes.extend((k as u16).to_le_bytes());
    bytes.extend(head.to_le_bytes());
    for (s, n) in sentences.iter().zip(next) {
        let mut record = [0u8; 20];
        record[..2].copy_from_slice(&n.to_le_bytes());
        record[2] = s.len() as u8;
        record[4..4 + s.len()].copy_from_slice(s);
        bytes.extend(record);
    }
    bytes
}

/// A history as calls of *Log* leave it: the last record is the chain's head.
pub fn logged(sentences: &[Vec<u8>]) -> Vec<u8> {
    let k = sentences.len();
    let mut bytes = history(sentences, &mut Rng::new(0));
    for r in 0..k {
        bytes[4 + 20 * r..6 + 20 * r].copy_from_slice(&(r as u16).to_le_bytes());
    }
    bytes[2..4].copy_from_slice(&(k as u16).to_le_bytes());
    bytes
}

/// The same records, each with a voice and a count of words played, by its place and its length.
pub fn spoken(mut history: Vec<u8>, how: &mut dyn FnMut(usize, usize) -> (u8, u8)) -> Vec<u8> {
    for (i, record) in history[4..].chunks_exact_mut(20).enumerate() {
        let (voice, played) = how(i, record[2] as usize);
        record[3] = 16 * voice + played;
    }
    history
}

fn damage(bytes: &mut Vec<u8>, rng: &mut Rng) {
    match rng.below(8) {
        0 => bytes.truncate(rng.index(bytes.len() + 1)),
        1 => bytes.push(rng.below(256) as u8),
        _ if bytes.is_empty() => {}
        2..=4 => {
            let i = rng.index(bytes.len());
            bytes[i] = rng.below(6) as u8;
        }
        _ => {
            let i = rng.index(bytes.len());
            bytes[i] = rng.below(256) as u8;
        }
    }
}

/// A small bank, often a damaged one.
pub fn small_bank(rng: &mut Rng) -> Vec<u8> {
    let n = 1 + rng.index(4);
    let w = 1 + rng.below(5) as u8;
    let most = if rng.below(4) == 0 { 24 } else { 8 };
    let count = 1 + rng.index(most);
    let mut chains = vec![Vec::new(); n];
    for _ in 0..count {
        let rule =
            if rng.below(2) == 0 { Rule::Word(rng.below(w as u64) as u8) } else { Rule::Pair(rng.index(n) as u8, rng.index(n) as u8) };
        chains[rng.index(n)].push(rule);
    }
    if rng.below(8) != 0 {
        for chain in &mut chains {
            let mut met = Vec::new();
            chain.retain(|r| {
                let body = match *r {
                    Rule::Word(w) => (0, w, 0),
                    Rule::Pair(b, c) => (1, b, c),
                };
                let new = !met.contains(&body);
                met.push(body);
                new
            });
        }
    }
    let start = rng.index(n) as u8;
    let mut bank = shuffled(w, start, &mut chains, rng);
    if rng.below(6) == 0 {
        damage(&mut bank, rng);
    }
    bank
}

/// A small history, often a damaged one or one with slack, in one voice or in several, some of it broken off; `sentence` makes some of its
/// sentences.
pub fn small_history(rng: &mut Rng, sentence: &mut dyn FnMut(&mut Rng) -> Option<Vec<u8>>) -> Vec<u8> {
    let k = rng.index(7);
    let sentences: Vec<Vec<u8>> = (0..k)
        .map(|_| {
            if rng.below(3) != 0 {
                if let Some(s) = sentence(rng) {
                    return s;
                }
            }
            small_sentence(rng)
        })
        .collect();
    let h = history(&sentences, rng);
    let (voice, most, broken) = (small_voice(rng), [1, 2, 16][rng.index(3)], [0, 0, 1, 3][rng.index(4)]);
    let mut h = spoken(h, &mut |_, length| {
        let played = if rng.below(4) < broken { rng.index(length) as u8 } else { 0 };
        ((voice + rng.below(most) as u8) % 16, played)
    });
    if k > 0 && rng.below(12) == 0 {
        h[7 + 20 * rng.index(k)] |= 1 + rng.below(15) as u8;
    }
    if rng.below(3) == 0 {
        h.extend((0..rng.index(50)).map(|i| i as u8));
    }
    if rng.below(5) == 0 {
        damage(&mut h, rng);
    }
    h
}

/// A voice from 0 to 15, often 0.
pub fn small_voice(rng: &mut Rng) -> u8 {
    match rng.below(4) {
        0 => rng.below(16) as u8,
        1 => rng.below(3) as u8,
        _ => 0,
    }
}

pub fn small_sentence(rng: &mut Rng) -> Vec<u8> {
    let n = 1 + rng.index(5);
    (0..n).map(|_| if rng.below(20) == 0 { 255 } else { rng.below(6) as u8 }).collect()
}

/// A pattern made from a sentence: none, some or all of its words blanked. Sometimes it has a byte about the last word, or another length.
pub fn small_pattern(rng: &mut Rng, sentence: &[u8], words: u8) -> Vec<u8> {
    let blanks = [0, 1, 2, 2, 3, 4][rng.index(6)];
    let mut pattern: Vec<u8> = sentence.iter().map(|&w| if rng.below(4) < blanks { 255 } else { w }).collect();
    if !pattern.is_empty() && rng.below(8) == 0 {
        let i = rng.index(pattern.len());
        pattern[i] = [words.wrapping_sub(1), words, words.wrapping_add(1), 254, rng.below(256) as u8][rng.index(5)];
    }
    if rng.below(16) == 0 {
        pattern.resize([0, 1, 16, 17, 256 + sentence.len()][rng.index(5)], 255);
    }
    pattern
}

/// Weights for so many words: all 1, small ones, all 255, any. Sometimes one is 0, or there are more or fewer of them.
pub fn small_weights(rng: &mut Rng, words: u8) -> Vec<u8> {
    let most = [1, 2, 3, 10, 255][rng.index(5)];
    let mut list = if rng.below(6) == 0 { vec![255; words as usize] } else { weights(rng, words, most) };
    match rng.below(24) {
        0 if !list.is_empty() => {
            let i = rng.index(list.len());
            list[i] = 0;
        }
        1 => list.resize([0, list.len().saturating_sub(1), list.len() + 1, list.len() + 256][rng.index(4)], 1),
        _ => {}
    }
    list
}

/// The sentence with so many of its words blanked.
pub fn blanked(rng: &mut Rng, sentence: &[u8], blanks: usize) -> Vec<u8> {
    let mut pattern = sentence.to_vec();
    for i in rng.some_of(sentence.len(), blanks) {
        pattern[i] = 255;
    }
    pattern
}
