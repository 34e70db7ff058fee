//! The calls of the library against the reference, on stored, generated and hand-made inputs.
mod support;

use pumpfennel::{BLANK, DerivationNumber, DrawNumber, Refusal, Remaining, Ticket};
use std::collections::{BTreeMap, BTreeSet};
use support::agreed;
use support::case::{self, Answer, CALLS, Call, Case};
use support::generate::{self, Rng, Spoken};
use support::reference::{self, Full, Readings, Record, Tickets};

const SEED: u64 = 20261115;

// ---- Generated inputs

/// Holds the library to the reference on generated cases of a call, among which every refusal of the call is. Gives
/// the cases that were accepted, with their answers.
fn agree(call: Call, count: u64) -> Vec<(Case, Answer)> {
    let mut accepted = vec![];
    agree_on(call, count, |case, answer| {
        if answer.refusal == 0 {
            accepted.push((case, answer));
        }
    });
    accepted
}

/// The same, and hands on every case with its answer.
fn agree_on(call: Call, count: u64, mut note: impl FnMut(Case, Answer)) {
    let seed = SEED + call as u64;
    println!("{}: {count} cases from seed {seed}", call.name());
    let mut seen: BTreeMap<u8, u64> = BTreeMap::new();
    for i in 0..count {
        let case = generate::case(&mut Rng::of_case(seed, i), call);
        let answer = agreed(&case).unwrap_or_else(|fault| panic!("seed {seed}, case {i}: {fault}"));
        *seen.entry(answer.refusal).or_default() += 1;
        note(case, answer);
    }
    println!("how many with each refusal: {seen:?}");
    let reached: BTreeSet<u8> = seen.into_keys().collect();
    let allowed: BTreeSet<u8> = [0].into_iter().chain(call.refusals()).collect();
    assert_eq!(reached, allowed, "the refusals of {}", call.name());
}

#[test]
fn generated_check_grammar() {
    agree(Call::CheckGrammar, 200_000);
}

/// The records of an accepted history.
fn records(history: &[u8]) -> Vec<Record<'_>> {
    reference::read_history(history).expect("an accepted history")
}

/// Among these lengths and words played every length is, in full and broken off after any number of words, in plenty.
fn every_extent(extents: impl Iterator<Item = (u64, u64)>) {
    let mut seen: BTreeMap<(u64, u64), u64> = BTreeMap::new();
    extents.for_each(|extent| *seen.entry(extent).or_default() += 1);
    let in_full: u64 = seen.iter().filter(|((_, played), _)| *played == 0).map(|(_, many)| many).sum();
    println!("{in_full} sentences in full, {} broken off", seen.values().sum::<u64>() - in_full);
    assert!(seen.keys().copied().eq((1..=16).flat_map(|length| (0..length).map(move |played| (length, played)))));
    assert!(seen.values().all(|&many| many > 100), "{seen:?}");
}

#[test]
fn generated_check_history() {
    let accepted = agree(Call::CheckHistory, 200_000);
    let all = accepted.iter().flat_map(|(case, _)| records(&case.history));
    every_extent(all.map(|record| (record.words.len() as u64, u64::from(record.played))));
}

#[test]
fn generated_count() {
    agree(Call::Count, 200_000);
}

#[test]
fn generated_unrank() {
    agree(Call::Unrank, 200_000);
}

/// Among them sentences of two derivations and of more, with the lowest number 0 and with another, in plenty.
#[test]
fn generated_rank() {
    let mut kinds: BTreeMap<(u64, bool), u64> = BTreeMap::new();
    for (_, answer) in agree(Call::Rank, 200_000) {
        *kinds.entry((answer.figures[2].min(3), answer.figures[0] > 0)).or_default() += 1;
    }
    println!("by derivations and whether the lowest number is above 0: {kinds:?}");
    assert_eq!(kinds.len(), 6);
    assert!(kinds.values().all(|&many| many > 1_000), "{kinds:?}");
}

/// Among them histories with sentences heard in the voice, with sentences broken off, and with both, in plenty.
#[test]
fn generated_remaining() {
    let mut kinds: BTreeMap<(bool, bool), u64> = BTreeMap::new();
    for (case, answer) in agree(Call::Remaining, 150_000) {
        let broken = records(&case.history).iter().any(|record| record.played > 0);
        *kinds.entry((answer.figures[1] > 0, broken)).or_default() += 1;
    }
    println!("by whether a sentence is heard, and whether one is broken off: {kinds:?}");
    assert_eq!(kinds.len(), 4);
    assert!(kinds.values().all(|&many| many > 15_000), "{kinds:?}");
}

#[test]
fn generated_draw() {
    agree(Call::Draw, 150_000);
}

/// A pattern's blanks: none, some, or at every place.
#[derive(Clone, Copy, Debug, PartialEq, Eq, PartialOrd, Ord)]
enum Blanks {
    None,
    Some,
    All,
}

fn blanks(pattern: &[u8]) -> Blanks {
    match pattern.iter().filter(|&&byte| byte == BLANK).count() {
        0 => Blanks::None,
        many if many == pattern.len() => Blanks::All,
        _ => Blanks::Some,
    }
}

/// Whether 15 is due to sentences alone that don't fit the pattern.
fn ambiguous_beside(case: &Case) -> bool {
    let grammar = reference::read_grammar(&case.grammar).expect("an accepted grammar");
    let full = Full::new(&grammar, case.pattern.len()).expect("counts that fit");
    let heard = |record: &Record| u64::from(record.voice) == case.voice && record.played == 0;
    let fitting = |words: &[u8]| words.len() == case.pattern.len() && reference::fits(words, &case.pattern);
    let records = records(&case.history);
    let mut fitting = records.iter().filter(|record| heard(record) && fitting(record.words));
    fitting.all(|record| full.readings(record.words).count < 2)
}

/// Among them patterns with no blank, with some and with blanks alone; heard sentences that fit, and such that don't
/// and count without the pattern; and 15 where no heard sentence that fits has two derivations: all in plenty.
#[test]
fn generated_remaining_matching() {
    let mut kinds: BTreeMap<(Blanks, bool, bool), u64> = BTreeMap::new();
    let mut beside = 0;
    agree_on(Call::RemainingMatching, 40_000, |case, answer| match answer.refusal {
        0 => {
            let length = case.pattern.len() as u64;
            let plain = pumpfennel::remaining(&case.grammar, &case.history, length, case.voice).expect("accepted");
            let others = plain.heard > answer.figures[1];
            *kinds.entry((blanks(&case.pattern), answer.figures[1] > 0, others)).or_default() += 1;
        }
        15 => beside += u64::from(ambiguous_beside(&case)),
        _ => {}
    });
    println!("by blanks, whether a sentence that fits is heard, and whether another is: {kinds:?}");
    println!("15 with no fault in what fits: {beside}");
    assert_eq!(kinds.len(), 10);
    assert!(beside > 200 && kinds.values().all(|&many| many > 500), "{kinds:?}");
}

/// Among them draws that pass over heard sentences, and such whose number among all isn't the one among what fits.
#[test]
fn generated_draw_matching() {
    let (mut numbered, mut passed) = (0, 0);
    for (case, answer) in agree(Call::DrawMatching, 40_000) {
        assert!(reference::fits(&answer.buffer[..case.pattern.len()], &case.pattern));
        numbered += u64::from(answer.figures[1] != case.number);
        let plain = Case { call: Call::RemainingMatching, sentence: vec![], number: 0, ..case };
        passed += u64::from(given(&plain).figures[1] > 0);
    }
    println!("{numbered} draws with another derivation number, {passed} with a heard sentence that fits");
    assert!(numbered > 4_000 && passed > 1_500);
}

/// Where the owner's tickets stand: the first of several, the last, one between, or the only one.
#[derive(Clone, Copy, Debug, PartialEq, Eq, PartialOrd, Ord)]
enum Place {
    Only,
    First,
    Between,
    Last,
}

/// Where a ticket stands among those of the derivation that owns it, by the tickets beside it.
fn place(case: &Case, number: u64) -> Place {
    let owner = |ticket: Option<u64>| {
        let given = ticket.map(|number| answered(&Case { number, ..case.clone() }));
        given.is_some_and(|answer| answer.refusal == 0 && answer.figures[1] == number)
    };
    match (owner(case.number.checked_sub(1)), owner(case.number.checked_add(1))) {
        (false, false) => Place::Only,
        (false, true) => Place::First,
        (true, true) => Place::Between,
        (true, false) => Place::Last,
    }
}

/// What the library answers.
fn answered(case: &Case) -> Answer {
    support::library::answer(case).unwrap_or_else(|fault| panic!("{fault}"))
}

/// Among them weights that are all 1 and others, tickets at every place of their owner's, with a heard sentence before
/// them and without one, and 2^63 and more of them: all in plenty.
#[test]
fn generated_draw_weighted() {
    let mut kinds: BTreeMap<(bool, Place, bool), u64> = BTreeMap::new();
    let mut large = 0;
    for (case, answer) in agree(Call::DrawWeighted, 40_000) {
        let [tickets, number] = answer.figures[..] else { unreachable!("two figures") };
        assert!(case.number < tickets);
        large += u64::from(tickets >= 1 << 63);
        let plain = Case { call: Call::Remaining, weights: vec![], number: 0, sentence: vec![], ..case.clone() };
        let heard = answered(&plain).figures[1] > 0;
        let mixed = case.weights.iter().any(|&weight| weight != 1);
        *kinds.entry((mixed, place(&case, number), heard)).or_default() += 1;
    }
    println!(
        "by whether a weight isn't 1, place among the owner's tickets, and whether a sentence is heard: {kinds:?}"
    );
    println!("{large} with 2^63 tickets and more");
    assert_eq!(kinds.len(), 10);
    assert!(large > 500 && kinds.values().all(|&many| many > 200), "{kinds:?}");
}

#[test]
fn generated_append() {
    let accepted = agree(Call::Append, 200_000);
    every_extent(accepted.iter().map(|(case, _)| (case.sentence.len() as u64, case.played)));
}

/// The length up to which every nonterminal has few derivations, so that they can be written down.
fn short_lists(grammar: &reference::Grammar) -> usize {
    let few = |row: &Vec<u64>| row.iter().all(|&count| count <= 200);
    generate::rows(grammar).iter().take_while(|row| few(row)).count() - 1
}

/// The reference by its lists and by its counts.
#[test]
fn reference_both_ways() {
    println!("seed {SEED}");
    let (mut tried, mut i) = (0, 0);
    while tried < 5_000 {
        let mut rng = Rng::of_case(SEED, i);
        i += 1;
        let bytes = generate::grammar(&mut rng);
        let grammar = reference::read_grammar(&bytes).expect("an accepted grammar");
        let most = short_lists(&grammar);
        if most == 0 {
            continue;
        }
        let length = 1 + rng.below(most);
        let strangers: Vec<Vec<u8>> =
            (0..3).map(|_| (0..length).map(|_| rng.below(usize::from(grammar.words)) as u8).collect()).collect();
        let full = Full::new(&grammar, length).expect("short lists");
        let patterns: Vec<Vec<u8>> =
            (0..3).map(|_| generate::pattern(&mut rng, &grammar, Some(&full), length, &[])).collect();
        let patterns: Vec<Vec<u8>> = patterns.into_iter().filter(|pattern| pattern.len() == length).collect();
        let weights: Vec<Vec<u8>> = (0..2).map(|_| generate::weights(&mut rng, grammar.words)).collect();
        let agree = reference::ways_agree(&grammar, length, &strangers, &patterns, &weights);
        assert!(agree, "case {i}: {} {patterns:?} {weights:?}", case::hex(&bytes));
        tried += 1;
    }
}

// ---- Stored cases

#[test]
fn stored_cases() {
    let mut count = 0;
    for (file, cases) in case::stored() {
        for (i, (case, stored)) in cases.iter().enumerate() {
            let given = agreed(case).unwrap_or_else(|fault| panic!("{file}, case {}: {fault}", i + 1));
            if let Some(stored) = stored {
                assert_eq!(&given, stored, "{file}, case {}:\n{}", i + 1, case.text(None));
            }
            let text = case.text(Some(&given));
            assert_eq!(case::parse(&text), [(case.clone(), Some(given))]);
            count += 1;
        }
    }
    println!("{count} stored cases");
    assert!(count >= 20, "the stored cases are there");
}

// ---- Every refusal, and the first that applies

/// The answer that library and reference agree on.
fn given(case: &Case) -> Answer {
    agreed(case).unwrap_or_else(|fault| panic!("{fault}"))
}

/// The diary of P7, with room for one record more.
fn heard_01() -> Vec<u8> {
    generate::history(&[Spoken::in_full(0, vec![0, 1])], &[1], &[7; 20])
}

/// Accepted: F, the diary of P7, length 2, or any word and then word 1, voice 0, weights 3 and 2, played in full.
fn accepted(call: Call) -> Case {
    let mut case = Case::new(call);
    if call.takes_grammar() {
        case.grammar = generate::f_words(2).bytes();
    }
    if call.takes_history() {
        case.history = heard_01();
    }
    if call.takes_length() {
        case.length = 2;
    }
    if call.takes_pattern() {
        case.pattern = vec![BLANK, 1];
    }
    if call.takes_weights() {
        case.weights = vec![3, 2];
    }
    if call.takes_sentence() {
        case.sentence = vec![1; 2];
    }
    case
}

/// Makes a refusal apply that the case's call can give, and none before it, whatever later ones were made to apply.
fn fault(case: &mut Case, refusal: u8) {
    let rule = 4 + case.grammar.first().map_or(0, |&n| usize::from(n));
    match refusal {
        1 => case.grammar.truncate(3),
        2 => case.grammar[1] = 0,
        3 => case.grammar.push(0),
        4 => case.grammar[rule] = 2,
        5 => case.grammar[4] = 255,
        6 => case.grammar[rule + 3] = 1,
        7 => case.grammar[rule + 3] = 0,
        8 => case.grammar.copy_within(rule..rule + 3, rule + 4),
        9 if case.call.takes_length() => case.length = 17,
        9 if case.call.takes_pattern() => case.pattern.resize(17, BLANK),
        9 => case.sentence = vec![0; 17],
        10 => {
            case.grammar = generate::f_words(16).bytes();
            if case.call.takes_length() {
                case.length = 16;
            } else if case.call.takes_pattern() {
                case.pattern.resize(16, BLANK);
            } else {
                case.sentence = vec![0; 16];
            }
        }
        11 => case.history.truncate(3),
        12 => case.history[7] = case.history[6], // as many words played as there are
        13 => case.history[2] = 2,
        14 => case.history[2] = 0,
        15 => {
            case.grammar = generate::g_words(2).bytes();
            case.history = generate::history(&[Spoken::in_full(0, vec![0; 3])], &[1], &[]);
            if case.call.takes_pattern() {
                case.pattern = vec![BLANK, 1, BLANK]; // the sentence doesn't fit it
            } else {
                case.length = 3;
            }
        }
        16 => case.number = u64::MAX,
        17 => case.sentence[1] = 255,
        19 => case.history.truncate(24),
        20 => case.sentence.truncate(1),
        21 => case.pattern[0] = 254,
        22 => case.voice = 16,
        23 => case.played = 2,
        24 => case.weights.push(1),
        25 => (case.length, case.weights) = (16, vec![8, 8]), // 16^16 tickets of F, more of G
        _ => unreachable!("{refusal}"),
    }
}

/// Every set of faults for every call: the first of them is the answer. So each refusal is reached through each call
/// that can give it.
#[test]
fn first_that_applies() {
    let mut reached: BTreeSet<(&str, u8)> = BTreeSet::new();
    for call in CALLS {
        let refusals = call.refusals();
        for set in 0u32..1 << refusals.len() {
            let mut case = accepted(call);
            let mut first = 0;
            for (i, &refusal) in refusals.iter().enumerate().rev() {
                if set >> i & 1 == 1 {
                    fault(&mut case, refusal);
                    first = refusal;
                }
            }
            let answer = given(&case);
            assert_eq!(answer.refusal, first, "\n{}", case.text(None));
            reached.insert((call.name(), answer.refusal));
        }
    }
    let allowed: BTreeSet<(&str, u8)> = CALLS
        .into_iter()
        .flat_map(|call| [0].into_iter().chain(call.refusals()).map(move |refusal| (call.name(), refusal)))
        .collect();
    assert_eq!(reached, allowed);
    println!("{} pairs of a call and a refusal", reached.len() - CALLS.len());
    assert_eq!(reached.len() - CALLS.len(), 143);
}

// ---- Voices

fn left(grammar: &[u8], history: &[u8], length: u64, voice: u64) -> Answer {
    let (grammar, history) = (grammar.to_vec(), history.to_vec());
    given(&Case { grammar, history, length, voice, ..Case::new(Call::Remaining) })
}

fn draw(grammar: &[u8], history: &[u8], length: u64, voice: u64, number: u64) -> Answer {
    let (grammar, history, sentence) = (grammar.to_vec(), history.to_vec(), vec![7; length as usize]);
    given(&Case { grammar, history, length, voice, number, sentence, ..Case::new(Call::Draw) })
}

/// Every draw from 0 on until one is refused, with 16: derivation numbers and sentences.
fn every_draw(grammar: &[u8], history: &[u8], length: u64, voice: u64) -> Vec<(u64, Vec<u8>)> {
    let mut drawn = vec![];
    loop {
        let answer = draw(grammar, history, length, voice, drawn.len() as u64);
        if answer.refusal != 0 {
            assert_eq!(answer.refusal, 16);
            return drawn;
        }
        drawn.push((answer.figures[1], answer.buffer));
    }
}

/// F, and its full list of a length.
fn f_listed(length: usize) -> (Vec<u8>, Vec<Vec<u8>>) {
    let grammar = generate::f_words(2).bytes();
    let full = reference::listed(&reference::read_grammar(&grammar).expect("an accepted grammar"), length);
    assert_eq!(full.len(), 1 << length);
    (grammar, full)
}

/// A history of these sentences, the records numbered as they stand on the chain.
fn in_order(sentences: &[Spoken]) -> Vec<u8> {
    generate::history(sentences, &(1..=sentences.len()).collect::<Vec<usize>>(), &[])
}

/// The same words in all sixteen voices: each voice counts its own, once.
#[test]
fn same_words_in_every_voice() {
    let (grammar, full) = f_listed(5);
    let mut sentences: Vec<Spoken> = (0..16).map(|voice| Spoken::in_full(voice, full[20].clone())).collect();
    let history = in_order(&sentences);
    for voice in 0..16 {
        assert_eq!(left(&grammar, &history, 5, voice).figures, [32, 1, 31]);
        assert!(every_draw(&grammar, &history, 5, voice).iter().all(|(_, words)| *words != full[20]));
    }
    // Beside them voice v has the first v sentences, each twice.
    for voice in 0..16 {
        let more = full[..usize::from(voice)].iter().map(|words| Spoken::in_full(voice, words.clone()));
        sentences.extend(more.clone().chain(more));
    }
    Rng::new(SEED).shuffle(&mut sentences);
    let history = in_order(&sentences);
    for voice in 0..16 {
        assert_eq!(left(&grammar, &history, 5, voice).figures, [32, 1 + voice, 31 - voice]);
        let unheard = (0..).zip(full.clone()).filter(|(number, _)| *number >= voice && *number != 20);
        assert_eq!(every_draw(&grammar, &history, 5, voice), unheard.collect::<Vec<(u64, Vec<u8>)>>());
    }
}

/// A sentence with several derivations, heard in one voice: 15 in that voice, and no harm in any other.
#[test]
fn ambiguous_in_one_voice() {
    let grammar = generate::g_words(1).bytes();
    let every: Vec<(u64, Vec<u8>)> = (0..5).map(|number| (number, vec![0; 4])).collect();
    for heard in 0..16 {
        // The sentence of two words has one derivation.
        let sentences = [vec![0; 4], vec![0; 2]].map(|words| Spoken::in_full(heard, words));
        let history = generate::history(&sentences, &[2, 1], &[]);
        for voice in 0..16 {
            if voice == u64::from(heard) {
                assert_eq!(left(&grammar, &history, 4, voice).refusal, 15);
                assert_eq!(draw(&grammar, &history, 4, voice, 0).refusal, 15);
                assert_eq!(left(&grammar, &history, 2, voice).figures, [1, 1, 0]);
            } else {
                assert_eq!(left(&grammar, &history, 4, voice).figures, [5, 0, 5]);
                assert_eq!(every_draw(&grammar, &history, 4, voice), every);
                assert_eq!(left(&grammar, &history, 2, voice).figures, [1, 0, 1]);
            }
        }
    }
}

/// Logs in each voice in turn: a sentence is then heard in its voice, what was heard before in any voice still is, and
/// nothing else is.
#[test]
fn logs_in_every_voice() {
    let (grammar, full) = f_listed(3);
    let mut history = vec![7; 4 + 20 * 64];
    history[..4].fill(0);
    let mut heard: BTreeSet<(u64, u64)> = BTreeSet::new();
    for k in 0..64 {
        // The last sixteen are those of the first sixteen again.
        let (voice, round) = (k % 16, k / 16);
        let number = (5 * voice + round % 3) % 8;
        assert_eq!(pumpfennel::append(&mut history, &full[number as usize], voice, 0), Ok(k + 1));
        assert_eq!(u64::from(history[4 + 20 * k as usize + 3]), 16 * voice);
        heard.insert((voice, number));
        for voice in 0..16 {
            let unheard = (0..).zip(full.clone()).filter(|(number, _)| !heard.contains(&(voice, *number)));
            let unheard: Vec<(u64, Vec<u8>)> = unheard.collect();
            let many = unheard.len() as u64;
            assert_eq!(left(&grammar, &history, 3, voice).figures, [8, 8 - many, many]);
            assert_eq!(every_draw(&grammar, &history, 3, voice), unheard);
        }
    }
    assert_eq!(heard.len(), 48);
    assert_eq!(pumpfennel::append(&mut history, &[0], 0, 0), Err(Refusal::HistoryFull));
}

/// A voice above 15, whatever its low bits: 22 comes before all that is tested after it, and after 1 to 9.
#[test]
fn voices_above_fifteen() {
    for call in CALLS.into_iter().filter(|call| call.takes_voice()) {
        for voice in generate::ABOVE_FIFTEEN {
            let case = Case { voice, ..accepted(call) };
            assert_eq!(given(&case).refusal, 22, "\n{}", case.text(None));
            assert_eq!(case::parse(&case.text(None)), [(case, None)]);
            for refusal in call.refusals() {
                let mut case = accepted(call);
                fault(&mut case, refusal);
                case.voice = voice;
                let first = if refusal <= 9 { refusal } else { 22 };
                assert_eq!(given(&case).refusal, first, "\n{}", case.text(None));
            }
        }
    }
    let (grammar, mut history) = (generate::f_words(2).bytes(), heard_01());
    for voice in [16, 256, 1 << 32, u64::MAX] {
        assert_eq!(pumpfennel::remaining(&grammar, &history, 2, voice), Err(Refusal::BadVoice));
        let drawn = pumpfennel::draw(&grammar, &history, 2, voice, DrawNumber(0), &mut [0; 2]);
        assert_eq!(drawn, Err(Refusal::BadVoice));
        assert_eq!(pumpfennel::append(&mut history, &[1], voice, 0), Err(Refusal::BadVoice));
        assert_eq!(history, heard_01());
    }
}

// ---- Patterns

fn left_matching(grammar: &[u8], history: &[u8], pattern: &[u8], voice: u64) -> Answer {
    let (grammar, history, pattern) = (grammar.to_vec(), history.to_vec(), pattern.to_vec());
    given(&Case { grammar, history, pattern, voice, ..Case::new(Call::RemainingMatching) })
}

fn draw_matching(grammar: &[u8], history: &[u8], pattern: &[u8], voice: u64, number: u64) -> Answer {
    let (grammar, history, sentence) = (grammar.to_vec(), history.to_vec(), vec![7; pattern.len()]);
    let pattern = pattern.to_vec();
    given(&Case { grammar, history, pattern, voice, number, sentence, ..Case::new(Call::DrawMatching) })
}

/// Every draw with a pattern from 0 on until one is refused, with 16.
fn every_draw_matching(grammar: &[u8], history: &[u8], pattern: &[u8], voice: u64) -> Vec<(u64, Vec<u8>)> {
    let mut drawn = vec![];
    loop {
        let answer = draw_matching(grammar, history, pattern, voice, drawn.len() as u64);
        if answer.refusal != 0 {
            assert_eq!(answer.refusal, 16);
            return drawn;
        }
        drawn.push((answer.figures[1], answer.buffer));
    }
}

/// Every pattern of two to five bytes for F, over a history with some of the sentences: what the plain draws give, as
/// far as it fits.
#[test]
fn every_pattern() {
    let mut tried = 0;
    for length in 2..=5usize {
        let (grammar, full) = f_listed(length);
        // Every third sentence in full, every fifth broken off, every seventh in another voice; two strangers.
        let spoken = |voice, played, step| full.iter().step_by(step).map(move |words| (voice, played, words.clone()));
        let all = spoken(3, 0, 3).chain(spoken(3, 1, 5)).chain(spoken(4, 0, 7));
        let strangers = [vec![BLANK; length], [vec![1; length - 1], vec![BLANK]].concat()];
        let all = all.chain(strangers.map(|words| (3, 0, words)));
        let mut sentences: Vec<Spoken> = all.map(|(voice, played, words)| Spoken { voice, played, words }).collect();
        Rng::new(SEED).shuffle(&mut sentences);
        let history = in_order(&sentences);
        let plain = every_draw(&grammar, &history, length as u64, 3);
        for code in 0..3usize.pow(length as u32) {
            let pattern: Vec<u8> = (0..length).map(|i| [0, 1, BLANK][code / 3usize.pow(i as u32) % 3]).collect();
            let fitting = |words: &[u8]| reference::fits(words, &pattern);
            let total = full.iter().filter(|words| fitting(words)).count() as u64;
            let expected: Vec<(u64, Vec<u8>)> = plain.iter().filter(|(_, words)| fitting(words)).cloned().collect();
            let left = expected.len() as u64;
            assert_eq!(left_matching(&grammar, &history, &pattern, 3).figures, [total, total - left, left]);
            assert_eq!(every_draw_matching(&grammar, &history, &pattern, 3), expected);
            tried += 1;
        }
    }
    assert_eq!(tried, 9 + 27 + 81 + 243);
}

/// Every byte as a pattern's, at every place and with several W: 21 where it is neither 255 nor a word. Nothing fits a
/// word that no rule has.
#[test]
fn every_pattern_byte() {
    for words in [1, 2, 127, 128, 253, 254, 255u8] {
        let mut grammar = generate::f_words(words.min(2).into()).bytes();
        grammar[1] = words;
        let each = u64::from(words.min(2));
        for (place, byte) in (0..4).flat_map(|place| (0..=255).map(move |byte| (place, byte))) {
            let mut pattern = vec![BLANK; 4];
            pattern[place] = byte;
            let answer = left_matching(&grammar, &[0; 4], &pattern, 0);
            let total = match byte {
                BLANK => each.pow(4),
                _ if u64::from(byte) < each => each.pow(3),
                _ => 0,
            };
            assert_eq!(answer.refusal, if byte != BLANK && byte >= words { 21 } else { 0 }, "{words} {pattern:?}");
            assert_eq!(answer.figures, [total, 0, total], "{words} {pattern:?}");
            let first = draw_matching(&grammar, &[0; 4], &pattern, 0, 0).refusal;
            assert_eq!(first, if answer.refusal == 0 && total == 0 { 16 } else { answer.refusal });
        }
    }
}

/// Patterns of every length up to 40 and of far longer ones: 9 but for 1 to 16, whatever their bytes are.
#[test]
fn every_pattern_length() {
    let grammar = generate::f_words(2).bytes();
    for length in (0..=40).chain([255, 256, 257, 258, 272, 512 + 2, 65536 + 2]) {
        for byte in [BLANK, 1, 2, 254] {
            let pattern = vec![byte; length];
            let expected = match length {
                1..=16 if [BLANK, 1].contains(&byte) => 0,
                1..=16 => 21,
                _ => 9,
            };
            let answer = left_matching(&grammar, &heard_01(), &pattern, 0);
            assert_eq!(answer.refusal, expected, "{length} {byte}");
            if expected == 0 && length > 1 {
                let total = if byte == BLANK { 1 << length } else { 1 };
                let heard = u64::from(length == 2 && byte == BLANK);
                assert_eq!(answer.figures, [total, heard, total - heard]);
            }
            let case = Case { pattern, ..accepted(Call::DrawMatching) };
            let expected = if (3..=16).contains(&length) && expected == 0 { 20 } else { expected };
            let expected = if length == 1 && expected == 0 { 16 } else { expected }; // F has no sentence of one word
            assert_eq!(given(&case).refusal, expected, "{length} {byte}");
            assert_eq!(case::parse(&case.text(None)), [(case, None)]);
        }
    }
}

/// A sentence with several derivations, fitting the pattern or not: 15 in its voice where it was played in full, and no
/// harm else. One that fits and is unheard is drawn with each of its derivations.
#[test]
fn ambiguous_and_not_fitting() {
    let grammar = generate::g_words(2).bytes();
    let full = reference::listed(&reference::read_grammar(&grammar).expect("an accepted grammar"), 3);
    for (code, place) in (0..27usize).flat_map(|code| [(code, 0), (code, 1), (code, 2)]) {
        let pattern: Vec<u8> = [1, 3, 9].map(|power| [0, 1, BLANK][code / power % 3]).to_vec();
        let every = (0..).zip(full.clone()).filter(|(_, words)| reference::fits(words, &pattern));
        let every: Vec<(u64, Vec<u8>)> = every.collect();
        for words in [[0, 0, 0], [0, 1, 1], [1, 0, 1]] {
            for (voice, played) in [(5, 0), (5, 1), (5, 2), (6, 0)] {
                // Beside sentences of another length, and one without a derivation.
                let mut sentences =
                    [vec![0; 4], vec![1; 2], vec![BLANK; 3]].map(|words| Spoken::in_full(5, words)).to_vec();
                sentences.insert(place, Spoken { voice, played, words: words.to_vec() });
                let history = in_order(&sentences);
                let (left, first) =
                    (left_matching(&grammar, &history, &pattern, 5), draw_matching(&grammar, &history, &pattern, 5, 0));
                if (voice, played) == (5, 0) {
                    assert_eq!((left.refusal, first.refusal), (15, 15), "{pattern:?} {words:?}");
                } else {
                    assert_eq!(left.figures, [every.len() as u64, 0, every.len() as u64]);
                    assert_eq!(every_draw_matching(&grammar, &history, &pattern, 5), every);
                }
            }
        }
    }
}

/// In a history 255 is a byte like any other: no sentence has it, and it is no blank.
#[test]
fn no_blanks_in_a_history() {
    let (grammar, full) = f_listed(3);
    let every: Vec<(u64, Vec<u8>)> = (0..).zip(full).collect();
    let sentences =
        [[BLANK; 3], [0, BLANK, 1], [BLANK, 0, 0], [1, 1, BLANK]].map(|words| Spoken::in_full(0, words.to_vec()));
    let history = in_order(&sentences);
    for pattern in [[BLANK; 3], [0, BLANK, 1], [BLANK, 0, 0], [1, 1, BLANK]] {
        let fitting = every.iter().filter(|(_, words)| reference::fits(words, &pattern));
        let fitting: Vec<(u64, Vec<u8>)> = fitting.cloned().collect();
        let many = fitting.len() as u64;
        assert_eq!(left_matching(&grammar, &history, &pattern, 0).figures, [many, 0, many]);
        assert_eq!(every_draw_matching(&grammar, &history, &pattern, 0), fitting);
    }
}

/// A pattern of blanks alone has the answer of the plain call to every question: refusal, figures and bytes.
#[test]
fn blanks_alone() {
    for (plain, matching) in [(Call::Remaining, Call::RemainingMatching), (Call::Draw, Call::DrawMatching)] {
        let (mut seen, mut lengths) = (BTreeSet::new(), BTreeSet::new());
        for i in 0..8_000 {
            let mut rng = Rng::of_case(SEED + 50, i);
            let mut case = generate::case(&mut rng, plain);
            if rng.once_in(20) {
                case.length = rng.pick(&[0, 1, 16, 17]);
            }
            if case.length > 1 << 17 {
                continue;
            }
            let pattern = vec![BLANK; case.length as usize];
            let blanks = Case { call: matching, length: 0, pattern, ..case.clone() };
            let answer = given(&case);
            assert_eq!(given(&blanks), answer, "case {i}:\n{}", case.text(None));
            seen.insert(answer.refusal);
            lengths.insert(case.length.min(18));
        }
        let allowed: BTreeSet<u8> = [0].into_iter().chain(plain.refusals()).collect();
        assert_eq!(seen, allowed, "the refusals of {}", plain.name());
        assert!(lengths.into_iter().eq(0..=18));
    }
}

/// For a pattern without blanks, left is how many derivations that sentence has, or 0 if it is heard. The draws are
/// these derivations by rising number, from the lowest.
#[test]
fn no_blank_at_all() {
    println!("seed {SEED}");
    let (mut seen, mut accepted, mut i) = (BTreeMap::<(u64, bool), u64>::new(), 0, 0);
    while accepted < 3_000 {
        let case = generate::case(&mut Rng::of_case(SEED + 51, i), Call::RemainingMatching);
        i += 1;
        let Case { grammar, history, pattern, voice, .. } = &case;
        if blanks(pattern) != Blanks::None {
            continue;
        }
        let Ok(found) = pumpfennel::remaining_matching(grammar, history, pattern, *voice) else { continue };
        let shown = case.text(None);
        let heard = records(history).contains(&Record { voice: *voice as u8, played: 0, words: pattern });
        let (derivations, lowest) = match pumpfennel::rank(grammar, pattern) {
            Ok(ranked) => (ranked.derivations, ranked.number.0),
            Err(refusal) => {
                assert_eq!(refusal, Refusal::SentenceUnderivable, "{shown}");
                (0, 0)
            }
        };
        let left = if heard { 0 } else { derivations };
        assert_eq!(found, Remaining { total: derivations, heard: derivations - left, remaining: left }, "{shown}");
        let mut next = lowest;
        for q in 0..left.min(50) {
            let mut words = vec![7; pattern.len()];
            let drawn = pumpfennel::draw_matching(grammar, history, pattern, *voice, DrawNumber(q), &mut words);
            let number = drawn.expect("a draw below what is left").number.0;
            assert!(&words == pattern && if q == 0 { number == lowest } else { number >= next }, "draw {q}\n{shown}");
            next = number + 1;
        }
        let past = pumpfennel::draw_matching(grammar, history, pattern, *voice, DrawNumber(left), &mut [0; 16]);
        assert_eq!(past, Err(Refusal::NumberBeyond), "{shown}");
        *seen.entry((derivations.min(2), heard)).or_default() += 1;
        accepted += 1;
    }
    println!("by derivations of the sentence, and whether it is heard: {seen:?}");
    assert!(seen.len() == 5 && seen.values().all(|&many| many > 50), "{seen:?}");
}

// ---- Weights

fn draw_weighted(grammar: &[u8], history: &[u8], length: u64, voice: u64, weights: &[u8], number: u64) -> Answer {
    let (grammar, history, weights) = (grammar.to_vec(), history.to_vec(), weights.to_vec());
    let sentence = vec![7; length.min(17) as usize];
    given(&Case { grammar, history, length, voice, weights, number, sentence, ..Case::new(Call::DrawWeighted) })
}

/// Who owns each ticket from 0 on until one is refused, with 16; each answer says how many there are.
fn every_ticket(grammar: &[u8], history: &[u8], length: u64, voice: u64, weights: &[u8]) -> Vec<(u64, Vec<u8>)> {
    let (mut owners, mut tickets) = (vec![], BTreeSet::new());
    loop {
        let answer = draw_weighted(grammar, history, length, voice, weights, owners.len() as u64);
        if answer.refusal != 0 {
            assert_eq!(answer.refusal, 16);
            assert!(tickets.into_iter().eq((!owners.is_empty()).then_some(owners.len() as u64)));
            return owners;
        }
        tickets.insert(answer.figures[0]);
        owners.push((answer.figures[1], answer.buffer));
    }
}

/// The ticket list as one list, from the unheard one: each entry as often as the product of its words' weights says.
fn handed_out(unheard: &[(u64, Vec<u8>)], weights: &[u8]) -> Vec<(u64, Vec<u8>)> {
    let mut owners = vec![];
    for entry in unheard {
        let mut weight = 1usize;
        for &word in &entry.1 {
            weight *= usize::from(weights[usize::from(word)]);
        }
        owners.extend(std::iter::repeat_n(entry.clone(), weight));
    }
    owners
}

/// Several weights for F, over a history with some of the sentences: what the plain draws give, each as often as it
/// weighs.
#[test]
fn every_ticket_of_f() {
    let mut tried = 0;
    for length in 2..=5usize {
        let (grammar, full) = f_listed(length);
        // Every third sentence in full, every fifth broken off, every seventh in another voice; two strangers.
        let spoken = |voice, played, step| full.iter().step_by(step).map(move |words| (voice, played, words.clone()));
        let all = spoken(3, 0, 3).chain(spoken(3, 1, 5)).chain(spoken(4, 0, 7));
        let strangers = [vec![255; length], [vec![1; length - 1], vec![2]].concat()];
        let all = all.chain(strangers.map(|words| (3, 0, words)));
        let mut sentences: Vec<Spoken> = all.map(|(voice, played, words)| Spoken { voice, played, words }).collect();
        Rng::new(SEED).shuffle(&mut sentences);
        let history = in_order(&sentences);
        for voice in [3, 4, 5] {
            let plain = every_draw(&grammar, &history, length as u64, voice);
            for weights in [[1, 1], [1, 2], [2, 1], [3, 2], [1, 4], [5, 1], [3, 3]] {
                let expected = handed_out(&plain, &weights);
                assert_eq!(every_ticket(&grammar, &history, length as u64, voice, &weights), expected, "{weights:?}");
                tried += expected.len();
            }
        }
    }
    println!("{tried} tickets");
    assert!(tried > 50_000);
}

/// Every weight for one of two words, in every place of three: the ends of each derivation's tickets.
#[test]
fn every_weight() {
    let (grammar, full) = f_listed(3);
    let heard = generate::history(&[Spoken::in_full(0, vec![0, 1, 0])], &[1], &[]);
    for (weight, turned) in (1..=255).flat_map(|weight| [(weight, false), (weight, true)]) {
        let weights = if turned { [weight, 3] } else { [3, weight] };
        for history in [&[0; 4][..], &heard] {
            let own = |words: &[u8]| words.iter().map(|&word| u64::from(weights[usize::from(word)])).product::<u64>();
            let unheard = || (0..).zip(&full).filter(|(_, words)| history.len() == 4 || **words != [0, 1, 0]);
            let tickets: u64 = unheard().map(|(_, words)| own(words)).sum();
            let mut first = 0;
            for (number, words) in unheard() {
                for ticket in [first, first + own(words) / 2, first + own(words) - 1] {
                    let answer = draw_weighted(&grammar, history, 3, 0, &weights, ticket);
                    assert_eq!(
                        (&answer.figures[..], &answer.buffer),
                        (&[tickets, number][..], words),
                        "{weights:?} {ticket}"
                    );
                }
                first += own(words);
            }
            assert_eq!(draw_weighted(&grammar, history, 3, 0, &weights, tickets).refusal, 16, "{weights:?}");
        }
    }
}

/// As many weights as words, and none of them 0, whether a rule has the word or not: else 24. A word that no rule has
/// adds to no total.
#[test]
fn every_number_of_weights() {
    for words in [1, 2, 3, 127, 128, 254, 255u8] {
        let mut grammar = generate::f_words(words.min(2).into()).bytes();
        grammar[1] = words;
        let tickets = if words == 1 { 3 * 3 } else { (3 + 2) * (3 + 2) };
        let weights = |size: usize, other: u8| [&[3, 2][..], &vec![other; size]].concat()[..size].to_vec();
        for size in (0..=260).chain([510, 512, 65536 + usize::from(words)]) {
            let answer = draw_weighted(&grammar, &[0; 4], 2, 0, &weights(size, 255), 0);
            assert_eq!(answer.refusal, if size == usize::from(words) { 0 } else { 24 }, "{size} of {words}");
            assert_eq!(answer.figures[0], if answer.refusal == 0 { tickets } else { 0 });
        }
        for place in 0..usize::from(words) {
            let mut weights = weights(words.into(), 1);
            weights[place] = 0;
            assert_eq!(draw_weighted(&grammar, &[0; 4], 2, 0, &weights, 0).refusal, 24, "{place} of {words}");
        }
    }
}

/// Every byte as a word of the history: what has no weight bars nothing, and a word with 255 before it or behind it
/// neither.
#[test]
fn every_word_heard() {
    for words in [1, 2, 128, 253u8] {
        let grammar = generate::f_words(words.into()).bytes();
        let weights: Vec<u8> = (0..words).map(|word| 1 + word % 5).collect();
        let group: u64 = weights.iter().map(|&weight| u64::from(weight)).sum();
        for byte in 0..=255u8 {
            let sentences = [[0, byte], [byte, 255], [255, byte]].map(|words| Spoken::in_full(0, words.to_vec()));
            let answer = draw_weighted(&grammar, &in_order(&sentences), 2, 0, &weights, 0);
            let heard = weights.get(usize::from(byte)).map_or(0, |&weight| u64::from(weights[0] * weight));
            assert_eq!(answer.refusal, if heard == group * group { 16 } else { 0 }, "{byte} of {words}");
            assert_eq!(answer.figures[0], group * group - heard, "{byte} of {words}");
        }
    }
}

/// Totals up to 2^64 - 1 and one above it: 25 comes with the first that doesn't fit, also where it is heard; and its
/// place among the refusals.
#[test]
fn as_many_tickets_as_there_can_be() {
    println!("seed {SEED}");
    let (mut borders, mut groups) = (0, BTreeSet::new());
    for i in 0..300 {
        let mut rng = Rng::of_case(SEED + 70, i);
        let (draft, weights) = generate::laden(&mut rng, false);
        let grammar = draft.bytes();
        let read = reference::read_grammar(&grammar).expect("an accepted grammar");
        let full = Full::new(&read, 16).expect("counts that fit");
        let tickets = Tickets::new(&full, &read, 16, &weights).expect("2^64 - 1 tickets");
        groups.insert(weights.len());
        for _ in 0..20 {
            let number = rng.below_u64(full.total());
            let (before, own) = tickets.share(number);
            for ticket in [before, before + rng.below_u64(own), before + (own - 1)] {
                let answer = draw_weighted(&grammar, &[0; 4], 16, 0, &weights, ticket);
                assert_eq!(answer.figures, [u64::MAX, number], "{ticket} of {weights:?}");
            }
            borders += 1;
        }
        let answer = draw_weighted(&grammar, &[0; 4], 16, 0, &weights, u64::MAX - 1);
        assert_eq!(answer.figures, [u64::MAX, full.total() - 1]);
        assert_eq!(draw_weighted(&grammar, &[0; 4], 16, 0, &weights, u64::MAX).refusal, 16);
        // The first sentence is heard, and with one derivation more that one too.
        let history = in_order(&[Spoken::in_full(0, full.sentence(0))]);
        let answer = draw_weighted(&grammar, &history, 16, 0, &weights, 0);
        assert_eq!(answer.figures, [u64::MAX - tickets.share(0).1, 1]);
        let (more, weights) = generate::laden(&mut rng, true);
        let last = vec![weights.len() as u8 - 1; 16];
        for history in [vec![0; 4], in_order(&[Spoken::in_full(0, last)]), vec![]] {
            assert_eq!(draw_weighted(&more.bytes(), &history, 16, 0, &weights, 0).refusal, 25);
        }
    }
    println!("{borders} derivations of grammars with {groups:?} words");
    assert!(groups.len() > 8);
}

/// Total weights above 2^64 - 1 beside a nonterminal that derives nothing: 25 where the length needs them, and no harm
/// where it doesn't.
#[test]
fn total_weights_that_are_needed() {
    // 0 is 1 2, or 1 3, or word 0; 1 is word 0 nine times, 2 derives nothing, 3 is word 1.
    let (pair, word) = (|a, b| [1, a, b], |a| [0, a, 0]);
    let chains = vec![
        vec![pair(1, 2), pair(3, 1), word(0)],
        vec![pair(4, 7)],
        vec![],
        vec![word(1)],
        vec![pair(5, 5)],
        vec![pair(6, 6)],
        vec![pair(7, 7)],
        vec![word(0)],
    ];
    for reached in [true, false] {
        let mut chains = chains.clone();
        if !reached {
            chains[0].remove(1);
        }
        let grammar = generate::Draft { words: 2, start: 0, chains }.bytes();
        for length in 1..=16 {
            // Nine words 0 weigh 138^9, just below 2^64, or 139^9, just above it.
            let of = |weight: u8| draw_weighted(&grammar, &[0; 4], length, 0, &[weight, 1], 0);
            let some = |weight: u64| match length {
                1 => Some(weight),
                10 if reached => Some(weight.pow(9)),
                _ => None,
            };
            assert_eq!(of(138).figures[0], some(138).unwrap_or(0), "{length}");
            assert_eq!(of(138).refusal, if some(138).is_some() { 0 } else { 16 }, "{length}");
            assert_eq!(of(139).refusal, if length >= 10 { 25 } else { of(138).refusal }, "{length}");
            assert_eq!(of(139).figures[0], if length == 1 { 139 } else { 0 }, "{length}");
        }
    }
}

/// A sentence with several derivations: 15 in its voice where it was played in full, and no harm else. Each of its
/// derivations owns its own tickets.
#[test]
fn ambiguous_and_weighted() {
    let grammar = generate::g_words(2).bytes();
    let full = reference::listed(&reference::read_grammar(&grammar).expect("an accepted grammar"), 3);
    let every: Vec<(u64, Vec<u8>)> = (0..).zip(full).collect();
    for weights in [[1, 1], [2, 1], [1, 3], [4, 3]] {
        for words in [[0, 0, 0], [0, 1, 1], [1, 0, 1]] {
            for (voice, played) in [(5, 0), (5, 1), (5, 2), (6, 0)] {
                // Beside sentences of another length, and one without a derivation.
                let mut sentences =
                    [vec![0; 4], vec![1; 2], vec![255; 3]].map(|words| Spoken::in_full(5, words)).to_vec();
                sentences.insert(1, Spoken { voice, played, words: words.to_vec() });
                let history = in_order(&sentences);
                if (voice, played) == (5, 0) {
                    for ticket in [0, u64::MAX] {
                        assert_eq!(draw_weighted(&grammar, &history, 3, 5, &weights, ticket).refusal, 15);
                    }
                } else {
                    assert_eq!(every_ticket(&grammar, &history, 3, 5, &weights), handed_out(&every, &weights));
                }
            }
        }
    }
}

/// A weight of 1 for every word has the answer of the plain draw to every question: refusal, figures and bytes.
#[test]
fn ones_alone() {
    let (mut seen, mut lengths) = (BTreeSet::new(), BTreeSet::new());
    for i in 0..8_000 {
        let mut rng = Rng::of_case(SEED + 71, i);
        let mut case = generate::case(&mut rng, Call::Draw);
        if rng.once_in(20) {
            case.length = rng.pick(&[0, 1, 16, 17]);
        }
        let weights = vec![1; case.grammar.get(1).map_or(0, |&words| words.into())];
        let weighted = Case { call: Call::DrawWeighted, weights, ..case.clone() };
        let answer = given(&case);
        assert_eq!(given(&weighted), answer, "case {i}:\n{}", case.text(None));
        seen.insert(answer.refusal);
        lengths.insert(case.length.min(18));
    }
    let allowed: BTreeSet<u8> = [0].into_iter().chain(Call::Draw.refusals()).collect();
    assert_eq!(seen, allowed);
    assert!(lengths.into_iter().eq(0..=18));
}

/// Weights that are wrong in two ways, and those with which a total doesn't fit: 24 before 25, and both before all that
/// is tested after them and after all that is tested before.
#[test]
fn weights_in_their_place() {
    let wrong = |case: &mut Case, refusal: u8, kind: usize| match (refusal, kind) {
        (24, 0) => case.weights.clear(),
        (24, 1) => case.weights.truncate(1),
        (24, 2) => case.weights.push(1),
        (24, 3) => case.weights[0] = 0,
        (24, _) => case.weights[1] = 0,
        // The weights do it, or a word of them.
        (_, 0) => (case.length, case.weights) = (16, vec![15, 1]),
        (_, 1) => (case.length, case.weights) = (16, vec![1, 255]),
        (_, _) => (case.length, case.weights) = (9, vec![255, 255]),
    };
    let order = Call::DrawWeighted.refusals();
    let place = |refusal: u8| order.iter().position(|&other| other == refusal).expect("a refusal of the call");
    for (refusal, kinds) in [(24, 5), (25, 3)] {
        for kind in 0..kinds {
            for &other in order.iter().filter(|&&other| other != refusal) {
                let mut case = accepted(Call::DrawWeighted);
                // What comes later in the order is done first, as it alters what the other needs.
                if place(other) < place(refusal) {
                    wrong(&mut case, refusal, kind);
                    fault(&mut case, other);
                } else {
                    fault(&mut case, other);
                    wrong(&mut case, refusal, kind);
                }
                let first = if place(other) < place(refusal) { other } else { refusal };
                assert_eq!(given(&case).refusal, first, "{other}\n{}", case.text(None));
                assert_eq!(case::parse(&case.text(None)), [(case, None)]);
            }
        }
    }
}

/// Draws and logs in turn: the log of a sentence with one derivation takes its tickets away, and no others; those below
/// them have the owners that they had, and those from them on the owners of the tickets behind.
#[test]
fn logs_take_tickets_away() {
    println!("seed {SEED}");
    let (mut rounds, mut several, mut i) = (0, 0, 0);
    while rounds < 2_000 {
        let mut rng = Rng::of_case(SEED + 72, i);
        i += 1;
        let Case { grammar, mut history, length, voice, .. } = generate::case(&mut rng, Call::Remaining);
        let Ok(read) = reference::read_grammar(&grammar) else { continue };
        let Ok(k) = pumpfennel::check_history(&history) else { continue };
        if !(1..=16).contains(&length) || voice > 15 || k > 990 || short_lists(&read) < length as usize {
            continue;
        }
        let weights: Vec<u8> = (0..read.words).map(|_| 1 + rng.below(3) as u8).collect();
        let full = Full::new(&read, length as usize).expect("short lists");
        let shown = format!("case {i}: {} {} {weights:?}", case::hex(&grammar), case::hex(&history));
        let mut words = vec![0; length as usize];
        let mut draw = |history: &[u8], ticket: u64| {
            let (ticket, words) = (Ticket(ticket), &mut words[..]);
            let drawn = pumpfennel::draw_weighted(&grammar, history, length, voice, &weights, ticket, words)?;
            Ok((drawn.tickets, (drawn.number.0, words.to_vec())))
        };
        let mut owners = |history: &[u8]| -> Result<Vec<(u64, Vec<u8>)>, Refusal> {
            match draw(history, 0) {
                Ok((tickets, _)) => (0..tickets).map(|ticket| draw(history, ticket).map(|(_, owner)| owner)).collect(),
                Err(Refusal::NumberBeyond) => Ok(vec![]),
                Err(refusal) => Err(refusal),
            }
        };
        let tickets = Tickets::new(&full, &read, length as usize, &weights).map(|tickets| match full.total() {
            0 => 0,
            total => tickets.share(total - 1).0,
        });
        if !tickets.is_ok_and(|tickets| tickets <= 1_000) {
            continue;
        }
        history.truncate(4 + 20 * k as usize);
        history.extend(rng.bytes(100));
        let Ok(mut before) = owners(&history) else { continue };
        for _ in 0..5 {
            if before.is_empty() {
                break;
            }
            let (number, words) = before[rng.below(before.len())].clone();
            pumpfennel::append(&mut history, &words, voice, 0).unwrap_or_else(|refusal| panic!("{refusal}\n{shown}"));
            if full.readings(&words).count > 1 {
                assert_eq!(owners(&history), Err(Refusal::HeardAmbiguous), "{shown}");
                several += 1;
                break;
            }
            let many = before.len() as u64;
            before.retain(|entry| entry.0 != number);
            assert_eq!(many - before.len() as u64, reference::weight(&words, &weights), "{shown}");
            assert_eq!(owners(&history).as_ref(), Ok(&before), "{shown}");
            rounds += 1;
        }
    }
    println!("{rounds} logs of a sentence with one derivation, {several} of one with several");
    assert!(several > 100);
}

// ---- Playback broken off

/// Every fourth byte with every length: 12 where the low four bits are the length or more, in every call that takes a
/// history; heard in the voice of the high four bits where the low ones are 0, and in no other.
#[test]
fn every_fourth_byte() {
    let grammar = generate::f_words(2).bytes();
    for length in 1..=16u8 {
        let mut history = generate::history(&[Spoken::in_full(0, vec![1; length.into()])], &[1], &[7; 20]);
        for value in 0..=255u8 {
            history[7] = value;
            let (high, low) = (u64::from(value / 16), u64::from(value % 16));
            let expected = if value % 16 < length { 0 } else { 12 };
            for call in CALLS.into_iter().filter(|call| call.takes_history()) {
                let case = Case { history: history.clone(), ..accepted(call) };
                assert_eq!(given(&case).refusal, expected, "{} {length} {value}", call.name());
            }
            for voice in [high, low, (high + 1) % 16] {
                let answer = left(&grammar, &history, length.into(), voice);
                assert_eq!(answer.refusal, expected, "{length} {value}");
                if expected == 0 && length > 1 {
                    let heard = u64::from(voice == high && low == 0);
                    assert_eq!(answer.figures, [1 << length, heard, (1 << length) - heard], "{length} {value}");
                }
            }
        }
    }
}

/// A sentence broken off after any number of its words, once or often: it is drawn as before, and so are the words that
/// were played, as a sentence of their own. Beside a record of it in full it makes no difference, whichever is first.
#[test]
fn broken_off_in_either_order() {
    let (grammar, full) = f_listed(5);
    let every: Vec<(u64, Vec<u8>)> = (0..).zip(full.clone()).collect();
    let others: Vec<(u64, Vec<u8>)> = every.iter().filter(|(number, _)| *number != 20).cloned().collect();
    for voice in 0..16 {
        let spoken = |played: u8| Spoken { voice, played, words: full[20].clone() };
        let elsewhere = Spoken::in_full((voice + 1) % 16, full[20].clone());
        for played in 1..5 {
            for broken in [vec![played], vec![played; 3], vec![1, 2, 3, 4, played]] {
                let mut sentences: Vec<Spoken> = broken.into_iter().map(spoken).collect();
                sentences.push(elsewhere.clone());
                let history = in_order(&sentences);
                assert_eq!(left(&grammar, &history, 5, voice.into()).figures, [32, 0, 32]);
                assert_eq!(left(&grammar, &history, played.into(), voice.into()).figures[1], 0);
                assert_eq!(every_draw(&grammar, &history, 5, voice.into()), every);
                for place in 0..=sentences.len() {
                    sentences.insert(place, spoken(0));
                    let history = in_order(&sentences);
                    assert_eq!(left(&grammar, &history, 5, voice.into()).figures, [32, 1, 31]);
                    assert_eq!(every_draw(&grammar, &history, 5, voice.into()), others);
                    sentences.remove(place);
                }
            }
        }
    }
}

/// A sentence with several derivations, broken off: 15 only where it was played in full too, in the same voice.
#[test]
fn ambiguous_and_broken_off() {
    let grammar = generate::g_words(1).bytes();
    let every: Vec<(u64, Vec<u8>)> = (0..5).map(|number| (number, vec![0; 4])).collect();
    let spoken = |voice: u64, played: u8| Spoken { voice: voice as u8, played, words: vec![0; 4] };
    for played in 1..4 {
        let broken = vec![spoken(9, played), spoken(9, 4 - played)];
        let history = in_order(&broken);
        assert_eq!(left(&grammar, &history, 4, 9).figures, [5, 0, 5]);
        assert_eq!(every_draw(&grammar, &history, 4, 9), every);
        for (place, heard) in (0..=2).flat_map(|place| [(place, 8), (place, 9)]) {
            let mut sentences = broken.clone();
            sentences.insert(place, spoken(heard, 0));
            let history = in_order(&sentences);
            for voice in [8, 9] {
                if voice == heard {
                    assert_eq!(left(&grammar, &history, 4, voice).refusal, 15);
                    assert_eq!(draw(&grammar, &history, 4, voice, 0).refusal, 15);
                } else {
                    assert_eq!(left(&grammar, &history, 4, voice).figures, [5, 0, 5]);
                    assert_eq!(every_draw(&grammar, &history, 4, voice), every);
                }
            }
        }
    }
}

/// *Log* with every length and every figure: 23 where the figure is the length or more, after 9 and 22 and before all
/// that is tested after them; else the fourth byte has it beside the voice.
#[test]
fn every_figure_logged() {
    for length in 1..=16u64 {
        let far = generate::ABOVE_FIFTEEN.into_iter().flat_map(|above| [above, above | (length - 1)]);
        for played in (0..=17).chain(far) {
            let sentence = vec![1; length as usize];
            let fits = played < length;
            for voice in 0..16 {
                let case = Case { sentence: sentence.clone(), voice, played, ..accepted(Call::Append) };
                let answer = given(&case);
                assert_eq!(answer.refusal, if fits { 0 } else { 23 }, "\n{}", case.text(None));
                assert_eq!(u64::from(answer.buffer[27]), if fits { 16 * voice + played } else { 7 });
                assert_eq!(case::parse(&case.text(None)), [(case, None)]);
            }
            for refusal in Call::Append.refusals().into_iter().filter(|&refusal| refusal != 23) {
                let mut case = Case { sentence: sentence.clone(), played, ..accepted(Call::Append) };
                fault(&mut case, refusal);
                let first = if fits || [9, 22].contains(&refusal) { refusal } else { 23 };
                assert_eq!(given(&case).refusal, first, "\n{}", case.text(None));
            }
        }
    }
}

/// What *Left* gives, and every draw, as derivation numbers and sentences; or the refusal of both.
type Lists = Result<(Remaining, Vec<(u64, Vec<u8>)>), Refusal>;

/// Of a length, or of a pattern with that length.
fn lists(grammar: &[u8], history: &[u8], length: u64, pattern: Option<&[u8]>, voice: u64) -> Lists {
    let mut words = vec![0; length as usize];
    let mut draw = |q: u64| {
        let drawn = match pattern {
            None => pumpfennel::draw(grammar, history, length, voice, DrawNumber(q), &mut words)?,
            Some(pattern) => pumpfennel::draw_matching(grammar, history, pattern, voice, DrawNumber(q), &mut words)?,
        };
        Ok((drawn.number.0, words.clone()))
    };
    let found = match pattern {
        None => pumpfennel::remaining(grammar, history, length, voice),
        Some(pattern) => pumpfennel::remaining_matching(grammar, history, pattern, voice),
    };
    match found {
        Ok(found) => {
            let drawn: Result<_, Refusal> = (0..found.remaining).map(&mut draw).collect();
            for q in [found.remaining, found.remaining + 1, u64::MAX] {
                assert_eq!(draw(q), Err(Refusal::NumberBeyond));
            }
            Ok((found, drawn.expect("draws below what is left")))
        }
        Err(refusal) => {
            assert_eq!(draw(0), Err(refusal));
            Err(refusal)
        }
    }
}

/// What a log played in full makes of the lists in its voice.
fn heard_then(before: Lists, sentence: &[u8], readings: Readings) -> Lists {
    let (mut found, mut drawn) = before?;
    match drawn.iter().position(|(_, words)| words == sentence) {
        Some(_) if readings.count > 1 => return Err(Refusal::HeardAmbiguous),
        Some(place) => {
            assert_eq!(drawn.remove(place).0, readings.lowest);
            found.heard += 1;
            found.remaining -= 1;
        }
        // It was heard before, or has no derivation.
        None => {}
    }
    Ok((found, drawn))
}

/// After a log that was broken off every answer is as it was, in its voice and in another. After one played in full the
/// sentence is heard in its voice, and the other is as it was. Either way the first record says what was logged.
#[test]
fn logs_on_generated_cases() {
    println!("seed {SEED}");
    let (mut logs, mut altered, mut refused, mut i) = (0, 0, 0, 0);
    while logs < 5_000 {
        let mut rng = Rng::of_case(SEED, i);
        i += 1;
        let Case { grammar, mut history, length, voice, .. } = generate::case(&mut rng, Call::Remaining);
        let Ok(read) = reference::read_grammar(&grammar) else { continue };
        let Ok(k) = pumpfennel::check_history(&history) else { continue };
        if !(2..=16).contains(&length) || voice > 15 || short_lists(&read) < length as usize || k > 998 {
            continue;
        }
        let full = Full::new(&read, length as usize).expect("short lists");
        if full.total() == 0 {
            continue;
        }
        let sentence = match rng.below(8) {
            0 => rng.bytes(length as usize),
            _ => full.sentence(rng.below_u64(full.total())),
        };
        let readings = full.readings(&sentence);
        let other = (voice + 1 + rng.below_u64(15)) % 16;
        history.truncate(4 + 20 * k as usize);
        history.extend(rng.bytes(40));
        let all = |history: &[u8]| [voice, other].map(|voice| lists(&grammar, history, length, None, voice));
        let before = all(&history);
        let shown = format!("case {i}: {} {}", case::hex(&grammar), case::hex(&history));

        // Broken off and then in full, or the other way round.
        let played = 1 + rng.below_u64(length - 1);
        let order = if rng.once_in(2) { [played, 0] } else { [0, played] };
        let mut expected = before.clone();
        for (r, played) in (k..).zip(order) {
            assert_eq!(pumpfennel::append(&mut history, &sentence, voice, played), Ok(r + 1), "{shown}");
            let logged = Record { voice: voice as u8, played: played as u8, words: &sentence };
            assert_eq!(records(&history)[0], logged, "{shown}");
            if played == 0 {
                expected[0] = heard_then(expected[0].clone(), &sentence, readings);
            }
            assert_eq!(all(&history), expected, "{shown}");
        }
        altered += u64::from(before[0] != expected[0]);
        refused += u64::from(before[0].is_ok() && expected[0] == Err(Refusal::HeardAmbiguous));
        logs += 1;
    }
    println!("{logs} times two logs: {altered} times the one in full altered an answer, {refused} times to 15");
    assert!(altered > 2_000 && refused > 500);
}

// ---- What one more log does

/// Draws and logs in turn, as long as something is left and there is room: after the log of draw q, a sentence with one
/// derivation, one fewer is left, the draws below q give what they gave, and each from q on gives what the next one
/// gave. With draw 0 each time the sentences come in the order of the list. With a pattern and without one.
#[test]
fn rounds_on_generated_cases() {
    println!("seed {SEED}");
    let (mut rounds, mut to_the_end, mut no_room, mut several, mut i) = ([0; 4], 0, 0, 0, 0);
    while rounds.iter().sum::<u64>() < 10_000 {
        let mut rng = Rng::of_case(SEED + 14, i);
        i += 1;
        let matching = rng.once_in(2);
        let call = if matching { Call::RemainingMatching } else { Call::Remaining };
        let Case { grammar, mut history, pattern, length, voice, .. } = generate::case(&mut rng, call);
        let pattern = matching.then_some(&pattern[..]);
        let length = pattern.map_or(length, |pattern| pattern.len() as u64);
        let Ok(read) = reference::read_grammar(&grammar) else { continue };
        let Ok(k) = pumpfennel::check_history(&history) else { continue };
        if !(1..=16).contains(&length) || short_lists(&read) < length as usize {
            continue;
        }
        let full = Full::new(&read, length as usize).expect("short lists");
        history.truncate(4 + 20 * k as usize);
        let room = 20 * rng.below(12);
        history.extend(rng.bytes(room));
        let shown = format!("case {i}: {} {} {pattern:?}", case::hex(&grammar), case::hex(&history));
        let Ok((mut found, mut drawn)) = lists(&grammar, &history, length, pattern, voice) else { continue };
        let any = rng.once_in(2);
        let planned = drawn.clone();
        for r in 0.. {
            if drawn.is_empty() {
                to_the_end += u64::from(r > 0);
                break;
            }
            let q = if any { rng.below(drawn.len()) } else { 0 };
            if full.readings(&drawn[q].1).count > 1 {
                several += 1;
                break;
            }
            match pumpfennel::append(&mut history, &drawn[q].1, voice, 0) {
                Ok(records) => assert_eq!(records, k + r + 1, "{shown}"),
                Err(refusal) => {
                    assert_eq!(refusal, Refusal::HistoryFull, "{shown}");
                    no_room += 1;
                    break;
                }
            }
            let logged = drawn.remove(q);
            assert!(any || logged == planned[r as usize], "{shown}");
            found.heard += 1;
            found.remaining -= 1;
            assert_eq!(lists(&grammar, &history, length, pattern, voice), Ok((found, drawn.clone())), "{shown}");
            rounds[usize::from(matching) * 2 + usize::from(any)] += 1;
        }
    }
    println!("{rounds:?} rounds by draw 0 and any draw, and the same with a pattern; {to_the_end} lists to their end,");
    println!("{no_room} until there was no room, {several} until a sentence with several derivations");
    assert!(rounds.iter().chain([&to_the_end, &no_room, &several]).all(|&many| many > 1_000));
}

// ---- The draws as one list

/// Whether the list has a sentence that is heard in other voices only; and in the voice asked for: one that was broken
/// off and not heard; broken off right before a record in full, and right after; broken off, with several derivations.
fn kinds(full: &[Vec<u8>], records: &[Record], voice: u64) -> [bool; 5] {
    let mut kinds = [false; 5];
    for words in full {
        let same = records.iter().filter(|record| record.words == words);
        let (here, elsewhere): (Vec<&Record>, Vec<&Record>) = same.partition(|record| u64::from(record.voice) == voice);
        let in_full: Vec<bool> = here.iter().map(|record| record.played == 0).collect();
        let heard = in_full.contains(&true);
        kinds[0] |= !heard && elsewhere.iter().any(|record| record.played == 0);
        kinds[1] |= !heard && !here.is_empty();
        kinds[2] |= in_full.windows(2).any(|pair| pair == [false, true]);
        kinds[3] |= in_full.windows(2).any(|pair| pair == [true, false]);
        kinds[4] |= in_full.contains(&false) && full.iter().filter(|entry| *entry == words).count() > 1;
    }
    kinds
}

/// Every draw from 0 to left - 1 gives the unheard list, which is made without any count; every later one is refused.
/// Another history that bars the same sentences alters nothing. Heard and barred are meant in the voice asked for, and
/// played in full.
#[test]
fn draws_as_one_list() {
    println!("seed {SEED}");
    let (mut lists, mut draws, mut seen, mut i) = (0, 0, [0; 5], 0);
    while lists < 5_000 {
        let mut rng = Rng::of_case(SEED, i);
        i += 1;
        let case = generate::case(&mut rng, Call::Remaining);
        let Case { length, voice, .. } = case;
        let Ok(found) = pumpfennel::remaining(&case.grammar, &case.history, length, voice) else { continue };
        let shown = case.text(None);
        let length = length as usize;
        let grammar = reference::read_grammar(&case.grammar).expect("an accepted grammar");
        if found.total == 0 || short_lists(&grammar) < length {
            continue;
        }
        let records = records(&case.history);
        let full = reference::listed(&grammar, length);
        let heard = |words: &[u8]| records.contains(&Record { voice: voice as u8, played: 0, words });
        let unheard: Vec<(u64, Vec<u8>)> = (0..).zip(full.iter().cloned()).filter(|(_, words)| !heard(words)).collect();
        assert_eq!((found.total, found.remaining), (full.len() as u64, unheard.len() as u64), "{shown}");
        seen.iter_mut().zip(kinds(&full, &records, voice)).for_each(|(many, kind)| *many += u64::from(kind));

        // The same sentences in another order, some twice, and some that bar nothing; any sentences in other voices, or
        // broken off.
        let in_full = records.iter().filter(|record| u64::from(record.voice) == voice && record.played == 0);
        let mut others: Vec<Spoken> =
            in_full.map(|record| Spoken::in_full(record.voice, record.words.to_vec())).collect();
        others.extend_from_within(..others.len().min(3));
        others.push(Spoken::in_full(voice as u8, vec![255; length]));
        for _ in 0..rng.below(20) {
            let words = full[rng.below(full.len())].clone();
            let elsewhere = Spoken::in_full((voice as u8 + 1 + rng.below(15) as u8) % 16, words.clone());
            let broken = |played: usize| Spoken { voice: voice as u8, played: played as u8, words };
            others.push(if length > 1 && rng.once_in(2) { broken(1 + rng.below(length - 1)) } else { elsewhere });
        }
        others.truncate(1000);
        rng.shuffle(&mut others);
        let mut numbers: Vec<usize> = (1..=others.len()).collect();
        rng.shuffle(&mut numbers);
        let other = generate::history(&others, &numbers, &[9; 7]);

        for history in [&case.history, &other] {
            assert_eq!(pumpfennel::remaining(&case.grammar, history, case.length, voice), Ok(found), "{shown}");
            let mut drawn = vec![];
            for q in 0..found.remaining {
                let mut buffer = vec![rng.byte(); length];
                let answer = pumpfennel::draw(&case.grammar, history, case.length, voice, DrawNumber(q), &mut buffer);
                let answer = answer.unwrap_or_else(|refusal| panic!("draw {q}: {refusal}\n{shown}"));
                assert_eq!(answer.remaining, found.remaining, "{shown}");
                drawn.push((answer.number.0, buffer));
            }
            assert_eq!(drawn, unheard, "{shown}");
            for q in [found.remaining, found.remaining + 1, found.total.max(found.remaining), 1 << 32, u64::MAX] {
                let answer = pumpfennel::draw(&case.grammar, history, case.length, voice, DrawNumber(q), &mut [0; 16]);
                assert_eq!(answer, Err(Refusal::NumberBeyond), "draw {q}\n{shown}");
            }
            draws += drawn.len();
        }
        lists += 1;
    }
    println!("{lists} lists, {draws} draws; how many lists with each kind of sentence: {seen:?}");
    assert!(seen.iter().all(|&many| many > 100), "{seen:?}");
}

/// The same with a pattern: the draws are the unheard list's fitting entries, each with its number among all. Another
/// history that bars the same of the fitting sentences alters nothing, whatever others with one derivation it bars.
#[test]
fn matching_draws_as_one_list() {
    println!("seed {SEED}");
    let (mut lists, mut draws, mut seen, mut i) = (0, 0, BTreeMap::<(Blanks, bool), u64>::new(), 0);
    while lists < 3_000 {
        let mut rng = Rng::of_case(SEED + 52, i);
        i += 1;
        let case = generate::case(&mut rng, Call::RemainingMatching);
        let Case { grammar, history, pattern, voice, .. } = &case;
        let Ok(found) = pumpfennel::remaining_matching(grammar, history, pattern, *voice) else { continue };
        let shown = case.text(None);
        let length = pattern.len();
        let read = reference::read_grammar(grammar).expect("an accepted grammar");
        if found.total == 0 || short_lists(&read) < length {
            continue;
        }
        let records = records(history);
        let full = reference::listed(&read, length);
        let heard = |words: &[u8]| records.contains(&Record { voice: *voice as u8, played: 0, words });
        let fitting = (0..).zip(full.iter().cloned()).filter(|(_, words)| reference::fits(words, pattern));
        let fitting: Vec<(u64, Vec<u8>)> = fitting.collect();
        let unheard: Vec<(u64, Vec<u8>)> = fitting.iter().filter(|(_, words)| !heard(words)).cloned().collect();
        assert_eq!((found.total, found.remaining), (fitting.len() as u64, unheard.len() as u64), "{shown}");
        *seen.entry((blanks(pattern), found.heard > 0)).or_default() += 1;

        // The heard ones that fit, in another order and some twice; of the others that have one derivation any.
        let struck = fitting.iter().filter(|(_, words)| heard(words));
        let mut others: Vec<Vec<u8>> = struck.map(|(_, words)| words.clone()).collect();
        others.extend_from_within(..others.len().min(3));
        for _ in 0..rng.below(8) {
            let words = full[rng.below(full.len())].clone();
            let single = full.iter().filter(|entry| **entry == words).count() == 1;
            if single && !reference::fits(&words, pattern) {
                others.push(words);
            }
        }
        others.push(vec![BLANK; length]);
        rng.shuffle(&mut others);
        let mut numbers: Vec<usize> = (1..=others.len()).collect();
        rng.shuffle(&mut numbers);
        let others: Vec<Spoken> = others.into_iter().map(|words| Spoken::in_full(*voice as u8, words)).collect();
        let other = generate::history(&others, &numbers, &[9; 7]);

        for history in [history, &other] {
            assert_eq!(pumpfennel::remaining_matching(grammar, history, pattern, *voice), Ok(found), "{shown}");
            let mut drawn = vec![];
            for q in 0..found.remaining {
                let mut buffer = vec![rng.byte(); length];
                let answer = pumpfennel::draw_matching(grammar, history, pattern, *voice, DrawNumber(q), &mut buffer);
                let answer = answer.unwrap_or_else(|refusal| panic!("draw {q}: {refusal}\n{shown}"));
                assert_eq!(answer.remaining, found.remaining, "{shown}");
                drawn.push((answer.number.0, buffer));
            }
            assert_eq!(drawn, unheard, "{shown}");
            for q in [found.remaining, found.remaining + 1, full.len() as u64, 1 << 32, u64::MAX] {
                let (q, mut words) = (DrawNumber(q), [0; 16]);
                let answer = pumpfennel::draw_matching(grammar, history, pattern, *voice, q, &mut words);
                assert_eq!(answer, Err(Refusal::NumberBeyond), "{q:?}\n{shown}");
            }
            draws += drawn.len();
        }
        lists += 1;
    }
    println!("{lists} lists, {draws} draws; by blanks, and whether a sentence that fits is heard: {seen:?}");
    assert!(seen.len() == 6 && seen.values().all(|&many| many > 100), "{seen:?}");
}

/// The same with weights: the tickets from 0 to their total - 1 are those of the unheard list's entries, each as often
/// as it weighs. Another history that bars the same sentences alters nothing.
#[test]
fn weighted_draws_as_one_list() {
    println!("seed {SEED}");
    let (mut lists, mut tickets, mut seen, mut i) = (0, 0, BTreeMap::<(bool, bool, bool), u64>::new(), 0);
    while lists < 3_000 {
        let mut rng = Rng::of_case(SEED + 73, i);
        i += 1;
        let case = generate::case(&mut rng, Call::DrawWeighted);
        let Case { grammar, history, length, voice, weights, .. } = &case;
        let draw = |history: &[u8], ticket: u64, buffer: &mut [u8]| {
            pumpfennel::draw_weighted(grammar, history, *length, *voice, weights, Ticket(ticket), buffer)
        };
        let Ok(first) = draw(history, 0, &mut [0; 16]) else { continue };
        let shown = case.text(None);
        let read = reference::read_grammar(grammar).expect("an accepted grammar");
        if first.tickets > 3_000 || short_lists(&read) < *length as usize {
            continue;
        }
        let records = records(history);
        let full = reference::listed(&read, *length as usize);
        let heard = |words: &[u8]| records.contains(&Record { voice: *voice as u8, played: 0, words });
        let unheard: Vec<(u64, Vec<u8>)> = (0..).zip(full.iter().cloned()).filter(|(_, words)| !heard(words)).collect();
        let owners = handed_out(&unheard, weights);
        assert_eq!(first.tickets, owners.len() as u64, "{shown}");
        let mixed = weights.iter().any(|&weight| weight != weights[0]);
        let several = unheard.iter().map(|(_, words)| words).collect::<BTreeSet<_>>().len() < unheard.len();
        *seen.entry((mixed, unheard.len() < full.len(), several)).or_default() += 1;

        // The heard ones that are derived, in another order and some twice; strangers, other voices, broken off.
        let mut others: Vec<Spoken> = vec![Spoken::in_full(*voice as u8, vec![255; *length as usize])];
        for words in full.iter().filter(|words| heard(words)) {
            others.extend(std::iter::repeat_n(Spoken::in_full(*voice as u8, words.clone()), 1 + rng.below(2)));
        }
        for _ in 0..rng.below(8) {
            let words = full[rng.below(full.len())].clone();
            let elsewhere = Spoken::in_full((*voice as u8 + 1 + rng.below(15) as u8) % 16, words.clone());
            let broken = |played: u64| Spoken { voice: *voice as u8, played: played as u8, words };
            others.push(if *length > 1 && rng.once_in(2) { broken(1 + rng.below_u64(length - 1)) } else { elsewhere });
        }
        others.truncate(1000);
        rng.shuffle(&mut others);
        let mut numbers: Vec<usize> = (1..=others.len()).collect();
        rng.shuffle(&mut numbers);
        let other = generate::history(&others, &numbers, &[9; 7]);

        for history in [history, &other] {
            let mut given = vec![];
            for ticket in 0..first.tickets {
                let mut buffer = vec![rng.byte(); *length as usize];
                let answer = draw(history, ticket, &mut buffer);
                let answer = answer.unwrap_or_else(|refusal| panic!("ticket {ticket}: {refusal}\n{shown}"));
                assert_eq!(answer.tickets, first.tickets, "{shown}");
                given.push((answer.number.0, buffer));
            }
            assert_eq!(given, owners, "{shown}");
            for ticket in [first.tickets, first.tickets + 1, first.tickets + 255, 1 << 32, u64::MAX] {
                assert_eq!(draw(history, ticket, &mut [0; 16]), Err(Refusal::NumberBeyond), "ticket {ticket}\n{shown}");
            }
            tickets += given.len();
        }
        lists += 1;
    }
    println!("{lists} lists, {tickets} tickets");
    println!("by whether weights differ, whether a sentence is heard, and whether one has two derivations: {seen:?}");
    assert!(seen.len() == 8 && seen.values().all(|&many| many > 15), "{seen:?}");
}

/// A thousand sentences of the house matrix grammar, each drawn from what is left in a voice and then logged: all in
/// one voice, and in sixteen in turn.
#[test]
fn a_thousand_draws_and_logs() {
    println!("seed {SEED}");
    let grammar = generate::groups(&[10; 5]).bytes();
    assert_eq!(grammar.len(), 229);
    for voices in [1, 16] {
        let mut rng = Rng::new(SEED);
        let mut history = vec![0; 4 + 20 * 1001];
        let mut heard = BTreeSet::new();
        for k in 0..1000 {
            let voice = k % voices;
            let left = pumpfennel::remaining(&grammar, &history, 5, voice).expect("accepted").remaining;
            assert_eq!(left, 100_000 - k / voices);
            let mut sentence = [0; 5];
            let q = DrawNumber(rng.below_u64(left));
            let drawn = pumpfennel::draw(&grammar, &history, 5, voice, q, &mut sentence);
            let drawn = drawn.expect("a draw below what is left");
            assert_eq!(pumpfennel::rank(&grammar, &sentence).map(|ranked| ranked.number), Ok(drawn.number));
            assert!(heard.insert((voice, sentence)), "{sentence:?} came twice in voice {voice}");
            assert_eq!(pumpfennel::append(&mut history, &sentence, voice, 0), Ok(k + 1));
        }
        assert_eq!(pumpfennel::append(&mut history, &[1], 0, 0), Err(Refusal::HistoryFull));
        assert_eq!(history[4 + 20 * 1000..], [0; 20]);
    }
}

// ---- The binding itself

/// Slices with no byte at all, as Rust has them.
#[test]
fn empty_slices() {
    let grammar = generate::f_words(2).bytes();
    assert_eq!(pumpfennel::check_grammar(&[]), Err(Refusal::GrammarTooShort));
    assert_eq!(pumpfennel::check_history(&[]), Err(Refusal::HistoryWrongSize));
    assert_eq!(pumpfennel::count(&[], 2), Err(Refusal::GrammarTooShort));
    assert_eq!(pumpfennel::unrank(&grammar, 2, DerivationNumber(0), &mut []), Err(Refusal::BufferTooShort));
    assert_eq!(pumpfennel::rank(&grammar, &[]), Err(Refusal::BadLength));
    assert_eq!(pumpfennel::remaining(&grammar, &[], 2, 0), Err(Refusal::HistoryWrongSize));
    assert_eq!(pumpfennel::draw(&grammar, &[0; 4], 2, 0, DrawNumber(0), &mut []), Err(Refusal::BufferTooShort));
    assert_eq!(pumpfennel::remaining_matching(&grammar, &[0; 4], &[], 0), Err(Refusal::BadLength));
    assert_eq!(pumpfennel::remaining_matching(&grammar, &[], &[0, 1], 0), Err(Refusal::HistoryWrongSize));
    let drawn = pumpfennel::draw_matching(&grammar, &[0; 4], &[0, 1], 0, DrawNumber(0), &mut []);
    assert_eq!(drawn, Err(Refusal::BufferTooShort));
    assert_eq!(pumpfennel::draw_weighted(&grammar, &[0; 4], 2, 0, &[], Ticket(0), &mut []), Err(Refusal::BadWeights));
    let drawn = pumpfennel::draw_weighted(&grammar, &[0; 4], 2, 0, &[1, 1], Ticket(0), &mut []);
    assert_eq!(drawn, Err(Refusal::BufferTooShort));
    assert_eq!(pumpfennel::append(&mut [], &[1], 0, 0), Err(Refusal::HistoryWrongSize));
    assert_eq!(pumpfennel::append(&mut [0; 24], &[], 0, 0), Err(Refusal::BadLength));
}

/// What a call gives in a thread with so many bytes of stack, and what a thread takes itself.
fn in_stack<T: Send + 'static>(size: usize, call: impl FnOnce() -> T + Send + 'static) -> T {
    let thread = std::thread::Builder::new().stack_size(size + (16 << 10)).spawn(call).expect("a thread");
    thread.join().expect("an answer")
}

/// The stack that the crate names is enough for the largest calls.
#[test]
fn stack() {
    let grammar = generate::f_words(15).bytes();
    let sentences: Vec<Spoken> = (0..1000).map(|i| Spoken::in_full(0, vec![(i % 15) as u8; 16])).collect();
    let history = in_order(&sentences);
    let (same_grammar, same_history) = (grammar.clone(), history.clone());
    let (third_grammar, third_history) = (grammar.clone(), history.clone());
    let plain = move || pumpfennel::draw(&grammar, &history, 16, 0, DrawNumber(5), &mut [0; 16]);
    let matching =
        move || pumpfennel::draw_matching(&same_grammar, &same_history, &[BLANK; 16], 0, DrawNumber(5), &mut [0; 16]);
    let weighted =
        move || pumpfennel::draw_weighted(&third_grammar, &third_history, 16, 0, &[1; 15], Ticket(5), &mut [0; 16]);
    let drawn = in_stack(pumpfennel::LARGE_STACK, plain);
    assert!(drawn.is_ok());
    assert_eq!(in_stack(pumpfennel::MATCHING_STACK, matching), drawn);
    let by_ticket = in_stack(pumpfennel::MATCHING_STACK, weighted);
    assert_eq!(by_ticket.map(|by| (by.tickets, by.number)), drawn.map(|drawn| (drawn.remaining, drawn.number)));
}

/// A number that the header defines.
fn of_header(name: &str) -> u64 {
    let line = format!("#define PUMPFENNEL_{name} ");
    let header = include_str!("../../../include/pumpfennel.h");
    header.lines().find_map(|text| text.strip_prefix(&line)).expect(name).parse().expect(name)
}

#[test]
fn limits_are_the_headers() {
    let limits = [
        ("LONGEST_SENTENCE", pumpfennel::LONGEST_SENTENCE),
        ("BLANK", usize::from(BLANK)),
        ("LARGEST_GRAMMAR", pumpfennel::LARGEST_GRAMMAR),
        ("MOST_RECORDS", pumpfennel::MOST_RECORDS),
        ("LARGEST_HISTORY", pumpfennel::LARGEST_HISTORY),
        ("MATCHING_STACK", pumpfennel::MATCHING_STACK),
        ("LARGE_STACK", pumpfennel::LARGE_STACK),
        ("SMALL_STACK", pumpfennel::SMALL_STACK),
    ];
    for (name, limit) in limits {
        assert_eq!(limit as u64, of_header(name), "{name}");
    }
}

/// The crate, the archive and the header have one.
#[test]
fn one_version() {
    let parts: Vec<u64> = env!("CARGO_PKG_VERSION").split('.').map(|part| part.parse().expect("a number")).collect();
    assert_eq!(pumpfennel::version(), 10_000 * parts[0] + 100 * parts[1] + parts[2]);
    assert_eq!(pumpfennel::version(), of_header("VERSION_NUMBER"));
}
