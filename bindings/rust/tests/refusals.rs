//! Each refusal by its name: a call that is refused for just that, and words that its text has and no other. Calls and
//! words are written by hand and come from no list, so that two exchanged names or meanings are noticed.
use pumpfennel::{
    DerivationNumber, Refusal, Ticket, append, check_grammar, check_history, count, draw_weighted, rank, remaining,
    remaining_matching, unrank,
};

/// S is word 0, and nothing else.
const ONE: &[u8] = &[1, 1, 1, 0, /* head */ 1, /* rule 1 */ 0, 0, 0, 0];

/// S is two S, or word 0: three words have two derivations.
const TREES: &[u8] = &[1, 1, 2, 0, /* head */ 1, /* rules */ 1, 0, 0, 2, 0, 0, 0, 0];

/// S is two S, or one of six words: 16 words have 9,694,845 * 6^16 derivations, which is above 2^64.
#[rustfmt::skip]
const MANY: &[u8] = &[
    1, 6, 7, 0, /* head */ 1, /* rules */ 1, 0, 0, 2,
    0, 0, 0, 3, 0, 1, 0, 4, 0, 2, 0, 5, 0, 3, 0, 6, 0, 4, 0, 7, 0, 5, 0, 0,
];

/// A history of one record: the head, and the record's next and length; its words are 0.
fn record(head: u8, next: u8, length: u8) -> Vec<u8> {
    [&[1, 0, head, 0, next, 0, length, 0][..], &[0; 16]].concat()
}

fn of<T>(answer: Result<T, Refusal>) -> Option<Refusal> {
    answer.err()
}

/// The name, what a call gave, and words of the text.
fn rows() -> Vec<(Refusal, Option<Refusal>, &'static str)> {
    vec![
        // three bytes
        (Refusal::GrammarTooShort, of(check_grammar(&[1, 1, 1])), "grammar has fewer"),
        // no words
        (Refusal::GrammarOutOfRange, of(check_grammar(&[1, 0, 1, 0, 1, 0, 0, 0, 0])), "range"),
        // the last byte is missing
        (Refusal::GrammarWrongSize, of(check_grammar(&[1, 1, 1, 0, 1, 0, 0, 0])), "grammar's size"),
        // a rule of kind 2
        (Refusal::GrammarBadRule, of(check_grammar(&[1, 1, 1, 0, 1, 2, 0, 0, 0])), "forbids"),
        // the head is rule 2 of 1
        (Refusal::GrammarBadLink, of(check_grammar(&[1, 1, 1, 0, 2, 0, 0, 0, 0])), "next in the grammar"),
        // rule 1 comes after rule 1
        (Refusal::GrammarRuleMetTwice, of(check_grammar(&[1, 1, 1, 0, 1, 0, 0, 0, 1])), "second time"),
        // the chain is empty, and there is a rule
        (Refusal::GrammarRuleOnNoChain, of(check_grammar(&[1, 1, 1, 0, 0, 0, 0, 0, 0])), "on no chain"),
        // word 0, then word 0
        (Refusal::GrammarEqualRules, of(check_grammar(&[1, 1, 2, 0, 1, 0, 0, 0, 2, 0, 0, 0, 0])), "two rules"),
        (Refusal::BadLength, of(count(ONE, 17)), "1 to 16"),
        (Refusal::TooManyDerivations, of(count(MANY, 16)), "a count that"),
        // one record, and no bytes for it
        (Refusal::HistoryWrongSize, of(check_history(&[1, 0, 1, 0])), "4 + 20K"),
        // a sentence of no words
        (Refusal::HistoryBadRecord, of(check_history(&record(1, 0, 0))), "some record"),
        // the head is record 2 of 1
        (Refusal::HistoryBadLink, of(check_history(&record(2, 0, 1))), "history's head"),
        // record 1 comes after record 1
        (Refusal::HistoryBadChain, of(check_history(&record(1, 1, 1))), "history's chain"),
        (Refusal::HeardAmbiguous, of(remaining(TREES, &record(1, 0, 3), 3, 0)), "heard in the voice"),
        // there is derivation 0, and no derivation 1
        (Refusal::NumberBeyond, of(unrank(ONE, 1, DerivationNumber(1), &mut [0])), "to choose from"),
        (Refusal::SentenceUnderivable, of(rank(ONE, &[1])), "no derivation"),
        // no longer returned: the sentence is accepted
        (Refusal::SentenceAmbiguous, of(rank(TREES, &[0, 0, 0])), "the sentence has two"),
        // no record, and no room for one
        (Refusal::HistoryFull, of(append(&mut [0; 4], &[0], 0, 0)), "no room"),
        // one word, and room for none
        (Refusal::BufferTooShort, of(unrank(ONE, 1, DerivationNumber(0), &mut [])), "buffer"),
        // word 1 of 1
        (Refusal::BadPattern, of(remaining_matching(ONE, &[0; 4], &[1], 0)), "pattern"),
        (Refusal::BadVoice, of(append(&mut [0; 24], &[0], 16, 0)), "above 15"),
        // one word, and playback broken off after it
        (Refusal::BadPlayed, of(append(&mut [0; 24], &[0], 0, 1)), "words played is"),
        // two weights of one word
        (Refusal::BadWeights, of(draw_weighted(ONE, &[0; 4], 1, 0, &[1, 1], Ticket(0), &mut [0])), "weights are"),
        // sixteen words of weight 255
        (Refusal::TooManyTickets, of(draw_weighted(TREES, &[0; 4], 16, 0, &[255], Ticket(0), &mut [])), "total weight"),
    ]
}

#[test]
fn by_name() {
    for (name, given, words) in rows() {
        assert_eq!(given, Some(name).filter(|&name| name != Refusal::SentenceAmbiguous));
        let texts = Refusal::ALL.into_iter().filter(|refusal| refusal.to_string().contains(words));
        assert_eq!(texts.collect::<Vec<Refusal>>(), [name], "{words}");
    }
    let names: Vec<Refusal> = rows().into_iter().map(|(name, _, _)| name).collect();
    assert_eq!(names, Refusal::ALL);
}

#[test]
fn by_number() {
    let numbers: Vec<u8> = (1..=25).collect();
    assert_eq!(Refusal::ALL.map(Refusal::number)[..], numbers);
    for refusal in Refusal::ALL {
        assert_eq!(Refusal::from_number(refusal.number()), Some(refusal));
        let error: Box<dyn std::error::Error> = Box::new(refusal);
        assert_eq!(error.to_string(), refusal.text());
    }
    let named = (0..=255).filter(|&number| Refusal::from_number(number).is_some());
    assert_eq!(named.count(), Refusal::ALL.len());
}
