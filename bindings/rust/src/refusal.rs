use std::error::Error;
use std::fmt;

// refusals: from refusals.txt, by tools/generate
/// Why a call says no. The numbers are the documents'; the first that applies is returned.
#[derive(Clone, Copy, Debug, PartialEq, Eq, PartialOrd, Ord, Hash)]
#[non_exhaustive]
#[repr(u8)]
pub enum Refusal {
    /// The grammar has fewer than 4 bytes.
    GrammarTooShort = 1,
    /// N, W, R or S is outside its range.
    GrammarOutOfRange = 2,
    /// The grammar's size is not 4 + N + 4R.
    GrammarWrongSize = 3,
    /// Some rule has a kind, a or b that its layout forbids.
    GrammarBadRule = 4,
    /// Some head or next in the grammar is above R.
    GrammarBadLink = 5,
    /// A rule is met a second time, walking the chains from nonterminal 0 up.
    GrammarRuleMetTwice = 6,
    /// A rule is on no chain.
    GrammarRuleOnNoChain = 7,
    /// One chain holds two rules with the same kind, a and b.
    GrammarEqualRules = 8,
    /// The length, or the sentence's length, is not 1 to 16.
    BadLength = 9,
    /// A count that the length needs is above 2^64 - 1.
    TooManyDerivations = 10,
    /// The history has fewer than 4 bytes, K is above 1,000, or it has fewer than 4 + 20K bytes.
    HistoryWrongSize = 11,
    /// Some record has a wrong length, a count of words played that is its length or more, or a non-zero byte beyond its words.
    HistoryBadRecord = 12,
    /// The history's head or some next is above K.
    HistoryBadLink = 13,
    /// The history's chain meets a record twice or misses one.
    HistoryBadChain = 14,
    /// A sentence of the length, heard in the voice, has two or more derivations.
    HeardAmbiguous = 15,
    /// The number is not below how many there are to choose from.
    NumberBeyond = 16,
    /// The sentence has no derivation.
    SentenceUnderivable = 17,
    /// No longer returned: the sentence has two or more derivations.
    SentenceAmbiguous = 18,
    /// The history has 1,000 records or no room for one more.
    HistoryFull = 19,
    /// The sentence's buffer is shorter than the length.
    BufferTooShort = 20,
    /// A byte of the pattern is neither 255 nor a word of the grammar.
    BadPattern = 21,
    /// The voice is above 15.
    BadVoice = 22,
    /// The count of words played is the sentence's length or more.
    BadPlayed = 23,
    /// The weights are not W bytes, or one of them is 0.
    BadWeights = 24,
    /// A total weight that the length needs is above 2^64 - 1.
    TooManyTickets = 25,
}

impl Refusal {
    /// Every refusal, by rising number.
    pub const ALL: [Refusal; 25] = [
        Refusal::GrammarTooShort,
        Refusal::GrammarOutOfRange,
        Refusal::GrammarWrongSize,
        Refusal::GrammarBadRule,
        Refusal::GrammarBadLink,
        Refusal::GrammarRuleMetTwice,
        Refusal::GrammarRuleOnNoChain,
        Refusal::GrammarEqualRules,
        Refusal::BadLength,
        Refusal::TooManyDerivations,
        Refusal::HistoryWrongSize,
        Refusal::HistoryBadRecord,
        Refusal::HistoryBadLink,
        Refusal::HistoryBadChain,
        Refusal::HeardAmbiguous,
        Refusal::NumberBeyond,
        Refusal::SentenceUnderivable,
        Refusal::SentenceAmbiguous,
        Refusal::HistoryFull,
        Refusal::BufferTooShort,
        Refusal::BadPattern,
        Refusal::BadVoice,
        Refusal::BadPlayed,
        Refusal::BadWeights,
        Refusal::TooManyTickets,
    ];

    /// What the refusal says in words: a sentence without its first capital and its full stop.
    pub const fn text(self) -> &'static str {
        match self {
            Refusal::GrammarTooShort => "the grammar has fewer than 4 bytes",
            Refusal::GrammarOutOfRange => "N, W, R or S is outside its range",
            Refusal::GrammarWrongSize => "the grammar's size is not 4 + N + 4R",
            Refusal::GrammarBadRule => "some rule has a kind, a or b that its layout forbids",
            Refusal::GrammarBadLink => "some head or next in the grammar is above R",
            Refusal::GrammarRuleMetTwice => "a rule is met a second time, walking the chains from nonterminal 0 up",
            Refusal::GrammarRuleOnNoChain => "a rule is on no chain",
            Refusal::GrammarEqualRules => "one chain holds two rules with the same kind, a and b",
            Refusal::BadLength => "the length, or the sentence's length, is not 1 to 16",
            Refusal::TooManyDerivations => "a count that the length needs is above 2^64 - 1",
            Refusal::HistoryWrongSize => {
                "the history has fewer than 4 bytes, K is above 1,000, or it has fewer than 4 + 20K bytes"
            }
            Refusal::HistoryBadRecord => {
                "some record has a wrong length, a count of words played that is its length or more, or a non-zero byte beyond its words"
            }
            Refusal::HistoryBadLink => "the history's head or some next is above K",
            Refusal::HistoryBadChain => "the history's chain meets a record twice or misses one",
            Refusal::HeardAmbiguous => "a sentence of the length, heard in the voice, has two or more derivations",
            Refusal::NumberBeyond => "the number is not below how many there are to choose from",
            Refusal::SentenceUnderivable => "the sentence has no derivation",
            Refusal::SentenceAmbiguous => "the sentence has two or more derivations",
            Refusal::HistoryFull => "the history has 1,000 records or no room for one more",
            Refusal::BufferTooShort => "the sentence's buffer is shorter than the length",
            Refusal::BadPattern => "a byte of the pattern is neither 255 nor a word of the grammar",
            Refusal::BadVoice => "the voice is above 15",
            Refusal::BadPlayed => "the count of words played is the sentence's length or more",
            Refusal::BadWeights => "the weights are not W bytes, or one of them is 0",
            Refusal::TooManyTickets => "a total weight that the length needs is above 2^64 - 1",
        }
    }
}
// end of refusals

impl Refusal {
    /// Its number in document 01's list, or in document 02.
    ///
    /// ```
    /// # use pumpfennel::Refusal;
    /// assert_eq!(Refusal::NumberBeyond.number(), 16);
    /// ```
    pub const fn number(self) -> u8 {
        self as u8
    }

    /// The refusal with that number, if there is one.
    ///
    /// ```
    /// # use pumpfennel::Refusal;
    /// assert_eq!(Refusal::from_number(16), Some(Refusal::NumberBeyond));
    /// assert_eq!(Refusal::from_number(0), None);
    /// ```
    pub fn from_number(number: u8) -> Option<Refusal> {
        Refusal::ALL.into_iter().find(|refusal| refusal.number() == number)
    }
}

impl fmt::Display for Refusal {
    fn fmt(&self, f: &mut fmt::Formatter<'_>) -> fmt::Result {
        f.write_str(self.text())
    }
}

impl Error for Refusal {}
