//! A verified sampler of test sentences for cochlear implant fitting.
//!
//! A *grammar* derives sentences of 1 to 16 words, a *history* holds the sentences that were played to one patient,
//! each with its talker's *voice* from 0 to 15 and with how many of its words were *played*, where 0 means all. A
//! sentence that was played in full is heard in its voice; one that was broken off may be drawn again. The calls count
//! the derivations of a length, give the sentence of a derivation number and the number of a sentence, and draw from
//! what is unheard in a voice. A draw can also be held to a *pattern*: some words are fixed, the others are blanks. And
//! it can have *weights*, so that common words come more often: a derivation owns as many *tickets* as the product of
//! its words' weights, and a ticket is drawn. Grammars, histories, patterns and weights are plain bytes, laid out as
//! the project's documents 01 and 02 say; they call the first two bank and diary.
//!
//! The work is done by a proved archive, written by `tools/build library` in the project's folder. This crate
//! links it and gives each of its functions a safe face; it checks nothing itself and allocates nothing. No call
//! requires anything of the bytes it is handed: what is wrong with them is a [`Refusal`]. After a refusal every
//! lent buffer is as it was. Nothing is kept between calls. Tables lie on the stack: [`MATCHING_STACK`],
//! [`LARGE_STACK`] and [`SMALL_STACK`] say how much of it a call takes.
//!
//! # The house matrix grammar
//!
//! Five groups of ten words, one word of each group: 100,000 sentences of five words and none of another length.
//!
//! ```
//! use pumpfennel::{DerivationNumber, DrawNumber};
//!
//! let mut grammar = vec![9, 50, 54, 0, 1, 2, 3, 4, 5, 15, 25, 35, 45];
//! grammar.extend([1, 4, 1, 0, 1, 5, 2, 0, 1, 6, 3, 0, 1, 7, 8, 0]);
//! for word in 0..50 {
//!     grammar.extend([0, word, 0, if word % 10 == 9 { 0 } else { word + 6 }]);
//! }
//! assert_eq!(grammar.len(), 229);
//! assert_eq!(pumpfennel::count(&grammar, 5)?, 100_000);
//! assert_eq!(pumpfennel::count(&grammar, 4)?, 0);
//!
//! // The sentence of a derivation number, and back.
//! let mut sentence = [0; 5];
//! pumpfennel::unrank(&grammar, 5, DerivationNumber(31415), &mut sentence)?;
//! assert_eq!(sentence, [3, 11, 24, 31, 45]);
//! assert_eq!(pumpfennel::rank(&grammar, &sentence)?.number, DerivationNumber(31415));
//!
//! // A history with room for 30 records. In voice 0, playback was broken off after two words: the sentence is unheard.
//! let mut history = [0; pumpfennel::history_size(30)];
//! pumpfennel::append(&mut history, &sentence, 0, 2)?;
//! assert_eq!(pumpfennel::remaining(&grammar, &history, 5, 0)?.remaining, 100_000);
//!
//! // Once it was played in full, it is heard in voice 0, and no draw in that voice gives it again.
//! pumpfennel::append(&mut history, &sentence, 0, 0)?;
//! assert_eq!(pumpfennel::remaining(&grammar, &history, 5, 0)?.remaining, 99_999);
//! let drawn = pumpfennel::draw(&grammar, &history, 5, 0, DrawNumber(31415), &mut sentence)?;
//! assert_eq!(drawn.number, DerivationNumber(31416));
//! assert_eq!(sentence, [3, 11, 24, 31, 46]);
//!
//! // In voice 1 it is unheard.
//! assert_eq!(pumpfennel::remaining(&grammar, &history, 5, 1)?.remaining, 100_000);
//! let drawn = pumpfennel::draw(&grammar, &history, 5, 1, DrawNumber(31415), &mut sentence)?;
//! assert_eq!(drawn.number, DerivationNumber(31415));
//!
//! // A carrier phrase: the first, third and fifth word are fixed, and ten words fit each blank. One sentence is heard.
//! use pumpfennel::BLANK;
//! let phrase = [3, BLANK, 24, BLANK, 45];
//! assert_eq!(pumpfennel::remaining_matching(&grammar, &history, &phrase, 0)?.remaining, 99);
//! let drawn = pumpfennel::draw_matching(&grammar, &history, &phrase, 0, DrawNumber(11), &mut sentence)?;
//! assert_eq!(sentence, [3, 11, 24, 32, 45]);
//! assert_eq!(drawn.number, DerivationNumber(31425)); // among all sentences of five words
//!
//! // The words 3 and 45 are common: they weigh 20 and 5, each other word 1. So the groups weigh 29, 10, 10, 10 and 14,
//! // and of the product the heard sentence's 20 * 5 tickets are taken off.
//! use pumpfennel::Ticket;
//! let mut weights = [1; 50];
//! (weights[3], weights[45]) = (20, 5);
//! let first = pumpfennel::draw_weighted(&grammar, &history, 5, 0, &weights, Ticket(0), &mut sentence)?;
//! assert_eq!(first.tickets, 29 * 10 * 10 * 10 * 14 - 20 * 5);
//!
//! // A ticket below that, taken at random, draws each sentence in proportion to its weight. The words 0, 1 and 2 come
//! // first, with 14,000 tickets each; then 3 10 20 30 40 to 44 own 20 each, and 3 10 20 30 45 the next hundred.
//! for ticket in [42_100, 42_101, 42_199] {
//!     let drawn = pumpfennel::draw_weighted(&grammar, &history, 5, 0, &weights, Ticket(ticket), &mut sentence)?;
//!     assert_eq!((drawn.number, sentence), (DerivationNumber(30005), [3, 10, 20, 30, 45]));
//! }
//! # Ok::<(), pumpfennel::Refusal>(())
//! ```
#![deny(unsafe_op_in_unsafe_fn, missing_docs)]

#[allow(missing_docs)]
pub mod ffi;
mod refusal;

pub use refusal::Refusal;

/// The most words of a sentence.
pub const LONGEST_SENTENCE: usize = 16;

/// The byte of a pattern that any word fits. Any other byte is that word.
pub const BLANK: u8 = 255;

/// The most bytes of a grammar: 32 nonterminals and 255 rules.
pub const LARGEST_GRAMMAR: usize = 4 + 32 + 4 * 255;

/// The most records of a history.
pub const MOST_RECORDS: usize = 1000;

/// The most bytes of a history without slack.
pub const LARGEST_HISTORY: usize = history_size(MOST_RECORDS);

/// The most bytes of stack that [`remaining_matching`], [`draw_matching`] or [`draw_weighted`] takes.
pub const MATCHING_STACK: usize = 160 * 1024;

/// The most bytes of stack that [`rank`], [`remaining`] or [`draw`] takes.
pub const LARGE_STACK: usize = 100 * 1024;

/// The most bytes of stack that another call takes.
pub const SMALL_STACK: usize = 16 * 1024;

/// How many bytes a history of so many records takes.
pub const fn history_size(records: usize) -> usize {
    4 + 20 * records
}

/// The archive's version as one number: major * 10,000 + minor * 100 + patch. It is this crate's version, unless an
/// archive was linked that differs in the patch alone.
pub fn version() -> u64 {
    ffi::pumpfennel_version()
}

/// Asks the linker for an archive of this crate's interface: with another one, whose calls may take other parameters,
/// nothing links.
#[used]
static INTERFACE: extern "C" fn() -> u64 = ffi::pumpfennel_interface;

/// How many derivations stand before one, among those of the start and its length.
#[derive(Clone, Copy, Debug, PartialEq, Eq, PartialOrd, Ord, Hash)]
pub struct DerivationNumber(pub u64);

/// How many derivations with a sentence unheard in the voice stand before one; with a pattern, those that fit it. It
/// never serves as a [`DerivationNumber`].
#[derive(Clone, Copy, Debug, PartialEq, Eq, PartialOrd, Ord, Hash)]
pub struct DrawNumber(pub u64);

/// How many tickets stand before one, among those of the derivations with a sentence unheard in the voice. A derivation
/// owns as many as it weighs, the product of its words' weights; they stand together, in the order of the derivations.
/// It never serves as a [`DrawNumber`] or a [`DerivationNumber`].
#[derive(Clone, Copy, Debug, PartialEq, Eq, PartialOrd, Ord, Hash)]
pub struct Ticket(pub u64);

/// What [`check_grammar`] gives.
#[derive(Clone, Copy, Debug, PartialEq, Eq)]
pub struct GrammarCounts {
    /// N, 1 to 32.
    pub nonterminals: u64,
    /// W, 1 to 255.
    pub words: u64,
}

/// What [`rank`] gives.
#[derive(Clone, Copy, Debug, PartialEq, Eq)]
pub struct Ranked {
    /// The lowest derivation number among the sentence's derivations.
    pub number: DerivationNumber,
    /// How many derivations there are of the sentence's length.
    pub total: u64,
    /// How many of them have the sentence: 1 or more.
    pub derivations: u64,
}

/// What [`remaining`] gives; from [`remaining_matching`], of what fits the pattern alone.
#[derive(Clone, Copy, Debug, PartialEq, Eq)]
pub struct Remaining {
    /// How many derivations there are of that length.
    pub total: u64,
    /// How many different sentences of that length are heard in that voice and have a derivation.
    pub heard: u64,
    /// How many derivations have a sentence unheard in that voice: `total - heard`.
    pub remaining: u64,
}

/// What [`draw`] and [`draw_matching`] give.
#[derive(Clone, Copy, Debug, PartialEq, Eq)]
pub struct Drawn {
    /// How many derivations have a sentence unheard in that voice; with a pattern, and fitting it.
    pub remaining: u64,
    /// The derivation number of the sentence drawn, among all of that length.
    pub number: DerivationNumber,
}

/// What [`draw_weighted`] gives.
#[derive(Clone, Copy, Debug, PartialEq, Eq)]
pub struct DrawnByTicket {
    /// How many tickets there are: what all derivations with a sentence unheard in that voice weigh.
    pub tickets: u64,
    /// The derivation number of the sentence drawn.
    pub number: DerivationNumber,
}

fn accepted<T>(refusal: u8, figures: T) -> Result<T, Refusal> {
    if refusal == 0 {
        return Ok(figures);
    }
    Err(Refusal::from_number(refusal).expect("the archive refuses with a number of its list"))
}

/// Checks a grammar: how many nonterminals and words it has.
///
/// ```
/// use pumpfennel::{GrammarCounts, Refusal};
///
/// let grammar = [2, 2, 4, 0, 1, 3, 1, 1, 1, 2, 1, 0, 1, 0, 0, 0, 0, 4, 0, 1, 0, 0];
/// assert_eq!(pumpfennel::check_grammar(&grammar), Ok(GrammarCounts { nonterminals: 2, words: 2 }));
/// assert_eq!(pumpfennel::check_grammar(&grammar[..21]), Err(Refusal::GrammarWrongSize));
/// assert_eq!(pumpfennel::check_grammar(&[]), Err(Refusal::GrammarTooShort));
/// ```
///
/// # Errors
///
/// Refusals 1 to 8.
pub fn check_grammar(grammar: &[u8]) -> Result<GrammarCounts, Refusal> {
    let (mut nonterminals, mut words) = (0, 0);
    // SAFETY: a slice, and two figures of this function.
    let refusal =
        unsafe { ffi::pumpfennel_check_grammar(grammar.as_ptr(), grammar.len(), &mut nonterminals, &mut words) };
    accepted(refusal, GrammarCounts { nonterminals, words })
}

/// Checks a history: how many records it has.
///
/// ```
/// use pumpfennel::Refusal;
///
/// let mut history = [0; 24];
/// assert_eq!(pumpfennel::check_history(&history), Ok(0));
/// history[2] = 1; // a head and no record
/// assert_eq!(pumpfennel::check_history(&history), Err(Refusal::HistoryBadLink));
/// ```
///
/// # Errors
///
/// Refusals 11 to 14.
pub fn check_history(history: &[u8]) -> Result<u64, Refusal> {
    let mut records = 0;
    // SAFETY: a slice, and a figure of this function.
    let refusal = unsafe { ffi::pumpfennel_check_history(history.as_ptr(), history.len(), &mut records) };
    accepted(refusal, records)
}

/// Counts the derivations of that length.
///
/// ```
/// let grammar = [2, 2, 4, 0, 1, 3, 1, 1, 1, 2, 1, 0, 1, 0, 0, 0, 0, 4, 0, 1, 0, 0];
/// assert_eq!(pumpfennel::count(&grammar, 1), Ok(0));
/// assert_eq!(pumpfennel::count(&grammar, 2), Ok(4));
/// assert_eq!(pumpfennel::count(&grammar, 16), Ok(65_536));
/// ```
///
/// # Errors
///
/// Refusals 1 to 10. 10, here and below: the length needs the start's count at that length; and with a nonterminal's count at
/// a length, those of both nonterminals of each of its pair rules at every shorter length. What no sentence of that length
/// reaches may have any number of derivations.
pub fn count(grammar: &[u8], length: u64) -> Result<u64, Refusal> {
    let mut total = 0;
    // SAFETY: a slice, and a figure of this function.
    let refusal = unsafe { ffi::pumpfennel_count(grammar.as_ptr(), grammar.len(), length, &mut total) };
    accepted(refusal, total)
}

/// Writes the sentence of a derivation number into the first bytes of `sentence`, and counts as [`count`] does.
/// Bytes past the sentence keep their content.
///
/// ```
/// use pumpfennel::{DerivationNumber, Refusal};
///
/// let grammar = [2, 2, 4, 0, 1, 3, 1, 1, 1, 2, 1, 0, 1, 0, 0, 0, 0, 4, 0, 1, 0, 0];
/// let mut sentence = [7; 4];
/// assert_eq!(pumpfennel::unrank(&grammar, 3, DerivationNumber(5), &mut sentence), Ok(8));
/// assert_eq!(sentence, [1, 0, 1, 7]);
/// assert_eq!(pumpfennel::unrank(&grammar, 3, DerivationNumber(8), &mut sentence), Err(Refusal::NumberBeyond));
/// ```
///
/// # Errors
///
/// Refusals 1 to 10, 16 and 20.
pub fn unrank(grammar: &[u8], length: u64, number: DerivationNumber, sentence: &mut [u8]) -> Result<u64, Refusal> {
    let mut total = 0;
    // SAFETY: two slices, of which the one that is written is borrowed alone, and a figure of this function.
    let refusal = unsafe {
        ffi::pumpfennel_unrank(
            grammar.as_ptr(),
            grammar.len(),
            length,
            number.0,
            sentence.as_mut_ptr(),
            sentence.len(),
            &mut total,
        )
    };
    accepted(refusal, total)
}

/// Numbers a sentence and counts its derivations.
///
/// ```
/// use pumpfennel::{DerivationNumber, Ranked, Refusal};
///
/// let grammar = [2, 2, 4, 0, 1, 3, 1, 1, 1, 2, 1, 0, 1, 0, 0, 0, 0, 4, 0, 1, 0, 0];
/// let ranked = Ranked { number: DerivationNumber(5), total: 8, derivations: 1 };
/// assert_eq!(pumpfennel::rank(&grammar, &[1, 0, 1]), Ok(ranked));
/// assert_eq!(pumpfennel::rank(&grammar, &[1, 0, 2]), Err(Refusal::SentenceUnderivable));
///
/// // S is two S, or word 0: three words have two derivations.
/// let trees = [1, 1, 2, 0, 1, 1, 0, 0, 2, 0, 0, 0, 0];
/// let ranked = Ranked { number: DerivationNumber(0), total: 2, derivations: 2 };
/// assert_eq!(pumpfennel::rank(&trees, &[0, 0, 0]), Ok(ranked));
/// ```
///
/// # Errors
///
/// Refusals 1 to 10 and 17.
pub fn rank(grammar: &[u8], sentence: &[u8]) -> Result<Ranked, Refusal> {
    let (mut number, mut total, mut derivations) = (0, 0, 0);
    // SAFETY: two slices, and three figures of this function.
    let refusal = unsafe {
        ffi::pumpfennel_rank(
            grammar.as_ptr(),
            grammar.len(),
            sentence.as_ptr(),
            sentence.len(),
            &mut number,
            &mut total,
            &mut derivations,
        )
    };
    accepted(refusal, Ranked { number: DerivationNumber(number), total, derivations })
}

/// Counts what is unheard in a voice. A sentence is heard in a voice if the history has a record with its length, its
/// words and that voice, played in full.
///
/// ```
/// use pumpfennel::Remaining;
///
/// let grammar = [2, 2, 4, 0, 1, 3, 1, 1, 1, 2, 1, 0, 1, 0, 0, 0, 0, 4, 0, 1, 0, 0];
/// let mut history = [0; 44];
/// pumpfennel::append(&mut history, &[0, 1], 3, 0)?; // in full
/// pumpfennel::append(&mut history, &[1, 1], 3, 1)?; // one word
/// let remaining = Remaining { total: 4, heard: 1, remaining: 3 };
/// assert_eq!(pumpfennel::remaining(&grammar, &history, 2, 3)?, remaining);
/// // heard in voice 3, and in no other
/// let remaining = Remaining { total: 4, heard: 0, remaining: 4 };
/// assert_eq!(pumpfennel::remaining(&grammar, &history, 2, 0)?, remaining);
/// # Ok::<(), pumpfennel::Refusal>(())
/// ```
///
/// # Errors
///
/// Refusals 1 to 15 and 22. 22, here and below, comes right after 9.
pub fn remaining(grammar: &[u8], history: &[u8], length: u64, voice: u64) -> Result<Remaining, Refusal> {
    let (mut total, mut heard, mut remaining) = (0, 0, 0);
    // SAFETY: two slices, and three figures of this function.
    let refusal = unsafe {
        ffi::pumpfennel_remaining(
            grammar.as_ptr(),
            grammar.len(),
            history.as_ptr(),
            history.len(),
            length,
            voice,
            &mut total,
            &mut heard,
            &mut remaining,
        )
    };
    accepted(refusal, Remaining { total, heard, remaining })
}

/// Writes the sentence of a draw number into the first bytes of `sentence`: that of the derivation with a sentence
/// unheard in the voice that has exactly so many such derivations before it. Bytes past the sentence keep their
/// content.
///
/// ```
/// use pumpfennel::{DerivationNumber, DrawNumber, Drawn, Refusal};
///
/// let grammar = [2, 2, 4, 0, 1, 3, 1, 1, 1, 2, 1, 0, 1, 0, 0, 0, 0, 4, 0, 1, 0, 0];
/// let mut history = [0; 24];
/// pumpfennel::append(&mut history, &[0, 1], 0, 0)?;
/// let mut sentence = [0; 2];
/// let drawn = Drawn { remaining: 3, number: DerivationNumber(2) };
/// assert_eq!(pumpfennel::draw(&grammar, &history, 2, 0, DrawNumber(1), &mut sentence)?, drawn);
/// assert_eq!(sentence, [1, 0]);
/// let past = pumpfennel::draw(&grammar, &history, 2, 0, DrawNumber(3), &mut sentence);
/// assert_eq!(past, Err(Refusal::NumberBeyond));
/// # Ok::<(), Refusal>(())
/// ```
///
/// # Errors
///
/// Refusals 1 to 16, 20 and 22.
pub fn draw(
    grammar: &[u8],
    history: &[u8],
    length: u64,
    voice: u64,
    draw: DrawNumber,
    sentence: &mut [u8],
) -> Result<Drawn, Refusal> {
    let (mut remaining, mut number) = (0, 0);
    // SAFETY: three slices, of which the one that is written is borrowed alone, and two figures of this function.
    let refusal = unsafe {
        ffi::pumpfennel_draw(
            grammar.as_ptr(),
            grammar.len(),
            history.as_ptr(),
            history.len(),
            length,
            voice,
            draw.0,
            sentence.as_mut_ptr(),
            sentence.len(),
            &mut remaining,
            &mut number,
        )
    };
    accepted(refusal, Drawn { remaining, number: DerivationNumber(number) })
}

/// Counts what is unheard in a voice and fits a pattern of 1 to 16 bytes. [`BLANK`] is any word, another byte is that
/// word; the pattern's length is that of the sentences. A pattern of blanks alone counts what [`remaining`] counts.
///
/// ```
/// use pumpfennel::{BLANK, Refusal, Remaining};
///
/// let grammar = [2, 2, 4, 0, 1, 3, 1, 1, 1, 2, 1, 0, 1, 0, 0, 0, 0, 4, 0, 1, 0, 0];
/// let mut history = [0; 24];
/// pumpfennel::append(&mut history, &[0, 1], 0, 0)?;
/// // 0 1 is heard and 1 1 is not
/// let remaining = Remaining { total: 2, heard: 1, remaining: 1 };
/// assert_eq!(pumpfennel::remaining_matching(&grammar, &history, &[BLANK, 1], 0)?, remaining);
/// // 0 1 doesn't fit
/// let remaining = Remaining { total: 2, heard: 0, remaining: 2 };
/// assert_eq!(pumpfennel::remaining_matching(&grammar, &history, &[BLANK, 0], 0)?, remaining);
/// // there is no word 2
/// assert_eq!(pumpfennel::remaining_matching(&grammar, &history, &[BLANK, 2], 0), Err(Refusal::BadPattern));
/// # Ok::<(), Refusal>(())
/// ```
///
/// # Errors
///
/// Refusals 1 to 15, 21 and 22. 9 means the pattern's length; 10 and 15 are those of [`remaining`] at that length: 15
/// reads heard sentences that don't fit, too. 21, here and below, comes right after 10.
pub fn remaining_matching(grammar: &[u8], history: &[u8], pattern: &[u8], voice: u64) -> Result<Remaining, Refusal> {
    let (mut total, mut heard, mut remaining) = (0, 0, 0);
    // SAFETY: three slices, and three figures of this function.
    let refusal = unsafe {
        ffi::pumpfennel_remaining_matching(
            grammar.as_ptr(),
            grammar.len(),
            history.as_ptr(),
            history.len(),
            pattern.as_ptr(),
            pattern.len(),
            voice,
            &mut total,
            &mut heard,
            &mut remaining,
        )
    };
    accepted(refusal, Remaining { total, heard, remaining })
}

/// Writes the sentence of a draw number into the first bytes of `sentence`, as [`draw`] does, where only derivations
/// with a sentence that fits the pattern are drawn. The derivation number is the one among all of that length.
///
/// ```
/// use pumpfennel::{BLANK, DerivationNumber, DrawNumber, Drawn, Refusal};
///
/// let grammar = [2, 2, 4, 0, 1, 3, 1, 1, 1, 2, 1, 0, 1, 0, 0, 0, 0, 4, 0, 1, 0, 0];
/// let mut history = [0; 24];
/// pumpfennel::append(&mut history, &[0, 1], 0, 0)?;
/// let mut sentence = [0; 2];
/// let drawn = Drawn { remaining: 1, number: DerivationNumber(3) };
/// assert_eq!(pumpfennel::draw_matching(&grammar, &history, &[BLANK, 1], 0, DrawNumber(0), &mut sentence)?, drawn);
/// assert_eq!(sentence, [1, 1]);
/// let past = pumpfennel::draw_matching(&grammar, &history, &[BLANK, 1], 0, DrawNumber(1), &mut sentence);
/// assert_eq!(past, Err(Refusal::NumberBeyond));
/// # Ok::<(), Refusal>(())
/// ```
///
/// # Errors
///
/// Refusals 1 to 16 and 20 to 22.
pub fn draw_matching(
    grammar: &[u8],
    history: &[u8],
    pattern: &[u8],
    voice: u64,
    draw: DrawNumber,
    sentence: &mut [u8],
) -> Result<Drawn, Refusal> {
    let (mut remaining, mut number) = (0, 0);
    // SAFETY: four slices, of which the one that is written is borrowed alone, and two figures of this function.
    let refusal = unsafe {
        ffi::pumpfennel_draw_matching(
            grammar.as_ptr(),
            grammar.len(),
            history.as_ptr(),
            history.len(),
            pattern.as_ptr(),
            pattern.len(),
            voice,
            draw.0,
            sentence.as_mut_ptr(),
            sentence.len(),
            &mut remaining,
            &mut number,
        )
    };
    accepted(refusal, Drawn { remaining, number: DerivationNumber(number) })
}

/// Writes the sentence of the derivation that owns a ticket into the first bytes of `sentence`. `weights` has a byte
/// for each word of the grammar, from word 0 up: 1 to 255, what the word weighs. A derivation weighs the product of its
/// words' weights, and owns as many tickets where its sentence is unheard in the voice; heard ones own none. A
/// derivation's tickets stand together, and the derivations are in their order. Bytes past the sentence keep their
/// content.
///
/// A ticket taken from 0 to `tickets - 1`, each equally likely, draws each unheard derivation in proportion to its
/// weight. The call with ticket 0 tells how many tickets there are; where that is refused by [`Refusal::NumberBeyond`],
/// nothing is left. With weights of 1 alone the answer to each ticket is that of [`draw`] to the same draw number.
///
/// ```
/// use pumpfennel::{DerivationNumber, DrawnByTicket, Refusal, Ticket};
///
/// let grammar = [2, 2, 4, 0, 1, 3, 1, 1, 1, 2, 1, 0, 1, 0, 0, 0, 0, 4, 0, 1, 0, 0];
/// let mut history = [0; 24];
/// pumpfennel::append(&mut history, &[0, 1], 0, 0)?;
/// // 0 0 weighs 9 and owns the tickets 0 to 8, 0 1 is heard, 1 0 has the next six and 1 1 the last four
/// let weights = [3, 2];
/// let mut sentence = [0; 2];
/// let drawn = DrawnByTicket { tickets: 19, number: DerivationNumber(2) };
/// for ticket in 9..15 {
///     let given = pumpfennel::draw_weighted(&grammar, &history, 2, 0, &weights, Ticket(ticket), &mut sentence)?;
///     assert_eq!((given, sentence), (drawn, [1, 0]));
/// }
/// let past = pumpfennel::draw_weighted(&grammar, &history, 2, 0, &weights, Ticket(19), &mut sentence);
/// assert_eq!(past, Err(Refusal::NumberBeyond));
/// // there are two words
/// let more = pumpfennel::draw_weighted(&grammar, &history, 2, 0, &[3, 2, 1], Ticket(0), &mut sentence);
/// assert_eq!(more, Err(Refusal::BadWeights));
/// # Ok::<(), Refusal>(())
/// ```
///
/// # Errors
///
/// Refusals 1 to 16, 20, 22, 24 and 25. 24 comes right after 10, and 25 after it: 25 looks at total weights where 10
/// looks at counts, of the same nonterminals at the same lengths, and of all their derivations, heard or not.
pub fn draw_weighted(
    grammar: &[u8],
    history: &[u8],
    length: u64,
    voice: u64,
    weights: &[u8],
    ticket: Ticket,
    sentence: &mut [u8],
) -> Result<DrawnByTicket, Refusal> {
    let (mut tickets, mut number) = (0, 0);
    // SAFETY: four slices, of which the one that is written is borrowed alone, and two figures of this function.
    let refusal = unsafe {
        ffi::pumpfennel_draw_weighted(
            grammar.as_ptr(),
            grammar.len(),
            history.as_ptr(),
            history.len(),
            length,
            voice,
            weights.as_ptr(),
            weights.len(),
            ticket.0,
            sentence.as_mut_ptr(),
            sentence.len(),
            &mut tickets,
            &mut number,
        )
    };
    accepted(refusal, DrawnByTicket { tickets, number: DerivationNumber(number) })
}

/// Adds a sentence, played in a voice, to the history that `history` holds, and gives how many records there are then.
/// `played` is how many of its words were played before playback was broken off; 0: it was played in full, and is then
/// heard in that voice. The buffer must have room for the record, 20 bytes past the last one. Any word bytes will do.
///
/// ```
/// use pumpfennel::Refusal;
///
/// let mut history = [0; 44]; // no record, and room for two
/// assert_eq!(pumpfennel::append(&mut history, &[0, 1], 16, 0), Err(Refusal::BadVoice));
/// assert_eq!(pumpfennel::append(&mut history, &[0, 1], 3, 2), Err(Refusal::BadPlayed));
/// assert_eq!(pumpfennel::append(&mut history, &[0, 1], 3, 1), Ok(1)); // broken off after one word
/// assert_eq!(history[..10], [1, 0, 1, 0, 0, 0, 2, 16 * 3 + 1, 0, 1]);
/// assert_eq!(history[10..], [0; 34]);
/// assert_eq!(pumpfennel::append(&mut history, &[0, 1], 3, 0), Ok(2)); // played in full
/// assert_eq!(history[24..30], [1, 0, 2, 16 * 3, 0, 1]);
/// assert_eq!(pumpfennel::append(&mut history, &[0, 1], 3, 0), Err(Refusal::HistoryFull));
/// ```
///
/// After the log of what draw q gave, in the same voice and played in full, where the sentence has one derivation: one
/// fewer remains, the draws below q give what they gave, and each from q on gives what the next one gave.
///
/// ```
/// use pumpfennel::{DerivationNumber, DrawNumber, Refusal};
///
/// let grammar = [2, 2, 4, 0, 1, 3, 1, 1, 1, 2, 1, 0, 1, 0, 0, 0, 0, 4, 0, 1, 0, 0];
/// let mut history = [0; 24];
/// let mut sentence = [0; 2];
/// let numbers = |history: &[u8], draws: [u64; 3]| {
///     draws.map(|q| pumpfennel::draw(&grammar, history, 2, 0, DrawNumber(q), &mut [0; 2]).map(|drawn| drawn.number))
/// };
/// let [first, third, fourth] = numbers(&history, [0, 2, 3]);
/// pumpfennel::draw(&grammar, &history, 2, 0, DrawNumber(1), &mut sentence)?;
/// pumpfennel::append(&mut history, &sentence, 0, 0)?;
/// assert_eq!(numbers(&history, [0, 1, 2]), [first, third, fourth]);
/// assert_eq!(third, Ok(DerivationNumber(2)));
/// assert_eq!(pumpfennel::remaining(&grammar, &history, 2, 0)?.remaining, 3);
/// # Ok::<(), Refusal>(())
/// ```
///
/// # Errors
///
/// Refusals 9, 11 to 14, 19, 22 and 23. 23 comes right after 22.
pub fn append(history: &mut [u8], sentence: &[u8], voice: u64, played: u64) -> Result<u64, Refusal> {
    let mut records = 0;
    // SAFETY: two slices, of which the one that is written is borrowed alone, and a figure of this function.
    let refusal = unsafe {
        ffi::pumpfennel_append(
            history.as_mut_ptr(),
            history.len(),
            sentence.as_ptr(),
            sentence.len(),
            voice,
            played,
            &mut records,
        )
    };
    accepted(refusal, records)
}
