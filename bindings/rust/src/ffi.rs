//! The C functions as the archive has them.
//!
//! Each call returns the refusal's number, 0 where the call is accepted. On a refusal every figure is 0 and every
//! lent buffer is as it was. Nothing is required of the bytes and numbers handed in.
//!
//! # Safety
//!
//! A pointer and the length after it are those of a slice, a pointer alone is that of a figure. Where the length is 0
//! the pointer may be null. What a call may write overlaps nothing else that it is lent.

unsafe extern "C" {
    pub safe fn pumpfennel_version() -> u64;

    // version: from VERSION, by tools/generate
    #[link_name = "pumpfennel_interface_0_5"]
    // end of version
    pub safe fn pumpfennel_interface() -> u64;

    pub fn pumpfennel_check_grammar(
        grammar: *const u8,
        grammar_len: usize,
        nonterminals: *mut u64,
        words: *mut u64,
    ) -> u8;

    pub fn pumpfennel_check_history(history: *const u8, history_len: usize, records: *mut u64) -> u8;

    pub fn pumpfennel_count(grammar: *const u8, grammar_len: usize, length: u64, total: *mut u64) -> u8;

    pub fn pumpfennel_unrank(
        grammar: *const u8,
        grammar_len: usize,
        length: u64,
        number: u64,
        sentence: *mut u8,
        sentence_len: usize,
        total: *mut u64,
    ) -> u8;

    pub fn pumpfennel_rank(
        grammar: *const u8,
        grammar_len: usize,
        sentence: *const u8,
        sentence_len: usize,
        number: *mut u64,
        total: *mut u64,
        derivations: *mut u64,
    ) -> u8;

    pub fn pumpfennel_remaining(
        grammar: *const u8,
        grammar_len: usize,
        history: *const u8,
        history_len: usize,
        length: u64,
        voice: u64,
        total: *mut u64,
        heard: *mut u64,
        remaining: *mut u64,
    ) -> u8;

    pub fn pumpfennel_draw(
        grammar: *const u8,
        grammar_len: usize,
        history: *const u8,
        history_len: usize,
        length: u64,
        voice: u64,
        draw: u64,
        sentence: *mut u8,
        sentence_len: usize,
        remaining: *mut u64,
        number: *mut u64,
    ) -> u8;

    pub fn pumpfennel_remaining_matching(
        grammar: *const u8,
        grammar_len: usize,
        history: *const u8,
        history_len: usize,
        pattern: *const u8,
        pattern_len: usize,
        voice: u64,
        total: *mut u64,
        heard: *mut u64,
        remaining: *mut u64,
    ) -> u8;

    pub fn pumpfennel_draw_matching(
        grammar: *const u8,
        grammar_len: usize,
        history: *const u8,
        history_len: usize,
        pattern: *const u8,
        pattern_len: usize,
        voice: u64,
        draw: u64,
        sentence: *mut u8,
        sentence_len: usize,
        remaining: *mut u64,
        number: *mut u64,
    ) -> u8;

    pub fn pumpfennel_draw_weighted(
        grammar: *const u8,
        grammar_len: usize,
        history: *const u8,
        history_len: usize,
        length: u64,
        voice: u64,
        weights: *const u8,
        weights_len: usize,
        ticket: u64,
        sentence: *mut u8,
        sentence_len: usize,
        tickets: *mut u64,
        number: *mut u64,
    ) -> u8;

    pub fn pumpfennel_append(
        history: *mut u8,
        history_len: usize,
        sentence: *const u8,
        sentence_len: usize,
        voice: u64,
        played: u64,
        records: *mut u64,
    ) -> u8;
}
