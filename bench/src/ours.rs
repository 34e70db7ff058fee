//! The library's C functions, with the same signatures as the plain version.
use std::os::raw::c_uchar;

#[link(name = "pumpfennel", kind = "static")]
extern "C" {
    fn pumpfennel_check_grammar(g: *const u8, g_len: usize, nonterminals: *mut u64, words: *mut u64) -> c_uchar;
    fn pumpfennel_check_history(h: *const u8, h_len: usize, records: *mut u64) -> c_uchar;
    fn pumpfennel_count(g: *const u8, g_len: usize, length: u64, total: *mut u64) -> c_uchar;
    fn pumpfennel_unrank(g: *const u8, g_len: usize, length: u64, number: u64, out: *mut u8, out_len: usize, total: *mut u64) -> c_uchar;
    fn pumpfennel_rank(
        g: *const u8,
        g_len: usize,
        s: *const u8,
        s_len: usize,
        number: *mut u64,
        total: *mut u64,
        derivations: *mut u64,
    ) -> c_uchar;
    fn pumpfennel_remaining(
        g: *const u8,
        g_len: usize,
        h: *const u8,
        h_len: usize,
        length: u64,
        voice: u64,
        total: *mut u64,
        heard: *mut u64,
        remaining: *mut u64,
    ) -> c_uchar;
    fn pumpfennel_draw(
        g: *const u8,
        g_len: usize,
        h: *const u8,
        h_len: usize,
        length: u64,
        voice: u64,
        draw: u64,
        out: *mut u8,
        out_len: usize,
        remaining: *mut u64,
        number: *mut u64,
    ) -> c_uchar;
    fn pumpfennel_remaining_matching(
        g: *const u8,
        g_len: usize,
        h: *const u8,
        h_len: usize,
        pattern: *const u8,
        pattern_len: usize,
        voice: u64,
        total: *mut u64,
        heard: *mut u64,
        remaining: *mut u64,
    ) -> c_uchar;
    fn pumpfennel_draw_matching(
        g: *const u8,
        g_len: usize,
        h: *const u8,
        h_len: usize,
        pattern: *const u8,
        pattern_len: usize,
        voice: u64,
        draw: u64,
        out: *mut u8,
        out_len: usize,
        remaining: *mut u64,
        number: *mut u64,
    ) -> c_uchar;
    fn pumpfennel_draw_weighted(
        g: *const u8,
        g_len: usize,
        h: *const u8,
        h_len: usize,
        length: u64,
        voice: u64,
        weights: *const u8,
        weights_len: usize,
        ticket: u64,
        out: *mut u8,
        out_len: usize,
        tickets: *mut u64,
        number: *mut u64,
    ) -> c_uchar;
    fn pumpfennel_append(h: *mut u8, h_len: usize, s: *const u8, s_len: usize, voice: u64, played: u64, records: *mut u64) -> c_uchar;
}

/// What a figure holds before a call: a refusal must turn it into 0.
const BEFORE: u64 = 0x5555_5555_5555_5555;

fn answer<T>(refusal: u8, figures: &[u64], accepted: T) -> Result<T, u8> {
    if refusal == 0 {
        return Ok(accepted);
    }
    assert!(figures.iter().all(|&f| f == 0), "refused {refusal} with the figures {figures:?}");
    Err(refusal)
}

pub fn check_grammar(g: &[u8]) -> Result<(u64, u64), u8> {
    let (mut n, mut w) = (BEFORE, BEFORE);
    let r = unsafe { pumpfennel_check_grammar(g.as_ptr(), g.len(), &mut n, &mut w) };
    answer(r, &[n, w], (n, w))
}

pub fn check_history(h: &[u8]) -> Result<u64, u8> {
    let mut k = BEFORE;
    let r = unsafe { pumpfennel_check_history(h.as_ptr(), h.len(), &mut k) };
    answer(r, &[k], k)
}

pub fn count(g: &[u8], length: u64) -> Result<u64, u8> {
    let mut t = BEFORE;
    let r = unsafe { pumpfennel_count(g.as_ptr(), g.len(), length, &mut t) };
    answer(r, &[t], t)
}

pub fn unrank(g: &[u8], length: u64, number: u64, out: &mut [u8]) -> Result<u64, u8> {
    let mut t = BEFORE;
    let r = unsafe { pumpfennel_unrank(g.as_ptr(), g.len(), length, number, out.as_mut_ptr(), out.len(), &mut t) };
    answer(r, &[t], t)
}

pub fn rank(g: &[u8], s: &[u8]) -> Result<(u64, u64, u64), u8> {
    let (mut d, mut t, mut k) = (BEFORE, BEFORE, BEFORE);
    let r = unsafe { pumpfennel_rank(g.as_ptr(), g.len(), s.as_ptr(), s.len(), &mut d, &mut t, &mut k) };
    answer(r, &[d, t, k], (d, t, k))
}

pub fn remaining(g: &[u8], h: &[u8], length: u64, voice: u64) -> Result<(u64, u64, u64), u8> {
    let (mut t, mut k, mut l) = (BEFORE, BEFORE, BEFORE);
    let r = unsafe { pumpfennel_remaining(g.as_ptr(), g.len(), h.as_ptr(), h.len(), length, voice, &mut t, &mut k, &mut l) };
    answer(r, &[t, k, l], (t, k, l))
}

pub fn draw(g: &[u8], h: &[u8], length: u64, voice: u64, q: u64, out: &mut [u8]) -> Result<(u64, u64), u8> {
    let (mut l, mut d) = (BEFORE, BEFORE);
    let r =
        unsafe { pumpfennel_draw(g.as_ptr(), g.len(), h.as_ptr(), h.len(), length, voice, q, out.as_mut_ptr(), out.len(), &mut l, &mut d) };
    answer(r, &[l, d], (l, d))
}

pub fn remaining_matching(g: &[u8], h: &[u8], pattern: &[u8], voice: u64) -> Result<(u64, u64, u64), u8> {
    let (mut t, mut k, mut l) = (BEFORE, BEFORE, BEFORE);
    let (gp, hp, pp) = (g.as_ptr(), h.as_ptr(), pattern.as_ptr());
    let r = unsafe { pumpfennel_remaining_matching(gp, g.len(), hp, h.len(), pp, pattern.len(), voice, &mut t, &mut k, &mut l) };
    answer(r, &[t, k, l], (t, k, l))
}

pub fn draw_matching(g: &[u8], h: &[u8], pattern: &[u8], voice: u64, q: u64, out: &mut [u8]) -> Result<(u64, u64), u8> {
    let (mut l, mut d) = (BEFORE, BEFORE);
    let (gp, hp, pp, op) = (g.as_ptr(), h.as_ptr(), pattern.as_ptr(), out.as_mut_ptr());
    let r = unsafe { pumpfennel_draw_matching(gp, g.len(), hp, h.len(), pp, pattern.len(), voice, q, op, out.len(), &mut l, &mut d) };
    answer(r, &[l, d], (l, d))
}

pub fn draw_weighted(g: &[u8], h: &[u8], length: u64, voice: u64, weights: &[u8], ticket: u64, out: &mut [u8]) -> Result<(u64, u64), u8> {
    let (mut t, mut d) = (BEFORE, BEFORE);
    let (gp, hp, wp, op) = (g.as_ptr(), h.as_ptr(), weights.as_ptr(), out.as_mut_ptr());
    let r = unsafe {
        let (w_len, o_len) = (weights.len(), out.len());
        pumpfennel_draw_weighted(gp, g.len(), hp, h.len(), length, voice, wp, w_len, ticket, op, o_len, &mut t, &mut d)
    };
    answer(r, &[t, d], (t, d))
}

pub fn append(h: &mut [u8], s: &[u8], voice: u64, played: u64) -> Result<u64, u8> {
    let mut k = BEFORE;
    let r = unsafe { pumpfennel_append(h.as_mut_ptr(), h.len(), s.as_ptr(), s.len(), voice, played, &mut k) };
    answer(r, &[k], k)
}
