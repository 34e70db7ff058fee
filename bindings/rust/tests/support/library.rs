//! The library under test: each case through the C function and through the safe one.
use super::case::{Answer, Call, Case};
use pumpfennel::{DerivationNumber, DrawNumber, Refusal, Ticket, ffi};

const GUARD: usize = 24;
const JUNK: u64 = 0xdead_beef_0bad_cafe;

/// Bytes to lend, with guard bytes before and after them.
struct Lent {
    bytes: Vec<u8>,
    from: usize,
    to: usize,
    guard: u8,
}

impl Lent {
    /// `shift` moves the bytes against every alignment.
    fn new(content: &[u8], guard: u8, shift: usize) -> Lent {
        let (from, to) = (GUARD + shift, GUARD + shift + content.len());
        let mut bytes = vec![guard; to + GUARD];
        bytes[from..to].copy_from_slice(content);
        Lent { bytes, from, to, guard }
    }

    fn slice(&self) -> &[u8] {
        if self.from == self.to { &[] } else { &self.bytes[self.from..self.to] }
    }

    fn slice_mut(&mut self) -> &mut [u8] {
        if self.from == self.to { &mut [] } else { &mut self.bytes[self.from..self.to] }
    }

    fn guarded(&self) -> bool {
        let guards = self.bytes[..self.from].iter().chain(&self.bytes[self.to..]);
        guards.into_iter().all(|&byte| byte == self.guard)
    }
}

struct Loan {
    grammar: Lent,
    history: Lent,
    pattern: Lent,
    weights: Lent,
    sentence: Lent,
}

impl Loan {
    fn new(case: &Case, guard: u8) -> Loan {
        let shift = usize::from(guard) % 7 + case.length as usize % 8 + case.pattern.len() % 8;
        Loan {
            grammar: Lent::new(&case.grammar, guard, shift),
            history: Lent::new(&case.history, guard, shift + 1),
            pattern: Lent::new(&case.pattern, guard, shift + 2),
            weights: Lent::new(&case.weights, guard, shift + 2),
            sentence: Lent::new(&case.sentence, guard, shift + 3),
        }
    }

    /// The written buffer, where nothing else changed.
    fn back(self, case: &Case) -> Result<Vec<u8>, String> {
        let Loan { grammar, history, pattern, weights, sentence } = &self;
        let names = ["grammar", "history", "pattern", "weights", "sentence"];
        for (name, lent) in names.into_iter().zip([grammar, history, pattern, weights, sentence]) {
            if !lent.guarded() {
                return Err(format!("a byte outside the {name} was written"));
            }
        }
        let buffer = match case.call {
            Call::Append => history.slice().to_vec(),
            call if call.writes_sentence() => sentence.slice().to_vec(),
            _ => vec![],
        };
        if grammar.slice() != case.grammar
            || (case.call != Call::Append && history.slice() != case.history)
            || pattern.slice() != case.pattern
            || weights.slice() != case.weights
            || (!case.call.writes_sentence() && sentence.slice() != case.sentence)
        {
            return Err("an input was written".to_string());
        }
        Ok(buffer)
    }
}

/// Through the C function, the figures preset to junk and parted by junk.
fn through_c(case: &Case) -> Result<Answer, String> {
    let mut loan = Loan::new(case, 0xa5);
    let mut figures = [JUNK; 7];
    let [_, first, _, second, _, third, _] = &mut figures;
    let Case { length, voice, played, number, .. } = *case;
    let (g, h, p) = (loan.grammar.slice(), loan.history.slice(), loan.pattern.slice());
    let (gp, gl, hp, hl, pp, pl) = (g.as_ptr(), g.len(), h.as_ptr(), h.len(), p.as_ptr(), p.len());
    let (w, s) = (loan.weights.slice(), loan.sentence.slice());
    let (wp, wl, sp, sl) = (w.as_ptr(), w.len(), s.as_ptr(), s.len());
    // SAFETY: slices with their lengths, figures of this function; what is written is borrowed just before.
    let refusal = unsafe {
        match case.call {
            Call::CheckGrammar => ffi::pumpfennel_check_grammar(gp, gl, first, second),
            Call::CheckHistory => ffi::pumpfennel_check_history(hp, hl, first),
            Call::Count => ffi::pumpfennel_count(gp, gl, length, first),
            Call::Unrank => {
                let out = loan.sentence.slice_mut().as_mut_ptr();
                ffi::pumpfennel_unrank(gp, gl, length, number, out, sl, first)
            }
            Call::Rank => ffi::pumpfennel_rank(gp, gl, sp, sl, first, second, third),
            Call::Remaining => ffi::pumpfennel_remaining(gp, gl, hp, hl, length, voice, first, second, third),
            Call::Draw => {
                let out = loan.sentence.slice_mut().as_mut_ptr();
                ffi::pumpfennel_draw(gp, gl, hp, hl, length, voice, number, out, sl, first, second)
            }
            Call::Append => {
                let out = loan.history.slice_mut().as_mut_ptr();
                ffi::pumpfennel_append(out, hl, sp, sl, voice, played, first)
            }
            Call::RemainingMatching => {
                ffi::pumpfennel_remaining_matching(gp, gl, hp, hl, pp, pl, voice, first, second, third)
            }
            Call::DrawMatching => {
                let out = loan.sentence.slice_mut().as_mut_ptr();
                ffi::pumpfennel_draw_matching(gp, gl, hp, hl, pp, pl, voice, number, out, sl, first, second)
            }
            Call::DrawWeighted => {
                let out = loan.sentence.slice_mut().as_mut_ptr();
                ffi::pumpfennel_draw_weighted(gp, gl, hp, hl, length, voice, wp, wl, number, out, sl, first, second)
            }
        }
    };
    let buffer = loan.back(case)?;
    let given = case.call.figures();
    let kept = figures.iter().enumerate().filter(|(i, _)| i % 2 == 0 || i / 2 >= given);
    if kept.into_iter().any(|(_, &figure)| figure != JUNK) {
        return Err("a number beside the figures was written".to_string());
    }
    Ok(Answer { refusal, figures: (0..given).map(|i| figures[2 * i + 1]).collect(), buffer })
}

/// Through the safe function, with other guard bytes and in other places.
fn through_rust(case: &Case) -> Result<Answer, String> {
    let mut loan = Loan::new(case, 0x5a);
    let Case { length, voice, played, .. } = *case;
    let (g, h, p, w) = (loan.grammar.slice(), loan.history.slice(), loan.pattern.slice(), loan.weights.slice());
    let result: Result<Vec<u64>, Refusal> = match case.call {
        Call::CheckGrammar => pumpfennel::check_grammar(g).map(|c| vec![c.nonterminals, c.words]),
        Call::CheckHistory => pumpfennel::check_history(h).map(|records| vec![records]),
        Call::Count => pumpfennel::count(g, length).map(|total| vec![total]),
        Call::Unrank => {
            let out = loan.sentence.slice_mut();
            pumpfennel::unrank(g, length, DerivationNumber(case.number), out).map(|total| vec![total])
        }
        Call::Rank => pumpfennel::rank(g, loan.sentence.slice()).map(|r| vec![r.number.0, r.total, r.derivations]),
        Call::Remaining => pumpfennel::remaining(g, h, length, voice).map(|r| vec![r.total, r.heard, r.remaining]),
        Call::Draw => {
            let out = loan.sentence.slice_mut();
            pumpfennel::draw(g, h, length, voice, DrawNumber(case.number), out).map(|d| vec![d.remaining, d.number.0])
        }
        Call::Append => {
            let out = loan.history.slice_mut();
            pumpfennel::append(out, loan.sentence.slice(), voice, played).map(|records| vec![records])
        }
        Call::RemainingMatching => {
            pumpfennel::remaining_matching(g, h, p, voice).map(|r| vec![r.total, r.heard, r.remaining])
        }
        Call::DrawMatching => {
            let (out, draw) = (loan.sentence.slice_mut(), DrawNumber(case.number));
            pumpfennel::draw_matching(g, h, p, voice, draw, out).map(|d| vec![d.remaining, d.number.0])
        }
        Call::DrawWeighted => {
            let (out, ticket) = (loan.sentence.slice_mut(), Ticket(case.number));
            pumpfennel::draw_weighted(g, h, length, voice, w, ticket, out).map(|d| vec![d.tickets, d.number.0])
        }
    };
    let buffer = loan.back(case)?;
    Ok(match result {
        Ok(figures) => Answer { refusal: 0, figures, buffer },
        Err(refusal) => Answer { refusal: refusal.number(), figures: vec![0; case.call.figures()], buffer },
    })
}

/// What both ways answer, or what is wrong with them.
pub fn answer(case: &Case) -> Result<Answer, String> {
    let (c, rust) = (through_c(case)?, through_rust(case)?);
    if c != rust {
        return Err(format!("the C function gave {c}, the safe one {rust}"));
    }
    Ok(c)
}
