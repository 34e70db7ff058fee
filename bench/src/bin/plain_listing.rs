//! The listing program in plain Rust.
use bench::plain::{Prepared, NO_TOTALS};
use std::io::{self, BufWriter, Read, Write};

fn list(input: &[u8], out: &mut impl Write) -> io::Result<()> {
    let (length, grammar, history) = match input {
        &[length, low, high, ref rest @ ..] if rest.len() >= low as usize + 256 * high as usize => {
            let (g, h) = rest.split_at(low as usize + 256 * high as usize);
            (length as u64, g, h)
        }
        _ => (0, &input[..0], &input[..0]),
    };
    let mut t = NO_TOTALS;
    let prepared = match Prepared::new(grammar, history, length, 0, &mut t) {
        Ok(p) => p,
        Err(refusal) => return writeln!(out, "refused {refusal}"),
    };
    writeln!(out, "{length} {} {} {}", prepared.total, prepared.heard(), prepared.left)?;
    let mut words = [0; 16];
    for q in 0..prepared.left.min(1000) {
        let d = prepared.draw(q, &mut words).expect("q is below left");
        write!(out, "{q} {d}")?;
        for w in &words[..length as usize] {
            write!(out, " {w}")?;
        }
        writeln!(out)?;
    }
    Ok(())
}

fn main() -> io::Result<()> {
    let mut input = Vec::new();
    io::stdin().lock().take(65536).read_to_end(&mut input)?;
    let mut out = BufWriter::new(io::stdout().lock());
    list(&input, &mut out)?;
    out.flush()
}
