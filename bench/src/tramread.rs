//! The program tramread by a baseline: standard input to standard output.
use crate::baseline::{self, decode, Code, Order};
use std::io::{self, BufWriter, Read as _, Write as _};

/// Reads a card and words, with the code as `order_of` keeps it.
pub fn run<O: Order>(order_of: impl Fn(Code) -> O) {
    let mut input = Vec::new();
    io::stdin().lock().read_to_end(&mut input).unwrap();
    let mut out = BufWriter::with_capacity(1 << 16, io::stdout().lock());
    let code = match decode(&input[..input.len().min(512)]) {
        Ok(code) => code,
        Err(refusal) => {
            writeln!(out, "card refused {refusal}").unwrap();
            return;
        }
    };
    let order = order_of(code);
    writeln!(out, "track {} last {} radius {}", code.track, order.last(), code.radius).unwrap();
    let (mut met, mut read) = (0u64, 0u64);
    let mut parts = input[512..].chunks_exact(code.bytes());
    for word in &mut parts {
        met += 1;
        match baseline::read(&order, word) {
            Ok(answer) => {
                read += 1;
                write!(out, "{met} at {} residual {} rule {}", answer.position, answer.residual, answer.rule).unwrap();
                for bits in [answer.chunk1_bits, answer.chunk2_bits].into_iter().flatten() {
                    write!(out, " {bits}").unwrap();
                }
                out.write_all(b"\n").unwrap();
            }
            Err(refusal) => writeln!(out, "{met} refused {refusal}").unwrap(),
        }
    }
    let short = parts.remainder().len();
    if short > 0 {
        writeln!(out, "short {short}").unwrap();
    }
    writeln!(out, "words {met} read {read}").unwrap();
}
