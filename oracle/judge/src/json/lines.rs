//! Lines for a second opinion: random ones, and what the model says of each.

use std::io::{BufRead, Write};

use casefile::Tables;
use generate::json::{canonical, random_line};
use generate::Random;
use model::Model;

use super::finish::points;

/// Writes random lines.
pub fn write(count: u64, seed: u64, to: &mut impl Write) -> std::io::Result<()> {
    let mut random = Random::new(seed);
    for _ in 0..count {
        let mut line = random_line(&mut random);
        line.push(b'\n');
        to.write_all(&line)?;
    }
    Ok(())
}

/// Of every line read: its refusal, the place and the first place (or `-`); of a good one 0 and its points as the
/// export writes them.
pub fn judge(from: &mut impl BufRead, to: &mut impl Write) -> std::io::Result<()> {
    let model = Model::document();
    let mut line = Vec::new();
    while from.read_until(b'\n', &mut line)? > 0 {
        match model.events(&line) {
            Ok(events) => {
                let trace = model.trace(&events);
                let tables = Tables::decode(&trace.bytes).map_err(std::io::Error::other)?;
                let text: String = points(&tables).iter().map(canonical).collect();
                write!(to, "0 {text}")?;
            }
            Err(refused) => {
                let first = refused.first.map_or("-".to_string(), |first| first.to_string());
                writeln!(to, "{} {} {first}", refused.refusal, refused.place)?;
            }
        }
        line.clear();
    }
    to.flush()
}
