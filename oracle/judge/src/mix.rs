//! What random cases the comparison makes, how often, and how they are asked.

use generate::{Profile, Random};

/// A part of the mix.
#[derive(Clone, Copy)]
pub struct Part {
    pub profile: Profile,
    /// How many of 1,300 cases, where all parts are there.
    pub often: usize,
    /// Ample for most of its questions; the others are refused 11 or 12 by both.
    pub limit: u64,
    pub room: u64,
    /// Questions of each case, and calls more with another step limit after each answer.
    pub questions: usize,
    pub limited: usize,
    /// How many of a hundred calls start with nothing bound, beside those that happen to.
    pub unbound: usize,
}

pub const PLAIN: Part =
    Part { profile: Profile::USUAL, often: 290, limit: 5_000, room: 60, questions: 12, limited: 0, unbound: 0 };

const DOTS: Part = Part { profile: Profile::DOTS, often: 300, limit: 1_500, unbound: 50, ..PLAIN };

/// The parts that a run makes its cases of.
#[derive(Clone, Copy)]
pub struct Mix(&'static [Part]);

impl Mix {
    pub const ALL: Mix = Mix(&[
        PLAIN,
        Part { profile: Profile::SMALL, often: 130, ..PLAIN },
        Part { profile: Profile::TERMS, often: 190, limit: 1_500, ..PLAIN },
        Part { profile: Profile::VALUES, often: 110, limit: 1_500, ..PLAIN },
        Part { profile: Profile::ROWS, often: 110, limit: 2_500, room: 200, questions: 8, unbound: 80, ..PLAIN },
        Part { profile: Profile::SCANS, often: 140, limit: 1_500, questions: 5, limited: 2, unbound: 50, ..PLAIN },
        DOTS,
        Part { profile: Profile::PAIRS, often: 26, limit: 4_000, room: 2_000, questions: 3, unbound: 90, ..PLAIN },
        Part { profile: Profile::LONG, often: 4, limit: 8_000, room: 2_000, questions: 2, unbound: 90, ..PLAIN },
    ]);

    /// Cases whose names have dots, and no others.
    pub const DOTS: Mix = Mix(&[DOTS, Part { profile: Profile::FEW_DOTS, often: 200, ..DOTS }]);

    /// The mix that a word on the command line names.
    pub fn named(word: Option<&str>) -> Result<Mix, String> {
        match word {
            None => Ok(Mix::ALL),
            Some("dots") => Ok(Mix::DOTS),
            Some(other) => Err(format!("`{other}` is no mix of cases: leave it out, or say dots")),
        }
    }

    pub fn part(self, random: &mut Random) -> Part {
        let Mix(parts) = self;
        let mut at = random.below(parts.iter().map(|part| part.often).sum());
        for &part in parts {
            if at < part.often {
                return part;
            }
            at -= part.often;
        }
        unreachable!("the parts make up the whole")
    }
}
