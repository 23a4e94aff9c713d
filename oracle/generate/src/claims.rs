//! Claims over the definition, written in the prover's language.

use std::fmt::Write;
use std::fs;
use std::io::Result;
use std::path::Path;

/// The names that the definition's files define and that a computation may unfold.
pub struct Definitions {
    files: Vec<(String, Vec<String>)>,
}

/// What a file of claims begins with, behind the definition's names.
pub struct Preamble;

impl Preamble {
    /// The calls with all that is lent to them, and what they give.
    pub const CALLS: &'static str = r"
counting : ℕ → ℕ → List ℕ
counting first zero = []
counting first (suc n) = first ∷ counting (suc first) n

asked : List ℕ → ℕ → ℕ → List ℕ → ℕ → ℕ → List ℕ → Call
asked file point node start steps room work = record {
  file = file; point = point; node = node; start = start; limits = record { steps = steps; room = room }; workspace = work;
}

given : {A : Type 0} → Result A → Said A × List ℕ × List ℕ
given r = (r.said, r.workspace, r.output)
";
}

/// The list of modules, the laws, the examples, and what theorems alone speak of.
const BESIDES: [&str; 10] =
    ["Lib", "Laws", "Examples", "CarriedExamples", "Written", "Single", "Demands", "Calls01", "Readings", "Undotted"];

const NAMES: &str = "-- Claims over the definition: what the model says, by computation
use Rattle.std.specs.Prelude.{◌≡◌, refl, Bool, true, false, List, [], ◌∷◌, ◌++◌, ℕ, zero, suc, replicate}
use Rattle.meaning.specs.declared.Limits.{Limits}
use Rattle.meaning.specs.Calls.{Call, Said, gives, refuses, Result, verdict, number}
";

impl Definitions {
    /// Reads every file of the folder but those besides the definition.
    pub fn read(folder: &Path) -> Result<Definitions> {
        let mut paths: Vec<_> = fs::read_dir(folder)?.map(|entry| entry.map(|e| e.path())).collect::<Result<_>>()?;
        paths.retain(|path| path.extension().is_some_and(|extension| extension == "antt"));
        paths.sort();
        let mut files = Vec::new();
        for path in paths {
            let name = path.file_stem().unwrap_or_default().to_string_lossy().into_owned();
            if !BESIDES.contains(&name.as_str()) {
                files.push((name, unfoldable(&fs::read_to_string(&path)?)));
            }
        }
        Ok(Definitions { files })
    }

    /// The head of a file of claims; `all` unfolds the whole definition.
    pub fn preamble(&self, rest: &str) -> String {
        let (mut text, mut every) = (NAMES.to_string(), Vec::new());
        for (module, names) in &self.files {
            let renamed: Vec<String> = names.iter().map(|name| renamed(name, module)).collect();
            let brought: Vec<String> = names
                .iter()
                .zip(&renamed)
                .map(|(name, own)| if name == own { name.clone() } else { format!("{name} as {own}") })
                .collect();
            writeln!(text, "use Rattle.meaning.specs.{module}.{{{}}}", brought.join(", ")).expect("a string takes all");
            every.extend(renamed);
        }
        let unfolding = every.join(" ");
        let helpers = "counting asked given";
        format!("{text}{rest}\nall : true ≡ true\nunfolding {unfolding} {helpers}\nall = refl\n")
    }
}

/// A name that no other file has: `under` of Case is `under·Case`. Operators are unique as they are.
fn renamed(name: &str, module: &str) -> String {
    if name.starts_with('◌') {
        name.to_string()
    } else {
        format!("{name}·{module}")
    }
}

fn unfoldable(text: &str) -> Vec<String> {
    text.lines()
        .filter_map(|line| line.trim_start().strip_prefix("unfoldable pub "))
        .filter_map(|rest| rest.split_whitespace().next())
        .map(str::to_string)
        .collect()
}

/// A list of numbers; runs of zeros and of numbers that count up are said in short.
pub fn list(numbers: impl Iterator<Item = u64>) -> String {
    let numbers: Vec<u64> = numbers.collect();
    let mut parts = Vec::new();
    let mut at = 0;
    while at < numbers.len() {
        let zeros = numbers[at..].iter().take_while(|&&n| n == 0).count();
        let counting =
            (1..).zip(numbers[at..].windows(2)).take_while(|(_, w)| w[0].checked_add(1) == Some(w[1])).count() + 1;
        if zeros > 3 {
            parts.push(format!("replicate {zeros} 0"));
            at += zeros;
        } else if counting > 3 {
            parts.push(format!("counting {} {counting}", numbers[at]));
            at += counting;
        } else {
            parts.push(format!("({} ∷ [])", numbers[at]));
            at += 1;
        }
    }
    joined(&parts)
}

/// Single numbers side by side are one list.
fn joined(parts: &[String]) -> String {
    if parts.is_empty() {
        return "[]".to_string();
    }
    parts.join(" ++ ").replace(" ∷ []) ++ (", " ∷ ")
}
