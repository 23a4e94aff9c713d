//! `definition N SEED ROOT OUT` writes N questions and N/3 files with the model's answers as claims
//! over the definition in ROOT/crates/meaning: a repository OUT whose crates have nothing but claims,
//! each to be proved by computation, and one, `wrong`, that cannot be. tools/definition-beside-model
//! has them proved.

use std::fmt::Write as _;
use std::fs;
use std::io::{Error, ErrorKind, Result};
use std::path::Path;
use std::process::ExitCode;

use casefile::Tables;
use generate::calls::{output_fill, random_call, spoiled, tightened, workspace_fill};
use generate::cases::random_case;
use generate::claims::{list, Definitions, Preamble};
use generate::damage::damaged;
use generate::rules::rule_files;
use generate::{Call, Kind, Profile, Random, RandomCase};
use model::{Model, Outcome};

const LIMIT: u64 = 400;
const ROOM: u64 = 40;
/// Claims in one crate.
const BATCH: usize = 60;
/// What the prover computes in its limit.
const MOST_BYTES: usize = 4_096;
const MOST_VISITS: u64 = 1_000;
/// By plain descent these take 2^63 visits; the law `height-is` of the definition stands for them.
const TOO_TALL: [&str; 2] = ["height 64", "height 65"];

fn main() -> ExitCode {
    let arguments: Vec<String> = std::env::args().skip(1).collect();
    let [count, seed, root, out] = &arguments[..] else {
        eprintln!("usage: definition N SEED ROOT OUT");
        return ExitCode::from(2);
    };
    let (Ok(count), Ok(seed)) = (count.parse(), seed.parse()) else {
        eprintln!("definition: N and SEED are numbers");
        return ExitCode::from(2);
    };
    match write_all(count, seed, Path::new(root), Path::new(out)) {
        Ok(()) => ExitCode::SUCCESS,
        Err(error) => {
            eprintln!("definition: {error}");
            ExitCode::from(2)
        }
    }
}

fn write_all(count: usize, seed: u64, root: &Path, out: &Path) -> Result<()> {
    let definitions = Definitions::read(&root.join("crates/meaning/specs"))?;
    let mut random = Random::new(seed);
    let mut claims = questions(&mut random, count);
    claims.extend(files(&mut random, count / 3)?);
    let mut list = "meaning:\n".to_string();
    for (k, batch) in claims.chunks(BATCH).enumerate() {
        let name = format!("claims_{k}");
        write_crate(&out.join("crates").join(&name), &definitions, batch)?;
        writeln!(list, "{name}: meaning").expect("a string takes all");
    }
    write_crate(&out.join("crates/wrong"), &definitions, &[wrong()])?;
    list += "wrong: meaning\n";
    fs::write(out.join("crates.txt"), list)?;
    let asked = claims.iter().filter(|claim| claim.question).count();
    println!("{asked} questions and {} files", claims.len() - asked);
    Ok(())
}

/// The bytes of a case, and what is claimed of them.
struct Claim {
    bytes: Vec<u8>,
    left: String,
    right: String,
    question: bool,
}

fn write_crate(folder: &Path, definitions: &Definitions, batch: &[Claim]) -> Result<()> {
    let mut text = definitions.preamble(Preamble::CALLS);
    let mut case = usize::MAX;
    for (k, claim) in batch.iter().enumerate() {
        if k == 0 || batch[k - 1].bytes != claim.bytes {
            case = k;
            write!(text, "\nbytes{k} : List ℕ\nbytes{k} = {}\n", list(claim.bytes.iter().map(|&b| u64::from(b))))
                .expect("a string takes all");
        }
        let left = claim.left.replace("BYTES", &format!("bytes{case}"));
        write!(text, "\nclaim{k} : {left} ≡ {}\nunfolding bytes{case} all\nclaim{k} = refl\n", claim.right)
            .expect("a string takes all");
    }
    fs::create_dir_all(folder.join("src"))?;
    fs::create_dir_all(folder.join("specs"))?;
    fs::write(folder.join("src/lib.rt"), "// Claims over the definition, by computation.\n")?;
    fs::write(folder.join("specs/Lib.antt"), "pub mod Claims\n")?;
    fs::write(folder.join("specs/Claims.antt"), text)
}

/// Whether the prover computes what is asked of the file in its limit.
fn small(bytes: &[u8]) -> bool {
    bytes.len() <= MOST_BYTES && Tables::decode(bytes).map_or(true, |tables| most_visits(&tables) <= MOST_VISITS)
}

/// How many values are met by plain descent, as the definition goes, in the value where they are most:
/// values that share their parts double at each level.
fn most_visits(tables: &Tables) -> u64 {
    let mut visits: Vec<u64> = Vec::new();
    for &[kind, first, count, _] in &tables.values {
        let parts = tables.members.iter().skip(first as usize).take(count as usize);
        let below = parts.map(|member| visits.get(member[1] as usize).copied().unwrap_or(0));
        let below = if kind == 6 || kind == 7 { below.fold(0, u64::saturating_add) } else { 0 };
        visits.push(below.saturating_add(1));
    }
    visits.into_iter().max().unwrap_or(0)
}

// ---- questions

fn questions(random: &mut Random, count: usize) -> Vec<Claim> {
    let mut claims = Vec::new();
    while claims.len() < count {
        let profile =
            random.pick(&[Profile::TINY, Profile::TINY, Profile::SMALL, Profile::FEW_DOTS, Profile::FEW_DOTS]);
        let case = random_case(random, profile);
        if !small(&case.bytes) {
            continue;
        }
        for _ in 0..random.between(3, 8).min(count - claims.len()) {
            claims.push(asked(&random_question(random, &case), &case.bytes));
        }
    }
    claims
}

fn random_question(random: &mut Random, case: &RandomCase) -> Call {
    let call = random_call(random, case, LIMIT, ROOM);
    match random.below(10) {
        0..=4 => call,
        5..=8 => {
            let needed = call.ask(Model::document(), &case.bytes).outcome;
            tightened(random, &call, &needed, case.tables.variables)
        }
        _ => spoiled(random, &call, case).call,
    }
}

fn asked(call: &Call, bytes: &[u8]) -> Claim {
    let done = call.ask(Model::document(), bytes);
    let before = list((0..call.workspace).map(workspace_fill));
    let lent = format!(
        "(asked BYTES {} {} ({}) {} {} ({before}))",
        call.point,
        call.node,
        list(call.start.iter().copied()),
        call.limit,
        call.room,
    );
    let said = said(call.kind, &done.outcome);
    let (workspace, output) = (list(done.workspace.iter().copied()), list(done.output.iter().copied()));
    let left = match call.kind {
        Kind::Ask => format!("given (ask_call·Calls {lent})"),
        Kind::Rows | Kind::Check => {
            let binders = list(call.binders.iter().map(|&x| u64::from(x)));
            let before = list((0..call.output).map(output_fill));
            format!("given (rows_call·Calls ({binders}) ({before}) {lent})")
        }
    };
    Claim { bytes: bytes.to_vec(), left, right: format!("({said}, {workspace}, {output})"), question: true }
}

fn said(kind: Kind, outcome: &Outcome) -> String {
    let Outcome { refusal, answer, steps, rows, number } = *outcome;
    match (refusal, kind) {
        (0, Kind::Ask) if number => format!("gives (number {answer}) {steps} {rows}"),
        (0, Kind::Ask) => format!("gives (verdict {}) {steps} {rows}", answer == 1),
        (0, _) => format!("gives {answer} {steps} {rows}"),
        _ => format!("refuses {refusal} {steps} {rows}"),
    }
}

// ---- files

/// Those made to break or just keep one rule, then damaged cases.
fn files(random: &mut Random, count: usize) -> Result<Vec<Claim>> {
    let mut claims = Vec::new();
    for file in rule_files() {
        let tall = TOO_TALL.iter().any(|name| file.rule.contains(name));
        if claims.len() < count && small(&file.bytes) && !tall {
            if Model::document().check(&file.bytes) != file.expected {
                return Err(Error::new(ErrorKind::InvalidData, format!("the model on `{}`", file.rule)));
            }
            claims.push(checked(file.bytes, file.expected));
        }
    }
    while claims.len() < count {
        let case = random_case(random, Profile::TINY);
        let bytes = damaged(random, &case.bytes);
        if small(&bytes) {
            let refusal = Model::document().check(&bytes);
            claims.push(checked(bytes, refusal));
        }
    }
    Ok(claims)
}

/// No bytes are no case: the document's number is 1.
fn wrong() -> Claim {
    checked(Vec::new(), 2)
}

/// A case that passes is told by V and the numbers of its strings, values, points and nodes.
fn checked(bytes: Vec<u8>, refusal: u32) -> Claim {
    let right = match refusal {
        0 => {
            let tables = Tables::decode(&bytes).expect("the file passes the check");
            let counts = [tables.strings.len(), tables.values.len(), tables.points.len(), tables.nodes.len()];
            let counts = counts.iter().map(|&count| count as u64);
            format!("gives ({}) 0 0", list([u64::from(tables.variables)].into_iter().chain(counts)))
        }
        _ => format!("refuses {refusal} 0 0"),
    };
    Claim { bytes, left: "check_call·Calls BYTES".to_string(), right, question: false }
}
