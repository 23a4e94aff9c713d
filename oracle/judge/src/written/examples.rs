//! The examples of request #101's reading, each with what must come of it.

use casefile::{Tables, NONE};
use generate::unsorted::{Unsorted, WriteCall};
use model::Model;

/// The outcome foretold: the strings of the finished case, or the refusal.
type Foretold = Result<&'static [&'static str], u32>;

struct Example {
    name: &'static str,
    call: WriteCall,
    foretold: Foretold,
    /// Words of the finished case from this one on, where they matter.
    holds: Option<(usize, &'static [u32])>,
}

/// Puts every example to a model; gives how many there are and what differs.
pub fn ask(model: Model) -> (usize, Vec<String>) {
    let examples = examples();
    let differences = examples.iter().filter_map(|example| differs(model, example)).collect();
    (examples.len(), differences)
}

fn differs(model: Model, example: &Example) -> Option<String> {
    let written = example.call.ask(model);
    let same = match (written.said, example.foretold) {
        (Ok(length), Ok(strings)) => {
            let tables = Tables::decode(&written.output[..length]).ok()?;
            let texts: Vec<&[u8]> = (0..tables.strings.len() as u32).map(|k| tables.string(k)).collect();
            texts == strings.iter().map(|text| text.as_bytes()).collect::<Vec<_>>()
                && example.holds.is_none_or(|(from, words)| words_at(&written.output, from, words.len()) == words)
        }
        (Err(said), Err(refusal)) => said == refusal,
        _ => false,
    };
    (!same).then(|| format!("{}: {:?}", example.name, written.said))
}

fn words_at(bytes: &[u8], from: usize, count: usize) -> Vec<u32> {
    let word = |k: usize| u32::from_le_bytes(bytes[4 * k..4 * k + 4].try_into().expect("four bytes"));
    (from..from + count).map(word).collect()
}

/// Tables of these strings over this text and nothing else.
fn over(text: &str, strings: &[[u32; 2]]) -> Tables {
    Tables { strings: strings.to_vec(), text: text.as_bytes().to_vec(), ..Tables::default() }
}

/// Strings b, a, b over the text `ba`.
fn bab() -> Tables {
    over("ba", &[[0, 1], [1, 1], [0, 1]])
}

/// A point and a rule over `bab` that use four list places: a namespace, a path, an argument, a binder.
fn whole() -> Unsorted {
    let mut tables = bab();
    tables.variables = 1;
    tables.values = vec![[7, 0, 0, 0], [3, 2, 0, 0], [4, 0, 0, 0], [5, 1, 2, 0]];
    tables.points = vec![[0, 0, 0, 1, 0, 1, 0, 0, NONE, NONE, 7, 1]];
    tables.nodes = vec![[23, 0, 0, 0, 0, 0, 0, 0], [7, 0, 1, 2, 1, 2, 1, 0], [31, 5, 1, 1, 0, 0, 0, 0]];
    // Namespace b; path a; argument (path, term); binder; unused; entity b, a with attributes.
    tables.lists = vec![2, 1, 1, 1, 0, 0, 2, 2, 1, 0];
    Unsorted { tables, marks: vec![1, 9, 0, 0, 0, 0, 1, 1, 255, 0] }
}

fn marked(place: usize, mark: u8) -> Unsorted {
    let mut unsorted = whole();
    unsorted.marks[place] = mark;
    unsorted
}

fn changed(change: impl FnOnce(&mut Tables)) -> Unsorted {
    let mut unsorted = whole();
    change(&mut unsorted.tables);
    unsorted
}

const AB: &[&str] = &["a", "b"];
/// Bytes of `whole` when it is finished: contents, strings, values, a point, nodes, lists, text.
const WHOLE: usize = 64 + 16 + 64 + 48 + 96 + 40 + 2;
const POINT: usize = (64 + 16 + 64) / 4;
const LISTS: usize = (64 + 16 + 64 + 48 + 96) / 4;

fn examples() -> Vec<Example> {
    let mut list: Vec<Example> = Vec::new();
    let mut add = |name, call, foretold, holds| list.push(Example { name, call, foretold, holds });
    let plain = |tables: Tables| Unsorted { tables, marks: Vec::new() }.call(4_000);

    add("no bytes", WriteCall::new(Vec::new(), Vec::new(), 99), Err(1), None);
    add("a list word and no mark", plain(Tables { lists: vec![0], ..Tables::default() }), Err(1), None);
    add("nothing but contents", plain(Tables::default()), Ok(&[]), None);
    add("b, a, b", plain(bab()), Ok(AB), Some((16, &[0, 1, 1, 1])));
    let members = |names: &[u32]| {
        let members = names.iter().map(|&name| [name, 0]).collect();
        plain(Tables { values: vec![[2, 0, 0, 0]], members, ..bab() })
    };
    add("a member's name is renumbered", members(&[2]), Ok(AB), Some((24, &[1, 0])));
    add("no name stays none", members(&[NONE]), Ok(AB), Some((24, &[NONE, 0])));
    add("a name outside the strings", members(&[3]), Err(4), None);
    add("a string leaves text", plain(over("ab", &[[0, 1], [1, 2]])), Err(3), None);
    add("an empty one behind text", plain(over("ab", &[[0, 1], [3, 0]])), Err(3), None);
    add("an empty one at text's end", plain(over("ab", &[[0, 1], [2, 0]])), Ok(&["", "a"]), None);
    add("the longest at the last place", plain(over("ab", &[[NONE, NONE]])), Err(3), None);
    add("what no string covers is dropped", plain(over("xab", &[[2, 1], [1, 1]])), Ok(AB), Some((14, &[80, 2])));
    add("strings overlap", plain(over("aba", &[[0, 3], [1, 2], [0, 1]])), Ok(&["a", "aba", "ba"]), None);
    add("longer is not later", plain(over("bab", &[[0, 1], [1, 2]])), Ok(&["ab", "b"]), None);
    let object = |names: [u32; 2]| Tables {
        values: vec![[2, 0, 0, 0], [7, 0, 2, 0]],
        members: vec![[names[0], 0], [names[1], 0]],
        ..bab()
    };
    add("names rise once they are sorted", plain(object([1, 0])), Ok(AB), None);
    add("names fall once they are sorted", plain(object([0, 1])), Err(4), None);
    add("names that become equal", plain(object([0, 2])), Err(4), None);

    let lent = |unsorted: &Unsorted, room, output| WriteCall { room, output, ..unsorted.call(0) };
    add("point, rule and lists", whole().call(999), Ok(AB), Some((LISTS, &[1, 0, 1, 1, 0, 0, 1, 1, 0, 0])));
    add("the point's own strings", whole().call(999), Ok(AB), Some((POINT, &[0, 0, 0, 1, 1, 0])));
    add("the rule's own strings", whole().call(999), Ok(AB), Some((POINT + 12 + 8, &[7, 0, 1, 1, 0, 2])));
    add("values' strings", whole().call(999), Ok(AB), Some((20, &[7, 0, 0, 0, 3, 1, 0, 0, 4, 1, 0, 0, 5, 0, 1, 0])));
    add("an unused place without a mark", marked(6, 0).call(999), Ok(AB), Some((LISTS + 6, &[2])));
    add("a namespace word without a mark", marked(0, 0).call(999), Err(5), None);
    add("an entity's id without a mark", marked(8, 0).call(999), Err(5), None);
    add("an attribute object with a mark", marked(9, 1).call(999), Err(5), None);
    add("a path's name without a mark", marked(1, 0).call(999), Err(6), None);
    add("an argument's term with a mark", marked(4, 1).call(999), Err(6), None);
    add("a binder with a mark", marked(5, 1).call(999), Err(6), None);
    let both_ways = |mark: u8| {
        let mut unsorted = marked(0, mark);
        (unsorted.tables.variables, unsorted.tables.nodes[2][1]) = (16, 0);
        unsorted.call(999)
    };
    add("a namespace word that is a binder too, marked", both_ways(1), Err(6), None);
    add("a namespace word that is a binder too, unmarked", both_ways(0), Err(5), None);
    let no_point = |place: usize, mark: u8| {
        let mut unsorted = marked(place, mark);
        unsorted.tables.points.clear();
        unsorted
    };
    add("a Predicate's namespace without a mark", no_point(0, 0).call(999), Err(6), None);
    add("room and output exactly full", lent(&whole(), WHOLE, WHOLE), Ok(AB), None);
    add("a room of one byte less", lent(&whole(), WHOLE - 1, WHOLE), Err(10), None);
    add("an output of one byte less", lent(&whole(), WHOLE, WHOLE - 1), Err(14), None);
    add("both too short", lent(&whole(), WHOLE - 1, WHOLE - 1), Err(10), None);
    add("a bad point and no output", lent(&changed(|t| t.points[0][4] = 3), WHOLE, 0), Err(5), None);
    add("a bad point and no room", lent(&changed(|t| t.points[0][4] = 3), 0, 0), Err(10), None);
    add("a bad node and a bad mark", lent(&changed(|t| t.nodes[2][7] = 1), WHOLE, 0), Err(6), None);
    add("too many variables and no room", lent(&changed(|t| t.variables = 17), 0, 0), Err(2), None);
    add(
        "a bad value before a bad point",
        lent(&changed(|t| (t.values[0][1], t.points[0][4]) = (1, 3)), 999, 0),
        Err(4),
        None,
    );
    list
}
