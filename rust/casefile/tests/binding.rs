//! Free variables and the order of binding: what the Rust's front end refuses, the text form refuses.

use casefile::binding::{Binding, Why};
use casefile::text::{pack, pack_or_faults, unpack};
use casefile::Variables;

/// A rule or number over the variables b, n and t.
fn told(statement: &str) -> Vec<String> {
    let text = format!("variables b n t\n{statement}");
    pack_or_faults(&text).err().into_iter().flatten().map(|fault| fault.to_string()).collect()
}

fn refused(statement: &str, place: &str, words: &str) {
    let faults = told(statement);
    assert_eq!(faults.len(), 1, "{statement}: {faults:?}");
    assert!(faults[0].starts_with(place) && faults[0].contains(words), "{statement}: {faults:?}");
}

fn taken(statement: &str) {
    assert_eq!(told(statement), Vec::<String>::new(), "{statement}");
}

const FREE: &str = "nothing binds `b` in `r`";
const EARLY: &str = "`b` is asked for here before anything binds it";
const UNRESTRICTED: &str = "not everything found here binds `b`";

/// Document 01's E11: with b free it says yes where another board was reviewed.
#[test]
fn a_free_variable_is_refused() {
    let body = "formerly within 1h Review(board: b) and Flash(board: b)";
    refused(&format!("rule r = {body}"), "2:43: ", FREE);
    taken(&format!("rule r(b) = {body}"));
    taken(&format!("rule r = exists b ({body})"));
    taken(&format!("loose rule r = {body}"));
    refused("rule r = Flash(board: b) and formerly within 1h Review(board: b)", "2:23: ", FREE);
    refused("rule r = not Flash(board: b)", "2:27: ", FREE);
    refused("rule r = tp b", "2:10: ", FREE);
    refused("rule r = b == 3", "2:10: ", FREE);
    refused("rule r = (exists b Flash(board: b)) and Review(board: b)", "2:55: ", FREE);
    refused("rule r = (count for n where A(n: n, board: b)) > 2", "2:44: ", FREE);
    refused("number r = count for n where A(n: n, board: b)", "2:45: ", FREE);
    taken("number r(b) = count for n where A(n: n, board: b)");
    taken("rule r = exists b (A(board: b) and (count for n where A(n: n, board: b)) > 2)");
}

/// A name stands for what it names: its variables are bound where it is used, and told where it is used.
#[test]
fn a_rule_used_by_name_brings_its_variables() {
    let named = "rule seen(b) = A(board: b)\n";
    refused(&format!("{named}rule r = @seen"), "3:10: ", FREE);
    taken(&format!("{named}rule r = exists b @seen"));
    taken(&format!("{named}rule r(b) = not @seen"));
    refused(&format!("{named}rule r = exists b (not @seen and B(f: b))"), "3:24: ", EARLY);
    taken("term next = b + 1\nrule r = exists b (A(n: b) and @next > 3)");
    refused("term next = b + 1\nrule r = @next > 3", "3:10: ", FREE);
}

#[test]
fn what_binds_stands_before_what_asks() {
    taken("rule r = exists b (A(n: b) and b > 3)");
    refused("rule r = exists b (b > 3 and A(n: b))", "2:20: ", EARLY);
    taken("rule r = exists b (A(n: b) and not B(n: b))");
    refused("rule r = exists b (not B(n: b) and A(n: b))", "2:29: ", EARLY);
    taken("rule r = exists b (not B(n: b) since within 1h A(n: b))");
    taken("rule r = exists b (A(n: b) and (B(n: b) since within 1h C()))");
    refused("rule r = exists b ((B(n: b) since within 1h C()) and A(n: b))", "2:26: ", EARLY);
    refused("rule r = exists b ((count where A(n: b)) > 1 and A(n: b))", "2:38: ", EARLY);
    refused("rule r = exists n exists b (n == b + 1 and A(n: b))", "2:34: ", EARLY);
    taken("rule r = exists n exists b (A(n: b) and n == b + 1)");
    taken("rule r = exists b (b == (count for n where A(n: n)) and b > 2)");
    taken("rule r = exists b (A(n: b) and exists n (n == b and B(n: n)))");
}

#[test]
fn what_is_bound_is_found_on_every_way() {
    taken("rule r = exists b tp b");
    taken("rule r = exists b (A(n: b) or B(n: b))");
    refused("rule r = exists b (A(n: b) or C())", "2:10: ", UNRESTRICTED);
    refused("rule r = exists b 1 == 1", "2:10: ", UNRESTRICTED);
    refused("rule r = exists b (1 == 1 since within 1h C())", "2:10: ", UNRESTRICTED);
    refused("number r = count for b where C()", "2:12: ", UNRESTRICTED);
    refused("rule r = exists b exists b A(n: b)", "2:10: ", UNRESTRICTED);
    taken("number r = sum b for b where (b == 1 or b == -5)");
    refused("number r = sum n for b where exists n A(board: b, n: n)", "2:12: ", "`n` is summed");
}

#[test]
fn parameters_are_used_and_stand_once() {
    refused("rule r(b) = A()", "2:6: ", "the parameter `b` does not stand free in `r`");
    refused("rule r(b, b) = A(n: b)", "2:11: ", "this parameter is here twice");
    refused("rule r(q) = A(n: q)", "2:8: ", "`q` is no variable");
    refused("rule r() = A()", "2:8: ", "expected a variable");
}

/// `rows` finds what a rule leaves free, where the rule binds it in order.
#[test]
fn rows_are_listed_where_the_rule_binds_them() {
    let listed = |body: &str, bound: &[u32]| {
        let packed = pack(&format!("variables b n t\nloose rule r = {body}")).expect("a loose rule packs");
        let binding = Binding::of(&packed.tables);
        let misuses = binding.listed(packed.node("r").expect("it is named"), Variables::of(bound.iter().copied()));
        misuses.into_iter().map(|misuse| (misuse.variable, misuse.why)).collect::<Vec<_>>()
    };
    assert_eq!(listed("formerly within 1h A(n: b) and B(n: n)", &[]), []);
    assert_eq!(listed("not A(n: b)", &[]), [(0, Why::Early)]);
    assert_eq!(listed("not A(n: b)", &[0]), []);
    assert_eq!(listed("A(n: b) or C()", &[]), [(0, Why::Unrestricted)]);
}

/// The text of a case says what it leaves free, or that it is loose, so that it packs again.
#[test]
fn the_text_of_a_case_declares_what_is_free() {
    let text = "variables x0 x1\nrule r1(x0) = A(f: x0)\nloose rule r4 = not (exists x0 (not @r1))\nloose number n5 = sum x0 for x1 where @r1\n";
    let packed = pack(text).unwrap_or_else(|fault| panic!("{fault}"));
    assert_eq!(unpack(&packed.tables).expect("it has a text"), text);
}

/// Shared nodes are looked at once: this would take two to the sixtieth steps otherwise.
#[test]
fn shared_rules_are_quick() {
    let mut text = "variables b\nrule r0(b) = A(n: b) term t0 = b\n".to_string();
    for k in 1..60 {
        text += &format!("rule r{k}(b) = @r{} and @r{}\nterm t{k} = @t{} + @t{}\n", k - 1, k - 1, k - 1, k - 1);
    }
    text += "rule last = exists b (@r59 and @t59 > 1)";
    assert!(pack(&text).is_ok());
}
