//! The text form: what is wrong is said with line and column; text and case go both ways.

use casefile::text::{pack, unpack, unpack_named, Given};
use casefile::Tables;

fn fault(text: &str) -> String {
    pack(text).expect_err("the text is wrong").to_string()
}

#[test]
fn faults_have_line_and_column() {
    assert_eq!(
        fault("points"),
        "1:1: expected a statement: variables, value, point, rule, number, term or loose, found `points`; did you mean `point`?"
    );
    assert_eq!(fault("variables x\nrule r = y == 1"), "2:10: `y` is no variable; `variables` at the top declares them");
    assert_eq!(fault("point 5 A\n  logged {a: 1, a: 2}"), "2:17: the name \"a\" is in this object twice");
    assert_eq!(
        fault("rule r = context.\"uart.0\" == 1"),
        "1:18: a name in a path holds no dot: write uart.0, which finds \"uart.0\""
    );
    assert_eq!(
        fault("rule r = resource.\".q x\" == 1"),
        "1:19: a name in a path holds no dot: write \"\".\"q x\", which finds \".q x\""
    );
    assert_eq!(
        fault("rule r = A(\"uart.0\": 1)"),
        "1:12: a name in a path holds no dot, and a logged field whose name holds one is reached by no path"
    );
    assert_eq!(
        fault("point 5 A\n  entity T::\"x\" {}\n  entity T::\"x\" {}"),
        "3:3: this entity has its record twice at this point"
    );
    assert_eq!(fault("rule r = 1 == null"), "1:15: a literal in a rule holds no null and no object");
    assert_eq!(fault("rule r = A(a: count where B())"), "1:15: an aggregate stands only in a comparison");
    assert_eq!(fault("rule r = @s"), "1:11: nothing named `s` stands above");
    assert_eq!(
        fault("rule r = formerly within 5 A()"),
        "1:28: expected a unit right after the amount: s, m, h or d, found `A`"
    );
    assert_eq!(fault("rule r = 1 == 9223372036854775808"), "1:15: this number does not fit a signed 64-bit integer");
    assert_eq!(fault("rule r = \"a"), "1:10: this quoted text does not end on its line: a `\"` is missing");
    assert_eq!(fault("rule r = A()\nrule r = B()"), "2:6: the name `r` is given twice: give this one another");
    assert_eq!(fault("rule r = A"), "1:10: `A` is no variable; `variables` at the top declares them");
}

#[test]
fn limits_have_a_place() {
    let deep = format!("value v = {}{}", "[".repeat(33), "]".repeat(33));
    assert_eq!(fault(&deep), "1:11: values nest to at most 32");
    assert!(pack(&deep.replacen('[', "", 1).replacen(']', "", 1)).is_ok());
    let tall = format!("rule r = {}A()", "not ".repeat(64));
    assert_eq!(fault(&tall), "1:10: nodes nest to at most 64");
    assert!(pack(&tall.replacen("not ", "", 1)).is_ok());
    for (start, end) in [("value v = ", "["), ("rule r = ", "("), ("term t = ", "("), ("rule r = ", "not ")] {
        assert!(fault(&format!("{start}{}", end.repeat(10_000))).ends_with("this nests too deeply to be read"));
    }
    let many: String = (0..17).map(|k| format!(" x{k}")).collect();
    assert_eq!(fault(&format!("variables{many}")), "1:65: a case has at most 16 variables");
}

#[test]
fn brackets_go_by_what_follows_them() {
    let text = "variables x\nrule r(x) = ((x + 1) * 2 == 4 or (x - 1 == 0)) and not (x == (3))\n";
    let packed = pack(text).expect("it packs");
    let again = unpack(&packed.tables).expect("it unpacks");
    assert_eq!(pack(&again).expect("it packs").tables, packed.tables);
    assert!(again.contains("(((x0 + 1) * 2) == 4) or ((x0 - 1) == 0)"), "{again}");
}

#[test]
fn a_name_gives_its_node_and_the_last_rule_is_the_last_node() {
    let packed = pack("rule a = A()\nnumber n = count where @a\nrule b = @n > 2").expect("it packs");
    assert_eq!((packed.node("a"), packed.node("n"), packed.node("c")), (Some(0), Some(1), None));
    assert_eq!(packed.node("b"), Some(packed.tables.nodes.len() as u32 - 1));
}

#[test]
fn a_broken_case_has_no_text() {
    let mut tables = pack("rule a = not A()").expect("it packs").tables;
    assert!(Tables::decode(&tables.encode()).is_ok_and(|read| read == tables));
    tables.nodes[1][1] = 1;
    assert!(unpack(&tables).is_err());
    assert!(Tables::decode(&tables.encode()[1..]).is_err());
}

#[test]
fn the_documented_example_packs() {
    let page = include_str!("../../../docs/CASE-TEXT.md");
    let from = page.find("# Comments run").expect("the example is there");
    let example = &page[from..from + page[from..].find("```").expect("it ends")];
    let packed = pack(example).expect("it packs");
    assert_eq!(packed.node("ready"), Some(packed.tables.nodes.len() as u32 - 1));
}

/// Every statement is read, whatever is wrong with the others; nothing is told twice.
#[test]
fn all_faults_of_a_text_are_told_in_one_run() {
    let text = "variables b\npoint x Review\nrule a = Review(board: \nrule c = @a and @d\nrule e = $\n\
                rule f = not Review(board: b)\nvalue v = [1, 2\npoint 5 A logged {} logged {}\n";
    let faults = casefile::text::pack_or_faults(text).expect_err("nearly all of it is wrong");
    let places: Vec<(usize, usize)> = faults.iter().map(|fault| (fault.line, fault.column)).collect();
    assert_eq!(places, [(2, 7), (4, 1), (5, 10), (6, 28), (8, 1), (8, 21)], "{faults:#?}");
    assert!(
        casefile::text::pack_or_faults("rule a = A(\nrule b = @a and B()\nrule c = @q").is_err_and(|f| f.len() == 2)
    );
    // A keyword misspelt in what is passed over is told; a field, an action or a word of the text form is not.
    let text =
        "rule a = A(\nrul b = B()\npoitn 5 A\nlogged {rules: 1,\nrules: 2}\nrule c = $\nand Point()\nruel d = D()";
    let faults = casefile::text::pack_or_faults(text).expect_err("all of it is wrong");
    let places: Vec<(usize, usize)> = faults.iter().map(|fault| (fault.line, fault.column)).collect();
    assert_eq!(places, [(2, 5), (3, 1), (6, 10), (8, 1)], "{faults:#?}");
}

#[test]
fn times_are_seconds_or_dates() {
    let packed = |time: &str| pack(&format!("point {time} A logged {{at: {time}}}")).map(|packed| packed.tables);
    assert_eq!(packed("2026-03-01T14:05:00Z"), packed("1772373900"));
    assert_eq!(packed("2026-03-01T16:05:00+02:00"), packed("1772373900"));
    assert_eq!(fault("point 2026-13-01T14:05:00Z A"), "1:7: there is no month 13: they are 01 to 12");
    assert_eq!(
        fault("point 2026-03-01T14:05 A"),
        "1:7: a time is written 2026-03-01T14:05:00Z, or with an offset such as +02:00 for Z"
    );
    let text = unpack(&packed("1772373900").expect("it packs")).expect("it has a text");
    assert!(text.contains("point 1772373900 A  # 2026-03-01T14:05:00Z\n"), "{text}");
    assert!(!unpack(&packed("5").expect("it packs")).expect("it has a text").contains('#'));
}

#[test]
fn what_an_editor_adds_is_told_once() {
    assert_eq!(
        fault("\u{feff}rule r = A()"),
        "1:1: the text begins with a byte order mark: save it as UTF-8 without one"
    );
    let lines = "rule r = A()\r\nrule s = B()\r\n";
    let told = casefile::text::pack_or_faults(lines).expect_err("it has carriage returns");
    assert_eq!(told.len(), 1);
    assert_eq!(
        told[0].to_string(),
        "1:13: a carriage return, as in Windows' line ends: save the text with line feeds alone"
    );
}

/// Names come back with the text: one node with two names, one inside another rule, a loose one.
#[test]
fn the_text_has_the_names_that_are_given() {
    let text = "variables board\npoint 5 A\n  logged {}\n  context {}\nrule seen(board) = A(board: board)\n\
                rule again(board) = @seen\nrule r9 = exists board @seen\nloose rule first = not @r9\n";
    let packed = pack(text).expect("it packs");
    let rules = packed.names.iter().zip(&packed.rules).map(|((name, node), rule)| (name.clone(), *node, rule.loose));
    let given = Given { variables: packed.variables.clone(), rules: rules.collect() };
    assert_eq!(unpack_named(&packed.tables, given).expect("it has a text"), text);
    // Names that cannot be written are made up instead.
    let wrong = Given { variables: vec!["rule".to_string()], rules: Vec::new() };
    assert_eq!(unpack_named(&packed.tables, wrong), unpack(&packed.tables));
}

/// Names with dots, of dots alone and empty ones, in values and along paths: the text reads back as it was.
#[test]
fn names_with_dots_go_both_ways() {
    let text =
        "point 5 A\n  logged {\"\": 1, \".\": 2, \"uart.0\": 3}\n  context {\".q\": {\"e.\": [{\"a.b\": 1}]}}\n  \
                principal T::\"x\"\n  entity T::\"x\" {\"id.a\": 4, \"t y\": 5}\n\
                rule r0 = A(a.0.00: *, \"0\".b: *, \"\": *)\n\
                rule r1 = (context.uart.0 == context.0x1._.\"\") or (principal.id.a == resource.\"t y\".\"\".\"é\")\n";
    let packed = pack(text).expect("it packs");
    let names = |node: usize, at: usize| {
        let [first, count] = [packed.tables.nodes[node][at], packed.tables.nodes[node][at + 1]];
        let run = &packed.tables.lists[first as usize..(first + count) as usize];
        let name = |&name: &u32| String::from_utf8(packed.tables.string(name).to_vec()).expect("it is UTF-8");
        run.iter().map(name).collect::<Vec<String>>()
    };
    let context: Vec<usize> = (0..packed.tables.nodes.len()).filter(|&k| packed.tables.nodes[k][0] == 21).collect();
    assert_eq!(names(context[0], 1), ["uart", "0"]);
    assert_eq!(names(context[1], 1), ["0x1", "_", ""]);
    let again = unpack(&packed.tables).expect("it has a text");
    assert_eq!(pack(&again).expect("it packs").tables, packed.tables, "{again}");
    let wanted = "(context.uart.0 == context.0x1._.\"\") or (principal.id.a == resource.\"t y\".\"\".\"é\")";
    assert!(again.contains(wanted), "{again}");
    assert!(again.contains("A(a.0.00: *, \"0\".b: *, \"\": *)"), "{again}");
}
