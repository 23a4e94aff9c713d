//! The examples of request #112's reading, and some worked out by hand from it.

use casefile::{Builder, Point, Run, Tables, NONE};
use model::json::Imported;
use model::Model;

use super::texts;

/// Texts with their refusals and places, in the form of `texts`.
const TEXTS: &str = r#"
# J1, J2
0 log 
20 log @<0A>
20 log @<EF><BB><BF>{}
20 log  <0D>@
0 log {"time":0,"namespace":[],"action":"","kind":"","logged":{},"context":{},"entities":[]}<0D><0A>
0 log {"entities":[],"context":{},"logged":{},"kind":"","action":"","namespace":[],"time":0}
20 log {"entities":[],"context":{},"logged":{},"kind":"","action":"","namespace":[],"time":0}<0A>@<0A>
20 log {"entities":[],"context":{},"logged":{},"kind":"","action":"","namespace":[],"time":0} @{}
20 log {"entities":[],"context":{},"logged":{},"kind":"","action":"","namespace":[],"time":0@<0A>}
# J4
23 log {@}
23 log {"time":0,"namespace":[],"action":"","kind":"","logged":{},"context":{}@}
20 log {"time":0,@}
0 value null
23 time @"1"
23 action @1.5
23 namespace ["a",@1]
23 logged @[]
23 context @null
23 entities @{}
# J5
23 value {"__entity":@1}
0 value {"__entity":1,"a":2}
0 value {"a":2,"__entity":1}
0 value {"__entity":{"id":"b","type":"a"}}
0 value {"__\u0065ntity":{"t\u0079pe":"a","id":"b"}}
23 value {"__\u0065xtn":@null}
23 value {"__entity":{"type":"a","id":"b",@"c":1.5}}
23 value {"__entity":{"type":"a"@}}
23 value {"__entity":{"id":"a","type":@{}}}
23 value {"__extn":{"fn":@"ip","arg":"1"}}
0 value {"__extn":{"arg":"no number","fn":"decimal"}}
23 logged @{"__entity":{"type":"a","id":"b"}}
23 context @{"__extn":1}
23 entities [["a","b",@{"__entity":x}]]
0 logged {"__entity":{"type":"a","id":"b"},"c":1}
# J6, J12
20 value 0@1
20 value -0@1
22 value @1.0
22 value @1e2
22 value @-0.0
22 value @9223372036854775808
0 value 9223372036854775807
22 value @-9223372036854775809
0 value -9223372036854775808
0 value -0
22 value @1.5x
20 value 1.@x
20 value 1e+@
20 value -@-1
22 time @9223372036854775808
# J7, J10
0 value "\u0000<7F>\uD83D\uDE00"
20 value "@<1F>"
20 value "@\uD800x"
20 value "@\uDC00\uD800"
20 value "a@\uD800\uD800"
20 value "@\uD800\u0041"
20 value "\@q"
20 value "\u00@G0"
20 value "<E2><82>@"
20 value "<C3>@"
20 value "@<C0><80>"
20 value "<ED>@<A0><80>"
20 value "<F4>@<90><80><80>"
20 value "abc@
20 value nul@
20 value @True
# J8, J14
0 value [[[[[[[[[[[[[[[[[[[[[[[[[[[[[[[1]]]]]]]]]]]]]]]]]]]]]]]]]]]]]]]
0 value [[[[[[[[[[[[[[[[[[[[[[[[[[[[[[[[]]]]]]]]]]]]]]]]]]]]]]]]]]]]]]]]
0 value [[[[[[[[[[[[[[[[[[[[[[[[[[[[[[[{"__entity":{"type":"","id":""}}]]]]]]]]]]]]]]]]]]]]]]]]]]]]]]]
24 value [[[[[[[[[[[[[[[[[[[[[[[[[[[[[[[[@1]]]]]]]]]]]]]]]]]]]]]]]]]]]]]]]]
24 value [[[[[[[[[[[[[[[[[[[[[[[[[[[[[[[[@{"__entity":{"type":"","id":""}}
24 value [[[[[[[[[[[[[[[[[[[[[[[[[[[[[[[{"a":@1.5}
20 value [[[[[[[[[[[[[[[[[[[[[[[[[[[[[[[[@x
24 logged {"a":[[[[[[[[[[[[[[[[[[[[[[[[[[[[[[[@null
24 entities [["","",{"a":[[[[[[[[[[[[[[[[[[[[[[[[[[[[[[[@"
# J9, J11
21 value {~"a":1,@"a":1.5}
22 value {"a":@1.5,"a":2}
21 value {~"a":1,@"\u0061":2}
21 value {~"a":1,@"a":2,"a":3}
21 value {~"a":1,@"a"x
21 value {"__entity":{~"type":"a",@"type":1}}
21 log {~"time":0,@"ti\u006de":0}
0 value {"a":1,"A":2,"":3}
# J13
23 log {@"tim":x
23 log @1
23 log  @tru
23 entities [[@]]
23 entities [["a"@]]
23 entities [["a","b"@]]
23 entities [["a","b",{}@,
20 entities [["a",@]]
20 entities [["a","b",{}@}
0 entities [["a","b",{}],["a","b",{}]]
# J15
20 value {"__entity":1@
23 value {"__entity":@"a\"," }
23 value {"__entity":@1 x}
0 value {"__entity":["}",{"a":"\"}"}],"a":1}
20 value {"__entity":{"type":"a","id":"b"} @x}
20 value {"__entity" @1}
"#;

const LOG: &str = concat!(
    r#"{"entities":[["U","b",{"z":1}],["T","a",{}]],"resource":null,"#,
    r#""principal":{"__entity":{"id":"i","type":"T"}},"context":{"c":{"e":true,"d":["s",[]]}},"#,
    r#""logged":{"n":-1,"m":{"__extn":{"arg":"1.0","fn":"decimal"}}},"#,
    r#""kind":"k","action":"a","namespace":["N","M"],"time":-2}"#,
    "\n",
    r#"{"time":1,"namespace":[],"action":"","kind":"k","logged":{},"context":{},"entities":[]}"#
);

/// The export of what is made of `LOG`.
const LINES: &str = concat!(
    r#"{"time":-2,"namespace":["N","M"],"action":"a","kind":"k","#,
    r#""logged":{"m":{"__extn":{"fn":"decimal","arg":"1.0"}},"n":-1},"context":{"c":{"d":["s",[]],"e":true}},"#,
    r#""principal":{"__entity":{"type":"T","id":"i"}},"resource":null,"entities":[["T","a",{}],["U","b",{"z":1}]]}"#,
    "\n",
    r#"{"time":1,"namespace":[],"action":"","kind":"k","logged":{},"context":{},"entities":[]}"#,
    "\n"
);

/// The trace of `LOG`, laid out by hand after J17; and its marks.
fn laid_out() -> (Tables, Vec<u8>) {
    let lengths = [1, 1, 1, 1, 1, 3, 1, 1, 1, 1, 1, 1, 1, 1, 1, 1, 1, 1, 0, 1];
    let starts = lengths.iter().scan(0, |end, length| {
        *end += length;
        Some(*end - length)
    });
    let tables = Tables {
        variables: 0,
        strings: starts.zip(lengths).map(|(start, length)| [start, length]).collect(),
        values: vec![
            [3, 5, 0, 0],
            [2, u32::MAX, u32::MAX, 0],
            [7, 0, 2, 0],
            [4, 9, 0, 0],
            [6, 7, 0, 0],
            [6, 5, 2, 0],
            [1, 1, 0, 0],
            [7, 3, 2, 0],
            [7, 2, 1, 0],
            [5, 11, 12, 0],
            [0, 0, 0, 0],
            [7, 7, 0, 0],
            [2, 1, 0, 0],
            [7, 7, 1, 0],
            [7, 8, 0, 0],
            [7, 8, 0, 0],
        ],
        members: vec![[4, 0], [6, 1], [7, 7], [8, 5], [10, 6], [NONE, 3], [NONE, 4], [17, 12]],
        points: vec![
            [u32::MAX - 1, u32::MAX, 0, 2, 2, 3, 2, 8, 9, 10, 2, 2],
            [1, 0, 8, 0, 18, 19, 14, 15, NONE, NONE, 8, 0],
        ],
        nodes: Vec::new(),
        lists: vec![0, 1, 13, 14, 11, 15, 16, 13],
        text: b"NMakm1.0ncdseTiTaUbzk".to_vec(),
    };
    (tables, vec![1, 1, 1, 1, 0, 1, 1, 0])
}

/// A case of one point with this principal; the object that is ambiguous may be reached or not.
fn case_with(principal: impl FnOnce(&mut Builder, u32) -> u32) -> Vec<u8> {
    let mut builder = Builder::new(0);
    let one = builder.int(1);
    let ambiguous = builder.object(&[("__extn", one)]);
    let principal = Some(principal(&mut builder, ambiguous));
    let (action, kind) = (builder.string("\u{1f}/"), builder.string("\n\"\\\u{7f}\u{e9}"));
    let empty = builder.object(&[]);
    let none = Run { first: 0, count: 0 };
    let point = Point {
        time: i64::MIN,
        namespace: none,
        action,
        kind,
        logged: empty,
        context: empty,
        principal,
        resource: None,
        entities: none,
    };
    builder.point(point);
    builder.finish().encode()
}

const WRITTEN: &str = concat!(
    r#"{"time":-9223372036854775808,"namespace":[],"action":"\u001f/","kind":"\u000a\"\\"#,
    "\u{7f}\u{e9}",
    r#"","logged":{},"context":{},"principal":[{"__entity":1,"a":1}],"entities":[]}"#,
    "\n"
);

/// Takes down whether an example holds.
type Expect<'e> = &'e mut dyn FnMut(bool, &str);

/// Asks every example of a model; gives how many there are and what differs.
pub fn ask(model: Model) -> Result<(usize, Vec<String>), String> {
    let (mut asked, mut differences) = texts::ask(model, TEXTS.as_bytes())?;
    let mut expect = |kept: bool, what: &str| {
        asked += 1;
        if !kept {
            differences.push(what.to_string());
        }
    };
    imports(model, &mut expect);
    exports(model, &mut expect);
    Ok((asked, differences))
}

fn imports(model: Model, expect: Expect) {
    let (tables, marks) = laid_out();
    let bytes = tables.encode();
    let (mut trace, mut lent_marks) = (vec![0; bytes.len()], vec![0; marks.len()]);
    let cells = LOG.len().div_ceil(4);
    let imported = model.import(LOG.as_bytes(), cells, &mut trace, &mut lent_marks);
    let (length, count) = (bytes.len(), marks.len());
    expect(imported == Imported { bytes: length, marks: count, ..Imported::default() }, "the import's answer");
    expect(trace == bytes, "the trace laid out by hand");
    expect(lent_marks == marks, "its marks");
    let refused = |refusal| Imported { refusal, ..Imported::default() };
    let few = model.import(b"\n\n\n\n\n", 1, &mut [], &mut []);
    expect(few == refused(10), "10 comes before 20");
    expect(model.import(LOG.as_bytes(), cells, &mut trace[1..], &mut lent_marks) == refused(14), "a trace too short");
    expect(model.import(LOG.as_bytes(), cells, &mut trace, &mut lent_marks[1..]) == refused(14), "marks too short");
}

fn exports(model: Model, expect: Expect) {
    let (tables, marks) = laid_out();
    let finished = super::finish::finished(&tables, &marks).encode();
    expect(model.exported(&finished, LINES.len()).as_deref() == Ok(LINES.as_bytes()), "the export of the trace");
    expect(model.exported(&finished, LINES.len() - 1) == Err(14), "an output one byte short");
    expect(model.exported(&finished[..63], 1 << 20) == Err(1), "a case without contents");
    let near = case_with(|builder, _| {
        let one = builder.int(1);
        let object = builder.object(&[("__entity", one), ("a", one)]);
        builder.array(&[object])
    });
    expect(model.exported(&near, 1 << 20).as_deref() == Ok(WRITTEN.as_bytes()), "an ambiguous object is not reached");
    let deep = case_with(|builder, ambiguous| builder.array(&[ambiguous]));
    expect(model.exported(&deep, 1 << 20) == Err(25), "an ambiguous object is reached through an array");
    expect(model.exported(&deep, 0) == Err(25), "25 comes before 14");
    let top = case_with(|_, ambiguous| ambiguous);
    expect(model.exported(&top, 1 << 20) == Err(25), "an ambiguous principal");
    let wide = case_with(|builder, _| (0..30).fold(builder.int(1), |below, _| builder.array(&[below, below])));
    expect(model.exported(&wide, 1 << 20) == Err(14), "shared values unfold");
}
