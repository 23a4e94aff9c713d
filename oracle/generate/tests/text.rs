//! The text form: a case, its text, and the case packed from that text mean the same.

use casefile::text::{pack, unpack};
use generate::calls::random_call;
use generate::cases::random_case;
use generate::{Kind, Profile, Random};
use model::Model;

#[test]
fn text_and_back_means_the_same() {
    let mut random = Random::new(7);
    for _ in 0..3_000 {
        let profile = random.pick(&[Profile::SMALL, Profile::USUAL, Profile::DOTS]);
        let case = random_case(&mut random, profile);
        let text = unpack(&case.tables).expect("a checked case has a text");
        let packed = pack(&text).unwrap_or_else(|fault| panic!("{fault}\n{text}"));
        let bytes = packed.tables.encode();
        assert_eq!(Model::document().check(&bytes), 0, "{text}");
        assert_eq!(packed.tables.nodes.len(), case.tables.nodes.len(), "{text}");
        for _ in 0..6 {
            let mut call = random_call(&mut random, &case, 500, 40);
            // Numbers of values and strings are another case's.
            for cells in call.start.chunks_mut(2).filter(|cells| cells[0] > 1) {
                cells.fill(0);
            }
            let (before, after) = (call.ask(Model::document(), &case.bytes), call.ask(Model::document(), &bytes));
            assert_eq!(before.outcome, after.outcome, "{:?} {text}", call.kind == Kind::Rows);
        }
        let again = unpack(&packed.tables).expect("a packed case has a text");
        assert_eq!(pack(&again).expect("its text packs").tables, packed.tables, "{text}\n{again}");
    }
}
