//! Random cases of every profile pass the check.

use generate::cases::random_case;
use generate::{Profile, Random};
use model::Model;

const PROFILES: [Profile; 11] = [
    Profile::TINY,
    Profile::SMALL,
    Profile::USUAL,
    Profile::TERMS,
    Profile::VALUES,
    Profile::ROWS,
    Profile::PAIRS,
    Profile::LONG,
    Profile::SCANS,
    Profile::FEW_DOTS,
    Profile::DOTS,
];

#[test]
fn cases_of_every_profile_pass_the_check() {
    let mut random = Random::new(11);
    for (k, profile) in PROFILES.into_iter().enumerate() {
        for _ in 0..if profile.most_points > 200 { 20 } else { 1_000 } {
            let case = random_case(&mut random, profile);
            assert_eq!(Model::document().check(&case.bytes), 0, "profile {k}");
            assert!(!case.conditions.is_empty() && !case.aggregates.is_empty() && !case.tables.points.is_empty());
        }
    }
}
