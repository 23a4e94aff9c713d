//! The window test beside the model's: at the numbers where it turns, and at random ones.

use galivodern::Window;
use generate::Random;

const SECONDS: [i64; 4] = [1, 60, 3_600, 86_400];
const RANDOM: usize = 1_000_000;

fn compare(amount: i64, unit: usize, from: i64, to: i64) {
    let ours = Window::of(amount.saturating_mul(SECONDS[unit]), from, to);
    let model = match model::window(amount, unit, from, to) {
        model::Window::Inside(difference) => Window::Inside(difference),
        model::Window::TooOld(difference) => Window::TooOld(difference),
        model::Window::Later(difference) => Window::Later(difference),
    };
    assert_eq!(ours, model, "{amount} of unit {unit}, {to} seen from {from}");
}

/// Numbers at and beside 0, the ends, half of them, and the amounts whose seconds leave 64 bits.
fn turns() -> Vec<i64> {
    let around = [0, i64::MAX / 2, i64::MIN / 2, i64::MAX / 60, i64::MAX / 3_600, i64::MAX / 86_400, i64::MIN / 86_400];
    let mut numbers = vec![i64::MIN, i64::MIN + 1, i64::MAX - 1, i64::MAX];
    numbers.extend(around.iter().flat_map(|number| [number - 1, *number, number + 1]));
    numbers
}

#[test]
fn at_every_turn() {
    let turns = turns();
    for &amount in &turns {
        for unit in 0..SECONDS.len() {
            for &from in &turns {
                for &to in &turns {
                    compare(amount, unit, from, to);
                }
            }
        }
    }
}

#[test]
fn at_random() {
    let mut random = Random::new(105);
    let turns = turns();
    let mut seen = [0; 3];
    for _ in 0..RANDOM {
        let number = |random: &mut Random| match random.below(4) {
            0 => random.bits() as i64,
            1 => random.below(200_000) as i64 - 100_000,
            _ => random.pick(&turns).wrapping_add(random.below(5) as i64 - 2),
        };
        let amount = number(&mut random);
        let unit = random.below(SECONDS.len());
        let from = number(&mut random);
        let at_the_edge =
            from.wrapping_sub(amount.wrapping_mul(SECONDS[unit])).wrapping_add(random.below(3) as i64 - 1);
        let to = if random.percent(30) { at_the_edge } else { number(&mut random) };
        compare(amount, unit, from, to);
        seen[match model::window(amount, unit, from, to) {
            model::Window::Inside(_) => 0,
            model::Window::TooOld(_) => 1,
            model::Window::Later(_) => 2,
        }] += 1;
    }
    assert!(seen.iter().all(|&count| count > RANDOM / 20), "inside, too old, later: {seen:?}");
}
