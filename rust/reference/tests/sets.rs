//! Covers: the independent implementation's sets, by membership.

use crate::support::cases::cases;
use crate::support::random::Random;
use reference::set::{Set, HIGH, LOW};

fn some_set(random: &mut Random) -> Set {
    let base = random.pick(&[LOW, -10, 0, HIGH - 20]);
    let count = random.below(6);
    Set::of(
        (0..count)
            .map(|_| {
                let low = base + random.between(-2, 22);
                (low, low + random.between(-1, 4))
            })
            .collect(),
    )
}

#[test]
fn operations_by_membership() {
    cases("sets by membership", 4_000, |random| {
        let (p, q) = (some_set(random), some_set(random));
        let near = |base: i64| base - 3..=base + 40;
        for number in near(LOW + 3).chain(near(-10)).chain(HIGH - 40..=HIGH) {
            if !(LOW..=HIGH).contains(&number) {
                continue;
            }
            assert_eq!(p.or(&q).contains(number), p.contains(number) || q.contains(number));
            assert_eq!(p.and(&q).contains(number), p.contains(number) && q.contains(number));
            assert_eq!(p.not().contains(number), !p.contains(number));
            let distance = (0..=60).find(|d| p.contains(number - d) || p.contains(number + d));
            if distance.is_some() {
                assert_eq!(p.distance(number), distance);
            }
        }
        for set in [&p, &q, &p.or(&q), &p.and(&q), &p.not()] {
            assert!(set.runs().iter().all(|(low, high)| LOW <= *low && low <= high && *high <= HIGH));
            assert!(set.runs().windows(2).all(|two| two[0].1 + 1 < two[1].0), "{set:?}");
        }
    });
}

#[test]
fn fixed_values() {
    assert_eq!(Set::whole().runs(), [(LOW, HIGH)]);
    assert_eq!(Set::empty().not(), Set::whole());
    assert_eq!(Set::of(vec![(6, 9), (3, 5)]).runs(), [(3, 9)]);
    assert_eq!(Set::empty().distance(0), None);
    assert_eq!(Set::of_numbers([LOW]).distance(HIGH), Some(4_000_000_000));
    assert_eq!(Set::of(vec![(LOW, 5)]).bytes(), [0x00, 0x6C, 0xCA, 0x88, 5, 0, 0, 0]);
}
