use super::script;
use crate::random::Random;
use plain_player::{bench, trace_clocks};

/// The system clock of traces.
const CLOCK: crate::exact::Clock = [0, 0, 3_686_400, 1, 0, 0];

/// Most lines are answered 0; every flag, every refusal and every number of units comes up.
#[test]
fn what_scripts_hold() {
    let (mut random, mut numbers, mut flags) = (Random::new(1), [0; 14], 0);
    for round in 0..2000 {
        let units = 1 + round % 4;
        let script = script(&mut random, &CLOCK, units, 80);
        let played = bench::bench(units, Some(&trace_clocks()), &script, usize::MAX);
        assert!(matches!(played.refusal, 0 | 16), "{}", played.refusal);
        for answer in std::str::from_utf8(&played.bytes).unwrap().lines() {
            let [_, _, refusal, _, _, status] = answer.split('\t').collect::<Vec<_>>()[..] else {
                panic!("{answer}");
            };
            numbers[refusal.parse::<usize>().unwrap()] += 1;
            flags |= u8::from_str_radix(status, 16).unwrap_or(0);
        }
    }
    println!("by number {numbers:?}, flags {flags:02x}");
    assert_eq!(flags, 0xff);
    assert!([0, 4, 5, 7].iter().all(|number| numbers[*number] > 100), "{numbers:?}");
    assert!(numbers[0] * 10 > numbers.iter().sum::<u64>() * 7, "{numbers:?}");
}
