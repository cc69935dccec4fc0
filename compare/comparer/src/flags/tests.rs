use super::claim::{Claim, Reads, StatusWrite};
use super::met::Met;
use super::run;
use traffic::random::Random;

/// What runs meet with a claim until one breaks it, and how it does, if it does in so many calls.
fn runs(claim: Claim, calls: u64) -> (Met, Option<String>) {
    let (mut random, mut met) = (Random::new(1), Met::default());
    while met.calls < calls {
        if let Err(what) = run(&mut random, claim, &mut met) {
            println!("{claim:?}: after {} calls: {what}", met.calls);
            return (met, Some(what));
        }
    }
    (met, None)
}

#[test]
fn all_of_it_comes_up() {
    let (met, broken) = runs(Claim::Document, 1_000_000);
    assert_eq!(broken, None);
    assert_eq!(met.missing().next(), None);
    assert!(met.refused > 1000, "{} calls refused", met.refused);
}

#[test]
fn wrong_claims_are_caught() {
    for claim in [Claim::EarlierRead, Claim::ClearsAllShown, Claim::RaisesNothing] {
        assert!(runs(claim, 1_000_000).1.is_some(), "{claim:?}");
    }
}

/// Each thing that a status write can't do, by itself.
#[test]
fn what_it_cant_do() {
    let judged = |reads: &[u64], value, was, is| {
        let mut noted = Reads::default();
        reads.iter().for_each(|byte| noted.note(*byte).unwrap());
        Claim::Document.judge(&StatusWrite { value, was, is, answered: true }, &noted).is_ok()
    };
    assert!(judged(&[0x30], 0x10, 0x30, 0x10), "shown and written 0: cleared");
    assert!(judged(&[0x30], 0x10, 0x30, 0xb0), "nothing is cleared, TDRE is raised");
    assert!(!judged(&[], 0x00, 0x30, 0x10), "cleared before any read");
    assert!(!judged(&[0x10], 0x00, 0x30, 0x10), "cleared and not shown");
    assert!(!judged(&[0x20, 0x10], 0x00, 0x30, 0x10), "shown by an earlier read alone");
    assert!(!judged(&[0x30], 0x20, 0x30, 0x10), "cleared and written 1");
    assert!(!judged(&[0x30], 0x00, 0x20, 0x30), "NACKF raised");
}
