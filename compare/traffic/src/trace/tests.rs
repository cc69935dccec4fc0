use super::{counted, trace};
use plain_player::play;

/// FNV-1a, 64 bits.
fn hash(bytes: &[u8]) -> u64 {
    let step = |hash: u64, byte: &u8| (hash ^ u64::from(*byte)).wrapping_mul(0x0100_0000_01b3);
    bytes.iter().fold(0xcbf2_9ce4_8422_2325, step)
}

/// The traces that measured figures and reports name by their seeds are still the same.
#[test]
fn a_seed_keeps_its_trace() {
    let hashes = [1, 7, 20102].map(|seed| hash(&trace(seed, 10_000)));
    assert_eq!(hashes, [0xe340_45d6_605d_a473, 0x8a1c_b59e_7396_28b6, 0x4b4f_2093_6a2b_e119], "{hashes:#x?}");
}

#[test]
fn so_many_lines_and_no_more() {
    for seed in 0..1000 {
        let lines = 2 + seed as usize % 50;
        assert_eq!(play(&trace(seed, lines), usize::MAX).lines, lines);
    }
}

/// Nine in ten answered 0, each verb answered, each flag and each refusal seen.
#[test]
fn what_traces_hold() {
    let (mut lines, mut answered, mut verbs, mut flags, mut numbers) = (0, 0, [0; 6], 0, [0; 10]);
    for seed in 0..30 {
        let trace = trace(seed, 10_000);
        let played = play(&trace, usize::MAX);
        for (line, answer) in trace.split(|b| *b == b'\n').zip(played.bytes.trim_ascii_end().split(|b| *b == b'\n')) {
            let answer = std::str::from_utf8(answer).unwrap();
            let [_, refusal, _, _, status] = answer.split('\t').collect::<Vec<_>>()[..] else {
                panic!("{answer}");
            };
            lines += 1;
            numbers[refusal.parse::<usize>().unwrap()] += 1;
            flags |= u8::from_str_radix(status, 16).unwrap();
            if refusal == "0" {
                answered += 1;
                let verb = line.split(|b| *b == b'\t').nth(2).unwrap()[0];
                verbs[b"rwpgvd".iter().position(|v| *v == verb).unwrap()] += 1;
            }
        }
    }
    let met = [1, 2, 3].map(|seed| counted(seed, 10_000).1);
    assert!(met.iter().all(|met| met.equal > 100 && met.at_eighth_fall > 0), "{met:?}");
    println!("{lines} lines, {answered} answered 0, r w p g v d {verbs:?}, flags {flags:02x}, by number {numbers:?}");
    assert!(answered * 10 >= lines * 9);
    assert!(verbs.iter().all(|count| *count > 1000));
    assert_eq!(flags, 0xff);
    assert!([4, 5, 7, 8].iter().all(|number| numbers[*number] > 0));
}
