//! Scripts for several units on one pair of wires (document 02, (g)): masters and slaves that talk, each by a program of
//! its own that doesn't look at what came of it, with bad lines thrown in.
mod program;
use crate::exact;
use crate::random::Random;
use crate::spoil;
use crate::trace;
use program::{Program, Role};
use words::iic::Call;
use words::layout;

/// A call of a unit.
#[derive(Clone, Copy)]
struct Event {
    at: u128,
    unit: usize,
    call: Call,
    operands: [u64; 2],
}

/// What the units of a script are to one another.
const SCENES: [[Role; 4]; 9] = [
    [Role::Sender, Role::Listener, Role::Listener, Role::Silent],
    [Role::Sender, Role::Listener, Role::Listener, Role::Listener],
    [Role::Taker, Role::Listener, Role::Silent, Role::Any],
    [Role::Sender, Role::Sender, Role::Listener, Role::Listener],
    [Role::Taker, Role::Sender, Role::Listener, Role::Any],
    [Role::Clocking, Role::Clocked, Role::Clocked, Role::Silent],
    [Role::Clocking, Role::Clocking, Role::Clocked, Role::Listener],
    [Role::Sender, Role::Listener, Role::Any, Role::Any],
    [Role::Any; 4],
];

/// A script of about so many lines for so many units over a clock.
pub fn script(random: &mut Random, clock: &exact::Clock, units: usize, lines: usize) -> Vec<u8> {
    let mut events = events(random, clock, units, lines);
    if random.once_in(6) {
        postpone(random, clock, &mut events);
    }
    let bad = random.pick(&[0, 0, 3, 20]);
    let (mut out, mut last) = (Vec::new(), 0);
    for event in events {
        if random.below(100) < bad {
            out.extend(spoilt(random, units, last));
            out.push(b'\n');
        }
        last = event.at;
        out.extend(line(&event));
        out.push(b'\n');
    }
    if random.once_in(4) && !out.ends_with(b"\n\n") {
        out.pop();
    }
    out
}

/// The calls of all units in the order of their times.
fn events(random: &mut Random, clock: &exact::Clock, units: usize, lines: usize) -> Vec<Event> {
    let mut roles = random.pick(&SCENES);
    (0..4).for_each(|place| roles.swap(place, random.below(units.max(1) as u64) as usize));
    let begin = begin(random, clock);
    let address = random.word() & 0xfe;
    let meddling = random.pick(&[0, 0, 0, 2, 10]);
    let mut events = Vec::new();
    for (unit, role) in roles.into_iter().enumerate().take(units) {
        let late = if random.once_in(8) { exact::edge(clock, random.below(3000)) } else { 0 };
        let program = Program { clock: *clock, unit, role, address, meddling, now: begin.saturating_add(late) };
        events.extend(program.run(random, lines / units.max(1)));
    }
    events.sort_by_key(|event| event.at);
    events
}

/// Masters that drive SCL at rates of their own, one of them in synchronous mode as often as not, where half counts come to
/// their end: a clock may end a wait just when it sees another's.
pub fn contended(random: &mut Random, clock: &exact::Clock, units: usize) -> Vec<u8> {
    let top = 1 << 63;
    let begin = top - 40 - random.below(500);
    let byte = random.word() & 0xff;
    let mut events = Vec::new();
    for unit in 0..units {
        let [address, start] = random.pick(&[[0, 0x90], [0, 0x90], [1, 0x40]]);
        let control = random.pick(&[0xb0, 0xb0, 0xb0, 0x80]) | random.pick(&[0, 0, 1, 2, 8]);
        let sent = if address == 0 { (6, byte) } else { (3, 0) };
        let writes = [(5, address), (2, random.pick(&[0, 0x40, 0x40])), (0, control), sent, (1, start)];
        let steps = writes.map(|(address, byte)| (Call::Write, [address, byte]));
        let steps = [(Call::SetGate, [1, 0])].into_iter().chain(steps);
        events.extend(steps.map(|(call, operands)| Event { at: exact::edge(clock, begin), unit, call, operands }));
    }
    for _ in 0..random.below(12) {
        let [anywhere, near] = [begin * 2 + random.below((top - begin) * 2), u64::MAX - random.below(120)];
        let at = random.pick(&[anywhere, near]);
        let operands = random.pick(&[[1, 0x90], [1, 0x10], [6, byte], [6, byte], [1, 0x40], [1, 0x60]]);
        let unit = random.below(units as u64) as usize;
        events.push(Event { at: exact::half_edge(clock, at), unit, call: Call::Write, operands });
    }
    events.sort_by_key(|event| event.at);
    let lines = events.iter().flat_map(|event| [line(event), b"\n".to_vec()]);
    lines.collect::<Vec<_>>().concat()
}

/// When a script begins: near the clock's start, near half counts of 2^64, near the last time, or anywhere.
fn begin(random: &mut Random, clock: &exact::Clock) -> u128 {
    let start = layout::time_at(clock, 0);
    match random.below(12) {
        0..=2 => late(random, clock),
        3 => layout::joined(random.any_length(), random.word()).max(start),
        4 => start,
        _ => exact::edge(clock, clock[layout::ORDINAL].saturating_add(random.below(1000))),
    }
}

/// A little before half counts reach 2^64, as a rule, or before the last time.
fn late(random: &mut Random, clock: &exact::Clock) -> u128 {
    let before = random.pick(&[100, 1000, 5000]);
    let top = exact::edge(clock, (1 << 63) - random.below(before));
    let end = exact::edge(clock, exact::last(clock).saturating_sub(random.below(before)));
    random.pick(&[top, top, top, end])
}

/// From some call on all of them come late.
fn postpone(random: &mut Random, clock: &exact::Clock, events: &mut [Event]) {
    let from = random.below(events.len() as u64 + 1) as usize;
    let late = late(random, clock);
    let Some(first) = events.get(from).map(|event| event.at).filter(|at| *at < late) else {
        return;
    };
    events[from..].iter_mut().for_each(|event| event.at = (event.at - first).saturating_add(late));
}

/// The line of a call, without a newline.
fn line(event: &Event) -> Vec<u8> {
    let [seconds, fraction] = layout::halves(event.at);
    format!("{seconds}\t{fraction:016x}\t{}\t{}", event.unit, trace::verb(event.call, event.operands)).into_bytes()
}

/// A bad line, as a rule: no script line at all, one at an earlier time, one for a unit that isn't there, or a spoilt one.
fn spoilt(random: &mut Random, units: usize, last: u128) -> Vec<u8> {
    let any = |random: &mut Random, at, unit| {
        let call = random.pick(&[Call::Read, Call::Write, Call::SetGate, Call::InputPins, Call::Advance]);
        let most = if matches!(call, Call::Read | Call::Write) { 256 } else { 2 };
        line(&Event { at, unit, call, operands: [random.below(most), random.below(most)] })
    };
    match random.below(6) {
        0 => spoil::line(random, last),
        1 => {
            let unit = units + random.below(10 - units.min(9) as u64) as usize;
            any(random, last, unit)
        }
        _ => spoil::worse(random, last, |random, at| {
            let unit = random.below(units.max(1) as u64) as usize;
            any(random, at, unit)
        }),
    }
}

#[cfg(test)]
mod tests;
