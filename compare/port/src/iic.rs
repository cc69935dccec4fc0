//! The peripheral.
use crate::ended;
use words::calls::{Answer, End};
use words::iic::{self, Call, State};
use words::layout::{Args, Out, Set};
use words::rates::Rates;

unsafe extern "C" {
    fn probe_iic_fresh(state: &mut State);
    /// Takes the set from the state's words behind those of the Rust's fields.
    fn probe_iic_with_rates(state: &mut State) -> u64;
    fn probe_iic_act(number: u64, state: &mut State, set: &Set, args: &Args, out: &mut Out) -> u64;
    fn probe_iic_deadline(state: &State, set: &Set, out: &mut Out) -> u64;
    fn probe_iic_validate(state: &State, args: &Args, out: &mut Out) -> u64;
    fn probe_iic_observe(state: &State, args: &Args, out: &mut Out) -> u64;
}

/// The state before the first call.
pub fn fresh() -> State {
    let mut state = iic::blank(&Rates::DEFAULT);
    // SAFETY: a proved function without a `requires`, declared with the types that it has.
    unsafe { probe_iic_fresh(&mut state) };
    state
}

/// The state before the first call with that rate set, and whether the set is refused.
pub fn with_rates(rates: &Rates) -> (State, End) {
    let mut state = iic::blank(rates);
    // SAFETY: as above.
    let refusal = unsafe { probe_iic_with_rates(&mut state) };
    (state, ended(refusal))
}

/// The port's answer to a call, and the state that it leaves.
pub fn call(call: Call, state: &mut State, set: &Set, args: &Args, out: &mut Answer) {
    // SAFETY: proved functions without a `requires`, declared with the types that they have.
    let refusal = unsafe {
        match call {
            Call::Deadline => probe_iic_deadline(state, set, &mut out.words),
            Call::Validate => probe_iic_validate(state, args, &mut out.words),
            Call::Observe => probe_iic_observe(state, args, &mut out.words),
            _ => probe_iic_act(call as u64, state, set, args, &mut out.words),
        }
    };
    out.end = ended(refusal);
}
