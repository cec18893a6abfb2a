//! Totals counted rightly but not shown so: lost, late, kept too long, in
//! another order, or cut short.

use crate::shown::{sum, Call, Shown};
use oracle::Totals;

fn lost_if(shown: &Shown, is_lost: bool) -> Totals {
    match is_lost {
        true => Totals::default(),
        false => shown.totals(),
    }
}

pub fn at_finish(shown: &Shown) -> Totals {
    lost_if(shown, shown.finished)
}

pub fn at_refusal(shown: &Shown) -> Totals {
    lost_if(shown, shown.refused().is_some())
}

/// They stay with the refusal until a later piece repeats it.
pub fn at_repeated_refusal(shown: &Shown) -> Totals {
    lost_if(shown, shown.is_repeated())
}

pub fn at_empty_piece(shown: &Shown) -> Totals {
    let starts = || shown.pieces.iter().copied();
    let ends = starts().skip(1).chain([shown.all.len()]);
    lost_if(shown, starts().zip(ends).any(|(start, end)| start == end))
}

fn lost_after(shown: &Shown, call: Call) -> Totals {
    lost_if(shown, shown.past.calls.contains(&call))
}

pub fn after_17(shown: &Shown) -> Totals {
    lost_after(shown, Call::Late)
}

pub fn after_18(shown: &Shown) -> Totals {
    lost_after(shown, Call::ReportWithoutRoom)
}

pub fn after_report(shown: &Shown) -> Totals {
    lost_after(shown, Call::Report)
}

/// 0 as its lines and bytes are, though the state has them still.
pub fn with_17(shown: &Shown) -> Totals {
    lost_if(shown, shown.call == Call::Late)
}

pub fn with_18(shown: &Shown) -> Totals {
    lost_if(shown, shown.call == Call::ReportWithoutRoom)
}

/// Those from before the call.
pub fn one_call_late(shown: &Shown) -> Totals {
    shown.past.totals
}

/// A new file does not set them to 0.
pub fn go_on_in_next_file(shown: &Shown) -> Totals {
    sum(shown.past.other_files, shown.totals())
}

pub fn backwards(shown: &Shown) -> Totals {
    let mut totals = shown.totals();
    totals.reverse();
    totals
}

/// Digits go before letters: 0, 8, 9, C, E, F, G, H.
pub fn in_order_of_bytes(shown: &Shown) -> Totals {
    let mut totals = shown.totals();
    totals[1..].rotate_right(2);
    totals
}

pub fn in_bits<const BITS: usize>(shown: &Shown) -> Totals {
    shown.totals().map(|total| total % (1 << BITS))
}

pub fn at_most<const MOST: u64>(shown: &Shown) -> Totals {
    shown.totals().map(|total| total.min(MOST))
}
