// Made by `make package` of crates/tests_policy/src/fitting.rt, which is proved: changes go there.

//! The strict and the unwrapped calls by the operation, through their bounds, where the checked call has a number:
//! so it fits.

use super::calls::Call;
use crate::policy::Checked;
use crate::strict::{Strict, Unwrapped};

/// The strict and the unwrapped answer, where the number fits.
pub fn fitting<N: Checked + Strict + Unwrapped>(call: Call, a: N, b: N) -> Option<(N, N)> {
    match call {
        Call::Neg => {
            a.checked_neg()?;
            Some((a.strict_neg(), a.unwrapped_neg()))
        }
        Call::Add => {
            a.checked_add(b)?;
            Some((a.strict_add(b), a.unwrapped_add(b)))
        }
        Call::Sub => {
            a.checked_sub(b)?;
            Some((a.strict_sub(b), a.unwrapped_sub(b)))
        }
        Call::Dist => {
            a.checked_dist(b)?;
            Some((a.strict_dist(b), a.unwrapped_dist(b)))
        }
        Call::Mul => {
            a.checked_mul(b)?;
            Some((a.strict_mul(b), a.unwrapped_mul(b)))
        }
        Call::Sqrt => {
            a.checked_sqrt()?;
            Some((a.strict_sqrt(), a.unwrapped_sqrt()))
        }
        Call::Recip => {
            a.checked_recip()?;
            Some((a.strict_recip(), a.unwrapped_recip()))
        }
        _ => fitting_quotient(call, a, b),
    }
}

fn fitting_quotient<N: Checked + Strict + Unwrapped>(call: Call, a: N, b: N) -> Option<(N, N)> {
    match call {
        Call::Div => {
            a.checked_div(b)?;
            Some((a.strict_div(b), a.unwrapped_div(b)))
        }
        Call::DivEuclid => {
            a.checked_div_euclid(b)?;
            Some((a.strict_div_euclid(b), a.unwrapped_div_euclid(b)))
        }
        Call::NextMultipleOf => {
            a.checked_next_multiple_of(b)?;
            Some((
                a.strict_next_multiple_of(b),
                a.unwrapped_next_multiple_of(b),
            ))
        }
        Call::Rem => {
            a.checked_rem(b)?;
            Some((a.strict_rem(b), a.unwrapped_rem(b)))
        }
        Call::RemEuclid => {
            a.checked_rem_euclid(b)?;
            Some((a.strict_rem_euclid(b), a.unwrapped_rem_euclid(b)))
        }
        _ => fitting_by_integer(call, a, b.to_bits()),
    }
}

fn fitting_by_integer<N: Checked + Strict + Unwrapped>(
    call: Call,
    a: N,
    k: N::Bits,
) -> Option<(N, N)> {
    match call {
        Call::MulInt => {
            a.checked_mul_int(k)?;
            Some((a.strict_mul_int(k), a.unwrapped_mul_int(k)))
        }
        Call::DivInt => {
            a.checked_div_int(k)?;
            Some((a.strict_div_int(k), a.unwrapped_div_int(k)))
        }
        Call::DivEuclidInt => {
            a.checked_div_euclid_int(k)?;
            Some((a.strict_div_euclid_int(k), a.unwrapped_div_euclid_int(k)))
        }
        Call::RemEuclidInt => {
            a.checked_rem_euclid_int(k)?;
            Some((a.strict_rem_euclid_int(k), a.unwrapped_rem_euclid_int(k)))
        }
        Call::RemInt => {
            a.checked_rem_int(k)?;
            Some((a.strict_rem_int(k), a.unwrapped_rem_int(k)))
        }
        _ => None,
    }
}
