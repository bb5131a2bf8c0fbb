// Made by `make package` of crates/fixed_filter/src/samples.rt, which is proved: changes go there.

//! The past samples of a channel.

/// Puts a sample in front of the past samples, the newest first, and drops the oldest one. Precondition: there is a
/// past sample.
///
/// # Examples
///
/// ```
/// use zugyelmas::filter::put_in_front;
///
/// let mut past = [3, 2, 1];
/// put_in_front(4, &mut past);
/// assert_eq!(past, [4, 3, 2]);
/// ```
///
/// ```should_panic
/// # use zugyelmas::filter::put_in_front;
/// # std::panic::set_hook(Box::new(|_| {}));
/// put_in_front(4, &mut []); // no past sample
/// ```
///
/// # Panics
///
/// Panics unless there is a past sample.
///
/// # Proved
///
/// ```text
/// requires { 0 < length past.old }
/// ensures { past.new ≡ sample ∷ take (length past.old - 1) past.old }
/// ```
#[track_caller]
pub fn put_in_front<T: Copy>(sample: T, past: &mut [T]) {
    assert!(!past.is_empty(), "precondition: there is a past sample");
    past.copy_within(0..past.len() - 1, 1);
    past[0] = sample;
}
