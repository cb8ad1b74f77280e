//! The two forms of plan records: moving a file from one to the other, and unfolding longer bodies for a check.

use crate::{raw, Refusal, Starts};
#[cfg(feature = "alloc")]
use crate::{FILE_BYTES, WIDE_BYTES};
#[cfg(feature = "alloc")]
use alloc::{vec, vec::Vec};

/// Moves a file of eight-byte records over to [sixteen bytes](crate#sixteen-byte-records): every record gets eight zeros behind it.
///
/// [`narrow`] gives the same bytes back, and [`unfold`] too. It refuses a file with 1 to 7 or 12.
///
/// ```
/// use bolfrega::{narrow, unfold, widen};
///
/// let file = [1, 0, 2, 5, 128, 0, 0, 0]; // 0 gives 5 (procedure 0)
/// let wide = widen(&file)?;
/// assert_eq!(wide, [1, 0, 2, 5, 128, 0, 0, 0, 0, 0, 0, 0, 0, 0, 0, 0]);
/// assert_eq!(narrow(&wide)?, file);
/// assert_eq!(unfold(&wide)?, file);
/// # Ok::<(), bolfrega::Refusal>(())
/// ```
#[cfg(feature = "alloc")]
pub fn widen(file: &[u8]) -> Result<Vec<u8>, Refusal> {
    whole(raw::widen, file, WIDE_BYTES)
}

/// As [`widen`], on a lent output. Returns the length of the result, which is at the front of `out`; all other bytes of `out` keep their values,
/// and so do all of them if the call is refused.
///
/// It refuses a file with 1 to 7 or 12, and then with 10 an output that is shorter than the result.
///
/// ```
/// use bolfrega::{widen_into, Refusal};
///
/// let file = [3, 0, 0, 0, 0, 0, 0, 0]; // stage 0 is finishing
/// let mut out = [9; 20];
/// assert_eq!(widen_into(&file, &mut out[..15]), Err(Refusal::Room));
/// assert_eq!(out, [9; 20]);
/// assert_eq!(widen_into(&file, &mut out), Ok(16));
/// assert_eq!(out, [3, 0, 0, 0, 0, 0, 0, 0, 0, 0, 0, 0, 0, 0, 0, 0, 9, 9, 9, 9]);
/// ```
pub fn widen_into(file: &[u8], out: &mut [u8]) -> Result<usize, Refusal> {
    into(raw::widen, file, out)
}

/// Moves a file of [sixteen-byte records](crate#sixteen-byte-records) back to eight bytes. [`widen`] gives the same bytes again.
///
/// It refuses a file with 16, 2 to 7 or 12, and then with 17 a body of more than two symbols.
///
/// ```
/// use bolfrega::{narrow, Refusal};
///
/// let short = [1, 0, 1, 5, 0, 0, 0, 0, 0, 0, 0, 0, 0, 0, 0, 0]; // 0 gives 5
/// assert_eq!(narrow(&short)?, [1, 0, 1, 5, 0, 0, 0, 0]);
/// let long = [1, 0, 3, 5, 6, 7, 0, 0, 0, 0, 0, 0, 0, 0, 0, 0]; // 0 gives 5 6 7
/// assert_eq!(narrow(&long), Err(Refusal::LongBody));
/// assert_eq!(narrow(&long[..8]), Err(Refusal::WideLength));
/// # Ok::<(), Refusal>(())
/// ```
#[cfg(feature = "alloc")]
pub fn narrow(file: &[u8]) -> Result<Vec<u8>, Refusal> {
    whole(raw::narrow, file, FILE_BYTES)
}

/// As [`narrow`], on a lent output. Returns the length of the result, which is at the front of `out`; all other bytes of `out` keep their
/// values, and so do all of them if the call is refused.
///
/// It refuses a file with 16, 2 to 7 or 12, then with 17 a body of more than two symbols, and then with 10 an output that is shorter than the
/// result.
///
/// ```
/// use bolfrega::{narrow_into, Refusal};
///
/// let file = [3, 0, 0, 0, 0, 0, 0, 0, 0, 0, 0, 0, 0, 0, 0, 0]; // stage 0 is finishing
/// let mut out = [9; 10];
/// assert_eq!(narrow_into(&file, &mut out[..7]), Err(Refusal::Room));
/// assert_eq!(narrow_into(&file, &mut out), Ok(8));
/// assert_eq!(out, [3, 0, 0, 0, 0, 0, 0, 0, 9, 9]);
/// ```
pub fn narrow_into(file: &[u8], out: &mut [u8]) -> Result<usize, Refusal> {
    into(raw::narrow, file, out)
}

/// Unfolds a file of [sixteen-byte records](crate#sixteen-byte-records) to one of eight bytes, for [`check`](crate::check) and all other calls.
///
/// A body of more than two symbols becomes its first symbol and a *chain procedure* for the rest, and so on until two symbols are left. Each
/// body has chain procedures of its own. They are numbered from one above the highest procedure in use, as the head or a symbol of any rule, in
/// file order and left to right. The rules are put in file order; moves and finishing stages are the same. Each procedure of the file derives
/// the same runs as before, so a verdict on the result is one on the file; joins, rows, passes and rules are those of the result.
///
/// It refuses a file with 16, 2 to 7 or 12, and then with 18 one that would need procedure 64 or a 257th rule.
///
/// ```
/// use bolfrega::{check, unfold, Verdict};
///
/// let wide = [
///     [1, 0, 4, 1, 2, 129, 3, 0, 0, 0, 0, 0, 0, 0, 0, 0], // 0 gives 1 2 (procedure 1) 3
///     [1, 1, 0, 0, 0, 0, 0, 0, 0, 0, 0, 0, 0, 0, 0, 0],   // 1 gives nothing
/// ]
/// .concat();
/// let file = unfold(&wide)?;
/// assert_eq!(
///     file,
///     [
///         [1, 0, 2, 1, 130, 0, 0, 0],   // 0 gives 1 (procedure 2)
///         [1, 1, 0, 0, 0, 0, 0, 0],     // 1 gives nothing
///         [1, 2, 2, 2, 131, 0, 0, 0],   // 2 gives 2 (procedure 3)
///         [1, 3, 2, 129, 3, 0, 0, 0],   // 3 gives (procedure 1) 3
///     ]
///     .concat()
/// );
/// let mut buffer = [0; 64];
/// let Verdict::Broken(broken) = check(&file, 1_024, 1_000_000, &mut buffer)?.verdict else { panic!("there is no sheet") };
/// assert_eq!(broken.run, Ok(&[1, 2, 3][..]));
/// # Ok::<(), bolfrega::Refusal>(())
/// ```
#[cfg(feature = "alloc")]
pub fn unfold(file: &[u8]) -> Result<Vec<u8>, Refusal> {
    whole(raw::unfold, file, FILE_BYTES)
}

/// As [`unfold`], on a lent output. Returns the length of the result, which is at the front of `out`; all other bytes of `out` keep their
/// values, and so do all of them if the call is refused.
///
/// It refuses a file with 16, 2 to 7 or 12, then with 18 one that would need procedure 64 or a 257th rule, and then with 10 an output that is
/// shorter than the result.
///
/// ```
/// use bolfrega::{unfold_into, Refusal};
///
/// let wide = [1, 0, 3, 5, 6, 7, 0, 0, 0, 0, 0, 0, 0, 0, 0, 0]; // 0 gives 5 6 7
/// let mut out = [9; 18];
/// assert_eq!(unfold_into(&wide, &mut out[..15]), Err(Refusal::Room));
/// assert_eq!(unfold_into(&wide, &mut out), Ok(16));
/// assert_eq!(out, [1, 0, 2, 5, 129, 0, 0, 0, 1, 1, 2, 6, 7, 0, 0, 0, 9, 9]);
/// // The last procedure is in use, and there is none above it.
/// assert_eq!(unfold_into(&[1, 63, 3, 5, 6, 7, 0, 0, 0, 0, 0, 0, 0, 0, 0, 0], &mut out), Err(Refusal::Chains));
/// ```
pub fn unfold_into(file: &[u8], out: &mut [u8]) -> Result<usize, Refusal> {
    into(raw::unfold, file, out)
}

/// As [`unfold`], for a check from the procedures in `starts` ([`check_from`](crate::check_from)): each of them counts as in use, whether or not
/// a rule has it, so that no member is a chain procedure. Of procedure 0 alone ([`Starts::INITIAL`]) it gives what `unfold` gives.
///
/// It refuses a file with 16, 2 to 7 or 12, and then with 18 one that would need procedure 64 or a 257th rule.
///
/// ```
/// use bolfrega::{unfold_from, Refusal, Starts};
///
/// let wide = [1, 0, 3, 5, 6, 7, 0, 0, 0, 0, 0, 0, 0, 0, 0, 0]; // 0 gives 5 6 7
/// let starts = Starts::of([0, 1]).expect("no procedure is above 63");
/// let file = unfold_from(&wide, starts)?;
/// // Procedure 1 has no rule, and it gets none: the chain procedure is 2.
/// assert_eq!(file, [[1, 0, 2, 5, 130, 0, 0, 0], [1, 2, 2, 6, 7, 0, 0, 0]].concat());
/// // There is no procedure above 63.
/// assert_eq!(unfold_from(&wide, Starts::of([63]).unwrap()), Err(Refusal::Chains));
/// # Ok::<(), Refusal>(())
/// ```
#[cfg(feature = "alloc")]
pub fn unfold_from(file: &[u8], starts: Starts) -> Result<Vec<u8>, Refusal> {
    whole(from(starts), file, FILE_BYTES)
}

/// As [`unfold_from`], on a lent output. Returns the length of the result, which is at the front of `out`; all other bytes of `out` keep their
/// values, and so do all of them if the call is refused.
///
/// It refuses a file with 16, 2 to 7 or 12, then with 18 one that would need procedure 64 or a 257th rule, and then with 10 an output that is
/// shorter than the result.
///
/// ```
/// use bolfrega::{unfold_from_into, Refusal, Starts};
///
/// let wide = [1, 0, 3, 5, 6, 7, 0, 0, 0, 0, 0, 0, 0, 0, 0, 0]; // 0 gives 5 6 7
/// let starts = Starts::of([62]).expect("no procedure is above 63");
/// let mut out = [9; 18];
/// assert_eq!(unfold_from_into(&wide, starts, &mut out[..15]), Err(Refusal::Room));
/// assert_eq!(unfold_from_into(&wide, starts, &mut out), Ok(16));
/// assert_eq!(out, [1, 0, 2, 5, 191, 0, 0, 0, 1, 63, 2, 6, 7, 0, 0, 0, 9, 9]);
/// ```
pub fn unfold_from_into(file: &[u8], starts: Starts, out: &mut [u8]) -> Result<usize, Refusal> {
    into(from(starts), file, out)
}

/// Unfolding for these procedures, on numbers.
fn from(starts: Starts) -> impl Call {
    move |file, record, length, out| raw::unfold_from(file, starts.bits(), record, length, out)
}

/// One of the calls on numbers: file, record, length, output.
trait Call: Fn(&[u8], &mut u64, &mut u64, &mut [u8]) -> u64 {}

impl<F: Fn(&[u8], &mut u64, &mut u64, &mut [u8]) -> u64> Call for F {}

fn into(call: impl Call, file: &[u8], out: &mut [u8]) -> Result<usize, Refusal> {
    let (mut record, mut length) = (0, 0);
    match call(file, &mut record, &mut length, out) {
        raw::CONVERTED => Ok(length as usize),
        number => Err(Refusal::from_number(number, record)),
    }
}

/// The whole result, for which `most` bytes always suffice.
#[cfg(feature = "alloc")]
fn whole(call: impl Call, file: &[u8], most: usize) -> Result<Vec<u8>, Refusal> {
    let mut out = vec![0; most];
    let length = into(call, file, &mut out)?;
    out.truncate(length);
    Ok(out)
}
