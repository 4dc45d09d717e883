//! The verified engine, from its static library.

use crate::outcome::{Denied, Outcome, Told};

unsafe extern "C" {
    /// Works out a rule's family and its verdict. Answers 0 or the number of a denial; where it answers 0 it has written,
    /// in this order, the questions opened by the family and by the verdict, the verdict, and the numbers
    /// of smallest passing and smallest stopping groups.
    fn quorum_measure(text: *const u8, len: usize, out: *mut u64, out_len: usize) -> u64;
}

/// Never inlined, so that its instructions can be counted.
#[inline(never)]
pub fn work(text: &[u8]) -> Outcome {
    let mut out = [0; 5];
    // SAFETY: both pointers are to as many elements as the length after each says, and live through the call.
    let denial = unsafe { quorum_measure(text.as_ptr(), text.len(), out.as_mut_ptr(), out.len()) };
    if denial != 0 {
        return Err(Denied(denial));
    }
    let [opened_by_set, opened_by_verdict, verdict, passing, stopping] = out;
    Ok(Told { opened_by_set, opened_by_verdict, verdict, passing, stopping })
}
