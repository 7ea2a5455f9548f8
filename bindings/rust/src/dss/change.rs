//! Changing one parameter of a request already built: added.
use crate::loan::Loan;
use crate::port;
use crate::Result;

/// A frame with new bytes in the first parameter of a code point, the frame being one with one object. Its format byte, whatever
/// flags it has, and its correlation stay; its segments are those that the writer cuts for the new size.
///
/// In this order: `Incomplete` or `DeadContinuation`; the errors of its head; `UnsoundData` where bytes are left over; the errors
/// of its object; `UnsoundData` of the object and its parameters; `NotFound`; `UnreadableSize`. A place is a byte of `frame`.
///
/// ```
/// use lattrugone::ddm::DdmBuilder;
/// use lattrugone::dss::{build_dss_request, change_request};
///
/// # fn main() -> lattrugone::Result<()> {
/// let request = |extension: &[u8]| {
///     let object = DdmBuilder::new(0x2412).add_u16(0x0010, 1).add_code_point(0x147A, extension).build();
///     build_dss_request(1, false, &object)
/// };
/// let built = request(b"0412");
/// for block in ["0430", "07001"] {
///     assert_eq!(change_request(&built, 0x147A, block.as_bytes())?, request(block.as_bytes()));
/// }
/// # Ok(())
/// # }
/// ```
pub fn change_request(frame: &[u8], code_point: u16, new: &[u8]) -> Result<Vec<u8>> {
    let loan = <Loan>::of(|loan| {
        let (room, words) = (&mut loan.room, &mut loan.words);
        port::change_request(frame, code_point, new, room, words)
    })?;
    Ok(loan.room)
}
