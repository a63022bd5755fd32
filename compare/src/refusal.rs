//! The numbers that a call returns (document 01, the table under "Calls"; document 02), and the test that gives one.

pub const ACCEPTED: u32 = 0;
/// Lengths or form wrong.
pub const WRONG_FORM: u32 = 1;
/// f, replica or view out of range; a list that is not f+1 long.
pub const OUT_OF_RANGE: u32 = 2;
/// A certificate or block number not below its count; a place past the movements.
pub const UNKNOWN_NUMBER: u32 = 3;
pub const WRONG_STATUS: u32 = 4;
/// A certificate that does not fit, a signer twice, or a replica that does not lead; a named movement that does not fit
/// its entry, lies outside the line or was used.
pub const WRONG_CERTIFICATE: u32 = 5;
/// Prepare: block 0 or a wrong parent.
pub const WRONG_BLOCK: u32 = 6;
/// A view below min_view; prepare: another view than min_view, or the flag.
pub const WRONG_VIEW: u32 = 7;
/// The limit is too low, or reserve would pass the ceiling.
pub const COUNTER_LIMIT: u32 = 8;
/// No free slot for a new block or certificate.
pub const NO_ROOM: u32 = 9;
/// The line or the numbers make no call.
pub const UNREADABLE: u32 = 10;
/// Netting and matching: a movement outside the rules; entering: an entry outside them.
pub const WRONG_MOVEMENT: u32 = 11;
/// Opening: steps that break their rule or are not eight.
pub const WRONG_STEPS: u32 = 12;
/// Waiting movements: an identity that waits already, or that does not where it should leave.
pub const WRONG_IDENTITY: u32 = 13;
/// Waiting movements: 512 wait.
pub const WAITING_FULL: u32 = 14;

/// What a call gives: two values, or the number of the refusal.
pub type Answer = Result<(u32, u32), u32>;

/// Passes if `holds`, else refuses with `number`.
pub fn need(holds: bool, number: u32) -> Result<(), u32> {
    if holds {
        Ok(())
    } else {
        Err(number)
    }
}
