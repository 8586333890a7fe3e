//! The refusal numbers of 01 and 02, each under the name of what is at fault.

/// A number of 01's table "Refusal numbers" or of a request of 02; `ACCEPTED` where none is given.
pub type Refusal = u8;

pub const ACCEPTED: Refusal = 0;
pub const SHAPE: Refusal = 1;
pub const IMAGE_LENGTH: Refusal = 2;
pub const IDENTIFIER: Refusal = 3;
pub const VERSION: Refusal = 4;
pub const BYTE_ORDER: Refusal = 5;
pub const BEYOND_IMAGE: Refusal = 6;
pub const PATTERN: Refusal = 7;
pub const LIMIT: Refusal = 8;
pub const SETTINGS: Refusal = 9;
pub const BEYOND_SHEET: Refusal = 10;
pub const SHARED_BYTE: Refusal = 11;
pub const SESSION: Refusal = 12;
pub const EVENT: Refusal = 13;
pub const NO_ITEM: Refusal = 14;
/// 02 No. 1.
pub const KEY: Refusal = 15;
/// 02 No. 2.
pub const RECORD: Refusal = 16;
pub const OTHER_FORM: Refusal = 17;
/// A lent list or room is not of the length that a call needs.
pub const ROOM: Refusal = 25;

/// `Err` with this refusal where `fault` holds.
pub fn refuse_if(fault: bool, refusal: Refusal) -> Result<(), Refusal> {
    if fault {
        Err(refusal)
    } else {
        Ok(())
    }
}
