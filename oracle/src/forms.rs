//! A sheet in either of its forms, and what a bad one prints. This is the same
//! whether the sheet is then run or traced.

use crate::binary::Sheet;
use crate::text::{self, TextError};

/// What a bad sheet prints.
pub const BAD_SHEET: &str = "bad sheet\n";

/// What a sheet in binary form prints, if this is what a good one does.
pub(crate) fn of_binary(bytes: &[u8], of_good: fn(&Sheet) -> String) -> String {
    Sheet::decode(bytes).map_or_else(|_| BAD_SHEET.to_string(), |sheet| of_good(&sheet))
}

/// The same of a sheet in either form, see [`looks_like_text`].
pub(crate) fn of_either(bytes: &[u8], of_good: fn(&Sheet) -> String) -> Result<String, TextError> {
    if looks_like_text(bytes) {
        return Ok(of_good(&text::assemble(bytes)?));
    }
    Ok(of_binary(bytes, of_good))
}

/// The first byte decides. A line of text begins with a printable character
/// or white space; a binary sheet begins with byte 1, or is a bad one. Some
/// editors put a byte order mark before the first line.
pub fn looks_like_text(bytes: &[u8]) -> bool {
    let first = bytes.first();
    first.is_some_and(|byte| byte.is_ascii_graphic() || byte.is_ascii_whitespace())
        || bytes.starts_with(text::BYTE_ORDER_MARK)
}
