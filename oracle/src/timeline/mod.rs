//! A sheet's run as a picture: a lane for each slot that the sheet uses and a
//! column for each step, as plain text and as SVG.
//!
//! Only one slot acts in a step, so a column has the words of one lane, and no
//! words can meet if each column is as wide as its own.
//!
//! A module uses only those before it in this order: `title`, `svg` (the
//! canvas), `moment` (one step), `course` (all of them), `table`, `plain`,
//! `signs`, `columns`, `lanes`, `ending`, `legend`, `whole`.

mod columns;
mod course;
mod ending;
mod lanes;
mod legend;
mod moment;
mod plain;
mod signs;
mod svg;
mod table;
mod title;
mod whole;

pub use course::Timeline;

/// Most steps of a picture. One of more rows than these make is too tall to
/// be looked at; the plain form has no such limit.
pub const PICTURE_STEPS_AT_MOST: usize = 400;

impl Timeline {
    /// The plain form, for a terminal.
    pub fn plain(&self) -> String {
        plain::plain(self)
    }

    /// The picture, refused if it has more than [`PICTURE_STEPS_AT_MOST`] steps.
    pub fn svg(&self) -> Result<String, String> {
        let steps = self.moments.len();
        if steps > PICTURE_STEPS_AT_MOST {
            return Err(format!(
                "a picture has at most {PICTURE_STEPS_AT_MOST} steps and this sheet has {steps}; \
                 without --svg it is shown whole"
            ));
        }
        Ok(whole::picture(self))
    }
}
