//! What calls on a monitor leave.

use oskhrein::raw::Monitor;

use crate::lent::Lent;
use crate::report::answer_text;

/// What a call on a monitor answered and left.
pub struct Left<'a> {
    /// The answer.
    pub answer: u8,
    /// The monitor as it is left.
    pub monitor: &'a Monitor,
    /// The workspace as it is left.
    pub workspace: &'a Lent,
}

impl Left<'_> {
    /// Whether another left the same.
    pub fn same(&self, other: &Left) -> bool {
        self.answer == other.answer
            && self.monitor == other.monitor
            && self.workspace == other.workspace
    }

    /// In what another, which was got, differs from this, which was expected.
    pub fn against(&self, got: &Left) -> String {
        let mut text =
            format!("  expected {}, got {}", answer_text(self.answer), answer_text(got.answer));
        if self.monitor != got.monitor {
            let (expected, got) = (self.monitor, got.monitor);
            text += &format!("\n  expected monitor {expected:x?}\n  got monitor {got:x?}");
        }
        if let Some((place, word, other)) = self.workspace.first_difference(got.workspace) {
            text += &format!("\n  workspace word {place}: expected {word:08x}, got {other:08x}");
        }
        text
    }
}
