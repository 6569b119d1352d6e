//! Lists of labels and data that the writer takes, whose texts are joined to a bundle.

use crate::known::family_of;
use crate::paper::{table, Found, Message, BEGIN, GRAMMARS};
use crate::trial::Trial;

/// The texts of a list, joined in its order, and what the list says of them.
#[derive(Default)]
pub struct Joined {
    text: Vec<u8>,
    messages: Vec<Message>,
}

impl Joined {
    /// Adds an item and its written text.
    pub fn add(&mut self, label: &[u8], data: &[u8], written: &[u8]) {
        let start = self.text.len();
        self.text.extend_from_slice(written);
        self.messages.push(Message {
            start,
            length: written.len(),
            label: (start + BEGIN.len(), label.len()),
            family: family_of(label),
            data: data.to_vec(),
        });
    }

    /// Under all grammars the text is a bundle with that list, in whichever style each item was written.
    pub fn index(&self, trial: &mut Trial) {
        let table = table(&self.messages);
        let (room, list) = (table.len(), Ok(Found::alone(table)));
        for grammar in GRAMMARS {
            trial.index(&self.text, grammar, room, &list);
        }
    }
}
