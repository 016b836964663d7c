//! The bench ticket (document 01, "The bench ticket").

/// "TL flits accepted, TL flits delivered, answers damaged, units duplicate,
/// times gone down."
#[derive(Clone, Copy, Debug, Default, PartialEq, Eq)]
pub struct Ticket {
    pub accepted: u32,
    pub delivered: u32,
    pub damaged: u32,
    pub duplicate: u32,
    pub downs: u32,
}

/// "They stop at 4,294,967,295."
fn grow(count: &mut u32, by: usize) {
    *count = count.saturating_add(by as u32);
}

impl Ticket {
    pub fn count_accepted(&mut self, flits: usize) {
        grow(&mut self.accepted, flits);
    }

    pub fn count_delivered(&mut self, flits: usize) {
        grow(&mut self.delivered, flits);
    }

    pub fn count_damaged(&mut self) {
        grow(&mut self.damaged, 1);
    }

    pub fn count_duplicate(&mut self) {
        grow(&mut self.duplicate, 1);
    }

    pub fn count_down(&mut self) {
        grow(&mut self.downs, 1);
    }

    /// Keys and counts in the order of document 01.
    pub fn rows(&self) -> [(&'static str, u32); 5] {
        [
            ("accepted", self.accepted),
            ("delivered", self.delivered),
            ("damaged", self.damaged),
            ("duplicate", self.duplicate),
            ("downs", self.downs),
        ]
    }

    /// "Written as key=value lines in that order, decimal without leading
    /// zeros, a line feed after each".
    pub fn lines(&self) -> String {
        let mut text = String::new();
        for (key, count) in self.rows() {
            text.push_str(&format!("{key}={count}\n"));
        }
        text
    }
}
