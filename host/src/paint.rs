//! Colours of the text, on a terminal alone.

/// Whether colours are put.
#[derive(Clone, Copy, Debug)]
pub struct Paint(pub bool);

impl Paint {
    fn put(self, code: &str, text: &str) -> String {
        if self.0 {
            format!("\x1b[{code}m{text}\x1b[0m")
        } else {
            text.into()
        }
    }

    pub fn red(self, text: &str) -> String {
        self.put("31", text)
    }

    pub fn green(self, text: &str) -> String {
        self.put("32", text)
    }

    /// For frames that came with bit 28 as 0.
    pub fn cyan(self, text: &str) -> String {
        self.put("36", text)
    }

    pub fn faint(self, text: &str) -> String {
        self.put("2", text)
    }

    pub fn bold(self, text: &str) -> String {
        self.put("1", text)
    }
}
