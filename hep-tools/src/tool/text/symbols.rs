//! The names and labels of a text, and its instructions as they are written.

/// An instruction as it is written: the real address of the first, and how often it stands there.
#[derive(Clone, Debug)]
struct Written {
    start: usize,
    times: usize,
    text: String,
}

#[derive(Clone, Debug)]
struct Label {
    real: usize,
    /// Where its distance counts from.
    origin: usize,
    name: String,
}

/// What a text calls things; of bytes there is none.
#[derive(Clone, Debug, Default)]
pub struct Symbols {
    written: Vec<Written>,
    labels: Vec<Label>,
    /// The real addresses of `program at`.
    origins: Vec<usize>,
    /// The lines `name NAME = MEANING`.
    names: Vec<(String, String)>,
}

impl Symbols {
    pub(super) fn write(&mut self, start: usize, times: usize, text: String) {
        self.written.push(Written { start, times, text });
    }

    pub(super) fn label(&mut self, real: usize, origin: usize, name: &str) {
        self.labels.push(Label { real, origin, name: name.to_string() });
    }

    pub(super) fn origin(&mut self, real: usize) {
        self.origins.push(real);
    }

    pub(super) fn name(&mut self, name: &str, meaning: String) {
        self.names.push((name.to_string(), meaning));
    }

    pub fn names(&self) -> &[(String, String)] {
        &self.names
    }

    pub fn has_labels(&self) -> bool {
        !self.labels.is_empty()
    }

    /// The instruction at a real address as it is written.
    pub fn written(&self, real: usize) -> Option<&str> {
        let next = self.written.partition_point(|written| written.start <= real);
        let written = self.written.get(next.checked_sub(1)?)?;
        (real < written.start + written.times).then_some(&written.text)
    }

    /// A real address as the nearest label before it that is not before the window's base, and the distance from there.
    pub fn place(&self, base: usize, real: usize) -> Option<String> {
        let next = self.labels.partition_point(|label| label.real <= real);
        let label = self.labels.get(next.checked_sub(1)?)?;
        match real - label.real {
            _ if label.real < base => None,
            0 => Some(label.name.clone()),
            distance => Some(format!("{}+{distance}", label.name)),
        }
    }

    /// The lines of the program section that stand before the cell at a real address.
    pub fn lines_before(&self, real: usize) -> Vec<String> {
        let here = || self.labels.iter().filter(move |label| label.real == real);
        let earlier = here().filter(|label| label.origin < real);
        let mut lines: Vec<String> = earlier.map(|label| format!("{}:", label.name)).collect();
        if self.origins.contains(&real) {
            lines.push(format!("program at {real}"));
        }
        let own = here().filter(|label| label.origin == real);
        lines.extend(own.map(|label| format!("{}:", label.name)));
        lines
    }
}
