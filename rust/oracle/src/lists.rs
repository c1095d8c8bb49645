//! What the lists share: records of numbers of two bytes, low byte first, and the answers to them.

/// What a program reads, and what it has to print.
#[derive(Default)]
pub(crate) struct List {
    pub(crate) records: Vec<u8>,
    pub(crate) answers: String,
}

impl List {
    pub(crate) fn record(&mut self, numbers: &[u16]) {
        self.records
            .extend(numbers.iter().flat_map(|n| n.to_le_bytes()));
    }

    pub(crate) fn answer(&mut self, line: &str) {
        self.answers.push_str(line);
        self.answers.push('\n');
    }

    pub(crate) fn done(self) -> [Vec<u8>; 2] {
        [self.records, self.answers.into_bytes()]
    }
}

/// Numbers on a line.
pub(crate) fn spaced<T: ToString>(numbers: &[T]) -> String {
    let numbers: Vec<String> = numbers.iter().map(T::to_string).collect();
    numbers.join(" ")
}

pub(crate) fn small(n: usize) -> u16 {
    assert!(n < 65536, "{} has no two bytes", n);
    n as u16
}

/// The ends of 32 bits in two bytes: from 65,280 on, as far below 2^32 as below 2^16.
pub(crate) fn narrow(n: u32) -> u16 {
    assert!(n < 0xff00 || n >= 0xffff_ff00, "{} has no two bytes", n);
    n as u16
}
