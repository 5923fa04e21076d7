//! A table of records of one width, in a buffer that is used again from call to call.

/// Records behind each other in a buffer. Only the first `records` of them are there for readers.
pub(crate) struct Table {
    words: Vec<u32>,
    width: usize,
    records: usize,
}

impl Table {
    pub(crate) fn new(width: usize) -> Table {
        Table { words: Vec::new(), width, records: 0 }
    }

    /// Makes room for so many records. A table never shrinks.
    pub(crate) fn grow(&mut self, records: usize) {
        let words = records.saturating_mul(self.width);
        if self.words.len() < words {
            self.words.resize(words, 0);
        }
    }

    /// The room for at most so many records, to be lent to a call. Until `hold` nobody reads what it leaves there.
    pub(crate) fn lend(&mut self, most: usize) -> &mut [u32] {
        self.records = 0;
        let words = self.words.len().min(most.saturating_mul(self.width));
        self.words.get_mut(..words).unwrap_or_default()
    }

    /// Says how many records a call has left.
    pub(crate) fn hold(&mut self, records: usize) {
        self.records = records.min(self.whole_records());
    }

    pub(crate) fn records(&self) -> usize {
        self.records
    }

    /// The words of all records.
    pub(crate) fn words(&self) -> &[u32] {
        self.words.get(..self.records.saturating_mul(self.width)).unwrap_or_default()
    }

    /// The words of one record.
    pub(crate) fn record(&self, number: usize) -> Option<&[u32]> {
        let first = number.checked_mul(self.width)?;
        self.words().get(first..first.checked_add(self.width)?)
    }

    /// How many records there is room for.
    fn whole_records(&self) -> usize {
        self.words.len().checked_div(self.width).unwrap_or(0)
    }
}

#[cfg(test)]
impl Table {
    /// A table that holds these words, whatever they are.
    pub(crate) fn holding(width: usize, words: Vec<u32>) -> Table {
        let mut table = Table { words, width, records: 0 };
        table.hold(usize::MAX);
        table
    }

    pub(crate) fn room(&self) -> usize {
        self.whole_records()
    }
}
