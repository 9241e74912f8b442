
// For the comparison only: the walks at any cursor, and where they stand.
impl FieldIter<'_, '_> {
    pub fn at(mut self, cursor: usize) -> Self {
        self.cursor = cursor;
        self
    }

    pub fn cursor(&self) -> usize {
        self.cursor
    }
}

impl<'a, 'p> FieldRecordIter<'a, 'p> {
    pub fn for_comparison(
        rt: &'p SwiftRuntime<'a>,
        base_va: u64,
        count: u32,
        entry_size: u32,
        cursor: u32,
    ) -> Self {
        Self {
            rt,
            base_va,
            count,
            entry_size,
            cursor,
        }
    }

    pub fn base_va(&self) -> u64 {
        self.base_va
    }
}
