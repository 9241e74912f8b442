
// For the comparison only: the walks at any cursor.
impl VTableIter<'_, '_> {
    pub fn at(mut self, cursor: u32) -> Self {
        self.cursor = cursor;
        self
    }
}

impl OverrideEntryIter<'_, '_> {
    pub fn at(mut self, cursor: u32) -> Self {
        self.cursor = cursor;
        self
    }
}

impl DefaultOverrideEntryIter<'_, '_> {
    pub fn at(mut self, cursor: u32) -> Self {
        self.cursor = cursor;
        self
    }
}
