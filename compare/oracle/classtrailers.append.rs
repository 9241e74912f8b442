
// For the comparison only: the walk at any cursor.
impl PrespecializationIter<'_, '_> {
    pub fn at(mut self, cursor: u32) -> Self {
        self.cursor = cursor;
        self
    }
}
