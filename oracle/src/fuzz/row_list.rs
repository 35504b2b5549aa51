//! Rows written by hand, names numbered as they are bound.

#[derive(Default)]
pub struct RowList {
    pub rows: Vec<(usize, usize)>,
    pub names: usize,
}

impl RowList {
    /// A row that binds a name, with its parts; gives the name.
    pub fn bind(&mut self, tag: usize, parts: &[(usize, usize)]) -> usize {
        self.rows.push((tag, self.names));
        self.rows.extend(parts);
        self.names += 1;
        self.names - 1
    }

    pub fn row(&mut self, tag: usize, number: usize) {
        self.rows.push((tag, number));
    }
}
