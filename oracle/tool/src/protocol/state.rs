use crate::tables::{entry, put};
use kewb::DataTable;

/// kewb's tables, built when first asked for, and what was changed in them.
#[derive(Default)]
pub struct State {
    tables: Option<DataTable>,
    /// what stood at a place before each change, undone from the last to the first
    changed: Vec<(usize, usize, u32)>,
}

impl State {
    pub fn tables(&mut self) -> &mut DataTable {
        self.tables.get_or_insert_with(DataTable::default)
    }

    pub fn is_true(&self) -> bool {
        self.changed.is_empty()
    }

    /// Changes one entry, if there is such a one.
    pub fn poke(&mut self, t: usize, i: usize, v: u32) -> Option<()> {
        let old = entry(self.tables(), t, i)?;
        put(self.tables(), t, i, v);
        self.changed.push((t, i, old));
        Some(())
    }

    pub fn mend(&mut self) {
        while let Some((t, i, v)) = self.changed.pop() {
            put(self.tables(), t, i, v);
        }
    }
}
