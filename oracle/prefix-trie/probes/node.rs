/// Appended for the judge: the three pattern tables.
pub(crate) mod probe {
    use super::{CHILD_COVER_PATTERN, DATA_COVER_PATTERN, DATA_LPM_PATTERN, LEVEL_SIZE};

    /// Entry `LEVEL_SIZE * level + pos` of one table.
    pub(crate) fn pattern(section: usize, level: usize, pos: usize) -> u32 {
        let tables = [DATA_LPM_PATTERN, DATA_COVER_PATTERN, CHILD_COVER_PATTERN];
        tables[section][LEVEL_SIZE * level + pos]
    }
}
