//! The tables checked in one pass, and the depth-first order of the rows.

use crate::entries::Tables;
use crate::net::Refusal;
use crate::room;

pub struct Tree {
    /// The rows in depth-first order, parents before children.
    pub order: [u16; room::ROWS],
    /// The number of each row's site, where it has one.
    pub site: [u8; room::ROWS],
    /// Where in the order the rows at or below each row end.
    ends: [u16; room::ROWS],
}

impl Tree {
    pub fn new() -> Tree {
        Tree { order: [0; room::ROWS], site: [0; room::ROWS], ends: [0; room::ROWS] }
    }

    /// Checks the tables in full and fills the tree; in place, as a copy would cost a small net.
    pub fn check(&mut self, tables: &Tables) -> Result<(), Refusal> {
        check_types(tables)?;
        self.check_rows(tables)?;
        self.put_in_order(tables)
    }

    /// The rows of one parent stand one after the other, the last one's end being the parent's.
    pub fn has_later_sibling(&self, row: usize, parent: usize) -> bool {
        self.ends[row] != self.ends[parent]
    }

    fn check_rows(&mut self, tables: &Tables) -> Result<(), Refusal> {
        let first_line = tables.type_count + 1;
        let mut sites = 0;
        if tables.row_count == 0 {
            return Err(Refusal::at(1, first_line));
        }
        let rows = tables.rows.chunks_exact(room::ROW_WORDS).take(room::ROWS);
        for (row, words) in rows.take(tables.row_count).enumerate() {
            let words: &[u32; room::ROW_WORDS] = words.try_into().expect("six");
            let number = if row == 0 {
                driver_fault(words, tables.due[0])
            } else {
                self.site[row] = sites as u8;
                sites += usize::from(words[4] == 1);
                let number = row_fault(words, tables.due[row], sites);
                if number == 0 && self.bad_parent(tables, row, words[1] as usize) {
                    4
                } else {
                    number
                }
            };
            if number != 0 {
                return Err(Refusal::at(number, first_line + row));
            }
        }
        if tables.row_count > room::ROWS {
            return Err(Refusal::at(3, first_line + room::ROWS));
        }
        Ok(())
    }

    fn bad_parent(&self, tables: &Tables, row: usize, parent: usize) -> bool {
        parent >= row || tables.rows[parent * room::ROW_WORDS] == 2
    }

    /// Sizes from the last row up, then places from the first row down: no stack needed.
    fn put_in_order(&mut self, tables: &Tables) -> Result<(), Refusal> {
        let count = tables.row_count;
        let parent = |row: usize| tables.rows[row * room::ROW_WORDS + 1] as usize;
        let mut size = [1u16; room::ROWS];
        for row in (1..count).rev() {
            size[parent(row)] += size[row];
        }
        let mut next = [1u16; room::ROWS];
        self.ends[0] = size[0];
        for row in 0..count {
            if size[row] == 1 && tables.rows[row * room::ROW_WORDS] != 2 {
                return Err(Refusal::at(5, tables.type_count + 1 + row));
            }
            if row > 0 {
                let place = next[parent(row)];
                next[parent(row)] += size[row];
                next[row] = place + 1;
                self.ends[row] = place + size[row];
                self.order[place as usize] = row as u16;
            }
        }
        Ok(())
    }
}

fn check_types(tables: &Tables) -> Result<(), Refusal> {
    let types = tables.types.chunks_exact(room::TYPE_WORDS).take(room::TYPES);
    for (index, words) in types.take(tables.type_count).enumerate() {
        if words[0] > room::CAPACITANCE || words[1] > room::RESISTANCE || words[2] > room::OWN_DELAY
        {
            return Err(Refusal::at(2, index + 1));
        }
    }
    if tables.type_count > room::TYPES {
        return Err(Refusal::at(3, room::TYPES + 1));
    }
    Ok(())
}

fn driver_fault(words: &[u32; room::ROW_WORDS], due: i64) -> u32 {
    let [kind, parent, resistance, capacitance, site, pin_load] = *words;
    if kind | parent | capacitance | site | pin_load != 0 || due != 0 {
        1
    } else if resistance > room::RESISTANCE {
        2
    } else {
        0
    }
}

fn row_fault(words: &[u32; room::ROW_WORDS], due: i64, sites: usize) -> u32 {
    let [kind, parent, resistance, capacitance, site, pin_load] = *words;
    if kind != 2 && (kind != 1 || pin_load != 0 || due != 0) {
        1
    } else if parent > room::PARENT
        || resistance > room::RESISTANCE
        || capacitance > room::CAPACITANCE
        || site > 1
        || pin_load > room::CAPACITANCE
        || !(-room::DUE..=room::DUE).contains(&due)
    {
        2
    } else if sites > room::SITES {
        3
    } else {
        0
    }
}
