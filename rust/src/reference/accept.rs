//! The refusal list and its order: one walk through the entries, whether they came as text or as
//! tables.

use super::entry::{Entry, Number, Wire};
use crate::entries::Tables;
use crate::net::{Kind, Net, Pin, Refusal, Row, Type};
use crate::room;

/// Reads a net from text.
pub fn read(text: &[u8]) -> Result<Net, Refusal> {
    if text.len() > room::TEXT {
        return Err(Refusal::at(3, 0));
    }
    let mut taken = Taken::default();
    let mut rest = text;
    while !rest.is_empty() {
        let Some(end) = rest.iter().position(|&byte| byte == b'\n') else {
            taken.take(Entry::Malformed)?;
            break;
        };
        taken.take(Entry::of_line(&rest[..end]))?;
        rest = &rest[end + 1..];
    }
    taken.finish()
}

/// Checks a net given as tables. An entry counted past the room is refused before it is read.
pub fn check(tables: &Tables) -> Result<Net, Refusal> {
    if tables.short() {
        return Err(Refusal::at(7, 0));
    }
    let mut taken = Taken::default();
    for index in 0..tables.type_count {
        if index == room::TYPES {
            return Err(Refusal::at(3, taken.lines + 1));
        }
        taken.take(Entry::of_type(tables, index))?;
    }
    for row in 0..tables.row_count {
        if row == room::ROWS {
            return Err(Refusal::at(3, taken.lines + 1));
        }
        taken.take(Entry::of_row(tables, row))?;
    }
    taken.finish()
}

/// Takes the entries of a net that was put together rather than read.
pub fn accept(entries: &[Entry]) -> Result<Net, Refusal> {
    let mut taken = Taken::default();
    for &entry in entries {
        taken.take(entry)?;
    }
    taken.finish()
}

/// What the lines so far have given.
#[derive(Default)]
struct Taken {
    lines: usize,
    types: Vec<Type>,
    rows: Vec<Row>,
    sites: usize,
}

impl Taken {
    /// One line: 1, 2, 3, 4 in this order.
    fn take(&mut self, entry: Entry) -> Result<(), Refusal> {
        self.lines += 1;
        let number = if !self.in_form(entry) {
            1
        } else if !in_range(entry) {
            2
        } else if !self.has_room(entry) {
            3
        } else if !self.has_parent(entry) {
            4
        } else {
            self.add(entry);
            return Ok(());
        };
        Err(Refusal::at(number, self.lines))
    }

    /// "First the types, then one driver, then the rows." A driver, once taken, is row 0.
    fn in_form(&self, entry: Entry) -> bool {
        let driver_taken = !self.rows.is_empty();
        match entry {
            Entry::Malformed => false,
            Entry::Type { .. } | Entry::Driver { .. } => !driver_taken,
            Entry::Point { .. } | Entry::Sink { .. } => driver_taken,
        }
    }

    fn has_room(&self, entry: Entry) -> bool {
        match entry {
            Entry::Type { .. } => self.types.len() < room::TYPES,
            Entry::Point { wire } | Entry::Sink { wire, .. } => {
                let sites = self.sites + usize::from(wire.site == 1);
                self.rows.len() < room::ROWS && sites <= room::SITES
            }
            Entry::Driver { .. } | Entry::Malformed => true,
        }
    }

    fn has_parent(&self, entry: Entry) -> bool {
        match entry {
            Entry::Point { wire } | Entry::Sink { wire, .. } => {
                // The row being taken is not yet among the rows, so this is "an earlier row".
                let parent = self.rows.get(wire.parent as usize);
                parent.is_some_and(|row| !matches!(row.kind, Kind::Sink(_)))
            }
            _ => true,
        }
    }

    fn add(&mut self, entry: Entry) {
        match entry {
            Entry::Type { input_load, resistance, own_delay } => self.types.push(Type {
                input_load: input_load as u32,
                resistance: resistance as u32,
                own_delay: own_delay as u32,
            }),
            Entry::Driver { resistance } => {
                let wire = Wire { parent: 0, resistance, capacitance: 0, site: 0 };
                self.add_row(Kind::Driver, wire)
            }
            Entry::Point { wire } => self.add_row(Kind::Point, wire),
            Entry::Sink { wire, pin_load, due } => {
                let pin = Pin { load: pin_load as u32, due: due as i64 };
                self.add_row(Kind::Sink(pin), wire)
            }
            Entry::Malformed => unreachable!("refused by its form"),
        }
    }

    fn add_row(&mut self, kind: Kind, wire: Wire) {
        self.sites += wire.site as usize;
        self.rows.push(Row {
            kind,
            parent: wire.parent as usize,
            resistance: wire.resistance as u32,
            capacitance: wire.capacitance as u32,
            site: wire.site == 1,
        });
    }

    /// After the last line: no driver at all, then 5.
    fn finish(self) -> Result<Net, Refusal> {
        if self.rows.is_empty() {
            return Err(Refusal::at(1, self.lines + 1));
        }
        let net = Net::accepted(self.types, self.rows);
        let below = net.below();
        for (row, entry) in net.rows().iter().enumerate() {
            if !matches!(entry.kind, Kind::Sink(_)) && below[row].is_empty() {
                return Err(Refusal::at(5, net.line(row)));
            }
        }
        Ok(net)
    }
}

fn in_range(entry: Entry) -> bool {
    match entry {
        Entry::Type { input_load, resistance, own_delay } => {
            up_to(input_load, room::CAPACITANCE)
                && up_to(resistance, room::RESISTANCE)
                && up_to(own_delay, room::OWN_DELAY)
        }
        Entry::Driver { resistance } => up_to(resistance, room::RESISTANCE),
        Entry::Point { wire } => wire_in_range(wire),
        Entry::Sink { wire, pin_load, due } => {
            let last = Number::from(room::DUE);
            wire_in_range(wire) && up_to(pin_load, room::CAPACITANCE) && -last <= due && due <= last
        }
        Entry::Malformed => true,
    }
}

fn wire_in_range(wire: Wire) -> bool {
    up_to(wire.parent, room::PARENT)
        && up_to(wire.resistance, room::RESISTANCE)
        && up_to(wire.capacitance, room::CAPACITANCE)
        && up_to(wire.site, 1)
}

fn up_to(number: Number, last: u32) -> bool {
    number <= last.into()
}
