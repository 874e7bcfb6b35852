//! Text and tables meet in entries, one to a line.

use crate::entries::Tables;
use crate::room;

/// A well-formed number of any length. One that is longer than any range is kept as a number
/// that is out of every range, so its digits need no room.
pub type Number = i128;

const OUT_OF_EVERY_RANGE: Number = 1_000_000_000_000_000_000_000;

#[derive(Clone, Copy, Debug, PartialEq, Eq)]
pub struct Wire {
    pub parent: Number,
    pub resistance: Number,
    pub capacitance: Number,
    pub site: Number,
}

#[derive(Clone, Copy, Debug, PartialEq, Eq)]
pub enum Entry {
    Type { input_load: Number, resistance: Number, own_delay: Number },
    Driver { resistance: Number },
    Point { wire: Wire },
    Sink { wire: Wire, pin_load: Number, due: Number },
    Malformed,
}

impl Entry {
    /// The entry of one line, its line feed taken off.
    pub fn of_line(line: &[u8]) -> Entry {
        let fields: Vec<&[u8]> = line.split(|&byte| byte == b'\t').collect();
        Entry::of_fields(&fields).unwrap_or(Entry::Malformed)
    }

    fn of_fields(fields: &[&[u8]]) -> Option<Entry> {
        match *fields {
            [b"T", input_load, resistance, own_delay] => Some(Entry::Type {
                input_load: number(input_load)?,
                resistance: number(resistance)?,
                own_delay: number(own_delay)?,
            }),
            [b"D", resistance] => Some(Entry::Driver { resistance: number(resistance)? }),
            [b"W", parent, resistance, capacitance, site] => {
                Some(Entry::Point { wire: wire(parent, resistance, capacitance, site)? })
            }
            [b"S", parent, resistance, capacitance, site, pin_load, due] => Some(Entry::Sink {
                wire: wire(parent, resistance, capacitance, site)?,
                pin_load: number(pin_load)?,
                due: signed(due)?,
            }),
            _ => None,
        }
    }

    /// The entry of a type given as tables.
    pub fn of_type(tables: &Tables, index: usize) -> Entry {
        let words = &tables.types[index * room::TYPE_WORDS..];
        Entry::Type {
            input_load: words[0].into(),
            resistance: words[1].into(),
            own_delay: words[2].into(),
        }
    }

    /// The entry of a row given as tables: malformed where a field is not zero that its line
    /// would lack.
    pub fn of_row(tables: &Tables, row: usize) -> Entry {
        let words = &tables.rows[row * room::ROW_WORDS..][..room::ROW_WORDS];
        let [kind, parent, resistance, capacitance, site, pin_load] = words else {
            unreachable!("a row has six words")
        };
        let due = tables.due[row];
        let wire = Wire {
            parent: (*parent).into(),
            resistance: (*resistance).into(),
            capacitance: (*capacitance).into(),
            site: (*site).into(),
        };
        let no_pin = *pin_load == 0 && due == 0;
        let no_wire = *parent == 0 && *capacitance == 0 && *site == 0;
        match kind {
            0 if no_wire && no_pin => Entry::Driver { resistance: (*resistance).into() },
            1 if no_pin => Entry::Point { wire },
            2 => Entry::Sink { wire, pin_load: (*pin_load).into(), due: due.into() },
            _ => Entry::Malformed,
        }
    }
}

fn wire(parent: &[u8], resistance: &[u8], capacitance: &[u8], site: &[u8]) -> Option<Wire> {
    Some(Wire {
        parent: number(parent)?,
        resistance: number(resistance)?,
        capacitance: number(capacitance)?,
        site: number(site)?,
    })
}

/// "Decimal without leading zeros or plus sign."
fn number(field: &[u8]) -> Option<Number> {
    let well_formed = match field {
        [] => false,
        [b'0'] => true,
        [b'0', ..] => false,
        _ => field.iter().all(u8::is_ascii_digit),
    };
    if !well_formed {
        return None;
    }
    if field.len() > 20 {
        return Some(OUT_OF_EVERY_RANGE);
    }
    Some(field.iter().fold(0, |value, digit| 10 * value + Number::from(digit - b'0')))
}

/// "Only a required time may have a minus, and `-0` is malformed."
fn signed(field: &[u8]) -> Option<Number> {
    match field {
        [b'-', digits @ ..] => number(digits).filter(|&value| value != 0).map(|value| -value),
        _ => number(field),
    }
}
