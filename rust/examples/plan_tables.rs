//! Builds net B as tables, has it planned by the proved library, and looks at what could be had at
//! its branch: `cargo run --release --features linked --example plan_tables`.

use zombrict::linked::Planner;
use zombrict::{Refusal, TableWords};

/// Input load, resistance and own delay of a type; six words of a row.
fn net_b() -> TableWords {
    let types = [[2, 3, 10]];
    let rows = [
        [0, 0, 20, 0, 0, 0], // the driver: its resistance
        [1, 0, 4, 5, 0, 0],  // a point: parent, wire resistance and capacitance, no site
        [2, 1, 6, 7, 1, 8],  // a sink with a site, and its pin
        [2, 1, 0, 3, 1, 30],
    ];
    let mut tables = TableWords::empty();
    tables.type_count = types.len();
    tables.row_count = rows.len();
    tables.types[..3].copy_from_slice(types.as_flattened());
    tables.rows[..24].copy_from_slice(rows.as_flattened());
    tables.due[2..4].copy_from_slice(&[1000, 950]);
    tables
}

fn main() -> Result<(), Refusal> {
    let mut planner = Planner::new();
    let net = net_b();
    let (placement, planned) = planner.plan(&net)?;
    println!("slack {} fs, load {} fF", planned.slack, planned.load);
    println!("marks of its two sites: {} {}", placement.mark(0), placement.mark(1));
    println!("unbeaten at row 1: {:?}", planner.list(&net, 1)?);
    println!("their loads alone: {:?}", planner.loads(&net, 1)?);

    let mut wrong = net.clone();
    wrong.rows[2 * 6 + 1] = 3;
    println!("row 2 under row 3: {}", planner.plan(&wrong).unwrap_err());
    Ok(())
}
