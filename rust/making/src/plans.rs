//! The plans of document 01.

use bolfrega::{procedure, FileBuilder};

/// Document 01's sheet S: code 1 writes a tile row, 2 an index row, 3 closes.
pub fn sheet_s() -> FileBuilder {
    let mut making = FileBuilder::new();
    making.step(0, 1, 1).step(0, 3, 2).step(1, 2, 0).finishing(2);
    making
}

/// Document 01's plan A with sheet S.
pub fn plan_a() -> FileBuilder {
    let mut making = sheet_s();
    making
        .rule(0, &[procedure(1), 3])
        .rule(1, &[])
        .rule(1, &[1, procedure(2)])
        .rule(2, &[2, procedure(1)]);
    making
}

/// Document 01's plan B with sheet S.
pub fn plan_b() -> FileBuilder {
    let mut making = plan_a();
    making.rule(2, &[procedure(1)]);
    making
}
