//! Picks the depth rows that stay with a thinned line: `cargo run --example depths`.

use pylonfrith::{Refusal, SimplifyVwIdx};

fn main() -> Result<(), Refusal> {
    let line = [
        (5.0, 2.0),
        (3.0, 8.0),
        (6.0, 20.0),
        (7.0, 25.0),
        (10.0, 10.0),
    ];
    let depths = [12.1, 12.4, 13.0, 12.8, 11.9];

    for index in line.simplify_vw_idx(30.0)? {
        println!("point {index}: {:?}, {} m", line[index], depths[index]);
    }
    Ok(())
}
