//! Draws the example evening as an SVG: the sheets of journal A, the holds of
//! journal B, and the pairs that the join makes of them. It is docs/evening.svg.

mod drawing;
mod evening;
mod timeline;

use evening::Evening;
use std::process::ExitCode;

const EVENING: &[u8] = include_bytes!("../../examples/evening.txt");

fn main() -> ExitCode {
    match Evening::told(EVENING) {
        Ok(evening) => {
            print!("{}", timeline::drawn(&evening).svg());
            ExitCode::SUCCESS
        }
        Err(told) => {
            eprintln!("picture: examples/evening.txt: {told}");
            ExitCode::FAILURE
        }
    }
}
