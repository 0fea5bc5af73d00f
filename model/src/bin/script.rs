//! Runs a script from standard input, as the bench program does.

use katan_model::script::Script;
use std::io::Read;

fn main() {
    let mut input = Vec::new();
    std::io::stdin()
        .read_to_end(&mut input)
        .expect("standard input can be read");
    print!("{}", Script::output(&input));
}
