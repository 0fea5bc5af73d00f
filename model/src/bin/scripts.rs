//! Prints script input for the bench program, or with `stdout` what is expected of it.

use katan_model::script::Script;
use katan_model::scripts::input;
use std::io::Write;

fn main() {
    let printed = match std::env::args().nth(1).as_deref() {
        Some("stdin") => input(),
        Some("stdout") => Script::output(&input()).into_bytes(),
        _ => {
            eprintln!("usage: scripts stdin|stdout");
            std::process::exit(2);
        }
    };
    std::io::stdout()
        .write_all(&printed)
        .expect("standard output can be written");
}
