//! Prints the input of the Rattle program `vectors`, or with `stdout` the output expected of it.

use katan_model::vectors::calls;

fn main() {
    match std::env::args().nth(1).as_deref() {
        Some("stdin") => {
            for call in calls() {
                println!("{call}");
            }
        }
        Some("stdout") => {
            for call in calls() {
                println!("{}", call.answer());
            }
        }
        _ => {
            eprintln!("usage: vectors stdin|stdout");
            std::process::exit(2);
        }
    }
}
