//! Prints lists of calls of the bench, or with `stdout` the answers expected of it.

use katan_model::lists::lines;

fn main() {
    match std::env::args().nth(1).as_deref() {
        Some("stdin") => {
            for (call, _) in lines() {
                println!("{call}");
            }
        }
        Some("stdout") => {
            for (_, answer) in lines() {
                println!("{answer}");
            }
        }
        _ => {
            eprintln!("usage: lists stdin|stdout");
            std::process::exit(2);
        }
    }
}
