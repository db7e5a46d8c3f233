//! The part of the program that answers stored cases again, as a program of its own: the one
//! that `mutants` builds with each change.

mod bound;
mod build_tree;
mod calls;
mod driver;
mod listing;
mod lower;
mod names;
mod original;
mod outcome;
mod packed;
mod program_bytes;
mod reader;
mod records;
mod refuse;
mod state_bytes;
mod tree;
mod value_text;

fn main() {
    refuse::quiet_refusals();
    let folder = std::env::args().nth(1).expect("the folder of the stored answers");
    if let Err(why) = records::replay(&folder) {
        eprintln!("{why}");
        std::process::exit(1);
    }
}
