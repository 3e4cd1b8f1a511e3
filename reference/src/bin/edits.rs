//! Prints the cuts and substitutions of the named Rust as the tables of CUTS.md.

fn main() {
    print!("{}", reference::edits::table());
}
