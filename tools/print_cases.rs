//! Prints the hand-made cases in batch format; `tools/make_cases` builds and runs it.

#![allow(dead_code)] // The modules of the program made apart have more than is used here.

include!("reference.rs");
mod hand_made;

fn main() {
    for (_, make) in hand_made::HAND_MADE {
        println!("{}", make().line());
    }
}
