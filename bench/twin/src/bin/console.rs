//! The program `console`: reads commands from standard input, answers on standard output.

use std::io;

fn main() {
    // An output that nobody reads any more ends the conversation; there is nobody to tell.
    let _ = twin::console::converse(io::stdin().lock(), io::stdout().lock());
}
