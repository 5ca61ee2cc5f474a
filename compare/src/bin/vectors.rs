//! `cargo run --release --bin vectors`: writes the stored cases of the program `vectors` and what it has to print.

use compare::vectors::{cases_file, folder, picked, printout, CASES, PRINTOUT};
use std::fs;
use std::io;

fn main() -> io::Result<()> {
    let cases = picked();
    fs::create_dir_all(folder().join("data"))?;
    fs::write(folder().join(CASES), cases_file(&cases))?;
    fs::write(folder().join(PRINTOUT), printout(&cases))
}
