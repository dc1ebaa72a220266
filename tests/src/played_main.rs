//! Reads a list of `crates/plays` on standard input and writes what the program must write.
use std::io::Read;

fn main() -> std::io::Result<()> {
    let mut list = String::new();
    std::io::stdin().read_to_string(&mut list)?;
    match nasturakh_tests::played::played(&list) {
        Some(text) => print!("{text}"),
        None => print!("no parameters, or a word that is no number\n"),
    }
    Ok(())
}
