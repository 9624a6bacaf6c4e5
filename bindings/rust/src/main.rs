//! check_file TYPE FILE: whether all of a file is one value of the type.
use std::error::Error;
use wincode_check::Type;

fn main() -> Result<(), Box<dyn Error>> {
    let words: Vec<String> = std::env::args().skip(1).collect();
    let [text, path] = words.as_slice() else {
        return Err("check_file TYPE FILE".into());
    };
    let checked = Type::parse(text)?.check_exact(&std::fs::read(path)?)?;
    println!("ok, {} bytes, {} parts", checked.length, checked.parts);
    Ok(())
}
