//! Writes the inputs of the report program's long runs, and what it must print: `stored CRATES [seed]`.

use std::path::Path;

use koxaltes_tests::make::stored::inputs;
use koxaltes_tests::make::vectors::printed;
use koxaltes_tests::make::Random;

fn main() -> std::io::Result<()> {
    let arguments: Vec<String> = std::env::args().collect();
    let [_, crates, rest @ ..] = arguments.as_slice() else {
        eprintln!("stored CRATES [seed]");
        std::process::exit(2);
    };
    let seed = rest.first().map_or(1, |text| text.parse().expect("a number"));
    let crates = Path::new(crates);
    let three = std::fs::read(crates.join("cage_report/stdin"))?;
    for (name, input) in inputs(&Random::new(seed), &three) {
        let output = printed(&input);
        println!("{name}: {} bytes in, {} bytes out", input.len(), output.len());
        std::fs::write(crates.join(name).join("stdin"), input)?;
        std::fs::write(crates.join(name).join("stdout"), output)?;
    }
    Ok(())
}
