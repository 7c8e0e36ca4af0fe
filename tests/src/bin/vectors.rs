//! Writes the vectors of the program `vectors` (crates/vectors): `vectors FILE [seed]`.

use koxaltes_tests::make::vectors::vectors;
use koxaltes_tests::make::Random;

fn main() -> std::io::Result<()> {
    let arguments: Vec<String> = std::env::args().collect();
    let [_, path, rest @ ..] = arguments.as_slice() else {
        eprintln!("vectors FILE [seed]");
        std::process::exit(2);
    };
    let seed = rest.first().map_or(1, |text| text.parse().expect("a number"));
    let (count, row) = vectors(&Random::new(seed));
    std::fs::write(path, &row)?;
    println!("{count} vectors, {} bytes", row.len());
    Ok(())
}
