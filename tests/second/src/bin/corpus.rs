//! `corpus FOLDER` writes the corpus into a folder.

use std::path::Path;

fn main() -> std::io::Result<()> {
    let folder = std::env::args().nth(1).expect("usage: corpus FOLDER");
    second::corpus::write(Path::new(&folder))
}
