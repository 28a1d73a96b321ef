//! `generate SEED COUNT FOLDER` writes random derivations, all to be accepted, as
//! FOLDER/SEED-K.txt.

use second::generate::any;
use second::random::Random;
use std::path::Path;

fn main() -> std::io::Result<()> {
    let words: Vec<String> = std::env::args().skip(1).collect();
    let [seed, count, folder] = &words[..] else { panic!("usage: generate SEED COUNT FOLDER") };
    let mut random = Random::new(seed.parse().expect("a seed"));
    std::fs::create_dir_all(folder)?;
    for k in 0..count.parse().expect("a count") {
        let k: usize = k;
        std::fs::write(Path::new(folder).join(format!("{seed}-{k}.txt")), any(&mut random).text())?;
    }
    Ok(())
}
