//! Writes generated messages as files: `emit SEED COUNT DIR`.

use second::generate::{Random, message};
use std::path::PathBuf;
use std::process::ExitCode;

fn main() -> ExitCode {
    let words: Vec<String> = std::env::args().skip(1).collect();
    let [seed, count, folder] = &words[..] else {
        return usage();
    };
    let (Ok(seed), Ok(count)) = (seed.parse(), count.parse()) else {
        return usage();
    };
    match emit(seed, count, PathBuf::from(folder)) {
        Ok(()) => ExitCode::SUCCESS,
        Err(error) => {
            eprintln!("emit: {error}");
            ExitCode::FAILURE
        }
    }
}

fn usage() -> ExitCode {
    eprintln!("usage: emit SEED COUNT DIR");
    ExitCode::FAILURE
}

fn emit(seed: u64, count: usize, folder: PathBuf) -> std::io::Result<()> {
    std::fs::create_dir_all(&folder)?;
    let mut random = Random::new(seed);
    for number in 0..count {
        let path = folder.join(format!("{number:06}.bin"));
        std::fs::write(path, message(&mut random))?;
    }
    Ok(())
}
