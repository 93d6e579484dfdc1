//! Writes the bundled samples: `samples FOLDER` makes a folder for each in FOLDER, with its problem file and its layout.

use std::path::Path;
use std::process::ExitCode;
use std::{env, fs, io};

fn main() -> ExitCode {
    let Some(folder) = env::args_os().nth(1) else {
        eprintln!("usage: samples FOLDER");
        return ExitCode::FAILURE;
    };
    match write_all(Path::new(&folder)) {
        Ok(()) => ExitCode::SUCCESS,
        Err(error) => {
            eprintln!("{}: {error}", Path::new(&folder).display());
            ExitCode::FAILURE
        }
    }
}

fn write_all(folder: &Path) -> io::Result<()> {
    for sample in reference::examples::samples() {
        let place = folder.join(sample.name);
        fs::create_dir_all(&place)?;
        fs::write(place.join("problem.bin"), &sample.problem)?;
        fs::write(place.join("layout.bin"), &sample.layout)?;
        println!("{}: {} bytes, layout of {}", sample.name, sample.problem.len(), sample.layout.len());
    }
    Ok(())
}
