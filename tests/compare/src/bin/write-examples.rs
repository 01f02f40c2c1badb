//! Writes the rehearsals as the files of `examples/`, into the directory that is
//! named or, with none named, into `examples` where it is run.

use std::path::PathBuf;
use std::{env, fs, io};

use comparing::rehearsals;

fn main() -> io::Result<()> {
    let named = env::args_os().nth(1);
    let directory = named.map_or_else(|| PathBuf::from("examples"), PathBuf::from);
    fs::create_dir_all(&directory)?;
    for told in rehearsals::all() {
        for (name, bytes) in told.files() {
            fs::write(directory.join(name), bytes)?;
        }
    }
    Ok(())
}
