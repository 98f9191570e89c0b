//! Files for an hour without a station: the same bytes in every run, in files of various sizes.

use std::path::PathBuf;
use std::{env, fs, io, process};

const UNITS: u64 = 40;

/// Sample files in a folder of their own, which is removed with this value.
pub struct Samples {
    pub folder: PathBuf,
    pub files: Vec<PathBuf>,
}

impl Samples {
    /// Writes a file for each unit, in the system's folder for what is not to be kept.
    pub fn make() -> io::Result<Self> {
        let name = format!("lunkaseyo-hour-{}", process::id());
        let folder = env::temp_dir().join(name);
        fs::create_dir(&folder)?;
        let mut samples = Self {
            folder,
            files: Vec::new(),
        };
        for unit in 1..=UNITS {
            let file = samples.folder.join(format!("unit-{unit:02}.bin"));
            fs::write(&file, logged(unit))?;
            samples.files.push(file);
        }
        Ok(samples)
    }
}

impl Drop for Samples {
    fn drop(&mut self) {
        if let Err(fault) = fs::remove_dir_all(&self.folder) {
            eprintln!("hour: {} was not removed: {fault}", self.folder.display());
        }
    }
}

/// A few hundred bytes up to some 20 KB, by a shift register with its own start for each unit.
fn logged(unit: u64) -> Vec<u8> {
    let size = 300 + unit * 7919 % 20000;
    let mut register = unit;
    let byte = |_| {
        register ^= register << 13;
        register ^= register >> 7;
        register ^= register << 17;
        register as u8
    };
    (0..size).map(byte).collect()
}
