//! What the hour's command line says.

use std::ffi::OsString;
use std::path::PathBuf;

/// The files, a unit each, and the unit whose image is not given back.
#[derive(Default)]
pub struct Options {
    pub files: Vec<PathBuf>,
    pub forgotten: Option<u64>,
}

impl Options {
    pub fn read(mut arguments: impl Iterator<Item = OsString>) -> Result<Self, String> {
        let mut options = Self::default();
        while let Some(argument) = arguments.next() {
            if argument == "--forget" {
                options.forgotten = Some(unit(arguments.next())?);
            } else if argument.to_string_lossy().starts_with("--") {
                return Err(format!("{argument:?} is no option"));
            } else {
                options.files.push(argument.into());
            }
        }
        Ok(options)
    }

    /// Whether the unit that is forgotten is one of so many.
    pub fn check(&self, units: u64) -> Result<(), String> {
        match self.forgotten {
            Some(unit) if !(1..=units).contains(&unit) => Err(format!("there is no unit {unit}")),
            _ => Ok(()),
        }
    }
}

fn unit(argument: Option<OsString>) -> Result<u64, String> {
    let number = argument.and_then(|text| text.to_str()?.parse().ok());
    number.ok_or_else(|| "--forget takes the number of a unit".into())
}
