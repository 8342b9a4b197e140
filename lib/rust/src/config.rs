//! Why a configuration is refused.

use crate::calls::{self, snmpsec_config_fault};
use crate::fault::{done, Error};
use std::fmt;

/// The tables of a configuration.
#[derive(Clone, Copy, Debug, PartialEq, Eq)]
pub enum ConfigTable {
    UserTable = 1,
    ContextTable = 2,
    GroupTable = 3,
    AccessTable = 4,
    FamilyTable = 5,
}

const TABLES: [ConfigTable; 5] = [
    ConfigTable::UserTable,
    ConfigTable::ContextTable,
    ConfigTable::GroupTable,
    ConfigTable::AccessTable,
    ConfigTable::FamilyTable,
];

/// Why a configuration is refused.
#[derive(Clone, Copy, Debug, PartialEq, Eq)]
pub enum ConfigReason {
    /// The text isn't TOML.
    NoToml = 1,
    /// A key at the top is none of the tables, or is no array of tables.
    BadTop = 2,
    /// The table doesn't list a key of the row.
    UnlistedKey = 3,
    MissingKey = 4,
    /// The value isn't what is wanted at its key.
    BadValue = 5,
    /// A user's name or passwords are none that a user can have.
    BadUser = 6,
    /// A password has fewer than 8 octets.
    ShortPassword = 7,
    /// An earlier user has the name.
    DuplicateUser = 8,
    /// A row of view-based access has a value that isn't allowed.
    BadRow = 9,
    /// An earlier row of the table has this row's index.
    DuplicateRow = 10,
}

const REASONS: [ConfigReason; 10] = [
    ConfigReason::NoToml,
    ConfigReason::BadTop,
    ConfigReason::UnlistedKey,
    ConfigReason::MissingKey,
    ConfigReason::BadValue,
    ConfigReason::BadUser,
    ConfigReason::ShortPassword,
    ConfigReason::DuplicateUser,
    ConfigReason::BadRow,
    ConfigReason::DuplicateRow,
];

/// Where a configuration is refused, and why. It is printed as `snmpsec check-config` tells it: the refusal, and what
/// is wrong and what is wanted.
#[derive(Clone, Debug, PartialEq, Eq)]
pub struct ConfigFault {
    /// The table, where a row of one is at fault.
    pub table: Option<ConfigTable>,
    /// The row's position in its table, from 0.
    pub position: usize,
    pub reason: ConfigReason,
    text: String,
}

impl fmt::Display for ConfigFault {
    fn fmt(&self, f: &mut fmt::Formatter<'_>) -> fmt::Result {
        f.write_str(&self.text)
    }
}

impl std::error::Error for ConfigFault {}

/// Why a text is refused as a configuration, or None where it isn't. The error is OutOfMemory.
pub fn config_fault(config: &[u8]) -> Result<Option<ConfigFault>, Error> {
    let mut place = calls::ConfigPlace::default();
    let mut text = vec![0; 4096];
    let mut written = 0;
    let mut tell = |text: &mut Vec<u8>, written: &mut usize| {
        done(unsafe {
            snmpsec_config_fault(
                config.as_ptr(),
                config.len(),
                &mut place,
                text.as_mut_ptr(),
                text.len(),
                written,
            )
        })
    };
    let mut told = tell(&mut text, &mut written);
    if told == Err(Error::ShortBuffer) {
        text.resize(written, 0);
        told = tell(&mut text, &mut written);
    }
    match told {
        Ok(()) => return Ok(None),
        Err(Error::BadConfiguration) => {}
        Err(error) => return Err(error),
    }
    text.truncate(written);
    let reason = REASONS.into_iter().find(|it| *it as usize == place.reason);
    Ok(Some(ConfigFault {
        table: TABLES.into_iter().find(|it| *it as usize == place.table),
        position: place.position,
        reason: reason.ok_or(Error::Other(place.reason as i32))?,
        text: String::from_utf8_lossy(&text).trim_end().to_owned(),
    }))
}
