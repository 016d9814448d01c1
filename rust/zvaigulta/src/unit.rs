//! The unit of a sheet's coordinates.

use std::fmt;

/// The unit that record b of a sheet states, by its code. It decides what a corner's fraction counts.
///
/// ```
/// use zvaigulta::Unit;
///
/// assert_eq!(Unit::from(10), Unit::Centimetre);
/// assert_eq!(Unit::Metre.code(), 999);
/// // A code that is none of the three is kept; joining and splitting refuse it by 16.
/// assert_eq!(Unit::from(7), Unit::Other(7));
/// assert_eq!(zvaigulta::split(Unit::Other(7), 0).unwrap_err().number(), 16);
/// ```
#[derive(Clone, Copy, Debug, PartialEq, Eq, Hash)]
pub enum Unit {
    /// Code 1: coordinates in millimetres, fractions of corners in millimetres. Levels 500 and 1000.
    Millimetre,
    /// Code 10: coordinates in centimetres, fractions of corners in centimetres. Levels 2500 and 5000.
    Centimetre,
    /// Code 999: coordinates in metres, fractions of corners in centimetres. The other levels.
    Metre,
    /// Any other code.
    Other(u64),
}

impl Unit {
    /// The code that the file has for it.
    pub fn code(self) -> u64 {
        match self {
            Unit::Millimetre => 1,
            Unit::Centimetre => 10,
            Unit::Metre => 999,
            Unit::Other(code) => code,
        }
    }
}

impl From<u64> for Unit {
    fn from(code: u64) -> Unit {
        match code {
            1 => Unit::Millimetre,
            10 => Unit::Centimetre,
            999 => Unit::Metre,
            other => Unit::Other(other),
        }
    }
}

/// Its code.
impl fmt::Display for Unit {
    fn fmt(&self, f: &mut fmt::Formatter<'_>) -> fmt::Result {
        self.code().fmt(f)
    }
}
