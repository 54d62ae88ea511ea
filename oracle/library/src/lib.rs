//! Runs the proved library, linked as its archive, on cases. Guard words stand around everything that is lent to it.

#[cfg(archive)]
mod linked;

#[cfg(archive)]
pub mod raw;

#[cfg(archive)]
pub use linked::answer;

/// Whether the archive was there at build time.
pub const LINKED: bool = cfg!(archive);

/// Without the archive nothing is answered.
#[cfg(not(archive))]
pub fn answer(_: &cases::Case) -> Option<cases::Answer> {
    None
}
