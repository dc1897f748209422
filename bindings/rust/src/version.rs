//! Which version is compiled, and which is linked.

use crate::raw;

/// The version of this package.
pub const VERSION: &str = env!("CARGO_PKG_VERSION");

/// The version of the archive that is linked: 65,536 times major, 256 times minor, and patch.
#[must_use]
pub fn version() -> u32 {
    raw::version()
}
