//! In a file of its own, since build.rs reads it too.

/// The `WOOLYARD_ABI` of include/woolyard.h that this wrapper was written for.
pub const ABI: u64 = 1;
