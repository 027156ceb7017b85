//! Who makes calls: the archive, linked or in another process, and the second implementation.

use crate::call::Call;
use std::io;

pub trait Boundary {
    /// Makes each call. Its number, its places and what it lends are then as the function left them.
    fn make(&mut self, calls: &mut [Call]) -> io::Result<()>;
}
