//! The errors of [`sm4`](crate::sm4), by libsm's names.

/// libsm's name for a [`Refusal`](crate::Refusal).
pub use crate::Refusal as Sm4Error;

/// The result of the calls of [`sm4`](crate::sm4).
pub type Sm4Result<T> = Result<T, Sm4Error>;
