//! Wiping of bytes, and of what calls leave on the stack.

use crate::ffi;

/// Overwrites bytes with zeros; the compiler cannot drop the writes. Use it for a key's bytes, and for a text that is
/// no longer needed.
///
/// ```
/// let mut bytes = [7; 16];
/// let key = luossavin::Key::new(&bytes, 1)?;
/// luossavin::wipe(&mut bytes);
/// assert_eq!(bytes, [0; 16]);
/// # Ok::<(), luossavin::Refusal>(())
/// ```
pub fn wipe(bytes: &mut [u8]) {
    ffi::overwrite_bytes(bytes);
}

/// Overwrites 64 KiB of the stack below the caller, where calls leave copies of round keys: the library takes records
/// by value. Call it from the function above the one that made the calls. It does not reach registers.
///
/// ```
/// use luossavin::{wipe_stack, Key};
///
/// fn serve() -> Result<u16, luossavin::Refusal> {
///     Ok(Key::new(&[7; 16], 1)?.number())
/// }
/// let served = serve();
/// wipe_stack();
/// # assert_eq!(served, Ok(1));
/// ```
#[inline(never)]
pub fn wipe_stack() {
    let mut stack = [0u8; 64 << 10];
    ffi::overwrite_bytes(&mut stack);
}

/// Types that are wiped on drop: keys, states, and whatever else is as secret as a key.
///
/// It means the same as `ZeroizeOnDrop` of the crate `zeroize`, without the dependency. If your code relies on
/// `zeroize`, implement its marker for your own type that holds one of these.
///
/// ```
/// fn is_wiped<T: luossavin::WipedOnDrop>(_: &T) {}
/// is_wiped(&luossavin::Key::new(&[7; 16], 1)?);
/// # Ok::<(), luossavin::Refusal>(())
/// ```
pub trait WipedOnDrop {}

impl WipedOnDrop for crate::Key {}
impl WipedOnDrop for crate::pieces::Ctr {}
impl WipedOnDrop for crate::pieces::Seal {}
impl WipedOnDrop for crate::pieces::Opens {}
impl WipedOnDrop for crate::halves::HashKey {}
impl WipedOnDrop for crate::halves::Half {}
#[cfg(feature = "std")]
impl WipedOnDrop for crate::keyring::Keyring {}
/// The state and the text that is buffered; the ciphertext that is still to be written is no secret.
#[cfg(feature = "std")]
impl<W: std::io::Write> WipedOnDrop for crate::streams::SealWriter<W> {}
