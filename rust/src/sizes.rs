//! Sizes in bytes, and counts, by the header's names.

// numbers.txt: sizes of Rust
/// A key, and a single block.
pub const KEY_SIZE: usize = 16;
/// An IV in every mode.
pub const IV_SIZE: usize = 16;
/// The short IV of Gcm, as in RFC 8998.
pub const SHORT_IV_SIZE: usize = 12;
/// The tag at the end of a sealed message.
pub const TAG_SIZE: usize = 16;
/// The label of a job and an edition.
pub const LABEL_SIZE: usize = 6;
/// The most bytes of a text, and in Gcm of a label.
pub const LONGEST_TEXT: usize = 16_777_216;
/// The most bytes of a sealed message, and of a Cbc message to decrypt.
pub const LONGEST_SEALED: usize = 16_777_232;
/// The most candidate labels of one question.
pub const MOST_LABELS: usize = 64;
/// The most workers of a plan.
pub const MOST_WORKERS: usize = 64;
/// The most bytes of a shelf.
pub const LARGEST_SHELF: usize = 65_536;
/// The bytes of a record on a shelf before the sealed ones.
pub const SHELF_HEAD: usize = 12;
/// How many numbers a replay can count: more than there are now.
pub const NUMBERS: usize = 32;
/// The most keys of a replay.
pub const MOST_KEYS: usize = 8;
/// The most bytes of a recorded label, data or IV.
pub const LONGEST_PART: usize = 16_384;
/// The most bytes of a recorded output.
pub const LONGEST_OUTPUT: usize = 16_400;
// numbers.txt: end
