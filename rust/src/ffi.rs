//! The boundary: the records and calls of `include/luossavin.h`. Only this module has `unsafe` in it.
//!
//! Each call is here twice: as the header declares it, and as a safe function over slices. Slices and borrows fulfil
//! the duties that the header leaves to the caller: a slice points to as many bytes as its length says, an output is
//! borrowed exclusively and so overlaps no input, and nobody writes to an input meanwhile. An empty slice has a
//! dangling pointer, with length 0. Records go by value, and every value of every field has an answer. The library has
//! no state, and every call returns.

use crate::sm4::cipher_mode::CipherMode;
use crate::Direction;
use alloc::boxed::Box;
use core::mem::size_of;
use core::ops::Deref;
use core::sync::atomic::{compiler_fence, Ordering};

/// A record that is made of integers alone, so that zeros throughout are a value of it.
///
/// # Safety
///
/// No field is anything else than an integer, or an array or a record of these.
pub unsafe trait Record: Copy {}

/// Declares records as the header has them. The test of layouts goes by the same list, so that no field is left out.
macro_rules! records {
    ($(struct $name:ident as $c:literal { $($field:ident: $type:ty,)* })*) => {
        $(
            #[repr(C)]
            #[derive(Clone, Copy)]
            // of a state every field is the library's own
            #[allow(dead_code)]
            pub struct $name {
                $(pub $field: $type,)*
            }

            // SAFETY: the records below have integers, arrays and records of them, and nothing else.
            unsafe impl Record for $name {}
        )*

        #[cfg(test)]
        fn layouts() -> Vec<tests::Layout> {
            vec![$({
                // SAFETY: it is a record, of which zeros throughout are a value.
                let one: $name = unsafe { std::mem::zeroed() };
                tests::Layout {
                    name: $c,
                    size: size_of::<$name>(),
                    align: std::mem::align_of::<$name>(),
                    fields: vec![$(tests::Field {
                        name: stringify!($field),
                        kind: stringify!($type),
                        offset: std::ptr::addr_of!(one.$field) as usize - std::ptr::addr_of!(one) as usize,
                        size: size_of::<$type>(),
                    },)*],
                }
            },)*]
        }
    };
}

// SAFETY: a block is sixteen bytes, and nothing else.
unsafe impl Record for [u8; 16] {}

records! {
    struct Answer as "luossavin_answer" {
        number: u32,
        missing: u8,
        came_round: u8,
        key: u16,
        length: usize,
    }

    struct Key as "luossavin_key" {
        round_keys: [u32; 32],
        answer: u32,
        number: u16,
        retired: u8,
        engine: u8,
    }

    struct Label as "luossavin_label" {
        bytes: [u8; 6],
    }

    struct Flow as "luossavin_flow" {
        counter: [u8; 16],
        pad: [u8; 16],
    }

    struct Hashing as "luossavin_hashing" {
        h: [u8; 16],
        y: [u8; 16],
        held: [u8; 16],
    }

    struct Ctr as "luossavin_ctr" {
        round_keys: [u32; 32],
        flow: Flow,
        first: [u8; 16],
        total: usize,
        stands: u32,
        key: u16,
        engine: u8,
    }

    struct Seal as "luossavin_seal" {
        round_keys: [u32; 32],
        flow: Flow,
        hashing: Hashing,
        mask: [u8; 16],
        label: usize,
        total: usize,
        low: u32,
        stands: u32,
        key: u16,
        engine: u8,
    }

    struct Opens as "luossavin_opens" {
        hashing: Hashing,
        mask: [u8; 16],
        label: usize,
        total: usize,
        low: u32,
        stands: u32,
        key: u16,
    }

    struct CtrStep as "luossavin_ctr_step" {
        answer: Answer,
        state: Ctr,
    }

    struct SealStep as "luossavin_seal_step" {
        answer: Answer,
        state: Seal,
    }

    struct OpensStep as "luossavin_opens_step" {
        answer: Answer,
        state: Opens,
    }

    struct Found as "luossavin_found" {
        answer: Answer,
        found: u32,
        place: u32,
        start: usize,
        length: usize,
    }

    struct Plan as "luossavin_plan" {
        count: usize,
        starts: [usize; 64],
        lengths: [usize; 64],
    }

    struct Planned as "luossavin_planned" {
        answer: Answer,
        plan: Plan,
    }

    struct Shelf as "luossavin_shelf" {
        number: u32,
        used: usize,
    }

    struct Shelved as "luossavin_shelved" {
        number: u32,
        start: usize,
        length: usize,
    }

    struct Keys as "luossavin_keys" {
        count: usize,
        keys: [Key; 8],
    }

    struct Replayed as "luossavin_replayed" {
        number: u32,
        differs: u32,
        place: usize,
        first_record: u64,
        first_place: usize,
        records: u64,
        by_mode: [u64; 6],
        by_answer: [u64; 32],
        bytes_in: u64,
        bytes_out: u64,
    }

    struct Hash as "luossavin_hash" {
        high: u64,
        low: u64,
    }
}

// The library itself, as the kit's compiler wrote it (proved/ in the repository), for the machine that this is compiled for. On x86-64
// it is there for every processor and for those with AVX2, and the program chooses when it starts.
#[cfg(target_arch = "x86_64")]
core::arch::global_asm!(
    include_str!("../asm/x86_64.s"),
    include_str!("../asm/x86_64-v3.s"),
    include_str!("../asm/choose-x86_64.s"),
    options(att_syntax, raw)
);
#[cfg(target_arch = "aarch64")]
core::arch::global_asm!(include_str!("../asm/aarch64.s"), options(raw));

extern "C" {
    fn luossavin_key_new(key: *const u8, key_len: usize, number: u32) -> Key;
    fn luossavin_key_retire(key: Key) -> Key;
    fn luossavin_key_engine(key: Key, engine: u32) -> Key;

    fn luossavin_block_encrypt(key: Key, block: *const u8, block_len: usize, out: *mut u8, room: usize) -> Answer;
    fn luossavin_block_decrypt(key: Key, block: *const u8, block_len: usize, out: *mut u8, room: usize) -> Answer;
    fn luossavin_encrypt(
        mode: u32, key: Key, aad: *const u8, aad_len: usize, data: *const u8, data_len: usize, iv: *const u8,
        iv_len: usize, out: *mut u8, room: usize,
    ) -> Answer;
    fn luossavin_decrypt(
        mode: u32, key: Key, aad: *const u8, aad_len: usize, data: *const u8, data_len: usize, iv: *const u8,
        iv_len: usize, out: *mut u8, room: usize,
    ) -> Answer;

    fn luossavin_label(job: u32, edition: u16) -> Label;
    fn luossavin_edition_opens(
        key: Key, job: u32, edition: u16, sealed: *const u8, sealed_len: usize, iv: *const u8, iv_len: usize,
    ) -> Answer;
    fn luossavin_edition_seal(
        key: Key, job: u32, edition: u16, text: *const u8, text_len: usize, iv: *const u8, iv_len: usize, out: *mut u8,
        room: usize,
    ) -> Answer;
    fn luossavin_edition_open(
        key: Key, job: u32, edition: u16, sealed: *const u8, sealed_len: usize, iv: *const u8, iv_len: usize,
        out: *mut u8, room: usize,
    ) -> Answer;

    fn luossavin_ctr_start(key: Key, decrypt: bool, iv: *const u8, iv_len: usize) -> CtrStep;
    fn luossavin_ctr_piece(state: Ctr, data: *const u8, data_len: usize, out: *mut u8, room: usize) -> CtrStep;
    fn luossavin_ctr_end(state: Ctr) -> CtrStep;

    fn luossavin_seal_start(key: Key, aad: *const u8, aad_len: usize, iv: *const u8, iv_len: usize) -> SealStep;
    fn luossavin_seal_piece(state: Seal, data: *const u8, data_len: usize, out: *mut u8, room: usize) -> SealStep;
    fn luossavin_seal_end(state: Seal, out: *mut u8, room: usize) -> SealStep;

    fn luossavin_opens_start(key: Key, aad: *const u8, aad_len: usize, iv: *const u8, iv_len: usize) -> OpensStep;
    fn luossavin_opens_piece(state: Opens, data: *const u8, data_len: usize) -> OpensStep;
    fn luossavin_opens_end(state: Opens, tag: *const u8, tag_len: usize) -> OpensStep;

    fn luossavin_which(
        key: Key, sealed: *const u8, sealed_len: usize, iv: *const u8, iv_len: usize, labels: *const u8,
        labels_len: usize, lengths: *const usize, count: usize,
    ) -> Found;

    fn luossavin_plan_make(n: usize, workers: usize) -> Planned;
    fn luossavin_plan_accepts(plan: Plan, n: usize) -> bool;
    fn luossavin_ctr_range(
        key: Key, decrypt: bool, iv: *const u8, iv_len: usize, offset: usize, data: *const u8, data_len: usize,
        out: *mut u8, room: usize,
    ) -> Answer;
    fn luossavin_ctr_by_plan(
        key: Key, decrypt: bool, iv: *const u8, iv_len: usize, plan: Plan, data: *const u8, data_len: usize,
        out: *mut u8, room: usize,
    ) -> Answer;

    fn luossavin_shelf_put(
        shelf: *mut u8, size: usize, used: usize, job: u32, edition: u16, sealed: *const u8, sealed_len: usize,
    ) -> Shelf;
    fn luossavin_shelf_collect(shelf: *mut u8, size: usize, used: usize) -> Shelf;
    fn luossavin_shelf_find(shelf: *const u8, size: usize, used: usize, job: u32) -> Shelved;

    fn luossavin_record(
        decrypt: bool, mode: u32, key: u16, aad: *const u8, aad_len: usize, data: *const u8, data_len: usize,
        iv: *const u8, iv_len: usize, room: usize, number: u32, output: *const u8, output_len: usize, out: *mut u8,
        out_room: usize,
    ) -> Answer;
    fn luossavin_replay(keys: Keys, file: *const u8, file_len: usize) -> Replayed;

    fn luossavin_hash_blocks(h: Hash, bytes: *const u8, bytes_len: usize) -> Hash;
    fn luossavin_hash_join(h: Hash, first: Hash, second: Hash, second_blocks: u64) -> Hash;
}

/// A record that is as secret as the key. It has a place on the heap, where it stays however its owner is moved, and
/// where it is overwritten when the owner is dropped.
pub struct Secret<T: Record>(Box<T>);

impl<T: Record> Secret<T> {
    /// Takes a record over: the place where it was is overwritten.
    pub fn take(from: &mut T) -> Secret<T> {
        let secret = Secret(Box::new(*from));
        overwrite(from);
        secret
    }

    /// Puts a record in the place of the one that was there, and overwrites where it came from.
    fn replace(&mut self, from: &mut T) {
        *self.0 = *from;
        overwrite(from);
    }
}

impl<T: Record> Deref for Secret<T> {
    type Target = T;

    fn deref(&self) -> &T {
        &self.0
    }
}

impl<T: Record> Drop for Secret<T> {
    fn drop(&mut self) {
        overwrite(&mut *self.0);
    }
}

/// Zeros in every byte of a record, padding among them, by writes that the compiler may not leave out.
pub fn overwrite<T: Record>(record: &mut T) {
    // SAFETY: the bytes are those of the record, which is borrowed alone, and for which zeros are a value.
    unsafe { write_zeros((record as *mut T).cast(), size_of::<T>()) };
}

/// The same of bytes.
pub fn overwrite_bytes(bytes: &mut [u8]) {
    // SAFETY: the bytes are the slice's, which is borrowed alone.
    unsafe { write_zeros(bytes.as_mut_ptr(), bytes.len()) };
}

/// # Safety
///
/// `count` bytes from `first` on may be written, and zeros are a value of what stands there.
unsafe fn write_zeros(first: *mut u8, count: usize) {
    for at in 0..count {
        // SAFETY: the caller sees to it.
        unsafe { first.add(at).write_volatile(0) };
    }
    compiler_fence(Ordering::SeqCst);
}

pub fn key_new(bytes: &[u8], number: u32) -> Secret<Key> {
    // SAFETY: the pointer is a slice's, with its length beside it.
    let mut key = unsafe { luossavin_key_new(bytes.as_ptr(), bytes.len(), number) };
    Secret::take(&mut key)
}

pub fn key_retire(key: &mut Secret<Key>) {
    // SAFETY: the record goes by value, and nothing is lent.
    let mut retired = unsafe { luossavin_key_retire(**key) };
    key.replace(&mut retired);
}

pub fn key_engine(key: &mut Secret<Key>, engine: u32) {
    // SAFETY: the record goes by value, and nothing is lent.
    let mut marked = unsafe { luossavin_key_engine(**key, engine) };
    key.replace(&mut marked);
}

pub fn block(direction: Direction, key: &Key, block: &[u8], out: &mut [u8]) -> Answer {
    let call = match direction {
        Direction::Encrypt => luossavin_block_encrypt,
        Direction::Decrypt => luossavin_block_decrypt,
    };
    let (room, out) = (out.len(), out.as_mut_ptr());
    // SAFETY: each pointer is a slice's, with that slice's length beside it, and `out` is borrowed alone.
    unsafe { call(*key, block.as_ptr(), block.len(), out, room) }
}

pub fn message(
    direction: Direction, mode: CipherMode, key: &Key, aad: &[u8], data: &[u8], iv: &[u8], out: &mut [u8],
) -> Answer {
    let call = match direction {
        Direction::Encrypt => luossavin_encrypt,
        Direction::Decrypt => luossavin_decrypt,
    };
    let (mode, room, out) = (mode as u32, out.len(), out.as_mut_ptr());
    let ((aad_len, aad), (iv_len, iv)) = ((aad.len(), aad.as_ptr()), (iv.len(), iv.as_ptr()));
    // SAFETY: each pointer is a slice's, with that slice's length beside it, and `out` is borrowed alone.
    unsafe { call(mode, *key, aad, aad_len, data.as_ptr(), data.len(), iv, iv_len, out, room) }
}

pub fn label(job: u32, edition: u16) -> [u8; 6] {
    // SAFETY: nothing is lent.
    unsafe { luossavin_label(job, edition) }.bytes
}

pub fn edition_opens(key: &Key, job: u32, edition: u16, sealed: &[u8], iv: &[u8]) -> Answer {
    let (iv_len, iv) = (iv.len(), iv.as_ptr());
    // SAFETY: each pointer is a slice's, with that slice's length beside it.
    unsafe { luossavin_edition_opens(*key, job, edition, sealed.as_ptr(), sealed.len(), iv, iv_len) }
}

pub fn edition(
    direction: Direction, key: &Key, job: u32, edition: u16, data: &[u8], iv: &[u8], out: &mut [u8],
) -> Answer {
    let call = match direction {
        Direction::Encrypt => luossavin_edition_seal,
        Direction::Decrypt => luossavin_edition_open,
    };
    let (iv_len, iv) = (iv.len(), iv.as_ptr());
    let (room, out) = (out.len(), out.as_mut_ptr());
    // SAFETY: each pointer is a slice's, with that slice's length beside it, and `out` is borrowed alone.
    unsafe { call(*key, job, edition, data.as_ptr(), data.len(), iv, iv_len, out, room) }
}

pub fn ctr_start(key: &Key, direction: Direction, iv: &[u8]) -> (Answer, Secret<Ctr>) {
    // SAFETY: the pointer is a slice's, with its length beside it.
    let mut step = unsafe { luossavin_ctr_start(*key, direction.is_decrypt(), iv.as_ptr(), iv.len()) };
    (step.answer, Secret::take(&mut step.state))
}

pub fn ctr_piece(state: &mut Secret<Ctr>, data: &[u8], out: &mut [u8]) -> Answer {
    let (room, out) = (out.len(), out.as_mut_ptr());
    // SAFETY: each pointer is a slice's, with that slice's length beside it, and `out` is borrowed alone.
    let mut step = unsafe { luossavin_ctr_piece(**state, data.as_ptr(), data.len(), out, room) };
    state.replace(&mut step.state);
    step.answer
}

pub fn ctr_end(state: &mut Secret<Ctr>) -> Answer {
    // SAFETY: the state goes by value, and nothing is lent.
    let mut step = unsafe { luossavin_ctr_end(**state) };
    state.replace(&mut step.state);
    step.answer
}

pub fn seal_start(key: &Key, aad: &[u8], iv: &[u8]) -> (Answer, Secret<Seal>) {
    let (iv_len, iv) = (iv.len(), iv.as_ptr());
    // SAFETY: each pointer is a slice's, with that slice's length beside it.
    let mut step = unsafe { luossavin_seal_start(*key, aad.as_ptr(), aad.len(), iv, iv_len) };
    (step.answer, Secret::take(&mut step.state))
}

pub fn seal_piece(state: &mut Secret<Seal>, data: &[u8], out: &mut [u8]) -> Answer {
    let (room, out) = (out.len(), out.as_mut_ptr());
    // SAFETY: each pointer is a slice's, with that slice's length beside it, and `out` is borrowed alone.
    let mut step = unsafe { luossavin_seal_piece(**state, data.as_ptr(), data.len(), out, room) };
    state.replace(&mut step.state);
    step.answer
}

pub fn seal_end(state: &mut Secret<Seal>, out: &mut [u8]) -> Answer {
    // SAFETY: the pointer is a slice's, with its length beside it, and `out` is borrowed alone.
    let mut step = unsafe { luossavin_seal_end(**state, out.as_mut_ptr(), out.len()) };
    state.replace(&mut step.state);
    step.answer
}

pub fn opens_start(key: &Key, aad: &[u8], iv: &[u8]) -> (Answer, Secret<Opens>) {
    let (iv_len, iv) = (iv.len(), iv.as_ptr());
    // SAFETY: each pointer is a slice's, with that slice's length beside it.
    let mut step = unsafe { luossavin_opens_start(*key, aad.as_ptr(), aad.len(), iv, iv_len) };
    (step.answer, Secret::take(&mut step.state))
}

pub fn opens_piece(state: &mut Secret<Opens>, data: &[u8]) -> Answer {
    // SAFETY: the pointer is a slice's, with its length beside it.
    let mut step = unsafe { luossavin_opens_piece(**state, data.as_ptr(), data.len()) };
    state.replace(&mut step.state);
    step.answer
}

pub fn opens_end(state: &mut Secret<Opens>, tag: &[u8]) -> Answer {
    // SAFETY: the pointer is a slice's, with its length beside it.
    let mut step = unsafe { luossavin_opens_end(**state, tag.as_ptr(), tag.len()) };
    state.replace(&mut step.state);
    step.answer
}

pub fn which(key: &Key, sealed: &[u8], iv: &[u8], labels: &[u8], lengths: &[usize]) -> Found {
    let ((iv_len, iv), (labels_len, labels)) = ((iv.len(), iv.as_ptr()), (labels.len(), labels.as_ptr()));
    let (count, lengths) = (lengths.len(), lengths.as_ptr());
    // SAFETY: each pointer is a slice's, with that slice's length beside it; a count is a length in entries.
    unsafe { luossavin_which(*key, sealed.as_ptr(), sealed.len(), iv, iv_len, labels, labels_len, lengths, count) }
}

pub fn plan_make(n: usize, workers: usize) -> Planned {
    // SAFETY: nothing is lent.
    unsafe { luossavin_plan_make(n, workers) }
}

pub fn plan_accepts(plan: &Plan, n: usize) -> bool {
    // SAFETY: the plan goes by value, and nothing is lent.
    unsafe { luossavin_plan_accepts(*plan, n) }
}

pub fn ctr_range(key: &Key, direction: Direction, iv: &[u8], offset: usize, data: &[u8], out: &mut [u8]) -> Answer {
    let (decrypt, iv_len, iv) = (direction.is_decrypt(), iv.len(), iv.as_ptr());
    let (room, out) = (out.len(), out.as_mut_ptr());
    // SAFETY: each pointer is a slice's, with that slice's length beside it, and `out` is borrowed alone.
    unsafe { luossavin_ctr_range(*key, decrypt, iv, iv_len, offset, data.as_ptr(), data.len(), out, room) }
}

pub fn ctr_by_plan(key: &Key, direction: Direction, iv: &[u8], plan: &Plan, data: &[u8], out: &mut [u8]) -> Answer {
    let (decrypt, iv_len, iv) = (direction.is_decrypt(), iv.len(), iv.as_ptr());
    let (room, out) = (out.len(), out.as_mut_ptr());
    // SAFETY: each pointer is a slice's, with that slice's length beside it, and `out` is borrowed alone.
    unsafe { luossavin_ctr_by_plan(*key, decrypt, iv, iv_len, *plan, data.as_ptr(), data.len(), out, room) }
}

pub fn shelf_put(shelf: &mut [u8], used: usize, job: u32, edition: u16, sealed: &[u8]) -> Shelf {
    let (size, shelf) = (shelf.len(), shelf.as_mut_ptr());
    // SAFETY: each pointer is a slice's, with that slice's length beside it, and `shelf` is borrowed alone.
    unsafe { luossavin_shelf_put(shelf, size, used, job, edition, sealed.as_ptr(), sealed.len()) }
}

pub fn shelf_collect(shelf: &mut [u8], used: usize) -> Shelf {
    // SAFETY: the pointer is a slice's, with its length beside it, and `shelf` is borrowed alone.
    unsafe { luossavin_shelf_collect(shelf.as_mut_ptr(), shelf.len(), used) }
}

pub fn shelf_find(shelf: &[u8], used: usize, job: u32) -> Shelved {
    // SAFETY: the pointer is a slice's, with its length beside it.
    unsafe { luossavin_shelf_find(shelf.as_ptr(), shelf.len(), used, job) }
}

pub fn record(
    direction: Direction, mode: CipherMode, key: u16, parts: [&[u8]; 3], room: usize, answered: (u32, &[u8]),
    out: &mut [u8],
) -> Answer {
    let ([aad, data, iv], (number, output)) = (parts, answered);
    let (decrypt, mode) = (direction.is_decrypt(), mode as u32);
    let ((aad_len, aad), (data_len, data)) = ((aad.len(), aad.as_ptr()), (data.len(), data.as_ptr()));
    let ((iv_len, iv), (output_len, output)) = ((iv.len(), iv.as_ptr()), (output.len(), output.as_ptr()));
    let (out_room, out) = (out.len(), out.as_mut_ptr());
    // SAFETY: each pointer is a slice's, with that slice's length beside it, and `out` is borrowed alone.
    unsafe {
        luossavin_record(
            decrypt, mode, key, aad, aad_len, data, data_len, iv, iv_len, room, number, output, output_len, out,
            out_room,
        )
    }
}

pub fn replay(keys: &Keys, file: &[u8]) -> Replayed {
    // SAFETY: the pointer is a slice's, with its length beside it; the keys go by value.
    unsafe { luossavin_replay(*keys, file.as_ptr(), file.len()) }
}

pub fn hash_blocks(h: &Hash, bytes: &[u8]) -> Secret<Hash> {
    // SAFETY: the pointer is a slice's, with its length beside it.
    let mut hash = unsafe { luossavin_hash_blocks(*h, bytes.as_ptr(), bytes.len()) };
    Secret::take(&mut hash)
}

pub fn hash_join(h: &Hash, first: &Hash, second: &Hash, second_blocks: u64) -> Secret<Hash> {
    // SAFETY: the hashes go by value, and nothing is lent.
    let mut hash = unsafe { luossavin_hash_join(*h, *first, *second, second_blocks) };
    Secret::take(&mut hash)
}

#[cfg(test)]
mod tests {
    use super::*;
    use std::io::Write;
    use std::process::{Command, Stdio};

    pub struct Layout {
        pub name: &'static str,
        pub size: usize,
        pub align: usize,
        pub fields: Vec<Field>,
    }

    pub struct Field {
        pub name: &'static str,
        pub kind: &'static str,
        pub offset: usize,
        pub size: usize,
    }

    /// A C program that compiles where every record has this size and alignment, and these fields at these places.
    /// The initializer has an entry for each field: where C has one more, or one fewer, it is an error too.
    fn program(layouts: &[Layout]) -> String {
        let mut text = String::from("#include <luossavin.h>\n");
        for Layout { name, size, align, fields } in layouts {
            let mut claim = |left: String, right: usize| {
                text += &format!("_Static_assert({left} == {right}, \"{left} is not {right}\");\n");
            };
            claim(format!("sizeof(struct {name})"), *size);
            claim(format!("_Alignof(struct {name})"), *align);
            for Field { name: field, offset, size, .. } in fields {
                claim(format!("offsetof(struct {name}, {field})"), *offset);
                claim(format!("sizeof(((struct {name} *)0)->{field})"), *size);
            }
            let is_plain = |field: &Field| field.kind.starts_with(['u', 'i', 'b']);
            let zeros: Vec<_> = fields.iter().map(|field| if is_plain(field) { "0" } else { "{0}" }).collect();
            text += &format!("struct {name} whole_{name} = {{{}}};\n", zeros.join(", "));
        }
        text
    }

    /// Whether the C compiler takes a program, and what it says. CC names another compiler.
    fn compiles(program: &str) -> (bool, String) {
        let named = std::env::var("CC").ok();
        let include = concat!("-I", env!("CARGO_MANIFEST_DIR"), "/../include");
        for compiler in named.as_deref().into_iter().chain(["cc", "x86_64-linux-gnu-gcc"]) {
            let words = ["-std=c11", "-Wextra", "-Werror", include, "-fsyntax-only", "-x", "c", "-"];
            let mut command = Command::new(compiler);
            command.args(words).stdin(Stdio::piped()).stdout(Stdio::null()).stderr(Stdio::piped());
            let mut running = match command.spawn() {
                Ok(running) => running,
                Err(_) => continue,
            };
            running.stdin.take().unwrap().write_all(program.as_bytes()).unwrap();
            let ended = running.wait_with_output().unwrap();
            return (ended.status.success(), String::from_utf8_lossy(&ended.stderr).into_owned());
        }
        panic!("no C compiler: the layouts cannot be held to the header");
    }

    #[test]
    fn records_are_laid_out_as_in_the_header() {
        let (is_right, said) = compiles(&program(&layouts()));
        assert!(is_right, "{said}");
    }

    /// That the test above can fail: each thing that it looks at, wrong by one.
    #[test]
    fn another_layout_is_told() {
        let wrong: [fn(&mut Layout); 6] = [
            |layout| layout.size += 1,
            |layout| layout.align *= 2,
            |layout| layout.fields[0].offset += 1,
            |layout| layout.fields[1].size += 1,
            |layout| layout.fields.truncate(1),
            |layout| layout.fields[1].name = "another",
        ];
        for (at, change) in wrong.iter().enumerate() {
            let mut layouts = layouts();
            change(&mut layouts[1]);
            assert!(!compiles(&program(&layouts)).0, "change {at} goes unseen");
        }
    }

    #[test]
    fn nothing_is_left_of_what_is_overwritten() {
        let mut key = Key { round_keys: [0x0101_0101; 32], answer: 1, number: 2, retired: 3, engine: 4 };
        let secret = Secret::take(&mut key);
        assert_eq!((secret.round_keys, secret.engine), ([0x0101_0101; 32], 4));
        assert_eq!((key.round_keys, key.answer, key.number), ([0; 32], 0, 0));
        assert_eq!((key.retired, key.engine), (0, 0));
    }
}
