//! Joins the four files of libsm's `src/sm4` into a crate, unchanged. The build puts copies of them
//! beside this file, in a folder `sm4`; none of their text is kept in this repository.

pub mod sm4 {
    pub mod cipher;
    pub mod cipher_mode;
    pub mod error;
    mod gcm;
}
