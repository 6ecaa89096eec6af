//! An independent writing of the ring table and what is needed to compare a
//! library with it.

pub mod calls;
pub mod compare;
pub mod ffi;
pub mod keys;
pub mod layout;
pub mod make;
pub mod random;
pub mod reference;
pub mod rounds;
pub mod second;
pub mod session;
