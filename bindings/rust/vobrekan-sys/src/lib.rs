//! The declarations of `libvobrekan`, one for each call of the library.
//!
//! They are those of the header `vobrekan.h`. What a call answers is an [`vb_answer`]; no pointer may be null, and one call at a time works on a
//! handle. The crate `vobrekan` has the same as safe Rust.
//!
//! ```
//! use vobrekan_sys::*;
//!
//! let mut machine = vb_machine { at: core::ptr::null_mut() };
//! unsafe {
//!     assert_eq!(vb_new(&mut machine, 1 << 10).code, VB_DONE);
//!     let board = vb_container(&mut machine, u64::MAX).value as u32;
//!     assert_eq!(vb_space(&mut machine, 0, board).other, 1);
//!     assert_eq!(vb_commit(&mut machine).code, VB_NO_TRANSACTION);
//!     vb_free(&mut machine);
//! }
//! ```
#![no_std]
#![deny(missing_docs)]
#![allow(non_camel_case_types)]

include!("declarations.rs");
