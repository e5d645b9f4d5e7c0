//! Payment files of UBT records: judged, summed and reported on.
//!
//! The functions at the top of this crate call the static library `libedi4_c.a`
//! through safe Rust. Beside them stands [`reading`], a second and independent
//! implementation of the same rules, and what compares the two.
//!
//! ```
//! assert_eq!(edi4::judge_file(b""), Ok(0));
//! let refusal = edi4::judge_file(b"UBT\r\n").unwrap_err();
//! assert_eq!(refusal.to_string(), "11 layer 2 line 1 field 1 byte 4");
//! ```

pub mod compare;
pub mod damage;
pub mod inputs;
pub mod library;
pub mod random;
pub mod reading;
mod refusal;
pub mod timing;

pub use library::{judge_file, judge_line, report, report_of, total};
pub use refusal::Refusal;
