//! Programs and packages in words, to bytes and back.
//!
//! [`program`] has the forms of the instructions, [`package`] those of a package.
//!
//! ```
//! use text_form::Package;
//!
//! let text = "\
//! change 30
//!     r0 = port 2 power
//!     r1 = 300
//!     r0 = r0 - r1
//!     port 2 power = r0
//!     if r0 < 0 skip to alarm
//!     stop
//!   alarm:
//!     r1 = 1
//!     port 2 alarm = r1
//! withdraw 15
//! ";
//! let package = Package::from_text(text.as_bytes()).expect("this is a package");
//! assert_eq!(package.to_bytes().len(), 2 + 2 * 12 + 8 * 8);
//! assert_eq!(Package::from_bytes(&package.to_bytes()).as_ref(), Ok(&package));
//! assert_eq!(Package::from_text(package.to_string().as_bytes()), Ok(package));
//!
//! let error = Package::from_text(b"change 30\n    port 2 powr = r0\n").expect_err("a slip");
//! let expected = r#"expected "state", "vlan", "power", "alarm", "mask" or "field", found "powr""#;
//! assert_eq!(error.to_string(), format!("line 2, column 12: {expected}"));
//! ```

#![forbid(unsafe_code)]
#![warn(missing_docs)]

pub mod package;
pub mod program;

mod line;
mod setting;

pub use line::{Error, Quoted};
pub use package::Package;
pub use program::InWords;
pub use setting::Setting;
