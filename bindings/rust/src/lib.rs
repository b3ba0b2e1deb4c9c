//! Tera's template engine, proved: an [`Engine`] takes templates, and renders them with data in JSON.
//!
//! ```
//! # fn main() -> Result<(), hovdreg::Error> {
//! let mut engine = hovdreg::Engine::new()?;
//! engine.add(&[("hello.html", "Hello {{ name | upper }}!")])?;
//! let page = engine.render("hello.html", r#"{"name": "<world>"}"#)?;
//! assert_eq!(page, "Hello &lt;WORLD&gt;!");
//! # Ok(())
//! # }
//! ```
//!
//! The environment variable `HOVDREG_LIB` names the folder with `libtera_c.a` and `liblibc_c.a` while this crate is built.
//!
//! An engine stays in its thread:
//!
//! ```compile_fail
//! fn send<T: Send>(_: T) {}
//! send(hovdreg::Engine::new());
//! ```
mod engine;
mod error;
mod exports;

pub use engine::{Component, Delimiters, Engine, Options};
pub use error::{Error, ErrorKind};
