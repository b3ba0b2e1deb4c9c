//! Renderings with values of `serde_json`.
//!
//! ```
//! # fn main() -> Result<(), hovdreg::Error> {
//! use hovdreg_serde::RenderValue;
//!
//! let mut engine = hovdreg::Engine::new()?;
//! engine.add(&[("hello.html", "Hello {{ name }}!")])?;
//! let page = engine.render_value("hello.html", &serde_json::json!({"name": "<world>"}))?;
//! assert_eq!(page, "Hello &lt;world&gt;!");
//! # Ok(())
//! # }
//! ```
use hovdreg::{Engine, Error};
use serde_json::Value;

/// Renderings with values of `serde_json`.
pub trait RenderValue {
    /// Renders a template with the members of an object.
    fn render_value(&mut self, name: &str, data: &Value) -> Result<String, Error>;

    /// Renders a template, and answers the text of one of its blocks.
    fn render_block_value(&mut self, name: &str, block: &str, data: &Value) -> Result<String, Error>;

    /// Renders a text that the engine does not keep.
    fn render_text_value(&mut self, text: &str, data: &Value, autoescape: bool) -> Result<String, Error>;
}

impl RenderValue for Engine {
    fn render_value(&mut self, name: &str, data: &Value) -> Result<String, Error> {
        self.render(name, &data.to_string())
    }

    fn render_block_value(&mut self, name: &str, block: &str, data: &Value) -> Result<String, Error> {
        self.render_block(name, block, &data.to_string())
    }

    fn render_text_value(&mut self, text: &str, data: &Value, autoescape: bool) -> Result<String, Error> {
        self.render_text(text, &data.to_string(), autoescape)
    }
}
