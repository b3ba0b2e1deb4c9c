//! What door.rs does, by Tera 1, with data that `serde_json` reads.
mod timing;

use std::error::Error;
use std::fs;
use tera::{Context, Tera};

fn render(engine: &Tera, data: &str) -> tera::Result<String> {
    let context = Context::from_value(serde_json::from_str(data)?)?;
    engine.render("page.html", &context)
}

fn main() -> Result<(), Box<dyn Error>> {
    let (page, data) = (fs::read_to_string("page.html")?, fs::read_to_string("data.json")?);
    let mut engine = Tera::default();
    engine.add_raw_template("page.html", &page)?;
    timing::answer(|| render(&engine, &data))
}
