//! What door.c does by `render` and `print`, through the crate `hovdreg`.
mod timing;

use hovdreg::Engine;
use std::error::Error;
use std::fs;

fn main() -> Result<(), Box<dyn Error>> {
    let (page, data) = (fs::read_to_string("page.html")?, fs::read_to_string("data.json")?);
    let mut engine = Engine::new()?;
    engine.add(&[("page.html", &page)])?;
    timing::answer(|| engine.render("page.html", &data))
}
