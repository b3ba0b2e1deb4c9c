//! Renders a page with a layout, and prints what is wrong with a faulty template.
use hovdreg::{Engine, Error};

const LAYOUT: &str = "<title>{% block title %}{% endblock %}</title>
{% block body %}{% endblock %}";
const PAGE: &str = r#"{% extends "layout.html" %}
{% block title %}{{ title }}{% endblock %}
{% block body %}<ul>{% for item in items %}
  <li>{{ item.name | upper }}: {{ item.price }}</li>{% endfor %}
</ul>{% endblock %}"#;
const FAULTY: &str = "<p>\n  {% for item of items %}{{ item.name }}{% endfor %}\n</p>\n";
const DATA: &str = r#"{"title": "Fish & chips", "items": [{"name": "cod", "price": 7}, {"name": "<haddock>", "price": 9}]}"#;

fn main() -> Result<(), Error> {
    let mut engine = Engine::new()?;
    engine.add(&[("layout.html", LAYOUT), ("page.html", PAGE)])?;
    println!("{}", engine.render("page.html", DATA)?);

    // A template that can't be read is refused, and the engine goes on.
    if let Err(error) = engine.add(&[("faulty.html", FAULTY)]) {
        println!("{:?} in line {}, column {}:", error.kind(), error.line().unwrap_or(0), error.column().unwrap_or(0));
        println!("{error}");
    }
    Ok(())
}
