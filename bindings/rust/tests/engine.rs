//! What the engine renders, lists and refuses.
use hovdreg::{Component, Delimiters, Engine, Error, ErrorKind, Options};

const LAYOUT: &str = "[{% block b %}{{ x }}{% endblock %}]";
const PAGE: &str = r#"{% extends "base.html" %}{% block b %}<b>{{ super() }}</b>{% endblock %}"#;
const CARD: &str =
    r#"{% component Card(title: String, @lang = "en") %}{{ lang }} {{ title }} {{ body | default(value="-") }}{% endcomponent %}"#;

fn engine(templates: &[(&str, &str)]) -> Engine {
    let mut engine = Engine::new().unwrap();
    engine.add(templates).unwrap();
    engine
}

fn kind<T: std::fmt::Debug>(outcome: Result<T, Error>) -> ErrorKind {
    outcome.unwrap_err().kind()
}

#[test]
fn renders_a_page_and_a_block() {
    let mut engine = engine(&[("page.html", PAGE), ("base.html", LAYOUT)]);
    assert_eq!(engine.render("page.html", r#"{"x": "<&>"}"#).unwrap(), "[<b>&lt;&amp;&gt;</b>]");
    assert_eq!(engine.render_block("page.html", "b", r#"{"x": 1}"#).unwrap(), "<b>1</b>");
    assert_eq!(engine.template_names().unwrap(), ["base.html", "page.html"]);
    assert_eq!(engine.variables("page.html").unwrap(), ["x"]);
}

#[test]
fn renders_a_text() {
    let mut engine = engine(&[("part", "({{ x }})")]);
    let text = "{{ x | upper }}{% include \"part\" %}";
    assert_eq!(engine.render_text(text, r#"{"x": "<ö>"}"#, true).unwrap(), "&lt;Ö&gt;(&lt;ö&gt;)");
    assert_eq!(engine.render_text(text, r#"{"x": "<ö>"}"#, false).unwrap(), "<Ö>(<ö>)");
    assert_eq!(engine.render_text("", "{}", true).unwrap(), "");
}

#[test]
fn renders_a_component() {
    let mut engine = engine(&[("cards", CARD)]);
    let given = Component { arguments: r#"{"title": "<"}"#, ..Component::default() };
    assert_eq!(engine.component_names().unwrap(), ["Card"]);
    assert_eq!(engine.render_component("Card", &given).unwrap(), "en &lt; -");
    let given = Component { implicits: r#"{"lang": "no"}"#, body: Some("<b>"), autoescape: false, ..given };
    assert_eq!(engine.render_component("Card", &given).unwrap(), "no < <b>");
    assert_eq!(engine.render_component("Card", &Component { body: Some(""), ..given }).unwrap(), "no < ");
    assert_eq!(kind(engine.render_component("Card", &Component::default())), ErrorKind::Message);
    assert_eq!(kind(engine.render_component("Nobody", &given)), ErrorKind::ComponentNotFound);
}

#[test]
fn adds_all_templates_or_none() {
    let mut engine = engine(&[("a", "A")]);
    assert_eq!(kind(engine.add(&[("a", "changed"), ("b", "{{")])), ErrorKind::SyntaxError);
    assert_eq!(engine.template_names().unwrap(), ["a"]);
    assert_eq!(engine.render("a", "{}").unwrap(), "A");
    engine.add(&[]).unwrap();
    engine.add(&[("a", "changed")]).unwrap();
    assert_eq!(engine.render("a", "{}").unwrap(), "changed");
}

#[test]
fn takes_settings() {
    let mut engine = Engine::new().unwrap();
    engine.fallback_prefixes(&["themes/b/", "themes/a/"]).unwrap();
    let delimiters = Delimiters { variable_start: "<<", variable_end: ">>", ..Delimiters::default() };
    engine.delimiters(&delimiters).unwrap();
    engine.add(&[("themes/a/one", "a"), ("themes/b/one", "b<< x >>{{ x }}")]).unwrap();
    assert_eq!(engine.render("one", r#"{"x": "'"}"#).unwrap(), "b'{{ x }}");
    engine.autoescape_on(&[".txt", "one"]).unwrap();
    assert_eq!(engine.render("one", r#"{"x": "'"}"#).unwrap(), "b&#x27;{{ x }}");
    engine.autoescape_on(&[]).unwrap();
    assert_eq!(engine.render("one", r#"{"x": "'"}"#).unwrap(), "b'{{ x }}");
    assert_eq!(kind(engine.fallback_prefixes(&["late/"])), ErrorKind::Message);
    assert_eq!(kind(engine.delimiters(&Delimiters::default())), ErrorKind::Message);
}

#[test]
fn takes_globals() {
    let mut engine = engine(&[("a", "{{ site }}{{ x }}")]);
    engine.globals(r#"{"site": "S", "x": 1}"#).unwrap();
    engine.globals(r#"{"x": 2}"#).unwrap();
    assert_eq!(engine.render("a", "{}").unwrap(), "S2");
    assert_eq!(engine.render("a", r#"{"x": 3}"#).unwrap(), "S3");
    assert_eq!(kind(engine.globals("[]")), ErrorKind::Message);
}

#[test]
fn takes_options() {
    let mut plain = Engine::with_options(&Options { is_plain: true, ..Options::default() }).unwrap();
    assert_eq!(kind(plain.add(&[("a", "{{ 'a' | upper }}")])), ErrorKind::Message);
    let mut engine = Engine::with_options(&Options { takes_floats: true, clock: Some(86400), ..Options::default() }).unwrap();
    assert_eq!(engine.render_text("{{ x }} {{ now() }}", r#"{"x": 1.50}"#, false).unwrap(), "1.50 1970-01-02T00:00:00Z");
    let mut engine = Engine::new().unwrap();
    assert_eq!(kind(engine.render_text("{{ x }}", r#"{"x": 1.50}"#, false)), ErrorKind::Message);
    assert_eq!(kind(engine.render_text("{{ now() }}", "{}", false)), ErrorKind::Message);
}

#[test]
fn tells_of_an_error() {
    let mut engine = engine(&[("page", "one\növ {{ nobody }}")]);
    let error = engine.render("page", "{}").unwrap_err();
    assert_eq!(error.kind(), ErrorKind::RenderingError);
    assert_eq!(error.file(), Some("page"));
    assert_eq!(error.span(), Some(11..17));
    assert_eq!((error.line(), error.column()), (Some(2), Some(7)));
    assert_eq!(error.message(), "`nobody` is undefined");
    assert_eq!(error.to_string(), "page:2:7: `nobody` is undefined\n2 | öv {{ nobody }}\n  |       ^^^^^^");
    let error = engine.render("nothing", "{}").unwrap_err();
    assert_eq!((error.file(), error.span(), error.line(), error.column()), (None, None, None, None));
    let _: &dyn std::error::Error = &error;
}

#[test]
fn tells_the_kind_of_an_error() {
    let mut engine = engine(&[("a", "A")]);
    assert_eq!(kind(engine.add(&[("b", "{% if %}")])), ErrorKind::SyntaxError);
    assert_eq!(kind(engine.add(&[("b", "{% include 'nothing' %}")])), ErrorKind::Message);
    assert_eq!(kind(engine.add(&[("b", "{% extends 'nothing' %}")])), ErrorKind::MissingParent);
    assert_eq!(kind(engine.add(&[("b", "{% extends 'b' %}")])), ErrorKind::CircularExtend);
    assert_eq!(kind(engine.add(&[("b", "{% include 'b' %}")])), ErrorKind::CircularInclude);
    assert_eq!(kind(engine.render("nothing", "{}")), ErrorKind::TemplateNotFound);
    assert_eq!(kind(engine.variables("nothing")), ErrorKind::TemplateNotFound);
    assert_eq!(kind(engine.render_block("a", "nothing", "{}")), ErrorKind::Message);
    assert_eq!(kind(engine.render("a", "{")), ErrorKind::Message);
    assert_eq!(kind(engine.render_text("{{ 1 | truncate(length='a') }}", "{}", true)), ErrorKind::RenderingError);
    assert_eq!(engine.render("a", "{}").unwrap(), "A");
}

#[test]
fn renders_the_same_text_each_time() {
    let mut engine = engine(&[("page.html", PAGE), ("base.html", LAYOUT)]);
    for count in 0..100_000 {
        assert_eq!(engine.render("page.html", r#"{"x": "a & b"}"#).unwrap(), "[<b>a &amp; b</b>]");
        if count % 1000 == 0 {
            assert_eq!(kind(engine.render("page.html", "{}")), ErrorKind::RenderingError);
        }
    }
}

#[test]
fn may_be_moved_and_made_again() {
    let mut engines = Vec::new();
    for number in 0..1000 {
        engines.push(engine(&[("a", &format!("{number}"))]));
    }
    engines.swap(0, 999);
    let mut boxed = Box::new(engines.swap_remove(7));
    assert_eq!(boxed.render("a", "{}").unwrap(), "7");
    assert_eq!(engines[0].render("a", "{}").unwrap(), "999");
}

#[test]
fn is_made_in_each_thread() {
    let threads: Vec<_> = (0..4)
        .map(|number: i32| std::thread::spawn(move || engine(&[("a", "{{ x }}")]).render("a", &format!("{{\"x\": {number}}}")).unwrap()))
        .collect();
    let texts: Vec<_> = threads.into_iter().map(|thread| thread.join().unwrap()).collect();
    assert_eq!(texts, ["0", "1", "2", "3"]);
}
