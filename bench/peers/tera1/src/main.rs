//! What bench/peers/program.txt does, by Tera 1.
use serde_json::{json, Map, Value};
use std::io::{Read, Write};
use std::time::Instant;
use tera::{Context, Tera};

const TEXT: &str = "<p class=\"lead\">It's a line of text, and it goes on & on.</p>";

fn next(state: u64) -> u64 {
    state.wrapping_mul(1_103_515_245).wrapping_add(12_345) % 2_147_483_648
}

fn item(data: &str, place: u64, chance: u64) -> Value {
    let row = place * 10..place * 10 + 10;
    match data {
        "rows_of_texts" => row.map(|cell| cell.to_string()).collect(),
        "rows_of_integers" => row.collect(),
        "people" => json!({"name": "Jane", "age": place, "city": format!("City {}", place % 10)}),
        "words" => json!(format!("w{chance}")),
        "few_words" => json!(format!("w{}", place % 100)),
        "scattered" => json!(chance),
        "few_integers" => json!(place % 100),
        _ => json!(place),
    }
}

/// Numbers that look like chance.
fn chances(size: u64) -> impl Iterator<Item = u64> {
    std::iter::successors(Some(next(42)), |state| Some(next(*state))).take(size as usize)
}

fn map(size: u64) -> Value {
    Value::Object(
        chances(size)
            .map(|chance| (format!("k{chance}"), json!(chance)))
            .collect::<Map<_, _>>(),
    )
}

fn context(data: &str, size: u64) -> Context {
    let mut context = Context::new();
    context.insert("name", "world");
    context.insert("title", "A & B");
    context.insert("text", TEXT);
    context.insert("flag", &true);
    context.insert("off", &false);
    context.insert("num", &7);
    context.insert(
        "user",
        &json!({"name": "Ann", "email": "ann@x.org", "age": 30}),
    );
    match data {
        "nothing" => {}
        "names" => (0..size).for_each(|number| context.insert(format!("v{number}"), &number)),
        "map" => context.insert("map", &map(size)),
        "markup" => context.insert(
            "long",
            &"The quick <b>brown</b> fox & more, ".repeat(size as usize),
        ),
        "signs" => context.insert("long", &"<&>\"'".repeat(size as usize)),
        "plain" => context.insert("long", &"lorem ipsum dolor sit amet ".repeat(size as usize)),
        _ => {
            let items: Vec<Value> = (0..size)
                .zip(chances(size))
                .map(|(place, chance)| item(data, place, chance))
                .collect();
            context.insert("items", &items);
        }
    }
    context
}

fn engine(batch: &[(&str, &str)]) -> Tera {
    let mut engine = Tera::default();
    engine
        .add_raw_templates(batch.iter().copied())
        .expect("the templates are read");
    engine
}

fn read(rounds: usize, batch: &[(&str, &str)]) {
    for _ in 0..rounds {
        let mut engine = Tera::default();
        let start = Instant::now();
        let is_read = engine.add_raw_templates(batch.iter().copied()).is_ok();
        println!("{is_read} {}", start.elapsed().as_nanos());
    }
}

fn render(rounds: usize, times: usize, engine: &Tera, context: &Context) {
    for _ in 0..rounds {
        let start = Instant::now();
        let mut is_rendered = true;
        for _ in 0..times {
            is_rendered &= engine.render("main.html", context).is_ok();
        }
        println!("{is_rendered} {}", start.elapsed().as_nanos());
    }
}

fn main() {
    let mut input = String::new();
    std::io::stdin()
        .read_to_string(&mut input)
        .expect("the input is UTF-8");
    let (line, parts) = input.split_once('\n').expect("a first line");
    let head: Vec<&str> = line.split(' ').collect();
    let number = |place: usize| head[place].parse::<usize>().expect("a number");
    let batch: Vec<(&str, &str)> = parts
        .split('\u{1}')
        .filter_map(|part| part.split_once('\u{2}'))
        .collect();
    let context = context(head[1], number(2) as u64);
    match head[0] {
        "read" => read(number(3), &batch),
        "render" => render(number(3), number(4), &engine(&batch), &context),
        _ => {
            let text = engine(&batch)
                .render("main.html", &context)
                .expect("it is rendered");
            std::io::stdout()
                .write_all(text.as_bytes())
                .expect("it is written");
        }
    }
}
