//! Loops over the same values, written by hand: built by `rustc --edition 2021 -O`. Prints a word for each and the nanoseconds of its fastest round of 200.
use std::fmt::Write;
use std::hint::black_box;
use std::rc::Rc;
use std::time::Instant;

/// A value that is known when it is met, as an engine's is.
enum Value {
    Int(i128),
    Text(Rc<str>),
    Array(Rc<Vec<Value>>),
    Map(Rc<Vec<(String, Value)>>),
}

fn put_escaped(out: &mut String, text: &str) {
    let mut start = 0;
    for (place, byte) in text.bytes().enumerate() {
        let form = match byte {
            b'&' => "&amp;",
            b'<' => "&lt;",
            b'>' => "&gt;",
            b'"' => "&quot;",
            b'\'' => "&#x27;",
            _ => continue,
        };
        out.push_str(&text[start..place]);
        out.push_str(form);
        start = place + 1;
    }
    out.push_str(&text[start..]);
}

fn put_integer(out: &mut String, number: i128) {
    let Ok(mut number) = u64::try_from(number) else {
        return write!(out, "{number}").expect("a text takes it");
    };
    let mut digits = [0; 20];
    let mut start = digits.len();
    loop {
        start -= 1;
        digits[start] = b'0' + (number % 10) as u8;
        number /= 10;
        if number == 0 {
            break;
        }
    }
    out.push_str(std::str::from_utf8(&digits[start..]).expect("digits are ASCII"));
}

fn put(out: &mut String, value: &Value) {
    match value {
        Value::Int(number) => put_integer(out, *number),
        Value::Text(text) => put_escaped(out, text),
        Value::Array(_) | Value::Map(_) => {}
    }
}

fn put_cell(out: &mut String, cell: &Value) {
    out.push_str("<td>");
    put(out, cell);
    out.push_str("</td>");
}

fn put_table(out: &mut String, rows: &[Value]) {
    for row in rows {
        if let Value::Array(cells) = row {
            out.push_str("<tr>");
            cells.iter().for_each(|cell| put_cell(out, cell));
            out.push_str("</tr>");
        }
    }
}

fn put_attributes(out: &mut String, people: &[Value]) {
    for person in people {
        if let Value::Map(entries) = person {
            for (before, name) in [("<li>", "name"), (" ", "age"), (" ", "city")] {
                out.push_str(before);
                if let Some((_, value)) = entries.iter().find(|entry| entry.0 == name) {
                    put(out, value);
                }
            }
            out.push_str("</li>");
        }
    }
}

fn integers(items: &[Value]) -> impl Iterator<Item = i128> + '_ {
    items.iter().filter_map(|item| {
        if let Value::Int(number) = item {
            Some(*number)
        } else {
            None
        }
    })
}

fn texts(items: &[Value]) -> impl Iterator<Item = &str> {
    items.iter().filter_map(|item| {
        if let Value::Text(text) = item {
            Some(&**text)
        } else {
            None
        }
    })
}

/// Prints the fastest round, whose text is thrown away.
fn time(word: &str, mut work: impl FnMut(&mut String)) {
    let mut best = u128::MAX;
    for _ in 0..200 {
        let start = Instant::now();
        let mut out = String::new();
        work(&mut out);
        black_box(&out);
        best = best.min(start.elapsed().as_nanos());
    }
    println!("{word} {best}");
}

fn text(text: String) -> Value {
    Value::Text(text.into())
}

fn table(cell: fn(i128) -> Value) -> Vec<Value> {
    (0..1000)
        .map(|row| {
            Value::Array(Rc::new(
                (0..10).map(|place| cell(10 * row + place)).collect(),
            ))
        })
        .collect()
}

fn person(number: i128) -> Value {
    let entries = [
        ("name", text("Jane".to_string())),
        ("age", Value::Int(number)),
        ("city", text(format!("City {}", number % 10))),
    ];
    Value::Map(Rc::new(
        entries
            .into_iter()
            .map(|(name, value)| (name.to_string(), value))
            .collect(),
    ))
}

fn words() -> Vec<Value> {
    let next = |state: &u64| Some((state * 1_103_515_245 + 12_345) % 2_147_483_648);
    std::iter::successors(next(&42), next)
        .take(10_000)
        .map(|number| text(format!("w{number}")))
        .collect()
}

fn time_loops(numbers: &[Value]) {
    let (of_texts, of_integers) =
        black_box((table(|number| text(number.to_string())), table(Value::Int)));
    let people: Vec<Value> = black_box((0..1000).map(person).collect());
    time("texts", |out| put_table(out, &of_texts));
    time("integers", |out| put_table(out, &of_integers));
    time("attributes", |out| put_attributes(out, &people));
    time("turns", |out| {
        numbers
            .iter()
            .enumerate()
            .for_each(|(place, _)| put_integer(out, place as i128 + 1))
    });
    time("set", |out| {
        integers(numbers).for_each(|number| put_integer(out, black_box(number)))
    });
    time("if", |out| {
        integers(numbers).for_each(|number| out.push(if number > 5000 { 'a' } else { 'b' }))
    });
    time("arithmetic", |out| {
        for number in integers(numbers).filter_map(|number| number.checked_mul(2)?.checked_add(1)) {
            put_integer(out, number);
            out.push(',');
        }
    });
    time("odd", |out| {
        integers(numbers)
            .filter(|number| number & 1 == 1)
            .for_each(|_| out.push('a'))
    });
}

fn time_texts(words: &[Value]) {
    time("concat", |out| {
        texts(words).for_each(|word| put_escaped(out, &[word, "-", word].concat()))
    });
    time("trim", |out| {
        texts(words).for_each(|word| put_escaped(out, &Rc::<str>::from(word.trim())))
    });
    time("length", |out| {
        texts(words).for_each(|word| put_integer(out, word.chars().count() as i128))
    });
    time("replace", |out| {
        texts(words).for_each(|word| put_escaped(out, &word.replace('w', "x")))
    });
}

fn main() {
    let numbers: Vec<Value> = black_box((0..10_000).map(Value::Int).collect());
    let words = black_box(words());
    let markup = black_box("The quick <b>brown</b> fox & more, ".repeat(2_858));
    time_loops(&numbers);
    time_texts(&words);
    time("escape", |out| put_escaped(out, black_box(&markup)));
}
