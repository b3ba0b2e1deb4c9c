// The same work as program/src/main.rt, in Rust: built by `rustc -O`.
use std::collections::BTreeMap;
use std::rc::Rc;
use std::time::Instant;

fn escape(text: &str, out: &mut String) {
    let bytes = text.as_bytes();
    let mut start = 0;
    for (place, byte) in bytes.iter().enumerate() {
        let form = match byte {
            b'&' => "&amp;",
            b'<' => "&lt;",
            b'>' => "&gt;",
            b'"' => "&quot;",
            b'\'' => "&#x27;",
            _ => continue,
        };
        out.push_str(&text[start..place]);
        out.push_str(form);
        start = place + 1;
    }
    out.push_str(&text[start..]);
}

fn say(what: &str, start: Instant, count: usize) {
    println!("{what}: {} us ({count})", start.elapsed().as_micros());
}

fn escape_times(what: &str, pattern: &str, size: usize) {
    let text = pattern.repeat(size);
    let start = Instant::now();
    let mut total = 0usize;
    for _ in 0..10 {
        let mut out = String::new();
        escape(&text, &mut out);
        total += out.len();
    }
    say(what, start, total);
}

fn names(count: usize) -> Vec<String> {
    (0..count).map(|n| format!("name{}", n * 7_919 % 10_007)).collect()
}

fn lookup_times(count: usize, rounds: usize) {
    let names = names(count);
    let map: BTreeMap<String, u64> = names.iter().map(|n| (n.clone(), 1)).collect();
    for what in ["look-up in a context", "look-up in a map"] {
        let start = Instant::now();
        let mut hits = 0usize;
        for _ in 0..rounds {
            for name in &names {
                if map.get(name.as_str()).is_some() {
                    hits += 1;
                }
            }
        }
        say(what, start, hits);
    }
}

fn clone_times(count: usize) {
    let shared: Rc<Vec<Rc<str>>> = Rc::new((0..count).map(|_| Rc::from("an item of the array")).collect());
    let start = Instant::now();
    let mut hits = 0usize;
    for _ in 0..1_000_000 {
        let copy = std::hint::black_box(shared.clone());
        hits += usize::from(!copy.is_empty());
    }
    say("clone of a shared array", start, hits);
}

fn build_times() {
    let names = names(10_000);
    let start = Instant::now();
    let mut map = BTreeMap::new();
    for name in &names {
        map.insert(name.clone(), 1u64);
    }
    say("build of a map of 10,000 keys", start, map.len());
}

fn main() {
    escape_times("escape of plain text", "abcdefghijklmnopqrst", 500_000);
    escape_times("escape of marked text", "abcdefghijklmnopqrs<", 500_000);
    lookup_times(20, 100_000);
    lookup_times(1_000, 2_000);
    clone_times(10);
    clone_times(10_000);
    build_times();
}
