//! Memory is refused in the middle of a batch and of a list. The engine then is as before the call, and goes on.
use hovdreg::{Engine, Error, ErrorKind};
use std::env;
use std::process::Command;

/// The test runs once more with this in its environment, in 400 MB of address space.
const LIMITED: &str = "HOVDREG_TEST_IS_LIMITED";

#[test]
fn goes_on_as_before() {
    if env::var_os(LIMITED).is_some() {
        return refuse_batch_and_list();
    }
    let program = env::current_exe().unwrap();
    let limited = Command::new("sh").args(["-c", "ulimit -v 400000 && exec \"$0\""]).arg(program).env(LIMITED, "").output().unwrap();
    assert!(limited.status.success(), "{}", String::from_utf8_lossy(&limited.stdout));
}

fn refuse_batch_and_list() {
    let large = "x".repeat(40_000_000);
    let names: Vec<_> = (0..10).map(|number| number.to_string()).collect();
    let mut engine = Engine::new().unwrap();
    engine.add(&[("a.html", "{{ x }}")]).unwrap();

    let mut batch = vec![("a.html", "changed")];
    batch.extend(names.iter().map(|name| (name.as_str(), large.as_str())));
    assert!(is_for_want_of_memory(engine.add(&batch)));
    engine.add(&[("b", "B")]).unwrap();
    assert_eq!(engine.template_names().unwrap(), ["a.html", "b"]);

    let mut list = vec![".html"];
    list.resize(10, &large);
    assert!(is_for_want_of_memory(engine.autoescape_on(&list)));
    assert_eq!(engine.render("a.html", r#"{"x": "<"}"#).unwrap(), "&lt;");
    engine.autoescape_on(&[".txt"]).unwrap();
    assert_eq!(engine.render("a.html", r#"{"x": "<"}"#).unwrap(), "<");
}

fn is_for_want_of_memory(outcome: Result<(), Error>) -> bool {
    outcome.is_err_and(|error| error.kind() == ErrorKind::OutOfMemory && error.to_string() == error.message())
}
