//! An engine that takes templates, and renders them with data in JSON.
use crate::error::Error;
use crate::exports::{Answer, Handle, RawOptions};
use std::fmt;

/// What a new engine is like.
#[derive(Clone, Copy, Debug, Default, PartialEq, Eq)]
pub struct Options {
    /// Templates have the filters of the language alone, and none of `docs/FILTERS.md`.
    pub is_plain: bool,
    /// Numbers of the data that are no integers become their texts. Else such data is refused.
    pub takes_floats: bool,
    /// What the function `now` tells, in seconds since the start of 1970, as long as the engine lives. Without it there is no such function.
    pub clock: Option<i64>,
}

/// What begins and ends the three kinds of tag.
#[derive(Clone, Copy, Debug, PartialEq, Eq)]
pub struct Delimiters<'a> {
    pub block_start: &'a str,
    pub block_end: &'a str,
    pub variable_start: &'a str,
    pub variable_end: &'a str,
    pub comment_start: &'a str,
    pub comment_end: &'a str,
}

impl Default for Delimiters<'_> {
    fn default() -> Self {
        Delimiters { block_start: "{%", block_end: "%}", variable_start: "{{", variable_end: "}}", comment_start: "{#", comment_end: "#}" }
    }
}

/// What a component is given.
#[derive(Clone, Copy, Debug, PartialEq, Eq)]
pub struct Component<'a> {
    /// An object of JSON: the arguments by name.
    pub arguments: &'a str,
    /// An object of JSON in which parameters as `@lang` are looked up.
    pub implicits: &'a str,
    /// What stands between its tags. It is put out as it is, and never escaped.
    pub body: Option<&'a str>,
    /// Whether the component escapes.
    pub autoescape: bool,
}

impl Default for Component<'_> {
    fn default() -> Self {
        Component { arguments: "{}", implicits: "{}", body: None, autoescape: true }
    }
}

/// An engine that takes templates, and renders them with data in JSON.
///
/// After any error it is as before the call. It is not `Send`: it stays in the thread that made it.
pub struct Engine {
    handle: Handle,
}

impl Engine {
    /// An engine without templates, with the filters of `docs/FILTERS.md`.
    pub fn new() -> Result<Engine, Error> {
        Engine::with_options(&Options::default())
    }

    /// An engine without templates.
    pub fn with_options(options: &Options) -> Result<Engine, Error> {
        let mut engine = Engine { handle: Handle::empty() };
        let raw = RawOptions {
            is_plain: options.is_plain.into(),
            takes_floats: options.takes_floats.into(),
            has_clock: options.clock.is_some().into(),
            seconds: options.clock.unwrap_or(0),
        };
        let answer = engine.handle.make(&raw);
        engine.done(answer)?;
        Ok(engine)
    }

    /// Adds templates as names and texts, all or none, each in the place of one with its name.
    pub fn add(&mut self, templates: &[(&str, &str)]) -> Result<(), Error> {
        for (name, text) in templates {
            let answer = self.handle.put_template(name, text);
            self.handed_over(answer)?;
        }
        let answer = self.handle.add();
        self.done(answer)
    }

    /// Templates escape whose names end with one of these, and no others. At first these are `.html`, `.htm` and `.xml`.
    pub fn autoescape_on(&mut self, suffixes: &[&str]) -> Result<(), Error> {
        self.put_all(suffixes)?;
        let answer = self.handle.autoescape_on();
        self.done(answer)
    }

    /// A name that no template has is looked for behind each of these, the first one first. Templates are added afterwards.
    pub fn fallback_prefixes(&mut self, prefixes: &[&str]) -> Result<(), Error> {
        self.put_all(prefixes)?;
        let answer = self.handle.set_fallback_prefixes();
        self.done(answer)
    }

    /// Tags are told from text by these delimiters. Templates are added afterwards.
    pub fn delimiters(&mut self, delimiters: &Delimiters<'_>) -> Result<(), Error> {
        let answer = self.handle.set_delimiters([
            delimiters.block_start,
            delimiters.block_end,
            delimiters.variable_start,
            delimiters.variable_end,
            delimiters.comment_start,
            delimiters.comment_end,
        ]);
        self.done(answer)
    }

    /// Every rendering reads the members of this object of JSON where its own data has none of their name. Those that were given before stay, or have their new value.
    pub fn globals(&mut self, json: &str) -> Result<(), Error> {
        let answer = self.handle.put_globals(json);
        self.done(answer)
    }

    /// Renders a template with the members of an object of JSON.
    pub fn render(&mut self, name: &str, json: &str) -> Result<String, Error> {
        let answer = self.handle.render(name, json);
        self.text(answer)
    }

    /// Renders a template, and answers the text of one of its blocks.
    pub fn render_block(&mut self, name: &str, block: &str, json: &str) -> Result<String, Error> {
        let answer = self.handle.render_block(name, block, json);
        self.text(answer)
    }

    /// Renders a text that the engine does not keep. It may include templates and call components, but has no parent and no block.
    pub fn render_text(&mut self, text: &str, json: &str, autoescape: bool) -> Result<String, Error> {
        let answer = self.handle.render_text(text, json, autoescape);
        self.text(answer)
    }

    /// Renders a component by itself.
    pub fn render_component(&mut self, name: &str, given: &Component<'_>) -> Result<String, Error> {
        let data = [given.arguments, given.implicits];
        let answer = self.handle.render_component(name, data, given.body, given.autoescape);
        self.text(answer)
    }

    /// The names of the templates, in byte order.
    pub fn template_names(&mut self) -> Result<Vec<String>, Error> {
        let answer = self.handle.template_names();
        self.names(answer)
    }

    /// The names of the components, in byte order.
    pub fn component_names(&mut self) -> Result<Vec<String>, Error> {
        let answer = self.handle.component_names();
        self.names(answer)
    }

    /// The names that a template wants to find in its data, in byte order.
    pub fn variables(&mut self, name: &str) -> Result<Vec<String>, Error> {
        let answer = self.handle.template_variables(name);
        self.names(answer)
    }

    fn put_all(&mut self, texts: &[&str]) -> Result<(), Error> {
        for text in texts {
            let answer = self.handle.put(text);
            self.handed_over(answer)?;
        }
        Ok(())
    }

    /// Where memory is refused while texts are handed over, those before wait in the engine and would go into a later list. So they are dropped.
    fn handed_over(&mut self, answer: Answer) -> Result<(), Error> {
        let outcome = self.done(answer);
        if outcome.is_err() {
            self.handle.drop_waiting();
        }
        outcome
    }

    fn done(&mut self, answer: Answer) -> Result<(), Error> {
        match answer.status {
            Answer::DONE => Ok(()),
            Answer::FAULT => Err(self.fault()?),
            _ => Err(Error::out_of_memory()),
        }
    }

    /// Why the last call made nothing; or memory is refused while that is copied.
    fn fault(&mut self) -> Result<Error, Error> {
        let report = self.handle.report();
        let file = match report.has_span {
            0 => None,
            _ => Some(self.copied(Handle::copy_file)?),
        };
        let message = self.copied(Handle::copy_message)?;
        let words = self.copied(Handle::copy_words)?;
        Ok(Error::new(&report, file, message, words))
    }

    fn text(&mut self, answer: Answer) -> Result<String, Error> {
        self.done(answer)?;
        self.copied_with(answer.size, |handle, room| handle.copy(0, room))
    }

    fn names(&mut self, answer: Answer) -> Result<Vec<String>, Error> {
        self.done(answer)?;
        (0..answer.size).map(|index| self.copied(|handle, room| handle.copy(index, room))).collect()
    }

    /// A text whose size an empty room asks for.
    fn copied(&mut self, copy: impl Fn(&mut Handle, &mut [u8]) -> Answer) -> Result<String, Error> {
        let size = copy(&mut self.handle, &mut []).size;
        self.copied_with(size, copy)
    }

    fn copied_with(&mut self, size: usize, copy: impl Fn(&mut Handle, &mut [u8]) -> Answer) -> Result<String, Error> {
        let mut room = Vec::new();
        room.try_reserve_exact(size).map_err(|_| Error::out_of_memory())?;
        room.resize(size, 0);
        match copy(&mut self.handle, &mut room).status {
            Answer::DONE => Ok(String::from_utf8(room).expect("the engine's texts are UTF-8")),
            _ => Err(Error::out_of_memory()),
        }
    }
}

impl Drop for Engine {
    fn drop(&mut self) {
        self.handle.free();
    }
}

impl fmt::Debug for Engine {
    fn fmt(&self, out: &mut fmt::Formatter<'_>) -> fmt::Result {
        out.debug_struct("Engine").finish_non_exhaustive()
    }
}
