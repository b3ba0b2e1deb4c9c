//! The functions of the archive, as `bindings/c/hovdreg.h` declares them. All unsafe code of the crate is here.
use std::ptr;

/// How a call ended, and the size or the number that it tells of.
#[repr(C)]
#[derive(Clone, Copy)]
pub(crate) struct Answer {
    pub status: u32,
    pub size: usize,
}

impl Answer {
    pub const DONE: u32 = 0;
    pub const FAULT: u32 = 1;
}

#[repr(C)]
pub(crate) struct RawOptions {
    pub is_plain: u32,
    pub takes_floats: u32,
    pub has_clock: u32,
    pub seconds: i64,
}

/// Why the last call made nothing, in numbers.
#[repr(C)]
#[derive(Default)]
pub(crate) struct Report {
    pub kind: u32,
    pub has_span: u32,
    pub start: usize,
    pub end: usize,
    pub line: usize,
    pub column: usize,
}

/// An engine, or none. It has one owner, and the functions of the archive alone write it; being a pointer, it is not `Send`.
#[repr(C)]
pub(crate) struct Handle {
    at: *mut u8,
}

// Functions with the same arguments: so many texts, or a room.
type OneText = unsafe extern "C" fn(&mut Handle, *const u8, usize) -> Answer;
type TwoTexts = unsafe extern "C" fn(&mut Handle, *const u8, usize, *const u8, usize) -> Answer;
type Copier = unsafe extern "C" fn(&mut Handle, *mut u8, usize) -> Answer;

// SAFETY: the archive exports these functions with these types. Those without a pointer to bytes take any `Handle` of this crate.
unsafe extern "C" {
    safe fn tera_new(engine: &mut Handle, options: &RawOptions) -> Answer;
    safe fn tera_free(engine: &mut Handle);
    safe fn tera_add(engine: &mut Handle) -> Answer;
    safe fn tera_drop_waiting(engine: &mut Handle) -> Answer;
    safe fn tera_autoescape_on(engine: &mut Handle) -> Answer;
    safe fn tera_set_fallback_prefixes(engine: &mut Handle) -> Answer;
    safe fn tera_template_names(engine: &mut Handle) -> Answer;
    safe fn tera_component_names(engine: &mut Handle) -> Answer;
    safe fn tera_report(engine: &mut Handle, report: &mut Report) -> Answer;
    fn tera_put_template(engine: &mut Handle, name: *const u8, name_size: usize, text: *const u8, text_size: usize) -> Answer;
    fn tera_put(engine: &mut Handle, text: *const u8, size: usize) -> Answer;
    fn tera_set_delimiters(
        engine: &mut Handle,
        block_start: *const u8,
        block_start_size: usize,
        block_end: *const u8,
        block_end_size: usize,
        variable_start: *const u8,
        variable_start_size: usize,
        variable_end: *const u8,
        variable_end_size: usize,
        comment_start: *const u8,
        comment_start_size: usize,
        comment_end: *const u8,
        comment_end_size: usize,
    ) -> Answer;
    fn tera_put_globals(engine: &mut Handle, json: *const u8, size: usize) -> Answer;
    fn tera_render(engine: &mut Handle, name: *const u8, name_size: usize, json: *const u8, json_size: usize) -> Answer;
    fn tera_render_block(
        engine: &mut Handle,
        name: *const u8,
        name_size: usize,
        block: *const u8,
        block_size: usize,
        json: *const u8,
        json_size: usize,
    ) -> Answer;
    fn tera_render_text(
        engine: &mut Handle,
        text: *const u8,
        text_size: usize,
        json: *const u8,
        json_size: usize,
        autoescape: u32,
    ) -> Answer;
    fn tera_render_component(
        engine: &mut Handle,
        name: *const u8,
        name_size: usize,
        arguments: *const u8,
        arguments_size: usize,
        implicits: *const u8,
        implicits_size: usize,
        body: *const u8,
        body_size: usize,
        has_body: u32,
        autoescape: u32,
    ) -> Answer;
    fn tera_template_variables(engine: &mut Handle, name: *const u8, name_size: usize) -> Answer;
    fn tera_copy(engine: &mut Handle, index: usize, room: *mut u8, size: usize) -> Answer;
    fn tera_copy_words(engine: &mut Handle, room: *mut u8, size: usize) -> Answer;
    fn tera_copy_message(engine: &mut Handle, room: *mut u8, size: usize) -> Answer;
    fn tera_copy_file(engine: &mut Handle, room: *mut u8, size: usize) -> Answer;
}

impl Handle {
    pub fn empty() -> Handle {
        Handle { at: ptr::null_mut() }
    }

    pub fn make(&mut self, options: &RawOptions) -> Answer {
        tera_new(self, options)
    }

    pub fn free(&mut self) {
        tera_free(self);
    }

    pub fn put_template(&mut self, name: &str, text: &str) -> Answer {
        self.with_two(tera_put_template, name, text)
    }

    pub fn add(&mut self) -> Answer {
        tera_add(self)
    }

    pub fn put(&mut self, text: &str) -> Answer {
        self.with_one(tera_put, text)
    }

    pub fn drop_waiting(&mut self) -> Answer {
        tera_drop_waiting(self)
    }

    pub fn autoescape_on(&mut self) -> Answer {
        tera_autoescape_on(self)
    }

    pub fn set_fallback_prefixes(&mut self) -> Answer {
        tera_set_fallback_prefixes(self)
    }

    pub fn set_delimiters(&mut self, [a, b, c, d, e, f]: [&str; 6]) -> Answer {
        // SAFETY: each text lends as many bytes as its length says.
        unsafe {
            tera_set_delimiters(
                self,
                a.as_ptr(),
                a.len(),
                b.as_ptr(),
                b.len(),
                c.as_ptr(),
                c.len(),
                d.as_ptr(),
                d.len(),
                e.as_ptr(),
                e.len(),
                f.as_ptr(),
                f.len(),
            )
        }
    }

    pub fn put_globals(&mut self, json: &str) -> Answer {
        self.with_one(tera_put_globals, json)
    }

    pub fn render(&mut self, name: &str, json: &str) -> Answer {
        self.with_two(tera_render, name, json)
    }

    pub fn render_block(&mut self, name: &str, block: &str, json: &str) -> Answer {
        // SAFETY: each text lends as many bytes as its length says.
        unsafe { tera_render_block(self, name.as_ptr(), name.len(), block.as_ptr(), block.len(), json.as_ptr(), json.len()) }
    }

    pub fn render_text(&mut self, text: &str, json: &str, autoescape: bool) -> Answer {
        // SAFETY: both texts lend as many bytes as their lengths say.
        unsafe { tera_render_text(self, text.as_ptr(), text.len(), json.as_ptr(), json.len(), autoescape.into()) }
    }

    pub fn render_component(&mut self, name: &str, [arguments, implicits]: [&str; 2], body: Option<&str>, autoescape: bool) -> Answer {
        let (has_body, body) = (body.is_some().into(), body.unwrap_or(""));
        // SAFETY: each text lends as many bytes as its length says, also the empty one in place of a body.
        unsafe {
            tera_render_component(
                self,
                name.as_ptr(),
                name.len(),
                arguments.as_ptr(),
                arguments.len(),
                implicits.as_ptr(),
                implicits.len(),
                body.as_ptr(),
                body.len(),
                has_body,
                autoescape.into(),
            )
        }
    }

    pub fn template_names(&mut self) -> Answer {
        tera_template_names(self)
    }

    pub fn component_names(&mut self) -> Answer {
        tera_component_names(self)
    }

    pub fn template_variables(&mut self, name: &str) -> Answer {
        self.with_one(tera_template_variables, name)
    }

    pub fn report(&mut self) -> Report {
        let mut report = Report::default();
        tera_report(self, &mut report);
        report
    }

    pub fn copy(&mut self, index: usize, room: &mut [u8]) -> Answer {
        // SAFETY: the room may be written for its whole length, and nothing else borrows it.
        unsafe { tera_copy(self, index, room.as_mut_ptr(), room.len()) }
    }

    pub fn copy_words(&mut self, room: &mut [u8]) -> Answer {
        self.copy_by(tera_copy_words, room)
    }

    pub fn copy_message(&mut self, room: &mut [u8]) -> Answer {
        self.copy_by(tera_copy_message, room)
    }

    pub fn copy_file(&mut self, room: &mut [u8]) -> Answer {
        self.copy_by(tera_copy_file, room)
    }

    fn with_one(&mut self, call: OneText, text: &str) -> Answer {
        // SAFETY: the text lends as many bytes as its length says, and `call` is a function of the archive.
        unsafe { call(self, text.as_ptr(), text.len()) }
    }

    fn with_two(&mut self, call: TwoTexts, first: &str, second: &str) -> Answer {
        // SAFETY: both texts lend as many bytes as their lengths say, and `call` is a function of the archive.
        unsafe { call(self, first.as_ptr(), first.len(), second.as_ptr(), second.len()) }
    }

    fn copy_by(&mut self, call: Copier, room: &mut [u8]) -> Answer {
        // SAFETY: the room may be written for its whole length, and `call` is a function of the archive.
        unsafe { call(self, room.as_mut_ptr(), room.len()) }
    }
}
