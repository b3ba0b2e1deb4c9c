/* Hovdreg, an engine for Tera templates, for C and C++.
 *
 * Link libtera_c.a and liblibc_c.a, in this order. example.c shows a whole program, and docs/BINDINGS.md explains it.
 *
 * An engine keeps what its last call made: a text, a list of names, or an error. A rendering so takes two calls: tera_render makes
 * the text and answers its size, and tera_copy copies it into a room of the caller's. The caller frees nothing but the engine.
 *
 * What the caller of every function keeps:
 *   - A struct tera_engine begins as TERA_NO_ENGINE_YET, and then only these functions write it.
 *   - It has one owner. It may be moved to another place, and then the first place is not used any more; no copy of it is used.
 *   - One thread at a time calls with it.
 *   - A pointer is not null, also where its size is 0, and holds for as many bytes as its size says.
 *   - What a call writes (an engine, a room, a struct tera_error) overlaps with nothing else that it is given.
 * Texts and data are UTF-8, without a zero byte at their end; other bytes are answered by TERA_FAULT. */
#ifndef HOVDREG_H
#define HOVDREG_H

#include <stddef.h>
#include <stdint.h>

#ifdef __cplusplus
extern "C" {
#endif

/* How a call ended. */
enum tera_status {
    /* It did what it was asked for. */
    TERA_DONE = 0,
    /* It did nothing, and tera_report tells why. */
    TERA_FAULT = 1,
    /* Memory was refused. What was there before is there still. */
    TERA_NO_MEMORY = 2,
    /* The struct has no engine: none was made, or it was freed. Every function that takes an engine may answer so, but for tera_new. */
    TERA_NO_ENGINE = 3,
    /* The room is too small, and is as it was. The size of the answer is the size that is wanted. */
    TERA_NO_ROOM = 4,
    /* There is no such text. */
    TERA_NO_TEXT = 5
};

/* What kind of error the last call met. */
enum tera_kind {
    TERA_NO_ERROR = 0,
    /* A template can't be read. */
    TERA_SYNTAX_ERROR = 1,
    /* Anything without a kind of its own: data or bytes that can't be read, a template that calls or includes what is not there. */
    TERA_MESSAGE = 2,
    /* A template fails while it is rendered. */
    TERA_RENDERING_ERROR = 3,
    /* Templates extend one another in a circle. */
    TERA_CIRCULAR_EXTEND = 4,
    /* Templates include one another in a circle. */
    TERA_CIRCULAR_INCLUDE = 5,
    /* A template extends one that is not there. */
    TERA_MISSING_PARENT = 6,
    /* No template has the name that the call was given. */
    TERA_TEMPLATE_NOT_FOUND = 7,
    /* No component has the name that the call was given. */
    TERA_COMPONENT_NOT_FOUND = 8,
    /* A value does not fit. In a template this is a rendering error. */
    TERA_INVALID_ARGUMENT = 9,
    /* A value is missing. In a template this is a rendering error. */
    TERA_MISSING_ARGUMENT = 10,
    /* Memory was refused. */
    TERA_OUT_OF_MEMORY = 11
};

/* An engine. Begin with: struct tera_engine engine = TERA_NO_ENGINE_YET; */
struct tera_engine {
    void *at;
};

#define TERA_NO_ENGINE_YET { NULL }

/* How a call ended, as an enum tera_status, and a size or a number that each function tells of. */
struct tera_answer {
    uint32_t status;
    size_t size;
};

/* What a new engine is like. All 0 is a good beginning: struct tera_options options = { 0 }; */
struct tera_options {
    /* Not 0: templates have the filters of the language alone, and none of docs/FILTERS.md. */
    uint32_t is_plain;
    /* Not 0: numbers of the data that are no integers become their texts. Else such data is refused. */
    uint32_t takes_floats;
    /* Not 0: the function `now` tells `seconds`. Else templates have no such function. */
    uint32_t has_clock;
    /* Seconds since the start of 1970. They stay what they are as long as the engine lives. */
    int64_t seconds;
};

/* Why the last call made nothing, in numbers. All are 0 where it had no error. */
struct tera_error {
    /* An enum tera_kind. */
    uint32_t kind;
    /* Not 0: the error lies in a template, from the byte `start` to the one before `end`. tera_copy_file tells its name. */
    uint32_t has_span;
    size_t start;
    size_t end;
    /* The line and the column of `start`, both from 1 on. They are 0 where they are not known. */
    size_t line;
    size_t column;
};

/* Makes an engine. One that is there already is freed first.
 * Answers TERA_DONE, or TERA_NO_MEMORY: then there is no engine.
 * The caller keeps: the engine is TERA_NO_ENGINE_YET, or was made here; it is freed by tera_free. */
struct tera_answer tera_new(struct tera_engine *engine, const struct tera_options *options);

/* Frees the engine. Where there is none, it does nothing, so that a second call is harmless.
 * The caller keeps: nobody uses a copy of the engine afterwards. */
void tera_free(struct tera_engine *engine);

/* Lets a template wait for tera_add. The engine takes a copy of both texts.
 * Answers TERA_DONE; TERA_FAULT for bytes that are no UTF-8; TERA_NO_MEMORY. What waits already goes on waiting, also where this one is
 * refused: tera_drop_waiting drops it.
 * The caller keeps: `name` and `text` are not null. */
struct tera_answer tera_put_template(struct tera_engine *engine, const char *name, size_t name_size, const char *text, size_t text_size);

/* Adds the templates that wait, all or none, each in the place of one with its name. Afterwards none waits.
 * Answers TERA_DONE; TERA_FAULT where one can't be read, or calls, includes or extends what is not there; TERA_NO_MEMORY.
 * The caller keeps: no more than for every function. Add all templates at once: each call links all templates anew. */
struct tera_answer tera_add(struct tera_engine *engine);

/* Lets a text wait for the next tera_autoescape_on or tera_set_fallback_prefixes. The engine takes a copy of it.
 * Answers TERA_DONE; TERA_FAULT for bytes that are no UTF-8; TERA_NO_MEMORY. What waits already goes on waiting, also where this one is
 * refused: tera_drop_waiting drops it.
 * The caller keeps: `text` is not null. */
struct tera_answer tera_put(struct tera_engine *engine, const char *text, size_t size);

/* Lets nothing wait any more: neither templates nor texts. After a put that is refused, the engine so is as before the first one. What the
 * last call made or met is told no more.
 * Answers TERA_DONE. It takes no memory.
 * The caller keeps: no more than for every function. */
struct tera_answer tera_drop_waiting(struct tera_engine *engine);

/* Templates escape whose names end with one of the texts that wait, and no others. Afterwards none waits.
 * Before the first call these are .html, .htm and .xml.
 * Answers TERA_DONE, or TERA_NO_MEMORY.
 * The caller keeps: no more than for every function. */
struct tera_answer tera_autoescape_on(struct tera_engine *engine);

/* A name that no template has is looked for behind each of the texts that wait, the first one first. Afterwards none waits.
 * Answers TERA_DONE; TERA_FAULT once the engine has a template; TERA_NO_MEMORY.
 * The caller keeps: it is called before templates are added. */
struct tera_answer tera_set_fallback_prefixes(struct tera_engine *engine);

/* Tags are told from text by these delimiters, in place of {% %} {{ }} {# #}.
 * Answers TERA_DONE; TERA_FAULT once the engine has a template, for an empty delimiter, for two equal starts, and for bytes that are no
 * UTF-8; TERA_NO_MEMORY.
 * The caller keeps: no pointer is null; it is called before templates are added. */
struct tera_answer tera_set_delimiters(struct tera_engine *engine, const char *block_start, size_t block_start_size,
    const char *block_end, size_t block_end_size, const char *variable_start, size_t variable_start_size,
    const char *variable_end, size_t variable_end_size, const char *comment_start, size_t comment_start_size,
    const char *comment_end, size_t comment_end_size);

/* Every rendering reads the members of this object of JSON where its own data has none of their name. Members that were given before
 * stay, or have their new value.
 * Answers TERA_DONE; TERA_FAULT for a text that is no object of JSON; TERA_NO_MEMORY.
 * The caller keeps: `json` is not null; it is an object, at least {}. */
struct tera_answer tera_put_globals(struct tera_engine *engine, const char *json, size_t size);

/* Renders a template with the members of an object of JSON. tera_copy copies the text.
 * Answers TERA_DONE and the size of the text in bytes; TERA_FAULT; TERA_NO_MEMORY.
 * The caller keeps: `name` and `json` are not null; `json` is an object, at least {}. */
struct tera_answer tera_render(struct tera_engine *engine, const char *name, size_t name_size, const char *json, size_t json_size);

/* Renders a template, and makes the text of one of its blocks. tera_copy copies it.
 * Answers TERA_DONE and the size of the text in bytes; TERA_FAULT, also where the template has no such block; TERA_NO_MEMORY.
 * The caller keeps: no pointer is null; `json` is an object, at least {}. */
struct tera_answer tera_render_block(struct tera_engine *engine, const char *name, size_t name_size, const char *block, size_t block_size,
    const char *json, size_t json_size);

/* Renders a text that the engine does not keep. It may include templates and call components, but has no parent and no block.
 * Where `autoescape` is not 0, it escapes. tera_copy copies what it renders to.
 * Answers TERA_DONE and the size of that in bytes; TERA_FAULT; TERA_NO_MEMORY.
 * The caller keeps: no pointer is null; `json` is an object, at least {}. */
struct tera_answer tera_render_text(struct tera_engine *engine, const char *text, size_t text_size, const char *json, size_t json_size,
    uint32_t autoescape);

/* Renders a component by itself. `arguments` and `implicits` are objects of JSON: the arguments by name, and where parameters as @lang are
 * looked up. Where `has_body` is not 0, `body` is put out as it is, and is never escaped. Where `autoescape` is not 0, the component
 * escapes. tera_copy copies the text.
 * Answers TERA_DONE and the size of the text in bytes; TERA_FAULT, also for arguments that do not fit; TERA_NO_MEMORY.
 * The caller keeps: no pointer is null, also `body` where `has_body` is 0; no text of a stranger is a body. */
struct tera_answer tera_render_component(struct tera_engine *engine, const char *name, size_t name_size,
    const char *arguments, size_t arguments_size, const char *implicits, size_t implicits_size, const char *body, size_t body_size,
    uint32_t has_body, uint32_t autoescape);

/* Lists the names of the templates, in byte order. tera_copy copies each.
 * Answers TERA_DONE and the number of names; TERA_NO_MEMORY.
 * The caller keeps: no more than for every function. */
struct tera_answer tera_template_names(struct tera_engine *engine);

/* Lists the names of the components, in byte order. tera_copy copies each.
 * Answers TERA_DONE and the number of names; TERA_NO_MEMORY.
 * The caller keeps: no more than for every function. */
struct tera_answer tera_component_names(struct tera_engine *engine);

/* Lists the names that a template wants to find in its data, in byte order. tera_copy copies each.
 * Answers TERA_DONE and the number of names; TERA_FAULT where no template has the name; TERA_NO_MEMORY.
 * The caller keeps: `name` is not null. */
struct tera_answer tera_template_variables(struct tera_engine *engine, const char *name, size_t name_size);

/* Copies the text that the last call made (`index` is 0), or the name in the place `index`, from 0 on. No zero byte is put behind it. What
 * the last call made stays.
 * Answers TERA_DONE and the size of the text; TERA_NO_ROOM and this size, so that a room of size 0 asks for it; TERA_NO_TEXT.
 * The caller keeps: `room` is not null, and may be written for `size` bytes. */
struct tera_answer tera_copy(struct tera_engine *engine, size_t index, char *room, size_t size);

/* Tells in numbers why the last call made nothing.
 * Answers TERA_DONE, also where there was no error.
 * The caller keeps: `error` is not null. Its values before do not matter. */
struct tera_answer tera_report(struct tera_engine *engine, struct tera_error *error);

/* Copies all that is told of the error: its place, the line with marks below it, and where it was called from.
 * Answers as tera_copy does; TERA_NO_TEXT where there was no error; TERA_NO_MEMORY.
 * The caller keeps: `room` is not null, and may be written for `size` bytes. */
struct tera_answer tera_copy_words(struct tera_engine *engine, char *room, size_t size);

/* Copies what is wrong. A syntax error and a rendering error are told in one sentence, without file and place; all others as by
 * tera_copy_words.
 * Answers as tera_copy does; TERA_NO_TEXT where there was no error; TERA_NO_MEMORY.
 * The caller keeps: `room` is not null, and may be written for `size` bytes. */
struct tera_answer tera_copy_message(struct tera_engine *engine, char *room, size_t size);

/* Copies the name of the template in which the error lies.
 * Answers as tera_copy does; TERA_NO_TEXT where there was no error, or it lies in no template.
 * The caller keeps: `room` is not null, and may be written for `size` bytes. */
struct tera_answer tera_copy_file(struct tera_engine *engine, char *room, size_t size);

/* Renders a text as tera_render_text does, without an engine, and copies what it renders to. The text is read anew by each call.
 * Answers TERA_DONE and the size of the text; TERA_NO_ROOM and this size; TERA_FAULT, of which nothing more is told; TERA_NO_MEMORY.
 * The caller keeps: no pointer is null; `room` may be written for `room_size` bytes. */
struct tera_answer tera_render_once(const struct tera_options *options, const char *text, size_t text_size, const char *json, size_t json_size,
    uint32_t autoescape, char *room, size_t room_size);

#ifdef __cplusplus
}
#endif

#endif
