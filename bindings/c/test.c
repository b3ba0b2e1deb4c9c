/* Calls each function of hovdreg.h, and sees each status and each kind of error that templates can make. */
#include "checks.h"

typedef struct tera_answer copier(struct tera_engine *, char *, size_t);

/* Whether this is what is told of the last error. */
static int tells(struct tera_engine *engine, copier *copy, const char *wanted)
{
    char room[4096];
    size_t size = strlen(wanted);
    return ended_with(copy(engine, room, sizeof room), TERA_DONE, size) && memcmp(room, wanted, size) == 0;
}

/* Whether the call ended with an error of this kind, of which words are told. */
static int failed(struct tera_engine *engine, struct tera_answer answer, enum tera_kind kind)
{
    struct tera_error error;
    WANT(ended_with(tera_report(engine, &error), TERA_DONE, 0));
    int has_words = tera_copy_words(engine, "", 0).size > 0 && tera_copy_message(engine, "", 0).size > 0;
    return ended_with(answer, TERA_FAULT, 0) && error.kind == (uint32_t)kind && has_words
        && ended(tera_copy(engine, 0, "", 0), TERA_NO_TEXT);
}

/* Whether a template of this text is refused with an error of this kind. */
static int refused(struct tera_engine *engine, const char *text, enum tera_kind kind)
{
    put(engine, "refused", text);
    return failed(engine, tera_add(engine), kind);
}

/* Whether every function tells that there is no engine, and leaves the room as it is. */
static void want_no_engine(struct tera_engine *engine)
{
    struct tera_error error = { .kind = 77 };
    char room[] = "room";
    WANT(is_empty(engine));
    WANT(ended(tera_put_template(engine, TEXT("a"), TEXT("a")), TERA_NO_ENGINE) && ended(tera_add(engine), TERA_NO_ENGINE));
    WANT(ended(tera_put(engine, TEXT("a")), TERA_NO_ENGINE) && ended(tera_drop_waiting(engine), TERA_NO_ENGINE));
    WANT(ended(tera_autoescape_on(engine), TERA_NO_ENGINE));
    WANT(ended(tera_set_fallback_prefixes(engine), TERA_NO_ENGINE) && ended(tera_put_globals(engine, TEXT("{}")), TERA_NO_ENGINE));
    WANT(ended(tera_set_delimiters(engine, TEXT("a"), TEXT("b"), TEXT("c"), TEXT("d"), TEXT("e"), TEXT("f")), TERA_NO_ENGINE));
    WANT(ended(tera_render(engine, TEXT("a"), TEXT("{}")), TERA_NO_ENGINE));
    WANT(ended(tera_render_block(engine, TEXT("a"), TEXT("b"), TEXT("{}")), TERA_NO_ENGINE));
    WANT(ended(tera_render_text(engine, TEXT("a"), TEXT("{}"), 1), TERA_NO_ENGINE));
    WANT(ended(tera_render_component(engine, TEXT("a"), TEXT("{}"), TEXT("{}"), "", 0, 0, 1), TERA_NO_ENGINE));
    WANT(ended(tera_template_names(engine), TERA_NO_ENGINE) && ended(tera_component_names(engine), TERA_NO_ENGINE));
    WANT(ended(tera_template_variables(engine, TEXT("a")), TERA_NO_ENGINE));
    WANT(ended(tera_copy(engine, 0, room, 4), TERA_NO_ENGINE) && ended(tera_copy_words(engine, room, 4), TERA_NO_ENGINE));
    WANT(ended(tera_copy_message(engine, room, 4), TERA_NO_ENGINE) && ended(tera_copy_file(engine, room, 4), TERA_NO_ENGINE));
    WANT(ended(tera_report(engine, &error), TERA_NO_ENGINE) && error.kind == 77 && strcmp(room, "room") == 0);
    tera_free(engine);
    WANT(is_empty(engine));
}

static void test_lives(void)
{
    struct tera_engine engine = TERA_NO_ENGINE_YET;
    struct tera_options options = { 0 };
    want_no_engine(&engine);
    engine = new_engine();
    WANT(!is_empty(&engine));
    add(&engine, "a", "A");
    /* A new engine takes the place of the old one, and has none of its templates. */
    WANT(ended(tera_new(&engine, &options), TERA_DONE) && ended_with(tera_template_names(&engine), TERA_DONE, 0));
    tera_free(&engine);
    want_no_engine(&engine);
    tera_free(&engine);
    want_no_engine(&engine);
}

static void test_options(void)
{
    struct tera_engine engine = new_engine();
    WANT(made(&engine, tera_render_text(&engine, TEXT("{{ 'a' | upper }}"), TEXT("{}"), 0), "A"));
    WANT(failed(&engine, tera_render_text(&engine, TEXT("{{ now() }}"), TEXT("{}"), 0), TERA_MESSAGE));
    WANT(failed(&engine, tera_render_text(&engine, TEXT("{{ x }}"), TEXT("{\"x\": 1.50}"), 0), TERA_MESSAGE));
    struct tera_options options = { .takes_floats = 1, .has_clock = 1, .seconds = 86400 };
    WANT(ended(tera_new(&engine, &options), TERA_DONE));
    WANT(made(&engine, tera_render_text(&engine, TEXT("{{ now() }} {{ now(timestamp=true) }}"), TEXT("{}"), 0), "1970-01-02T00:00:00Z 86400"));
    WANT(made(&engine, tera_render_text(&engine, TEXT("{{ x }}"), TEXT("{\"x\": 1.50}"), 0), "1.50"));
    options = (struct tera_options) { .is_plain = 1 };
    WANT(ended(tera_new(&engine, &options), TERA_DONE));
    WANT(failed(&engine, tera_render_text(&engine, TEXT("{{ 'a' | upper }}"), TEXT("{}"), 0), TERA_MESSAGE));
    WANT(made(&engine, tera_render_text(&engine, TEXT("{{ 'a' | length }}"), TEXT("{}"), 0), "1"));
    tera_free(&engine);
}

static void test_batches(void)
{
    struct tera_engine engine = new_engine();
    WANT(ended_with(tera_add(&engine), TERA_DONE, 0));
    put(&engine, "page.html", "{% extends \"base.html\" %}{% block b %}<b>{{ super() }}</b>{% endblock %}");
    put(&engine, "base.html", "[{% block b %}{{ x }}{% endblock %}]");
    WANT(ended_with(tera_template_names(&engine), TERA_DONE, 0));
    WANT(ended(tera_add(&engine), TERA_DONE));
    WANT(made(&engine, tera_render(&engine, TEXT("page.html"), TEXT("{\"x\": \"<&>\"}")), "[<b>&lt;&amp;&gt;</b>]"));
    WANT(made(&engine, tera_render_block(&engine, TEXT("page.html"), TEXT("b"), TEXT("{\"x\": 1}")), "<b>1</b>"));
    /* All or none: the good template of a refused batch is not there, and none waits afterwards. */
    put(&engine, "good", "good");
    WANT(refused(&engine, "{{", TERA_SYNTAX_ERROR));
    WANT(ended_with(tera_template_names(&engine), TERA_DONE, 2));
    WANT(has_text_at(&engine, 0, "base.html") && has_text_at(&engine, 1, "page.html") && ended(tera_copy(&engine, 2, "", 0), TERA_NO_TEXT));
    WANT(ended(tera_add(&engine), TERA_DONE) && ended_with(tera_template_names(&engine), TERA_DONE, 2));
    /* A template takes the place of one with its name. */
    add(&engine, "base.html", "({% block b %}{% endblock %})");
    WANT(made(&engine, tera_render(&engine, TEXT("page.html"), TEXT("{}")), "(<b></b>)"));
    tera_free(&engine);
}

/* After a put that is refused, what waits is dropped, and the engine goes on as before. */
static void test_waiting(void)
{
    struct tera_engine engine = new_engine();
    add(&engine, "a.html", "{{ x }}");
    put(&engine, "a.html", "changed");
    WANT(failed(&engine, tera_put_template(&engine, TEXT("b.html"), TEXT("\xff")), TERA_MESSAGE));
    WANT(ended_with(tera_drop_waiting(&engine), TERA_DONE, 0));
    WANT(ended(tera_copy_words(&engine, "", 0), TERA_NO_TEXT) && ended(tera_copy(&engine, 0, "", 0), TERA_NO_TEXT));
    WANT(ended(tera_add(&engine), TERA_DONE) && ended_with(tera_template_names(&engine), TERA_DONE, 1));
    WANT(made(&engine, tera_render(&engine, TEXT("a.html"), TEXT("{\"x\": \"<\"}")), "&lt;"));
    /* By the list that comes now no name escapes. */
    WANT(ended(tera_put(&engine, TEXT(".html")), TERA_DONE) && failed(&engine, tera_put(&engine, TEXT("\xff")), TERA_MESSAGE));
    WANT(ended_with(tera_drop_waiting(&engine), TERA_DONE, 0) && ended(tera_autoescape_on(&engine), TERA_DONE));
    WANT(made(&engine, tera_render(&engine, TEXT("a.html"), TEXT("{\"x\": \"<\"}")), "<"));
    WANT(ended_with(tera_drop_waiting(&engine), TERA_DONE, 0));
    tera_free(&engine);
}

static void test_settings(void)
{
    struct tera_engine engine = new_engine();
    WANT(ended(tera_put(&engine, TEXT("themes/b/")), TERA_DONE) && ended(tera_put(&engine, TEXT("themes/a/")), TERA_DONE));
    WANT(ended(tera_set_fallback_prefixes(&engine), TERA_DONE));
    WANT(ended(tera_set_delimiters(&engine, TEXT("<%"), TEXT("%>"), TEXT("<<"), TEXT(">>"), TEXT("<#"), TEXT("#>")), TERA_DONE));
    put(&engine, "themes/a/one", "a<# no #>");
    put(&engine, "themes/b/one", "b<% if x %><< x >><% endif %>{{ x }}");
    WANT(ended(tera_add(&engine), TERA_DONE));
    WANT(made(&engine, tera_render(&engine, TEXT("one"), TEXT("{\"x\": \"'\"}")), "b'{{ x }}"));
    WANT(ended(tera_put(&engine, TEXT("one")), TERA_DONE) && ended(tera_autoescape_on(&engine), TERA_DONE));
    WANT(made(&engine, tera_render(&engine, TEXT("one"), TEXT("{\"x\": \"'\"}")), "b&#x27;{{ x }}"));
    WANT(ended(tera_autoescape_on(&engine), TERA_DONE));
    WANT(made(&engine, tera_render(&engine, TEXT("one"), TEXT("{\"x\": \"'\"}")), "b'{{ x }}"));
    /* Both are refused once there is a template. */
    WANT(failed(&engine, tera_set_fallback_prefixes(&engine), TERA_MESSAGE));
    WANT(failed(&engine, tera_set_delimiters(&engine, TEXT("{%"), TEXT("%}"), TEXT("{{"), TEXT("}}"), TEXT("{#"), TEXT("#}")), TERA_MESSAGE));
    tera_free(&engine);
    engine = new_engine();
    WANT(failed(&engine, tera_set_delimiters(&engine, TEXT("<"), TEXT(">"), TEXT("<"), TEXT("]"), TEXT("("), TEXT(")")), TERA_MESSAGE));
    WANT(failed(&engine, tera_set_delimiters(&engine, "", 0, TEXT(">"), TEXT("<"), TEXT("]"), TEXT("("), TEXT(")")), TERA_MESSAGE));
    tera_free(&engine);
}

static void test_globals(void)
{
    struct tera_engine engine = new_engine();
    WANT(ended(tera_put_globals(&engine, TEXT("{\"site\": \"S\", \"x\": 1}")), TERA_DONE));
    WANT(ended(tera_put_globals(&engine, TEXT("{\"x\": 2}")), TERA_DONE));
    WANT(made(&engine, tera_render_text(&engine, TEXT("{{ site }}{{ x }}"), TEXT("{}"), 0), "S2"));
    WANT(made(&engine, tera_render_text(&engine, TEXT("{{ site }}{{ x }}"), TEXT("{\"x\": 3}"), 0), "S3"));
    WANT(failed(&engine, tera_put_globals(&engine, TEXT("{\"x\": 9, \"y\": 1.5}")), TERA_MESSAGE));
    WANT(failed(&engine, tera_put_globals(&engine, TEXT("[1]")), TERA_MESSAGE));
    WANT(made(&engine, tera_render_text(&engine, TEXT("{{ x }}{{ y is defined }}"), TEXT("{}"), 0), "2false"));
    tera_free(&engine);
}

static void test_components(void)
{
    static const char *const text = "{% component Card(title: String, @lang = \"en\") %}<i lang=\"{{ lang }}\">{{ title }}{{ body | default(value=\"-\") }}</i>{% endcomponent %}"
                                    "{% component Alone() %}alone{% endcomponent %}";
    struct tera_engine engine = new_engine();
    add(&engine, "cards", text);
    WANT(ended_with(tera_component_names(&engine), TERA_DONE, 2));
    WANT(has_text_at(&engine, 0, "Alone") && has_text_at(&engine, 1, "Card"));
    WANT(made(&engine, tera_render_component(&engine, TEXT("Card"), TEXT("{\"title\": \"<\"}"), TEXT("{\"lang\": \"no\"}"), TEXT("<b>"), 1, 1),
        "<i lang=\"no\">&lt;<b></i>"));
    WANT(made(&engine, tera_render_component(&engine, TEXT("Card"), TEXT("{\"title\": \"<\"}"), TEXT("{}"), TEXT("unused"), 0, 0),
        "<i lang=\"en\"><-</i>"));
    WANT(failed(&engine, tera_render_component(&engine, TEXT("Card"), TEXT("{}"), TEXT("{}"), "", 0, 0, 0), TERA_MESSAGE));
    WANT(failed(&engine, tera_render_component(&engine, TEXT("Nobody"), TEXT("{}"), TEXT("{}"), "", 0, 0, 0), TERA_COMPONENT_NOT_FOUND));
    tera_free(&engine);
}

static void test_variables(void)
{
    struct tera_engine engine = new_engine();
    add(&engine, "v", "{{ b }}{% set c = a %}{{ c }}{{ b.d }}");
    WANT(ended_with(tera_template_variables(&engine, TEXT("v")), TERA_DONE, 2) && has_text_at(&engine, 0, "a") && has_text_at(&engine, 1, "b"));
    WANT(failed(&engine, tera_template_variables(&engine, TEXT("w")), TERA_TEMPLATE_NOT_FOUND));
    tera_free(&engine);
}

/* A room that is too small stays as it is, and one that grows to the size that is told holds the text. */
static void test_rooms(void)
{
    struct tera_engine engine = new_engine();
    char room[] = "........";
    WANT(ended(tera_copy(&engine, 0, room, 8), TERA_NO_TEXT) && ended(tera_copy_words(&engine, room, 8), TERA_NO_TEXT));
    WANT(ended(tera_copy_message(&engine, room, 8), TERA_NO_TEXT) && ended(tera_copy_file(&engine, room, 8), TERA_NO_TEXT));
    WANT(ended_with(tera_render_text(&engine, TEXT("{{ x }}"), TEXT("{\"x\": \"gr\xc3\xb6\xc3\x9f\x65\"}"), 0), TERA_DONE, 7));
    for (size_t size = 0; size < 7; size++)
        WANT(ended_with(tera_copy(&engine, 0, room, size), TERA_NO_ROOM, 7) && strcmp(room, "........") == 0);
    WANT(ended(tera_copy(&engine, 1, room, 8), TERA_NO_TEXT) && ended(tera_copy(&engine, SIZE_MAX, room, 8), TERA_NO_TEXT));
    WANT(ended_with(tera_copy(&engine, 0, room, 7), TERA_DONE, 7) && strcmp(room, "gr\xc3\xb6\xc3\x9f\x65.") == 0);
    WANT(ended_with(tera_copy(&engine, 0, room, 8), TERA_DONE, 7) && room[7] == '.');
    /* A text with nothing in it fits into a room with no place. */
    WANT(ended_with(tera_render_text(&engine, "", 0, TEXT("{}"), 0), TERA_DONE, 0) && ended_with(tera_copy(&engine, 0, room, 0), TERA_DONE, 0));
    tera_free(&engine);
}

static void test_large_text(void)
{
    static const char *const text = "{% for i in range(end=100000) %}0123456789{% endfor %}";
    enum { WANTED = 1000000 };
    struct tera_engine engine = new_engine();
    WANT(ended_with(tera_render_text(&engine, TEXT(text), TEXT("{}"), 0), TERA_DONE, WANTED));
    char *room = malloc(WANTED);
    WANT(room != NULL && ended_with(tera_copy(&engine, 0, room, WANTED), TERA_DONE, WANTED));
    for (size_t at = 0; at < WANTED; at++)
        WANT(room[at] == (char)('0' + at % 10));
    free(room);
    tera_free(&engine);
}

/* Each kind of error, but for the two that templates turn into rendering errors, and for want of memory (refusals.c). */
static void test_kinds(void)
{
    struct tera_engine engine = new_engine();
    WANT(refused(&engine, "{% if %}", TERA_SYNTAX_ERROR));
    WANT(refused(&engine, "{% include \"nothing\" %}", TERA_MESSAGE));
    WANT(refused(&engine, "{% extends \"nothing\" %}", TERA_MISSING_PARENT));
    WANT(refused(&engine, "{% extends \"refused\" %}", TERA_CIRCULAR_EXTEND));
    WANT(refused(&engine, "{% include \"refused\" %}", TERA_CIRCULAR_INCLUDE));
    WANT(failed(&engine, tera_render(&engine, TEXT("nothing"), TEXT("{}")), TERA_TEMPLATE_NOT_FOUND));
    add(&engine, "a", "{{ x | upper }}{{ 1 | truncate(length=\"a\") }}{{ 'a' | replace(from='a') }}");
    WANT(failed(&engine, tera_render_block(&engine, TEXT("a"), TEXT("nothing"), TEXT("{}")), TERA_MESSAGE));
    WANT(failed(&engine, tera_render(&engine, TEXT("a"), TEXT("{\"x\": 1}")), TERA_RENDERING_ERROR));
    WANT(failed(&engine, tera_render_text(&engine, TEXT("{{ 1 | truncate(length='a') }}"), TEXT("{}"), 0), TERA_RENDERING_ERROR));
    WANT(failed(&engine, tera_render_text(&engine, TEXT("{{ 'a' | replace(from='a') }}"), TEXT("{}"), 0), TERA_RENDERING_ERROR));
    WANT(failed(&engine, tera_render(&engine, TEXT("a"), TEXT("{")), TERA_MESSAGE));
    WANT(failed(&engine, tera_render(&engine, TEXT("a"), "", 0), TERA_MESSAGE));
    WANT(failed(&engine, tera_render(&engine, TEXT("a"), TEXT("null")), TERA_MESSAGE));
    tera_free(&engine);
}

static void test_report(void)
{
    struct tera_engine engine = new_engine();
    struct tera_error error = { .kind = 77 };
    WANT(ended(tera_report(&engine, &error), TERA_DONE) && error.kind == TERA_NO_ERROR && !error.has_span && error.line == 0);
    add(&engine, "page", "one\n\xc3\xb6\xc3\xb6 {{ nobody }}");
    WANT(failed(&engine, tera_render(&engine, TEXT("page"), TEXT("{}")), TERA_RENDERING_ERROR));
    WANT(ended(tera_report(&engine, &error), TERA_DONE) && error.kind == TERA_RENDERING_ERROR && error.has_span);
    WANT(error.start == 12 && error.end == 18 && error.line == 2 && error.column == 7);
    WANT(tells(&engine, tera_copy_file, "page") && tells(&engine, tera_copy_message, "`nobody` is undefined"));
    WANT(tells(&engine, tera_copy_words, "page:2:7: `nobody` is undefined\n2 | \xc3\xb6\xc3\xb6 {{ nobody }}\n  |       ^^^^^^"));
    /* What is told stays until the next call that does something. */
    WANT(tells(&engine, tera_copy_file, "page") && ended_with(tera_copy_file(&engine, "", 0), TERA_NO_ROOM, 4));
    WANT(failed(&engine, tera_render(&engine, TEXT("nothing"), TEXT("{}")), TERA_TEMPLATE_NOT_FOUND));
    WANT(ended(tera_report(&engine, &error), TERA_DONE) && !error.has_span && error.start == 0 && error.line == 0);
    WANT(ended(tera_copy_file(&engine, "", 0), TERA_NO_TEXT));
    WANT(made(&engine, tera_render(&engine, TEXT("page"), TEXT("{\"nobody\": 1}")), "one\n\xc3\xb6\xc3\xb6 1"));
    WANT(ended(tera_report(&engine, &error), TERA_DONE) && error.kind == TERA_NO_ERROR);
    WANT(ended(tera_copy_words(&engine, "", 0), TERA_NO_TEXT) && ended(tera_copy_message(&engine, "", 0), TERA_NO_TEXT));
    tera_free(&engine);
}

/* Bytes that are no UTF-8, in each place that takes a text. */
static void test_bytes(void)
{
    static const char *const bad = "a\xff";
    struct tera_engine engine = new_engine();
    WANT(failed(&engine, tera_put_template(&engine, TEXT(bad), TEXT("a")), TERA_MESSAGE));
    WANT(failed(&engine, tera_put_template(&engine, TEXT("a"), TEXT(bad)), TERA_MESSAGE));
    WANT(failed(&engine, tera_put(&engine, TEXT(bad)), TERA_MESSAGE) && failed(&engine, tera_put_globals(&engine, TEXT(bad)), TERA_MESSAGE));
    WANT(failed(&engine, tera_set_delimiters(&engine, TEXT("<"), TEXT(bad), TEXT("["), TEXT("]"), TEXT("("), TEXT(")")), TERA_MESSAGE));
    WANT(ended(tera_add(&engine), TERA_DONE) && ended_with(tera_template_names(&engine), TERA_DONE, 0));
    add(&engine, "a", "{% block b %}{% endblock %}{% component C() %}{% endcomponent %}");
    WANT(failed(&engine, tera_render(&engine, TEXT(bad), TEXT("{}")), TERA_MESSAGE));
    WANT(failed(&engine, tera_render(&engine, TEXT("a"), TEXT("{\"x\": \"\xc3\"}")), TERA_MESSAGE));
    WANT(failed(&engine, tera_render_block(&engine, TEXT("a"), TEXT(bad), TEXT("{}")), TERA_MESSAGE));
    WANT(failed(&engine, tera_render_text(&engine, TEXT(bad), TEXT("{}"), 0), TERA_MESSAGE));
    WANT(failed(&engine, tera_render_text(&engine, TEXT("a"), TEXT(bad), 0), TERA_MESSAGE));
    WANT(failed(&engine, tera_template_variables(&engine, TEXT(bad)), TERA_MESSAGE));
    WANT(failed(&engine, tera_render_component(&engine, TEXT(bad), TEXT("{}"), TEXT("{}"), "", 0, 0, 0), TERA_MESSAGE));
    WANT(failed(&engine, tera_render_component(&engine, TEXT("C"), TEXT(bad), TEXT("{}"), "", 0, 0, 0), TERA_MESSAGE));
    WANT(failed(&engine, tera_render_component(&engine, TEXT("C"), TEXT("{}"), TEXT(bad), "", 0, 0, 0), TERA_MESSAGE));
    WANT(failed(&engine, tera_render_component(&engine, TEXT("C"), TEXT("{}"), TEXT("{}"), TEXT(bad), 1, 0), TERA_MESSAGE));
    WANT(made(&engine, tera_render_component(&engine, TEXT("C"), TEXT("{}"), TEXT("{}"), TEXT(bad), 0, 0), ""));
    tera_free(&engine);
}

/* Texts with a zero byte in them, and surrogates, which no UTF-8 has. */
static void test_odd_texts(void)
{
    struct tera_engine engine = new_engine();
    char room[4] = "....";
    WANT(ended_with(tera_render_text(&engine, "a\0b", 3, TEXT("{}"), 0), TERA_DONE, 3));
    WANT(ended(tera_copy(&engine, 0, room, 4), TERA_DONE) && memcmp(room, "a\0b.", 4) == 0);
    WANT(failed(&engine, tera_render_text(&engine, TEXT("\xed\xa0\x80"), TEXT("{}"), 0), TERA_MESSAGE));
    WANT(failed(&engine, tera_render_text(&engine, TEXT("\xc0\x80"), TEXT("{}"), 0), TERA_MESSAGE));
    WANT(failed(&engine, tera_render_text(&engine, TEXT("\xf5\x80\x80\x80"), TEXT("{}"), 0), TERA_MESSAGE));
    WANT(made(&engine, tera_render_text(&engine, TEXT("{{ x }}"), TEXT("{\"x\": \"\\ud83d\\ude00\"}"), 0), "\xf0\x9f\x98\x80"));
    tera_free(&engine);
}

static void test_without_engine(void)
{
    struct tera_options options = { 0 };
    char room[] = "....";
    WANT(ended_with(tera_render_once(&options, TEXT("{{ x }}"), TEXT("{\"x\": \"<\"}"), 1, room, 3), TERA_NO_ROOM, 4) && strcmp(room, "....") == 0);
    WANT(ended_with(tera_render_once(&options, TEXT("{{ x }}"), TEXT("{\"x\": \"<\"}"), 1, room, 4), TERA_DONE, 4) && strcmp(room, "&lt;") == 0);
    WANT(ended_with(tera_render_once(&options, TEXT("{{ x }}"), TEXT("{\"x\": \"<\"}"), 0, room, 4), TERA_DONE, 1) && strcmp(room, "<lt;") == 0);
    WANT(ended_with(tera_render_once(&options, TEXT("{{"), TEXT("{}"), 0, room, 4), TERA_FAULT, 0));
    WANT(ended_with(tera_render_once(&options, TEXT("\xff"), TEXT("{}"), 0, room, 4), TERA_FAULT, 0));
    WANT(ended_with(tera_render_once(&options, TEXT("{{ x }}"), TEXT("{\"x\": 1.5}"), 0, room, 4), TERA_FAULT, 0));
    options.takes_floats = 1;
    WANT(ended_with(tera_render_once(&options, TEXT("{{ x }}"), TEXT("{\"x\": 1.5}"), 0, room, 4), TERA_DONE, 3));
}

int main(void)
{
    test_lives();
    test_options();
    test_batches();
    test_waiting();
    test_settings();
    test_globals();
    test_components();
    test_variables();
    test_rooms();
    test_large_text();
    test_kinds();
    test_report();
    test_bytes();
    test_odd_texts();
    test_without_engine();
    puts("each function, each status, and each kind of error that templates can make: as wanted");
    return EXIT_SUCCESS;
}
