/* Refuses each request for memory of each call in turn. The call answers so, nothing is lost, and the engine goes on.
 * It is linked with --wrap=malloc --wrap=realloc --wrap=free, so that all requests of the archive come by here. */
#include "checks.h"

void *__real_malloc(size_t size);
void *__real_realloc(void *old, size_t size);
void __real_free(void *old);

/* How many blocks are out, and how many requests are granted before one is refused; none is refused where that is below 0. */
static long blocks, granted = -1;
static long refusals;

static int is_refused(void)
{
    if (granted < 0 || granted-- > 0)
        return 0;
    refusals++;
    return 1;
}

void *__wrap_malloc(size_t size)
{
    void *block = is_refused() ? NULL : __real_malloc(size);
    blocks += block != NULL;
    return block;
}

void *__wrap_realloc(void *old, size_t size)
{
    void *block = is_refused() ? NULL : __real_realloc(old, size);
    blocks += old == NULL && block != NULL;
    return block;
}

void __wrap_free(void *old)
{
    blocks -= old != NULL;
    __real_free(old);
}

/* A call, what is called before it, and what it makes where memory is granted. */
struct step {
    struct tera_answer (*call)(struct tera_engine *);
    const char *text;
    void (*prepare)(struct tera_engine *);
};

static struct tera_answer call_new(struct tera_engine *engine)
{
    struct tera_options options = { .has_clock = 1 };
    return tera_new(engine, &options);
}

static struct tera_answer call_put_template(struct tera_engine *engine)
{
    return tera_put_template(engine, TEXT("new"), TEXT("{{ x | upper }}"));
}

static struct tera_answer call_put(struct tera_engine *engine)
{
    return tera_put(engine, TEXT(".suffix"));
}

static void put_more(struct tera_engine *engine)
{
    put(engine, "more", "{% include \"page.html\" %}{% if x %}{{ x | title }}{% endif %}");
}

static void put_prefix(struct tera_engine *engine)
{
    struct tera_options options = { 0 };
    WANT(ended(tera_new(engine, &options), TERA_DONE) && ended(tera_put(engine, TEXT("themes/")), TERA_DONE));
}

static void make_new(struct tera_engine *engine)
{
    struct tera_options options = { 0 };
    WANT(ended(tera_new(engine, &options), TERA_DONE));
}

static struct tera_answer call_set_delimiters(struct tera_engine *engine)
{
    return tera_set_delimiters(engine, TEXT("<%"), TEXT("%>"), TEXT("<<"), TEXT(">>"), TEXT("<#"), TEXT("#>"));
}

static struct tera_answer call_globals(struct tera_engine *engine)
{
    return tera_put_globals(engine, TEXT("{\"y\": [1, \"two\", {\"three\": 3}]}"));
}

static struct tera_answer call_render(struct tera_engine *engine)
{
    return tera_render(engine, TEXT("page.html"), TEXT("{\"x\": \"a & b\"}"));
}

static struct tera_answer call_render_block(struct tera_engine *engine)
{
    return tera_render_block(engine, TEXT("page.html"), TEXT("b"), TEXT("{\"x\": 1}"));
}

static struct tera_answer call_render_text(struct tera_engine *engine)
{
    return tera_render_text(engine, TEXT("{% for c in x %}{{ c }},{% endfor %}"), TEXT("{\"x\": [1, 2]}"), 1);
}

static struct tera_answer call_render_component(struct tera_engine *engine)
{
    return tera_render_component(engine, TEXT("C"), TEXT("{\"p\": \"q\"}"), TEXT("{}"), TEXT("body"), 1, 1);
}

static struct tera_answer call_variables(struct tera_engine *engine)
{
    return tera_template_variables(engine, TEXT("page.html"));
}

static const struct step STEPS[] = {
    { call_new, NULL, NULL },
    { call_put_template, NULL, NULL },
    { call_put, NULL, NULL },
    { tera_add, NULL, put_more },
    { tera_autoescape_on, NULL, NULL },
    { tera_set_fallback_prefixes, NULL, put_prefix },
    { call_set_delimiters, NULL, make_new },
    { call_globals, NULL, NULL },
    { call_render, "[A &amp; B]", NULL },
    { call_render_block, "1", NULL },
    { call_render_text, "1,2,", NULL },
    { call_render_component, "qbody", NULL },
    { tera_template_names, "page.html", NULL },
    { tera_component_names, "C", NULL },
    { call_variables, "x", NULL },
};

static struct tera_engine new_site(void)
{
    struct tera_engine engine = new_engine();
    add(&engine, "page.html", "[{% block b %}{{ x | str | upper }}{% endblock %}]{% component C(p) %}{{ p }}{{ body }}{% endcomponent %}");
    WANT(ended(tera_put(&engine, TEXT(".txt")), TERA_DONE));
    return engine;
}

/* Whether the engine tells of want of memory, but for tera_new, after which there is none. */
static void want_refusal(struct tera_engine *engine, struct tera_answer answer)
{
    struct tera_error error;
    WANT(ended_with(answer, TERA_NO_MEMORY, 0));
    if (is_empty(engine))
        return;
    WANT(ended(tera_report(engine, &error), TERA_DONE) && error.kind == TERA_OUT_OF_MEMORY && !error.has_span);
    WANT(ended(tera_copy(engine, 0, "", 0), TERA_NO_TEXT) && ended(tera_copy_file(engine, "", 0), TERA_NO_TEXT));
}

/* Refuses one request of the call, and makes the call once more. Whether there was such a request. */
static int refuses_one(const struct step *step, long place)
{
    struct tera_engine engine = new_site();
    long seen = refusals;
    if (step->prepare != NULL)
        step->prepare(&engine);
    granted = place;
    struct tera_answer answer = step->call(&engine);
    granted = -1;
    if (answer.status != TERA_DONE)
        want_refusal(&engine, answer);
    if (step->prepare != NULL)
        step->prepare(&engine);
    WANT(ended(step->call(&engine), TERA_DONE));
    WANT(step->text == NULL || has_text_at(&engine, 0, step->text));
    tera_free(&engine);
    return refusals > seen;
}

/* Refuses one request of two puts, and drops what waits, which takes no memory. The engine then is as before the puts. Whether there was
 * such a request. */
static int drops_waiting(long place)
{
    struct tera_engine engine = new_site();
    long seen = refusals;
    put(&engine, "page.html", "changed");
    WANT(ended(tera_put(&engine, TEXT(".html")), TERA_DONE));
    granted = place;
    struct tera_answer answer = call_put_template(&engine);
    if (answer.status == TERA_DONE)
        answer = call_put(&engine);
    if (answer.status != TERA_DONE)
        want_refusal(&engine, answer);
    granted = 0;
    WANT(ended_with(tera_drop_waiting(&engine), TERA_DONE, 0) && granted == 0);
    granted = -1;
    WANT(made(&engine, call_render(&engine), "[A &amp; B]"));
    WANT(ended(tera_add(&engine), TERA_DONE) && ended_with(tera_template_names(&engine), TERA_DONE, 1));
    /* No suffix waits, so that no name escapes. */
    WANT(ended(tera_autoescape_on(&engine), TERA_DONE) && made(&engine, call_render(&engine), "[A & B]"));
    tera_free(&engine);
    return refusals > seen;
}

/* The words of an error want memory, too. */
static void refuse_words(void)
{
    struct tera_engine engine = new_site();
    char room[1000];
    WANT(ended(tera_render_text(&engine, TEXT("{{ x }}"), TEXT("{}"), 1), TERA_FAULT));
    granted = 0;
    WANT(ended_with(tera_copy_words(&engine, room, sizeof room), TERA_NO_MEMORY, 0));
    granted = -1;
    WANT(ended(tera_copy_words(&engine, room, sizeof room), TERA_DONE) && ended(tera_copy_message(&engine, room, sizeof room), TERA_DONE));
    tera_free(&engine);
}

int main(void)
{
    for (size_t at = 0; at < sizeof STEPS / sizeof *STEPS; at++) {
        long place = 0;
        while (refuses_one(&STEPS[at], place))
            place++;
        WANT(blocks == 0);
    }
    for (long place = 0; drops_waiting(place); place++)
        WANT(blocks == 0);
    refuse_words();
    WANT(blocks == 0);
    printf("%ld requests were refused, each was answered so, and all memory was given back\n", refusals);
    return EXIT_SUCCESS;
}
