/* many RENDERINGS ENGINES: so many renderings by one engine, each compared with the first, and so many engines made and freed. */
#include "checks.h"

static const char LAYOUT[] = "<title>{% block title %}{% endblock %}</title>{% block body %}{% endblock %}";
static const char PAGE[] = "{% extends \"layout.html\" %}{% block title %}{{ title | upper }}{% endblock %}"
                           "{% block body %}{% for item in items %}{{ <Item name={item} /> }}{% endfor %}{% include \"foot.html\" %}{% endblock %}";
static const char PARTS[] = "{% component Item(name: String) %}<li>{{ name }}</li>{% endcomponent %}";
static const char FOOT[] = "<p>{{ site | default(value=\"nowhere\") }}</p>";
static const char DATA[] = "{\"title\": \"A & B\", \"items\": [\"one\", \"<two>\", \"three\"]}";
static const char WANTED[] = "<title>A &amp; B</title><li>one</li><li>&lt;two&gt;</li><li>three</li><p>S</p>";

static struct tera_engine new_site(void)
{
    struct tera_engine engine = new_engine();
    put(&engine, "layout.html", LAYOUT);
    put(&engine, "page.html", PAGE);
    put(&engine, "parts.html", PARTS);
    put(&engine, "foot.html", FOOT);
    WANT(ended(tera_add(&engine), TERA_DONE));
    WANT(ended(tera_put_globals(&engine, TEXT("{\"site\": \"S\"}")), TERA_DONE));
    return engine;
}

static void render_many(long renderings)
{
    struct tera_engine engine = new_site();
    for (long count = 0; count < renderings; count++) {
        WANT(made(&engine, tera_render(&engine, TEXT("page.html"), TEXT(DATA)), WANTED));
        /* Some calls fail between them. */
        if (count % 10 == 0)
            WANT(ended(tera_render(&engine, TEXT("page.html"), TEXT("{}")), TERA_FAULT));
        if (count % 100 == 0)
            WANT(ended(tera_render_text(&engine, TEXT("{{"), TEXT("{}"), 0), TERA_FAULT));
    }
    tera_free(&engine);
}

/* Engines are freed with what waits, with a text and with an error in them. In some what waits is dropped, and some are replaced. */
static void make_many(long engines)
{
    struct tera_options options = { 0 };
    for (long count = 0; count < engines; count++) {
        struct tera_engine engine = new_site();
        if (count % 2 == 0)
            WANT(ended(tera_render(&engine, TEXT("page.html"), TEXT(DATA)), TERA_DONE));
        if (count % 3 == 0)
            WANT(ended(tera_render(&engine, TEXT("nothing"), TEXT(DATA)), TERA_FAULT));
        if (count % 5 == 0)
            WANT(ended(tera_put(&engine, TEXT(".txt")), TERA_DONE));
        if (count % 7 == 0)
            put(&engine, "waits", FOOT);
        if (count % 4 == 0)
            WANT(ended(tera_drop_waiting(&engine), TERA_DONE));
        if (count % 11 == 0)
            WANT(ended(tera_new(&engine, &options), TERA_DONE));
        tera_free(&engine);
        tera_free(&engine);
    }
}

int main(int count, char **words)
{
    if (count != 3) {
        fputs("usage: many RENDERINGS ENGINES\n", stderr);
        return 2;
    }
    long renderings = atol(words[1]), engines = atol(words[2]);
    render_many(renderings);
    make_many(engines);
    printf("%ld renderings gave the same text, and %ld engines were made and freed\n", renderings, engines);
    return EXIT_SUCCESS;
}
