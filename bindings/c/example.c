/* Renders a page with a layout, and prints what is wrong with a faulty template. */
#include "hovdreg.h"

#include <stdio.h>
#include <stdlib.h>
#include <string.h>

static const char LAYOUT[] = "<title>{% block title %}{% endblock %}</title>\n{% block body %}{% endblock %}\n";
static const char PAGE[] = "{% extends \"layout.html\" %}\n"
                           "{% block title %}{{ title }}{% endblock %}\n"
                           "{% block body %}<ul>{% for item in items %}\n"
                           "  <li>{{ item.name | upper }}: {{ item.price }}</li>{% endfor %}\n"
                           "</ul>{% endblock %}\n";
static const char FAULTY[] = "<p>\n  {% for item of items %}{{ item.name }}{% endfor %}\n</p>\n";
static const char DATA[] = "{\"title\": \"Fish & chips\", \"items\": [{\"name\": \"cod\", \"price\": 7}, {\"name\": \"<haddock>\", \"price\": 9}]}";

/* Prints what a call made, or why it made nothing. `copy` is tera_copy_words, or copies the text. */
static void print(struct tera_engine *engine, FILE *file, struct tera_answer (*copy)(struct tera_engine *, char *, size_t))
{
    size_t size = copy(engine, "", 0).size;
    char *room = malloc(size + 1);
    if (room != NULL && copy(engine, room, size).status == TERA_DONE) {
        fwrite(room, 1, size, file);
        fputc('\n', file);
    }
    free(room);
}

static struct tera_answer copy_text(struct tera_engine *engine, char *room, size_t size)
{
    return tera_copy(engine, 0, room, size);
}

static struct tera_answer put(struct tera_engine *engine, const char *name, const char *text)
{
    return tera_put_template(engine, name, strlen(name), text, strlen(text));
}

/* Whether the call did what it was asked for. Where it did not, its words are printed. */
static int is_done(struct tera_engine *engine, struct tera_answer answer)
{
    if (answer.status == TERA_FAULT)
        print(engine, stderr, tera_copy_words);
    else if (answer.status != TERA_DONE)
        fprintf(stderr, "status %u\n", (unsigned)answer.status);
    return answer.status == TERA_DONE;
}

static int render_page(struct tera_engine *engine)
{
    int is_added = is_done(engine, put(engine, "layout.html", LAYOUT)) && is_done(engine, put(engine, "page.html", PAGE))
        && is_done(engine, tera_add(engine));
    if (!is_added || !is_done(engine, tera_render(engine, "page.html", strlen("page.html"), DATA, strlen(DATA))))
        return 0;
    print(engine, stdout, copy_text);
    return 1;
}

/* A template that can't be read is refused, and the engine goes on. */
static int show_fault(struct tera_engine *engine)
{
    struct tera_error error;
    if (!is_done(engine, put(engine, "faulty.html", FAULTY)))
        return 0;
    if (tera_add(engine).status != TERA_FAULT || tera_report(engine, &error).status != TERA_DONE)
        return 0;
    printf("an error of kind %u in line %zu, column %zu:\n", (unsigned)error.kind, error.line, error.column);
    print(engine, stdout, tera_copy_words);
    return 1;
}

int main(void)
{
    struct tera_engine engine = TERA_NO_ENGINE_YET;
    struct tera_options options = { 0 };
    int is_well = is_done(&engine, tera_new(&engine, &options)) && render_page(&engine) && show_fault(&engine);
    tera_free(&engine);
    return is_well ? EXIT_SUCCESS : EXIT_FAILURE;
}
