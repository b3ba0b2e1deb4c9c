/* Renders a text that wants more memory than the process may have: run it under a limit, as by ulimit -v 200000. */
#include "checks.h"

static const char DOUBLES[] = "{% set t = \"0123456789abcdef\" %}{% for i in range(end=40) %}{% set_global t = t ~ t %}{% endfor %}{{ t }}";

int main(void)
{
    struct tera_engine engine = new_engine();
    struct tera_error error;
    add(&engine, "page.html", "Hello {{ name }}!");
    for (int count = 0; count < 10; count++) {
        WANT(ended_with(tera_render_text(&engine, TEXT(DOUBLES), TEXT("{}"), 0), TERA_NO_MEMORY, 0));
        WANT(ended(tera_report(&engine, &error), TERA_DONE) && error.kind == TERA_OUT_OF_MEMORY);
        WANT(made(&engine, tera_render(&engine, TEXT("page.html"), TEXT("{\"name\": \"<world>\"}")), "Hello &lt;world&gt;!"));
    }
    tera_free(&engine);
    puts("memory was refused ten times, and the engine went on");
    return EXIT_SUCCESS;
}
