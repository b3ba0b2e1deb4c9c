/* door WORK ROUNDS TIMES: renders page.html with data.json, both files of this folder, so many times in each round, and prints the nanoseconds of a rendering
 * in the fastest round. WORK is `render`; `data`, which renders a template that is empty; `once`, which has no engine and reads the template each time; or
 * `print`, which prints the text. */
#include "hovdreg.h"

#include <stdio.h>
#include <stdlib.h>
#include <string.h>
#include <time.h>

struct text {
    char *at;
    size_t size;
};

static struct tera_engine engine = TERA_NO_ENGINE_YET;
static const struct tera_options options = { 0 };
static struct text page, data, room;

static void refuse(const char *words)
{
    fprintf(stderr, "door: %s\n", words);
    exit(EXIT_FAILURE);
}

static struct text contents(const char *name)
{
    struct text text = { malloc(1 << 20), 0 };
    FILE *file = fopen(name, "rb");
    if (text.at == NULL || file == NULL)
        refuse(name);
    text.size = fread(text.at, 1, 1 << 20, file);
    fclose(file);
    return text;
}

static void grow(size_t size)
{
    room.at = realloc(room.at, size);
    if (room.at == NULL)
        refuse("no memory");
    room.size = size;
}

/* The size of the template's text, which is then in the room. */
static size_t render_named(const char *name)
{
    struct tera_answer answer = tera_render(&engine, name, strlen(name), data.at, data.size);
    if (answer.status != TERA_DONE)
        refuse("the page fails");
    if (answer.size > room.size)
        grow(answer.size);
    if (tera_copy(&engine, 0, room.at, room.size).status != TERA_DONE)
        refuse("the page can't be copied");
    return answer.size;
}

static size_t render(void)
{
    return render_named("page.html");
}

static size_t render_empty(void)
{
    return render_named("empty");
}

static size_t render_once(void)
{
    struct tera_answer answer = tera_render_once(&options, page.at, page.size, data.at, data.size, 1, room.at, room.size);
    if (answer.status == TERA_NO_ROOM) {
        grow(answer.size);
        return render_once();
    }
    if (answer.status != TERA_DONE)
        refuse("the text fails");
    return answer.size;
}

static long long nanoseconds(void)
{
    struct timespec now;
    clock_gettime(CLOCK_MONOTONIC, &now);
    return now.tv_sec * 1000000000LL + now.tv_nsec;
}

static size_t (*work_of(const char *word))(void)
{
    if (strcmp(word, "once") == 0)
        return render_once;
    return strcmp(word, "data") == 0 ? render_empty : render;
}

static double fastest(size_t (*work)(void), long rounds, long times)
{
    long long least = -1;
    for (long round = 0; round < rounds; round++) {
        long long start = nanoseconds();
        for (long time = 0; time < times; time++)
            work();
        long long taken = nanoseconds() - start;
        if (least < 0 || taken < least)
            least = taken;
    }
    return (double)least / (double)times;
}

int main(int count, char **words)
{
    if (count != 4)
        refuse("WORK ROUNDS TIMES are wanted");
    page = contents("page.html");
    data = contents("data.json");
    grow(1);
    if (tera_new(&engine, &options).status != TERA_DONE
        || tera_put_template(&engine, "page.html", strlen("page.html"), page.at, page.size).status != TERA_DONE
        || tera_put_template(&engine, "empty", strlen("empty"), "", 0).status != TERA_DONE
        || tera_add(&engine).status != TERA_DONE)
        refuse("page.html is refused");
    if (strcmp(words[1], "print") == 0)
        fwrite(room.at, 1, render(), stdout);
    else
        printf("%f\n", fastest(work_of(words[1]), atol(words[2]), atol(words[3])));
    tera_free(&engine);
    free(page.at);
    free(data.at);
    free(room.at);
    return EXIT_SUCCESS;
}
