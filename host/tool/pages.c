#include "pages.h"
#include <string.h>
#include "say.h"

static const struct { const char *topic, *text; } pages[] = {
#include "pages.inc"
};

#define PAGES (sizeof pages / sizeof *pages)

/* The page of a topic, or of the whole tool where it is NULL; NULL where there is none. */
static const char *page(const char *topic)
{
    size_t k = 0;
    while (k < PAGES && strcmp(pages[k].topic, topic ? topic : "haze")) k++;
    return k < PAGES ? pages[k].text : NULL;
}

int print_page(const char *topic)
{
    const char *text = page(topic);
    if (!text) return say("there is no help on %s; `haze help` has the topics", topic);
    fputs(text, stdout);
    return printed();
}

void usage_of(const char *topic, FILE *to)
{
    const char *text = page(topic), *rest = strstr(text, "\n\n");
    fprintf(to, "%.*s\n`haze help%s%s` says more.\n", (int)(rest - text), text, topic ? " " : "", topic ? topic : "");
}
