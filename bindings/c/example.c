/*
 * example tree|items|document [--pretty] [--links]: writes the HTML of JSON from standard input to standard output.
 * example fragment: writes items by themselves.
 * example dead-links: reports in JSON the links of a document that lead nowhere.
 * example check: reports in JSON what is wrong in a page from standard input.
 * example links: reports its ids and its links.
 * It ends with the status of the call, and reports a refusal, or links that lead nowhere, on standard error.
 */
#include "typst_html.h"

#include <stdbool.h>
#include <stdio.h>
#include <stdlib.h>
#include <string.h>

struct bytes {
    uint8_t *at;
    size_t length;
};

enum task { TREE, ITEMS, DOCUMENT, FRAGMENT, DEAD_LINKS, CHECK, LINKS };

static const char *const names[] = {"tree",       "items", "document", "fragment",
                                    "dead-links", "check", "links"};

static struct typst_html_reply call(enum task task, bool pretty, bool links, struct bytes input,
                                    struct bytes output) {
    if (task == CHECK)
        return typst_html_check(1000, input.at, input.length, output.at, output.length);
    if (task == LINKS)
        return typst_html_links(1000, input.at, input.length, output.at, output.length);
    if (task == FRAGMENT)
        return typst_html_fragment(TYPST_HTML_BLOCK, 50, input.at, input.length, output.at, output.length);
    if (task == DEAD_LINKS)
        return typst_html_dead_links(50, input.at, input.length, output.at, output.length);
    if (task == DOCUMENT)
        return typst_html_document(pretty, links, 50, input.at, input.length, output.at, output.length);
    return typst_html_write(task == TREE ? TYPST_HTML_TREE : TYPST_HTML_ITEMS, pretty, input.at,
                            input.length, output.at, output.length);
}

/* The text in a buffer of its own, which the caller frees. */
static struct typst_html_reply text_of(enum task task, bool pretty, bool links, struct bytes input,
                                       struct bytes *text) {
    /* Four bytes for each of the input are mostly enough; else the call says how many are. */
    *text = (struct bytes){NULL, 4 * input.length + 1024};
    for (;;) {
        uint8_t *room = realloc(text->at, text->length);
        struct typst_html_reply reply = {.status = TYPST_HTML_OUT_OF_MEMORY};
        if (room == NULL)
            return reply;
        text->at = room;
        reply = call(task, pretty, links, input, *text);
        if (reply.status != TYPST_HTML_TOO_SHORT)
            return reply;
        text->length = reply.length;
    }
}

/* All of a file, in a buffer that the caller frees. */
static struct bytes all_of(FILE *file) {
    struct bytes all = {malloc(1 << 16), 0};
    size_t room = 1 << 16, got;
    while (all.at != NULL && (got = fread(all.at + all.length, 1, room - all.length, file)) > 0) {
        all.length += got;
        if (all.length == room)
            all.at = realloc(all.at, room *= 2);
    }
    return all;
}

int main(int count, char **words) {
    bool pretty = false, links = false;
    enum task task = TREE;
    while (task <= LINKS && (count < 2 || strcmp(words[1], names[task])))
        task++;
    if (task > LINKS) {
        fputs("wanted: example tree|items|document|fragment|dead-links|check|links\n", stderr);
        return TYPST_HTML_BAD_INPUT;
    }
    for (int i = 2; i < count; i++) {
        pretty |= !strcmp(words[i], "--pretty");
        links |= !strcmp(words[i], "--links");
    }
    if (typst_html_version() != TYPST_HTML_VERSION) {
        fputs("the library has another version than its header\n", stderr);
        return 6;
    }
    struct bytes input = all_of(stdin), text;
    if (input.at == NULL)
        return TYPST_HTML_OUT_OF_MEMORY;
    struct typst_html_reply reply = text_of(task, pretty, links, input, &text);
    switch (reply.status) {
    case TYPST_HTML_DEAD_LINKS:
        fprintf(stderr, "a link leads nowhere at %llu\n", (unsigned long long)reply.span);
        /* fall through */
    case TYPST_HTML_DONE:
        fwrite(text.at, 1, reply.length, stdout);
        break;
    case TYPST_HTML_REFUSED:
        if (reply.line > 0)
            fprintf(stderr, "%s (refusal %u at line %zu column %zu)\n", typst_html_words(reply.number),
                    reply.number, reply.line, reply.column);
        else
            fprintf(stderr, "%s (refusal %u at %llu)\n", typst_html_words(reply.number), reply.number,
                    (unsigned long long)reply.span);
        break;
    case TYPST_HTML_BAD_INPUT:
        if (reply.line > 0)
            fprintf(stderr, "bad input at line %zu column %zu\n", reply.line, reply.column);
        else
            fprintf(stderr, "bad input at %llu\n", (unsigned long long)reply.span);
        break;
    }
    free(text.at);
    free(input.at);
    return reply.status;
}
