/* What a caller in C sees of the library. The worked rows are those of crates/tests_rows (rows.h is made). */
#define _POSIX_C_SOURCE 200809L

#include "typst_html.h"

#include <pthread.h>
#include <stdbool.h>
#include <stdio.h>
#include <stdlib.h>
#include <string.h>

#include "rows.h"

static int passed, failed;

static void expect(const char *what, bool holds) {
    if (holds)
        passed++;
    else {
        failed++;
        printf("FAILED %s\n", what);
    }
}

/* How many bytes behind a text are looked at. */
enum { BEHIND = 64 };

static struct typst_html_reply of_row(const struct row *row, uint8_t *output, size_t room) {
    const uint8_t *input = (const uint8_t *)row->input;
    if (row->kind == DOCUMENT)
        return typst_html_document(row->layout, row->links, row->limit, input, row->length, output, room);
    if (row->kind == FRAGMENT)
        return typst_html_fragment(row->level, row->limit, input, row->length, output, room);
    return typst_html_write(row->kind, row->layout, input, row->length, output, room);
}

/* Whether the first bytes are a text, and those behind are as they were. */
static bool begins_with(const uint8_t *output, size_t room, const char *text, size_t length) {
    for (size_t i = length; i < room; i++)
        if (output[i] != '.')
            return false;
    return !memcmp(output, text, length);
}

/* The links of a row that lead nowhere are listed, where links get an `href`. */
static bool lists_dead_links(const struct row *row) {
    uint8_t output[1024];
    size_t length = strlen(row->dead);
    memset(output, '.', sizeof output);
    struct typst_html_reply reply =
        typst_html_dead_links(row->limit, (const uint8_t *)row->input, row->length, output, sizeof output);
    return reply.status == TYPST_HTML_DONE && reply.span == 0 && reply.length == length &&
           begins_with(output, sizeof output, row->dead, length);
}

static bool is_as_wanted(const struct row *row) {
    uint8_t output[MOST + BEHIND];
    size_t length = row->text_length, room = length + BEHIND;
    memset(output, '.', room);
    struct typst_html_reply reply = of_row(row, output, room);
    if (reply.status != row->status || reply.number != row->number || reply.span != row->span ||
        reply.line != row->line || reply.column != row->column || reply.length != length)
        return false;
    return begins_with(output, room, row->text, length) && (!row->links || lists_dead_links(row));
}

static void rows_are_as_the_program_writes_them(void) {
    bool all = true;
    for (size_t i = 0; i < sizeof rows / sizeof *rows; i++)
        if (!is_as_wanted(&rows[i])) {
            printf("row %zu: %s\n", i, rows[i].input);
            all = false;
        }
    expect("rows", all);
}

/* The first row that gives a text. */
static const struct row *first_text(void) {
    const struct row *row = rows;
    while (row->status != TYPST_HTML_DONE)
        row++;
    return row;
}

static void a_short_buffer_stays_and_its_length_is_returned(void) {
    const struct row *row = first_text();
    uint8_t output[4096];
    bool all = row->text_length <= sizeof output;
    for (size_t room = 0; all && room < row->text_length; room++) {
        memset(output, '.', sizeof output);
        struct typst_html_reply reply = of_row(row, output, room);
        all &= reply.status == TYPST_HTML_TOO_SHORT && reply.length == row->text_length;
        for (size_t i = 0; i < sizeof output; i++)
            all &= output[i] == '.';
    }
    expect("short buffers", all);
    struct typst_html_reply reply = of_row(row, output, row->text_length);
    expect("a buffer that is long enough", reply.status == TYPST_HTML_DONE);
}

static uint8_t document_status(uint8_t layout, uint8_t links, uint32_t limit, const char *input) {
    uint8_t output[1024];
    return typst_html_document(layout, links, limit, (const uint8_t *)input, strlen(input), output,
                               sizeof output)
        .status;
}

static void wrong_numbers_are_bad_input(void) {
    const char *tree = "[\"el\",\"p\",[],[]]", *document = "{}";
    uint8_t output[64];
    bool all = true;
    for (unsigned kind = 0; kind < 256; kind++)
        for (unsigned layout = 0; layout < 256; layout++) {
            uint8_t status = typst_html_write(kind, layout, (const uint8_t *)tree, strlen(tree), output,
                                              sizeof output)
                                 .status;
            all &= (status == TYPST_HTML_DONE) == (kind == 0 && layout < 2);
        }
    expect("wrong kinds and layouts", all);
    expect("the least limit", document_status(0, 0, 1, document) == TYPST_HTML_DONE);
    expect("the most limit", document_status(1, 1, 10000, document) == TYPST_HTML_DONE);
    expect("limit 0", document_status(0, 0, 0, document) == TYPST_HTML_BAD_INPUT);
    expect("limit 10001", document_status(0, 0, 10001, document) == TYPST_HTML_BAD_INPUT);
    expect("limit 2^32 - 1", document_status(0, 0, UINT32_MAX, document) == TYPST_HTML_BAD_INPUT);
    expect("links 2", document_status(0, 2, 50, document) == TYPST_HTML_BAD_INPUT);
    expect("layout 2", document_status(2, 0, 50, document) == TYPST_HTML_BAD_INPUT);
    expect("no input", document_status(0, 0, 50, "") == TYPST_HTML_BAD_INPUT);
}

static void dead_links_are_reported(void) {
    const char *input = "{\"items\":[[\"start\",1,9],[\"el\",\"a\",[],[[\"text\",\"x\"]]]]}";
    const char *end = "<body><a>x</a></body></html>";
    const char *found = "{\"dead_links\":[{\"destination\":9,\"span\":2}]}";
    const uint8_t *json = (const uint8_t *)input;
    uint8_t output[1024];
    size_t length = strlen(input), room = strlen(found), tail = strlen(end);
    memset(output, '.', sizeof output);
    struct typst_html_reply reply = typst_html_document(0, 1, 50, json, length, output, 99);
    expect("a dead link in a short buffer",
           reply.status == TYPST_HTML_TOO_SHORT && reply.span == 0 && output[0] == '.');
    size_t wanted = reply.length;
    reply = typst_html_document(0, 1, 50, json, length, output, sizeof output);
    expect("a dead link is reported", reply.status == TYPST_HTML_DEAD_LINKS && reply.span == 2 &&
                                      reply.length == wanted &&
                                      !memcmp(output + wanted - tail, end, tail));
    memset(output, '.', sizeof output);
    reply = typst_html_dead_links(50, json, length, output, room - 1);
    expect("dead links in a short buffer",
           reply.status == TYPST_HTML_TOO_SHORT && reply.length == room && output[0] == '.');
    reply = typst_html_dead_links(50, json, length, output, room);
    expect("dead links are listed", reply.status == TYPST_HTML_DONE && reply.length == room &&
                                        begins_with(output, sizeof output, found, room));
    reply = typst_html_dead_links(0, json, length, output, room);
    expect("dead links with limit 0", reply.status == TYPST_HTML_BAD_INPUT);
    reply = typst_html_dead_links(50, json, length - 1, output, room);
    expect("dead links of no JSON", reply.status == TYPST_HTML_BAD_INPUT && reply.line == 1);
}

static void unused_members_are_listed(void) {
    const char *input = "{\"title\":\"t\",\"lang\":\"de\",\"items\":[[\"el\",\"html\",[],[]]]}";
    const char *found = "{\"unused\":[\"title\",\"lang\"]}";
    const uint8_t *json = (const uint8_t *)input;
    uint8_t output[64];
    size_t length = strlen(input), room = strlen(found);
    memset(output, '.', sizeof output);
    struct typst_html_reply reply = typst_html_unused(50, json, length, output, room - 1);
    expect("unused members in a short buffer",
           reply.status == TYPST_HTML_TOO_SHORT && reply.length == room && output[0] == '.');
    reply = typst_html_unused(50, json, length, output, room);
    expect("unused members are listed", reply.status == TYPST_HTML_DONE && reply.length == room &&
                                            begins_with(output, sizeof output, found, room));
    reply = typst_html_unused(0, json, length, output, room);
    expect("unused members with limit 0", reply.status == TYPST_HTML_BAD_INPUT);
}

static void fragments_have_a_level_and_a_limit(void) {
    const char *input = "[[\"text\",\"a \"],[\"el\",\"b\",[],[[\"color\",\"red\"]],[]]]";
    const char *found = "a <b style=\"color: red\"></b>";
    const uint8_t *json = (const uint8_t *)input;
    uint8_t output[64];
    size_t length = strlen(input), room = strlen(found);
    memset(output, '.', sizeof output);
    struct typst_html_reply reply = typst_html_fragment(TYPST_HTML_INLINE, 50, json, length, output, room - 1);
    expect("a fragment in a short buffer",
           reply.status == TYPST_HTML_TOO_SHORT && reply.length == room && output[0] == '.');
    reply = typst_html_fragment(TYPST_HTML_INLINE, 50, json, length, output, room);
    expect("a fragment", reply.status == TYPST_HTML_DONE && reply.length == room &&
                             begins_with(output, sizeof output, found, room));
    bool all = true;
    for (unsigned level = 2; level < 256; level++) {
        reply = typst_html_fragment((uint8_t)level, 50, json, length, output, sizeof output);
        all &= reply.status == TYPST_HTML_BAD_INPUT;
    }
    expect("other levels", all);
    reply = typst_html_fragment(TYPST_HTML_BLOCK, 0, json, length, output, sizeof output);
    expect("a fragment with limit 0", reply.status == TYPST_HTML_BAD_INPUT);
    reply = typst_html_fragment(TYPST_HTML_BLOCK, 10001, json, length, output, sizeof output);
    expect("a fragment with limit 10001", reply.status == TYPST_HTML_BAD_INPUT);
}

static struct typst_html_reply checked(uint32_t limit, const char *page, uint8_t *output, size_t room) {
    return typst_html_check(limit, (const uint8_t *)page, strlen(page), output, room);
}

static void pages_are_checked(void) {
    const char *page = "<!DOCTYPE html><p id=\"a\"><a href=\"#b\">x</a><b id=\"a\"></b></p>";
    const char *found = "{\"dead_fragments\":[{\"fragment\":\"b\",\"keeps\":0,\"path\":[1,0,0],"
                        "\"offset\":25,\"line\":1,\"column\":26}],"
                        "\"repeated_ids\":[{\"id\":\"a\",\"keeps\":0,\"path\":[1,0,1],"
                        "\"offset\":43,\"line\":1,\"column\":44}],\"misnested\":[]}";
    uint8_t output[256];
    size_t length = strlen(page), room = strlen(found);
    memset(output, '.', sizeof output);
    struct typst_html_reply reply = checked(50, page, output, room - 1);
    expect("findings in a short buffer", reply.status == TYPST_HTML_TOO_SHORT &&
                                             reply.length == room && output[0] == '.');
    reply = checked(50, page, output, room);
    expect("findings", reply.status == TYPST_HTML_DONE && reply.length == room &&
                           !memcmp(output, found, room) && output[room] == '.');
    expect("a page with limit 0", checked(0, page, output, room).status == TYPST_HTML_BAD_INPUT);
    expect("a page with limit 1001", checked(1001, page, output, room).status == TYPST_HTML_BAD_INPUT);
    for (size_t part = 0; part < length; part++) {
        reply = typst_html_check(50, (const uint8_t *)page, part, output, sizeof output);
        expect("a beginning of a page", reply.status == TYPST_HTML_DONE);
    }
}

/* Whether a page of bytes is not read, for that reason and at that place. */
static bool is_unread(const char *page, uint8_t status, uint8_t number, uint64_t span, size_t line, size_t column) {
    uint8_t output[4];
    struct typst_html_reply reply = checked(50, page, output, sizeof output);
    return reply.status == status && reply.number == number && reply.span == span && reply.line == line &&
           reply.column == column;
}

static void pages_are_decoded(void) {
    const char *found = "{\"dead_fragments\":[{\"fragment\":\"\xc3\xa9\",\"keeps\":0,\"path\":[1,0],"
                        "\"offset\":0,\"line\":1,\"column\":1}],\"repeated_ids\":[],\"misnested\":[]}";
    uint8_t output[256];
    struct typst_html_reply reply = checked(50, "<a href=#\xe9>", output, sizeof output);
    expect("a page in windows-1252", reply.status == TYPST_HTML_DONE && reply.length == strlen(found) &&
                                         !memcmp(output, found, reply.length));
    const uint8_t utf16[] = {0xff, 0xfe, '<', 0, 'a', 0, ' ', 0, 'h', 0, 'r', 0, 'e', 0, 'f', 0,
                             '=', 0, '#', 0, 0xe9, 0, '>', 0};
    reply = typst_html_check(50, utf16, sizeof utf16, output, sizeof output);
    expect("a page in UTF-16", reply.status == TYPST_HTML_DONE && reply.length == strlen(found));
    expect("an encoding that is not known",
           is_unread("\n<meta charset=big5>", TYPST_HTML_REFUSED, TYPST_HTML_REFUSAL_UNKNOWN_LABEL, 15, 2, 15));
    expect("bytes that are no UTF-8", is_unread("\xef\xbb\xbf\n\xff", TYPST_HTML_BAD_INPUT, 0, 4, 2, 1));
}

/* A table stays in a p where no document type stands, and would not in the text of that tree. */
static void misnested_nodes_are_reported(void) {
    const char *found = "{\"dead_fragments\":[],\"repeated_ids\":[],\"misnested\":["
                        "{\"rule\":\"ClosesParagraph\",\"why\":\"closes the p that it stands in\","
                        "\"keeps\":0,\"path\":[1,0,0],\"offset\":3,\"line\":1,\"column\":4}]}";
    uint8_t output[256];
    struct typst_html_reply reply = checked(50, "<p><table>", output, sizeof output);
    expect("misnested nodes", reply.status == TYPST_HTML_DONE && reply.length == strlen(found) &&
                                  !memcmp(output, found, reply.length));
}

static struct typst_html_reply linked(uint32_t limit, const char *page, uint8_t *output, size_t room) {
    return typst_html_links(limit, (const uint8_t *)page, strlen(page), output, room);
}

static void links_of_pages_are_reported(void) {
    const char *page = "<!DOCTYPE html><h1 id=a>x</h1><a name=b href=\"c.html#d\">y</a>";
    const char *found = "{\"ids\":[{\"id\":\"a\",\"keeps\":0,\"path\":[1,0],"
                        "\"offset\":15,\"line\":1,\"column\":16}],"
                        "\"names\":[{\"name\":\"b\",\"keeps\":0,\"path\":[1,1],"
                        "\"offset\":30,\"line\":1,\"column\":31}],"
                        "\"links\":[{\"href\":\"c.html#d\",\"keeps\":0,\"path\":[1,1],"
                        "\"offset\":30,\"line\":1,\"column\":31}]}";
    uint8_t output[300];
    size_t room = strlen(found);
    memset(output, '.', sizeof output);
    struct typst_html_reply reply = linked(50, page, output, room - 1);
    expect("links in a short buffer", reply.status == TYPST_HTML_TOO_SHORT && reply.length == room &&
                                          output[0] == '.');
    reply = linked(50, page, output, room);
    expect("links", reply.status == TYPST_HTML_DONE && reply.length == room &&
                        !memcmp(output, found, room) && output[room] == '.');
    expect("links with limit 0", linked(0, page, output, room).status == TYPST_HTML_BAD_INPUT);
    reply = linked(3, "<p>\r\n<b>a", output, room);
    expect("links of a page that is refused", reply.status == TYPST_HTML_REFUSED && reply.number == 8 &&
                                                  reply.span == 5 && reply.line == 2 && reply.column == 1);
}

/* A page as it stands in the wild, in which a multi-byte character stands before the link. */
static void pages_are_read_as_browsers_read_them(void) {
    const char *page = "<TITLE>Pie</TITLE>\r\n<UL><LI>Salt\r\n<LI>\xc3\xa4 & <A HREF=#gone>x</A>";
    const char *found = "{\"dead_fragments\":[{\"fragment\":\"gone\",\"keeps\":0,\"path\":[1,0,1,1],"
                        "\"offset\":43,\"line\":3,\"column\":9}],\"repeated_ids\":[],\"misnested\":[]}";
    uint8_t output[256];
    struct typst_html_reply reply = checked(50, page, output, sizeof output);
    expect("a page in the wild", reply.status == TYPST_HTML_DONE && reply.length == strlen(found) &&
                                     !memcmp(output, found, reply.length));
}

/* Pages that are not read: why, and where. */
static void pages_are_refused(void) {
    static const struct {
        uint32_t limit;
        const char *page;
        uint8_t status, number;
        uint64_t span;
        size_t line, column;
    } pages[] = {
        {3, "<!DOCTYPE html><p>\xc3\xa9\n<b></b></p>", TYPST_HTML_REFUSED, 8, 21, 2, 1},
        {1, "", TYPST_HTML_REFUSED, 8, 0, 1, 1},
        {4, "<svg></svg><table><tr>", TYPST_HTML_REFUSED, 8, 18, 1, 19},
        {50, "<svg></svg><meta charset=big5>", TYPST_HTML_REFUSED, 25, 25, 1, 26},
        {50, "<!DOCTYPE html>\n<meta charset=utf-8><p>\xc3\xa9\xe9</p>", TYPST_HTML_BAD_INPUT, 0, 41, 2, 25},
        {50, "\xef\xbb\xbf\xff", TYPST_HTML_BAD_INPUT, 0, 3, 1, 1},
    };
    uint8_t output[64];
    memset(output, '.', sizeof output);
    for (size_t i = 0; i < sizeof pages / sizeof *pages; i++) {
        struct typst_html_reply reply = checked(pages[i].limit, pages[i].page, output, sizeof output);
        expect(pages[i].page, reply.status == pages[i].status && reply.number == pages[i].number &&
                                  reply.span == pages[i].span && reply.line == pages[i].line &&
                                  reply.column == pages[i].column && output[0] == '.');
    }
}

/* Links to nowhere 990 deep: the text is no longer than that of as many at the top. Browsers go 511 deep, so one
   node is reported that stands deeper. */
static void deep_findings_are_short(void) {
    enum { DEEP = 990, COUNT = 10000, ROOM = 1 << 20 };
    const char *link = "<a href=\"#x\"></a>";
    char *page = malloc(ROOM), *end = stpcpy(page, "<!DOCTYPE html>");
    uint8_t *output = malloc(ROOM);
    for (int i = 0; i < DEEP; i++)
        end = stpcpy(end, "<b>");
    for (int i = 0; i < COUNT; i++)
        end = stpcpy(end, link);
    for (int i = 0; i < DEEP; i++)
        end = stpcpy(end, "</b>");
    struct typst_html_reply reply =
        typst_html_check(1000, (uint8_t *)page, (size_t)(end - page), output, ROOM - 1);
    const char *last = ",{\"fragment\":\"x\",\"keeps\":991,\"path\":[9999],\"offset\":172968,"
                       "\"line\":1,\"column\":172969}],\"repeated_ids\":[],"
                       "\"misnested\":[{\"rule\":\"TooDeep\",";
    output[reply.length] = '\0';
    const char *deep = strstr((char *)output, last);
    expect("deep findings", reply.status == TYPST_HTML_DONE && deep && strlen(deep) < 1500);
    free(page);
    free(output);
}

/* The calls for strings: a NUL stands behind the text, for which there has to be room. */
static void strings_end_with_nul(void) {
    const char *tree = "[\"el\",\"p\",[],[[\"text\",\"a\"]]]", *text = "<!DOCTYPE html><p>a</p>";
    const char *document = "{\"items\":[[\"start\",1,9],[\"el\",\"a\",[],[]]]}";
    const char *dead = "{\"dead_links\":[{\"destination\":9,\"span\":2}]}";
    const char *page = "<p>x</p>", *found = "{\"dead_fragments\":[],\"repeated_ids\":[],\"misnested\":[]}";
    const char *names = "{\"ids\":[],\"names\":[],\"links\":[]}";
    char output[256];
    size_t length = strlen(text);
    for (size_t room = 0; room <= length; room++) {
        memset(output, '.', sizeof output);
        struct typst_html_reply reply = typst_html_write_string(0, 0, tree, output, room);
        expect("a short string", reply.status == TYPST_HTML_TOO_SHORT && reply.length == length &&
                                     output[0] == '.' && output[room] == '.');
    }
    struct typst_html_reply reply = typst_html_write_string(0, 0, tree, output, length + 1);
    expect("a string", reply.status == TYPST_HTML_DONE && !strcmp(output, text) && output[length + 1] == '.');
    reply = typst_html_document_string(0, 1, 50, document, output, sizeof output);
    expect("a document as a string", reply.status == TYPST_HTML_DEAD_LINKS &&
                                         strlen(output) == reply.length &&
                                         strstr(output, "<a></a></body></html>"));
    reply = typst_html_dead_links_string(50, document, output, sizeof output);
    expect("dead links as a string", reply.status == TYPST_HTML_DONE && !strcmp(output, dead));
    reply = typst_html_check_string(50, page, output, sizeof output);
    expect("findings as a string", reply.status == TYPST_HTML_DONE && !strcmp(output, found));
    reply = typst_html_links_string(50, page, output, sizeof output);
    expect("links as a string", reply.status == TYPST_HTML_DONE && !strcmp(output, names));
    memset(output, '.', sizeof output);
    reply = typst_html_write_string(0, 0, "{", output, sizeof output);
    expect("no JSON as a string", reply.status == TYPST_HTML_BAD_INPUT && output[0] == '.');
}

/* Each number has words of its own, and what is none has others. */
static void refusals_have_words(void) {
    for (unsigned number = 0; number < 256; number++) {
        bool is_one = (number >= 1 && number <= 15) || number == 25 || number == 28 || number == 40;
        expect("the words of a number", is_one == !!strcmp(typst_html_words(number), "refused"));
        for (unsigned other = 0; is_one && other < number; other++)
            expect("words of their own", strcmp(typst_html_words(number), typst_html_words(other)));
    }
    expect("a name", TYPST_HTML_REFUSAL_VOID_CHILDREN == 12 &&
                         !strcmp(typst_html_words(12), "a void element has a child"));
}

static void *all_rows(void *bad) {
    for (size_t i = 0; i < sizeof rows / sizeof *rows; i++)
        if (!is_as_wanted(&rows[i]))
            *(bool *)bad = true;
    return NULL;
}

/* A page of elements in one another, as deep as the limit allows: it is read. The links are the deepest, in
   html, body and an element at each other level. */
static void *deepest_page(void *limit) {
    const uint32_t deep = *(uint32_t *)limit - 3;
    const char *start = "<div id=\"a\"><a href=\"#b\"></a>";
    char *page = malloc(deep * strlen(start) + 1), *end = page;
    uint8_t none;
    *page = 0;
    for (uint32_t i = 0; i < deep; i++)
        end = stpcpy(end, start);
    struct typst_html_reply reply = checked(deep + 3, page, &none, 0);
    expect("the deepest page", reply.status == TYPST_HTML_TOO_SHORT);
    if (deep > 0) {
        reply = checked(deep + 2, page, &none, 0);
        expect("a deeper page", reply.status == TYPST_HTML_REFUSED && reply.number == 8);
    }
    free(page);
    return NULL;
}

/* As much stack as the header says: a thread that lacks some ends the process. */
static void the_stack_is_enough(void) {
    static uint32_t limits[] = {3, 50, 500, 999, 1000};
    bool bad = false;
    pthread_attr_t with;
    pthread_t thread;
    pthread_attr_init(&with);
    pthread_attr_setstacksize(&with, 256 << 10);
    for (size_t i = 0; i < sizeof limits / sizeof *limits; i++) {
        pthread_create(&thread, &with, deepest_page, &limits[i]);
        pthread_join(thread, NULL);
    }
    pthread_create(&thread, &with, all_rows, &bad);
    pthread_join(thread, NULL);
    expect("rows on a small stack", !bad);
}

static void eight_threads_agree(void) {
    pthread_t threads[8];
    bool bad[8] = {false}, all = true;
    for (int i = 0; i < 8; i++)
        pthread_create(&threads[i], NULL, all_rows, &bad[i]);
    for (int i = 0; i < 8; i++) {
        pthread_join(threads[i], NULL);
        all &= !bad[i];
    }
    expect("eight threads", all);
}

/* A document of so many paragraphs, each of 100 bytes of JSON. */
static void ten_megabytes_are_written(void) {
    enum { COUNT = 100000 };
    const char *one = "[\"el\",\"p\",[[\"class\",\"long\"]],[[\"text\",\"A paragraph of a long "
                      "document, with a < b and an & in it.\"]]]";
    size_t each = strlen(one), length = 0;
    char *input = malloc(COUNT * (each + 1) + 2);
    uint8_t *output = malloc(4 * COUNT * each);
    for (int i = 0; i < COUNT; i++) {
        input[length++] = i == 0 ? '[' : ',';
        memcpy(input + length, one, each);
        length += each;
    }
    input[length++] = ']';
    struct typst_html_reply reply =
        typst_html_write(TYPST_HTML_ITEMS, TYPST_HTML_PRETTY, (uint8_t *)input, length, output,
                         4 * COUNT * each);
    const char *end = "and an &amp; in it.</p>\n  </body>\n</html>\n";
    size_t tail = strlen(end);
    expect("ten megabytes", length >= 9000000 && reply.status == TYPST_HTML_DONE &&
                                reply.length > length / 2 &&
                                !memcmp(output + reply.length - tail, end, tail));
    free(input);
    free(output);
}

int main(int count, char **words) {
    bool is_short = count > 1 && !strcmp(words[1], "--short");
    expect("the version", typst_html_version() == TYPST_HTML_VERSION);
    rows_are_as_the_program_writes_them();
    a_short_buffer_stays_and_its_length_is_returned();
    wrong_numbers_are_bad_input();
    dead_links_are_reported();
    unused_members_are_listed();
    fragments_have_a_level_and_a_limit();
    pages_are_checked();
    misnested_nodes_are_reported();
    links_of_pages_are_reported();
    pages_are_decoded();
    pages_are_read_as_browsers_read_them();
    pages_are_refused();
    deep_findings_are_short();
    strings_end_with_nul();
    refusals_have_words();
    if (!is_short) {
        the_stack_is_enough();
        eight_threads_agree();
        ten_megabytes_are_written();
    }
    printf("C: %d passed, %d failed\n", passed, failed);
    return failed != 0;
}
