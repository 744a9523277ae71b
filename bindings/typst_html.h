/*
 * A library of proved code that writes the HTML text of documents and trees, which JSON spells, and
 * reports the faults and the links of a page.
 *
 * Ownership: the library keeps no state. It reads `input` and writes `output` only during the call,
 * and frees whatever it allocated before it returns. The caller owns both buffers.
 *
 * Pointers: neither pointer may be NULL, even for a buffer of length 0, and the two buffers must
 * not overlap, even if nothing is written. No call checks this: otherwise the behaviour is
 * undefined. To get the length of a text, pass any `output` that is no part of `input`, and the
 * `room` 0.
 *
 * Threads: calls share nothing, so any number of them may run at once, each with an `output` of its
 * own. A call allocates with `malloc`, `realloc` and `free`, so do not make one in a signal handler
 * or in a forked child of a process with threads. It needs 256 KB of stack, whatever the input and
 * the limit are. With less, a deep input ends the process.
 *
 * Linux on x86-64 (x86-64-v2 and later).
 */
#ifndef TYPST_HTML_H
#define TYPST_HTML_H

#include <stddef.h>
#include <stdint.h>
#include <string.h>

#ifdef __cplusplus
extern "C" {
#endif

/* The version of these calls: compare it with typst_html_version(). */
#define TYPST_HTML_VERSION 8

/* The outcome of a call. `output` is unchanged after all but TYPST_HTML_DONE and
   TYPST_HTML_DEAD_LINKS. */
enum typst_html_status {
    TYPST_HTML_DONE = 0,          /* the first `length` bytes of `output` are the text, in UTF-8 */
    TYPST_HTML_REFUSED = 1,       /* the input is refused: `number` says why, `span` where, and for
                                     a page `line` and `column` too */
    TYPST_HTML_BAD_INPUT = 2,     /* the input is not JSON (`line` and `column` say where) or spells
                                     nothing (`span` says where), the page has bytes that are no
                                     text in its encoding (all three say where), or a number is not
                                     one of those below */
    TYPST_HTML_OUT_OF_MEMORY = 3, /* an allocation failed */
    TYPST_HTML_TOO_SHORT = 4,     /* `output` is too short: the text needs `length` bytes */
    TYPST_HTML_DEAD_LINKS = 5,    /* as TYPST_HTML_DONE, but links in the text lead nowhere: `span`
                                     says where the first is; typst_html_dead_links lists them */
};

struct typst_html_reply {
    size_t length;  /* statuses 0, 4 and 5: the length of the text in bytes; otherwise 0 */
    uint64_t span;  /* status 1: the number of the list of the node or item in the JSON that is
                       refused, counted from 1 by their opening brackets; 0 if the refusal has no
                       place. Status 5: the number of the list of the first `a` that leads nowhere.
                       For a page, statuses 1 and 2: how many bytes stand before the place, of its
                       text in UTF-8, or of the page itself with number 25 and with status 2.
                       For JSON, status 2: how many of these lists are opened up to the first value
                       that does not fit the form */
    size_t line;    /* status 2, if the input is not JSON, and for a page, statuses 1 and 2: the
                       line of the place, counted from 1; otherwise 0. A line ends with a line feed,
                       in a page with LF, CR LF or CR */
    size_t column;  /* the column there, counted from 1: for JSON in bytes, that of the first byte
                       with which no JSON text goes on, or the length of the last line if the text
                       ends too soon; for a page in characters, without a byte order mark */
    uint8_t status; /* enum typst_html_status */
    uint8_t number; /* status 1: enum typst_html_refusal; otherwise 0 */
};

/* The refusals, whose words typst_html_words() returns. A page is refused with 8 or with a number
   from 25 on. */
enum typst_html_refusal {
    TYPST_HTML_REFUSAL_EMPTY_TAG = 1,
    TYPST_HTML_REFUSAL_BAD_TAG_CHAR = 2,
    TYPST_HTML_REFUSAL_CUSTOM_START = 3,
    TYPST_HTML_REFUSAL_CUSTOM_CAPITAL = 4,
    TYPST_HTML_REFUSAL_RESERVED = 5,
    TYPST_HTML_REFUSAL_EMPTY_ATTR = 6,
    TYPST_HTML_REFUSAL_BAD_ATTR_CHAR = 7,
    TYPST_HTML_REFUSAL_TOO_DEEP = 8,
    TYPST_HTML_REFUSAL_NOT_ALONE = 9,
    TYPST_HTML_REFUSAL_FOOTNOTES = 10,
    TYPST_HTML_REFUSAL_UNENCODABLE = 11,
    TYPST_HTML_REFUSAL_VOID_CHILDREN = 12,
    TYPST_HTML_REFUSAL_RAW_CHILD = 13,
    TYPST_HTML_REFUSAL_RAW_CLOSING = 14,
    TYPST_HTML_REFUSAL_FRAME_REFUSED = 15,
    TYPST_HTML_REFUSAL_UNKNOWN_LABEL = 25,
    TYPST_HTML_REFUSAL_TOO_MANY_ATTRIBUTES = 28,
    TYPST_HTML_REFUSAL_TOO_MANY_COPIES = 40,
};

/* Returns the English words of the refusal with that number; "refused" for any other number. */
static inline const char *typst_html_words(uint8_t number) {
    switch (number) {
    case TYPST_HTML_REFUSAL_EMPTY_TAG:
        return "tag name must not be empty";
    case TYPST_HTML_REFUSAL_BAD_TAG_CHAR:
        return "a character is not valid in a tag name";
    case TYPST_HTML_REFUSAL_CUSTOM_START:
        return "custom element name must start with a lowercase letter";
    case TYPST_HTML_REFUSAL_CUSTOM_CAPITAL:
        return "custom element name must not contain uppercase letters";
    case TYPST_HTML_REFUSAL_RESERVED:
        return "name is reserved and not valid for a custom element";
    case TYPST_HTML_REFUSAL_EMPTY_ATTR:
        return "attribute name must not be empty";
    case TYPST_HTML_REFUSAL_BAD_ATTR_CHAR:
        return "a character is not valid in an attribute name";
    case TYPST_HTML_REFUSAL_TOO_DEEP:
        return "a body, or an element of a page, stands deeper than the limit";
    case TYPST_HTML_REFUSAL_NOT_ALONE:
        return "an html or body element stands among other nodes";
    case TYPST_HTML_REFUSAL_FOOTNOTES:
        return "footnotes stand beside an html or body element of the document's own";
    case TYPST_HTML_REFUSAL_UNENCODABLE:
        return "a character cannot be encoded in HTML";
    case TYPST_HTML_REFUSAL_VOID_CHILDREN:
        return "a void element has a child";
    case TYPST_HTML_REFUSAL_RAW_CHILD:
        return "a raw text element has a child that is no text";
    case TYPST_HTML_REFUSAL_RAW_CLOSING:
        return "a raw text would end its element";
    case TYPST_HTML_REFUSAL_FRAME_REFUSED:
        return "a frame is refused";
    case TYPST_HTML_REFUSAL_UNKNOWN_LABEL:
        return "the page names an encoding that is not known";
    case TYPST_HTML_REFUSAL_TOO_MANY_ATTRIBUTES:
        return "an element has too many attributes";
    case TYPST_HTML_REFUSAL_TOO_MANY_COPIES:
        return "too many elements are made again";
    default:
        return "refused";
    }
}

/* The kind of input of typst_html_write. */
enum typst_html_kind {
    TYPST_HTML_TREE = 0,  /* ["el", tag, [[name, value], ..], [node, ..]] */
    TYPST_HTML_ITEMS = 1, /* [item, ..] */
};

/* The layout of the text. */
enum typst_html_layout {
    TYPST_HTML_PLAIN = 0,
    TYPST_HTML_PRETTY = 1, /* indented where that is not visible on the page */
};

/* The place where the caller puts the text of typst_html_fragment. */
enum typst_html_level {
    TYPST_HTML_BLOCK = 0,  /* on lines of its own, for example in a `div` */
    TYPST_HTML_INLINE = 1, /* in a line, for example in a `p` */
};

/* Returns the TYPST_HTML_VERSION of the library that is linked. */
uint32_t typst_html_version(void);

/*
 * Writes the text of a tree, or of the document of a list of items without information about it.
 * Bodies may be nested 50 deep. A node is one of
 *     ["text", t]   ["el", tag, [[name, value], ..], [node, ..]]
 *     ["start", n]   ["start", n, dest]   ["end", n]
 * and an item is one of these, with items in the `el`, or one of
 *     ["space"]   ["break"]   ["hole"]   ["block", [item, ..]]   ["box", [item, ..]]
 * JSON is read 127 levels deep, which is 63 elements within one another.
 */
struct typst_html_reply typst_html_write(uint8_t kind, uint8_t layout, const uint8_t *input,
                                         size_t length, uint8_t *output, size_t room);

/*
 * Writes the text of a document with information about it, footnotes and nodes for its head. The
 * input is an object:
 *     {"title": t, "description": t, "authors": [t, ..], "keywords": [t, ..], "lang": t, "region": t,
 *      "items": [item, ..], "footnotes": [item, ..], "head": [node, ..]}
 * Each member may be left out, except the "lang" of a "region"; any other member is bad input.
 * Nodes and items are those of typst_html_write; an item may also be one of
 *     ["el", tag, [[name, value], ..], [[property, value], ..], [item, ..]]   ["start", n, dest, label]
 *     ["place", name]   ["link", name]   ["role", role, item]
 * where dest and role may be null. What stands after a place is the place of that name, and an `a`
 * right after a link leads there. A document has names or numbers of locations, not both.
 *
 * With links = 1 each `a` without `href` after a link, or after a start with a destination, gets
 * the `href` of that place; with links = 0 none does. If the document has no such place, the `a`
 * stays as it is, and the status is TYPST_HTML_DEAD_LINKS instead of TYPST_HTML_DONE; the text is
 * written all the same. Bodies may be nested `limit` deep, from 1 to 10,000. The lists are numbered
 * through the items, then the footnotes, then the head.
 */
struct typst_html_reply typst_html_document(uint8_t layout, uint8_t links, uint32_t limit,
                                            const uint8_t *input, size_t length, uint8_t *output,
                                            size_t room);

/*
 * Writes the text of items without document type, head and body: a piece of a page that another
 * program makes. The input is a list of items, which are those of typst_html_document:
 *     [item, ..]
 * A browser reads the text in a `div` as the nodes of these items. At the level of blocks, the
 * spaces of items in plain flow stay. At the level of a line, a space at either end of the text is
 * left as it is. Links get neither anchors nor an `href`, since both depend on the ids of the whole
 * page. Bodies may be nested `limit` deep, from 1 to 10,000.
 */
struct typst_html_reply typst_html_fragment(uint8_t level, uint32_t limit, const uint8_t *input,
                                            size_t length, uint8_t *output, size_t room);

/*
 * Writes as JSON the links that lead nowhere in the document that typst_html_document makes with
 * links = 1, in document order:
 *     {"dead_links":[{"destination":n,"span":n},..]}
 * A destination is the `dest` of a start, or the number of the name of a link; the names of the
 * document are counted from 1, in the order in which they first occur. A span is the number of the
 * list of the `a`. Links to a place in a `template` alone are among them, and all links if a
 * `base` leads them elsewhere. Input, limit and refusals are those of typst_html_document. If every
 * link leads somewhere, the list is empty and the status is 0.
 */
struct typst_html_reply typst_html_dead_links(uint32_t limit, const uint8_t *input, size_t length,
                                              uint8_t *output, size_t room);

/*
 * Writes as JSON the members whose information the text of the document does not show. If the items
 * have an `html` of their own, whose head is theirs too, these are all members for information that
 * the input has, also empty lists; otherwise there are none.
 *     {"unused":["title","lang"]}
 * The members are in the order of the form above, with "head" last. Input and limit are those of
 * typst_html_document, which refuses whatever is refused here.
 */
struct typst_html_reply typst_html_unused(uint32_t limit, const uint8_t *input, size_t length,
                                          uint8_t *output, size_t room);

/*
 * Writes as JSON what is wrong in a page: the links to fragments of the page itself that lead
 * nowhere, the ids that an earlier element has too, and the nodes that would make a browser build
 * another tree if the tree of the page were written, each with its place.
 *     {"dead_fragments":[{"fragment":t,"keeps":n,"path":[n,..],"offset":n,"line":n,"column":n},..],
 *      "repeated_ids":[{"id":t,"keeps":n,"path":[n,..],"offset":n,"line":n,"column":n},..],
 *      "misnested":[{"rule":t,"why":t,"keeps":n,"path":[n,..],"offset":n,"line":n,"column":n},..]}
 * A path has the index of each child on the way from the root, texts counted. It begins with the
 * first `keeps` indices of the path of the previous finding in the list, and goes on with those of
 * `path`; the first finding keeps none. So the text does not grow with the depth of the findings.
 * The place is that of the `<` of the start tag, or, for a text, that of the element in which it
 * stands: how many bytes of the page's text stand before it, in UTF-8, and the line and the column,
 * as in a reply.
 * `rule` names the rule that a misnested node breaks, and `why` says in English what a browser does
 * with it. Read the members by their names: there may be more.
 *
 * The page is read as a browser with scripting disabled reads it: tags that may be left out are
 * implied, and errors are recovered from. But a page in which an element would stand deeper than
 * `limit` is refused, with the place of the tag; `limit` is from 1 to 1,000, and `html` stands at 1.
 *
 * The page is decoded first. It has the encoding of its byte order mark (UTF-8 or UTF-16), or is in
 * UTF-16 if an XML declaration begins so, or else has the encoding that a `meta` or an XML
 * declaration names among its first 1,024 bytes. Without any of these, it is UTF-8 if its bytes are,
 * and windows-1252 otherwise. A label that is none of those of UTF-8,
 * UTF-16, windows-1252 and x-user-defined is refused (25), with the place of the label. A page with
 * bytes that are no text in its encoding is bad input, with the place of the first. (A caller that
 * has a text puts a byte order mark before it: a label in the text then counts for nothing.)
 */
struct typst_html_reply typst_html_check(uint32_t limit, const uint8_t *page, size_t length,
                                         uint8_t *output, size_t room);

/*
 * Writes as JSON what a check of links between pages needs from a page, each list in document
 * order:
 *     {"ids":[{"id":t,"keeps":n,"path":[n,..],"offset":n,"line":n,"column":n},..],
 *      "names":[{"name":t,"keeps":n,"path":[n,..],"offset":n,"line":n,"column":n},..],
 *      "links":[{"href":t,"keeps":n,"path":[n,..],"offset":n,"line":n,"column":n},..]}
 * A link with a fragment may lead to each `id` of an element and to each `name` of an `a`; empty
 * ones are left out. The links are the addresses of `a` and `area`, as they are written, including
 * empty ones. Paths, places, pages, limits and refusals are those of typst_html_check.
 */
struct typst_html_reply typst_html_links(uint32_t limit, const uint8_t *page, size_t length,
                                         uint8_t *output, size_t room);

/*
 * The same calls for C strings: `input` and `page` end with a NUL, and so does the text that is
 * written. `room` counts that NUL, `length` does not: if `output` is too short, `length` + 1 bytes
 * are enough.
 */

/* Writes a NUL after the text of the reply, if there is one, and returns the reply. */
static inline struct typst_html_reply typst_html_ended(struct typst_html_reply reply, char *output) {
    if (reply.status == TYPST_HTML_DONE || reply.status == TYPST_HTML_DEAD_LINKS)
        output[reply.length] = '\0';
    return reply;
}

static inline struct typst_html_reply typst_html_write_string(uint8_t kind, uint8_t layout,
                                                              const char *input, char *output,
                                                              size_t room) {
    return typst_html_ended(typst_html_write(kind, layout, (const uint8_t *)input, strlen(input),
                                             (uint8_t *)output, room ? room - 1 : 0),
                            output);
}

static inline struct typst_html_reply typst_html_document_string(uint8_t layout, uint8_t links,
                                                                 uint32_t limit, const char *input,
                                                                 char *output, size_t room) {
    return typst_html_ended(typst_html_document(layout, links, limit, (const uint8_t *)input,
                                                strlen(input), (uint8_t *)output,
                                                room ? room - 1 : 0),
                            output);
}

static inline struct typst_html_reply typst_html_fragment_string(uint8_t level, uint32_t limit,
                                                                 const char *input, char *output,
                                                                 size_t room) {
    return typst_html_ended(typst_html_fragment(level, limit, (const uint8_t *)input, strlen(input),
                                                (uint8_t *)output, room ? room - 1 : 0),
                            output);
}

static inline struct typst_html_reply typst_html_dead_links_string(uint32_t limit, const char *input,
                                                                   char *output, size_t room) {
    return typst_html_ended(typst_html_dead_links(limit, (const uint8_t *)input, strlen(input),
                                                  (uint8_t *)output, room ? room - 1 : 0),
                            output);
}

static inline struct typst_html_reply typst_html_unused_string(uint32_t limit, const char *input,
                                                               char *output, size_t room) {
    return typst_html_ended(typst_html_unused(limit, (const uint8_t *)input, strlen(input),
                                              (uint8_t *)output, room ? room - 1 : 0),
                            output);
}

static inline struct typst_html_reply typst_html_check_string(uint32_t limit, const char *page,
                                                              char *output, size_t room) {
    return typst_html_ended(typst_html_check(limit, (const uint8_t *)page, strlen(page),
                                             (uint8_t *)output, room ? room - 1 : 0),
                            output);
}

static inline struct typst_html_reply typst_html_links_string(uint32_t limit, const char *page,
                                                              char *output, size_t room) {
    return typst_html_ended(typst_html_links(limit, (const uint8_t *)page, strlen(page),
                                             (uint8_t *)output, room ? room - 1 : 0),
                            output);
}

#ifdef __cplusplus
}
#endif

#endif
