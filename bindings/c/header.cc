// The header in C++: names and words of refusals, and the calls for strings. It ends with 0 where all is as
// it should be.
#include "typst_html.h"

#include <cstring>
#include <string>

// What a call writes, in a buffer that is made as long as the call says.
template <typename Call> static std::string text_of(Call call, typst_html_reply &reply) {
    std::string text(1, '.');
    reply = call(&text[0], text.size());
    if (reply.status == TYPST_HTML_TOO_SHORT) {
        text.resize(reply.length + 1);
        reply = call(&text[0], text.size());
    }
    text.resize(reply.length);
    return text;
}

static int failed = 0;

static void expect(bool holds) {
    failed += !holds;
}

int main() {
    typst_html_reply reply;
    std::string text = text_of(
        [](char *output, size_t room) {
            return typst_html_write_string(TYPST_HTML_TREE, TYPST_HTML_PLAIN,
                                           "[\"el\",\"p\",[],[[\"text\",\"a < b\"]]]", output, room);
        },
        reply);
    expect(reply.status == TYPST_HTML_DONE && text == "<!DOCTYPE html><p>a &lt; b</p>");
    text = text_of(
        [](char *output, size_t room) {
            const char *input = "{\"items\":[[\"start\",1,9],[\"el\",\"a\",[],[]]]}";
            return typst_html_document_string(TYPST_HTML_PLAIN, 1, 50, input, output, room);
        },
        reply);
    expect(reply.status == TYPST_HTML_DEAD_LINKS && text.find("<body><a></a></body>") != std::string::npos);
    text = text_of(
        [](char *output, size_t room) {
            const char *input = "{\"items\":[[\"start\",1,9],[\"el\",\"a\",[],[]]]}";
            return typst_html_dead_links_string(50, input, output, room);
        },
        reply);
    expect(reply.status == TYPST_HTML_DONE && text == "{\"dead_links\":[{\"destination\":9,\"span\":2}]}");
    text = text_of([](char *output, size_t room) { return typst_html_check_string(50, "<p>", output, room); },
                   reply);
    expect(reply.status == TYPST_HTML_DONE && text == "{\"dead_fragments\":[],\"repeated_ids\":[],\"misnested\":[]}");
    text = text_of([](char *output, size_t room) { return typst_html_links_string(50, "<p>", output, room); },
                   reply);
    expect(reply.status == TYPST_HTML_DONE && text == "{\"ids\":[],\"names\":[],\"links\":[]}");
    text_of([](char *output, size_t room) { return typst_html_check_string(2, "<p>a", output, room); },
            reply);
    expect(reply.status == TYPST_HTML_REFUSED && reply.number == TYPST_HTML_REFUSAL_TOO_DEEP);
    expect(!std::strcmp(typst_html_words(reply.number), "a body, or an element of a page, stands deeper than the limit"));
    return failed;
}
