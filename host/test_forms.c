/* Tests of form: "json" or "page" after the program's name; reads standard input, exits with 0 where it is well formed. JSON by RFC 8259; a page as XML has
 * it: one element in all, tags that close in order, attributes in quotes, no stray < or &, no script and nothing from another place. Both in UTF-8. */
#include <ctype.h>
#include <stdbool.h>
#include <stdio.h>
#include <stdlib.h>
#include <string.h>

#include "json.h"

enum { MOST_BYTES = 64 * 1048576, MOST_DEEP = 64, MOST_NAME = 64 };

static char *text, *at;

static void wrong(const char *what)
{
    fprintf(stderr, "test-forms: byte %zu: %s: %.40s\n", (size_t)(at - text), what, at);
    exit(1);
}

static void check_characters(void)
{
    for (at = text; *at != 0; at += character_length(at))
        if (character_length(at) == 0)
            wrong("no UTF-8");
}

static void blanks(void)
{
    at += strspn(at, " \t\r\n");
}

static void expect(const char *wanted)
{
    size_t length = strlen(wanted);
    if (strncmp(at, wanted, length) != 0)
        wrong(wanted);
    at += length;
}

static void json_text(void)
{
    expect("\"");
    for (; *at != '"'; at++) {
        if ((unsigned char)*at < 0x20)
            wrong("a text without an end, or a control character");
        if (*at != '\\')
            continue;
        at++;
        if (*at == 'u')
            for (int i = 0; i < 4; i++)
                if (!isxdigit((unsigned char)*++at))
                    wrong("no \\uXXXX");
        if (strchr("\"\\/bfnrtu0123456789abcdefABCDEF", *at) == NULL)
            wrong("no escape");
    }
    at++;
}

static void json_value(unsigned deep);

/* The values of a list or an object up to its end. */
static void json_values(char end, unsigned deep)
{
    at++;
    blanks();
    while (*at != end) {
        if (end == '}') {
            json_text();
            blanks();
            expect(":");
        }
        json_value(deep + 1);
        if (*at == end)
            break;
        expect(",");
        blanks();
        if (*at == end)
            wrong("a comma at the end");
    }
    at++;
}

static void json_value(unsigned deep)
{
    if (deep > MOST_DEEP)
        wrong("too deep");
    blanks();
    if (*at == '{' || *at == '[')
        json_values(*at == '{' ? '}' : ']', deep);
    else if (*at == '"')
        json_text();
    else if (isdigit((unsigned char)*at) || *at == '-')
        at += strspn(at, "-+.eE0123456789");
    else if (*at == 'n')
        expect("null");
    else
        expect(*at == 't' ? "true" : "false");
    blanks();
}

/* Elements that are open. */
static char open_names[MOST_DEEP][MOST_NAME];
static unsigned opened;

static void read_name(char *name)
{
    size_t length = 0;
    while (isalnum((unsigned char)*at) || *at == '-' || *at == ':') {
        if (length + 1 == MOST_NAME)
            wrong("a long name");
        name[length++] = *at++;
    }
    name[length] = 0;
    if (length == 0)
        wrong("no name");
}

static void entity(void)
{
    static const char *const known[] = {"&lt;", "&gt;", "&amp;", "&quot;", "&#39;"};
    for (size_t i = 0; i < sizeof known / sizeof known[0]; i++)
        if (strncmp(at, known[i], strlen(known[i])) == 0) {
            at += strlen(known[i]);
            return;
        }
    wrong("a stray &");
}

/* An attribute and its value, which names nothing at another place. */
static void attribute(void)
{
    static const char *const barred[] = {"src", "href", "srcset", "action", "background"};
    char name[MOST_NAME];
    read_name(name);
    for (size_t i = 0; i < sizeof barred / sizeof barred[0]; i++)
        if (strcmp(name, barred[i]) == 0 && strncmp(at, "=\"#", 3) != 0)
            wrong("something from another place");
    if (strncmp(name, "on", 2) == 0)
        wrong("a script");
    expect("=\"");
    while (*at != '"') {
        if (*at == 0 || *at == '<')
            wrong("an attribute without an end");
        if (*at == '&')
            entity();
        else
            at++;
    }
    at++;
}

static void open_element(void)
{
    if (opened == MOST_DEEP)
        wrong("too deep");
    read_name(open_names[opened]);
    if (strcmp(open_names[opened], "script") == 0 || strcmp(open_names[opened], "link") == 0)
        wrong("a script or a link");
    opened++;
    for (blanks(); *at != '>' && *at != '/'; blanks())
        attribute();
    if (*at == '/') {
        at++;
        opened--;
    }
    expect(">");
}

static void close_element(void)
{
    char name[MOST_NAME];
    at++;
    read_name(name);
    if (opened == 0 || strcmp(name, open_names[opened - 1]) != 0)
        wrong("an element that is not open");
    opened--;
    expect(">");
}

static void page(void)
{
    expect("<!DOCTYPE html>\n<");
    open_element();
    while (opened > 0) {
        at += strcspn(at, "<&");
        if (*at == 0)
            wrong("an element without an end");
        if (*at == '&')
            entity();
        else if (*++at == '/')
            close_element();
        else
            open_element();
    }
    blanks();
}

int main(int count, char **words)
{
    text = calloc(MOST_BYTES + 1, 1);
    if (count != 2 || text == NULL || (strcmp(words[1], "json") != 0 && strcmp(words[1], "page") != 0))
        return 2;
    size_t length = fread(text, 1, MOST_BYTES, stdin);
    if (strlen(text) != length)
        return fprintf(stderr, "test-forms: a zero byte\n"), 1;
    check_characters();
    at = text;
    if (strcmp(words[1], "json") == 0)
        json_value(0);
    else
        page();
    if (*at != 0)
        wrong("more than one");
    free(text);
    return 0;
}
