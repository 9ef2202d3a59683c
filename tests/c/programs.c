/* Programs in Courier's notation: reads texts, finds what they declare, compares texts of calls and tables, and does all with the k-th growth refused, for every
 * k. Prints how many growths were refused, or ends with 1 at the first difference. */
#include "xns.h"
#include <stdio.h>
#include <stdlib.h>
#include <string.h>

#define CHECK(x) do { if (!(x)) { fprintf(stderr, "programs.c, line %d: %s (growth %ld refused)\n", __LINE__, #x, refuse_at); exit(1); } } while (0)

extern long refuse_at, growths; /* of refuse.c */

static const char shapes[] =
    "Shapes: PROGRAM 4660 VERSION 2 =\nBEGIN\n"
    "  most: CARDINAL = 3;\n  plain: BOOLEAN = TRUE;\n"
    "  Color: TYPE = { red(0), green(7) };\n"
    "  Point: TYPE = RECORD [x, y: INTEGER];\n"
    "  Chain: TYPE = CHOICE OF { nil(0) => RECORD [], next(1) => Chain };\n"
    "  Lost: ERROR [why: STRING, code: UNSPECIFIED] = 9;\n"
    "  Draw: PROCEDURE [points: SEQUENCE most OF Point, color: Color] RETURNS [done: BOOLEAN] REPORTS [Lost] = 5;\n"
    "  Ask: PROCEDURE RETURNS [one: CHOICE Color OF { red => LONG INTEGER, green => ARRAY 2 OF LONG CARDINAL }] = 6;\n"
    "END.\n";
static const char uses[] =
    "Uses: PROGRAM 4661 VERSION 1 =\nBEGIN\n  DEPENDS UPON Shapes (4660) VERSION 2;\n  Paint: PROCEDURE [color: Shapes.Color] = 0;\nEND.\n";

static enum xns_result read_text(struct xns_programs *programs, const char *text, struct xns_notation_fault *fault) {
    return xns_programs_read(programs, (const uint8_t *)text, strlen(text), fault);
}

static enum xns_result find_procedure(struct xns_programs *programs, uint32_t program, uint16_t version, const char *name, uint16_t *number) {
    return xns_programs_find_procedure(programs, program, version, (const uint8_t *)name, strlen(name), number);
}

static enum xns_result find_error(struct xns_programs *programs, uint32_t program, uint16_t version, const char *name, uint16_t *number) {
    return xns_programs_find_error(programs, program, version, (const uint8_t *)name, strlen(name), number);
}

static enum xns_result find(struct xns_programs *programs, const char *name, uint32_t *number, uint16_t *version) {
    return xns_programs_find(programs, (const uint8_t *)name, strlen(name), number, version);
}

/* The text has its first fault there. */
static void is_wrong(struct xns_programs *programs, const char *text, size_t line, size_t column, enum xns_reason reason) {
    struct xns_notation_fault fault;
    memset(&fault, 0xee, sizeof fault);
    CHECK(read_text(programs, text, &fault) == XNS_WRONG_TEXT);
    CHECK(fault.line == line && fault.column == column && fault.reason == (uint32_t)reason);
}

static void faults(struct xns_programs *programs) {
    is_wrong(programs, "", 1, 1, XNS_REASON_NO_NAME);
    is_wrong(programs, "Shapes: PROGRAM\n  x", 2, 3, XNS_REASON_NO_NUMBER);
    is_wrong(programs, "A: PROGRAM 1 VERSION 1 = BEGIN\n  a: TYPE = b;\nEND.", 2, 13, XNS_REASON_UNKNOWN_NAME);
    is_wrong(programs, "A: PROGRAM 1 VERSION 1 = BEGIN a: TYPE = %; END.", 1, 42, XNS_REASON_BAD_BYTE);
    is_wrong(programs, shapes, 1, 1, XNS_REASON_DOUBLED_PROGRAM);
}

/* The text of words, or why there is none and at which word. */
static void is_text(enum xns_result result, enum xns_result wanted, size_t place, size_t wanted_place, const uint8_t *buffer, size_t written, const char *text) {
    CHECK(result == wanted);
    if (result == XNS_OK) CHECK(written == strlen(text) && memcmp(buffer, text, written) == 0);
    else CHECK(place == wanted_place);
}

static void texts(struct xns_programs *programs) {
    static const uint16_t draw[] = { 2, 1, 65535, 3, 4, 7 }, lost[] = { 3, 0x6162, 0x6300, 17 }, ask[] = { 0, 0xffff, 0xfffe }, four[] = { 4, 0, 0, 0, 0, 0, 0, 0, 0, 0 };
    const struct { const char *call; uint16_t number; const uint16_t *words; size_t count; enum xns_result result; size_t place; const char *text; } all[] = {
        { "call", 5, draw, 6, XNS_OK, 0, "Shapes 4660.2 Draw [points: [[x: 1, y: -1], [x: 3, y: 4]], color: green]" },
        { "call", 5, draw, 5, XNS_TRUNCATED, 5, NULL },
        { "call", 5, draw + 1, 5, XNS_NOT_LISTED, 3, NULL },
        { "call", 5, four, 10, XNS_OVER_MAXIMUM, 0, NULL },
        { "call", 6, draw, 0, XNS_OK, 0, "Shapes 4660.2 Ask []" },
        { "call", 6, draw, 1, XNS_LEFT_OVER, 0, NULL },
        { "call", 7, draw, 6, XNS_NOTHING, 77, NULL },
        { "return", 5, draw + 1, 1, XNS_OK, 0, "Draw [done: TRUE]" },
        { "return", 5, draw, 1, XNS_NOT_BOOLEAN, 0, NULL },
        { "return", 6, ask, 3, XNS_OK, 0, "Ask [one: red -2]" },
        { "abort", 9, lost, 4, XNS_OK, 0, "Lost [why: \"abc\", code: 17]" },
        { "abort", 5, lost, 4, XNS_NOTHING, 77, NULL },
    };
    uint8_t buffer[200];
    for (size_t i = 0; i < sizeof all / sizeof all[0]; i++) {
        enum xns_result (*call)(struct xns_programs *, uint32_t, uint16_t, uint16_t, const uint16_t *, size_t, uint8_t *, size_t, size_t *, size_t *) =
            all[i].call[0] == 'c' ? xns_programs_call_text : all[i].call[0] == 'r' ? xns_programs_return_text : xns_programs_abort_text;
        size_t written = 99, place = 77;
        enum xns_result result;
        memset(buffer, 0xee, sizeof buffer);
        result = call(programs, 4660, 2, all[i].number, all[i].words, all[i].count, buffer, sizeof buffer, &written, &place);
        if (result == XNS_NO_MEMORY) {
            CHECK(written == 99 && place == 77 && buffer[0] == 0xee);
            continue;
        }
        is_text(result, all[i].result, place, all[i].place, buffer, written, all[i].text);
        if (result == XNS_OK) {
            const size_t size = written;
            CHECK(place == 77 && buffer[size] == 0xee);
            memset(buffer, 0xee, sizeof buffer);
            result = call(programs, 4660, 2, all[i].number, all[i].words, all[i].count, buffer, size - 1, &written, &place);
            CHECK(buffer[0] == 0xee && (result == XNS_NO_MEMORY || (result == XNS_SHORT_BUFFER && written == size)));
        } else CHECK(written == 99 && buffer[0] == 0xee);
    }
}

/* Where two results hold, the one that the header names first: no such procedure, then want of memory, then what is wrong with the words and a short buffer. */
static void first_results(void) {
    static const uint16_t draw[] = { 2, 1, 65535, 3, 4, 7 };
    struct xns_programs programs = XNS_PROGRAMS_INIT;
    struct xns_notation_fault fault;
    size_t written = 99, place = 77;
    CHECK(read_text(&programs, shapes, &fault) == XNS_OK);
    for (size_t count = 5; count <= 6; count++) {
        growths = 0, refuse_at = 1;
        CHECK(xns_programs_call_text(&programs, 4660, 2, 7, draw, count, NULL, 0, &written, &place) == XNS_NOTHING);
        CHECK(xns_programs_call_text(&programs, 4660, 2, 5, draw, count, NULL, 0, &written, &place) == XNS_NO_MEMORY && written == 99 && place == 77);
        refuse_at = 0;
    }
    xns_programs_free(&programs);
}

static void names(struct xns_programs *programs) {
    uint8_t buffer[16];
    uint32_t number = 1;
    uint16_t version = 1, procedure = 1;
    size_t written = 99;
    CHECK(find(programs, "Uses", &number, &version) == XNS_OK && number == 4661 && version == 1);
    CHECK(find(programs, "uses", &number, &version) == XNS_NOTHING && number == 4661 && version == 1);
    CHECK(find_procedure(programs, 4660, 2, "Ask", &procedure) == XNS_OK && procedure == 6);
    CHECK(find_procedure(programs, 4660, 2, "Lost", &procedure) == XNS_NOTHING && find_procedure(programs, 4660, 1, "Ask", &procedure) == XNS_NOTHING && procedure == 6);
    CHECK(find_error(programs, 4660, 2, "Lost", &procedure) == XNS_OK && procedure == 9 && find_error(programs, 4661, 1, "Lost", &procedure) == XNS_NOTHING);
    memset(buffer, 0xee, sizeof buffer);
    CHECK(xns_programs_name(programs, 4660, 2, buffer, 5, &written) == XNS_SHORT_BUFFER && written == 6 && buffer[0] == 0xee);
    CHECK(xns_programs_name(programs, 4660, 2, buffer, 16, &written) == XNS_OK && written == 6 && memcmp(buffer, "Shapes\xee", 7) == 0);
    CHECK(xns_programs_procedure_name(programs, 4660, 2, 5, buffer, 16, &written) == XNS_OK && written == 4 && memcmp(buffer, "Draw", 4) == 0);
    CHECK(xns_programs_error_name(programs, 4660, 2, 9, buffer, 16, &written) == XNS_OK && written == 4 && memcmp(buffer, "Lost", 4) == 0);
    CHECK(xns_programs_procedure_name(programs, 4660, 2, 9, buffer, 16, &written) == XNS_NOTHING && xns_programs_error_name(programs, 4660, 2, 5, buffer, 16, &written) == XNS_NOTHING);
    CHECK(xns_programs_name(programs, 4660, 1, buffer, 16, &written) == XNS_NOTHING && written == 4);
}

static const struct { enum xns_node_kind kind; uint32_t number; size_t parts; const char *name; } table[] = {
    { XNS_NODE_CONSTANT, 3, 0, "most" },
    { XNS_NODE_ENUMERATION, 0, 2, "Color" }, { XNS_NODE_MEMBER, 0, 0, "red" }, { XNS_NODE_MEMBER, 7, 0, "green" },
    { XNS_NODE_RECORD, 0, 2, "Point" }, { XNS_NODE_INTEGER, 0, 0, "x" }, { XNS_NODE_INTEGER, 0, 0, "y" },
    { XNS_NODE_PROCEDURE, 5, 2, "Draw" }, { XNS_NODE_RECORD, 0, 2, "" }, { XNS_NODE_SEQUENCE, 3, 1, "points" }, { XNS_NODE_RECORD, 0, 2, "" },
    { XNS_NODE_INTEGER, 0, 0, "x" }, { XNS_NODE_INTEGER, 0, 0, "y" }, { XNS_NODE_ENUMERATION, 0, 2, "color" }, { XNS_NODE_MEMBER, 0, 0, "red" },
    { XNS_NODE_MEMBER, 7, 0, "green" }, { XNS_NODE_RECORD, 0, 1, "" }, { XNS_NODE_BOOLEAN, 0, 0, "done" },
    { XNS_NODE_PROCEDURE, 6, 2, "Ask" }, { XNS_NODE_RECORD, 0, 0, "" }, { XNS_NODE_RECORD, 0, 1, "" }, { XNS_NODE_CHOICE, 0, 2, "one" },
    { XNS_NODE_CANDIDATE, 0, 1, "red" }, { XNS_NODE_LONG_INTEGER, 0, 0, "" }, { XNS_NODE_CANDIDATE, 7, 1, "green" }, { XNS_NODE_ARRAY, 2, 1, "" },
    { XNS_NODE_LONG_CARDINAL, 0, 0, "" },
    { XNS_NODE_ERROR, 9, 1, "Lost" }, { XNS_NODE_RECORD, 0, 2, "" }, { XNS_NODE_TEXT, 0, 0, "why" }, { XNS_NODE_UNSPECIFIED, 0, 0, "code" },
};
enum { NODES = sizeof table / sizeof table[0] };

static void tables(struct xns_programs *programs) {
    struct xns_node nodes[NODES + 1];
    uint8_t text[400];
    uint32_t number = 1;
    uint16_t version = 1;
    size_t count = 1, length = 1;
    enum xns_result result;
    memset(nodes, 0xee, sizeof nodes);
    memset(text, 0xee, sizeof text);
    result = xns_programs_table(programs, 0, &number, &version, nodes, NODES - 1, &count, text, sizeof text, &length);
    CHECK(text[0] == 0xee && nodes[0].parts == (size_t)0xeeeeeeeeeeeeeeee && number == 1 && version == 1);
    if (result == XNS_NO_MEMORY) CHECK(count == 1 && length == 1);
    else {
        const size_t size = length;
        CHECK(result == XNS_SHORT_BUFFER && count == NODES && size < sizeof text);
        result = xns_programs_table(programs, 0, &number, &version, nodes, NODES + 1, &count, text, size - 1, &length);
        CHECK(text[0] == 0xee && (result == XNS_NO_MEMORY || (result == XNS_SHORT_BUFFER && length == size && number == 1)));
        result = xns_programs_table(programs, 0, &number, &version, nodes, NODES + 1, &count, text, size, &length);
        CHECK(result == XNS_OK || result == XNS_NO_MEMORY);
        if (result == XNS_OK) {
            CHECK(count == NODES && length == size && number == 4660 && version == 2 && text[length] == 0xee && nodes[NODES].parts == (size_t)0xeeeeeeeeeeeeeeee);
            for (size_t i = 0; i < NODES; i++) {
                CHECK(nodes[i].kind == (uint32_t)table[i].kind && nodes[i].number == table[i].number && nodes[i].parts == table[i].parts);
                CHECK(nodes[i].name < length && strcmp((const char *)text + nodes[i].name, table[i].name) == 0);
            }
        }
    }
    CHECK(xns_programs_table(programs, 2, &number, &version, nodes, NODES, &count, text, sizeof text, &length) == XNS_NOTHING);
}

/* All of it, where growths may be refused: what is not done for want of memory changes nothing, and is done when it is asked again. */
static void all_of_it(void) {
    struct xns_programs programs = XNS_PROGRAMS_INIT;
    struct xns_notation_fault fault;
    uint32_t number;
    uint16_t version;
    memset(&fault, 0xee, sizeof fault);
    for (int i = 0; i < 2; i++) {
        const char *text = i == 0 ? shapes : uses;
        enum xns_result result = read_text(&programs, text, &fault);
        if (result == XNS_NO_MEMORY) {
            CHECK(find(&programs, i == 0 ? "Shapes" : "Uses", &number, &version) == XNS_NOTHING && fault.line == (size_t)0xeeeeeeeeeeeeeeee);
            result = read_text(&programs, text, &fault);
        }
        CHECK(result == XNS_OK);
    }
    names(&programs);
    texts(&programs);
    tables(&programs);
    if (refuse_at == 0) faults(&programs);
    xns_programs_free(&programs);
    CHECK(programs.at == NULL);
    xns_programs_free(&programs);
    xns_programs_free(NULL);
}

/* A handle of no programs finds nothing. */
static void nothing(void) {
    struct xns_programs programs = XNS_PROGRAMS_INIT;
    struct xns_notation_fault fault;
    uint32_t number = 1;
    uint16_t version = 1, procedure = 1;
    size_t written = 1, place = 1;
    CHECK(find(&programs, "Shapes", &number, &version) == XNS_NOTHING && find_procedure(&programs, 4660, 2, "Draw", &procedure) == XNS_NOTHING);
    CHECK(find_error(&programs, 4660, 2, "Lost", &procedure) == XNS_NOTHING && xns_programs_name(&programs, 4660, 2, NULL, 0, &written) == XNS_NOTHING);
    CHECK(xns_programs_procedure_name(&programs, 4660, 2, 5, NULL, 0, &written) == XNS_NOTHING && xns_programs_error_name(&programs, 4660, 2, 9, NULL, 0, &written) == XNS_NOTHING);
    CHECK(xns_programs_call_text(&programs, 4660, 2, 5, NULL, 0, NULL, 0, &written, &place) == XNS_NOTHING);
    CHECK(xns_programs_return_text(&programs, 4660, 2, 5, NULL, 0, NULL, 0, &written, &place) == XNS_NOTHING);
    CHECK(xns_programs_abort_text(&programs, 4660, 2, 9, NULL, 0, NULL, 0, &written, &place) == XNS_NOTHING && written == 1 && place == 1);
    CHECK(xns_programs_table(&programs, 0, &number, &version, NULL, 0, &written, NULL, 0, &place) == XNS_NOTHING && programs.at == NULL);
    CHECK(xns_programs_read(&programs, NULL, 0, &fault) == XNS_WRONG_TEXT && fault.reason == XNS_REASON_NO_NAME && fault.line == 1 && fault.column == 1);
    xns_programs_free(&programs);
}

int main(void) {
    long refused = 0, seen;
    nothing();
    first_results();
    all_of_it();
    do {
        refuse_at = ++refused;
        growths = 0;
        all_of_it();
        seen = growths;
        refuse_at = 0;
    } while (seen >= refused);
    printf("ok, each of %ld growths refused\n", refused - 1);
    return 0;
}
