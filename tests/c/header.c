/* The header against the library: each number that it names is given for the input that it is named for, its sizes are the
 * library's, and its structs lie over what the calls fill. Prints what fails; exit status 0 only where nothing does. */
#include <assert.h>
#include <stdio.h>
#include <string.h>

#include "zullifern.h"

#define M_WITH(end) "-----BEGIN A-----" end "Zg==" end "-----END A-----" end
#define M M_WITH("\n")
#define OPENING "-----BEGIN -----"
#define CLOSING "-----END -----"
#define SHORTEST OPENING CLOSING
#define LABEL_65 "AAAAAAAAAAAAAAAAAAAAAAAAAAAAAAAAAAAAAAAAAAAAAAAAAAAAAAAAAAAAAAAAA"

/* The most groups of four characters, and the most messages, that a text within its limit has. */
#define MOST_GROUPS ((ZULLIFERN_TEXT_LIMIT - ZULLIFERN_MESSAGE_LEAST) / 4)
#define MOST_MESSAGES 559240

static_assert(sizeof(struct zullifern_report) == 8 * sizeof(uint64_t), "a report is eight numbers");
static_assert(sizeof(struct zullifern_entry) == ZULLIFERN_ENTRY_NUMBERS * sizeof(uint32_t), "an entry is six numbers");
static_assert(ZULLIFERN_TEXT_LIMIT == 16777216 && ZULLIFERN_DATA_LIMIT == 8388608, "limits of what comes in");
static_assert(offsetof(struct zullifern_report, family) == 5 * sizeof(uint64_t), "the family is the report's sixth number");
static_assert(offsetof(struct zullifern_entry, family) == 5 * sizeof(uint32_t), "the family is an entry's sixth number");
static_assert(offsetof(struct zullifern_report, style) == 6 * sizeof(uint64_t), "the style is the report's seventh number");
static_assert(ZULLIFERN_READ_LIMIT == 12582912 && ZULLIFERN_WRITTEN_LIMIT == 11534500, "limits of what is lent");
static_assert(ZULLIFERN_WRITTEN_SIZE(64, ZULLIFERN_DATA_LIMIT, ZULLIFERN_LF) == 11359735, "the largest text with LF");
static_assert(ZULLIFERN_WRITTEN_SIZE(64, ZULLIFERN_DATA_LIMIT, ZULLIFERN_CR) == 11359735, "the largest text with CR");
static_assert(ZULLIFERN_TABLE_LIMIT == 3355441 && ZULLIFERN_TABLE_SIZE(MOST_MESSAGES) == 3355441, "the largest table");
static_assert(sizeof SHORTEST - 1 == ZULLIFERN_MESSAGE_LEAST, "the shortest message");

/* Labels, and which family each is of: those that RFC 7468 has, older ones, and others. */
static const struct {
    const char *label;
    enum zullifern_family family;
} LABELS[] = {
    {"CERTIFICATE", ZULLIFERN_CERTIFICATE},
    {"X509 CRL", ZULLIFERN_X509_CRL},
    {"CERTIFICATE REQUEST", ZULLIFERN_CERTIFICATE_REQUEST},
    {"PKCS7", ZULLIFERN_PKCS7},
    {"CMS", ZULLIFERN_CMS},
    {"PRIVATE KEY", ZULLIFERN_PRIVATE_KEY},
    {"ENCRYPTED PRIVATE KEY", ZULLIFERN_ENCRYPTED_PRIVATE_KEY},
    {"ATTRIBUTE CERTIFICATE", ZULLIFERN_ATTRIBUTE_CERTIFICATE},
    {"PUBLIC KEY", ZULLIFERN_PUBLIC_KEY},
    {"X509 CERTIFICATE", ZULLIFERN_CERTIFICATE},
    {"X.509 CERTIFICATE", ZULLIFERN_CERTIFICATE},
    {"NEW CERTIFICATE REQUEST", ZULLIFERN_CERTIFICATE_REQUEST},
    {"", ZULLIFERN_OTHER_LABEL},
    {"CRL", ZULLIFERN_OTHER_LABEL},
    {"CERTIFICATE CHAIN", ZULLIFERN_OTHER_LABEL},
    {"RSA PRIVATE KEY", ZULLIFERN_OTHER_LABEL},
    {"certificate", ZULLIFERN_OTHER_LABEL},
    {"CERTIFICATES", ZULLIFERN_OTHER_LABEL},
    {"CM", ZULLIFERN_OTHER_LABEL},
};
#define LABEL_COUNT (sizeof LABELS / sizeof LABELS[0])

static uint8_t text[ZULLIFERN_TEXT_LIMIT + 1];
static uint8_t out[ZULLIFERN_READ_LIMIT];
static uint32_t table[ZULLIFERN_TABLE_LIMIT];
static uint8_t data[ZULLIFERN_DATA_LIMIT + 1];
static int failed;

static void same(const char *what, uint64_t found, uint64_t expected)
{
    if (found != expected) {
        printf("%s: %llu, not %llu\n", what, (unsigned long long)found, (unsigned long long)expected);
        failed = 1;
    }
}

/* Reads with enough room, or with none, and looks at all of the report but the size and the label, which is in no family. */
static void reads_as(const char *given, uint32_t grammar, size_t room, uint32_t number, uint64_t place, uint64_t style)
{
    struct zullifern_report report;
    memset(&report, 0xAA, sizeof report);
    same(given, zullifern_read((const uint8_t *)given, strlen(given), grammar, out, room, &report), number);
    same("the report's number", report.number, number);
    same("the report's place", report.place, place);
    same("the report's style", report.style, style);
    same("the report's family and its reserved number", report.family | report.reserved7, 0);
}

/* The same for texts whose line ends are LF. On a refusal no style is told. */
static void reads(const char *given, uint32_t grammar, size_t room, uint32_t number, uint64_t place)
{
    reads_as(given, grammar, room, number, place, number == ZULLIFERN_ACCEPTED ? ZULLIFERN_LF : 0);
}

static void writes(const char *label, size_t size, uint32_t style, size_t room, uint32_t number)
{
    struct zullifern_report report;
    size_t length = strlen(label);
    memset(&report, 0xAA, sizeof report);
    same(label, zullifern_write((const uint8_t *)label, length, data, size, style, out, room, &report), number);
    same("the report's place and its last numbers", report.place | report.family | report.style | report.reserved7, 0);
    if (number == ZULLIFERN_ACCEPTED || number == ZULLIFERN_NO_ROOM)
        same("the written size", report.size, ZULLIFERN_WRITTEN_SIZE(length, size, style));
}

static void numbers_of_read(void)
{
    reads(M, ZULLIFERN_STRICT, 1, ZULLIFERN_ACCEPTED, 0);
    reads(M, 4, 1, ZULLIFERN_UNKNOWN_GRAMMAR, 0);
    reads("-----begin", ZULLIFERN_LAX, 1, ZULLIFERN_OPENING, 5);
    reads("-----BEGIN A-----\nZm 9v\n", ZULLIFERN_STANDARD, 9, ZULLIFERN_BODY, 21);
    reads("-----BEGIN A-----\nZg=\n=\n-----END A-----\n", ZULLIFERN_STANDARD, 1, ZULLIFERN_ACCEPTED, 0);
    reads("-----BEGIN A-----\nZg=\n=\n-----END A-----\n", ZULLIFERN_STRICT, 1, ZULLIFERN_BODY, 21);
    reads(M "x", ZULLIFERN_LAX, 1, ZULLIFERN_CLOSING, 39);
    reads("-----BEGIN " LABEL_65 "----------END -----", ZULLIFERN_LAX, 1, ZULLIFERN_LABEL_TOO_LONG, 11);
    reads("-----BEGIN A-----\nZg==\n-----END B-----\n", ZULLIFERN_STRICT, 1, ZULLIFERN_LABELS_DIFFER, 32);
    reads("-----BEGIN A-----\nZg=\n-----END A-----\n", ZULLIFERN_LAX, 1, ZULLIFERN_COUNTS_DO_NOT_FIT, 22);
    reads("-----BEGIN A-----\nZh==\n-----END A-----\n", ZULLIFERN_STRICT, 1, ZULLIFERN_SPARE_BITS, 19);
    reads("-----BEGIN A-----\nZh==\n-----END A-----\n", ZULLIFERN_STANDARD, 1, ZULLIFERN_SPARE_BITS, 19);
    reads("-----BEGIN A-----\nZh=\n=\n-----END A-----\n", ZULLIFERN_STANDARD, 1, ZULLIFERN_SPARE_BITS, 19);
    reads("-----BEGIN A-----\nZh==\n-----END A-----\n", ZULLIFERN_LAX, 1, ZULLIFERN_ACCEPTED, 0);
    reads(M, ZULLIFERN_LAX, 0, ZULLIFERN_NO_ROOM, 0);
}

static void styles_of_read(void)
{
    reads_as(SHORTEST, ZULLIFERN_LAX, 0, ZULLIFERN_ACCEPTED, 0, ZULLIFERN_NO_LINE_ENDS);
    reads_as(SHORTEST "\v\f ", ZULLIFERN_LAX, 0, ZULLIFERN_ACCEPTED, 0, ZULLIFERN_NO_LINE_ENDS);
    reads_as(M_WITH("\n"), ZULLIFERN_STRICT, 1, ZULLIFERN_ACCEPTED, 0, ZULLIFERN_LF);
    reads_as(M_WITH("\r\n"), ZULLIFERN_STRICT, 1, ZULLIFERN_ACCEPTED, 0, ZULLIFERN_CRLF);
    reads_as(M_WITH("\r"), ZULLIFERN_STRICT, 1, ZULLIFERN_ACCEPTED, 0, ZULLIFERN_CR);
    reads_as(M_WITH("\r") "\n", ZULLIFERN_STRICT, 1, ZULLIFERN_ACCEPTED, 0, ZULLIFERN_MIXED_LINE_ENDS);
    reads_as(M_WITH("\r\n"), ZULLIFERN_STRICT, 0, ZULLIFERN_NO_ROOM, 0, 0);
}

/* Puts a message under these labels, and gives its length. */
static size_t put(uint8_t *at, const char *opening, const char *closing)
{
    return (size_t)sprintf((char *)at, "-----BEGIN %s-----\nZg==\n-----END %s-----\n", opening, closing);
}

static void tells_family(size_t length, uint32_t grammar, size_t room, uint32_t number, uint64_t family)
{
    struct zullifern_report report;
    memset(&report, 0xAA, sizeof report);
    same("a labelled message", zullifern_read(text, length, grammar, out, room, &report), number);
    same("its family", report.family, family);
}

/* It is told with too little room as well, and on no other refusal. Labels of one family differ all the same. */
static void families_of_read(void)
{
    for (size_t k = 0; k < LABEL_COUNT; k++)
        for (uint32_t grammar = ZULLIFERN_LAX; grammar <= ZULLIFERN_STRICT; grammar++) {
            size_t length = put(text, LABELS[k].label, LABELS[k].label);
            tells_family(length, grammar, 1, ZULLIFERN_ACCEPTED, LABELS[k].family);
            tells_family(length, grammar, 0, ZULLIFERN_NO_ROOM, LABELS[k].family);
            tells_family(length, 0, 1, ZULLIFERN_UNKNOWN_GRAMMAR, 0);
            tells_family(length - 6, grammar, 1, ZULLIFERN_CLOSING, 0);
            length = put(text, LABELS[k].label, LABELS[(k + 9) % LABEL_COUNT].label);
            tells_family(length, grammar, 1, ZULLIFERN_LABELS_DIFFER, 0);
        }
}

static void families_of_index(void)
{
    struct zullifern_report report;
    struct zullifern_entry entry;
    size_t length = 0;
    for (size_t k = 0; k < LABEL_COUNT; k++)
        length += put(text + length, LABELS[k].label, LABELS[k].label);
    memset(&report, 0xAA, sizeof report);
    same("a bundle of all labels",
         zullifern_index(text, length, ZULLIFERN_STRICT, table, ZULLIFERN_TABLE_SIZE(LABEL_COUNT), &report), 0);
    same("its report's family", report.family, 0);
    for (size_t k = 0; k < LABEL_COUNT; k++) {
        memcpy(&entry, table + ZULLIFERN_TABLE_SIZE(k), sizeof entry);
        same(LABELS[k].label, entry.family, LABELS[k].family);
        same("its label's length", entry.label_length, strlen(LABELS[k].label));
    }
}

static void label_is(const char *opening, const char *closing, uint64_t offset, uint64_t length)
{
    struct zullifern_report report;
    memset(&report, 0xAA, sizeof report);
    same("the label call", zullifern_label(text, put(text, opening, closing), ZULLIFERN_STRICT, &report), 0);
    same("the label's offset", report.label_offset, offset);
    same("the label's length", report.label_length, length);
    same("its report's other numbers",
         report.number | report.place | report.size | report.family | report.style | report.reserved7, 0);
}

/* The offset tells an empty label from a refusal. */
static void label_call(void)
{
    label_is("CMS", "CMS", 11, 3);
    label_is("", "", 11, 0);
    label_is("", "CMS", 0, 0);
    label_is("CMS", "", 0, 0);
}

static void index_call(void)
{
    struct zullifern_report report;
    struct zullifern_entry entry;
    uint8_t *end = text;
    memset(&report, 0xAA, sizeof report);
    for (int k = 0; k < 2; k++)
        end = (uint8_t *)memcpy(end, M, strlen(M)) + strlen(M);
    same("the index call",
         zullifern_index(text, (size_t)(end - text), ZULLIFERN_STRICT, table, ZULLIFERN_TABLE_SIZE(2), &report), 0);
    same("the table's size", report.size, ZULLIFERN_TABLE_SIZE(2));
    same("its report's last numbers", report.family | report.style | report.reserved7, 0);
    same("the count", table[0], 2);
    memcpy(&entry, table + ZULLIFERN_TABLE_SIZE(1), sizeof entry);
    same("the second start", entry.start, 39);
    same("its length", entry.length, 39);
    same("its label's offset", entry.label_offset, 50);
    same("its label's length", entry.label_length, 1);
    same("its data size", entry.data_size, 1);
    same("its family", entry.family, ZULLIFERN_OTHER_LABEL);
}

static void bundle_is_refused(const char *given, uint32_t number, uint64_t place)
{
    struct zullifern_report report;
    for (size_t room = 0; room <= ZULLIFERN_TABLE_SIZE(2); room++) {
        same(given, zullifern_index((const uint8_t *)given, strlen(given), ZULLIFERN_LAX, table, room, &report), number);
        same("its place", report.place, place);
    }
}

/* Messages are judged from the left, each by all of its checks before the next, and the room of the table last. */
static void order_of_index(void)
{
    bundle_is_refused(M "-----BEGIN A-----\nZg=\n-----END A-----\n", ZULLIFERN_COUNTS_DO_NOT_FIT, 61);
    bundle_is_refused(M "x", ZULLIFERN_OPENING, 39);
    bundle_is_refused("-----BEGIN A-----\nZg==\n-----END B-----\nx", ZULLIFERN_LABELS_DIFFER, 32);
}

static void numbers_of_write(void)
{
    writes(LABEL_65, 1, ZULLIFERN_LF, sizeof out, ZULLIFERN_WRITE_LABEL_TOO_LONG);
    writes("A-", 1, ZULLIFERN_LF, sizeof out, ZULLIFERN_WRITE_NOT_A_LABEL);
    writes("A", 0, ZULLIFERN_LF, sizeof out, ZULLIFERN_WRITE_NO_DATA);
    for (uint32_t style = ZULLIFERN_LF; style <= ZULLIFERN_CR; style++)
        for (size_t size = 1; size <= 200; size++)
            writes("RSA PRIVATE KEY", size, style, ZULLIFERN_WRITTEN_SIZE(15, size, style) - size % 2,
                   size % 2 ? ZULLIFERN_NO_ROOM : ZULLIFERN_ACCEPTED);
}

/* It is refused behind all that is wrong with the label and the data, and before the room. */
static void unknown_style(uint32_t style)
{
    writes("A", 1, style, sizeof out, ZULLIFERN_WRITE_UNKNOWN_STYLE);
    writes("A", 1, style, 0, ZULLIFERN_WRITE_UNKNOWN_STYLE);
    writes("A", 0, style, 0, ZULLIFERN_WRITE_NO_DATA);
    writes("A", sizeof data, style, 0, ZULLIFERN_WRITE_DATA_TOO_LONG);
}

static void written_text(uint32_t style, const char *expected)
{
    struct zullifern_report report;
    size_t size = strlen(expected);
    memset(out, 0xAA, size);
    same("the write call", zullifern_write((const uint8_t *)"A", 1, (const uint8_t *)"f", 1, style, out, size, &report), 0);
    same("the written text", memcmp(out, expected, size) == 0, 1);
}

static void styles_of_write(void)
{
    written_text(ZULLIFERN_LF, M_WITH("\n"));
    written_text(ZULLIFERN_CRLF, M_WITH("\r\n"));
    written_text(ZULLIFERN_CR, M_WITH("\r"));
    unknown_style(ZULLIFERN_NO_LINE_ENDS);
    unknown_style(ZULLIFERN_MIXED_LINE_ENDS);
    unknown_style(257);
    unknown_style(UINT32_MAX);
}

static void data_at_the_limit(void)
{
    const char *label = &LABEL_65[1];
    writes("A", sizeof data, ZULLIFERN_LF, 1, ZULLIFERN_WRITE_DATA_TOO_LONG);
    writes(label, ZULLIFERN_DATA_LIMIT, ZULLIFERN_CRLF, ZULLIFERN_WRITTEN_LIMIT - 1, ZULLIFERN_NO_ROOM);
    writes(label, ZULLIFERN_DATA_LIMIT, ZULLIFERN_CRLF, ZULLIFERN_WRITTEN_LIMIT, ZULLIFERN_ACCEPTED);
    writes(label, ZULLIFERN_DATA_LIMIT, ZULLIFERN_LF, ZULLIFERN_WRITTEN_LIMIT, ZULLIFERN_ACCEPTED);
}

/* The most data that a text can hold, which white behind it brings to the limit. */
static void text_at_the_limit(void)
{
    struct zullifern_report report;
    memset(text, ' ', sizeof text);
    memset(text, 'A', sizeof OPENING - 1 + 4 * MOST_GROUPS);
    memcpy(text, OPENING, sizeof OPENING - 1);
    memcpy(text + sizeof OPENING - 1 + 4 * MOST_GROUPS, CLOSING, sizeof CLOSING - 1);
    same("a long text", zullifern_read(text, sizeof text, ZULLIFERN_LAX, out, 1, &report), ZULLIFERN_TEXT_TOO_LONG);
    same("a text at the limit",
         zullifern_read(text, ZULLIFERN_TEXT_LIMIT, ZULLIFERN_LAX, out, ZULLIFERN_READ_LIMIT, &report), ZULLIFERN_ACCEPTED);
    same("the most data", report.size, 3 * MOST_GROUPS);
}

static void indexes(size_t length, size_t room, uint32_t number, uint64_t size)
{
    struct zullifern_report report;
    same("the most messages", zullifern_index(text, length, ZULLIFERN_LAX, table, room, &report), number);
    same("the size of their table", report.size, size);
}

/* The most messages that a text can hold, which white behind them brings to the limit. */
static void table_at_the_limit(void)
{
    memset(text, ' ', sizeof text);
    for (size_t k = 0; k < MOST_MESSAGES; k++)
        memcpy(text + k * strlen(SHORTEST), SHORTEST, strlen(SHORTEST));
    indexes(sizeof text, ZULLIFERN_TABLE_LIMIT, ZULLIFERN_TEXT_TOO_LONG, 0);
    indexes(ZULLIFERN_TEXT_LIMIT, ZULLIFERN_TABLE_LIMIT - 1, ZULLIFERN_NO_ROOM, ZULLIFERN_TABLE_LIMIT);
    indexes(ZULLIFERN_TEXT_LIMIT, ZULLIFERN_TABLE_LIMIT, ZULLIFERN_ACCEPTED, ZULLIFERN_TABLE_LIMIT);
    same("their count", table[0], MOST_MESSAGES);
}

int main(void)
{
    numbers_of_read();
    styles_of_read();
    families_of_read();
    label_call();
    index_call();
    order_of_index();
    families_of_index();
    numbers_of_write();
    styles_of_write();
    data_at_the_limit();
    text_at_the_limit();
    table_at_the_limit();
    return failed;
}
