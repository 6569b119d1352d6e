/*
 * Reads a chain of certificates in PEM form from standard input, and prints what it holds.
 *
 *     bin/archive
 *     gcc -Iinclude examples/c/chain.c target/staticlib/libzullifern.a -o target/chain
 *     target/chain < examples/chain.pem
 *
 * Exit status: 0 where the chain was read, 1 where it was refused, could not be read, or what it holds could not be printed.
 */
#include <stdio.h>
#include <string.h>

#include "zullifern.h"

/* The longest chain that this program takes, in bytes, and what it needs for any chain of this length. */
#define CHAIN_LIMIT 65536
#define TABLE_NUMBERS ZULLIFERN_TABLE_BOUND(CHAIN_LIMIT)

/* One byte more than is taken, so that a longer input is noticed. */
static uint8_t text[CHAIN_LIMIT + 1];
static uint32_t table[TABLE_NUMBERS];
static uint8_t der[ZULLIFERN_READ_BOUND(CHAIN_LIMIT)];

static const char *meaning(uint32_t number)
{
    switch (number) {
    case ZULLIFERN_TEXT_TOO_LONG: return "the text is too long";
    case ZULLIFERN_OPENING: return "the opening boundary is wrong or missing";
    case ZULLIFERN_BODY: return "the text between the boundaries is wrong or cut short";
    case ZULLIFERN_CLOSING: return "the closing boundary, or what follows it, is wrong or missing";
    case ZULLIFERN_LABEL_TOO_LONG: return "the label is too long";
    case ZULLIFERN_LABELS_DIFFER: return "the closing label is not the opening label";
    case ZULLIFERN_COUNTS_DO_NOT_FIT: return "characters and pads are no whole number of bytes";
    case ZULLIFERN_SPARE_BITS: return "spare bits are not zero, which standard and strict refuse";
    default: return "it cannot be read";
    }
}

/* Which line ends a message has: support asks for it first. */
static const char *line_ends(uint64_t style)
{
    switch (style) {
    case ZULLIFERN_NO_LINE_ENDS: return "no line ends";
    case ZULLIFERN_LF: return "LF line ends";
    case ZULLIFERN_CRLF: return "CRLF line ends";
    case ZULLIFERN_CR: return "CR line ends";
    default: return "mixed line ends";
    }
}

static int refused(uint64_t number, uint64_t place)
{
    printf("refused with %u at offset %u: %s\n", (unsigned)number, (unsigned)place, meaning((uint32_t)number));
    return 1;
}

/* Reads the DER of one message and prints a line on it. */
static int show(unsigned k, const struct zullifern_entry *entry)
{
    struct zullifern_report report;
    if (entry->family != ZULLIFERN_CERTIFICATE) {
        printf("%u: not a certificate but %.*s\n", k, (int)entry->label_length, (const char *)text + entry->label_offset);
        return 1;
    }
    if (zullifern_read(text + entry->start, entry->length, ZULLIFERN_LAX, der, sizeof der, &report) != ZULLIFERN_ACCEPTED)
        return refused(report.number, report.place);
    printf("%u: certificate of %u bytes at offset %u, starting %02x %02x, %s\n", k, (unsigned)report.size,
           (unsigned)entry->start, der[0], der[1], line_ends(report.style));
    return 0;
}

int main(void)
{
    struct zullifern_report report;
    struct zullifern_entry entry;
    size_t length = fread(text, 1, sizeof text, stdin);
    int status = 0;

    if (ferror(stdin)) {
        printf("standard input cannot be read\n");
        return 1;
    }
    if (length > CHAIN_LIMIT)
        return refused(ZULLIFERN_TEXT_TOO_LONG, 0);
    if (zullifern_index(text, length, ZULLIFERN_LAX, table, TABLE_NUMBERS, &report) != ZULLIFERN_ACCEPTED)
        return refused(report.number, report.place);
    for (uint32_t k = 0; k < table[0] && status == 0; k++) {
        memcpy(&entry, table + ZULLIFERN_TABLE_SIZE(k), sizeof entry);
        status = show(k + 1, &entry);
    }
    return fflush(stdout) == 0 && !ferror(stdout) ? status : 1;
}
