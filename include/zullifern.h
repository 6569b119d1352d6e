/*
 * Zullifern: reads, indexes and writes RFC 7468 text (PEM).
 *
 * Link with libzullifern.a, which `bin/archive` makes for x86-64 Linux. Every function of the library is proved to
 * meet its contract; the contracts speak of slices, so what a caller has to see to is that
 *
 *   - each pointer points to as many items as the length behind it says; it may be NULL where that is 0, as that of an empty
 *     C++ vector (which is tested and not proved). The report is never NULL;
 *   - an output, a table or a report overlaps nothing else that is passed in the same call.
 *
 * Any bytes, any grammar or style number and any lengths may come in. What a lent output or table holds after a call depends
 * on the input and on its own length alone, never on what it held before: the result and then zeros where the answer is 0,
 * and zeros only where it is not. The calls keep nothing between them and may run in any number of threads at once.
 */
#ifndef ZULLIFERN_H
#define ZULLIFERN_H

#include <stddef.h>
#include <stdint.h>

#ifdef __cplusplus
extern "C" {
#endif

/* Grammars. Each strict text is a standard text, and each standard text a lax one, with the same labels and data. */
enum zullifern_grammar {
    ZULLIFERN_LAX = 1,      /* white around the message and anywhere between the characters of its data; spare bits dropped */
    ZULLIFERN_STANDARD = 2, /* data lines of any length, blanks behind them; the second pad may stand on the next line;
                               spare bits zero */
    ZULLIFERN_STRICT = 3    /* lines of 64 characters but for the last, no blanks, spare bits zero: what is written */
};

/*
 * Styles of line ends: what the read call tells of the message, all of whose line ends count, and of these what the write call
 * takes. CR followed by LF is one line end. VT and FF are none.
 */
enum zullifern_style {
    ZULLIFERN_NO_LINE_ENDS = 0,   /* told only: there are none, which lax alone takes */
    ZULLIFERN_LF = 1,
    ZULLIFERN_CRLF = 2,
    ZULLIFERN_CR = 3,
    ZULLIFERN_MIXED_LINE_ENDS = 4 /* told only: there are some of more than one kind */
};

/*
 * Families of labels, what the read and index calls tell of a message: the nine labels of RFC 7468, figure 4, in its order, and
 * all others. Labels are compared byte for byte, so case counts, and a label that only begins with a known one is another.
 */
enum zullifern_family {
    ZULLIFERN_OTHER_LABEL = 0,           /* any other, the empty one too: so are CRL and CERTIFICATE CHAIN */
    ZULLIFERN_CERTIFICATE = 1,           /* CERTIFICATE, and the older X509 CERTIFICATE and X.509 CERTIFICATE */
    ZULLIFERN_X509_CRL = 2,              /* X509 CRL */
    ZULLIFERN_CERTIFICATE_REQUEST = 3,   /* CERTIFICATE REQUEST, and the older NEW CERTIFICATE REQUEST */
    ZULLIFERN_PKCS7 = 4,                 /* PKCS7 */
    ZULLIFERN_CMS = 5,                   /* CMS */
    ZULLIFERN_PRIVATE_KEY = 6,           /* PRIVATE KEY: PKCS #8, not that of one algorithm as RSA PRIVATE KEY */
    ZULLIFERN_ENCRYPTED_PRIVATE_KEY = 7, /* ENCRYPTED PRIVATE KEY */
    ZULLIFERN_ATTRIBUTE_CERTIFICATE = 8, /* ATTRIBUTE CERTIFICATE */
    ZULLIFERN_PUBLIC_KEY = 9             /* PUBLIC KEY */
};

/*
 * The numbers that a call may answer: that of the first check that fails. Of one message they are checked in the order 1 to 10,
 * by the writer 11 to 14, then 20 and then 10. A bundle is checked by 1 and 2, then its messages from the left, each by 3 to 9
 * before the next, and by 10 last: a fault in the second message is told even where the table has no room for the first, and
 * a 7 in the first comes before a 3 in the second.
 */
enum zullifern_number {
    ZULLIFERN_ACCEPTED = 0,
    ZULLIFERN_UNKNOWN_GRAMMAR = 1,  /* the grammar's number is not 1, 2 or 3 */
    ZULLIFERN_TEXT_TOO_LONG = 2,    /* the text is over ZULLIFERN_TEXT_LIMIT bytes */
    ZULLIFERN_OPENING = 3,          /* it fails in the opening; place: the first byte that cannot stand there, or the end */
    ZULLIFERN_BODY = 4,             /* it fails in the body; place: likewise */
    ZULLIFERN_CLOSING = 5,          /* it fails in or, where one message is read, behind the closing; place: likewise */
    ZULLIFERN_LABEL_TOO_LONG = 6,   /* the opening label is over ZULLIFERN_LABEL_LIMIT bytes; place: its first byte */
    ZULLIFERN_LABELS_DIFFER = 7,    /* the labels differ; place: where the closing label starts */
    ZULLIFERN_COUNTS_DO_NOT_FIT = 8, /* characters and pads are no whole number of bytes; place: the closing */
    ZULLIFERN_SPARE_BITS = 9,       /* standard and strict: spare bits are not zero; place: the last alphabet character */
    ZULLIFERN_NO_ROOM = 10,         /* the lent output or table is too small; the report's size tells what is needed */
    ZULLIFERN_WRITE_LABEL_TOO_LONG = 11, /* the label is over ZULLIFERN_LABEL_LIMIT bytes */
    ZULLIFERN_WRITE_NOT_A_LABEL = 12,    /* it is no label: one is empty, or of 33 to 126 but hyphen, with at most one
                                            hyphen or space between two of these */
    ZULLIFERN_WRITE_NO_DATA = 13,        /* there are no data */
    ZULLIFERN_WRITE_DATA_TOO_LONG = 14,  /* the data are over ZULLIFERN_DATA_LIMIT bytes */
    ZULLIFERN_WRITE_UNKNOWN_STYLE = 20   /* the style's number is not 1, 2 or 3 */
};

/* Limits, in bytes. */
#define ZULLIFERN_TEXT_LIMIT 16777216
#define ZULLIFERN_LABEL_LIMIT 64
#define ZULLIFERN_DATA_LIMIT 8388608

/* How many numbers of a table belong to one message, and how many the table of so many messages has. */
#define ZULLIFERN_ENTRY_NUMBERS 6
#define ZULLIFERN_TABLE_SIZE(count) (1 + ZULLIFERN_ENTRY_NUMBERS * (size_t)(count))

/* The bytes of the shortest message: both boundaries with an empty label and nothing between them, which lax takes. */
#define ZULLIFERN_MESSAGE_LEAST 30

/* How many lines the text has that is written of data of this length: those of the data, and the two boundaries. */
#define ZULLIFERN_WRITTEN_LINES(data_length) (2 + ((size_t)(data_length) + 47) / 48)

/* How many bytes it has under a label of this length, both within their limits, with line ends of this style. */
#define ZULLIFERN_WRITTEN_SIZE(label_length, data_length, style)                                                          \
    (ZULLIFERN_MESSAGE_LEAST + 2 * (size_t)(label_length) + 4 * (((size_t)(data_length) + 2) / 3)                         \
     + ((style) == ZULLIFERN_CRLF ? 2 : 1) * ZULLIFERN_WRITTEN_LINES(data_length))

/* Room for the data of any text of this length: four characters give three bytes. */
#define ZULLIFERN_READ_BOUND(text_length) ((size_t)(text_length) / 4 * 3)

/* Room for the table of any text of this length, in numbers. */
#define ZULLIFERN_TABLE_BOUND(text_length) ZULLIFERN_TABLE_SIZE((size_t)(text_length) / ZULLIFERN_MESSAGE_LEAST)

/*
 * The same at the limits: room for the data of any text, 12,582,912 bytes, for any text that is written, 11,534,500 bytes (at
 * most 11,359,735 with LF or CR), and for any table, 3,355,441 numbers (of 559,240 messages). Buffers of these sizes belong on
 * no stack. Each call writes the whole of what it is lent, so rather lend what your own input needs, by the above.
 */
#define ZULLIFERN_READ_LIMIT ZULLIFERN_READ_BOUND(ZULLIFERN_TEXT_LIMIT)
#define ZULLIFERN_WRITTEN_LIMIT ZULLIFERN_WRITTEN_SIZE(ZULLIFERN_LABEL_LIMIT, ZULLIFERN_DATA_LIMIT, ZULLIFERN_CRLF)
#define ZULLIFERN_TABLE_LIMIT ZULLIFERN_TABLE_BOUND(ZULLIFERN_TEXT_LIMIT)

/* What a call tells of its answer: eight numbers, all of which each call sets. */
struct zullifern_report {
    uint64_t number;       /* what the call itself answers too */
    uint64_t place;        /* an offset in the text for the numbers 3 to 9, else 0 */
    uint64_t size;         /* what the result needs for 0 and 10, else 0: bytes, or numbers of the table */
    uint64_t label_offset; /* read and label: where the opening label, even an empty one, starts in the text: 11 or later */
    uint64_t label_length; /* read and label: its length; both are 0 unless the text passed the checks 1 to 9 */
    uint64_t family;       /* read: a zullifern_family, 0 unless the number is 0 or 10 */
    uint64_t style;        /* read: a zullifern_style, 0 unless the number is 0 */
    uint64_t reserved7;    /* 0 */
};

/* The numbers of a table that belong to one message; offsets are those in the bundle. The first entry is at table + 1. */
struct zullifern_entry {
    uint32_t start;
    uint32_t length;
    uint32_t label_offset;
    uint32_t label_length;
    uint32_t data_size;
    uint32_t family; /* a zullifern_family */
};

/*
 * Reads one message that fills the whole text, and answers 0 to 10. After 0 the data are the first report->size bytes of out,
 * the label is the part of the text that the report tells, report->family is its family, and report->style is which line ends
 * the text has. After 10 label and family are told too.
 */
uint32_t zullifern_read(const uint8_t *text, size_t text_length, uint32_t grammar, uint8_t *out, size_t out_length,
                        struct zullifern_report *report);

/*
 * Reports which part of the text is the opening label of the one message that fills it, and nothing else. It answers 0 always:
 * where one of the checks 1 to 9 refuses the text, offset and length are 0. The length is 0 for an empty label too, but its
 * offset is not, since `-----BEGIN ` stands before it. Which check has refused the text is told by the read call.
 */
uint32_t zullifern_label(const uint8_t *text, size_t text_length, uint32_t grammar, struct zullifern_report *report);

/*
 * Indexes a bundle, zero or more messages end to end that fill the text, and answers 0 to 10. After 0 the table holds the
 * count and then a zullifern_entry for each message. Places are offsets in the whole bundle. Behind a whole message, a byte that
 * cannot belong to it is one of the next opening, and refused with 3.
 */
uint32_t zullifern_index(const uint8_t *text, size_t text_length, uint32_t grammar, uint32_t *table, size_t table_length,
                         struct zullifern_report *report);

/*
 * Writes a label and data as strict text with line ends of the style, and answers 0, 10 to 14 or 20. After 0 the text is the
 * first report->size bytes of out; no zero byte is put behind it where it fills the output.
 */
uint32_t zullifern_write(const uint8_t *label, size_t label_length, const uint8_t *data, size_t data_length, uint32_t style,
                         uint8_t *out, size_t out_length, struct zullifern_report *report);

#ifdef __cplusplus
}
#endif

#endif
