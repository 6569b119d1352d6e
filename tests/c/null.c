/* NULL where the length is 0: each call, with each of its parts empty or not, answers what it answers for a pointer to an
 * empty part, and reads and writes nothing through NULL, which would end the program. Prints what differs; exit status 0 only
 * where nothing does. */
#include <stdio.h>
#include <string.h>

#include "zullifern.h"

#define M "-----BEGIN A-----\nZg==\n-----END A-----\n"
#define LABEL_65 "AAAAAAAAAAAAAAAAAAAAAAAAAAAAAAAAAAAAAAAAAAAAAAAAAAAAAAAAAAAAAAAAA"
#define PART(string) {(const uint8_t *)(string), sizeof(string) - 1}
#define COUNT(list) (sizeof(list) / sizeof(list)[0])

/* How many numbers are lent at most: more than any result here needs. */
#define LENT 64

/* A text, a label or data. */
struct part {
    const uint8_t *bytes;
    size_t length;
};

/* What a call answers and leaves. */
struct answer {
    uint32_t number;
    struct zullifern_report report;
    uint32_t lent[LENT];
};

static uint8_t too_long[ZULLIFERN_TEXT_LIMIT + 1];
static const struct part TEXTS[] = {
    PART(""), PART(M), PART(M M), PART("-----BEGIN ----------END -----"), PART("-----BEGIN A-----\n"), PART("x"),
    {too_long, ZULLIFERN_TEXT_LIMIT + 1},
};
static const struct part LABELS[] = {PART(""), PART("A"), PART("A-"), PART(LABEL_65)};
static const struct part DATA[] = {
    PART(""), PART("f"), PART("data that need a second line: more than forty-eight bytes"), {too_long, ZULLIFERN_DATA_LIMIT + 1},
};
static const size_t ROOMS[] = {0, 1, LENT};

/* What is answered for a pointer to an empty part, and for NULL. */
static struct answer answers[2];
static int failed;

static struct answer *cleared(int null)
{
    return memset(&answers[null], 0xAA, sizeof answers[null]);
}

static const uint8_t *given(const struct part *part, int null)
{
    return null && part->length == 0 ? NULL : part->bytes;
}

static void *lent(struct answer *answer, size_t room, int null)
{
    return null && room == 0 ? NULL : answer->lent;
}

static void same(const char *call, uint32_t choice, size_t room)
{
    if (memcmp(&answers[0], &answers[1], sizeof answers[0]) != 0) {
        printf("%s with %u and the room %zu: NULL is answered otherwise\n", call, (unsigned)choice, room);
        failed = 1;
    }
}

static void reads(const struct part *text, uint32_t grammar, size_t room)
{
    for (int null = 0; null < 2; null++) {
        struct answer *a = cleared(null);
        a->number = zullifern_read(given(text, null), text->length, grammar, lent(a, room, null), room, &a->report);
    }
    same("read", grammar, room);
}

static void labels(const struct part *text, uint32_t grammar)
{
    for (int null = 0; null < 2; null++) {
        struct answer *a = cleared(null);
        a->number = zullifern_label(given(text, null), text->length, grammar, &a->report);
    }
    same("label", grammar, 0);
}

static void indexes(const struct part *text, uint32_t grammar, size_t room)
{
    for (int null = 0; null < 2; null++) {
        struct answer *a = cleared(null);
        a->number = zullifern_index(given(text, null), text->length, grammar, lent(a, room, null), room, &a->report);
    }
    same("index", grammar, room);
}

static void writes(const struct part *label, const struct part *data, uint32_t style, size_t room)
{
    for (int null = 0; null < 2; null++) {
        struct answer *a = cleared(null);
        a->number = zullifern_write(given(label, null), label->length, given(data, null), data->length, style,
                                    lent(a, room, null), room, &a->report);
    }
    same("write", style, room);
}

/* With grammars or styles that are known, 1 to 3, and unknown. */
int main(void)
{
    for (uint32_t choice = 0; choice <= 4; choice++)
        for (size_t r = 0; r < COUNT(ROOMS); r++) {
            for (size_t t = 0; t < COUNT(TEXTS); t++) {
                reads(&TEXTS[t], choice, ROOMS[r]);
                labels(&TEXTS[t], choice);
                indexes(&TEXTS[t], choice, ROOMS[r]);
            }
            for (size_t l = 0; l < COUNT(LABELS); l++)
                for (size_t d = 0; d < COUNT(DATA); d++)
                    writes(&LABELS[l], &DATA[d], choice, ROOMS[r] * sizeof(uint32_t));
        }
    return failed;
}
