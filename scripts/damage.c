/* Damages inputs, by bytes and by what they mean: lines, numbers, texts, groups in brackets, items and words. */
#include "damage.h"

#include <string.h>

/* The random numbers of a seed, one after the other. */
static uint64_t state;

void seed(uint64_t number) {
    state = number;
}

uint64_t draw(uint64_t below) {
    state += 0x9e3779b97f4a7c15u;
    uint64_t mixed = state;
    mixed = (mixed ^ (mixed >> 30)) * 0xbf58476d1ce4e5b9u;
    mixed = (mixed ^ (mixed >> 27)) * 0x94d049bb133111ebu;
    return (mixed ^ (mixed >> 31)) % below;
}

/* The beginning of names of 240 letters. */
#define SHARED_40 "xxxxxxxxxxxxxxxxxxxxxxxxxxxxxxxxxxxxxxxx"
#define SHARED SHARED_40 SHARED_40 SHARED_40 SHARED_40 SHARED_40 SHARED_40

/* What is put into inputs. */
static const char *const scraps[] = {"\xff",
                                     "\xc3",
                                     "\xed\xa0\x80",
                                     "\xef\xbb\xbf",
                                     "\r\n",
                                     "\r",
                                     "\n\n",
                                     "\n",
                                     "\t",
                                     " ",
                                     "[",
                                     "]",
                                     "{",
                                     "}",
                                     "[[",
                                     "]]",
                                     "\"",
                                     "'",
                                     "'''",
                                     "\"\"\"",
                                     "#",
                                     "=",
                                     ",",
                                     ":",
                                     "|",
                                     "/",
                                     "-",
                                     "+",
                                     ".",
                                     "\\",
                                     "\\ud800",
                                     "\\u0000",
                                     "\\x00",
                                     "1e400",
                                     "1.5",
                                     "0.0",
                                     "-1",
                                     "0",
                                     "1",
                                     "2",
                                     "99",
                                     "255",
                                     "256",
                                     "1000000000000",
                                     "1000000000001",
                                     "10000000000001",
                                     "9223372036854775807",
                                     "9223372036854775808",
                                     "18446744073709551616",
                                     "4294967296",
                                     "0x7f",
                                     "nan",
                                     "inf",
                                     "true",
                                     "null",
                                     "??",
                                     "????",
                                     "AhAh",
                                     "2c",
                                     "d dh p1 ",
                                     "d db ",
                                     "p1 ",
                                     "p2 ",
                                     "p10 ",
                                     " f",
                                     " cc",
                                     " cbr ",
                                     " pb",
                                     " sd ",
                                     " sm ",
                                     "'p1 f', ",
                                     "'', ",
                                     "[1]\n",
                                     "[2]\n",
                                     "[_x]\n",
                                     "[a.b.c]\n",
                                     "_x = ",
                                     "_rakes = [1]\n",
                                     "variant = 'NT'\n",
                                     "'FT'",
                                     "'F7S'",
                                     "'N2L1D'",
                                     "STATE:",
                                     "SCORE:",
                                     "GAMEDEF\n",
                                     "END GAMEDEF\n",
                                     "limit\n",
                                     "maxRaises = 1 1 1 1\n",
                                     "r100",
                                     "r",
                                     "c",
                                     "f",
                                     "cccc",
                                     "//",
                                     "\"ohh\":",
                                     "{\"ohh\":{",
                                     "}}",
                                     "\"amount\":",
                                     "\"action\":\"Fold\"",
                                     "\"Raise\"",
                                     "\"player_id\":2",
                                     "\"cards\":[\"2c\"]",
                                     "{\"action\":\"Sits Down\",\"player_id\":1},",
                                     SHARED,
                                     SHARED "a",
                                     "_" SHARED "=1\n",
                                     "[_" SHARED "]\n",
                                     "[_" SHARED "." SHARED "]\n",
                                     "\"" SHARED "\":1,",
                                     "\"name\":\"" SHARED "\","};

static void replace(struct bytes *text, size_t from, size_t to, const unsigned char *with, size_t size) {
    if (text->size - (to - from) + size > MOST) return;
    memmove(text->at + from + size, text->at + to, text->size - to);
    memcpy(text->at + from, with, size);
    text->size = text->size - (to - from) + size;
}

/* Changes bytes, whatever they mean. */
static void damage_bytes(struct bytes *text, struct bytes other) {
    static unsigned char part[MOST];
    size_t from = draw(text->size + 1), to = from + draw(text->size - from < 40 ? text->size - from + 1 : 40);
    size_t other_from = draw(other.size + 1),
           size = draw(other.size - other_from < 200 ? other.size - other_from + 1 : 200);
    unsigned char byte = draw(256);
    const char *scrap;
    switch (draw(12)) {
    case 0:
        if (from < text->size) text->at[from] = byte;
        break;
    case 1:
        if (from < text->size) text->at[from] ^= 1 << draw(8);
        break;
    case 2: replace(text, from, to, NULL, 0); break;
    case 3: text->size = from; break;
    case 4: replace(text, from, from, &byte, 1); break;
    case 5:
    case 6:
        scrap = scraps[draw(sizeof scraps / sizeof *scraps)];
        replace(text, from, draw(2) ? from : to, (const unsigned char *)scrap, strlen(scrap));
        break;
    case 7:
        memcpy(part, text->at + from, to - from);
        replace(text, from, from, part, to - from);
        break;
    case 8: replace(text, from, to, other.at + other_from, size); break;
    case 9: /* a number becomes another */
        while (from < text->size && (text->at[from] < '0' || text->at[from] > '9'))
            from++;
        for (to = from; to < text->size && text->at[to] >= '0' && text->at[to] <= '9';)
            to++;
        scrap = scraps[33 + draw(20)];
        replace(text, from, to, (const unsigned char *)scrap, strlen(scrap));
        break;
    case 10: /* a part many times */
        memcpy(part, text->at + from, to - from);
        for (uint64_t times = draw(draw(8) ? 8 : 2000); times > 0; times--)
            replace(text, from, from, part, to - from);
        break;
    default: /* a line or an item goes elsewhere */
        memcpy(part, text->at + from, to - from);
        size = to - from;
        replace(text, from, to, NULL, 0);
        from = draw(text->size + 1);
        replace(text, from, from, part, size);
    }
}

/* What an input has as a whole: a line, a number, a text in quotes, a group in brackets, an item between separators, a word. */
enum kind { LINE, NUMBER, TEXT, GROUP, ITEM, WORD, KINDS };

struct part {
    size_t from, to;
};

static int is_digit(unsigned char byte) {
    return byte >= '0' && byte <= '9';
}

static int is_of_word(unsigned char byte) {
    return is_digit(byte) || (byte >= 'a' && byte <= 'z') || (byte >= 'A' && byte <= 'Z') || byte == '_' || byte == '?';
}

static int separates(unsigned char byte) {
    return byte != 0 && strchr(",|:/=\n[]{}", byte) != NULL;
}

/* The end of the group that begins at a bracket, or 0. */
static size_t group_end(struct bytes text, size_t from) {
    int depth = 0;
    for (size_t i = from; i < text.size; i++) {
        if (text.at[i] == '[' || text.at[i] == '{') depth++;
        if ((text.at[i] == ']' || text.at[i] == '}') && --depth == 0) return i + 1;
    }
    return 0;
}

/* The part of a kind that a place is in, or the first one after it. */
static int part_after(struct bytes text, size_t place, enum kind kind, struct part *part) {
    size_t from = place, to;
    if (kind == LINE || kind == ITEM) {
        while (from > 0 && !(kind == LINE ? text.at[from - 1] == '\n' : separates(text.at[from - 1])))
            from--;
        for (to = from; to < text.size && !(kind == LINE ? text.at[to] == '\n' : separates(text.at[to]));)
            to++;
        if (kind == LINE && to < text.size) to++;
    } else if (kind == NUMBER || kind == WORD) {
        while (from < text.size && !(kind == NUMBER ? is_digit(text.at[from]) : is_of_word(text.at[from])))
            from++;
        for (to = from; to < text.size && (kind == NUMBER ? is_digit(text.at[to]) : is_of_word(text.at[to]));)
            to++;
    } else if (kind == TEXT) {
        while (from < text.size && text.at[from] != '"' && text.at[from] != '\'')
            from++;
        const unsigned char *end =
            from < text.size ? memchr(text.at + from + 1, text.at[from], text.size - from - 1) : NULL;
        to = end == NULL ? from : (size_t)(end - text.at) + 1;
    } else {
        while (from < text.size && text.at[from] != '[' && text.at[from] != '{')
            from++;
        to = group_end(text, from);
    }
    *part = (struct part){from, to};
    return to > from;
}

/* A part of a kind, found from a random place on. */
static int draw_part(struct bytes text, enum kind kind, struct part *part) {
    size_t place = draw(text.size + 1);
    return part_after(text, place, kind, part) || part_after(text, 0, kind, part);
}

/* Two parts of a text change places. */
static void swap(struct bytes *text, struct part one, struct part other) {
    static unsigned char first[MOST], second[MOST];
    if (one.from > other.from) {
        struct part kept = one;
        one = other;
        other = kept;
    }
    if (one.to > other.from) return;
    size_t size = one.to - one.from, other_size = other.to - other.from;
    memcpy(first, text->at + one.from, size);
    memcpy(second, text->at + other.from, other_size);
    replace(text, other.from, other.to, first, size);
    replace(text, one.from, one.to, second, other_size);
}

/* Puts brackets or quotes around a part, once or many times. */
static void wrap(struct bytes *text, struct part part) {
    static const char *const pairs[][2] = {{"[", "]"}, {"{a=", "}"}, {"{\"a\":", "}"}, {"\"", "\""}, {"'", "'"}, {"[[", "]]"}};
    const char *const *pair = pairs[draw(sizeof pairs / sizeof *pairs)];
    for (uint64_t times = draw(8) ? 1 : draw(130); times > 0; times--) {
        replace(text, part.to, part.to, (const unsigned char *)pair[1], strlen(pair[1]));
        replace(text, part.from, part.from, (const unsigned char *)pair[0], strlen(pair[0]));
        part.to += strlen(pair[0]) + strlen(pair[1]);
        if (part.to > text->size) return;
    }
}

/* Changes a part of the input as a whole; 0 if it has no such part. */
static int damage_part(struct bytes *text, struct bytes other) {
    static unsigned char copied[MOST];
    enum kind kind = draw(KINDS);
    struct part part, second;
    if (!draw_part(*text, kind, &part)) return 0;
    /* An item of a list has its comma with it. */
    size_t to = part.to < text->size && text->at[part.to] == ',' ? part.to + 1 : part.to, size = to - part.from;
    switch (draw(8)) {
    case 0: replace(text, part.from, to, NULL, 0); return 1;
    case 1:
        memcpy(copied, text->at + part.from, size);
        for (uint64_t times = draw(8) ? 1 : draw(2000); times > 0; times--)
            replace(text, part.from, part.from, copied, size);
        return 1;
    case 2:
    case 3:
        if (!draw_part(*text, kind, &second)) return 0;
        swap(text, part, second);
        return 1;
    case 4:
        if (!draw_part(other, kind, &second)) return 0;
        replace(text, part.from, part.to, other.at + second.from, second.to - second.from);
        return 1;
    case 5:
        if (!draw_part(*text, draw(KINDS), &second)) return 0;
        memcpy(copied, text->at + second.from, second.to - second.from);
        replace(text, part.from, part.to, copied, second.to - second.from);
        return 1;
    case 6: wrap(text, part); return 1;
    default:
        memcpy(copied, text->at + part.from, size);
        replace(text, part.from, to, NULL, 0);
        if (!draw_part(*text, kind, &second)) return 1;
        replace(text, second.from, second.from, copied, size);
        return 1;
    }
}

void damage(struct bytes *text, struct bytes other) {
    if (draw(2) == 0 || !damage_part(text, other)) damage_bytes(text, other);
}
