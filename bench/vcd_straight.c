/*
 * The changed values of one vector of a VCD text, with nothing proved: what a C programmer would write. One pass: skip the blanks, look at the first byte
 * of a word, scan the word where it stands. The values are kept apart until the text is at its end, so that a refusal writes nothing. The tables keep 201
 * to 207 and 431, which bench/straight.rs asks.
 */
#include <stdbool.h>
#include <stddef.h>
#include <stdint.h>
#include <string.h>

#define LONGEST 65536u
#define MOST_CHANGES 13107 /* a change takes four bytes and one that parts it from the next */
#define UNFIT 65535u       /* a value that the named vector may not take: over 65,534, with an x or a z, or real */

/* The text up to its end and the code of the named vector. `place` is that of a refusal. */
struct recording {
    const uint8_t *end, *code, *place;
    size_t code_length;
};

static bool is_blank(uint8_t b)
{
    return b == ' ' || b == '\n' || b == '\r' || b == '\t';
}

static const uint8_t *skip_blanks(const uint8_t *at, const uint8_t *end)
{
    while (at < end && is_blank(*at))
        at++;
    return at;
}

static const uint8_t *skip_word(const uint8_t *at, const uint8_t *end)
{
    while (at < end && !is_blank(*at))
        at++;
    return at;
}

static bool word_ends(const uint8_t *at, const uint8_t *end)
{
    return at == end || is_blank(*at);
}

static bool is(const uint8_t *word, const uint8_t *end, const char *keyword)
{
    return (size_t)(end - word) == strlen(keyword) && memcmp(word, keyword, strlen(keyword)) == 0;
}

static const uint8_t *refuse(struct recording *r, const uint8_t *place)
{
    r->place = place;
    return NULL;
}

/* Behind the next $end. */
static const uint8_t *skip_text(struct recording *r, const uint8_t *at)
{
    for (;;) {
        const uint8_t *word = skip_blanks(at, r->end);
        if (word == r->end)
            return refuse(r, r->end);
        at = skip_word(word, r->end);
        if (is(word, at, "$end"))
            return at;
    }
}

/* Behind the code at `word`: bytes 33 to 126, but not $end. `place` is that of the refusal where there is none. */
static const uint8_t *read_code(struct recording *r, const uint8_t *word, const uint8_t *place, bool *named)
{
    const uint8_t *at = word;
    while (at < r->end && *at > ' ' && *at < 127)
        at++;
    if (at == word || !word_ends(at, r->end) || is(word, at, "$end"))
        return refuse(r, place);
    *named = (size_t)(at - word) == r->code_length && memcmp(word, r->code, r->code_length) == 0;
    return at;
}

/* Behind a $var and its $end: two words, the code, then text. */
static const uint8_t *read_variable(struct recording *r, const uint8_t *at, bool *declared)
{
    bool named;
    for (int i = 0; i < 2; i++) {
        const uint8_t *word = skip_blanks(at, r->end);
        at = skip_word(word, r->end);
        if (word == at || is(word, at, "$end"))
            return refuse(r, word);
    }
    at = skip_blanks(at, r->end);
    at = read_code(r, at, at, &named);
    if (at == NULL)
        return NULL;
    *declared |= named;
    return skip_text(r, at);
}

/* Behind $enddefinitions and its $end. */
static const uint8_t *read_declarations(struct recording *r, const uint8_t *at)
{
    bool declared = false;
    while (at != NULL) {
        const uint8_t *word = skip_blanks(at, r->end);
        at = skip_word(word, r->end);
        if (is(word, at, "$var"))
            at = read_variable(r, at, &declared);
        else if (is(word, at, "$enddefinitions"))
            return declared ? skip_text(r, at) : refuse(r, word);
        else if (is(word, at, "$comment") || is(word, at, "$date") || is(word, at, "$version") || is(word, at, "$timescale") || is(word, at, "$scope")
            || is(word, at, "$upscope"))
            at = skip_text(r, at);
        else
            return refuse(r, word);
    }
    return NULL;
}

/* Behind the digits of a vector's change, and its value. The word is refused where a digit is none. */
static const uint8_t *read_digits(struct recording *r, const uint8_t *word, uint32_t *value)
{
    const uint8_t *at = word + 1;
    uint32_t v = 0;
    for (; at < r->end; at++) {
        if (*at == '0' || *at == '1')
            v = v * 2 + (*at - '0');
        else if (*at == 'x' || *at == 'z' || *at == 'X' || *at == 'Z')
            v = UNFIT;
        else
            break;
        if (v > UNFIT)
            v = UNFIT;
    }
    if (at == word + 1 || !word_ends(at, r->end))
        return refuse(r, word);
    *value = v;
    return at;
}

/* Behind a time. */
static const uint8_t *read_time(struct recording *r, const uint8_t *word)
{
    const uint8_t *at = word + 1;
    while (at < r->end && *at >= '0' && *at <= '9')
        at++;
    return at > word + 1 && word_ends(at, r->end) ? at : refuse(r, word);
}

/* Behind a keyword, and behind its text where it has one. */
static const uint8_t *read_keyword(struct recording *r, const uint8_t *word, bool *dump)
{
    const uint8_t *at = skip_word(word, r->end);
    if (*dump && is(word, at, "$end")) {
        *dump = false;
        return at;
    }
    if (*dump)
        return refuse(r, word);
    if (is(word, at, "$comment"))
        return skip_text(r, at);
    *dump = is(word, at, "$dumpvars") || is(word, at, "$dumpall") || is(word, at, "$dumpon") || is(word, at, "$dumpoff");
    return *dump ? at : refuse(r, word);
}

/* Behind one change, time or keyword. A change of the named vector gives its value. */
static const uint8_t *read_command(struct recording *r, const uint8_t *word, bool *dump, bool *named, uint32_t *value)
{
    const uint8_t *at;
    *named = false;
    *value = UNFIT;
    switch (*word) {
    case '#':
        return *dump ? refuse(r, word) : read_time(r, word);
    case '0': case '1': case 'x': case 'X': case 'z': case 'Z':
        return read_code(r, word + 1, word, named);
    case 'b': case 'B':
        at = read_digits(r, word, value);
        break;
    case 'r': case 'R':
        at = skip_word(word, r->end);
        break;
    case '$':
        return read_keyword(r, word, dump);
    default:
        return refuse(r, word);
    }
    if (at == NULL)
        return NULL;
    at = skip_blanks(at, r->end);
    return read_code(r, at, at, named);
}

/* The changed values behind the declarations: their count, or minus the number of the refusal. */
static int64_t read_changes(struct recording *r, const uint8_t *at, uint16_t *values, size_t room)
{
    size_t count = 0;
    uint32_t value, last = UNFIT;
    bool dump = false, named;
    for (;;) {
        const uint8_t *word = skip_blanks(at, r->end);
        if (word == r->end)
            break;
        at = read_command(r, word, &dump, &named, &value);
        if (at != NULL && named && value == UNFIT)
            at = refuse(r, word);
        if (at == NULL)
            return -432;
        if (!named || value == last)
            continue;
        if (count == room) {
            refuse(r, word);
            return -433;
        }
        values[count++] = (uint16_t)value;
        last = value;
    }
    if (!dump)
        return (int64_t)count;
    refuse(r, r->end);
    return -432;
}

/* Gives the count of the places filled, or minus the number of the refusal and its place. */
int64_t vcd_straight(
    const uint8_t *text, size_t length, const uint8_t *code, size_t code_length, uint16_t *blocks, size_t room, uint32_t *place)
{
    uint16_t values[MOST_CHANGES];
    struct recording r = {text + length, code, text, code_length};
    int64_t count = -101;
    if (length <= LONGEST) {
        const uint8_t *at = read_declarations(&r, text);
        count = at == NULL ? -432 : read_changes(&r, at, values, room);
    }
    if (count >= 0)
        memcpy(blocks, values, (size_t)count * sizeof values[0]);
    else
        *place = (uint32_t)(r.place - text);
    return count;
}
