/* Reads calls from standard input and prints what the library answers, one line a call. The format is CALLS.md's, and nothing else is taken.
 * It decides nothing. */
#include "plain_c.h"
#include "veenstipper.h"

enum {
    MOST_BYTES = 70000,
    LONGEST_CALL = 3 * 2 * MOST_BYTES + 64, /* no call has more than three slices; a name beside three, or a session beside two, is shorter */
    MOST_FIELDS = 5                         /* a name, at most three arguments, and one that is too many */
};

/* ---- The arguments of one call ---- */

typedef struct {
    uint8_t bytes[MOST_BYTES];
    size_t length;
    const uint8_t *at; /* the bytes above, or NOWHERE */
} slice;

/* An address in the first page, which no program has. */
#define NOWHERE ((const uint8_t *)64)

static struct {
    vs_hash state;
    vs_code code;
    vs_session session;
    uint64_t number;
    slice slices[3];
    int slice_count;
} given;

#define FIRST given.slices[0].at, given.slices[0].length
#define SECOND given.slices[1].at, given.slices[1].length
#define THIRD given.slices[2].at, given.slices[2].length

/* ---- Reading values: each takes its value from the front of the text, and says whether it is there ---- */

static bool take(const char **text, char c) {
    bool there = **text == c;
    *text += there;
    return there;
}

/* A decimal number with no leading zero. */
static bool take_number(const char **text, uint64_t most, uint64_t *n) {
    const char *from = *text;
    for (*n = 0; **text >= '0' && **text <= '9'; ++*text) {
        uint64_t digit = (uint64_t)(**text - '0');
        if (*n > most / 10 || *n * 10 > most - digit)
            return false;
        *n = *n * 10 + digit;
    }
    return *text != from && (*from != '0' || *text == from + 1);
}

static bool take_number_32(const char **text, uint32_t *n) {
    uint64_t wide = 0;
    bool there = take_number(text, UINT32_MAX, &wide);
    *n = (uint32_t)wide;
    return there;
}

static bool take_number_8(const char **text, uint8_t *n) {
    uint64_t wide = 0;
    bool there = take_number(text, UINT8_MAX, &wide);
    *n = (uint8_t)wide;
    return there;
}

static int nibble(char c) { return c >= '0' && c <= '9' ? c - '0' : c >= 'a' && c <= 'f' ? c - 'a' + 10 : -1; }

/* Two hex digits a byte, as many as there are and at most `most`. */
static size_t take_some_hex(const char **text, uint8_t *out, size_t most) {
    size_t n = 0;
    for (; n < most && nibble((*text)[0]) >= 0 && nibble((*text)[1]) >= 0; *text += 2)
        out[n++] = (uint8_t)(nibble((*text)[0]) * 16 + nibble((*text)[1]));
    return n;
}

static bool take_hex(const char **text, uint8_t *out, size_t count) { return take_some_hex(text, out, count) == count; }

static uint32_t word_at(const uint8_t *b) { return (uint32_t)b[0] << 24 | (uint32_t)b[1] << 16 | (uint32_t)b[2] << 8 | b[3]; }

/* WORDS:TOTAL:TAIL */
static bool take_state(const char **text, vs_hash *h) {
    uint8_t w[sizeof(vs_words)];
    if (!(take_hex(text, w, sizeof w) && take(text, ':') && take_number(text, UINT64_MAX, &h->total) && take(text, ':')))
        return false;
    h->words = (vs_words){word_at(w),      word_at(w + 4),  word_at(w + 8),  word_at(w + 12),
                          word_at(w + 16), word_at(w + 20), word_at(w + 24), word_at(w + 28)};
    return take_hex(text, h->tail, VS_BLOCK);
}

/* INNER+OUTER, each a hash state */
static bool take_code(const char **text, vs_code *c) { return take_state(text, &c->inner) && take(text, '+') && take_state(text, &c->outer); }

/* LENGTH:LOOP_START:LOOP_END:DIGEST */
static bool take_record(const char **text, vs_record *r) {
    return take_number_32(text, &r->length) && take(text, ':') && take_number_32(text, &r->loop_start) && take(text, ':') &&
           take_number_32(text, &r->loop_end) && take(text, ':') && take_hex(text, r->digest, VS_DIGEST);
}

static bool take_slot(const char **text, vs_slot *s) {
    return take_record(text, &s->sample) && take(text, ':') && take_state(text, &s->state) && take(text, ':') && take_number_8(text, &s->status);
}

static bool same_state(const vs_hash *a, const vs_hash *b) {
    return memcmp(&a->words, &b->words, sizeof a->words) == 0 && a->total == b->total && memcmp(a->tail, b->tail, VS_BLOCK) == 0;
}

static bool is_empty(const vs_slot *s) {
    static const vs_record zero;
    vs_hash fresh = vs_fresh();
    return s->status == VS_NONE && memcmp(&s->sample, &zero, sizeof zero) == 0 && same_state(&s->state, &fresh);
}

static void empty_session(vs_session *s) {
    memset(s, 0, sizeof *s);
    for (int i = 0; i < VS_NOTES; i++)
        s->slots[i].state = vs_fresh();
}

/* LISTED:OPEN, then after a comma each of the slots that are not empty, their notes rising. The counts are taken as they stand. */
static bool take_session(const char **text, vs_session *s) {
    uint64_t note, last = 0;
    empty_session(s);
    if (!(take_number_8(text, &s->listed) && take(text, ':') && take_number_8(text, &s->open)))
        return false;
    for (; take(text, ','); last = note) {
        if (!take_number(text, VS_NOTES, &note) || note <= last || !take(text, '='))
            return false;
        if (!take_slot(text, &s->slots[note - 1]) || is_empty(&s->slots[note - 1]))
            return false;
    }
    return true;
}

static bool take_bytes(const char **text, slice *s) {
    s->at = s->bytes;
    s->length = 0;
    if (take(text, '-'))
        return true;
    s->length = take_some_hex(text, s->bytes, MOST_BYTES);
    return s->length > 0;
}

/* Bytes, or `@N`. */
static bool take_lent(const char **text, slice *s) {
    if (!take(text, '@'))
        return take_bytes(text, s);
    s->at = NOWHERE;
    return take_number(text, UINT64_MAX, &s->length);
}

/* ---- Printing values ---- */

static void put_hex(const uint8_t *b, size_t n) {
    static const char digits[] = "0123456789abcdef";
    if (n == 0)
        fputc('-', stdout);
    for (size_t i = 0; i < n; i++) {
        fputc(digits[b[i] >> 4], stdout);
        fputc(digits[b[i] & 15], stdout);
    }
}

static void put_words(vs_words w) { printf("%08x%08x%08x%08x%08x%08x%08x%08x", w.a, w.b, w.c, w.d, w.e, w.f, w.g, w.h); }

static void put_state(const vs_hash *h) {
    put_words(h->words);
    printf(":%llu:", (unsigned long long)h->total);
    put_hex(h->tail, VS_BLOCK);
}

static void put_code(const vs_code *c) {
    put_state(&c->inner);
    fputc('+', stdout);
    put_state(&c->outer);
}

static void put_slot(const vs_slot *s) {
    printf("%u:%u:%u:", s->sample.length, s->sample.loop_start, s->sample.loop_end);
    put_hex(s->sample.digest, VS_DIGEST);
    fputc(':', stdout);
    put_state(&s->state);
    printf(":%u", s->status);
}

static void put_session(const vs_session *s) {
    printf("%u:%u", s->listed, s->open);
    for (int i = 0; i < VS_NOTES; i++) {
        if (is_empty(&s->slots[i]))
            continue;
        printf(",%d=", i + 1);
        put_slot(&s->slots[i]);
    }
}

static void put_digest(vs_digest d) {
    printf("%u\t", d.number);
    put_hex(d.bytes, VS_DIGEST);
}

static void put_code_updated(vs_code_updated u) {
    printf("%u\t", u.number);
    put_code(&u.state);
}

static void put_compared(vs_compared c) { printf("%u\t%u", c.number, c.same); }

static void put_answer(vs_answer a) { printf("%u\t%u\t%llu", a.number, a.status, (unsigned long long)a.taken); }

static void put_verdict(vs_verdict v, const vs_session *s) {
    printf("%u\t%u\t", v.number, v.line);
    put_session(s);
}

static void put_written(vs_written w, const slice *buffer) {
    printf("%u\t%llu\t", w.number, (unsigned long long)w.count);
    put_hex(buffer->bytes, buffer->length);
}

static void put_part(const uint8_t *from, size_t offset, size_t length) {
    printf("%llu\t%llu\t", (unsigned long long)offset, (unsigned long long)length);
    put_hex(from + offset, length);
}

/* ---- The calls: each makes one of what is given, and prints the answers ---- */

static void fresh(void) {
    vs_hash h = vs_fresh();
    put_state(&h);
}

static void fold(void) { put_words(vs_fold(given.state.words, FIRST)); }

static void update(void) {
    vs_updated u = vs_update(given.state, FIRST);
    printf("%u\t", u.number);
    put_state(&u.state);
}

static void update_in_place(void) {
    printf("%u\t", vs_update_in_place(&given.state, FIRST));
    put_state(&given.state);
}

static void finish(void) { put_digest(vs_finish(given.state)); }

static void digest(void) { put_digest(vs_digest_of(FIRST)); }

static void compare_message(void) { put_compared(vs_compare_message(FIRST, SECOND)); }

static void compare_state(void) { put_compared(vs_compare_state(given.state, FIRST)); }

static void code_start(void) { put_code_updated(vs_code_start(FIRST)); }

static void code_update(void) { put_code_updated(vs_code_update(given.code, FIRST)); }

static void code_update_in_place(void) {
    printf("%u\t", vs_code_update_in_place(&given.code, FIRST));
    put_code(&given.code);
}

static void code_finish(void) { put_digest(vs_code_finish(given.code)); }

static void code_of(void) { put_digest(vs_code_of(FIRST, SECOND)); }

static void compare_code(void) { put_compared(vs_compare_code(given.code, FIRST)); }

static void compare_code_of(void) { put_compared(vs_compare_code_of(FIRST, SECOND, THIRD)); }

static void pad_write(void) {
    slice *buffer = &given.slices[1];
    put_written(vs_pad_write(FIRST, buffer->bytes, buffer->length), buffer);
}

static void block_number(void) { printf("%u", vs_block_number(FIRST, SECOND, given.number)); }

static void block_part(void) {
    vs_place p = vs_block_part(FIRST, SECOND, given.number);
    printf("%u\t", p.which);
    put_part(given.slices[p.which == VS_IN_MESSAGE ? 0 : 1].at, p.offset, p.length);
}

static void remove_number(void) { printf("%u", vs_remove_number(FIRST)); }

static void remove_part(void) { put_part(given.slices[0].at, 0, vs_remove_part(FIRST)); }

static void sheet_read(void) {
    vs_sheet s = vs_sheet_read(FIRST);
    put_verdict(s.verdict, &s.session);
}

static void sheet_read_in_place(void) {
    vs_verdict v = vs_sheet_read_in_place(&given.session, FIRST);
    put_verdict(v, &given.session);
}

static void deliver(void) {
    vs_delivered d = vs_deliver(given.session, given.number, FIRST);
    put_answer(d.answer);
    fputc('\t', stdout);
    put_session(&d.session);
}

static void deliver_in_place(void) {
    put_answer(vs_deliver_in_place(&given.session, given.number, FIRST));
    fputc('\t', stdout);
    put_session(&given.session);
}

static void ask(void) { put_answer(vs_ask(given.session, given.number)); }

static void ask_in_place(void) { put_answer(vs_ask_in_place(&given.session, given.number)); }

static void ready(void) { printf("%u", vs_ready(&given.session)); }

static void sheet_write(void) {
    slice *buffer = &given.slices[0];
    put_written(vs_sheet_write(&given.session, buffer->bytes, buffer->length), buffer);
}

static void keyed_read(void) {
    vs_sheet s = vs_keyed_read(FIRST, SECOND);
    put_verdict(s.verdict, &s.session);
}

static void keyed_read_in_place(void) {
    vs_verdict v = vs_keyed_read_in_place(&given.session, FIRST, SECOND);
    put_verdict(v, &given.session);
}

/* Each call with its arguments in order, a letter for each: h a hash state, c a code state, s a session, n a number, l a slice that is only read
 * (`@N` too), w a slice that is written. */
static const struct {
    const char *name, *arguments;
    void (*make)(void);
} calls[] = {
    {"fresh", "", fresh},
    {"fold", "hl", fold},
    {"update", "hl", update},
    {"update_in_place", "hl", update_in_place},
    {"finish", "h", finish},
    {"digest", "l", digest},
    {"compare_message", "ll", compare_message},
    {"compare_state", "hl", compare_state},
    {"code_start", "l", code_start},
    {"code_update", "cl", code_update},
    {"code_update_in_place", "cl", code_update_in_place},
    {"code_finish", "c", code_finish},
    {"code_of", "ll", code_of},
    {"compare_code", "cl", compare_code},
    {"compare_code_of", "lll", compare_code_of},
    {"pad_write", "lw", pad_write},
    {"block_number", "lln", block_number},
    {"block_part", "lln", block_part},
    {"remove_number", "l", remove_number},
    {"remove_part", "l", remove_part},
    {"sheet_read", "l", sheet_read},
    {"sheet_read_in_place", "sl", sheet_read_in_place},
    {"deliver", "snl", deliver},
    {"deliver_in_place", "snl", deliver_in_place},
    {"ask", "sn", ask},
    {"ask_in_place", "sn", ask_in_place},
    {"ready", "s", ready},
    {"sheet_write", "sw", sheet_write},
    {"keyed_read", "ll", keyed_read},
    {"keyed_read_in_place", "sll", keyed_read_in_place},
};

/* ---- Lines ---- */

static bool take_argument(char letter, const char **text) {
    switch (letter) {
    case 'h':
        return take_state(text, &given.state);
    case 'c':
        return take_code(text, &given.code);
    case 's':
        return take_session(text, &given.session);
    case 'n':
        return take_number(text, UINT64_MAX, &given.number);
    case 'l':
        return take_lent(text, &given.slices[given.slice_count++]);
    default:
        return take_bytes(text, &given.slices[given.slice_count++]);
    }
}

/* The line's fields, each ended where its tab stood, empty ones too; answers how many. */
static int part_fields(char *line, char **fields) {
    int n = 0;
    while (line && n < MOST_FIELDS) {
        fields[n++] = line;
        if ((line = strchr(line, '\t')))
            *line++ = 0;
    }
    return n;
}

/* Makes the call of a line and prints its answers; whether the line is a call. */
static bool answer(char *line) {
    char *fields[MOST_FIELDS];
    int arguments = part_fields(line, fields) - 1;
    size_t c = 0, most = sizeof calls / sizeof *calls;
    while (c < most && strcmp(calls[c].name, fields[0]) != 0)
        c++;
    if (c == most || strlen(calls[c].arguments) != (size_t)arguments)
        return false;
    given.slice_count = 0;
    for (int i = 0; i < arguments; i++) {
        const char *text = fields[i + 1];
        if (!take_argument(calls[c].arguments[i], &text) || *text != 0)
            return false;
    }
    calls[c].make();
    return true;
}

typedef enum { AT_END, NO_CALL, MAYBE_A_CALL } reading;

/* Reads a line to its LF, however long it is, and leaves it without. One that is longer than any call, has a zero byte, or stops without its
 * LF (it may have been cut short) is no call. */
static reading read_line(char *line) {
    size_t n = 0;
    bool fits = true;
    int c = fgetc(stdin);
    if (c < 0)
        return AT_END;
    for (; c >= 0 && c != '\n'; c = fgetc(stdin)) {
        fits = fits && n < LONGEST_CALL && c != 0;
        if (fits)
            line[n++] = (char)c;
    }
    line[n] = 0;
    return fits && c == '\n' ? MAYBE_A_CALL : NO_CALL;
}

int main(void) {
    static char line[LONGEST_CALL + 1];
    reading r;
    while ((r = read_line(line)) != AT_END) {
        if (r == NO_CALL || !answer(line))
            fputc('?', stdout);
        fputc('\n', stdout);
        if (fflush(stdout) != 0) /* after each line, so that a call that ends the program loses no answer before it */
            return 1;
    }
    return 0;
}
