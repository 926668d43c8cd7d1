/* Does one thing N times, so that the instructions of one can be counted as a difference. measure WHAT SIZE N:
 * plain, fold: N blocks folded by the plain C and by the proved library (SIZE is not looked at);
 * race: N turns (at most 1001), each of SIZE blocks by the one and SIZE by the other, timed. What it prints says how long the proved library took: the median over the
 *   turns, in ten thousandths of the plain C's time;
 * update, update_in_place: N pieces of SIZE bytes into a state, by value and in place;
 * digest: N digests of SIZE bytes, each in one call;
 * code: N codes of SIZE bytes by a key of 32, each in one call;
 * code_by_copy: the same of a started state, a copy for each: the copy, an update in place, the end;
 * code_start: N times that state;
 * code_update_in_place: N pieces of SIZE bytes into a code state;
 * deliver, deliver_by_value: N pieces of SIZE bytes to a waiting note, in place and by value;
 * ready: N times the rank-ready light of 32 notes that are listed and SIZE that are open;
 * sheet_read, sheet_write: N times the longest sheet of SIZE notes, read in place and written.
 * What it prints keeps the work from being dropped. It is eight hexadecimal figures whatever they are, each made in the same number of steps. */
#include "../host/plain_c.h"
#include "../host/veenstipper.h"

void plain_fold(uint32_t v[8], const uint8_t *bytes, uint64_t blocks);

static uint8_t bytes[64 * 4096];
static vs_session session;
static bool all_accepted = true; /* a call that is refused, or a light that answers otherwise, would count as a quick one */

static void fill(void) {
    for (size_t i = 0; i < sizeof bytes; i++)
        bytes[i] = (uint8_t)(i * 7 + i / 251);
}

static uint32_t fold(const char *what, size_t n) {
    vs_words v = vs_fresh().words;
    if (what[0] == 'p')
        plain_fold(&v.a, bytes, n);
    else
        v = vs_fold(v, bytes, 64 * n);
    return v.a;
}

static uint64_t ticks(void) {
    __builtin_ia32_lfence(); /* what stands before it is done */
    return __builtin_ia32_rdtsc();
}

static uint64_t time_of(const char *what, size_t blocks) {
    static volatile uint32_t seen; /* keeps the work from being dropped */
    uint64_t begun = ticks();
    seen = fold(what, blocks);
    return ticks() - begun;
}

static uint32_t race(size_t blocks, size_t turns) {
    static uint64_t ratios[1001];
    all_accepted = turns > 0 && turns <= sizeof ratios / sizeof *ratios && blocks > 0 && blocks <= sizeof bytes / VS_BLOCK;
    for (size_t i = 0; all_accepted && i < turns; i++) {
        uint64_t plain = 0, proved = 0;
        if (i % 2) /* who begins changes from turn to turn */
            plain = time_of("plain", blocks);
        proved = time_of("fold", blocks);
        if (i % 2 == 0)
            plain = time_of("plain", blocks);
        if (plain == 0 || proved == 0) { /* the counter stood still */
            all_accepted = false;
            break;
        }
        uint64_t ratio = proved * 10000 / plain;
        size_t at = i;
        for (; at > 0 && ratios[at - 1] > ratio; at--)
            ratios[at] = ratios[at - 1];
        ratios[at] = ratio;
    }
    return all_accepted ? (uint32_t)ratios[turns / 2] : 0;
}

static uint32_t update(bool in_place, size_t size, size_t n) {
    vs_hash h = vs_fresh();
    for (size_t i = 0; i < n; i++)
        if (in_place)
            vs_update_in_place(&h, bytes, size);
        else
            h = vs_update(h, bytes, size).state;
    all_accepted = h.total == size * n;
    return h.words.a ^ (uint32_t)h.total;
}

static uint32_t digest(size_t size, size_t n) {
    uint32_t seen = 0;
    for (size_t i = 0; i < n; i++) {
        vs_digest d = vs_digest_of(bytes, size);
        all_accepted &= d.number == VS_ACCEPTED;
        seen ^= d.bytes[0];
    }
    return seen;
}

enum { KEY = 32 }; /* a key's bytes, from the front of bytes */

static uint32_t code(size_t size, size_t n) {
    uint32_t seen = 0;
    for (size_t i = 0; i < n; i++) {
        vs_digest d = vs_code_of(bytes, KEY, bytes, size);
        all_accepted &= d.number == VS_ACCEPTED;
        seen ^= d.bytes[0];
    }
    return seen;
}

static uint32_t code_by_copy(size_t size, size_t n) {
    vs_code started = vs_code_start(bytes, KEY).state;
    vs_digest expected = vs_code_of(bytes, KEY, bytes, size), d = expected;
    for (size_t i = 0; i < n; i++) {
        vs_code copy = started;
        all_accepted &= vs_code_update_in_place(&copy, bytes, size) == VS_ACCEPTED;
        d = vs_code_finish(copy);
        all_accepted &= d.number == VS_ACCEPTED;
    }
    all_accepted &= memcmp(d.bytes, expected.bytes, VS_DIGEST) == 0;
    return d.bytes[0];
}

static uint32_t code_start(size_t n) {
    uint32_t seen = 0;
    for (size_t i = 0; i < n; i++) {
        vs_code_updated u = vs_code_start(bytes, KEY);
        all_accepted &= u.number == VS_ACCEPTED;
        seen ^= u.state.inner.words.a;
    }
    return seen;
}

static uint32_t code_update_in_place(size_t size, size_t n) {
    vs_code c = vs_code_start(bytes, KEY).state;
    for (size_t i = 0; i < n; i++)
        vs_code_update_in_place(&c, bytes, size);
    all_accepted = c.inner.total == VS_BLOCK + size * n;
    return c.inner.words.a ^ (uint32_t)c.inner.total;
}

static uint32_t deliver(bool in_place, size_t size, size_t n) {
    static const char sheet[] = "RANK\t1\t1\n5\t1073741824\t0\t1\t0000000000000000000000000000000000000000000000000000000000000000\n";
    vs_slot *slot = &session.slots[4];
    vs_sheet_read_in_place(&session, (const uint8_t *)sheet, sizeof sheet - 1);
    for (size_t i = 0; i < n; i++)
        if (in_place)
            vs_deliver_in_place(&session, 5, bytes, size);
        else
            session = vs_deliver(session, 5, bytes, size).session;
    all_accepted = slot->state.total == size * n;
    return slot->state.words.a ^ (uint32_t)slot->state.total;
}

static uint32_t ready(size_t open, size_t n) {
    uint32_t yes = 0;
    session.listed = VS_NOTES;
    session.open = (uint8_t)open;
    for (size_t i = 0; i < n; i++)
        yes += vs_ready(&session);
    all_accepted = yes == (open == VS_NOTES ? n : 0);
    return yes;
}

static uint32_t sheets(bool to_write, size_t notes, size_t n) {
    static uint8_t text[VS_LONGEST_SHEET];
    for (size_t i = 0; i < notes; i++) {
        session.slots[i] = (vs_slot){{4294967294, 2147483646, 2147483646, {0}}, vs_fresh(), VS_WAITING};
        memcpy(session.slots[i].sample.digest, vs_digest_of(bytes, i).bytes, VS_DIGEST);
    }
    session.listed = (uint8_t)notes;
    vs_written sheet = vs_sheet_write(&session, text, sizeof text);
    all_accepted = sheet.number == VS_ACCEPTED;
    for (size_t i = 0; i < n; i++)
        if (to_write)
            all_accepted &= vs_sheet_write(&session, text, sizeof text).number == VS_ACCEPTED;
        else
            all_accepted &= vs_sheet_read_in_place(&session, text, sheet.count).number == VS_ACCEPTED;
    return (uint32_t)sheet.count ^ session.slots[0].sample.length;
}

static bool is(const char *what, const char *name) { return strcmp(what, name) == 0; }

static uint32_t done(const char *what, size_t size, size_t n) {
    if (is(what, "update") || is(what, "update_in_place"))
        return update(is(what, "update_in_place"), size, n);
    if (is(what, "digest"))
        return digest(size, n);
    if (is(what, "code"))
        return code(size, n);
    if (is(what, "code_by_copy"))
        return code_by_copy(size, n);
    if (is(what, "code_start"))
        return code_start(n);
    if (is(what, "code_update_in_place"))
        return code_update_in_place(size, n);
    if (is(what, "deliver") || is(what, "deliver_by_value"))
        return deliver(is(what, "deliver"), size, n);
    if (is(what, "ready"))
        return ready(size, n);
    if (is(what, "race"))
        return race(size, n);
    if (is(what, "sheet_read") || is(what, "sheet_write"))
        return sheets(is(what, "sheet_write"), size, n);
    return fold(what, n);
}

int main(int argc, char **argv) {
    if (argc != 4)
        return 2;
    size_t size = strtoull(argv[2], 0, 10), n = strtoull(argv[3], 0, 10);
    fill();
    uint32_t seen = done(argv[1], size, n);
    char line[] = "00000000\n";
    for (int i = 0; i < 8; i++)
        line[i] = "0123456789abcdef"[seen >> (28 - 4 * i) & 15];
    fputs(line, stdout);
    return all_accepted ? 0 : 1;
}
