/* Measures the stack of every function of the library, for scripts/test-frames. Prints a line for each: its name, the deepest byte touched below the
 * caller's stack pointer without the return address of memcpy and memset and with it, and how many calls were accepted and refused.
 *
 * The calls are made on a stack of their own, stack_low. In the place of each vs_ function stands a door, at_vs_..: it paints the stack from its lowest
 * byte to the stack pointer, goes on to the function with all arguments where they are, and when that is back looks for the lowest byte that is
 * not paint. What the caller uses lies above, so all that is found is the function's. Two paints are tried, since a byte may be written that looks like one.
 *
 * memcpy and memset are this program's own and have no frame: on the stack they have their return address alone. "Without" it they put paint over that
 * before they go back. */
#define vs_ask at_vs_ask
#define vs_ask_in_place at_vs_ask_in_place
#define vs_block_number at_vs_block_number
#define vs_block_part at_vs_block_part
#define vs_code_finish at_vs_code_finish
#define vs_code_of at_vs_code_of
#define vs_code_start at_vs_code_start
#define vs_code_update at_vs_code_update
#define vs_code_update_in_place at_vs_code_update_in_place
#define vs_compare_code at_vs_compare_code
#define vs_compare_code_of at_vs_compare_code_of
#define vs_compare_message at_vs_compare_message
#define vs_compare_state at_vs_compare_state
#define vs_deliver at_vs_deliver
#define vs_deliver_in_place at_vs_deliver_in_place
#define vs_digest_of at_vs_digest_of
#define vs_finish at_vs_finish
#define vs_fold at_vs_fold
#define vs_fresh at_vs_fresh
#define vs_keyed_read at_vs_keyed_read
#define vs_keyed_read_in_place at_vs_keyed_read_in_place
#define vs_pad_write at_vs_pad_write
#define vs_ready at_vs_ready
#define vs_remove_number at_vs_remove_number
#define vs_remove_part at_vs_remove_part
#define vs_sheet_read at_vs_sheet_read
#define vs_sheet_read_in_place at_vs_sheet_read_in_place
#define vs_sheet_write at_vs_sheet_write
#define vs_update at_vs_update
#define vs_update_in_place at_vs_update_in_place
#include "plain_c.h"
#include "veenstipper.h"

enum { STACK = 65536 }; /* the assembly below has it as a number */

__attribute__((aligned(64))) uint8_t stack_low[STACK];
uint64_t paint, repaint, entered, left, deepest, kept_rax, kept_rcx, kept_rdi, kept_rsp;
_Static_assert(STACK == 65536, "run");

/* The door of a function: it changes no register that carries an argument or an answer, and nothing on the stack but the place to go back to. */
#define DOOR(name)                                                                                                                                   \
    __asm__(".globl at_" #name "\nat_" #name ":\n"                                                                                                   \
            "   mov %rax, kept_rax(%rip)\n   mov %rcx, kept_rcx(%rip)\n   mov %rdi, kept_rdi(%rip)\n"                                               \
            "   mov (%rsp), %rax\n   mov %rax, left(%rip)\n"                                                                                         \
            "   lea back(%rip), %rax\n   mov %rax, (%rsp)\n"                                                                                         \
            "   lea 8(%rsp), %rax\n   mov %rax, entered(%rip)\n"                                                                                     \
            "   lea stack_low(%rip), %rdi\n   mov %rsp, %rcx\n   sub %rdi, %rcx\n"                                                                   \
            "   mov paint(%rip), %rax\n   rep stosb\n"                                                                                               \
            "   mov kept_rax(%rip), %rax\n   mov kept_rcx(%rip), %rcx\n   mov kept_rdi(%rip), %rdi\n"                                               \
            "   jmp " #name "\n")

/* Where every function comes back to: the depth, and on to where it was called. */
__asm__("back:\n"
        "   mov %rax, kept_rax(%rip)\n"
        "   lea stack_low(%rip), %rdi\n   mov entered(%rip), %rcx\n   sub %rdi, %rcx\n"
        "   mov paint(%rip), %rax\n   repe scasb\n" /* rdi: one past the lowest byte that is not paint */
        "   mov entered(%rip), %rcx\n   sub %rdi, %rcx\n   inc %rcx\n   mov %rcx, deepest(%rip)\n"
        "   mov kept_rax(%rip), %rax\n"
        "   jmp *left(%rip)\n");

/* memcpy and memset for the library. They have no frame. */
__asm__(".globl memcpy\nmemcpy:\n   mov %rdi, %rax\n   mov %rdx, %rcx\n   rep movsb\n   jmp gone\n"
        ".globl memset\nmemset:\n   mov %rdi, %r8\n   mov %rdx, %rcx\n   mov %esi, %eax\n   rep stosb\n   mov %r8, %rax\n   jmp gone\n"
        "gone:\n   pop %rdx\n   cmpq $0, repaint(%rip)\n   je 1f\n   mov paint(%rip), %rcx\n   mov %rcx, -8(%rsp)\n1: jmp *%rdx\n");

/* Runs a call on the painted stack. */
void run(void (*call)(void));
__asm__("run:\n   mov %rsp, kept_rsp(%rip)\n   lea stack_low+65536(%rip), %rsp\n   call *%rdi\n   mov kept_rsp(%rip), %rsp\n   ret\n");

#define EACH(X)                                                                                                                                      \
    X(ask) X(ask_in_place) X(block_number) X(block_part) X(code_finish) X(code_of) X(code_start) X(code_update) X(code_update_in_place)              \
    X(compare_code) X(compare_code_of) X(compare_message) X(compare_state) X(deliver) X(deliver_in_place) X(digest_of) X(finish) X(fold) X(fresh)    \
    X(keyed_read) X(keyed_read_in_place) X(pad_write) X(ready) X(remove_number) X(remove_part) X(sheet_read) X(sheet_read_in_place)                  \
    X(sheet_write) X(update) X(update_in_place)
#define DOOR_OF(name) DOOR(vs_##name);
EACH(DOOR_OF)

/* ---- The calls, and what they are given ---- */

enum { LENGTH = 200 }; /* bytes of each note */

static uint8_t message[1000], buffer[2 * VS_BLOCK], whole[2048], digest[VS_DIGEST], key[1000];
static char text[4096];
static uint8_t sheet[VS_LONGEST_SHEET];
static size_t text_length, message_length, whole_length, block, buffer_length = sizeof buffer, digest_length = VS_DIGEST, sheet_length = sizeof sheet;
static size_t key_length = VS_DIGEST;
static vs_session session;
static vs_hash state;
static vs_code code;
static uint64_t note;
static unsigned number; /* what the call answered: an answer's number is its first byte */

static unsigned first(const void *answer) { return *(const uint8_t *)answer; }

static void fresh(void) { state = vs_fresh(), number = 0; }
static void fold(void) { state.words = vs_fold(state.words, message, message_length), number = 0; }
static void update(void) { vs_updated u = vs_update(state, message, message_length); number = first(&u); }
static void update_in_place(void) { number = vs_update_in_place(&state, message, message_length); }
static void finish(void) { vs_digest d = vs_finish(state); number = first(&d); }
static void digest_of(void) { vs_digest d = vs_digest_of(message, message_length); number = first(&d), memcpy(digest, d.bytes, VS_DIGEST); }
static void compare_message(void) { vs_compared c = vs_compare_message(message, message_length, digest, digest_length); number = first(&c); }
static void compare_state(void) { vs_compared c = vs_compare_state(state, digest, digest_length); number = first(&c); }
static void code_start(void) { vs_code_updated u = vs_code_start(key, key_length); number = first(&u), code = u.state; }
static void code_update(void) { vs_code_updated u = vs_code_update(code, message, message_length); number = first(&u); }
static void code_update_in_place(void) { number = vs_code_update_in_place(&code, message, message_length); }
static void code_finish(void) { vs_digest d = vs_code_finish(code); number = first(&d); }
static void code_of(void) {
    vs_digest d = vs_code_of(key, key_length, message, message_length);
    number = first(&d), memcpy(digest, d.bytes, VS_DIGEST);
}
static void compare_code(void) { vs_compared c = vs_compare_code(code, digest, digest_length); number = first(&c); }
static void compare_code_of(void) {
    vs_compared c = vs_compare_code_of(key, key_length, message, message_length, digest, digest_length);
    number = first(&c);
}
static void pad_write(void) { vs_written w = vs_pad_write(message, message_length, buffer, buffer_length); number = first(&w); }
static void block_number(void) { number = vs_block_number(message, message_length, buffer, buffer_length, block); }
static void block_part(void) { __auto_type p = vs_block_part(message, message_length, buffer, buffer_length, block); number = first(&p) == 0; }
static void remove_number(void) { number = vs_remove_number(whole, whole_length); }
static void remove_part(void) { number = vs_remove_part(whole, whole_length) == 0; }
static void sheet_read(void) { vs_sheet s = vs_sheet_read((const uint8_t *)text, text_length); number = first(&s); }
static void sheet_read_in_place(void) { __auto_type v = vs_sheet_read_in_place(&session, (const uint8_t *)text, text_length); number = first(&v); }
static void sheet_write(void) { vs_written w = vs_sheet_write(&session, sheet, sheet_length); number = first(&w); }
static void keyed_read(void) { vs_sheet s = vs_keyed_read(key, key_length, (const uint8_t *)text, text_length); number = first(&s); }
static void keyed_read_in_place(void) {
    vs_verdict v = vs_keyed_read_in_place(&session, key, key_length, (const uint8_t *)text, text_length);
    number = first(&v);
}
static void deliver(void) { vs_delivered d = vs_deliver(session, note, message, message_length); number = first(&d); }
static void deliver_in_place(void) { vs_answer a = vs_deliver_in_place(&session, note, message, message_length); number = first(&a); }
static void ask(void) { vs_answer a = vs_ask(session, note); number = first(&a); }
static void ask_in_place(void) { vs_answer a = vs_ask_in_place(&session, note); number = first(&a); }
static void ready(void) { number = !vs_ready(&session); } /* it refuses nothing: a no is counted as one */

static struct {
    const char *name;
    void (*call)(void);
    uint64_t deepest[2]; /* with the return address of memcpy and memset, and without */
    unsigned accepted, refused;
} calls[] = {
#define CALL_OF(name) {"vs_" #name, name, {0}, 0, 0},
    EACH(CALL_OF)
};
enum { CALLS = sizeof calls / sizeof *calls };

/* A call by each paint, with memcpy's return address and without. The states and the session are left as the last of them leaves them. */
static void measure(void (*call)(void)) {
    static vs_session session_before;
    vs_hash state_before = state;
    vs_code code_before = code;
    session_before = session;
    for (int i = 0; i < CALLS; i++) {
        if (calls[i].call != call)
            continue;
        for (int turn = 0; turn < 4; turn++) {
            state = state_before, code = code_before, session = session_before;
            paint = turn & 1 ? 0xa5a5a5a5a5a5a5a5 : 0x5a5a5a5a5a5a5a5a;
            repaint = turn >> 1;
            run(call);
            if (deepest > calls[i].deepest[repaint])
                calls[i].deepest[repaint] = deepest;
        }
        *(number == 0 ? &calls[i].accepted : &calls[i].refused) += 1;
    }
}

/* Measures a call whose states and session are to stay as they are. */
static void try(void (*call)(void)) {
    static vs_session session_before;
    vs_hash state_before = state;
    vs_code code_before = code;
    session_before = session;
    measure(call);
    state = state_before, code = code_before, session = session_before;
}

/* ---- Driving them: accepted and refused, empty pieces, part blocks and full ones, deliveries that decide ---- */

static void on_states(void) {
    for (int kind = 0; kind < 4; kind++) { /* fresh; some bytes taken; a block less one; not in order */
        size_t length = message_length;
        measure(fresh);
        message_length = kind == 1 ? 10 : kind == 2 ? 127 : 0;
        measure(update_in_place);
        state.tail[VS_BLOCK - 1] ^= kind == 3;
        message_length = length;
        try(fold), try(update), try(update_in_place), try(finish), try(compare_state);
    }
}

/* Code states as they are started and with some of a message; and each way of not being in order. */
static void on_codes(void) {
    for (int kind = 0; kind < 7; kind++) { /* started; some bytes; a block less one; inner spoilt; outer spoilt; inner too short; outer too long */
        size_t length = message_length;
        measure(code_start);
        message_length = kind == 1 ? 10 : kind == 2 ? 127 : 0;
        measure(code_update_in_place);
        code.inner.tail[VS_BLOCK - 1] ^= kind == 3;
        code.outer.tail[VS_BLOCK - 1] ^= kind == 4;
        code.inner.total -= kind == 5 ? VS_BLOCK : 0;
        code.outer.total += kind == 6 ? VS_BLOCK : 0;
        message_length = length;
        try(code_update), try(code_update_in_place), try(code_finish), try(compare_code);
    }
}

/* Keys that fill less than a block, a block, and more, which are hashed first. */
static const size_t key_lengths[] = {0, 1, VS_DIGEST, VS_BLOCK - 1, VS_BLOCK, VS_BLOCK + 1, 119, 120, sizeof key};

static void on_keys(void) {
    for (size_t i = 0; i < sizeof key_lengths / sizeof *key_lengths; i++) {
        key_length = key_lengths[i];
        try(code_start), try(code_of), try(compare_code_of);
    }
    key_length = VS_DIGEST;
}

static void on_messages(void) {
    try(digest_of), try(compare_message), try(pad_write);
    size_t last = message_length % VS_BLOCK < 56 ? VS_BLOCK : 2 * VS_BLOCK, inside = message_length - message_length % VS_BLOCK;
    for (block = 0; block <= (inside + last) / VS_BLOCK; block++) /* and one that is not there */
        try(block_number), try(block_part);
    memcpy(whole, message, inside);
    memcpy(whole + inside, buffer, last);
    for (int damaged = 0; damaged < 3; damaged++) { /* none; a byte of the fill; the length */
        whole_length = inside + last;
        whole[whole_length - 9 + damaged] ^= damaged != 0;
        try(remove_number), try(remove_part);
        whole[whole_length - 9 + damaged] ^= damaged != 0;
    }
}

/* A message that no memory holds, of which no byte is read; a buffer and an expected digest that are too short. */
static void on_refusals(void) {
    message_length = (size_t)1 << 61, block = 0;
    measure(fresh);
    try(update), try(update_in_place), try(digest_of), try(compare_message), try(pad_write), try(block_number), try(block_part);
    message_length = 100, buffer_length = VS_BLOCK - 1, digest_length = VS_DIGEST - 1;
    try(pad_write), try(block_number), try(block_part), try(compare_message), try(compare_state);
    buffer_length = sizeof buffer, digest_length = VS_DIGEST;
}

/* The same of codes: a message, and then a key, that no memory holds; an expected code that is too short. */
static void on_code_refusals(void) {
    measure(code_start);
    message_length = (size_t)1 << 61;
    try(code_update), try(code_update_in_place), try(code_of), try(compare_code_of);
    message_length = 100, digest_length = VS_DIGEST - 1;
    try(compare_code), try(compare_code_of);
    digest_length = VS_DIGEST, key_length = (size_t)1 << 61;
    try(code_start), try(code_of), try(compare_code_of), try(keyed_read), try(keyed_read_in_place);
    key_length = VS_DIGEST;
}

/* The digits of a digest or code and the line's end, behind the text. */
static void write_digits(void) {
    for (int i = 0; i < VS_DIGEST; i++)
        text_length += (size_t)snprintf(text + text_length, sizeof text - text_length, "%02x", digest[i]);
    text[text_length++] = '\n';
}

/* A sheet that lists all 32 notes, each of LENGTH bytes. Every second one will be shut: its digest is another message's. */
static void write_sheet(void) {
    text_length = (size_t)snprintf(text, sizeof text, "RANK\t1\t%d\n", VS_NOTES);
    for (int n = 1; n <= VS_NOTES; n++) {
        message_length = LENGTH - (size_t)n % 2;
        try(digest_of);
        text_length += (size_t)snprintf(text + text_length, sizeof text - text_length, "%d\t%d\t0\t%d\t", n, LENGTH, LENGTH / 2 - 1);
        write_digits();
    }
}

static void on_sheets(void) {
    size_t all = text_length;
    for (text_length = all % 61; text_length <= all; text_length += 61) /* cut short, and whole */
        try(sheet_read), try(sheet_read_in_place);
    text_length = all;
    for (size_t at = 0; at < all; at += 61) { /* a wrong letter */
        char was = text[at];
        text[at] = 'x';
        try(sheet_read), try(sheet_read_in_place);
        text[at] = was;
    }
}

/* vs_code_of itself, past its door, for the codes of texts: nothing is measured of it. */
vs_digest code_of_text(const uint8_t *by_key, size_t by_key_length, const uint8_t *of, size_t of_length) __asm__("vs_code_of");

/* Puts the MAC line behind the text, with the code that fits. */
static void write_mac_line(void) {
    vs_digest fitting = code_of_text(key, key_length, (const uint8_t *)text, text_length);
    memcpy(digest, fitting.bytes, VS_DIGEST);
    text_length += (size_t)snprintf(text + text_length, sizeof text - text_length, "MAC\t");
    write_digits();
}

static void read_keyed(void) { try(keyed_read), try(keyed_read_in_place); }

/* The sheet's first lines, all of them too, with a code that fits, or a wrong letter that the code is of. */
static void on_fitting_codes(const char *unkeyed, size_t all) {
    for (size_t length = 0; length <= all; length++) {
        if (length > 0 && unkeyed[length - 1] != '\n')
            continue;
        memcpy(text, unkeyed, text_length = length);
        write_mac_line(), read_keyed();
    }
    for (size_t at = 0; at < all; at += 61) {
        memcpy(text, unkeyed, text_length = all);
        text[at] = 'x';
        write_mac_line(), read_keyed();
    }
}

/* Keyed sheets; by every kind of key; cut short, and with a wrong letter that the code is not of, in the MAC line too. The text is left as it was. */
static void on_keyed_sheets(void) {
    static char unkeyed[sizeof text];
    size_t all = text_length;
    memcpy(unkeyed, text, all);
    on_fitting_codes(unkeyed, all);
    for (size_t i = 0; i < sizeof key_lengths / sizeof *key_lengths; i++) {
        key_length = key_lengths[i];
        memcpy(text, unkeyed, text_length = all);
        write_mac_line(), read_keyed();
    }
    size_t keyed = text_length;
    for (text_length = 0; text_length < keyed; text_length += 61)
        read_keyed();
    for (size_t at = 0; at < keyed; at += at < all ? 61 : 1) {
        char was = text[at];
        text_length = keyed, text[at] = 'x';
        read_keyed();
        text[at] = was;
    }
    memcpy(text, unkeyed, text_length = all);
    key_length = VS_DIGEST;
}

/* A sheet written of the session as it stands: into a buffer that always does, and into shorter ones. */
static void on_writing(void) {
    static const size_t lengths[] = {0, 1, 100, VS_LONGEST_SHEET};
    for (size_t i = 0; i < sizeof lengths / sizeof *lengths; i++) {
        sheet_length = lengths[i];
        try(sheet_write);
    }
}

/* Sessions with no note, and with more and more of them, each number with one digit and with all that it may have; and a last slot that is not in order. */
static void on_sheets_to_write(void) {
    memset(&session, 0, sizeof session);
    on_writing();
    for (int n = 0; n < VS_NOTES; n++) {
        vs_slot *slot = &session.slots[n];
        slot->sample.length = n % 2 ? 2 : 4294967294;
        slot->sample.loop_start = n % 2 ? 0 : 2147483646;
        slot->sample.loop_end = n % 2 ? 0 : 2147483646;
        measure(fresh);
        slot->state = state;
        slot->status = VS_WAITING;
        session.listed++;
        on_writing();
    }
    session.slots[VS_NOTES - 1].sample.length = 3;
    on_writing();
}

/* The light of counts that are equal, that are not, and that no slots have. */
static void on_counts(void) {
    static const uint8_t counts[][2] = {{0, 0}, {1, 0}, {0, 1}, {1, 1}, {VS_NOTES, VS_NOTES}, {VS_NOTES, VS_NOTES - 1}, {200, 200}, {UINT8_MAX, 0}};
    for (size_t i = 0; i < sizeof counts / sizeof *counts; i++) {
        session.listed = counts[i][0], session.open = counts[i][1];
        try(ready);
    }
}

static void on_sessions(void) {
    for (int kind = 0; kind < 5; kind++) { /* waiting; with some bytes; decided; a state that is not in order; a status that is none */
        size_t length = message_length;
        measure(sheet_read_in_place);
        session.open = kind == 1 ? VS_NOTES : 0; /* a count that stays, and one that is added to */
        for (note = 1; note <= VS_NOTES; note += VS_NOTES - 1) {
            message_length = kind == 1 ? 127 : kind == 2 ? LENGTH : 0;
            measure(deliver_in_place);
            session.slots[note - 1].state.tail[0] ^= kind == 3;
            session.slots[note - 1].status ^= kind == 4 ? 8 : 0;
        }
        message_length = length;
        for (note = 0; note <= VS_NOTES + 1; note += note == 1 ? VS_NOTES - 1 : 1)
            try(deliver), try(deliver_in_place), try(ask), try(ask_in_place);
        try(sheet_write), try(ready);
    }
}

int main(void) {
    static const size_t lengths[] = {0, 1, 55, 56, 63, 64, 73, 100, 119, 120, 128, LENGTH, 1000};
    for (size_t i = 0; i < sizeof message; i++)
        message[i] = (uint8_t)(i * 7 + i / 251);
    for (size_t i = 0; i < sizeof key; i++)
        key[i] = (uint8_t)(i * 5 + 1);
    write_sheet();
    on_sheets();
    on_keyed_sheets();
    on_sheets_to_write();
    on_refusals();
    on_code_refusals();
    on_counts();
    for (size_t i = 0; i < sizeof lengths / sizeof *lengths; i++) {
        message_length = lengths[i];
        on_messages();
        on_keys();
        on_codes();
        on_states();
        on_sessions();
    }
    for (int i = 0; i < CALLS; i++) {
        unsigned long long without = calls[i].deepest[1], with = calls[i].deepest[0];
        printf("%s\t%llu\t%llu\t%u\t%u\n", calls[i].name, without, with, calls[i].accepted, calls[i].refused);
    }
    return 0;
}
