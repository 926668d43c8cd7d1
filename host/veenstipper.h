/* Veenstipper: a proved loader of sampled organ ranks, for a C host.
 *
 * Every function may be handed any bytes, any state and any session at all: it ends, reads and writes only inside what it is lent, and
 * refuses bad input by a number (VS_ACCEPTED is 0). The library keeps nothing between calls, allocates nothing and calls nothing but
 * memcpy and memset, which the host supplies.
 *
 * What the host sees to:
 * - A slice is a pointer and a number of bytes. The pointer is never null, not even of an empty slice.
 * - Every pointer is the host's and is lent for the call alone. Nothing lent may change during the call, by an interrupt, a DMA or another thread.
 * - What a function writes (a pointer without const) overlaps nothing else that is lent to that call; what is only read may overlap.
 * - A vs_hash *, vs_code * or vs_session * is aligned as its type (8 bytes). Slices need no alignment.
 * - Calls on different states and sessions may run at once. A call writes a state or session that it is lent without const even when it
 *   refuses: it writes what was there.
 *
 * The machine: x86-64, called as System V says, with SSE2 on: the code uses xmm registers, and an interrupt that does so must save them.
 * - Leaf functions use the red zone, the 128 bytes below the stack pointer: whatever interrupts a call must step over them before it writes to
 *   the same stack. An operating system does so. On bare metal the processor does not, for it pushes its frame right below the stack pointer:
 *   there an interrupt that may come during a call runs on a stack of its own (an IST entry), or is held off for the call.
 * - Memory: a session is 5,128 bytes, a hash state 104, a code state 208. docs/FRAMES.md has the stack that each call takes, the red zone
 *   included. On top of its totals come what the host's memcpy and memset take, and the return address of the call to them.
 * - Nothing is claimed of how long a call takes, a comparison too: it looks at all 32 bytes whatever it finds, and no more is said.
 *
 * States and sessions are plain values: copy them and store them. Compare them field by field, since the padding between and behind fields is
 * free. A session of all zero bytes lists no note, and is not ready. A stored state is in order when total is at most 2^61 - 1 and the tail
 * bytes behind the first total % 64 are zero; a stored slot is in order when its length is even, 2 to 4294967294, its loop obeys
 * loop_start <= loop_end < length / 2, and its state is in order with total below length (waiting) or the fresh one (open, shut). What is not in
 * order is refused (6, 9), never used. What is in order is believed, an open slot too: what a status says holds of sessions that only these
 * functions wrote. A slot is listed unless its status is VS_NONE, whatever else it holds; a status above VS_SHUT is listed, and not in order.
 * A stored code state is in order when both its hash states are, the inner with a total of at least 64 and the outer with one of just 64. Nothing
 * is asked of the words: one that was changed and is still in order is used as it stands, whether or not any key has such a state.
 *
 * A key is the host's, and is lent for the call alone: the library keeps none. But a code state is as secret as its key, from vs_code_start on:
 * who has one, or any copy, makes the codes that who has the key makes. Clear both where they are not needed any more, stored ones too. The
 * library clears nothing that it had on the stack, so what a call leaves below the stack pointer is as secret as what it was lent: a host that
 * lets others read that memory clears it too, docs/FRAMES.md's total of the call and what memcpy took. And a state that is passed or returned by
 * value lies in the caller's own frame as well, once or more: clear that too, or keep to vs_code_of and vs_compare_code_of. Clear through a pointer
 * to volatile, for a compiler may leave out a memset that nothing reads after it.
 *
 * What a code says: that who wrote these bytes had the key (as far as no one makes codes without it; of that nothing is proved). What it does
 * not say: who of those that have the key it was, for a dealer that can check a sheet can write one; that the sheet is the newest, for an old
 * one fits for ever; who recorded a sample, for an open note means an equal digest and no more. And it hides nothing: a keyed sheet is plain text.
 *
 * A session counts, beside its slots: listed, how many notes are listed, and open, how many of them are open. Reading a sheet sets both,
 * whatever was there: an accepted one of n notes to n and 0, a refused one to 0 and 0. A delivery that opens a note adds one to open, save that
 * a stored count of 32 or more stays. Nothing else changes a count, and nothing but the light, vs_ready, goes by one: no slot's order, no answer
 * of a delivery or of asking, no sheet that is written. So counts that do not fit the slots, stored or filled in, make the light show nonsense, and
 * nothing more. A session that was stored before there were counts has 5,120 bytes, 8 fewer: it is never lent, for a call would go past its
 * end. Throw it away, read the sheet, and deliver again. And compile every file that includes this header again: one that was compiled with the
 * header of then links all the same.
 *
 * loop_end is the last frame that sounds. Frame f is bytes 2f and 2f + 1 of a sample, and of a note for which a status other than VS_NONE is
 * answered every frame from loop_start to loop_end lies inside the sample: the loop's last byte is 2 * loop_end + 1, below length. By the rule
 * of before the end was the frame after the last: lower each end of such a sheet by one (README.md, "Sheets from before"), and throw away every
 * session that was stored under it.
 *
 * A host that has samples and no sheet fills the slots itself, in a session of zeros: a record (its digest by vs_digest_of, or piece
 * by piece by vs_update_in_place and vs_finish), the state that vs_fresh gives, VS_WAITING. It fills in the counts too, in listed how many slots
 * have a status other than VS_NONE, in open how many have VS_OPEN: so VS_WAITING in each makes open 0.
 * vs_ask_in_place then says of each whether it is in order, and vs_sheet_write makes the sheet. A record is believed there too: the sheet has
 * the length and the digest that it holds, whatever bytes were or were not delivered.
 */
#ifndef VEENSTIPPER_H
#define VEENSTIPPER_H

#include <stdbool.h>
#include <stddef.h>
#include <stdint.h>

#ifdef __cplusplus
extern "C" {
#endif

/* ---- Refusal numbers -------------------------------------------------------------------------------------------------------------- */

#define VS_ACCEPTED 0
/* Sheet: form; count or note; length; loop. Left: the line's number, and a session with no note listed and both counts 0. */
#define VS_FORM 1
#define VS_COUNT_OR_NOTE 2
#define VS_BAD_LENGTH 3
#define VS_BAD_LOOP 4
/* Note 0, above 32, or unlisted; its slot not in order (where a sheet is written: any listed note's). Status 0, taken 0, count 0; session and
 * buffer same. */
#define VS_UNLISTED 5
#define VS_SLOT_NOT_IN_ORDER 6
/* A delivery to a decided note, an empty piece too. Status and taken as they stood; session same. */
#define VS_DECIDED 7
/* Taken and the piece exceed the length. As they stood; nothing of the piece taken. */
#define VS_PAST_LENGTH 8
/* Hash state not in order; of a code state: one of its two is not, the inner has under 64 bytes, or the outer has other than 64. State same; digest
 * and code all zero, comparison no. */
#define VS_STATE_NOT_IN_ORDER 9
/* The message's total would pass 2^61 - 1; of a code: the key has more bytes than that, or the message would pass it with the inner block of 64
 * counted, so above 2^61 - 65. State and buffers same; digest and code all zero, comparison no, count 0, part empty. A code that is started: the
 * empty key's state. A keyed sheet: line 0, and a session with no note listed and both counts 0. */
#define VS_TOO_LONG 10
/* Tail buffer shorter than needed, or expected digest or code not 32 bytes. Buffers same; count 0, part empty, comparison no. */
#define VS_WRONG_SIZE 11
/* Block number not below the block count. Empty part. */
#define VS_NO_SUCH_BLOCK 12
/* The tail buffer's first 64 or 128 bytes are not what vs_pad_write puts there for this message. Empty part. */
#define VS_OTHER_TAIL 13
/* Not a padded message. Empty part. */
#define VS_NOT_PADDED 14
/* Writing a sheet: no note listed; buffer shorter than the sheet. Buffer same; count 0. */
#define VS_NONE_LISTED 15
#define VS_SHORT_BUFFER 16
/* A keyed sheet: the MAC line missing or ill formed; a code that does not fit. Left: line 0, and a session with no note listed and both counts 0. */
#define VS_NO_MAC_LINE 17
#define VS_OTHER_CODE 18

/* ---- Statuses of a note ----------------------------------------------------------------------------------------------------------- */

#define VS_NONE 0
#define VS_WAITING 1
#define VS_OPEN 2
#define VS_SHUT 3

#define VS_NOTES 32
#define VS_BLOCK 64
#define VS_DIGEST 32
#define VS_LONGEST_SHEET 3233 /* bytes: 32 notes, every number with all its digits */
#define VS_MAC_LINE 69        /* bytes: MAC, a tab, 64 hex digits, LF */
#define VS_LONGEST_KEYED_SHEET 3302

/* ---- Values ----------------------------------------------------------------------------------------------------------------------- */

typedef struct {
    uint32_t a, b, c, d, e, f, g, h;
} vs_words;

/* A hash state: eight words, the bytes taken so far, and the last total % 64 of them with zeros behind. */
typedef struct {
    vs_words words;
    uint64_t total;
    uint8_t tail[VS_BLOCK];
} vs_hash;

typedef struct {
    uint8_t number;
    vs_hash state;
} vs_updated;

/* A digest, or a code. */
typedef struct {
    uint8_t number;
    uint8_t bytes[VS_DIGEST];
} vs_digest;

typedef struct {
    uint8_t number;
    bool same;
} vs_compared;

/* A code state, as secret as its key: inner has taken the key's inner block and the message so far, outer the key's outer block alone. */
typedef struct {
    vs_hash inner, outer;
} vs_code;

typedef struct {
    uint8_t number;
    vs_code state;
} vs_code_updated;

typedef struct {
    uint8_t number;
    size_t count;
} vs_written;

/* Where a block lies: 64 bytes from offset, in the message or in the tail buffer; refused: VS_IN_NEITHER, offset and length 0. */
#define VS_IN_NEITHER 0
#define VS_IN_MESSAGE 1
#define VS_IN_BUFFER 2
typedef struct {
    uint8_t which;
    size_t offset;
    size_t length;
} vs_place;

/* What a sheet's line says of a note: length in bytes; the loop's first and last frame, of two bytes each, counted from 0. */
typedef struct {
    uint32_t length, loop_start, loop_end;
    uint8_t digest[VS_DIGEST];
} vs_record;

typedef struct {
    vs_record sample;
    vs_hash state;
    uint8_t status;
} vs_slot;

/* 32 slots: slots[0] is note 1's. Behind them how many notes are listed, and how many of these are open. */
typedef struct {
    vs_slot slots[VS_NOTES];
    uint8_t listed, open;
} vs_session;

typedef struct {
    uint8_t number;
    uint8_t status;
    uint64_t taken;
} vs_answer;

typedef struct {
    vs_answer answer;
    vs_session session;
} vs_delivered;

/* What is said of a sheet: its number, and the line that decided (0 where it is accepted, and where a keyed one is refused by 10, 17 or 18). */
typedef struct {
    uint8_t number;
    uint32_t line;
} vs_verdict;

typedef struct {
    vs_verdict verdict;
    vs_session session;
} vs_sheet;

/* The layout that the library was compiled with: a host whose compiler lays these out otherwise does not compile. */
#ifdef __cplusplus
#define VS_LAYOUT(fact) static_assert(fact, #fact)
#define VS_ALIGNMENT(type) alignof(type)
#else
#define VS_LAYOUT(fact) _Static_assert(fact, #fact)
#define VS_ALIGNMENT(type) _Alignof(type)
#endif
VS_LAYOUT(sizeof(size_t) == 8);
VS_LAYOUT(sizeof(vs_words) == 32);
VS_LAYOUT(sizeof(vs_hash) == 104);
VS_LAYOUT(sizeof(vs_updated) == 112);
VS_LAYOUT(sizeof(vs_digest) == 33);
VS_LAYOUT(sizeof(vs_compared) == 2);
VS_LAYOUT(offsetof(vs_code, outer) == 104);
VS_LAYOUT(sizeof(vs_code) == 208);
VS_LAYOUT(VS_ALIGNMENT(vs_code) == 8);
VS_LAYOUT(offsetof(vs_code_updated, state) == 8);
VS_LAYOUT(sizeof(vs_code_updated) == 216);
VS_LAYOUT(sizeof(vs_written) == 16);
VS_LAYOUT(sizeof(vs_place) == 24);
VS_LAYOUT(sizeof(vs_record) == 44);
VS_LAYOUT(offsetof(vs_slot, state) == 48);
VS_LAYOUT(offsetof(vs_slot, status) == 152);
VS_LAYOUT(sizeof(vs_slot) == 160);
VS_LAYOUT(offsetof(vs_session, listed) == 5120);
VS_LAYOUT(offsetof(vs_session, open) == 5121);
VS_LAYOUT(sizeof(vs_session) == 5128);
VS_LAYOUT(VS_ALIGNMENT(vs_session) == 8);
VS_LAYOUT(sizeof(vs_answer) == 16);
VS_LAYOUT(sizeof(vs_delivered) == 5144);
VS_LAYOUT(sizeof(vs_verdict) == 8);
VS_LAYOUT(sizeof(vs_sheet) == 5136);
VS_LAYOUT(VS_LONGEST_KEYED_SHEET == VS_LONGEST_SHEET + VS_MAC_LINE);

/* ---- SM3 -------------------------------------------------------------------------------------------------------------------------- */

/* The whole blocks of 64 bytes folded into eight words; bytes after the last whole block are not looked at. */
vs_words vs_fold(vs_words words, const uint8_t *bytes, size_t bytes_length);

/* The state of a message of which nothing has come. */
vs_hash vs_fresh(void);

/* The state with a piece more. Refusals 9, 10: the state as it was. */
vs_updated vs_update(vs_hash state, const uint8_t *piece, size_t piece_length);

/* The same in place: answers the number; *state is the new state, or as it was where the number is a refusal. */
uint8_t vs_update_in_place(vs_hash *state, const uint8_t *piece, size_t piece_length);

/* The digest of all that the state has taken. Refusal 9: all zero. */
vs_digest vs_finish(vs_hash state);

/* The digest of a whole message. Refusal 10: all zero. */
vs_digest vs_digest_of(const uint8_t *message, size_t message_length);

/* Whether the digest is the expected one. The code looks at all 32 bytes whatever it finds. Refusals 10 (9 of a state), 11: no. */
vs_compared vs_compare_message(const uint8_t *message, size_t message_length, const uint8_t *expected, size_t expected_length);
vs_compared vs_compare_state(vs_hash state, const uint8_t *expected, size_t expected_length);

/* ---- Codes: HMAC over SM3 ----------------------------------------------------------------------------------------------------------- */

/* The code of a message by a key is HMAC as RFC 2104 defines it, with SM3 for its hash, blocks of 64 bytes and a code of 32. Keys are of every
 * length, and an empty key is a key (which everyone has). A key of at most 64 bytes is filled up to a block with zeros, a longer one is
 * hashed first: so two keys of at most 64 bytes that differ only by zeros at the end have the same codes, and a key over 64 bytes and its digest
 * have. Keys of one length up to 64 never meet so: take 32 random bytes. */

/* The state of a message of which nothing has come, by this key. Refusal 10: the state of the empty key, so go by the number. A copy of a started
 * state serves the next message: the key's two blocks are folded here, and never again. */
vs_code_updated vs_code_start(const uint8_t *key, size_t key_length);

/* The state with a piece of the message more. Refusals 9, 10: the state as it was. The inner total counts the key's block, so 10 is given where it
 * and the piece exceed 2^61 - 1. An empty piece changes nothing. */
vs_code_updated vs_code_update(vs_code state, const uint8_t *piece, size_t piece_length);

/* The same in place: answers the number; *state is the new state, or as it was where the number is a refusal. */
uint8_t vs_code_update_in_place(vs_code *state, const uint8_t *piece, size_t piece_length);

/* The code of all that the state has taken. Refusal 9: all zero. */
vs_digest vs_code_finish(vs_code state);

/* The code of a whole message. Refusal 10, of the key or of the message: all zero. */
vs_digest vs_code_of(const uint8_t *key, size_t key_length, const uint8_t *message, size_t message_length);

/* Whether the code is the expected one. The library looks at all 32 bytes whatever it finds. Refusals 9, 11 of a state; in one call 10 of the key,
 * 10 of the message, 11: no. Compare codes by these, and not by memcmp, which may tell by its time how far a forged one fits. */
vs_compared vs_compare_code(vs_code state, const uint8_t *expected, size_t expected_length);
vs_compared vs_compare_code_of(const uint8_t *key, size_t key_length, const uint8_t *message, size_t message_length, const uint8_t *expected,
                               size_t expected_length);

/* ---- Padded blocks ---------------------------------------------------------------------------------------------------------------- */

/* Writes the message's last message_length % 64 bytes and the padding to the front of the buffer; count says how many bytes that are, 64 or 128.
 * Later bytes of the buffer keep their content. Refusals 10, 11: count 0, buffer untouched. A buffer of 128 bytes always does. */
vs_written vs_pad_write(const uint8_t *message, size_t message_length, uint8_t *buffer, size_t buffer_length);

/* Block i of the padded message, given the message and the buffer that vs_pad_write filled: its number (10, 11, 13, 12), and where it lies. */
uint8_t vs_block_number(const uint8_t *message, size_t message_length, const uint8_t *buffer, size_t buffer_length, size_t i);
vs_place vs_block_part(const uint8_t *message, size_t message_length, const uint8_t *buffer, size_t buffer_length, size_t i);

/* Whether bytes are a padded message (0 or 14), and how many of them, from the first, are the message (0 where they are not one). */
uint8_t vs_remove_number(const uint8_t *bytes, size_t bytes_length);
size_t vs_remove_part(const uint8_t *bytes, size_t bytes_length);

/* ---- The rank sheet and the loading session ---------------------------------------------------------------------------------------- */

/* The session of a sheet: every listed note waiting, counted in listed, and open 0. Refusals 1 to 4 with the line; then no note is listed, and
 * both counts are 0. An accepted sheet's line is 0. */
vs_sheet vs_sheet_read(const uint8_t *text, size_t text_length);

/* The same into a lent session, whatever it held: under 1 KB of stack where the call by value takes over 10 KB. */
vs_verdict vs_sheet_read_in_place(vs_session *session, const uint8_t *text, size_t text_length);

/* Writes the sheet of the session's listed notes to the front of the buffer, whatever their status; count says how many bytes that are. Later
 * bytes of the buffer keep their content, and the session is only read. Read again, the sheet lists the same records, every note waiting; of a
 * session that was read from a sheet it is that sheet, byte for byte, whatever was delivered since (of a keyed one without its MAC line: a session
 * does not know of a key). Refusals 6 (of any listed slot), 15, 16, in this order: count 0, buffer untouched. A buffer of VS_LONGEST_SHEET bytes
 * always does. */
vs_written vs_sheet_write(const vs_session *session, uint8_t *buffer, size_t buffer_length);

/* A piece of a note's bytes. Refusals 5, 6, 7, 8: the session as it was. A note is open (VS_OPEN) from the moment its last byte is in and
 * the digest fits, shut (VS_SHUT) if it does not fit, and stays so. The delivery that opens it adds one to the open count, save that a count
 * of 32 or more stays; no other delivery changes a count. */
vs_delivered vs_deliver(vs_session session, uint64_t note, const uint8_t *piece, size_t piece_length);

/* The same in place: of the session only the note's own slot and the open count are copied, and written back. */
vs_answer vs_deliver_in_place(vs_session *session, uint64_t note, const uint8_t *piece, size_t piece_length);

/* A note's status and the bytes taken. Refusals 5, 6. */
vs_answer vs_ask(vs_session session, uint64_t note);
vs_answer vs_ask_in_place(const vs_session *session, uint64_t note);

/* The rank-ready light, answered from the two counts alone: yes exactly when they are equal and not zero. It refuses nothing, and looks at no
 * slot (stored counts of 200 and 200 are a yes). It takes a few instructions, so a panel may ask as often as it likes, only not during a call that
 * writes the session. From an accepted sheet on, whatever is delivered, a yes says exactly that every listed note is open, and that at least one
 * is listed: what a walk over the slots would find. It stays until a sheet is read again. After a refused sheet the answer is no. Of a stored
 * session of which anything was changed it may be yes while asking a note answers 6: a host that restores one asks each note once first. */
bool vs_ready(const vs_session *session);

/* ---- The keyed sheet ---------------------------------------------------------------------------------------------------------------- */

/* A keyed sheet is a sheet and one more line, VS_MAC_LINE bytes: MAC, a tab, 64 hex digits 0-9 and a-f, LF. The digits are the code of all bytes
 * before that line, by the key. To write one: vs_sheet_write, then the line, of vs_code_of the bytes written (host/make.c does so). vs_sheet_read
 * refuses a keyed sheet of n notes, by 1 at line n + 2.
 *
 * The session of a keyed sheet. It is accepted exactly when the MAC line is well formed, the code fits, and the rest is a sheet that vs_sheet_read
 * accepts; the session is then the one that this gives of the rest, and the line is 0. Refusals, in this order, and each with no note listed and both
 * counts 0: 10, the key has above 2^61 - 1 bytes; 17, the last 69 bytes are no MAC line, or the bytes before them are not none and do not end with
 * LF; 10, above 2^61 - 65 bytes before that line; 18, the code does not fit: all these with line 0; then 1 to 4 of the rest, with the line. So 1 to 4
 * are only said of bytes whose code fits.
 *
 * A host that asks for a key never reads the same text without one, and does not try vs_sheet_read after 17: whoever cuts the MAC line off has a
 * plain sheet. */
vs_sheet vs_keyed_read(const uint8_t *key, size_t key_length, const uint8_t *text, size_t text_length);

/* The same into a lent session, whatever it held: refused, it lists no note, and what was loaded is gone. A host that would keep its rank until the
 * next one is accepted lends another session. */
vs_verdict vs_keyed_read_in_place(vs_session *session, const uint8_t *key, size_t key_length, const uint8_t *text, size_t text_length);

#ifdef __cplusplus
}
#endif
#endif
