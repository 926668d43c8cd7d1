/* Makes the sheet of a recorded rank: make [--key FILE] FOLDER NOTE:START:END .. (./sheet builds it and runs it).
 *
 * Each word names a note and its loop; length and digest are those of the note's file in the folder, NN.raw. They are put into a session,
 * and the sheet that the library writes of it is printed. The library judges the loops as well, so a sheet that is printed is one that it
 * reads. All is good or nothing is printed: what is wrong goes to standard error, a line for each word or note that it is wrong with, and
 * the exit status is 1. A sample that is there and in no word is told too, behind a sheet that is printed.
 *
 * With --key it makes a keyed sheet: the same, and the MAC line with its code by the key that the file holds. */
#include "key_file.h"
#include "plain_c.h"
#include "veenstipper.h"

enum { PIECE = 4096 };
_Static_assert(PIECE >= VS_LONGEST_KEYED_SHEET, "a piece's place takes a sheet as well, a keyed one too");

static const long longest_sample = 4294967294;

static vs_session session; /* of zeros: it lists no note */
static uint8_t piece[PIECE];

/* Says what is wrong, and is false. The program is called by the command that its user gives. */
#define WRONG(...) (fprintf(stderr, "sheet: " __VA_ARGS__), false)

/* ---- The words ---- */

/* A number as in a sheet: decimal, no leading zero, at most 4294967295. It is taken from the front of the text, and never cut down. */
static bool take_number(const char **text, uint32_t *number) {
    const char *first = *text;
    uint64_t n = 0;
    for (; **text >= '0' && **text <= '9'; ++*text) {
        n = n * 10 + (uint64_t)(**text - '0');
        if (n > UINT32_MAX)
            return false;
    }
    *number = (uint32_t)n;
    return *text != first && (*first != '0' || *text == first + 1);
}

static bool take_colon(const char **text) { return *(*text)++ == ':'; }

/* Lists the note that a word names, with its loop, and counts it. */
static bool list_note(const char *word) {
    const char *text = word;
    uint32_t note, start, end;
    if (!(take_number(&text, &note) && take_colon(&text) && take_number(&text, &start) && take_colon(&text) && take_number(&text, &end) &&
          *text == 0))
        return WRONG("'%s' is not NOTE:START:END, three numbers of at most 4294967295 with no sign and no leading zero\n", word);
    if (note < 1 || note > VS_NOTES)
        return WRONG("note %u: notes are 1 to %d\n", note, VS_NOTES);
    vs_slot *slot = &session.slots[note - 1];
    if (slot->status != VS_NONE)
        return WRONG("note %u: it is given twice\n", note);
    slot->sample.loop_start = start;
    slot->sample.loop_end = end;
    slot->state = vs_fresh();
    slot->status = VS_WAITING;
    session.listed++; /* at most 32 times, since no note is listed twice; none is open */
    return true;
}

/* ---- The files ---- */

/* The bytes of a file, in 64 bits, or less than 0 where it cannot be read from its start. A folder opens as a file does: only reading
 * tells. */
static long size_of(FILE *f) {
    fgetc(f);
    long size = ferror(f) || fseek(f, 0, SEEK_END) != 0 ? -1 : ftell(f);
    return fseek(f, 0, SEEK_SET) == 0 ? size : -1;
}

/* The rest of a listed note's record. What the size tells is told before anything is read, since a sample may be large. */
static bool fill_record(unsigned note, const char *name, FILE *f) {
    vs_record *sample = &session.slots[note - 1].sample;
    long size = size_of(f);
    if (size < 0)
        return WRONG("note %u: %s cannot be read\n", note, name);
    if (size == 0)
        return WRONG("note %u: %s is empty\n", note, name);
    if (size > longest_sample)
        return WRONG("note %u: %s has %ld bytes, and a sample at most %ld\n", note, name, size, longest_sample);
    if (size % 2 != 0)
        return WRONG("note %u: %s has %ld bytes, an odd number, and a frame is two\n", note, name, size);
    sample->length = (uint32_t)size;
    if (vs_ask_in_place(&session, note).number != VS_ACCEPTED) /* all else in the slot is in order */
        return WRONG("note %u: its loop, %u to %u, is not start <= end < %ld: %s has the frames 0 to %ld\n", note, sample->loop_start,
                     sample->loop_end, size / 2, name, size / 2 - 1);

    vs_hash state = vs_fresh();
    size_t n;
    while (state.total <= (uint64_t)size && (n = fread(piece, 1, PIECE, f)) > 0)
        if (vs_update_in_place(&state, piece, n) != VS_ACCEPTED)
            break;
    if (ferror(f) || state.total != (uint64_t)size)
        return WRONG("note %u: %s could not be read as the %ld bytes that it had\n", note, name, size);
    vs_digest digest = vs_finish(state);
    memcpy(sample->digest, digest.bytes, VS_DIGEST);
    return true;
}

static bool fill_note(unsigned note) {
    char name[16];
    snprintf(name, sizeof name, "%02u.raw", note);
    FILE *f = fopen(name, "rb");
    if (!f)
        return WRONG("note %u: there is no %s that can be opened\n", note, name);
    bool filled = fill_record(note, name, f);
    fclose(f);
    return filled;
}

/* ---- The sheet ---- */

static bool list_notes(char **words) {
    bool good = true;
    for (; *words; words++)
        good = list_note(*words) && good; /* the next one is looked at all the same */
    return good;
}

static bool fill_notes(void) {
    bool good = true;
    for (unsigned note = 1; note <= VS_NOTES; note++)
        if (session.slots[note - 1].status != VS_NONE)
            good = fill_note(note) && good;
    return good;
}

/* Puts the MAC line behind a sheet, to which it adds its own bytes: the code is that of all bytes before it. */
static bool add_mac_line(vs_written *sheet) {
    static const char digits[] = "0123456789abcdef";
    uint8_t *line = piece + sheet->count;
    vs_digest code = vs_code_of(key, key_length, piece, sheet->count);
    forget_key();
    if (code.number != VS_ACCEPTED)
        return WRONG("its code is refused with number %u\n", code.number);
    memcpy(line, "MAC\t", 4);
    for (int i = 0; i < VS_DIGEST; i++) {
        line[4 + 2 * i] = (uint8_t)digits[code.bytes[i] >> 4];
        line[5 + 2 * i] = (uint8_t)digits[code.bytes[i] & 15];
    }
    line[VS_MAC_LINE - 1] = '\n';
    sheet->count += VS_MAC_LINE;
    return true;
}

static bool print_sheet(bool keyed) {
    vs_written sheet = vs_sheet_write(&session, piece, VS_LONGEST_SHEET);
    if (sheet.number != VS_ACCEPTED)
        return WRONG("it is refused with number %u\n", sheet.number);
    if (keyed && !add_mac_line(&sheet))
        return false;
    if (fwrite(piece, 1, sheet.count, stdout) != sheet.count || fclose(stdout) != 0)
        return WRONG("it could not be written to standard output\n");
    return true;
}

/* A note that was forgotten would be missed only when the rank is played, so it is told; the sheet may be meant so. */
static void tell_left_out(void) {
    for (unsigned note = 1; note <= VS_NOTES; note++) {
        char name[16];
        snprintf(name, sizeof name, "%02u.raw", note);
        if (session.slots[note - 1].status == VS_NONE && access(name, 0) == 0)
            fprintf(stderr, "sheet: note %u is not named, so %s is not in the sheet\n", note, name);
    }
}

/* The words: FOLDER NOTE:START:END .. */
static bool make_sheet(char **words, bool keyed) {
    if (!list_notes(words + 1))
        return false;
    if (chdir(words[0]) != 0)
        return WRONG("there is no folder '%s'\n", words[0]);
    if (!(fill_notes() && print_sheet(keyed)))
        return false;
    tell_left_out();
    return true;
}

static bool made(int argc, char **argv) {
    bool keyed = argc > 1 && strcmp(argv[1], "--key") == 0;
    int folder = keyed ? 3 : 1; /* which word it is */
    if (argc < folder + 2)
        return WRONG("a folder, and a loop for each note, its first and last frame: [--key FILE] FOLDER NOTE:START:END ..\n");
    const char *wrong = keyed ? read_key(argv[2]) : 0; /* before the folder is entered: the key's path is not meant from there */
    if (wrong)
        return WRONG("the key file '%s' %s\n", argv[2], wrong);
    if (keyed)
        tell_empty_key("sheet", argv[2]);
    return make_sheet(argv + folder, keyed);
}

int main(int argc, char **argv) { return made(argc, argv) ? 0 : 1; }
