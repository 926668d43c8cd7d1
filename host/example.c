/* A C host: loads the rank in the folder that it is given (or in the one that it is run in) and prints a line for each of its notes, and below it
 * the rank-ready light as it stands then: `ready yes` once every listed note is open, `ready no` before. Of a refused sheet it prints the refusal
 * alone: nothing is loaded, and the light stays off.
 * This is what firmware does, with files in place of a card. example [--key FILE] [FOLDER [--sheet]]: with --key it takes keyed sheets alone, whose
 * code fits the key that the file holds. With --sheet it loads the rank all the same, and prints the sheet that the library writes of the session
 * then: rank.txt again, without the MAC line of a keyed one, whatever became of the notes. */
#include "key_file.h"
#include "plain_c.h"
#include "veenstipper.h"

enum { PIECE = 4096 };
_Static_assert(PIECE >= VS_LONGEST_KEYED_SHEET, "a piece's place takes a sheet as well, a keyed one too");

static vs_session session; /* 5 KB: not on the stack */
static uint8_t piece[PIECE];

static size_t read_some(FILE *f) { return fread(piece, 1, PIECE, f); }

static void load_note(unsigned note) {
    char name[16];
    snprintf(name, sizeof name, "%02u.raw", note);
    FILE *f = fopen(name, "rb");
    if (!f)
        return; /* a missing file delivers nothing */
    size_t n;
    while ((n = read_some(f)) > 0)
        if (vs_deliver_in_place(&session, note, piece, n).number != VS_ACCEPTED || n < PIECE)
            break;
    fclose(f);
}

static void print_note(unsigned note) {
    static const char *const words[] = {"none", "waiting", "open", "shut"};
    vs_answer a = vs_ask_in_place(&session, note);
    printf("%u\t%s\t%llu\n", note, words[a.status], (unsigned long long)a.taken);
}

static void print_light(void) { printf("ready\t%s\n", vs_ready(&session) ? "yes" : "no"); }

/* The exit status: where there is no sheet to write, nothing is printed that could be taken for one. */
static int print_sheet(void) {
    vs_written sheet = vs_sheet_write(&session, piece, VS_LONGEST_SHEET);
    if (sheet.number != VS_ACCEPTED) {
        fprintf(stderr, "example: the sheet is not written: refusal %u\n", sheet.number);
        return 1;
    }
    return fwrite(piece, 1, sheet.count, stdout) == sheet.count && fflush(stdout) == 0 ? 0 : 1;
}

/* The sheet's verdict: a folder with no rank.txt has an empty sheet. The key is not needed after it. */
static vs_verdict read_sheet(bool keyed) {
    FILE *f = fopen("rank.txt", "rb");
    size_t n = f ? read_some(f) : 0;
    if (f)
        fclose(f);
    if (!keyed)
        return vs_sheet_read_in_place(&session, piece, n);
    vs_verdict sheet = vs_keyed_read_in_place(&session, key, key_length, piece, n);
    forget_key();
    return sheet;
}

static int load_rank(bool keyed, bool to_write) {
    vs_verdict sheet = read_sheet(keyed);
    if (sheet.number != VS_ACCEPTED && !to_write) {
        printf("refused\t%u\t%u\n", sheet.number, sheet.line);
        return 0;
    }
    for (unsigned note = 1; note <= VS_NOTES; note++) {
        if (vs_ask_in_place(&session, note).number != VS_ACCEPTED)
            continue;
        load_note(note);
        if (to_write)
            continue;
        print_note(note);
        print_light();
    }
    return to_write ? print_sheet() : 0;
}

int main(int argc, char **argv) {
    bool keyed = argc > 1 && strcmp(argv[1], "--key") == 0;
    int folder = keyed ? 3 : 1; /* which word it is, if it is there */
    bool to_write = argc == folder + 2 && strcmp(argv[folder + 1], "--sheet") == 0;
    if (argc < folder || argc > folder + 1 + to_write) {
        fputs("example [--key FILE] [FOLDER [--sheet]]\n", stderr);
        return 1;
    }
    const char *wrong = keyed ? read_key(argv[2]) : 0; /* before the folder is entered: the key's path is not meant from there */
    if (wrong) {
        fprintf(stderr, "example: the key file '%s' %s\n", argv[2], wrong);
        return 1;
    }
    if (keyed)
        tell_empty_key("example", argv[2]);
    if (argc > folder && chdir(argv[folder]) != 0) {
        fputs("example: no such folder\n", stderr);
        return 1;
    }
    return load_rank(keyed, to_write);
}
