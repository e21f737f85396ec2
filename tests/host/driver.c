/* Calls the entry points of wharfgrain.h: reads commands from standard input, one a line, and writes an
   answer for each, one a line.

       command                                       answer
       known NUMBER                                  number p emax sub
       cround P EMAX SUB MODE R WORDS IN OUTLEN      number place out
       cpack P EMAX SUB IN OUTLEN                    number place out
       cunpack P EMAX SUB IN OUTLEN                  number place out

   WORDS and IN are bytes, two digits 0-9 a-f each, or - for none; so is the answer's out, which holds bytes
   EE before the call. OUTLEN is its length. These call the forms on bytes; wround, wpack and wunpack call
   those on 64-bit words: their arrays are bytes too, the low one of each word first, and OUTLEN counts words.

   Every array lies between guards. Where a guard, the words or the inputs are not afterwards as they were,
   the answer ends with TOUCHED and the array's name. A line that is no command ends the program with
   status 1. */
#include <inttypes.h>
#include <stdint.h>
#include <stdio.h>
#include <stdlib.h>
#include <string.h>

#include "wharfgrain.h"

enum { GUARD = 64, GUARD_BYTE = 0xA5, HELD_BYTE = 0xEE, MOST_FIELDS = 9 };

static unsigned long line_number;

static void fail(const char *why)
{
    fprintf(stderr, "driver: line %lu: %s\n", line_number, why);
    exit(1);
}

static void *room_for(size_t size)
{
    void *room = malloc(size);
    if (room == NULL)
        fail("there is not enough memory");
    return room;
}

/* ---- reading a command */

/* The next line without its end, in room that the next one uses again; NULL where there is none. */
static char *next_line(void)
{
    static char *line;
    static size_t room;
    size_t length = 0;
    int c;

    line_number++;
    while ((c = getchar()) != EOF && c != '\n') {
        if (c == '\0')
            fail("a zero byte");
        if (room < length + 2) {
            room = 2 * room + 4096;
            line = realloc(line, room);
            if (line == NULL)
                fail("there is not enough memory");
        }
        line[length++] = (char)c;
    }
    if (c == EOF && length == 0)
        return NULL;
    if (c == EOF)
        fail("the line does not end");
    if (length == 0)
        fail("an empty line");
    line[length] = '\0';
    return line;
}

/* Cuts the line at its spaces, and answers how many fields there are. */
static int cut(char *line, char *fields[MOST_FIELDS])
{
    int count = 0;

    while (line != NULL) {
        if (count == MOST_FIELDS)
            fail("too many fields");
        fields[count++] = line;
        line = strchr(line, ' ');
        if (line != NULL)
            *line++ = '\0';
    }
    return count;
}

static uint64_t number_in(const char *field)
{
    uint64_t number = 0;

    if (*field == '\0')
        fail("an empty field");
    for (; *field != '\0'; field++) {
        uint64_t digit = (uint64_t)(*field - '0');
        if (*field < '0' || *field > '9' || number > (UINT64_MAX - digit) / 10)
            fail("a number that is not decimal or has more than 64 bits");
        number = 10 * number + digit;
    }
    return number;
}

static unsigned digit_in(char c)
{
    if (c >= '0' && c <= '9')
        return (unsigned)(c - '0');
    if (c < 'a' || c > 'f')
        fail("a byte that is not two digits 0-9 a-f");
    return (unsigned)(c - 'a') + 10;
}

/* ---- arrays between guards */

typedef struct {
    unsigned char *block;  /* a guard, the array, a guard */
    unsigned char *before; /* what all three held before the call */
    size_t front;          /* where the array begins */
    size_t size;           /* the array's bytes */
} array;

/* An array of bytes EE that begins so many bytes behind an address for words. */
static array new_array(size_t size, size_t offset)
{
    array a;

    a.front = GUARD + offset;
    a.size = size;
    a.block = room_for(a.front + size + GUARD);
    a.before = room_for(a.front + size + GUARD);
    memset(a.block, GUARD_BYTE, a.front + size + GUARD);
    memset(a.block + a.front, HELD_BYTE, size);
    return a;
}

static array array_in(const char *field, size_t offset)
{
    size_t digits = strcmp(field, "-") == 0 ? 0 : strlen(field);
    array a = new_array(digits / 2, offset);
    size_t i;

    if (digits % 2 != 0 || *field == '\0')
        fail("bytes that are not two digits each, or - for none");
    for (i = 0; i < a.size; i++)
        a.block[a.front + i] = (unsigned char)(16 * digit_in(field[2 * i]) + digit_in(field[2 * i + 1]));
    return a;
}

static void drop(array a)
{
    free(a.block);
    free(a.before);
}

static uint8_t *bytes(array a)
{
    return a.block + a.front;
}

static uint64_t *words(array a)
{
    return (uint64_t *)(void *)(a.block + a.front);
}

/* The bytes of each word, the low one first, become the word as this machine has it. */
static void bytes_to_words(array a)
{
    size_t i;

    if (a.size % 8 != 0)
        fail("an array of words that has a part of a word");
    for (i = 0; i < a.size; i += 8) {
        uint64_t word = 0;
        int k;
        for (k = 7; k >= 0; k--)
            word = word << 8 | bytes(a)[i + (size_t)k];
        memcpy(bytes(a) + i, &word, 8);
    }
}

static void words_to_bytes(array a)
{
    size_t i;

    for (i = 0; i < a.size; i += 8) {
        uint64_t word;
        int k;
        memcpy(&word, bytes(a) + i, 8);
        for (k = 0; k < 8; k++)
            bytes(a)[i + (size_t)k] = (uint8_t)(word >> (8 * k));
    }
}

static void remember(array a)
{
    memcpy(a.before, a.block, a.front + a.size + GUARD);
}

static int guards_are_kept(array a)
{
    size_t behind = a.front + a.size;
    return memcmp(a.block, a.before, a.front) == 0 && memcmp(a.block + behind, a.before + behind, GUARD) == 0;
}

static int is_kept(array a)
{
    return guards_are_kept(a) && memcmp(bytes(a), a.before + a.front, a.size) == 0;
}

static void print_bytes(array a)
{
    size_t i;

    if (a.size == 0)
        putchar('-');
    for (i = 0; i < a.size; i++) {
        putchar("0123456789abcdef"[bytes(a)[i] / 16]);
        putchar("0123456789abcdef"[bytes(a)[i] % 16]);
    }
}

/* ---- calling */

typedef enum { ROUND, PACK, UNPACK } job;

static wharfgrain_report call_on_bytes(job j, const uint64_t *n, array w, array in, array out)
{
    if (j == PACK)
        return wharfgrain_pack_bytes(n[0], n[1], n[2], bytes(in), in.size, bytes(out), out.size);
    if (j == UNPACK)
        return wharfgrain_unpack_bytes(n[0], n[1], n[2], bytes(in), in.size, bytes(out), out.size);
    return wharfgrain_round_bytes(n[0], n[1], n[2], n[3], n[4], bytes(w), w.size, bytes(in), in.size, bytes(out),
                                  out.size);
}

static wharfgrain_report call_on_words(job j, const uint64_t *n, array w, array in, array out)
{
    if (j == PACK)
        return wharfgrain_pack(n[0], n[1], n[2], words(in), in.size / 8, words(out), out.size / 8);
    if (j == UNPACK)
        return wharfgrain_unpack(n[0], n[1], n[2], words(in), in.size / 8, words(out), out.size / 8);
    return wharfgrain_round(n[0], n[1], n[2], n[3], n[4], words(w), w.size / 8, words(in), in.size / 8, words(out),
                            out.size / 8);
}

static size_t length_in(const char *field, size_t unit)
{
    uint64_t length = number_in(field);

    if (length > SIZE_MAX / 4 / unit)
        fail("an array that is too long");
    return (size_t)length * unit;
}

/* The array calls. Bytes may lie anywhere: in every second call they begin where words may, and in the others
   at addresses that change from call to call. */
static void answer_array_call(job j, int on_words, char **fields)
{
    static size_t turn;
    size_t away;
    uint64_t n[5];
    int numbers = j == ROUND ? 5 : 3, i;
    array w, in, out;
    wharfgrain_report report;

    for (i = 0; i < numbers; i++)
        n[i] = number_in(*fields++);
    turn += on_words ? 0 : 1;
    away = on_words || turn % 2 == 0 ? 0 : turn / 2;
    w = array_in(j == ROUND ? *fields++ : "-", away / 64 % 8);
    in = array_in(*fields++, away / 8 % 8);
    out = new_array(length_in(*fields, on_words ? 8 : 1), away % 8);
    if (on_words) {
        bytes_to_words(w);
        bytes_to_words(in);
    }
    remember(w);
    remember(in);
    remember(out);
    report = on_words ? call_on_words(j, n, w, in, out) : call_on_bytes(j, n, w, in, out);
    if (on_words)
        words_to_bytes(out);
    printf("%" PRIu64 " %" PRIu64 " ", report.number, report.place);
    print_bytes(out);
    printf("%s", is_kept(w) ? "" : " TOUCHED words");
    printf("%s", is_kept(in) ? "" : " TOUCHED in");
    printf("%s", guards_are_kept(out) ? "" : " TOUCHED out");
    drop(w);
    drop(in);
    drop(out);
}

static void answer_known(const char *field)
{
    wharfgrain_format format = wharfgrain_known(number_in(field));
    printf("%" PRIu64 " %" PRIu64 " %" PRIu64 " %" PRIu64, format.number, format.p, format.emax, format.sub);
}

static void answer(char *line)
{
    static const char *const names[] = {"round", "pack", "unpack"};
    char *fields[MOST_FIELDS];
    int count = cut(line, fields);
    char form = fields[0][0];
    int j;

    if (strcmp(fields[0], "known") == 0 && count == 2) {
        answer_known(fields[1]);
        return;
    }
    if (form == 'c' || form == 'w')
        for (j = ROUND; j <= UNPACK; j++)
            if (strcmp(fields[0] + 1, names[j]) == 0 && count == (j == ROUND ? 9 : 6)) {
                answer_array_call((job)j, form == 'w', fields + 1);
                return;
            }
    fail("no command, or not with so many fields");
}

/* What is written goes out line by line, so that where a call ends the program, it is seen which one. */
int main(void)
{
    char *line;

    while ((line = next_line()) != NULL) {
        answer(line);
        putchar('\n');
        if (fflush(stdout) != 0)
            fail("the answer cannot be written");
    }
    return 0;
}
