/* The C functions of the library over the second program's framed streams; the head of second.rs says their form.
 *
 *   driver read | write | analyse      a framed stream in, for each input the outcome and a line `.`
 *
 * Lent lists, blocks and reports are filled beforehand and shown whole. Beside each lies a margin that nothing may touch.
 * Status 1, with a line on standard error: a margin was touched, a frame is cut short or too long, or a stream failed. */
#include "visnumar.h"
#include <stdio.h>
#include <stdlib.h>

#define LENT 0xEEEEEEEEu

enum { frame_most = 65536, lent_most = 65535, margin = 64 };

static uint8_t frame[frame_most];
static uint32_t list[frame_most / 4];
static uint32_t numbers[margin + lent_most + margin];
static uint8_t bytes[margin + lent_most + margin];

static char said[1 << 16];
static size_t used = 0;

static void fail(const char *words)
{
    fprintf(stderr, "driver: %s\n", words);
    exit(1);
}

static void flush(void)
{
    if (fwrite(said, 1, used, stdout) != used || fflush(stdout) != 0)
        fail("standard output can't be written");
    used = 0;
}

static void say(char c)
{
    if (used == sizeof said)
        flush();
    said[used++] = c;
}

static void say_number(uint32_t n)
{
    char digits[10];
    int count = 0;
    do {
        digits[count++] = (char)('0' + n % 10);
        n /= 10;
    } while (n != 0);
    while (count > 0)
        say(digits[--count]);
}

static void say_numbers(const uint32_t *from, size_t count)
{
    for (size_t j = 0; j < count; j++) {
        if (j > 0)
            say(' ');
        say_number(from[j]);
    }
    say('\n');
}

static void say_answer(struct visnumar_answer a)
{
    const uint32_t four[4] = {a.code, a.side, a.record, a.detail};
    say_numbers(four, 4);
}

static size_t two(size_t at)
{
    return (size_t)frame[at] + 256 * (size_t)frame[at + 1];
}

/* Memory to lend: the whole is filled, and the part between two margins given. */
static uint32_t *lend_numbers(size_t count)
{
    for (size_t j = 0; j < margin + count + margin; j++)
        numbers[j] = LENT;
    return numbers + margin;
}

static uint8_t *lend_bytes(size_t count)
{
    for (size_t j = 0; j < margin + count + margin; j++)
        bytes[j] = (uint8_t)LENT;
    return bytes + margin;
}

/* Both margins are as they were. */
static void kept_numbers(size_t count)
{
    for (size_t j = 0; j < margin; j++) {
        if (numbers[j] != LENT || numbers[margin + count + j] != LENT)
            fail("numbers beside the lent ones were touched");
    }
}

static void kept_bytes(size_t count)
{
    for (size_t j = 0; j < margin; j++) {
        if (bytes[j] != (uint8_t)LENT || bytes[margin + count + j] != (uint8_t)LENT)
            fail("bytes beside the lent ones were touched");
    }
}

/* Side (1 byte), list length (2), block. */
static void try_read(size_t size)
{
    size_t room = two(1);
    uint32_t *lent = lend_numbers(room);
    say_answer(visnumar_read(frame + 3, size - 3, frame[0], lent, room));
    kept_numbers(room);
    say_numbers(lent, room);
}

/* Side (1 byte), mode number (2), block length (2), list (4 each). */
static void try_write(size_t size)
{
    size_t room = two(3), count = (size - 5) / 4;
    uint8_t *lent = lend_bytes(room);
    for (size_t j = 0; j < count; j++)
        list[j] = (uint32_t)two(5 + 4 * j) + 65536 * (uint32_t)two(7 + 4 * j);
    say_answer(visnumar_write(frame[0], (uint16_t)two(1), list, count, lent, room));
    kept_bytes(room);
    for (size_t j = 0; j < room; j++) {
        say("0123456789abcdef"[lent[j] / 16]);
        say("0123456789abcdef"[lent[j] % 16]);
    }
    say('\n');
}

/* Report length (2 bytes), length of the old block (2), old block, new block. */
static void try_analyse(size_t size)
{
    size_t room = two(0), old = two(2);
    uint32_t *lent = lend_numbers(room);
    say_answer(visnumar_analyse(frame + 4, old, frame + 4 + old, size - 4 - old, lent, room));
    kept_numbers(room);
    say_numbers(lent, room);
}

/* The size of the next frame, which is read; none where the stream ends before it. */
static int next(size_t *size)
{
    uint8_t head[4];
    size_t got = fread(head, 1, sizeof head, stdin);
    if (got == 0 && !ferror(stdin))
        return 0;
    *size = (size_t)head[0] + 256 * (size_t)head[1];
    if (got != sizeof head || head[2] != 0 || head[3] != 0 || fread(frame, 1, *size, stdin) != *size)
        fail("a frame is cut short or too long");
    return 1;
}

int main(int argc, char **argv)
{
    void (*try)(size_t);
    size_t size, least;
    switch (argc == 2 ? argv[1][0] : 0) {
    case 'r':
        try = try_read;
        least = 3;
        break;
    case 'w':
        try = try_write;
        least = 5;
        break;
    case 'a':
        try = try_analyse;
        least = 4;
        break;
    default:
        fprintf(stderr, "usage: driver read | write | analyse\n");
        return 2;
    }
    while (next(&size)) {
        if (size < least || (try == try_analyse && size - least < two(2)))
            fail("a frame is too short for its kind");
        try(size);
        say('.');
        say('\n');
    }
    flush();
    return 0;
}
