/* write_block SIDE MODE [KIND PRIORITY NUMBER T D C Y]..: writes a block to standard output, by the library's writer.
 *
 * SIDE is 0 (old) or 1 (new); seven numbers make a task. A refusal is a line on standard error. Exit status: 0 written,
 * 1 refused, 2 unusable. Build, on x86-64:
 *   cc -Iinclude -o write_block examples/write_block.c crates/visnumar/out/libvisnumar.a
 */

#include "visnumar.h"

#include <stdio.h>
#include <stdlib.h>

/* Room for a task more than a block has, so that too many are seen by the library. */
#define MOST (VISNUMAR_LIST_ROOM + VISNUMAR_TASK_NUMBERS)

/* A number of up to nine digits; the library judges whether it fits. */
static int number(const char *text, uint32_t *to)
{
    int digits = 0;
    while (text[digits] >= '0' && text[digits] <= '9')
        digits++;
    *to = (uint32_t)strtoul(text, NULL, 10);
    return digits >= 1 && digits <= 9 && text[digits] == '\0';
}

int main(int argc, char **argv)
{
    uint32_t side = 0, mode = 0, list[MOST] = {0};
    uint8_t block[VISNUMAR_BLOCK_LEN] = {0};
    size_t len = 0;
    int ok = argc >= 3 && (size_t)argc - 3 <= MOST && number(argv[1], &side) && number(argv[2], &mode) && mode <= 65535;

    for (; ok && len < (size_t)argc - 3; len++)
        ok = number(argv[3 + len], &list[len]);
    if (!ok) {
        fprintf(stderr, "usage: write_block SIDE MODE [KIND PRIORITY NUMBER T D C Y]..\n");
        return 2;
    }

    struct visnumar_answer answer = visnumar_write(side, (uint16_t)mode, list, len, block, sizeof block);
    if (answer.code != VISNUMAR_DONE) {
        fprintf(stderr, "write_block: refused %u %u %u %u\n", (unsigned)answer.code, (unsigned)answer.side,
                (unsigned)answer.record, (unsigned)answer.detail);
        return 1;
    }
    if (fwrite(block, 1, sizeof block, stdout) != sizeof block || fflush(stdout) != 0) {
        fprintf(stderr, "write_block: standard output can't be written\n");
        return 2;
    }
    return 0;
}
