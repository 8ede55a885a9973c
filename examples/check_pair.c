/* check_pair OLD NEW: judges the change from the block in the file OLD to the block in the file NEW, by the library alone.
 *
 * Prints the same lines as `visnumar judge OLD NEW`. Exit status: 0 accepted, 1 refused, 2 unusable.
 * Build, on x86-64: cc -Iinclude -o check_pair examples/check_pair.c crates/visnumar/out/libvisnumar.a
 */

#include "visnumar.h"

#include <stdio.h>

/* A byte more than a block, so that a file that is too long is seen. */
struct block {
    uint8_t bytes[VISNUMAR_BLOCK_LEN + 1];
    size_t len;
};

/* Whether the file could be read. */
static int load(const char *name, struct block *block)
{
    FILE *file = fopen(name, "rb");
    int ok = 0;
    if (file != NULL) {
        block->len = fread(block->bytes, 1, sizeof block->bytes, file);
        ok = !ferror(file);
        fclose(file);
    }
    if (!ok)
        fprintf(stderr, "check_pair: %s can't be read\n", name);
    return ok;
}

static int refused(struct visnumar_answer answer)
{
    printf("refused %u %u %u %u\n", (unsigned)answer.code, (unsigned)answer.side, (unsigned)answer.record,
           (unsigned)answer.detail);
    return 1;
}

/* Prints the rows of one side's tasks, and returns where the next side's rows start. */
static const uint32_t *rows(const uint32_t *list, uint32_t tasks, const uint32_t *row)
{
    static const char letters[] = {'o', 'a', 'n'};
    for (uint32_t k = 0; k < tasks; k++) {
        printf("%c %u %u %u %u\n", letters[list[VISNUMAR_KIND]], (unsigned)list[VISNUMAR_NUMBER],
               (unsigned)row[VISNUMAR_FIRST], (unsigned)row[VISNUMAR_SECOND], (unsigned)row[VISNUMAR_THIRD]);
        list += VISNUMAR_TASK_NUMBERS;
        row += VISNUMAR_ROW_NUMBERS;
    }
    return row;
}

int main(int argc, char **argv)
{
    struct block old, new;
    uint32_t report[VISNUMAR_REPORT_ROOM] = {0}, old_list[VISNUMAR_LIST_ROOM] = {0}, new_list[VISNUMAR_LIST_ROOM] = {0};

    if (argc != 3) {
        fprintf(stderr, "usage: check_pair OLD NEW\n");
        return 2;
    }
    if (!load(argv[1], &old) || !load(argv[2], &new))
        return 2;

    struct visnumar_answer answer =
        visnumar_analyse(old.bytes, old.len, new.bytes, new.len, report, VISNUMAR_REPORT_ROOM);
    if (answer.code != VISNUMAR_DONE)
        return refused(answer);

    /* Two blocks that were accepted can be read; the reader gives the number of tasks as record, the mode as detail. */
    struct visnumar_answer from = visnumar_read(old.bytes, old.len, VISNUMAR_OLD, old_list, VISNUMAR_LIST_ROOM);
    struct visnumar_answer to = visnumar_read(new.bytes, new.len, VISNUMAR_NEW, new_list, VISNUMAR_LIST_ROOM);
    printf("change %u %u\n", (unsigned)from.detail, (unsigned)to.detail);
    rows(new_list, to.record, rows(old_list, from.record, report));
    return 0;
}
