/* The plain C version of reading, writing and analysing, with the signatures of the library. The sizes, and the numbers of a
 * task in a list and of a row in a report, are those of visnumar.h; the rest of the format stands here, once. */
#ifndef PLAIN_H
#define PLAIN_H
#include "visnumar.h"

enum {
    most = VISNUMAR_MAX_TASKS,
    block_len = VISNUMAR_BLOCK_LEN,
    task_numbers = VISNUMAR_TASK_NUMBERS,
    row_numbers = VISNUMAR_ROW_NUMBERS,
    list_room = VISNUMAR_LIST_ROOM,
    report_room = VISNUMAR_REPORT_ROOM
};

/* The mark, and where records and the check are in a block. */
enum { mark_first = 0x4D, mark_second = 0x54, head_len = 8, record_len = 16, check_at = 508 };

/* Where the fields of a record start. The last four bytes are zero. */
enum { at_kind = 0, at_priority = 1, at_number = 2, at_period = 4, at_deadline = 6, at_execution = 8, at_offset = 10, at_zeros = 12 };

/* Demands worked out since the start, in the build that counts them. */
extern unsigned long plain_evaluations;

struct visnumar_answer plain_read(const uint8_t *block, size_t len, uint32_t side, uint32_t *list, size_t list_len);
struct visnumar_answer plain_write(uint32_t side, uint16_t mode, const uint32_t *list, size_t list_len, uint8_t *block, size_t len);
struct visnumar_answer plain_analyse(const uint8_t *old_block, size_t old_len, const uint8_t *new_block, size_t new_len,
                                     uint32_t *report, size_t report_len);
#endif
