/* visnumar.h: judges the change from one mode of a real-time system to another, and reads and writes the task blocks that
 * describe the modes. Link with libvisnumar.a (x86-64 Linux). The functions are proved against their definitions; the
 * repository's docs say what is proved, and docs/USING.md says more about what the numbers mean.
 *
 * What the caller keeps
 *   - A slice is a pointer and, after it, a length counted in elements, not in bytes. The memory has that many elements.
 *   - A pointer is never null and is aligned for its type (uint32_t: 4 bytes), even where the length is 0.
 *   - Memory that a function may write (list of visnumar_read, block of visnumar_write, report of visnumar_analyse) does
 *     not overlap with anything else that is passed, and nobody else uses it during the call. It holds initialised values:
 *     what a function does not write keeps its value.
 *   - Memory that is only read does not change during the call. The two blocks of visnumar_analyse may overlap.
 * Nothing else is asked. Any bytes, numbers and lengths are fine and get an answer; no call fails in another way. No pointer
 * is kept after a call, and there is no state: threads may call at the same time.
 */

#ifndef VISNUMAR_H
#define VISNUMAR_H

#include <stddef.h>
#include <stdint.h>

#ifdef __cplusplus
extern "C" {
#endif

/* Sizes. */

#define VISNUMAR_BLOCK_LEN 512u     /* bytes of a block */
#define VISNUMAR_MAX_TASKS 30u      /* tasks that a block has room for */
#define VISNUMAR_TASK_NUMBERS 7u    /* numbers of a task in a list */
#define VISNUMAR_ROW_NUMBERS 3u     /* numbers of a row in a report */
#define VISNUMAR_LIST_ROOM 210u     /* numbers that any block's list fits in: 7 x 30 */
#define VISNUMAR_REPORT_ROOM 180u   /* numbers that any pair's report fits in: 3 x (30 + 30) */

/* Sides. A side that a caller passes is 0 or 1; anything else is a bad side. In an answer 2 means neither. */

#define VISNUMAR_OLD 0u             /* the mode being left */
#define VISNUMAR_NEW 1u             /* the mode being entered */
#define VISNUMAR_NO_SIDE 2u

/* A list has seven numbers for each task, in this order. Times are in ticks. */

#define VISNUMAR_KIND 0u            /* one of the kinds below */
#define VISNUMAR_PRIORITY 1u        /* 0 to 255; lower goes first; at equal ones an old task goes before a new one */
#define VISNUMAR_NUMBER 2u          /* the task's number, 0 to 65,535 */
#define VISNUMAR_PERIOD 3u          /* T, 1 to 65,535: releases of the task are T or more apart */
#define VISNUMAR_DEADLINE 4u        /* D, at most T: from a release to the end of that job */
#define VISNUMAR_EXECUTION 5u       /* C, 1 to D: the most that one job runs */
#define VISNUMAR_OFFSET 6u          /* Y, 0 to 65,535: a new task's first release comes Y or more after the request; old: 0 */

#define VISNUMAR_KIND_COMPLETED 0u  /* old: jobs pending at the request are completed */
#define VISNUMAR_KIND_ABORTED 1u    /* old: jobs pending at the request vanish */
#define VISNUMAR_KIND_NEW 2u        /* new */

/* A report has three numbers for each task, old ones in block order and then new ones in block order. In ticks:
 *
 *              first                            second                                third
 *   completed  worst: largest window over all   the smallest phase that gives it      steady window
 *              phases
 *   aborted    steady window                    0                                     steady window
 *   new        larger of steady and w - Y       w: window from the request, which     steady window
 *              (steady where w is at most Y)    includes the offset Y
 *
 * The first number bounds the response: no job of the task takes longer from its release to its end. A phase x stands for
 * a request x ticks after the task's window starts. The steady window is the bound within the task's own mode. */

#define VISNUMAR_FIRST 0u
#define VISNUMAR_SECOND 1u
#define VISNUMAR_THIRD 2u

/* Codes. Each says in brackets what else the answer names; record and detail are 0 where nothing is said. Records are
 * counted from 0. */

#define VISNUMAR_DONE 0u            /* done [side 2; visnumar_read: see there] */
#define VISNUMAR_BAD_LENGTH 1u      /* a block is not 512 bytes long [side] */
#define VISNUMAR_BAD_CHECK 2u       /* the check, bytes 508-511, is wrong [side] */
#define VISNUMAR_BAD_MARK 3u        /* bytes 0-1 are not 0x4D 0x54 [side] */
#define VISNUMAR_BAD_HEAD 4u        /* the side byte is not the side wanted, the count is above 30, or bytes 6-7 are not zero;
                                     * visnumar_write: a bad side, or more than 30 tasks [side; 2 for a bad side] */
#define VISNUMAR_BAD_RECORD 5u      /* a task breaks a rule of its own, or a list's number does not fit its field
                                     * [side, first such record] */
#define VISNUMAR_TAKEN 6u           /* a number or priority that an earlier record bears [side, first such later record] */
#define VISNUMAR_BAD_ROOM 7u        /* the room after the last record is not zero [side] */
#define VISNUMAR_TOO_SMALL 8u       /* the lent list or report is too short [side 2] */
#define VISNUMAR_OLD_LATE 9u        /* an old task is late [side 0, record; detail: smallest late phase, 0 if aborted] */
#define VISNUMAR_NEW_LATE 10u       /* a new task is late [side 1, record; detail: one of the next two] */
#define VISNUMAR_BAD_LIST_LENGTH 11u /* the list's length is no multiple of 7 [side 2] */

#define VISNUMAR_LATE_STEADY 0u     /* detail of 10: within the new mode */
#define VISNUMAR_LATE_REQUEST 1u    /* detail of 10: its first job, from the request */

/* What every function returns. */
struct visnumar_answer {
    uint32_t code;
    uint32_t side;
    uint32_t record;
    uint32_t detail;
};

/* Reads the block of the wanted side into a list.
 *
 * Done: the first 7n numbers of list are the block's n tasks, the rest of list is unaltered; the answer is code 0, side the
 * block's side, record n, detail the mode number.
 * Refused: codes 1 to 7 in this order, then 8 if list_len is below 7n; list is unaltered. For a side other than 0 or 1 the
 * codes 1 to 3 name side 2, and a block that passes these is code 4 with side 2. */
struct visnumar_answer visnumar_read(const uint8_t *block, size_t block_len, uint32_t side, uint32_t *list, size_t list_len);

/* Writes a list of list_len / 7 tasks into a block.
 *
 * Done: all 512 bytes of block are written; the answer is 0, 2, 0, 0. visnumar_read then gives side, mode and list back.
 * Refused: codes 1, 11, 4, 5, 6 in this order; block is unaltered. Code 1 names side 2 if the side is bad. */
struct visnumar_answer visnumar_write(uint32_t side, uint16_t mode, const uint32_t *list, size_t list_len, uint8_t *block,
                                      size_t block_len);

/* Judges the change from the old block's mode to the new block's mode.
 *
 * Done: no task is late; the first 3 x (all tasks) numbers of report are the rows, the rest of report is unaltered; the
 * answer is 0, 2, 0, 0. Mode numbers are not compared.
 * Refused: codes 1 to 7 in this order for the old block, then for the new one; 8 if report_len is below 3 x (all tasks); 9;
 * 10. Of several late tasks the first in block order is named. report is unaltered. */
struct visnumar_answer visnumar_analyse(const uint8_t *old_block, size_t old_len, const uint8_t *new_block, size_t new_len,
                                        uint32_t *report, size_t report_len);

#ifdef __cplusplus
}
#endif

#endif
