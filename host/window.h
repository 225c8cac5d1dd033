/* The run desk for C and C++: does a list of jobs fit, and which machines run what; and a desk that
 * takes jobs one by one and runs them slot by slot.
 *
 * THE ROOM. A room has C equal machines, 1 to 64. Time is in slots, counted from 1. A list is 0 to
 * 32 rows, counted from 0, and each row is a job of four numbers:
 *
 *   field 1  number    1 to 65535, another one in every row
 *   field 2  work      1 to 60000 machine-slots
 *   field 3  deadline  1 to 168, the last slot that the job may use
 *   field 4  bound     1 to 64, the most machines in one slot; it may exceed C
 *
 * A list fits if every job can be given a whole number of machines in each slot, 0 to its bound up
 * to its deadline and 0 after it, that add up to exactly its work, with no slot above C.
 *
 * THE PLAN of a list that fits is one such schedule, always the same. Slots are filled from the
 * greatest deadline down to 1, and in a slot the machines are handed out one at a time. Each goes
 * to the job with the greatest run length (what remains of its work / bound, rounded up) among the
 * jobs with a deadline at or after this slot, work remaining, and fewer machines in this slot than
 * their bound; equal run lengths go to the smaller job number. The order of the rows plays no part.
 *
 * THE ROOM AT A BOUNDARY b is the signed number
 *
 *   C * b - the sum over all jobs of max(0, work - bound * max(0, deadline - b)).
 *
 * Below zero it is a shortage. The boundaries of a list are 0 and each deadline in it. A list fits
 * exactly if none of them is short.
 *
 * THE DESK is a record that the caller keeps and lends to each call: VEZHDANUR_DESK_BYTES bytes,
 * which are 194 numbers of four bytes, lowest byte first. The first two are machines and clock;
 * then come 32 seats of six numbers: job number, admitted work, remaining work, deadline, bound,
 * slots at admission. The clock, 0 to 100000, counts the slots already run. Held jobs stand first,
 * by rising number, and all seats after them are zero. A deadline is a slot number on the clock:
 * a held job counts with its remaining work and deadline - clock.
 *
 * A record is sound if all this is so, its fields are in range (deadlines up to 100000, slots at
 * admission 1 to 168), the remaining work is at most the admitted work, deadline - clock is 1 to
 * the slots at admission, the admitted work is at most bound * slots at admission, and the held
 * jobs fit.
 *
 * THE PROMISE over a history of calls. A job accepted and not withdrawn has had exactly its work
 * once its due slot has run, never above its bound, never more machines in use than the room has.
 * An admission that passes every other check is refused exactly when no schedule from that slot on
 * could finish the held jobs' remaining work and the new one. This holds only if vezhdanur_open
 * wrote the record and each call gets it as the last one left it: a record that was altered and is
 * still sound is not noticed.
 *
 * ANSWERS. Each call returns number + 256 * place + 2^32 * amount (a yes of vezhdanur_room and of
 * vezhdanur_withdraw has a figure for an amount, see there). Number 0 is a yes, and of the other
 * calls the whole answer is then 0. Any other number is a refusal, and then nothing has been
 * written to any buffer:
 *
 *   no.  given when                                     place                 amount
 *    1   machines is not 1 to 64                        0                     0
 *    2   the list is not a whole number of rows         0                     0
 *    3   the list has more than 32 rows                 0                     0
 *    4   a field is out of range                        its row; desk: 0      the field, 1 to 4
 *    5   the job number stands in an earlier row, too;  the later row         0
 *        desk: it is held                               0                     0
 *    6   a buffer to be written to is too short;        0                     0
 *        vezhdanur_open: it is not one record long      0                     0
 *    7   it does not fit                                least short boundary  its shortage
 *                                                       (desk: + clock)
 *    8   32 jobs are held                               0                     0
 *    9   the boundary is over 168                       0                     0
 *   10   no such job is held                            0                     0
 *   11   the clock is at 100000                         0                     0
 *   12   the desk is not a sound record, or not one     0                     0
 *        record long
 *
 * The first that holds is given, in this order. Both plan calls: 1, 2, 3, then row by row from row
 * 0 (fields 1 to 4, then 5), then 6, then 7. Room: 1, 2, 3, the rows in the same way, then 9. Open:
 * 1, 6. Admit: 12, 4 (fields 1 to 4), 5, 8, 7. Withdraw: 12, 10. Look: 12, 6, 10. Run: 12, 6, 11.
 *
 * In 01, the scope paper, a desk is a value without a length. A 6 from a desk call and a 12 for a
 * length are this window's extension of it, and so is a refused Open that leaves the bytes.
 *
 * WHAT A CALLER OWES. Each pointer is valid for the length beside it, aligned for its type, and
 * not null, even where the length is 0. No two buffers of a call overlap, and no other thread
 * writes to them during the call. Everything else is tested: any numbers, any lengths and any
 * bytes of a record get an answer. The calls keep nothing between them, so several threads may
 * call at once, each with its own buffers to be written to.
 */
#ifndef VEZHDANUR_WINDOW_H
#define VEZHDANUR_WINDOW_H

#include <stddef.h>
#include <stdint.h>

#ifdef __cplusplus
extern "C" {
#endif

#define VEZHDANUR_SLOTS 168          /* the greatest deadline, and the numbers of a plan's row */
#define VEZHDANUR_JOBS 32            /* the most rows of a list, and the seats of a desk */
#define VEZHDANUR_LIST_ROW_BYTES 16  /* the bytes of a list's row */
#define VEZHDANUR_PLAN_ROW_BYTES 336 /* the bytes of a plan's row */
#define VEZHDANUR_DESK_BYTES 776     /* the bytes of a desk's record */
#define VEZHDANUR_FIGURES_BYTES 16   /* the bytes that vezhdanur_look writes */
#define VEZHDANUR_GIVEN_BYTES 256    /* the bytes that vezhdanur_run writes */

/* Plans a list given as bytes. Both lengths count bytes, and both buffers may have any alignment.
 *
 * Field f of row i is the four bytes of `list` from 16 * i + 4 * (f - 1) on, lowest byte first.
 * A list_len that is no multiple of 16 is a 2; list_len / 16 is the number of rows n.
 *
 * A yes is 0 as a whole and writes 336 * n bytes, zeros included: the machines of row i in slot t
 * are the two bytes of `plan` from 2 * (168 * i + t - 1) on, lowest byte first. Bytes after these
 * stay as they were. A plan_len below 336 * n is a 6. An empty list is a yes and writes nothing. */
uint64_t vezhdanur_plan(uint32_t machines, const uint8_t *list, size_t list_len,
                        uint8_t *plan, size_t plan_len);

/* The same planner on numbers. Both lengths count numbers, not bytes.
 *
 * Field f of row i is rows[4 * i + f - 1]. A rows_len that is no multiple of 4 is a 2; rows_len / 4
 * is n. A yes writes 168 * n numbers, zeros included: the machines of row i in slot t are
 * plan[168 * i + t - 1]. Numbers after these stay as they were. A plan_len below 168 * n is a 6. An
 * empty list is a yes and writes nothing. */
uint64_t vezhdanur_plan_numbers(uint32_t machines, const uint32_t *rows, size_t rows_len,
                                uint16_t *plan, size_t plan_len);

/* The room of a list (bytes, as in vezhdanur_plan) at any boundary from 0 to 168; it need not be
 * a deadline of the list. A negative room is a yes, too.
 *
 * A yes has 0 in its low half and the room in its upper half, as a 32-bit two's complement number.
 * Test vezhdanur_answer_number and not the whole answer; vezhdanur_answer_room takes the room. */
uint64_t vezhdanur_room(uint32_t machines, const uint8_t *list, size_t list_len,
                        uint32_t boundary);

/* Writes the record of an empty desk at clock 0. A desk_len other than VEZHDANUR_DESK_BYTES is a 6
 * here, and a 12 in the calls below. All their buffers may have any alignment. */
uint64_t vezhdanur_open(uint32_t machines, uint8_t *desk, size_t desk_len);

/* Takes a job if the held jobs and the new one fit. Its deadline must be clock + 1 to clock + 168
 * and at most 100000; the other fields are as in a list. A number may be used again once its job is
 * done or withdrawn. */
uint64_t vezhdanur_admit(uint8_t *desk, size_t desk_len, uint32_t number, uint32_t work,
                         uint32_t deadline, uint32_t bound);

/* Takes a job off the desk. A yes has 0 in its low half and the remaining work in its upper half:
 * test vezhdanur_answer_number; vezhdanur_answer_remaining takes the work. */
uint64_t vezhdanur_withdraw(uint8_t *desk, size_t desk_len, uint32_t number);

/* Writes four numbers of a held job, four bytes each, lowest byte first: remaining work, deadline,
 * bound, leeway. The leeway is 100 * slots at admission / run length of the admitted work, rounded
 * down. Bytes of `figures` after these 16 stay as they were. A figures_len below 16 is a 6. */
uint64_t vezhdanur_look(const uint8_t *desk, size_t desk_len, uint32_t number,
                        uint8_t *figures, size_t figures_len);

/* Runs the next slot: slot 1 of the plan of the held jobs. Writes 32 pairs of job number and
 * machines, four bytes each, lowest byte first: one for each job held before the call, in the order
 * of the seats, with 0 machines too, then zeros. Bytes of `given` after these 256 stay as they were,
 * and a given_len below 256 is a 6. Remaining works fall, a job with none left leaves, and the clock
 * rises by one. */
uint64_t vezhdanur_run(uint8_t *desk, size_t desk_len, uint8_t *given, size_t given_len);

/* The number of an answer: 0 for a yes, else the refusal. */
static inline uint32_t vezhdanur_answer_number(uint64_t answer)
{
    return (uint32_t)(answer & 0xff);
}

/* The place of an answer. */
static inline uint32_t vezhdanur_answer_place(uint64_t answer)
{
    return (uint32_t)(answer >> 8 & 0xffffff);
}

/* The amount of any answer but a yes of vezhdanur_room or vezhdanur_withdraw. */
static inline uint32_t vezhdanur_answer_amount(uint64_t answer)
{
    return (uint32_t)(answer >> 32);
}

/* The room in an answer of vezhdanur_room; 0 in a refusal. */
static inline int32_t vezhdanur_answer_room(uint64_t answer)
{
    uint32_t half = (uint32_t)(answer >> 32);

    if (vezhdanur_answer_number(answer) != 0)
        return 0;
    return half <= INT32_MAX ? (int32_t)half : -(int32_t)(UINT32_MAX - half) - 1;
}

/* The remaining work in an answer of vezhdanur_withdraw; 0 in a refusal. */
static inline uint32_t vezhdanur_answer_remaining(uint64_t answer)
{
    return vezhdanur_answer_number(answer) == 0 ? (uint32_t)(answer >> 32) : 0;
}

#ifdef __cplusplus
}
#endif

#endif
