/* A caller of the planner and of a desk: plans one list that fits and one that does not, asks for a
 * room, and keeps a desk of two machines for three slots.
 *
 *     gcc -O2 -Wall -Wextra -Werror example.c ../target/staticlib/libwindow.a -o example
 */
#include <inttypes.h>
#include <stdio.h>

#include "window.h"

struct job {
    uint32_t number, work, deadline, bound;
};

static uint8_t *put_number(uint8_t *at, uint32_t number)
{
    for (int i = 0; i < 4; i++)
        *at++ = (uint8_t)(number >> 8 * i);
    return at;
}

/* Writes the jobs as the bytes of a list and returns how many there are. */
static size_t put_list(uint8_t *list, const struct job *jobs, size_t n)
{
    uint8_t *at = list;

    for (size_t i = 0; i < n; i++) {
        at = put_number(at, jobs[i].number);
        at = put_number(at, jobs[i].work);
        at = put_number(at, jobs[i].deadline);
        at = put_number(at, jobs[i].bound);
    }
    return (size_t)(at - list);
}

/* The machines of a row (from 0) in a slot (from 1). */
static unsigned machines_of(const uint8_t *plan, size_t row, size_t slot)
{
    const uint8_t *at = plan + 2 * (VEZHDANUR_SLOTS * row + slot - 1);

    return at[0] + 256u * at[1];
}

static void print_plan(uint32_t machines, const struct job *jobs, size_t n, const uint8_t *plan)
{
    printf("machines=%" PRIu32 "\nresult=plan\n", machines);
    for (size_t row = 0; row < n; row++) {
        const char *comma = "";

        printf("job=%" PRIu32 "\nrun=", jobs[row].number);
        for (size_t slot = 1; slot <= VEZHDANUR_SLOTS; slot++) {
            unsigned count = machines_of(plan, row, slot);

            if (count > 0) {
                printf("%s%zu:%u", comma, slot, count);
                comma = ",";
            }
        }
        printf("\n");
    }
}

static void print_refusal(uint64_t answer)
{
    printf("result=refused\ncode=%" PRIu32 "\nat=%" PRIu32 "\namount=%" PRIu32 "\n",
           vezhdanur_answer_number(answer), vezhdanur_answer_place(answer),
           vezhdanur_answer_amount(answer));
}

/* Plans up to VEZHDANUR_JOBS jobs and prints the plan or the refusal. */
static void plan_jobs(uint32_t machines, const struct job *jobs, size_t n)
{
    uint8_t list[VEZHDANUR_LIST_ROW_BYTES * VEZHDANUR_JOBS];
    uint8_t plan[VEZHDANUR_PLAN_ROW_BYTES * VEZHDANUR_JOBS];
    size_t list_len = put_list(list, jobs, n);
    uint64_t answer = vezhdanur_plan(machines, list, list_len, plan, sizeof plan);

    if (vezhdanur_answer_number(answer) == 0)
        print_plan(machines, jobs, n, plan);
    else
        print_refusal(answer);
}

static void print_room(uint32_t machines, const struct job *jobs, size_t n, uint32_t boundary)
{
    uint8_t list[VEZHDANUR_LIST_ROW_BYTES * VEZHDANUR_JOBS];
    size_t list_len = put_list(list, jobs, n);
    uint64_t answer = vezhdanur_room(machines, list, list_len, boundary);

    if (vezhdanur_answer_number(answer) == 0)
        printf("room=%" PRId32 "\n", vezhdanur_answer_room(answer));
    else
        print_refusal(answer);
}

static uint32_t get_number(const uint8_t *at)
{
    return at[0] | (uint32_t)at[1] << 8 | (uint32_t)at[2] << 16 | (uint32_t)at[3] << 24;
}

/* The slots already run: the second number of a record. */
static uint32_t clock_of(const uint8_t *desk)
{
    return get_number(desk + 4);
}

static void print_leeway(const uint8_t *desk, uint32_t number)
{
    uint8_t figures[VEZHDANUR_FIGURES_BYTES];
    uint64_t answer = vezhdanur_look(desk, VEZHDANUR_DESK_BYTES, number, figures, sizeof figures);

    if (vezhdanur_answer_number(answer) == 0)
        printf("leeway=%" PRIu32 "\n", get_number(figures + 12));
    else
        print_refusal(answer);
}

/* Asks the desk to take a job, and shows what leeway it then has. */
static void admit(uint8_t *desk, struct job job)
{
    uint64_t answer = vezhdanur_admit(desk, VEZHDANUR_DESK_BYTES, job.number, job.work,
                                      job.deadline, job.bound);

    printf("admit=%" PRIu32 "\n", job.number);
    if (vezhdanur_answer_number(answer) == 0)
        print_leeway(desk, job.number);
    else
        print_refusal(answer);
}

/* Runs a slot and prints the machines of each job that was held. */
static void run_slot(uint8_t *desk)
{
    uint8_t given[VEZHDANUR_GIVEN_BYTES];
    uint64_t answer = vezhdanur_run(desk, VEZHDANUR_DESK_BYTES, given, sizeof given);

    if (vezhdanur_answer_number(answer) != 0) {
        print_refusal(answer);
        return;
    }
    printf("slot=%" PRIu32 "\n", clock_of(desk));
    for (size_t i = 0; i < VEZHDANUR_JOBS && get_number(given + 8 * i) != 0; i++)
        printf("job=%" PRIu32 "\nmachines=%" PRIu32 "\n", get_number(given + 8 * i),
               get_number(given + 8 * i + 4));
}

/* Opens a desk, offers it jobs and runs slots. The record is the whole desk: each call gets it as
 * the last one left it. */
static void keep_desk(uint32_t machines, const struct job *jobs, size_t n, int slots)
{
    uint8_t desk[VEZHDANUR_DESK_BYTES];
    uint64_t answer = vezhdanur_open(machines, desk, sizeof desk);

    if (vezhdanur_answer_number(answer) != 0) {
        print_refusal(answer);
        return;
    }
    printf("desk=%" PRIu32 "\n", machines);
    for (size_t i = 0; i < n; i++)
        admit(desk, jobs[i]);
    for (int i = 0; i < slots; i++)
        run_slot(desk);
}

int main(void)
{
    static const struct job fits[] = {{1, 4, 3, 2}, {2, 3, 2, 3}, {3, 2, 3, 1}};
    static const struct job too_much[] = {{1, 4, 2, 2}, {2, 2, 3, 1}};
    static const struct job offered[] = {{1, 4, 2, 2}, {2, 2, 3, 1}, {2, 1, 3, 1}};

    plan_jobs(3, fits, 3);
    /* Refused: slots 1 and 2 of two machines are one machine-slot short. */
    plan_jobs(2, too_much, 2);
    print_room(2, too_much, 2, 2);
    /* The second job is refused for the same reason; with half the work it is taken. */
    keep_desk(2, offered, 3, 3);
    return 0;
}
