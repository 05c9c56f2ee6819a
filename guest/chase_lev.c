// Hart 0 pushes tasks onto its end of a Chase-Lev deque and takes some back from there; the other harts steal from the other end.
// A hart that gets a task which was given before, or what is no task, exits with 1.
#include "dethart.h"
#include "fence.h"
#include "relaxed.h"

enum { BATCHES = 3, PUSHES = 3, TAKES = 2, STEALS = 8, TASKS = BATCHES * PUSHES };

// The tasks from place `top` on and before place `bottom` are there. They have the numbers from 1 on.
static volatile int64_t top, bottom;
static volatile uint64_t tasks[TASKS];
static volatile uint64_t times_given[TASKS + 1];

// Whether the hart has the task at the top, which another one may take or steal too.
static bool is_won(int64_t place)
{
    return compare_exchange((volatile uint64_t *)&top, place, place + 1);
}

static void push(uint64_t task)
{
    int64_t place = bottom;
    tasks[place] = task;
    FENCE(1, w, w);
    bottom = place + 1;
}

static bool take(uint64_t *task)
{
    int64_t place = bottom - 1;
    bottom = place;
    FENCE(2, w, r);
    int64_t seen = top;
    bool is_there = seen < place || (seen == place && is_won(place));
    if (seen >= place)
        bottom = place + 1;
    if (is_there)
        *task = tasks[place];
    return is_there;
}

static bool steal(uint64_t *task)
{
    int64_t place = top;
    FENCE(3, r, r);
    if (place >= bottom)
        return false;
    FENCE(4, r, r);
    *task = tasks[place];
    return is_won(place);
}

static void run(uint64_t task)
{
    if (task == 0 || relaxed_fetch_add(&times_given[task], 1) != 0)
        exit_hart(1);
}

static void push_and_take(void)
{
    uint64_t task = 0;
    for (int batch = 0; batch < BATCHES; batch++) {
        for (int i = 1; i <= PUSHES; i++)
            push(batch * PUSHES + i);
        for (int i = 0; i < TAKES; i++)
            if (take(&task))
                run(task);
    }
}

uint64_t hart_main(uint64_t hart, uint64_t harts)
{
    (void)harts;
    uint64_t task = 0;
    if (hart == 0)
        push_and_take();
    for (int i = 0; i < STEALS && hart != 0; i++)
        if (steal(&task))
            run(task);
    return 0;
}
