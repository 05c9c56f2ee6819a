// Sorts 60 numbers in parallel: a part is sorted by a thread of its own as long as there are harts for it, with malloc, rand and
// qsort, and threads that create threads.
#include <assert.h>
#include <stdio.h>
#include <stdlib.h>
#include "workers.h"

enum { COUNT = 60 };

struct part {
    int *numbers, count, depth;
};

static int compare(const void *left, const void *right)
{
    return *(const int *)left - *(const int *)right;
}

// How often a part may be halved so that all threads have a hart.
static int depth(void)
{
    return workers() >= 7 ? 3 : workers() >= 3 ? 2 : 1;
}

static struct part *part_of(int *numbers, int count, int depth)
{
    struct part *part = malloc(sizeof *part);
    *part = (struct part){ numbers, count, depth };
    return part;
}

static void *sorts(void *of)
{
    struct part *part = of;
    int *numbers = part->numbers, low = 0, high = part->count - 1;
    if (part->depth == 0 || part->count < 2) {
        qsort(numbers, (size_t)part->count, sizeof *numbers, compare);
        free(part);
        return NULL;
    }
    for (int pivot = numbers[part->count / 2]; low <= high;) {
        while (numbers[low] < pivot)
            low++;
        while (numbers[high] > pivot)
            high--;
        if (low <= high) {
            int kept = numbers[low];
            numbers[low++] = numbers[high];
            numbers[high--] = kept;
        }
    }
    pthread_t thread;
    pthread_create(&thread, NULL, sorts, part_of(numbers, high + 1, part->depth - 1));
    sorts(part_of(numbers + low, part->count - low, part->depth - 1));
    pthread_join(thread, NULL);
    free(part);
    return NULL;
}

int main(void)
{
    static int numbers[COUNT];
    srand(7);
    for (int i = 0; i < COUNT; i++)
        numbers[i] = rand() % 1000;
    sorts(part_of(numbers, COUNT, depth()));
    for (int i = 1; i < COUNT; i++)
        assert(numbers[i - 1] <= numbers[i]);
    puts("sorted");
    return 0;
}
