// pthread_once: the first that comes runs the function, and the others wait until it is done.
//
// By the manual's table A.6: the one that runs it ends with a release store (fence rw,w; sw), all others go on after an
// acquire load (lw; fence r,rw). Who runs it is decided by lr.w, sc.w (relaxed).
#include "kit.h"

enum { NOT_YET, RUNNING, DONE };

static void not_yet(void *once)
{
    store_release(&((pthread_once_t *)once)->state, NOT_YET);
}

int pthread_once(pthread_once_t *once, void (*run)(void))
{
    while (load_acquire(&once->state) != DONE) {
        if (change_relaxed(&once->state, NOT_YET, RUNNING)) {
            acquire_fence(); // one whose function was cancelled may have run before
            pthread_cleanup_push(not_yet, once);
            run();
            pthread_cleanup_pop(0);
            store_release(&once->state, DONE);
            break;
        }
        __kit_lets_others_begin();
        while (once->state == RUNNING)
            __kit_wait_a_round();
    }
    return 0;
}
