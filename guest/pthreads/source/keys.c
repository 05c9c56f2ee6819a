// Keys: values of a thread's own. Keys are made and deleted under a lock by tickets; their values belong to one thread. Who uses a key
// has it from the thread that made it, and that orders the rest.
#include <errno.h>
#include <stdlib.h>
#include "ticket.h"

typedef void destructor_of(void *);

static struct __ticket __kit_lock;
static struct {
    volatile unsigned generation; // odd: the key is in use. It grows with each creation and deletion
    destructor_of *volatile destructor;
} __kit_keys[PTHREAD_KEYS_MAX];

// A value counts only with the key's generation of today.
struct value {
    unsigned generation;
    void *value;
};

enum { NEAR = 16 }; // keys whose values need no malloc
static _Thread_local struct value __kit_near_values[NEAR], *__kit_far_values;

static struct value *value_of(pthread_key_t key)
{
    if (key < NEAR)
        return &__kit_near_values[key];
    return __kit_far_values ? &__kit_far_values[key - NEAR] : 0;
}

static bool is_key(pthread_key_t key)
{
    return key < PTHREAD_KEYS_MAX && __kit_keys[key].generation % 2 == 1;
}

int pthread_key_create(pthread_key_t *out, destructor_of *destructor)
{
    int error = EAGAIN;
    ticket_take(&__kit_lock);
    for (pthread_key_t key = 0; key < PTHREAD_KEYS_MAX && error; key++)
        if (!is_key(key)) {
            __kit_keys[key].destructor = destructor;
            store_release(&__kit_keys[key].generation, __kit_keys[key].generation + 1);
            *out = key;
            error = 0;
        }
    ticket_free(&__kit_lock);
    return error;
}

int pthread_key_delete(pthread_key_t key)
{
    ticket_take(&__kit_lock);
    bool was_key = is_key(key);
    if (was_key)
        __kit_keys[key].generation = __kit_keys[key].generation + 1;
    ticket_free(&__kit_lock);
    return was_key ? 0 : EINVAL;
}

void *pthread_getspecific(pthread_key_t key)
{
    struct value *value = is_key(key) ? value_of(key) : 0;
    return value && value->generation == __kit_keys[key].generation ? value->value : 0;
}

int pthread_setspecific(pthread_key_t key, const void *to)
{
    if (!is_key(key))
        return EINVAL;
    struct value *value = value_of(key);
    if (!value) {
        __kit_far_values = calloc(PTHREAD_KEYS_MAX - NEAR, sizeof *__kit_far_values);
        if (!__kit_far_values)
            return ENOMEM;
        value = value_of(key);
    }
    *value = (struct value){ __kit_keys[key].generation, (void *)to };
    return 0;
}

// A destructor may set values again, so all are looked at several times.
void __kit_destroy_values(void)
{
    bool some = true;
    for (int turn = 0; some && turn < PTHREAD_DESTRUCTOR_ITERATIONS; turn++) {
        some = false;
        for (pthread_key_t key = 0; key < (__kit_far_values ? PTHREAD_KEYS_MAX : NEAR); key++) {
            void *value = pthread_getspecific(key);
            if (!value || !__kit_keys[key].destructor)
                continue;
            value_of(key)->value = 0;
            __kit_keys[key].destructor(value);
            some = true;
        }
    }
    free(__kit_far_values);
    __kit_far_values = 0;
}
