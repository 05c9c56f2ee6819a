// The three streams of picolibc, over the calls put and get, and the lock under which each call of stdio is whole.
//
// stdout is kept and put out at exit, abort, fflush, or where it is full, unless setvbuf says otherwise: each byte is a call, and
// would be a round in the midst of what the program does.
#include <pthread.h>
#include <stdio.h>
#include "kit.h"

static pthread_mutex_t __kit_lock = PTHREAD_RECURSIVE_MUTEX_INITIALIZER_NP; // one for all streams

void flockfile(FILE *stream) { (void)stream; pthread_mutex_lock(&__kit_lock); }
int ftrylockfile(FILE *stream) { (void)stream; return pthread_mutex_trylock(&__kit_lock); }
void funlockfile(FILE *stream) { (void)stream; pthread_mutex_unlock(&__kit_lock); }

static char __kit_kept[4096];
static unsigned __kit_kept_bytes;
static int __kit_buffering = _IOFBF;

static void put_out(void)
{
    unsigned bytes = __kit_kept_bytes;
    __kit_kept_bytes = 0;
    for (unsigned i = 0; i < bytes; i++)
        put_byte((uint8_t)__kit_kept[i]);
}

// A call of another thread is let come to its end, unless that takes too long: then its thread may wait for this one.
void __kit_flush_output(void)
{
    enum { PATIENCE = 30000 }; // rounds: printf of a double has some 20,000 instructions
    for (int left = PATIENCE; left > 0 && __kit_kept_bytes && ftrylockfile(stdout); left--)
        __kit_end_part();
    put_out();
}

static int put_output(char c, FILE *stream)
{
    (void)stream;
    __kit_kept[__kit_kept_bytes++] = c;
    if (__kit_kept_bytes == sizeof __kit_kept || __kit_buffering == _IONBF || (__kit_buffering == _IOLBF && c == '\n'))
        put_out();
    return (unsigned char)c;
}

static int flush_output(FILE *stream)
{
    (void)stream;
    put_out();
    return 0;
}

static int put_error(char c, FILE *stream)
{
    (void)stream;
    put_byte((uint8_t)c);
    return (unsigned char)c;
}

static int get_input(FILE *stream)
{
    (void)stream;
    int c = get_byte();
    return c < 0 ? _FDEV_EOF : c;
}

static FILE __kit_input = FDEV_SETUP_STREAM(0, get_input, 0, _FDEV_SETUP_READ);
static FILE __kit_output = FDEV_SETUP_STREAM(put_output, 0, flush_output, _FDEV_SETUP_WRITE);
static FILE __kit_errors = FDEV_SETUP_STREAM(put_error, 0, 0, _FDEV_SETUP_WRITE);
FILE *const stdin = &__kit_input, *const stdout = &__kit_output, *const stderr = &__kit_errors;

int setvbuf(FILE *stream, char *buffer, int mode, size_t size)
{
    (void)buffer;
    (void)size;
    if (mode != _IOFBF && mode != _IOLBF && mode != _IONBF)
        return -1;
    if (stream == stdout) {
        flockfile(stream);
        __kit_buffering = mode;
        funlockfile(stream);
    }
    return 0;
}

void setbuf(FILE *stream, char *buffer) { setvbuf(stream, buffer, buffer ? _IOFBF : _IONBF, BUFSIZ); }
void setlinebuf(FILE *stream) { setvbuf(stream, 0, _IOLBF, 0); }
