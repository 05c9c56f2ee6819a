// What the line of make gives: the words of ARGS, a function of another file by LIBS, and memory by PAGES.
#include <assert.h>
#include <stdio.h>
#include <stdlib.h>

int twice(int number); // more_code.c

int main(int count, char **words)
{
    assert(count == 3 && words[count] == NULL);
    printf("%s: %d, %s\n", words[0], twice(atoi(words[1])), words[2]);
    return 0;
}
