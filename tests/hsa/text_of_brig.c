/* `text_of_brig FILE`: the text of a module of BRIG. */
#include <stdio.h>
#include <stdlib.h>

#include "hsail_of_brig.h"

int main(int count, char **words)
{
    static char bytes[1 << 22];
    char why[200];
    FILE *file = count == 2 ? fopen(words[1], "rb") : NULL;
    if (!file) return 2;
    size_t size = fread(bytes, 1, sizeof bytes, file);
    char *text = hsail_of_brig(bytes, size, why, sizeof why);
    if (text) fputs(text, stdout);
    else fprintf(stderr, "%s\n", why);
    fclose(file);
    int failed = !text;
    free(text);
    return failed;
}
