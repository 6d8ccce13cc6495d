/* Each function that this runtime lacks answers its error, and, before the beginning, that there is none. The functions and their errors are
   read from runtime/functions.tsv: `lacks TABLE LIBRARY`. */
#include <dlfcn.h>

#include "tests.h"

long right, wrong;

/* Whether a status is the one of a name; those of images aren't told by hsa_status_string. */
static int is_named(hsa_status_t status, const char *name)
{
    const char *text = "";
    if (!strcmp(name, "HSA_EXT_STATUS_ERROR_IMAGE_FORMAT_UNSUPPORTED")) return (int)status == 0x3000;
    if (!strcmp(name, "HSA_EXT_STATUS_ERROR_SAMPLER_DESCRIPTOR_UNSUPPORTED")) return (int)status == 0x3003;
    hsa_status_string(status, &text);
    return !strncmp(text, name, strlen(name)) && text[strlen(name)] == ':';
}

int main(int count, char **words)
{
    FILE *table = count == 3 ? fopen(words[1], "r") : NULL;
    void *library = count == 3 ? dlopen(words[2], RTLD_NOW) : NULL;
    char line[1000], function[100], state[100];
    if (!table || !library) return 2;
    for (int begun = 0; begun < 2; begun++) {
        rewind(table);
        while (fgets(line, sizeof line, table)) {
            if (sscanf(line, "%99s\t%*s\t%99s", function, state) != 2 || strncmp(state, "HSA_", 4)) continue;
            hsa_status_t (*call)(void *, void *, void *, void *, void *, void *);
            *(void **)&call = dlsym(library, function);
            if (!call) return 2;
            hsa_status_t status = call(NULL, NULL, NULL, NULL, NULL, NULL);
            int well = begun ? is_named(status, state) : status == HSA_STATUS_ERROR_NOT_INITIALIZED;
            if (well) right++;
            else wrong++;
            if (!well) printf("%s: %x, not %s\n", function, (unsigned)status, begun ? state : "HSA_STATUS_ERROR_NOT_INITIALIZED");
        }
        if (!begun && hsa_init()) return 2;
    }
    hsa_shut_down();
    fclose(table);
    printf("%ld right, %ld wrong\n", right, wrong);
    return wrong != 0;
}
