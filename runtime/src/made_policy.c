#include "made_policy.h"

#include <inttypes.h>
#include <stdio.h>
#include <stdlib.h>

static const struct {
    const char *name;
    uint64_t mebibytes;
} REGIONS[] = { { "kernarg", 1 }, { "fine1", 16 }, { "fine2", 16 }, { "coarse1", 16 }, { "coarse2", 15 } };

static void tell_regions(FILE *text)
{
    fprintf(text, "region = [\n");
    for (size_t i = 0; i < sizeof REGIONS / sizeof *REGIONS; i++)
        fprintf(text, "  { name = \"%s\", length = %" PRIu64 " },\n", REGIONS[i].name, REGIONS[i].mebibytes << 20);
    fprintf(text, "]\n");
}

static void tell_signals(FILE *text, const int64_t *signals)
{
    fprintf(text, "signal = [\n");
    for (int i = 1; i <= SEAM_SIGNALS; i++) fprintf(text, "  { name = \"s%d\", initial = %" PRId64 " },\n", i, signals[i]);
    fprintf(text, "]\n");
}

static void tell_rights(FILE *text)
{
    static const char *const ROWS[][2] = {
        { "agent", "\"USE\"" }, { "region", "\"READ\", \"WRITE\"" }, { "signal", "\"WAIT\", \"CHANGE\"" }, { "kernel", "\"LAUNCH\"" },
    };
    fprintf(text, "allow = [\n");
    for (size_t i = 0; i < sizeof ROWS / sizeof *ROWS; i++)
        fprintf(text, "  { client = \"app\", kind = \"%s\", object = \"*\", rights = [%s] },\n", ROWS[i][0], ROWS[i][1]);
    fprintf(text, "]\n");
}

char *make_policy(const int64_t *signals, const made_kernel *kernels, uint32_t count, size_t *length)
{
    char *bytes = NULL;
    FILE *text = open_memstream(&bytes, length);
    if (!text) return NULL;
    fprintf(text, "client = [{ name = \"app\" }]\nagent = [{ name = \"gpu\", takes = [\"kernel\", \"agent\"] }]\n");
    tell_regions(text);
    tell_signals(text, signals);
    tell_rights(text);
    for (uint32_t i = 0; i < count; i++)
        fprintf(text, "[[kernel]]\nname = \"k%" PRIu32 "\"\nentry = \"%s\"\ntext = '''\n%s'''\n", i + 1, kernels[i].entry, kernels[i].text);
    int failed = ferror(text);
    if (!fclose(text) && !failed) return bytes;
    free(bytes);
    return NULL;
}
