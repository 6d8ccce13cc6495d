#include "hsail_text.h"

#include <stdlib.h>
#include <string.h>

static bool is_blank(char byte)
{
    return byte == ' ' || byte == '\t' || byte == '\r' || byte == '\n';
}

static bool is_of_word(char byte)
{
    return (byte >= '0' && byte <= '9') || ((byte | 32) >= 'a' && (byte | 32) <= 'z') || (byte && strchr("_&%@$", byte));
}

/* Past blanks and comments. A comment that doesn't end ends the text. */
static const char *past_blanks(const char *at)
{
    for (;;) {
        while (is_blank(*at)) at++;
        if (at[0] == '/' && at[1] == '/') {
            while (*at && *at != '\n') at++;
        } else if (at[0] == '/' && at[1] == '*') {
            const char *end = strstr(at + 2, "*/");
            if (!end) return at + strlen(at);
            at = end + 2;
        } else return at;
    }
}

/* The length of the next token, at which *at stands then, or 0 at the end. */
static size_t next_token(const char **at)
{
    *at = past_blanks(*at);
    size_t length = 0;
    while (is_of_word((*at)[length])) length++;
    return length || !**at ? length : 1;
}

bool same_text(const char *text, const char *other)
{
    for (;;) {
        size_t length = next_token(&text), others = next_token(&other);
        if (length != others || memcmp(text, other, length)) return false;
        if (!length) return true;
        text += length;
        other += length;
    }
}

int kernels_of_text(const char *text, char **entries, uint32_t most)
{
    uint32_t count = 0;
    bool after_kernel = false;
    for (size_t length = next_token(&text); length && count < most; text += length, length = next_token(&text)) {
        if (after_kernel && *text == '&') {
            entries[count] = strndup(text, length);
            if (!entries[count]) {
                while (count) free(entries[--count]);
                return -1;
            }
            count++;
        }
        after_kernel = length == strlen("kernel") && !memcmp(text, "kernel", length);
    }
    return (int)count;
}
