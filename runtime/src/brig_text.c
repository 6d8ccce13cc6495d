#include "brig.h"

#include <stdarg.h>
#include <stdio.h>
#include <stdlib.h>
#include <string.h>

enum { MOST_TEXT = 65536 }; /* what the proved reader takes */

void brig_refuse(brig *it, const char *form, ...)
{
    if (it->is_refused) return;
    va_list values;
    va_start(values, form);
    vsnprintf(it->why, it->why_room, form, values);
    va_end(values);
    it->is_refused = true;
}

static bool make_room(brig *it, size_t more)
{
    if (it->length + more + 1 <= it->room) return true;
    size_t room = 2 * it->room + more + 1;
    char *text = realloc(it->text, room);
    if (!text) {
        brig_refuse(it, "no memory");
        return false;
    }
    it->text = text;
    it->room = room;
    return true;
}

/* The text ends, whatever the module's offsets are: a longer one than the reader takes is refused. */
void brig_say(brig *it, const char *form, ...)
{
    va_list values, again;
    va_start(values, form);
    va_copy(again, values);
    size_t more = (size_t)vsnprintf(NULL, 0, form, values);
    va_end(values);
    if (make_room(it, more)) {
        vsnprintf(it->text + it->length, more + 1, form, again);
        it->length += more;
    }
    va_end(again);
    if (it->length > MOST_TEXT) brig_refuse(it, "its text is longer than the reader takes");
}

static const uint8_t *bytes_at(brig *it, const brig_section *section, uint64_t at, uint64_t length)
{
    if (at <= section->length && length <= section->length - at) return section->bytes + at;
    brig_refuse(it, "an offset leads out of its section");
    return NULL;
}

void brig_copy(brig *it, const brig_section *section, uint64_t at, void *entry, size_t size)
{
    const uint8_t *bytes = bytes_at(it, section, at, size);
    if (bytes) memcpy(entry, bytes, size);
    else memset(entry, 0, size);
}

const uint8_t *brig_data(brig *it, uint32_t at, uint32_t *length)
{
    BRIG_ENTRY(it, data, at, *length);
    const uint8_t *bytes = bytes_at(it, &it->data, (uint64_t)at + sizeof *length, *length);
    if (!bytes || it->is_refused) *length = 0;
    return bytes;
}

static bool is_letter(char byte)
{
    return (byte | 32) >= 'a' && (byte | 32) <= 'z';
}

static bool is_digit(char byte)
{
    return byte >= '0' && byte <= '9';
}

static bool is_name(const char *name, uint32_t length)
{
    if (length < 2 || !strchr("&%@", name[0]) || !name[0] || is_digit(name[1])) return false;
    for (uint32_t i = 1; i < length; i++)
        if (name[i] != '_' && !is_digit(name[i]) && !is_letter(name[i])) return false;
    return true;
}

void brig_say_name(brig *it, uint32_t at)
{
    uint32_t length;
    const char *name = (const char *)brig_data(it, at, &length);
    if (length && is_name(name, length)) brig_say(it, "%.*s", (int)length, name);
    else brig_refuse(it, "a name of %u bytes isn't in the profile", length);
}

static const struct {
    const char *name;
    uint32_t bytes;
} TYPES[] = {
    { NULL, 1 }, { "u8", 1 }, { "u16", 2 }, { "u32", 4 }, { "u64", 8 }, { "s8", 1 }, { "s16", 2 }, { "s32", 4 }, { "s64", 8 },
    { NULL, 2 }, { NULL, 4 }, { NULL, 8 }, { "b1", 1 }, { "b8", 1 }, { "b16", 2 }, { "b32", 4 }, { "b64", 8 },
};

const char *brig_type(brig *it, uint32_t type)
{
    if (type < sizeof TYPES / sizeof *TYPES && TYPES[type].name) return TYPES[type].name;
    brig_refuse(it, "type %u isn't in the profile", type);
    return "?";
}

uint32_t brig_type_bytes(uint32_t type)
{
    return type < sizeof TYPES / sizeof *TYPES ? TYPES[type].bytes : 0;
}

/* A flat address is one of global memory: whatever would make one of group or private memory (lda, stof) isn't in the profile. */
const char *brig_segment(brig *it, uint32_t segment)
{
    switch (segment) {
    case 1:
    case BRIG_SEGMENT_GLOBAL: return "global";
    case 4: return "kernarg";
    case BRIG_SEGMENT_GROUP: return "group";
    default:
        brig_refuse(it, "segment %u isn't in the profile", segment);
        return "?";
    }
}

void brig_say_align(brig *it, uint32_t align, const char *before, const char *after)
{
    if (align > 9) brig_refuse(it, "alignment %u isn't one", align);
    else if (align) brig_say(it, "%salign(%u)%s", before, 1u << (align - 1), after);
}
