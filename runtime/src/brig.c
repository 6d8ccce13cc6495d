#include "brig.h"

#include <inttypes.h>
#include <stdio.h>
#include <stdlib.h>
#include <string.h>

#include "hsail_of_brig.h"

enum { DATA, CODE, OPERAND, LEAST_SECTIONS };
enum { IS_DEFINITION = 1, LINKAGE_PROGRAM = 1, PROFILE_FULL = 1, MACHINE_LARGE = 1 };

/* ---- directives */

static void say_variable(brig *it, uint32_t at)
{
    brig_variable entry;
    BRIG_ENTRY(it, code, at, entry);
    uint32_t base = entry.type & (BRIG_TYPE_ARRAY - 1);
    if (entry.base.kind != KIND_VARIABLE) brig_refuse(it, "an argument that is no variable");
    if (entry.initial) brig_refuse(it, "initialised variables aren't in the profile");
    bool is_natural = entry.align && entry.align <= 9 && 1u << (entry.align - 1) == brig_type_bytes(base);
    if (entry.align && !is_natural) brig_say_align(it, entry.align, "", " ");
    brig_say(it, "%s_%s ", brig_segment(it, entry.segment), brig_type(it, base));
    brig_say_name(it, entry.name);
    if (entry.type & BRIG_TYPE_ARRAY) brig_say(it, "[%" PRIu64 "]", entry.dimension_low | (uint64_t)entry.dimension_high << 32);
}

static bool is_told_by_nothing(uint32_t kind)
{
    return kind == KIND_COMMENT || kind == KIND_LOC || kind == KIND_PRAGMA || kind == KIND_EXTENSION;
}

/* The base of an entry of the code section, which has a length that leads on. */
static brig_base code_base(brig *it, uint32_t at)
{
    brig_base base;
    BRIG_ENTRY(it, code, at, base);
    if (base.bytes < sizeof base || base.bytes % 4) brig_refuse(it, "an entry of %u bytes", base.bytes);
    return base;
}

static void say_kernel_entry(brig *it, uint32_t at, uint32_t kind)
{
    brig_label label;
    if (kind >= KIND_INST_BEGIN && kind < KIND_INST_END) brig_say_instruction(it, at, kind);
    else if (kind == KIND_LABEL) {
        BRIG_ENTRY(it, code, at, label);
        brig_say_name(it, label.name);
        brig_say(it, ":\n");
    } else if (kind == KIND_VARIABLE) {
        brig_say(it, "  ");
        say_variable(it, at);
        brig_say(it, ";\n");
    } else if (!is_told_by_nothing(kind)) brig_refuse(it, "directive 0x%x in a kernel isn't in the profile", kind);
}

static void say_arguments(brig *it, const brig_executable *entry)
{
    uint32_t at = entry->first_argument;
    for (uint32_t i = 0; i < entry->arguments && !it->is_refused; i++) {
        brig_say(it, i ? ", " : "");
        say_variable(it, at);
        at += code_base(it, at).bytes;
    }
}

/* Where the kernel ends. */
static uint32_t say_kernel(brig *it, uint32_t at)
{
    brig_executable entry;
    BRIG_ENTRY(it, code, at, entry);
    if (!(entry.modifier & IS_DEFINITION)) brig_refuse(it, "a kernel that is declared alone isn't in the profile");
    brig_say(it, "%skernel ", entry.linkage == LINKAGE_PROGRAM ? "prog " : "");
    brig_say_name(it, entry.name);
    brig_say(it, "(");
    say_arguments(it, &entry);
    brig_say(it, ")\n{\n");
    for (uint32_t inside = entry.first_entry; inside < entry.next && !it->is_refused;) {
        brig_base base = code_base(it, inside);
        if (!it->is_refused) say_kernel_entry(it, inside, base.kind);
        inside += base.bytes;
    }
    brig_say(it, "};\n");
    return entry.next;
}

static void say_module(brig *it, uint32_t at)
{
    static const char *const ROUNDINGS[] = { NULL, "default", "near", "zero" };
    brig_module entry;
    BRIG_ENTRY(it, code, at, entry);
    const char *rounding = entry.rounding < sizeof ROUNDINGS / sizeof *ROUNDINGS ? ROUNDINGS[entry.rounding] : NULL;
    if (entry.profile > PROFILE_FULL || entry.machine != MACHINE_LARGE || !rounding) {
        brig_refuse(it, "a module of profile %u, model %u, rounding %u isn't read", entry.profile, entry.machine, entry.rounding);
        return;
    }
    brig_say(it, "module ");
    brig_say_name(it, entry.name);
    brig_say(it, ":%u:%u:$%s:$large:$%s;\n", entry.major, entry.minor, entry.profile == PROFILE_FULL ? "full" : "base", rounding);
}

/* Where a function ends: what calls it isn't in the profile, so it is passed over. */
static uint32_t end_of_function(brig *it, uint32_t at)
{
    brig_executable entry;
    BRIG_ENTRY(it, code, at, entry);
    return entry.next;
}

/* One directive of a module: where the next is. */
static uint32_t say_directive(brig *it, uint32_t at)
{
    brig_base base = code_base(it, at);
    uint32_t next = at + base.bytes, end = next;
    brig_variable variable;
    if (it->is_refused) return next;
    switch (base.kind) {
    case KIND_MODULE: say_module(it, at); break;
    case KIND_KERNEL: end = say_kernel(it, at); break;
    case KIND_FUNCTION:
    case KIND_INDIRECT_FUNCTION:
    case KIND_SIGNATURE: end = end_of_function(it, at); break;
    case KIND_VARIABLE: /* what uses a private one isn't in the profile */
        BRIG_ENTRY(it, code, at, variable);
        if (variable.segment == BRIG_SEGMENT_GLOBAL) brig_refuse(it, "global variables of a module aren't in the profile");
        break;
    default:
        if (!is_told_by_nothing(base.kind)) brig_refuse(it, "directive 0x%x isn't in the profile", base.kind);
    }
    return end > next ? end : next;
}

/* ---- the module */

static brig_section section_of(brig *it, const brig_section *module, uint64_t index, uint32_t number)
{
    uint64_t at = 0;
    brig_section_header header;
    brig_copy(it, module, index + 8 * (uint64_t)number, &at, sizeof at);
    brig_copy(it, module, at, &header, sizeof header);
    if (!it->is_refused && header.bytes <= module->length - at) return (brig_section){ module->bytes + at, (uint32_t)header.bytes };
    brig_refuse(it, "a section leads out of the module");
    return (brig_section){ module->bytes, 0 };
}

static void say_all(brig *it, const brig_section *module)
{
    brig_header header;
    brig_section_header code;
    brig_copy(it, module, 0, &header, sizeof header);
    if (memcmp(header.identification, "HSA BRIG", 8) || header.major != 1) brig_refuse(it, "it is no module of BRIG 1");
    if (header.section_count < LEAST_SECTIONS) brig_refuse(it, "it has less than three sections");
    if (it->is_refused) return;
    it->data = section_of(it, module, header.index, DATA);
    it->code = section_of(it, module, header.index, CODE);
    it->operand = section_of(it, module, header.index, OPERAND);
    BRIG_ENTRY(it, code, 0, code);
    uint32_t at = code.header_bytes;
    while (at < it->code.length && !it->is_refused) at = say_directive(it, at);
    if (!it->length) brig_refuse(it, "it has nothing in it");
}

char *hsail_of_brig(const void *module, size_t size, char *why, size_t room)
{
    brig it = { .why = why, .why_room = room };
    brig_section whole = { module, (uint32_t)size };
    if (size <= UINT32_MAX) say_all(&it, &whole);
    else brig_refuse(&it, "it has more than 4 GB");
    if (!it.is_refused) return it.text;
    free(it.text);
    return NULL;
}
