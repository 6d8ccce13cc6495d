#include "brig.h"

#include <inttypes.h>
#include <string.h>

enum { OPCODE_NEG = 16, OPCODE_CBR = 84, OPCODE_BARRIER = 87, WIDTH_1 = 1, WIDTH_WAVESIZE = 33, WIDTH_ALL = 34 };

static const char *const OPCODES[] = {
    [2] = "add", [7] = "div", [11] = "mad", [12] = "max", [13] = "min", [14] = "mul", [17] = "rem", [20] = "sub", [26] = "shl", [27] = "shr",
    [28] = "and", [29] = "not", [30] = "or", [32] = "xor", [43] = "mov", [49] = "cmov", [69] = "cmp", [70] = "cvt", [71] = "ld", [72] = "st",
    [73] = "atomic", [74] = "atomicnoret", [OPCODE_CBR] = "cbr", [85] = "br", [OPCODE_BARRIER] = "barrier", [103] = "ret",
    [105] = "currentworkgroupsize", [109] = "gridsize", [112] = "workgroupid", [113] = "workgroupsize", [114] = "workitemabsid", [117] = "workitemid",
};

/* ---- operands */

/* A constant in the spelling that is read back as the same bytes. */
static void say_constant(brig *it, uint32_t type, const uint8_t *bytes, uint32_t length)
{
    uint64_t value = 0;
    if (!length || length > 8) {
        brig_refuse(it, "a constant of %u bytes isn't in the profile", length);
        return;
    }
    memcpy(&value, bytes, length);
    unsigned unused = 64 - 8 * length;
    int64_t number = (int64_t)(value << unused) >> unused;
    if (type == BRIG_TYPE_B1) brig_say(it, "%" PRIu64, value & 1);
    else if (number < 0 && number >= -1000000 && (length > 1 || type == BRIG_TYPE_S8)) brig_say(it, "%" PRId64, number);
    else if (value < 1u << 16) brig_say(it, "%" PRIu64, value);
    else brig_say(it, "0x%" PRIx64, value);
}

static void say_register(brig *it, uint32_t at)
{
    static const char CLASSES[] = "csd";
    brig_register entry;
    BRIG_ENTRY(it, operand, at, entry);
    if (entry.base.kind != KIND_REGISTER) brig_refuse(it, "a register that is none");
    else if (entry.kind >= sizeof CLASSES - 1) brig_refuse(it, "registers of 128 bits aren't in the profile");
    else brig_say(it, "$%c%u", CLASSES[entry.kind], entry.number);
}

/* An address; of group memory it has 32 bits. */
static void say_address(brig *it, uint32_t at, bool is_small)
{
    brig_address entry;
    BRIG_ENTRY(it, operand, at, entry);
    uint64_t offset = entry.offset_low | (uint64_t)entry.offset_high << 32;
    if (entry.symbol) {
        brig_variable variable;
        BRIG_ENTRY(it, code, entry.symbol, variable);
        brig_say(it, "[");
        brig_say_name(it, variable.name);
        brig_say(it, "]");
        if (!entry.reg && !offset) return;
    }
    int64_t number = is_small ? (int32_t)offset : (int64_t)offset;
    brig_say(it, "[");
    if (entry.reg) say_register(it, entry.reg);
    if (!entry.reg) brig_say(it, "%" PRIu64, is_small ? offset & UINT32_MAX : offset);
    else if (number < 0) brig_say(it, "-%" PRIu64, -(uint64_t)number);
    else if (number) brig_say(it, "+%" PRId64, number);
    brig_say(it, "]");
}

static void say_label(brig *it, uint32_t at)
{
    brig_code_ref entry;
    brig_label label;
    BRIG_ENTRY(it, operand, at, entry);
    BRIG_ENTRY(it, code, entry.ref, label);
    if (label.base.kind == KIND_LABEL) brig_say_name(it, label.name);
    else brig_refuse(it, "a branch to no label");
}

static void say_operand(brig *it, uint32_t at, bool is_small)
{
    brig_base base;
    brig_constant constant;
    uint32_t length;
    BRIG_ENTRY(it, operand, at, base);
    switch (base.kind) {
    case KIND_REGISTER: say_register(it, at); break;
    case KIND_ADDRESS: say_address(it, at, is_small); break;
    case KIND_CODE_REF: say_label(it, at); break;
    case KIND_CONSTANT:
        BRIG_ENTRY(it, operand, at, constant);
        const uint8_t *bytes = brig_data(it, constant.bytes, &length);
        say_constant(it, constant.type, bytes, length);
        break;
    default: brig_refuse(it, "operand 0x%x isn't in the profile", base.kind);
    }
}

static void say_operands(brig *it, uint32_t list, bool is_small)
{
    uint32_t length;
    const uint8_t *offsets = brig_data(it, list, &length);
    for (uint32_t i = 0; i + 4 <= length && !it->is_refused; i += 4) {
        uint32_t operand;
        memcpy(&operand, offsets + i, 4);
        brig_say(it, i ? ", " : " ");
        say_operand(it, operand, is_small);
    }
}

/* ---- instructions, by the forms that they have */

static void say_width(brig *it, uint32_t width)
{
    if (width == WIDTH_WAVESIZE) brig_say(it, "_width(WAVESIZE)");
    else if (width == WIDTH_ALL) brig_say(it, "_width(all)");
    else if (width && width < WIDTH_WAVESIZE) brig_say(it, "_width(%" PRIu64 ")", (uint64_t)1 << (width - 1));
    else brig_refuse(it, "width %u isn't one", width);
}

static void say_branch(brig *it, uint32_t at)
{
    brig_branch entry;
    BRIG_ENTRY(it, code, at, entry);
    uint32_t opcode = entry.instruction.opcode, usual = opcode == OPCODE_CBR ? WIDTH_1 : opcode == OPCODE_BARRIER ? WIDTH_ALL : entry.width;
    if (entry.width != usual) say_width(it, entry.width);
    if (opcode == OPCODE_CBR) brig_say(it, "_b1");
}

static void say_compare(brig *it, uint32_t at)
{
    static const char *const COMPARES[] = { "eq", "ne", "lt", "le", "gt", "ge" };
    brig_compare entry;
    BRIG_ENTRY(it, code, at, entry);
    if (entry.compare >= sizeof COMPARES / sizeof *COMPARES || entry.modifier || entry.pack || entry.instruction.type != BRIG_TYPE_B1) {
        brig_refuse(it, "comparison %u isn't in the profile", entry.compare);
        return;
    }
    brig_say(it, "_%s_b1_%s", COMPARES[entry.compare], brig_type(it, entry.source));
}

static void say_convert(brig *it, uint32_t at)
{
    brig_convert entry;
    BRIG_ENTRY(it, code, at, entry);
    if (entry.modifier || entry.round) brig_refuse(it, "cvt with modifiers isn't in the profile");
    brig_say(it, "_%s_%s", brig_type(it, entry.instruction.type), brig_type(it, entry.source));
}

/* Whether the address is one of group memory. */
static bool say_memory(brig *it, uint32_t at)
{
    brig_memory entry;
    BRIG_ENTRY(it, code, at, entry);
    if (entry.equiv || entry.modifier) brig_refuse(it, "equiv and const aren't in the profile");
    brig_say(it, "_%s", brig_segment(it, entry.segment));
    if (entry.align > 1) brig_say_align(it, entry.align, "_", "");
    if (entry.width > 1) say_width(it, entry.width);
    brig_say(it, "_%s", brig_type(it, entry.instruction.type));
    return entry.segment == BRIG_SEGMENT_GROUP;
}

static bool say_atomic(brig *it, uint32_t at)
{
    static const char *const ORDERS[] = { NULL, "rlx", "scacq", "screl", "scar" }, *const SCOPES[] = { NULL, NULL, "wave", "wg", "agent", "system" };
    static const char *const OPERATIONS[] = { "add", "and", "cas", "exch", NULL, "max", "min", "or", NULL, "sub", NULL, NULL, "xor" };
    brig_atomic entry;
    BRIG_ENTRY(it, code, at, entry);
    const char *order = entry.order < sizeof ORDERS / sizeof *ORDERS ? ORDERS[entry.order] : NULL;
    const char *scope = entry.scope < sizeof SCOPES / sizeof *SCOPES ? SCOPES[entry.scope] : NULL;
    const char *operation = entry.operation < sizeof OPERATIONS / sizeof *OPERATIONS ? OPERATIONS[entry.operation] : NULL;
    if (!order || !scope || !operation || entry.equiv) {
        brig_refuse(it, "atomic operation %u isn't in the profile", entry.operation);
        return false;
    }
    brig_say(it, "_%s_%s_%s_%s_%s", operation, brig_segment(it, entry.segment), order, scope, brig_type(it, entry.instruction.type));
    return entry.segment == BRIG_SEGMENT_GROUP;
}

/* neg isn't in the profile: 0 less the operand is the same. */
static void say_negation(brig *it, const brig_instruction *entry)
{
    uint32_t length, operands[2];
    const uint8_t *offsets = brig_data(it, entry->operands, &length);
    if (length != sizeof operands) {
        brig_refuse(it, "neg of %u operands", length / 4);
        return;
    }
    memcpy(operands, offsets, sizeof operands);
    brig_say(it, "  sub_%s ", brig_type(it, entry->type));
    say_operand(it, operands[0], false);
    brig_say(it, ", 0, ");
    say_operand(it, operands[1], false);
    brig_say(it, ";\n");
}

void brig_say_instruction(brig *it, uint32_t at, uint32_t kind)
{
    brig_instruction entry;
    BRIG_ENTRY(it, code, at, entry);
    if (entry.opcode == OPCODE_NEG && kind == KIND_INST_BASIC) {
        say_negation(it, &entry);
        return;
    }
    if (entry.opcode >= sizeof OPCODES / sizeof *OPCODES || !OPCODES[entry.opcode]) {
        brig_refuse(it, "opcode %u isn't in the profile", entry.opcode);
        return;
    }
    bool is_small = false;
    brig_say(it, "  %s", OPCODES[entry.opcode]);
    switch (kind) {
    case KIND_INST_BASIC:
        if (entry.type) brig_say(it, "_%s", brig_type(it, entry.type));
        break;
    case KIND_INST_BR: say_branch(it, at); break;
    case KIND_INST_CMP: say_compare(it, at); break;
    case KIND_INST_CVT: say_convert(it, at); break;
    case KIND_INST_MEM: is_small = say_memory(it, at); break;
    case KIND_INST_ATOMIC: is_small = say_atomic(it, at); break;
    case KIND_INST_MOD: brig_refuse(it, "opcode %u with modifiers isn't in the profile", entry.opcode); break;
    default: brig_refuse(it, "instructions of kind 0x%x aren't in the profile", kind);
    }
    say_operands(it, entry.operands, is_small);
    brig_say(it, ";\n");
}
