/* The reader of BRIG (PRM 1.0, chapter 18), of the integer profile that the broker's reader has. It writes the module's text, which the
   proved reader then reads: what isn't in the profile is named and refused. Nothing that is looked at lies outside of the module's bytes:
   entries are copied out of their sections, and what isn't there is zeros, and the module is refused. Its files:
     brig.c               the module, its sections and directives
     brig_instructions.c  instructions and operands
     brig_text.c          bytes of sections, and the text that is written */
#ifndef BRIG_H
#define BRIG_H

#include <stdbool.h>
#include <stddef.h>
#include <stdint.h>

typedef struct brig_section {
    const uint8_t *bytes;
    uint32_t length;
} brig_section;

typedef struct brig {
    brig_section data, code, operand;
    char *text;
    size_t length, room;
    char *why;
    size_t why_room;
    bool is_refused;
} brig;

/* ---- entries, as PRM 18 lays them out */

enum {
    KIND_COMMENT = 0x1002, KIND_EXTENSION = 0x1004, KIND_FUNCTION = 0x1006, KIND_INDIRECT_FUNCTION = 0x1007, KIND_KERNEL = 0x1008,
    KIND_LABEL = 0x1009, KIND_LOC = 0x100a, KIND_MODULE = 0x100b, KIND_PRAGMA = 0x100c, KIND_SIGNATURE = 0x100d, KIND_VARIABLE = 0x100e,
    KIND_INST_BEGIN = 0x2000, KIND_INST_ATOMIC = 0x2001, KIND_INST_BASIC = 0x2002, KIND_INST_BR = 0x2003, KIND_INST_CMP = 0x2004,
    KIND_INST_CVT = 0x2005, KIND_INST_MEM = 0x2008, KIND_INST_MOD = 0x200a, KIND_INST_END = 0x2012,
    KIND_ADDRESS = 0x3000, KIND_CODE_REF = 0x3003, KIND_CONSTANT = 0x3004, KIND_REGISTER = 0x300a
};

typedef struct brig_base {
    uint16_t bytes, kind;
} brig_base;

typedef struct brig_header { /* of a module */
    char identification[8];
    uint32_t major, minor;
    uint64_t bytes;
    uint8_t hash[64];
    uint32_t reserved, section_count;
    uint64_t index; /* where the offsets of the sections are */
} brig_header;

typedef struct brig_section_header {
    uint64_t bytes;
    uint32_t header_bytes, name_length;
} brig_section_header;

typedef struct brig_module {
    brig_base base;
    uint32_t name, major, minor;
    uint8_t profile, machine, rounding, reserved;
} brig_module;

typedef struct brig_executable { /* a kernel, a function, a signature */
    brig_base base;
    uint32_t name;
    uint16_t results, arguments;
    uint32_t first_argument, first_entry, next;
    uint8_t modifier, linkage;
    uint16_t reserved;
} brig_executable;

typedef struct brig_variable {
    brig_base base;
    uint32_t name, initial;
    uint16_t type;
    uint8_t segment, align;
    uint32_t dimension_low, dimension_high;
    uint8_t modifier, linkage, allocation, reserved;
} brig_variable;

typedef struct brig_label {
    brig_base base;
    uint32_t name;
} brig_label;

typedef struct brig_instruction { /* the beginning of each */
    brig_base base;
    uint16_t opcode, type;
    uint32_t operands;
} brig_instruction;

typedef struct brig_atomic {
    brig_instruction instruction;
    uint8_t segment, order, scope, operation, equiv, reserved[3];
} brig_atomic;

typedef struct brig_branch {
    brig_instruction instruction;
    uint8_t width, reserved[3];
} brig_branch;

typedef struct brig_compare {
    brig_instruction instruction;
    uint16_t source;
    uint8_t modifier, compare, pack, reserved[3];
} brig_compare;

typedef struct brig_convert {
    brig_instruction instruction;
    uint16_t source;
    uint8_t modifier, round;
} brig_convert;

typedef struct brig_memory {
    brig_instruction instruction;
    uint8_t segment, align, equiv, width, modifier, reserved[3];
} brig_memory;

typedef struct brig_address {
    brig_base base;
    uint32_t symbol, reg, offset_low, offset_high;
} brig_address;

typedef struct brig_code_ref {
    brig_base base;
    uint32_t ref;
} brig_code_ref;

typedef struct brig_constant {
    brig_base base;
    uint16_t type, reserved;
    uint32_t bytes;
} brig_constant;

typedef struct brig_register {
    brig_base base;
    uint16_t kind, number;
} brig_register;

/* ---- brig_text.c */

/* Refuses the module; the first reason stays. */
__attribute__((format(printf, 2, 3))) void brig_refuse(brig *it, const char *form, ...);
/* Goes on with the text. */
__attribute__((format(printf, 2, 3))) void brig_say(brig *it, const char *form, ...);
/* Copies an entry out of a section. */
void brig_copy(brig *it, const brig_section *section, uint64_t at, void *entry, size_t size);
#define BRIG_ENTRY(it, section, at, entry) brig_copy(it, &(it)->section, at, &(entry), sizeof(entry))
/* Bytes of the data section, and how many; none where the module is refused. */
const uint8_t *brig_data(brig *it, uint32_t at, uint32_t *length);
/* Says a name, which has to be one that the reader's lexemes have. */
void brig_say_name(brig *it, uint32_t at);
const char *brig_type(brig *it, uint32_t type);
uint32_t brig_type_bytes(uint32_t type);
const char *brig_segment(brig *it, uint32_t segment);
void brig_say_align(brig *it, uint32_t align, const char *before, const char *after);

/* ---- brig_instructions.c */
void brig_say_instruction(brig *it, uint32_t at, uint32_t kind);

enum { BRIG_SEGMENT_GLOBAL = 2, BRIG_SEGMENT_GROUP = 5, BRIG_TYPE_S8 = 5, BRIG_TYPE_B1 = 12, BRIG_TYPE_ARRAY = 0x80 };

#endif
