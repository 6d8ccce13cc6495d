#include "library.h"

hd_status library_let_go(hd_broker *broker)
{
    return hd_rotate(broker);
}

const char *library_status_text(hd_status status)
{
    static const char *const NAMES[] = {
        [HD_OUT_OF_MEMORY] = "OutOfMemory", [HD_UNKNOWN_CLIENT] = "UnknownClient", [HD_UNKNOWN_QUEUE] = "UnknownQueue",
        [HD_DENIED] = "Denied", [HD_BUSY] = "Busy", [HD_NOT_ALLOWED] = "NotAllowed", [HD_OUT_OF_STEP] = "OutOfStep",
        [HD_QUEUE_DOWN] = "QueueDown", [HD_NOT_IN_FLIGHT] = "NotInFlight", [HD_NOT_FINISHED] = "NotFinished",
        [HD_AUDIT_FULL] = "AuditFull", [HD_BAD_SIZE] = "BadSize", [HD_TOO_MANY] = "TooMany", [HD_UNKNOWN_OBJECT] = "UnknownObject",
        [HD_NOT_TOML] = "the text is no TOML", [HD_MISSING_KEY] = "a row lacks a key", [HD_BAD_VALUE] = "a key or a value isn't right",
        [HD_UNKNOWN_NAME] = "a row names what isn't declared", [HD_DOUBLE_NAME] = "two rows have one name",
        [HD_TOO_LONG] = "too long a text, too many rows, or too much memory", [HD_READ_LEXEME] = "no lexeme begins there",
        [HD_READ_SYNTAX] = "no module goes on so", [HD_READ_PROFILE] = "the word isn't one of the profile",
        [HD_READ_TOO_LONG] = "the text is over 65536 bytes", [HD_CHECK_LABEL] = "the kernel has no such label",
        [HD_CHECK_NAME] = "a name stands twice", [HD_CHECK_REGISTER] = "a register of another class",
        [HD_CHECK_TYPE] = "an argument by a type of another width", [HD_CHECK_ARGUMENT] = "the kernel has no such variable",
        [HD_CHECK_LARGE] = "a number that is too large", [HD_CHECK_ADDRESS] = "an address that the segment doesn't have",
        [HD_NO_ENTRY] = "the text has no kernel of the entry's name",
    };
    bool known = status < sizeof NAMES / sizeof *NAMES && NAMES[status];
    return known ? NAMES[status] : "another status";
}

const char *library_rule_name(uint32_t rule)
{
    static const char *const NAMES[] = { "none", "L1", "L2", "L3", "L4", "L5", "L6", "L7", "L8", "L9", "L10",
                                         "A1", "A2", "A3", "A4", "A5", "A6", "A7", "B1" };
    return rule <= HD_B1 ? NAMES[rule] : "another";
}

const char *library_rule_text(uint32_t rule)
{
    static const char *const TEXTS[] = {
        [HD_L1] = "the packet's type is none that a queue takes",
        [HD_L2] = "bits 15 to 13 of the header aren't zero, or a fence scope is 3",
        [HD_L3] = "a reserved field isn't zero",
        [HD_L4] = "the client may not use the agent, or the agent takes no packets of this kind",
        [HD_L5] = "a dimension or a size isn't right, or there is no such function",
        [HD_L6] = "no kernel has this kernel object, or the client may not launch it",
        [HD_L7] = "group_segment_size is less than the kernel's or over 65,536, or private_segment_size is over 65,536",
        [HD_L8] = "the argument block, or a range of an agent dispatch, lies in no region, or the client may not use that so",
        [HD_L9] = "the client may not wait for a signal that the packet depends on",
        [HD_L10] = "the client may not change the completion signal",
        [HD_A1] = "an access lies in no region that the packet holds",
        [HD_A2] = "the packet holds no right to such an access",
        [HD_A3] = "an access ends after its region",
        [HD_A4] = "an atomic access isn't aligned",
        [HD_A5] = "a work-item executed 65,536 instructions and hasn't ended",
        [HD_A6] = "work-items of a group wait at different barriers, or one ended while others wait",
        [HD_A7] = "an access to group memory lies outside of group_segment_size bytes",
        [HD_B1] = "a signal that the packet depends on is negative",
    };
    return rule && rule <= HD_B1 ? TEXTS[rule] : "no rule";
}
