/* Handles of what a program makes besides signals and queues: a handle that isn't one of its kind, or is no more, is known. */
#ifndef HANDLES_H
#define HANDLES_H

#include <stddef.h>
#include <stdint.h>

typedef enum handle_kind {
    HANDLE_NONE,
    HANDLE_READER,
    HANDLE_CODE,
    HANDLE_CODE_SYMBOL,
    HANDLE_EXECUTABLE,
    HANDLE_SYMBOL,
    HANDLE_PROGRAM,
    HANDLE_SIGNAL_GROUP,
    HANDLE_KINDS
} handle_kind;

/* A new handle of a thing, or 0 where there is no memory. */
uint64_t handle_new(handle_kind kind, void *thing);
/* The thing of a handle, or NULL. */
void *handle_thing(handle_kind kind, uint64_t handle);
/* Ends a handle: its thing, or NULL. */
void *handle_end(handle_kind kind, uint64_t handle);
/* Ends all, and frees their things. */
void handles_end_all(void (*const free_thing[HANDLE_KINDS])(void *));

#endif
