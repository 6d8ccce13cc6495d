/* The mirror: the broker has memory of its own, and the client's is a copy of it. What the client stored goes in as its writes before a
   packet starts that may see it, the packet's acquire. What a packet wrote comes out by its effects before its signal falls, its
   release. It stands on the broker's side of the seam. */
#ifndef MIRROR_H
#define MIRROR_H

#include "seam.h"

typedef struct mirror {
    seam_region region[SEAM_REGIONS + 1];
    uint8_t *shadow[SEAM_REGIONS + 1]; /* what the broker has, as far as it was told */
} mirror;

/* Writes bytes to the broker's memory as the client. */
typedef hd_status (*mirror_writer)(void *context, uint64_t address, const uint8_t *bytes, size_t length);

/* Maps a region at its address. Where that fails, `why` tells the cause. */
bool mirror_map(mirror *it, uint32_t region, uint64_t length, char *why, size_t room);
/* The broker's memory is zeros again. */
void mirror_forget(mirror *it);
void mirror_free(mirror *it);

/* What the client changed in a range, or in the used pages of a region, goes in. */
hd_status mirror_range_in(mirror *it, uint64_t address, uint64_t length, mirror_writer write, void *context);
hd_status mirror_region_in(mirror *it, uint32_t region, mirror_writer write, void *context);

/* The shadow of a range, or NULL where it isn't all in one region. An effect's bytes are put there; then they are shown to the client. */
uint8_t *mirror_at(mirror *it, uint64_t address, uint64_t length);
void mirror_show(mirror *it, uint64_t address, uint64_t length);

#endif
