#include "mirror.h"

#include <stdio.h>
#include <string.h>
#include <sys/mman.h>

/* Bytes that are compared and written together, and the most that one write has. */
enum { GRAIN = 64, MOST = 65536 };

/* The client's memory may change while it is looked at: its threads owe an order only for what a packet uses. What counts is what was
   copied, once. So the three functions that touch it, alone, are kept out of ThreadSanitizer's sight. */
#define UNORDERED __attribute__((no_sanitize("thread")))

UNORDERED static bool differs(const volatile uint64_t *client, const uint64_t *shadow, size_t words)
{
    uint64_t all = 0;
    for (size_t i = 0; i < words; i++) all |= client[i] ^ shadow[i];
    return all != 0;
}

UNORDERED static void copy_words(const volatile uint64_t *from, uint64_t *to, size_t words)
{
    for (size_t i = 0; i < words; i++) to[i] = from[i];
}

/* Only bytes that were written are stored, so that the client may write others meanwhile. */
UNORDERED static void store_bytes(volatile uint8_t *to, const uint8_t *from, uint64_t length)
{
    for (; length && (uintptr_t)to % 8; length--) *to++ = *from++;
    for (; length >= 8; length -= 8, to += 8, from += 8) *(volatile uint64_t *)(void *)to = *(const uint64_t *)(const void *)from;
    for (; length; length--) *to++ = *from++;
}

static uint64_t whole_pages(uint64_t length)
{
    return (length + SEAM_PAGE - 1) / SEAM_PAGE * SEAM_PAGE;
}

static uint64_t pages_of(uint64_t length)
{
    return whole_pages(length) / SEAM_PAGE;
}

static uint64_t spans_of(uint64_t length)
{
    return (pages_of(length) + SEAM_SPAN - 1) / SEAM_SPAN;
}

static void *new_pages(void *at, uint64_t length, int more)
{
    void *pages = mmap(at, length, PROT_READ | PROT_WRITE, MAP_PRIVATE | MAP_ANONYMOUS | MAP_NORESERVE | more, -1, 0);
    return pages == MAP_FAILED ? NULL : pages;
}

bool mirror_map(mirror *it, uint32_t region, uint64_t length, char *why, size_t room)
{
    void *address = (void *)((uint64_t)region << 32);
    uint64_t whole = whole_pages(length);
    uint8_t *bytes = new_pages(address, whole, MAP_FIXED_NOREPLACE);
    if (bytes && bytes != address) munmap(bytes, whole); /* a kernel that doesn't know the flag */
    if (!bytes || bytes != address) {
        snprintf(why, room, "region %u has no room at %p in this process", region, address);
        return false;
    }
    it->shadow[region] = new_pages(NULL, whole, 0);
    _Atomic uint16_t *users = new_pages(NULL, pages_of(length) * sizeof *users, 0);
    _Atomic uint32_t *spans = new_pages(NULL, spans_of(length) * sizeof *spans, 0);
    it->region[region] = (seam_region){ bytes, length, users, spans };
    if (it->shadow[region] && users && spans) return true;
    snprintf(why, room, "no memory for region %u", region);
    return false;
}

void mirror_forget(mirror *it)
{
    for (uint32_t region = 1; region <= SEAM_REGIONS; region++)
        if (it->shadow[region]) madvise(it->shadow[region], whole_pages(it->region[region].length), MADV_DONTNEED);
}

void mirror_free(mirror *it)
{
    for (uint32_t region = 1; region <= SEAM_REGIONS; region++) {
        const seam_region *client = &it->region[region];
        uint64_t whole = whole_pages(client->length);
        if (client->bytes) munmap(client->bytes, whole);
        if (it->shadow[region]) munmap(it->shadow[region], whole);
        if (client->users) munmap((void *)client->users, pages_of(client->length) * sizeof *client->users);
        if (client->spans) munmap((void *)client->spans, spans_of(client->length) * sizeof *client->spans);
    }
    memset(it, 0, sizeof *it);
}

static bool grain_differs(const mirror *it, uint32_t region, uint64_t at)
{
    return differs((void *)(it->region[region].bytes + at), (void *)(it->shadow[region] + at), GRAIN / 8);
}

/* What differs between two offsets that are multiples of GRAIN goes in; the last grain may pass the region's end within its page. What
   goes in is kept in the shadow only once it is in. */
static hd_status between_in(mirror *it, uint32_t region, uint64_t at, uint64_t end, mirror_writer write, void *context)
{
    static _Alignas(GRAIN) uint8_t taken[MOST]; /* the caller has the broker's lock */
    const seam_region *client = &it->region[region];
    while (at < end) {
        uint64_t from = at;
        for (; at < end && at - from < MOST && grain_differs(it, region, at); at += GRAIN)
            copy_words((void *)(client->bytes + at), (void *)(taken + (at - from)), GRAIN / 8);
        if (at == from) {
            at += GRAIN;
            continue;
        }
        uint64_t last = at < client->length ? at : client->length;
        if (last <= from) break;
        hd_status status = write(context, ((uint64_t)region << 32) + from, taken, last - from);
        if (status) return status;
        memcpy(it->shadow[region] + from, taken, last - from);
    }
    return HD_OK;
}

/* The region that an address lies in, or 0. */
static uint32_t region_of(const mirror *it, uint64_t address)
{
    uint64_t region = address >> 32, at = address & UINT32_MAX;
    return region && region <= SEAM_REGIONS && at < it->region[region].length ? (uint32_t)region : 0;
}

hd_status mirror_range_in(mirror *it, uint64_t address, uint64_t length, mirror_writer write, void *context)
{
    uint32_t region = region_of(it, address);
    uint64_t at = address & UINT32_MAX;
    if (!region || !length) return HD_OK;
    uint64_t left = it->region[region].length - at, end = at + (length < left ? length : left);
    return between_in(it, region, at / GRAIN * GRAIN, (end + GRAIN - 1) / GRAIN * GRAIN, write, context);
}

static hd_status page_in(mirror *it, uint32_t region, uint64_t page, mirror_writer write, void *context)
{
    const seam_region *client = &it->region[region];
    uint64_t at = page * SEAM_PAGE;
    if (!atomic_load_explicit(&client->users[page], memory_order_acquire)) return HD_OK;
    if (!differs((void *)(client->bytes + at), (void *)(it->shadow[region] + at), SEAM_PAGE / 8)) return HD_OK;
    return between_in(it, region, at, at + SEAM_PAGE, write, context);
}

hd_status mirror_region_in(mirror *it, uint32_t region, mirror_writer write, void *context)
{
    const seam_region *client = &it->region[region];
    if (!client->bytes) return HD_OK;
    uint64_t pages = pages_of(client->length);
    for (uint64_t span = 0; span < spans_of(client->length); span++) {
        if (!atomic_load_explicit(&client->spans[span], memory_order_acquire)) continue;
        for (uint64_t page = span * SEAM_SPAN; page < pages && page < (span + 1) * SEAM_SPAN; page++) {
            hd_status status = page_in(it, region, page, write, context);
            if (status) return status;
        }
    }
    return HD_OK;
}

uint8_t *mirror_at(mirror *it, uint64_t address, uint64_t length)
{
    uint32_t region = region_of(it, address);
    uint64_t at = address & UINT32_MAX;
    return region && length <= it->region[region].length - at ? it->shadow[region] + at : NULL;
}

void mirror_show(mirror *it, uint64_t address, uint64_t length)
{
    const uint8_t *from = mirror_at(it, address, length);
    if (from) store_bytes(it->region[address >> 32].bytes + (address & UINT32_MAX), from, length);
}
