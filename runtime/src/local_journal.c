#include "local.h"

#include <stdlib.h>
#include <string.h>

static bool make_room(seam_link *link, uint64_t needed)
{
    if (needed <= link->line_room) return true;
    char *more = realloc(link->line, needed * 2);
    if (!more) return false;
    link->line = more;
    link->line_room = needed * 2;
    return true;
}

static bool write_head(seam_link *link)
{
    static const hd_digest NO_FURTHER;
    uint64_t needed = 0;
    if (!make_room(link, 4096)) return false;
    hd_status status = hd_journal_head(&link->broker, &NO_FURTHER, 0, link->line, link->line_room, &needed, &link->chain);
    if (status == HD_TOO_SHORT && make_room(link, needed))
        status = hd_journal_head(&link->broker, &NO_FURTHER, 0, link->line, link->line_room, &needed, &link->chain);
    return status == HD_OK && fwrite(link->line, 1, needed, link->journal) == needed;
}

bool journal_begin(seam_link *link, uint32_t generation)
{
    char path[4096];
    if (!link->setting.journal) return true;
    int length = generation ? snprintf(path, sizeof path, "%s.%u", link->setting.journal, generation)
                            : snprintf(path, sizeof path, "%s", link->setting.journal);
    if (length < 0 || (size_t)length >= sizeof path) return false;
    link->journal = fopen(path, "wx"); /* one that is there stays */
    return link->journal && write_head(link);
}

void journal_go_on(seam_link *link)
{
    uint64_t needed;
    while (link->journal) {
        hd_status status = hd_journal_line(&link->broker, link->line, link->line_room, &needed, &link->chain);
        if (status == HD_OK) fwrite(link->line, 1, needed, link->journal);
        else if (status != HD_TOO_SHORT || !make_room(link, needed)) return;
    }
}

void journal_end(seam_link *link)
{
    uint64_t needed;
    if (!link->journal) return;
    journal_go_on(link);
    if (hd_journal_end(&link->chain, link->line, link->line_room, &needed) == HD_OK) fwrite(link->line, 1, needed, link->journal);
    fclose(link->journal);
    link->journal = NULL;
}

bool was_full(seam_link *link, hd_status status)
{
    if (status != HD_AUDIT_FULL) return false;
    journal_go_on(link);
    return library_let_go(&link->broker) == HD_OK;
}
