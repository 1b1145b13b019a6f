/* What a unit takes of memory beside its flash, which is used where it lies: each byte is counted that the C library's heap is asked for. A unit
   may take what docs/COST.md has: room for one read and for the content of the device's job, its blocks' contents, once more those of permanent RAM,
   the longest content, a page, so much for each block, for each job that may wait at once and for each stored instance, and what grows with nothing;
   and no more than its contents, two of the longest, a page, 200 bytes for each block and each instance, and 8 KiB. An opening may take no less than
   its text asks for. A reset takes nothing, and leaves as many bytes as it found. */
#include "heap.h"
#include "nvm_c.h"
#include <stdio.h>
#include <stdlib.h>
#include <string.h>

/* What a block, a job that waits and a stored instance may take, and all that grows with nothing. */
enum { TEXT = 65536, MOST_LENGTH = 4096, MOST_READ = 4096, A_BLOCK = 166, A_JOB = 174, A_BLOCK_OF_TEXT = 1220, AN_INSTANCE = 44, BANKS = 2, FIXED = 2700, FIXED_OF_TEXT = 6700,
       RESETS = 3, WANTED_EACH = 200, WANTED_FIXED = 8192 };

/* How many jobs each queue takes, and of how many priorities the blocks are, block 1 among them. */
enum { STANDARD = 8, IMMEDIATE = 4, PRIORITIES = 2 };

/* A unit of so many blocks of one length, the last one of another. */
typedef struct {
    const char *name;
    unsigned page, sector, sectors, count, length, longest;
    const char *more;       /* keys of each block */
    unsigned instances;     /* stored, of each block */
    int is_permanent;
} unit;

static const unit UNITS[] = {
    { "1 block of 4 bytes", 16, 1024, 2, 1, 4, 4, "", 1, 0 },
    { "1 block of 4,096 bytes, permanent", 16, 32768, 2, 1, 4096, 4096, ",\"ram\":\"permanent\"", 1, 1 },
    { "40 blocks of 32 bytes, permanent", 32, 4096, 16, 40, 32, 32, ",\"ram\":\"permanent\",\"readall\":true,\"writeall\":true", 1, 1 },
    { "40 redundant blocks of 32 bytes", 32, 4096, 16, 40, 32, 32, ",\"kind\":\"redundant\"", 2, 0 },
    { "20 datasets of 16, of 8 bytes", 16, 4096, 16, 20, 8, 8, ",\"kind\":\"dataset\",\"nv\":16", 16, 0 },
    { "500 blocks of 4 bytes beside one of 4,096", 64, 8192, 64, 501, 4, 4096, "", 1, 0 },
    { "100 blocks of 256 bytes over 1 MiB", 64, 16384, 64, 100, 256, 256, "", 1, 0 },
    { "100 blocks of 256 bytes over 4 MiB", 256, 65536, 64, 100, 256, 256, "", 1, 0 },
};

static size_t write_text(const unit *it, char *into) {
    size_t at = (size_t)sprintf(into, "{\"id\":1,\"page\":%u,\"sector\":%u,\"sectors\":%u,\"standard\":%d,\"immediate\":%d,\"blocks\":[",
                                it->page, it->sector, it->sectors, STANDARD, IMMEDIATE);
    for (unsigned i = 0; i < it->count; i++)
        at += (size_t)sprintf(into + at, "%s{\"length\":%u%s}", i ? "," : "", i + 1 == it->count ? it->longest : it->length, it->more);
    return at + (size_t)sprintf(into + at, "]}");
}

/* What start-ups find: of each stored instance where it lies and what stands there, and no content. */
static size_t found(const unit *it) {
    return (size_t)it->count * AN_INSTANCE * it->instances;
}

/* How many jobs may wait at once: one on each block, or as many as the queues take, and of each priority one that was interrupted. */
static size_t jobs(const unit *it) {
    size_t ids = (size_t)it->count + 2, queued = STANDARD + IMMEDIATE + PRIORITIES;
    return ids < queued ? ids : queued;
}

/* The blocks' contents, and once more those of permanent RAM. */
static size_t contents(const unit *it) {
    return ((size_t)(it->count - 1) * it->length + it->longest) * (it->is_permanent ? 2u : 1u);
}

static size_t allowed(const unit *it) {
    size_t bank = (size_t)it->sector * it->sectors / BANKS;
    return (bank < MOST_READ ? bank : MOST_READ) + MOST_LENGTH + contents(it) + it->longest + it->page + (size_t)A_BLOCK * it->count + A_JOB * jobs(it)
           + found(it) + FIXED;
}

static size_t wanted(const unit *it) {
    return contents(it) + 2u * it->longest + it->page + (size_t)WANTED_EACH * it->count * (1u + it->instances) + WANTED_FIXED;
}

/* What stands at most while a unit opens: what it takes, or before that what the reading of its text takes. */
static size_t allowed_to_open(const unit *it) {
    size_t taken = allowed(it), text = (size_t)A_BLOCK_OF_TEXT * it->count + FIXED_OF_TEXT;
    return taken > text ? taken : text;
}

/* Each block is written once, so that a further start-up finds all of them; and what is read stands in the last entry. */
static int use(nvm_handle *handle, const unit *it) {
    static const uint8_t content[MOST_LENGTH] = { 1 };
    uint8_t value = 0;
    for (unsigned i = 0; i < it->count; i++) {
        uint16_t length = (uint16_t)(i + 1 == it->count ? it->longest : it->length);
        if (nvm_ask(handle, NVM_WRITE_BLOCK, (uint16_t)(i + 2), 0, content, length, &value)) return 0;
        while (nvm_turn(handle) != 0) {}
        if (nvm_status(handle, (uint16_t)(i + 2))) return 0;
    }
    return nvm_ask(handle, NVM_READ_ALL, 0, 0, content, 0, &value) == 0;
}

/* Tells whether a unit keeps to what is allowed. */
static int measure(const unit *it) {
    static char text[TEXT];
    size_t length = write_text(it, text), flash = (size_t)it->sector * it->sectors, opened, behind, stood, begun = heap_standing;
    nvm_memory lent = { NULL, 0 }, back = { NULL, 0 };
    nvm_handle handle = { NULL };
    int well;
    lent.at = (uint8_t *)__real_malloc(flash);
    lent.length = flash;
    if (!lent.at) return 0;
    memset(lent.at, 0xFF, flash);
    heap_most = heap_standing;
    if (nvm_open(&handle, (const uint8_t *)text, length, lent, 0, &back)) {
        uint8_t rule = 0;
        uint16_t block = 0;
        (void)nvm_check((const uint8_t *)text, length, &rule, &block);
        printf("%s: it isn't opened; rule %u, block %u\n", it->name, (unsigned)rule, (unsigned)block);
        return 0;
    }
    opened = heap_most - begun;
    heap_most = heap_standing;
    well = use(&handle, it);
    behind = heap_most - begun;
    stood = heap_standing;
    heap_most = heap_standing;
    for (unsigned i = 0; i < RESETS; i++) well = well && nvm_restart(&handle) == 0;
    well = well && heap_standing == stood && heap_most == stood;
    well = well && behind <= allowed(it) && behind <= wanted(it) && opened <= allowed_to_open(it);
    printf("%-45s %8zu %8zu %8zu %8zu %8zu %8zu%s\n", it->name, flash, wanted(it), allowed(it), behind, opened, heap_most - begun, well ? "" : "  more");
    nvm_close(&handle, &back);
    well = well && heap_standing == begun && back.at == lent.at;
    __real_free(lent.at);
    return well;
}

int main(void) {
    int well = 1;
    printf("%-45s %8s %8s %8s %8s %8s %8s\n", "bytes", "flash", "wanted", "allowed", "taken", "opening", "reset");
    for (size_t i = 0; i < sizeof UNITS / sizeof UNITS[0]; i++) well = measure(&UNITS[i]) && well;
    return !well || heap_pieces != 0;
}
