/* A stand-in of the proved library, for tests of the services that need no proof: docs/MODEL.md's machine over a table of marks, which
   stands in the memory that is lent. It reads the text's keys by itself, so that a wrong block table is seen, and each of its calls that
   may want memory can fail so. It knows no banks, no switches and no retries. */
#include "fake_nvm_c.h"
#include "nvm_c.h"
#include <stdio.h>
#include <stdlib.h>
#include <string.h>

enum { BLOCKS = 24, LENGTH = 64, JOBS = 16, SETS = 4, OPERATIONS = 3 };
enum { OK, NOT_OK, PENDING, INTEGRITY_FAILED, SKIPPED, INVALIDATED, CANCELED, REDUNDANCY_FAILED, RESTORED };
enum { ERASED, DATA, INVALID };
enum { IDLE, STEPPED, PICKED, POSTED, OFF, DOWN };

typedef struct { uint8_t mark[SETS], content[SETS][LENGTH]; } stored_block;
typedef struct {
    unsigned length, priority, sets, roms, ram, is_dataset, is_redundant, readall, writeall, once, is_protected, resistant, has_defaults;
    unsigned reads, writes, repeats, device;
    uint8_t defaults[LENGTH], rom[SETS][LENGTH];
} block_facts;
typedef struct { uint8_t status, index, locked, guarded, valid, changed, ram[LENGTH]; } block_state;
typedef struct { uint8_t service, content[LENGTH]; unsigned block, step, is_member; } job_of;

unsigned fake_opened;
static char anchor;
static block_facts facts[BLOCKS];
static block_state states[BLOCKS];
static job_of jobs[JOBS];
static struct { unsigned service, is_picked, is_canceled, at, has_failed, is_known; } sweep;
static stored_block *stored;
static nvm_memory lent;
static unsigned count, standard, waiting, entries, identity, cuts_left, cut_in, is_off, is_down, calls, fail_at, has_failed, next_result;
static uint8_t given[LENGTH];
static size_t given_length;
static const char *last_entry;

void fake_fail(unsigned nth) { fail_at = nth ? calls + nth : 0; has_failed = 0; }
int fake_has_failed(void) { return (int)has_failed; }
void fake_next_result(uint8_t result) { next_result = result; }

static int fails(void) {
    if (++calls != fail_at) return 0;
    has_failed = 1;
    return 1;
}

/* THE TEXT: one that is well formed, as the real reader sees to it. A block's part goes from one "length" to the next, as tests write it. */

static const char *find(const char *from, const char *end, const char *key) {
    size_t length = strlen(key);
    for (; from + length <= end; from++) if (memcmp(from, key, length) == 0) return from + length;
    return NULL;
}

static unsigned number(const char *from, const char *end, const char *key, unsigned absent) {
    const char *at = find(from, end, key);
    return at ? (unsigned)strtoul(at, NULL, 10) : absent;
}

static const char *content_at(const char *at, uint8_t *into) {
    unsigned value, size = 0;
    while (sscanf(at, "%2x", &value) == 1 && size < LENGTH) {
        into[size++] = (uint8_t)value;
        at += 2;
        if (*at == '*') { memset(into, (int)value, strtoul(at + 1, NULL, 10)); break; }
        if (*at == '"') break;
    }
    return strchr(at, '"') + 1;
}

static void read_block(const char *from, const char *end, block_facts *it) {
    const char *at = find(from, end, "\"defaults\":\"");
    memset(it, 0, sizeof *it);
    it->length = number(from, end, "\"length\":", 0);
    it->priority = number(from, end, "\"priority\":", 100);
    it->is_dataset = find(from, end, "\"dataset\"") != NULL;
    it->is_redundant = find(from, end, "\"redundant\"") != NULL;
    it->reads = number(from, end, "\"reads\":", 0);
    it->writes = number(from, end, "\"writes\":", 0);
    it->repeats = number(from, end, "\"repeats\":", 0);
    it->device = number(from, end, "\"device\":", 0);
    it->sets = number(from, end, "\"nv\":", 1);
    it->ram = find(from, end, "\"permanent\"") ? 1 : find(from, end, "\"sync\"") ? 2 : 0;
    it->readall = find(from, end, "\"readall\":true") != NULL;
    it->writeall = find(from, end, "\"writeall\":true") != NULL;
    it->once = find(from, end, "\"once\":true") != NULL;
    it->is_protected = find(from, end, "\"protected\":true") != NULL;
    it->resistant = find(from, end, "\"resistant\":true") != NULL;
    it->has_defaults = at != NULL;
    if (at) content_at(at, it->defaults);
    at = find(from, end, "\"rom\":[");
    while (at && *at != ']') {
        if (*at == '"') at = content_at(at + 1, it->rom[it->roms++]);
        else at++;
    }
}

/* Tells the rule that it breaks, of those that are read here: 1, 10 and 13. */
static unsigned read_text(const char *text, size_t length, unsigned *block) {
    const char *end = text + length, *at = find(text, end, "\"blocks\":["), *next;
    *block = 0;
    if (length < 2 || *text != '{') return 1;
    if (!at) return 10;
    identity = number(text, end, "\"id\":", 0);
    standard = number(text, end, "\"standard\":", 1);
    count = 0;
    memset(&facts[1], 0, sizeof facts[1]);
    facts[1].length = 2;
    facts[1].ram = facts[1].sets = 1;
    for (; at; at = next) {
        while (at < end && *at != '{') at++;
        next = find(at, end, "},");
        read_block(at, next ? next : end, &facts[count++ + 2]);
    }
    for (unsigned id = 2; id < count + 2; id++) if (facts[id].length == 0) { *block = id; return 13; }
    return 0;
}

/* As code of nvm_open, of a text that is a configuration. */
static int fault_of_flash(const char *text, size_t length, nvm_memory flash) {
    const char *end = text + length;
    if (find(text, end, "\"eeprom\"")) return 5;
    return number(text, end, "\"sector\":", 0) * number(text, end, "\"sectors\":", 0) != flash.length ? 2 : 0;
}

uint8_t nvm_check(const uint8_t *text, size_t text_length, uint8_t *rule, uint16_t *block) {
    unsigned broken, at = 0;
    *rule = 0;
    *block = 0;
    if (fails()) return 4;
    broken = read_text((const char *)text, text_length, &at);
    *rule = (uint8_t)broken;
    *block = (uint16_t)at;
    return broken != 0;
}

static nvm_block_facts facts_of(const block_facts *it) {
    nvm_block_facts told = { 0 };
    told.roms = it->roms;
    told.length = (uint16_t)it->length;
    told.kind = (uint8_t)(it->is_dataset ? NVM_KIND_DATASET : it->is_redundant ? NVM_KIND_REDUNDANT : NVM_KIND_NATIVE);
    told.nv = it->is_dataset ? (uint8_t)it->sets : 0;
    told.ram = (uint8_t)it->ram;
    told.has_defaults = it->has_defaults != 0;
    told.in_readall = it->readall != 0;
    told.in_writeall = it->writeall != 0;
    told.write_once = it->once != 0;
    told.write_protected = it->is_protected != 0;
    told.resistant = it->resistant != 0;
    told.priority = (uint8_t)it->priority;
    told.reads = (uint8_t)it->reads;
    told.writes = (uint8_t)it->writes;
    told.repeats = (uint8_t)it->repeats;
    told.device = (uint8_t)it->device;
    return told;
}

/* (of block 1 the services ask nothing) */
uint8_t nvm_block(nvm_handle *handle, uint16_t block, nvm_block_facts *told) {
    if (!handle->at) abort();
    if (block < 2 || block > count + 1) return 1;
    *told = facts_of(&facts[block]);
    return 0;
}

/* THE START */

/* An entry, of which the first word of its line is known. */
static void note(const char *word) { entries++; given_length = 0; last_entry = word; }

static void start_up(void) {
    memset(states, 0, sizeof states);
    memset(&sweep, 0, sizeof sweep);
    waiting = is_off = cut_in = 0;
    for (unsigned i = 2; i < count + 2; i++)
        states[i].guarded = (uint8_t)(facts[i].once ? stored[i].mark[0] != ERASED : facts[i].is_protected);
    note("found");
}

uint8_t nvm_open(nvm_handle *handle, const uint8_t *text, size_t text_length, nvm_memory flash, uint32_t cuts, nvm_memory *back) {
    unsigned at = 0;
    int fault = fails() ? 4 : read_text((const char *)text, text_length, &at) != 0;
    if (!fault) fault = fault_of_flash((const char *)text, text_length, flash);
    if (fault || handle->at) { *back = flash; return (uint8_t)(fault ? fault : 4); }
    lent = flash;
    stored = (stored_block *)(void *)flash.at;
    if (sizeof(stored_block) * BLOCKS > flash.length) abort();
    if (flash.at[0] == 0xFF) memset(flash.at, 0, flash.length);
    handle->at = &anchor;
    fake_opened++;
    entries = is_down = 0;
    cuts_left = cuts;
    start_up();
    return 0;
}

uint8_t nvm_restart(nvm_handle *handle) {
    (void)handle;
    is_down = (unsigned)fails();
    if (!is_down) start_up();
    return is_down ? 1 : 0;
}

void nvm_close(nvm_handle *handle, nvm_memory *back) {
    if (handle->at != &anchor) abort();
    fake_opened--;
    *back = lent;
    handle->at = NULL;
}

/* REQUESTS */

static int is_immediate(unsigned service, unsigned block) {
    return facts[block].priority == 0 && (service == NVM_WRITE_BLOCK || service == NVM_WRITE_PERMANENT_RAM);
}

static int is_rom(unsigned block) { return facts[block].is_dataset && states[block].index >= facts[block].sets; }

static int takes_ram(unsigned service) { return service >= NVM_READ_PERMANENT_RAM && service <= NVM_RESTORE_PERMANENT_RAM; }

static int is_wrong_type(unsigned service, unsigned block) {
    int is_restore = service == NVM_RESTORE_BLOCK_DEFAULTS || service == NVM_RESTORE_PERMANENT_RAM;
    if (service == NVM_SET_DATA_INDEX || service == NVM_GET_DATA_INDEX) return !facts[block].is_dataset;
    return is_restore ? (int)facts[block].is_dataset : block == 1;
}

static int holds(unsigned why, unsigned service, unsigned block, unsigned value, size_t length) {
    switch (why) {
    case 1: return block < 1 || block > count + 1;
    case 2: return (int)is_off;
    case 3: return is_wrong_type(service, block);
    case 4: return value >= facts[block].sets + facts[block].roms;
    case 5: return length != facts[block].length;
    case 6: return facts[block].ram == 0 || (service == NVM_PUT_RAM && facts[block].ram == 2);
    case 7: return block != 1 && !facts[block].has_defaults;
    case 8: return facts[block].priority != 0;
    case 9: return (int)facts[block].once;
    case 10: return sweep.service != 0;
    case 11: return states[block].status == PENDING;
    case 12: return states[block].locked;
    case 13: return states[block].guarded;
    case 14: return is_rom(block);
    case 15: return sweep.service != NVM_WRITE_ALL || sweep.is_canceled;
    case 16: return waiting >= standard;
    default: return 0;
    }
}

/* Which refusals a service is tested for, as docs/MODEL.md has them. */
static unsigned refusal_of(unsigned service, unsigned block, unsigned value, size_t length) {
    static const struct { uint8_t service, tested[12]; } ROWS[] = {
        { NVM_READ_BLOCK, { 1, 2, 10, 11, 16 } }, { NVM_READ_PERMANENT_RAM, { 1, 2, 6, 10, 11, 16 } },
        { NVM_WRITE_BLOCK, { 1, 2, 3, 5, 10, 11, 12, 13, 14, 16 } }, { NVM_WRITE_PERMANENT_RAM, { 1, 2, 3, 6, 10, 11, 12, 13, 14, 16 } },
        { NVM_RESTORE_BLOCK_DEFAULTS, { 1, 2, 3, 7, 10, 11, 16 } }, { NVM_RESTORE_PERMANENT_RAM, { 1, 2, 3, 6, 7, 10, 11, 16 } },
        { NVM_ERASE_NV_BLOCK, { 1, 2, 3, 8, 10, 11, 12, 13, 14, 16 } }, { NVM_INVALIDATE_NV_BLOCK, { 1, 2, 3, 10, 11, 12, 13, 14, 16 } },
        { NVM_SET_DATA_INDEX, { 1, 2, 3, 4, 10, 11 } }, { NVM_GET_DATA_INDEX, { 1, 2, 3 } },
        { NVM_SET_BLOCK_PROTECTION, { 1, 2, 3, 9, 10, 11 } }, { NVM_SET_BLOCK_LOCK_STATUS, { 1, 2, 3, 10, 11 } },
        { NVM_SET_RAM_BLOCK_STATUS, { 1, 2, 3, 6, 10, 11 } }, { NVM_PUT_RAM, { 1, 2, 3, 5, 6, 10, 11 } },
        { NVM_READ_ALL, { 2, 10 } }, { NVM_WRITE_ALL, { 2, 10 } }, { NVM_CANCEL_WRITE_ALL, { 2, 15 } },
    };
    for (size_t row = 0; row < sizeof ROWS / sizeof *ROWS; row++)
        for (unsigned i = 0; ROWS[row].service == service && ROWS[row].tested[i]; i++)
            if (holds(ROWS[row].tested[i], service, block, value, length)) return ROWS[row].tested[i];
    return 0;
}

static void accept_job(uint8_t service, unsigned block, const uint8_t *content, size_t length) {
    job_of *job = &jobs[waiting++];
    if (waiting == JOBS) abort();
    memset(job, 0, sizeof *job);
    job->service = service;
    job->block = block;
    if (service == NVM_WRITE_BLOCK) memcpy(job->content, content, length);
    states[block].status = PENDING;
}

uint8_t nvm_ask(nvm_handle *handle, uint8_t service, uint16_t block, uint8_t value, const uint8_t *content, size_t length, uint8_t *told) {
    block_state *it = &states[block < BLOCKS ? block : 0];
    *told = 0;
    if (handle->at != &anchor || !content) abort();
    if (fails()) return 4;
    if (is_down) return 5;
    *told = (uint8_t)refusal_of(service, block, value, length);
    note("ask");
    if (*told) return 1;
    switch (service) {
    case NVM_SET_DATA_INDEX: it->index = value; return 0;
    case NVM_GET_DATA_INDEX: *told = it->index; return 2;
    case NVM_SET_BLOCK_PROTECTION: it->guarded = value != 0; return 0;
    case NVM_SET_BLOCK_LOCK_STATUS: it->locked = value != 0; return 0;
    case NVM_SET_RAM_BLOCK_STATUS: it->valid = it->changed = value != 0; return 0;
    case NVM_PUT_RAM: memcpy(it->ram, content, length); return 0;
    case NVM_CANCEL_WRITE_ALL: sweep.is_canceled = 1; return 0;
    case NVM_READ_ALL: case NVM_WRITE_ALL:
        memset(&sweep, 0, sizeof sweep);
        sweep.service = service;
        states[0].status = PENDING;
        return 0;
    default: accept_job(service, block, content, length); return 0;
    }
}

/* JOBS */

static int is_write(unsigned service) {
    return service == NVM_WRITE_BLOCK || service == NVM_WRITE_PERMANENT_RAM || service == NVM_INVALIDATE_NV_BLOCK || service == NVM_ERASE_NV_BLOCK;
}

static uint8_t content_of(unsigned block, uint8_t *into) {
    const block_facts *it = &facts[block];
    unsigned at = states[block].index;
    if (is_rom(block)) { memcpy(into, it->rom[at - it->sets], LENGTH); return OK; }
    if (stored[block].mark[at] == DATA) { memcpy(into, stored[block].content[at], LENGTH); return OK; }
    if (stored[block].mark[at] == INVALID) return INVALIDATED;
    if (it->has_defaults) memcpy(into, it->defaults, LENGTH);
    return it->has_defaults ? RESTORED : INTEGRITY_FAILED;
}

static void store(const job_of *job) {
    unsigned at = states[job->block].index;
    int is_content = job->service == NVM_WRITE_BLOCK || job->service == NVM_WRITE_PERMANENT_RAM;
    stored[job->block].mark[at] = is_content ? DATA : job->service == NVM_INVALIDATE_NV_BLOCK ? INVALID : ERASED;
    if (is_content) memcpy(stored[job->block].content[at], job->content, LENGTH);
    if (is_content && facts[job->block].once) states[job->block].guarded = 1;
}

/* What a job that gives something is posted with; its content is in into. */
static uint8_t give(const job_of *job, uint8_t *into) {
    uint8_t result = OK;
    if (job->service == NVM_RESTORE_BLOCK_DEFAULTS || job->service == NVM_RESTORE_PERMANENT_RAM) memcpy(into, facts[job->block].defaults, LENGTH);
    else result = next_result == NOT_OK ? NOT_OK : content_of(job->block, into);
    if (result == OK && next_result == REDUNDANCY_FAILED) result = REDUNDANCY_FAILED;
    if (job->is_member && job->block == 1) {
        uint8_t own[2] = { (uint8_t)(identity >> 8), (uint8_t)identity };
        sweep.is_known = result == OK && memcmp(into, own, 2) == 0;
        memcpy(into, own, 2);
        result = sweep.is_known ? OK : RESTORED;
    }
    return result;
}

static void flag(unsigned block, uint8_t result, int is_new) {
    int is_there = result == OK || result == REDUNDANCY_FAILED || result == RESTORED;
    states[block].valid = (uint8_t)is_there;
    states[block].changed = (uint8_t)(is_there && (is_new || result == RESTORED));
}

static uint8_t post(unsigned block, uint8_t result) {
    note("post");
    states[block].status = result;
    next_result = 0;
    return POSTED;
}

static uint8_t end_job(job_of *job) {
    uint8_t into[LENGTH] = { 0 }, result;
    unsigned block = job->block;
    job_of done = *job;
    if (is_write(job->service)) {
        result = next_result == NOT_OK || next_result == REDUNDANCY_FAILED ? (uint8_t)next_result : (uint8_t)OK;
        if (done.service == NVM_WRITE_PERMANENT_RAM && result != NOT_OK) flag(block, result, 0);
        result = post(block, result);
    } else {
        result = give(job, into);
        if (takes_ram(done.service)) {
            if (result == OK || result == REDUNDANCY_FAILED || result == RESTORED) memcpy(states[block].ram, into, LENGTH);
            flag(block, result, done.service == NVM_RESTORE_PERMANENT_RAM);
        }
        (void)post(block, result);
        if (result == OK || result == REDUNDANCY_FAILED || result == RESTORED) { memcpy(given, into, LENGTH); given_length = facts[block].length; }
        result = POSTED;
    }
    waiting--;
    memmove(job, job + 1, (size_t)(jobs + waiting - job) * sizeof *job);
    return result;
}

static uint8_t step_job(job_of *job) {
    int is_changing = is_write(job->service);
    if (job->step++ == 0) {
        note("pick");
        states[job->block].status = PENDING;
        if (job->service == NVM_WRITE_PERMANENT_RAM) memcpy(job->content, states[job->block].ram, LENGTH);
        return PICKED;
    }
    if (is_changing && job->step <= OPERATIONS + 1) {
        if (cut_in && --cut_in == 0) { note("off"); is_off = 1; return OFF; }
        if (job->step == OPERATIONS + 1) {
            if (next_result != NOT_OK) { note("wrote"); store(job); }
        }
        return STEPPED;
    }
    return end_job(job);
}

/* Of the jobs that wait: one that is in hand, an immediate one, then by priority, then by acceptance. */
static job_of *next_job(void) {
    job_of *best = jobs;
    for (unsigned i = 0; i < waiting; i++) if (jobs[i].step) return &jobs[i];
    for (unsigned i = 1; i < waiting; i++) {
        int is_first = is_immediate(jobs[i].service, jobs[i].block), was = is_immediate(best->service, best->block);
        if (is_first > was || (is_first == was && facts[jobs[i].block].priority < facts[best->block].priority)) best = &jobs[i];
    }
    return best;
}

/* ALL BLOCKS */

static uint8_t post_member(unsigned block, uint8_t result) {
    sweep.has_failed |= result == NOT_OK || result == INTEGRITY_FAILED || result == INVALIDATED || result == REDUNDANCY_FAILED;
    return post(block, result);
}

static unsigned next_member(void) {
    int is_read = sweep.service == NVM_READ_ALL;
    unsigned next = sweep.at == 0 || sweep.at == 1 ? 2 : sweep.at + 1;
    if (sweep.at == 0 && is_read) return 1;
    if (sweep.at == 1 && !is_read) return 0;
    while (next < count + 2 && !(is_read ? facts[next].readall : facts[next].writeall)) next++;
    return next < count + 2 ? next : is_read ? 0u : 1u;
}

static uint8_t take_member(unsigned block) {
    block_state *it = &states[block];
    int is_read = sweep.service == NVM_READ_ALL;
    sweep.at = block;
    if (is_read && block != 1 && !sweep.is_known && !facts[block].resistant) {
        uint8_t result = facts[block].has_defaults ? RESTORED : INTEGRITY_FAILED;
        if (result == RESTORED) memcpy(it->ram, facts[block].defaults, LENGTH);
        flag(block, result, 0);
        (void)post_member(block, result);
        if (result == RESTORED) { memcpy(given, facts[block].defaults, LENGTH); given_length = facts[block].length; }
        return POSTED;
    }
    if (!is_read && (!it->valid || !it->changed || it->locked || it->guarded || is_rom(block))) return post_member(block, SKIPPED);
    accept_job(is_read ? NVM_READ_PERMANENT_RAM : NVM_WRITE_PERMANENT_RAM, block, NULL, 0);
    jobs[0].is_member = 1;
    return step_job(jobs);
}

static uint8_t step_all(void) {
    unsigned next = sweep.is_canceled ? 0 : next_member();
    if (!sweep.is_picked) { sweep.is_picked = 1; note("pick"); return PICKED; }
    if (next) return take_member(next);
    sweep.service = 0;
    return post(0, sweep.is_canceled ? CANCELED : sweep.has_failed ? NOT_OK : OK);
}

uint8_t nvm_turn(nvm_handle *handle) {
    if (handle->at != &anchor) abort();
    if (is_down) return DOWN;
    if (is_off) return OFF;
    if (waiting) {
        int is_member = (int)next_job()->is_member;
        unsigned block = next_job()->block;
        uint8_t turned = step_job(next_job());
        if (turned == POSTED && is_member)
            sweep.has_failed |= states[block].status == NOT_OK || (states[block].status & 1) != 0;
        return turned;
    }
    return sweep.service ? step_all() : (uint8_t)IDLE;
}

uint8_t nvm_cut(nvm_handle *handle, uint32_t nth, uint32_t keep) {
    (void)handle; (void)keep;
    if (is_down) return 5;
    if (nth == 0 || cuts_left == 0) return 6;
    cuts_left--;
    cut_in = nth;
    return 0;
}

/* LOOKS */

uint8_t nvm_status(nvm_handle *handle, uint16_t block) {
    if (handle->at != &anchor) abort();
    return block < BLOCKS ? states[block].status : (uint8_t)OK;
}

uint32_t nvm_entries(nvm_handle *handle) { (void)handle; return entries; }

uint8_t nvm_ram_is_valid(nvm_handle *handle, uint16_t block) {
    if (handle->at != &anchor) abort();
    return block < BLOCKS && states[block].valid;
}

static uint8_t fill(const uint8_t *from, size_t length, uint8_t *into, size_t room, size_t *size) {
    *size = length;
    if (length <= room) memcpy(into, from, length);
    return 0;
}

uint8_t nvm_ram(nvm_handle *handle, uint16_t block, uint8_t *into, size_t room, size_t *size) {
    (void)handle;
    *size = 0;
    return fill(states[block].ram, facts[block].length, into, room, size);
}

uint8_t nvm_given(nvm_handle *handle, uint8_t *into, size_t room, size_t *size) {
    (void)handle;
    *size = 0;
    return given_length ? fill(given, given_length, into, room, size) : (uint8_t)1;
}

/* Of a line the first word alone, and which entry it is. */
uint8_t nvm_line(nvm_handle *handle, uint8_t *into, size_t room, size_t *size) {
    char line[LENGTH];
    int length = snprintf(line, sizeof line, "%s, entry %u\n", last_entry, entries);
    if (handle->at != &anchor || !into) abort();
    *size = 0;
    return fails() ? (uint8_t)4 : fill((const uint8_t *)line, (size_t)length, into, room, size);
}
