/* A flash in a file, for a virtual unit on a system with files. */
#ifndef _DEFAULT_SOURCE
#define _DEFAULT_SOURCE
#endif
#include "NvM_Sim.h"
#include <fcntl.h>
#include <string.h>
#include <sys/file.h>
#include <sys/mman.h>
#include <sys/stat.h>
#include <unistd.h>

/* What is mapped, and the file, whose lock is held as long as it is open. */
static uint8 *mapped;
static size_t mapped_size;
static int mapped_file;

static int is_blank(const uint8 *bytes, size_t count) {
    while (count > 0 && bytes[count - 1] == 0xFF) count--;
    return count == 0;
}

/* Fills a file that is shorter than the flash, and blank as far as it goes: it is new, or whoever made it was killed. */
static int fill(int file, size_t size) {
    uint8 part[4096];
    size_t at = 0;
    ssize_t got;
    while ((got = pread(file, part, sizeof part, (off_t)at)) > 0) {
        if (!is_blank(part, (size_t)got)) return 0;
        at += (size_t)got;
    }
    memset(part, 0xFF, sizeof part);
    while (got == 0 && at < size) {
        ssize_t put = pwrite(file, part, size - at < sizeof part ? size - at : sizeof part, (off_t)at);
        if (put <= 0) return 0;
        at += (size_t)put;
    }
    return got == 0;
}

/* The file as memory, or NULL. */
static uint8 *map(int file, size_t size) {
    struct stat is;
    void *at;
    if (flock(file, LOCK_EX | LOCK_NB) != 0 || fstat(file, &is) != 0) return NULL;
    if ((size_t)is.st_size > size || ((size_t)is.st_size < size && !fill(file, size))) return NULL;
    at = mmap(NULL, size, PROT_READ | PROT_WRITE, MAP_SHARED, file, 0);
    return at == MAP_FAILED ? NULL : (uint8 *)at;
}

Std_ReturnType NvM_SimFile(const char *path, size_t size, uint32 cuts) {
    int file;
    NvM_SimFlash(NULL, 0, 0);
    if (mapped) {
        munmap(mapped, mapped_size);
        close(mapped_file);
        mapped = NULL;
    }
    if (!path) return E_OK;
    file = open(path, O_RDWR | O_CREAT | O_CLOEXEC, 0644);
    if (file < 0) return E_NOT_OK;
    mapped = map(file, size);
    if (!mapped) {
        close(file);
        return E_NOT_OK;
    }
    mapped_size = size;
    mapped_file = file;
    NvM_SimFlash(mapped, size, cuts);
    return E_OK;
}
