#define _GNU_SOURCE
#include "lent.h"

#include <stdio.h>
#include <stdlib.h>
#include <sys/mman.h>
#include <unistd.h>

static void *checked(void *memory) {
    if (memory == MAP_FAILED) {
        perror("mmap");
        exit(2);
    }
    return memory;
}

/* The file's bytes between two pages that may not be touched. */
static uint8_t *between_guards(int file, size_t bytes, int protection) {
    size_t page = (size_t)sysconf(_SC_PAGESIZE);
    uint8_t *all = checked(mmap(NULL, bytes + 2 * page, PROT_NONE, MAP_PRIVATE | MAP_ANONYMOUS, -1, 0));
    return checked(mmap(all + page, bytes, protection, MAP_SHARED | MAP_FIXED, file, 0));
}

static struct room room_new(size_t bytes, int to_write) {
    size_t page = (size_t)sysconf(_SC_PAGESIZE);
    struct room room;
    int file = memfd_create("lent", 0);
    room.bytes = (bytes + page - 1) / page * page;
    if (file < 0 || ftruncate(file, (off_t)room.bytes) != 0) {
        perror("memfd_create");
        exit(2);
    }
    room.own = between_guards(file, room.bytes, PROT_READ | PROT_WRITE);
    room.lent = to_write ? room.own : between_guards(file, room.bytes, PROT_READ);
    close(file);
    return room;
}

struct room room_to_read(size_t bytes) {
    return room_new(bytes, 0);
}

struct room room_to_write(size_t bytes) {
    return room_new(bytes, 1);
}

size_t room_offset(const struct room *room, size_t bytes, int at_back) {
    return at_back ? room->bytes - bytes : 0;
}
