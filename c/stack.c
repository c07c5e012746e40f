/* How much stack a call takes: reads a journal (records, one after the other) from standard input, carries it out with watches set, on a painted stack, and
 * prints the bytes of it that the making of a fresh store, the deepest setting and clearing of a watch, the deepest call, the test of soundness, and the writing
 * and deepest reading of a file wrote to: the file of what the journal leaves, and one of 512 radios all over the map. */
#define _GNU_SOURCE
#include "boragefile.h"
#include <pthread.h>
#include <stdio.h>
#include <stdlib.h>
#include <string.h>

#define STACK_BYTES (1 << 20)
#define PAINT 0xA5

static boragefile_desk desk;
static uint8_t pages[BORAGEFILE_PAGES_BYTES], buffer[BORAGEFILE_LIST_BYTES], file[BORAGEFILE_CSV_BYTES];
static uint8_t journal[1 << 20];
static size_t journal_bytes;
static uint8_t *stack;

/* Paints what lies below the caller's frame, but for a little that this call itself may need. */
static __attribute__((noinline)) void paint(void)
{
    memset(stack, PAINT, (size_t)((uint8_t *)__builtin_frame_address(0) - 1024 - stack));
}

/* The bytes between the caller's frame and the deepest one that is painted no more. */
static __attribute__((noinline)) size_t used(void)
{
    uint8_t *deepest = stack;
    while (*deepest == PAINT)
        deepest++;
    return (size_t)((uint8_t *)__builtin_frame_address(0) - deepest);
}

static size_t deeper(size_t deepest)
{
    size_t deep = used();
    return deep > deepest ? deep : deepest;
}

/* 512 lines, whose minutes fall and whose places lie apart. Answers their length. */
static size_t full_file(void)
{
    size_t length = (size_t)sprintf((char *)file, "radio,east,north,minute\r\n");
    for (unsigned i = 0; i < 512; i++) {
        char line[32];
        int bytes = sprintf(line, "%u,%u,%u,%u\r\n", 4095 - i, i * 40503u % 65536, i * 22695u % 65536 | 1, 4294967295u - i);
        memcpy(file + length, line, (size_t)bytes);
        length += (size_t)bytes;
    }
    return length;
}

/* The bytes that reading this much of the file takes. */
static size_t reading(size_t length)
{
    paint();
    if (boragefile_csv_read(&desk, pages, sizeof pages, file, length).number != BORAGEFILE_ACCEPTED)
        exit(1);
    return used();
}

/* Watches are set as the journal goes on, each over another stripe of the map, so that the last is set on a full store; then one is cleared. */
static void *measure(void *unused)
{
    paint();
    boragefile_begin(&desk, pages, sizeof pages);
    size_t begin = used(), call = 0, set = 0;
    unsigned records = 0;
    for (size_t at = 0; at + 4 <= journal_bytes; at += journal[at] + 256u * journal[at + 1], records++) {
        if (records % 64 == 0) {
            uint16_t watch = (uint16_t)(records / 64 % BORAGEFILE_WATCHES), west = (uint16_t)(4096 * watch);
            paint();
            boragefile_watch_set(&desk, pages, sizeof pages, watch, west, west + 4095, 0, 65535);
            set = deeper(set);
        }
        paint();
        boragefile_call(&desk, pages, sizeof pages, journal + at, journal_bytes - at, buffer, sizeof buffer);
        call = deeper(call);
    }
    paint();
    if (boragefile_watch_clear(&desk, pages, sizeof pages, 0).number != BORAGEFILE_ACCEPTED)
        exit(1);
    size_t clear = used();
    paint();
    if (!boragefile_sound(&desk, pages, sizeof pages))
        exit(1);
    size_t sound = used();
    paint();
    boragefile_answer written = boragefile_csv_write(&desk, pages, sizeof pages, file, sizeof file);
    size_t csv_write = used();
    if (written.number != BORAGEFILE_ACCEPTED)
        exit(1);
    size_t own = reading((size_t)written.count), other = reading(full_file());
    printf("begin %zu\nwatch_set %zu\ncall %zu\nwatch_clear %zu\nsound %zu\n", begin, set, call, clear, sound);
    printf("csv_write %zu\ncsv_read %zu\n", csv_write, own > other ? own : other);
    return unused;
}

int main(void)
{
    journal_bytes = fread(journal, 1, sizeof journal, stdin);
    stack = aligned_alloc(4096, STACK_BYTES);
    pthread_attr_t attributes;
    pthread_t thread;
    if (!stack || pthread_attr_init(&attributes) || pthread_attr_setstack(&attributes, stack, STACK_BYTES) ||
        pthread_create(&thread, &attributes, measure, NULL) || pthread_join(thread, NULL))
        return 1;
    return 0;
}
