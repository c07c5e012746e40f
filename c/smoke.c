/* The desk through its C interface: a fresh store, the contract's own journal, watches, files, the test of soundness, and a desk that is saved and restored as
 * bytes. */
#undef NDEBUG
#include "boragefile.h"
#include <assert.h>
#include <stdio.h>
#include <string.h>

/* All that is lent, between guards that no call may touch. */
static struct lent {
    uint8_t guard0[64];
    boragefile_desk desk;
    uint8_t guard1[64];
    uint8_t pages[BORAGEFILE_PAGES_BYTES];
    uint8_t guard2[64];
    uint8_t buffer[BORAGEFILE_CSV_BYTES];
    uint8_t guard3[64];
} lent, before;

static int all(const uint8_t *bytes, size_t n, uint8_t byte)
{
    for (size_t i = 0; i < n; i++)
        if (bytes[i] != byte)
            return 0;
    return 1;
}

static void expect_guards(void)
{
    assert(all(lent.guard0, 64, 0xA5) && all(lent.guard1, 64, 0xA5));
    assert(all(lent.guard2, 64, 0xA5) && all(lent.guard3, 64, 0xA5));
}

/* What was answered, from the bytes lent before the call; a turned-down call keeps every byte of all that is lent. */
static void expect_answer(boragefile_answer answer, unsigned number, uint64_t count, unsigned gained, unsigned lost)
{
    assert(answer.number == number && answer.count == count && answer.gained == gained && answer.lost == lost);
    if (number != 0)
        assert(memcmp(&before, &lent, sizeof lent) == 0);
    expect_guards();
}

/* Makes a call and expects this answer, and that watches gain or lose its radio. */
static void expect_moved(const uint8_t *bytes, size_t length, unsigned gained, unsigned lost)
{
    memcpy(&before, &lent, sizeof lent);
    expect_answer(boragefile_call(&lent.desk, lent.pages, sizeof lent.pages, bytes, length, lent.buffer, sizeof lent.buffer), 0, 0, gained, lost);
}

/* Makes a call and expects this answer, and that no watch gains or loses a radio. */
static void expect(const uint8_t *bytes, size_t length, unsigned number, unsigned count)
{
    memcpy(&before, &lent, sizeof lent);
    expect_answer(boragefile_call(&lent.desk, lent.pages, sizeof lent.pages, bytes, length, lent.buffer, sizeof lent.buffer), number, count, 0, 0);
}

/* Sets a watch to the contract's rectangle, up to this north edge, and expects this answer. */
static void expect_set(unsigned watch, unsigned south, unsigned north, size_t pages_length, unsigned number)
{
    memcpy(&before, &lent, sizeof lent);
    expect_answer(boragefile_watch_set(&lent.desk, lent.pages, pages_length, (uint16_t)watch, 0, 301, (uint16_t)south, (uint16_t)north), number, 0, 0, 0);
}

/* Clears a watch, likewise. */
static void expect_clear(unsigned watch, size_t pages_length, unsigned number)
{
    memcpy(&before, &lent, sizeof lent);
    expect_answer(boragefile_watch_clear(&lent.desk, lent.pages, pages_length, (uint16_t)watch), number, 0, 0, 0);
}

/* Writes a file to a buffer of this length, and expects this answer; nothing but the file is written. */
static void expect_file(size_t length, size_t pages_length, unsigned number, uint64_t count, const char *file)
{
    memset(lent.buffer, 0x5A, sizeof lent.buffer);
    memcpy(&before, &lent, sizeof lent);
    expect_answer(boragefile_csv_write(&lent.desk, lent.pages, pages_length, lent.buffer, length), number, count, 0, 0);
    memcpy(before.buffer, file, strlen(file));
    assert(memcmp(&before, &lent, sizeof lent) == 0);
}

/* Reads a file of this length, and expects this answer. */
static void expect_read(const char *file, size_t length, size_t pages_length, unsigned number, uint64_t count)
{
    memcpy(&before, &lent, sizeof lent);
    expect_answer(boragefile_csv_read(&lent.desk, lent.pages, pages_length, (const uint8_t *)file, length), number, count, 0, 0);
}

#define HEADER "radio,east,north,minute\r\n"

/* The lines behind the header. */
#define EXPECT_LINES(lines, number, count) expect_read(HEADER lines, sizeof HEADER lines - 1, sizeof lent.pages, number, count)

/* Watch 3 alone is set, and radio 7 is its only member, or it has none. */
static void expect_watch(unsigned north, int member)
{
    boragefile_watch watch = {1, 0, 301, 0, (uint16_t)north, {0}};
    watch.members[0] = (uint16_t)(member << 7);
    for (unsigned w = 0; w < BORAGEFILE_WATCHES; w++) {
        const boragefile_watch *kept = &lent.desk.watches[w];
        assert(w == 3 ? memcmp(kept, &watch, sizeof watch) == 0 : all((const uint8_t *)kept, sizeof *kept, 0));
    }
    for (unsigned radio = 0; radio <= 65535; radio++)
        assert(boragefile_has_member(&lent.desk.watches[3], (uint16_t)radio) == (member && radio == 7));
}

/* Asks whether the store is sound; the asking keeps every byte of all that is lent. */
static int is_sound(size_t pages_length)
{
    memcpy(&before, &lent, sizeof lent);
    bool sound = boragefile_sound(&lent.desk, lent.pages, pages_length);
    assert(memcmp(&before, &lent, sizeof lent) == 0);
    return sound;
}

static void expect_fresh(void)
{
    const boragefile_desk *desk = &lent.desk;
    const boragefile_parts *parts = &desk->parts;
    assert(parts->frame.easts.n == 0 && parts->frame.norths.n == 0 && parts->frame.cells == 1 && parts->frame.free == 1);
    assert(all((const uint8_t *)parts->frame.easts.at, sizeof parts->frame.easts.at, 0));
    assert(all((const uint8_t *)parts->frame.norths.at, sizeof parts->frame.norths.at, 0));
    assert(parts->waiting == 0 && parts->lines == 0 && parts->on == 0 && parts->tally == 0 && parts->highest == 0);
    assert(desk->cells[0].number == 0 && desk->cells[0].first == 0);
    assert(desk->cells[0].west == 0 && desk->cells[0].east == 65535);
    assert(desk->cells[0].south == 0 && desk->cells[0].north == 65535);
    assert(all((const uint8_t *)&desk->cells[1], sizeof desk->cells - sizeof desk->cells[0], 0));
    assert(all((const uint8_t *)&desk->waiting, sizeof desk->waiting, 0));
    assert(all((const uint8_t *)desk->memo, sizeof desk->memo, 0) && all((const uint8_t *)desk->on, sizeof desk->on, 0));
    assert(all((const uint8_t *)desk->watches, sizeof desk->watches, 0));
    for (unsigned p = 0; p < 128; p++) {
        const uint8_t *page = lent.pages + 328 * p;
        unsigned next = p == 0 || p == 127 ? 65535 : p + 1;
        unsigned cell = p == 0 ? 0 : 65535;
        const uint8_t head[8] = {8, 0, p == 0 ? 2 : 1, 0, next & 255, next >> 8, cell & 255, cell >> 8};
        assert(memcmp(page, head, 8) == 0 && all(page + 8, 320, 0));
    }
}

/* Radio 7 alone is on, and waits with this place and minute, marked new; the minute is the highest. */
static void expect_waiting(unsigned east, unsigned north, uint32_t minute)
{
    const boragefile_desk *desk = &lent.desk;
    assert(desk->parts.on == 1 && desk->on[0] == 7 && desk->parts.waiting == 1 && desk->parts.lines == 0);
    assert(desk->waiting.radios[0] == 7 && desk->waiting.easts[0] == east && desk->waiting.norths[0] == north && desk->waiting.news[0] == 1);
    assert(desk->waiting.lows[0] + 65536u * desk->waiting.highs[0] == minute && desk->parts.highest == minute);
}

/* The record with another minute, which its last four bytes are. */
static void expect_at(uint32_t minute, const uint8_t *bytes, size_t length, unsigned number, unsigned count)
{
    uint8_t record[16];
    memcpy(record, bytes, length - 4);
    for (unsigned i = 0; i < 4; i++)
        record[length - 4 + i] = (uint8_t)(minute >> 8 * i);
    expect(record, length, number, count);
}

int main(void)
{
    memset(&lent, 0xA5, sizeof lent);

    /* a page buffer of another size: number 1, and every byte kept */
    boragefile_answer answer = boragefile_begin(&lent.desk, lent.pages, sizeof lent.pages - 1);
    assert(answer.number == 1 && answer.count == 0);
    assert(all((const uint8_t *)&lent, sizeof lent, 0xA5));
    assert(!is_sound(sizeof lent.pages));

    answer = boragefile_begin(&lent.desk, lent.pages, sizeof lent.pages);
    assert(answer.number == 0 && answer.count == 0);
    expect_fresh();
    expect_guards();

    /* a fresh store is sound; with a byte changed, or cut short, it is not */
    assert(is_sound(sizeof lent.pages) && !is_sound(sizeof lent.pages - 1));
    lent.pages[327] = 1;
    assert(!is_sound(sizeof lent.pages));
    lent.pages[327] = 0;
    assert(is_sound(sizeof lent.pages));

    const uint8_t on[] = {14, 0, 1, 0, 7, 0, 100, 0, 200, 0, 0, 0, 0, 0};
    const uint8_t report[] = {14, 0, 2, 0, 7, 0, 44, 1, 200, 0, 0, 0, 0, 0};
    const uint8_t edges[] = {16, 0, 4, 0, 0, 0, 44, 1, 0, 0, 200, 0, 0, 0, 0, 0};
    const uint8_t range[] = {16, 0, 4, 0, 0, 0, 45, 1, 0, 0, 201, 0, 0, 0, 0, 0};
    const uint8_t off[] = {10, 0, 3, 0, 7, 0, 0, 0, 0, 0};
    const uint8_t listed[] = {7, 0, 44, 1, 200, 0};
    expect(on, sizeof on, 0, 0);
    expect_waiting(100, 200, 0);
    expect(report, sizeof report, 0, 0);
    expect_waiting(300, 200, 0);
    expect(edges, sizeof edges, 0, 0);
    assert(all(lent.buffer, sizeof lent.buffer, 0xA5));
    expect(range, sizeof range, 0, 1);
    assert(memcmp(lent.buffer, listed, sizeof listed) == 0);
    assert(all(lent.buffer + sizeof listed, sizeof lent.buffer - sizeof listed, 0xA5));
    expect(off, sizeof off, 0, 0);
    expect(range, sizeof range, 0, 0);
    expect(off, sizeof off, 9, 0);
    expect(on, 0, 3, 0);
    expect(range, 15, 3, 0);

    /* a slice of length 0 may have a null pointer */
    memcpy(&before, &lent, sizeof lent);
    expect_answer(boragefile_call(&lent.desk, lent.pages, sizeof lent.pages, NULL, 0, NULL, 0), BORAGEFILE_LENGTH, 0, 0, 0);
    expect_answer(boragefile_call(&lent.desk, NULL, 0, on, sizeof on, lent.buffer, sizeof lent.buffer), BORAGEFILE_PAGE_BUFFER, 0, 0, 0);
    expect_answer(boragefile_begin(&lent.desk, NULL, 0), BORAGEFILE_PAGE_BUFFER, 0, 0, 0);
    expect_answer(boragefile_csv_write(&lent.desk, lent.pages, sizeof lent.pages, NULL, 0), BORAGEFILE_ANSWER_BUFFER, strlen(HEADER), 0, 0);
    expect_answer(boragefile_csv_read(&lent.desk, lent.pages, sizeof lent.pages, NULL, 0), BORAGEFILE_BAD_LINE, 1, 0, 0);
    assert(!boragefile_sound(&lent.desk, NULL, 0));

    /* a place is kept for 720 minutes, and no minute is taken that is below the highest */
    const uint32_t minute = 0x01020304;
    expect_at(minute, on, sizeof on, 0, 0);
    expect_waiting(100, 200, minute);
    expect_at(minute + BORAGEFILE_KEPT_MINUTES, range, sizeof range, 0, 1);
    expect_at(minute + BORAGEFILE_KEPT_MINUTES + 1, range, sizeof range, 0, 0);
    expect_at(minute - 1, on, sizeof on, BORAGEFILE_TOO_EARLY, 0);
    expect_at(minute - 1, report, sizeof report, BORAGEFILE_TOO_EARLY, 0);
    expect_at(minute - 1, range, sizeof range, BORAGEFILE_TOO_EARLY, 0);
    expect_at(minute - 1, off, sizeof off, BORAGEFILE_TOO_EARLY, 0);
    expect_at(minute, off, sizeof off, 0, 0);

    /* a watch gains and loses a radio, and has it for a member in between; numbers 1, 14 and 7 turn a watch down, in this order */
    const size_t whole = sizeof lent.pages;
    expect_set(3, 0, 201, whole, 0);
    expect_watch(201, 0);
    const uint8_t late[] = {14, 0, 1, 0, 7, 0, 100, 0, 200, 0, 4, 3, 2, 1};
    expect_moved(late, sizeof late, 1u << 3, 0);
    expect_watch(201, 1);
    expect_set(3, 0, 200, whole, 0);
    expect_watch(200, 0);
    expect_set(3, 0, 202, whole, 0);
    expect_watch(202, 1);
    expect_set(3, 202, 201, whole, BORAGEFILE_RECTANGLE);
    expect_set(16, 202, 201, whole, BORAGEFILE_NO_WATCH);
    expect_set(65535, 0, 201, whole, BORAGEFILE_NO_WATCH);
    expect_set(16, 202, 201, whole - 1, BORAGEFILE_PAGE_BUFFER);
    expect_clear(2, whole, BORAGEFILE_NO_WATCH);
    expect_clear(19, whole, BORAGEFILE_NO_WATCH);
    expect_clear(3, whole + 1, BORAGEFILE_PAGE_BUFFER);
    expect_watch(202, 1);
    const uint8_t gone[] = {10, 0, 3, 0, 7, 0, 4, 3, 2, 1};
    expect_moved(gone, sizeof gone, 0, 1u << 3);
    expect_watch(202, 0);
    assert(is_sound(whole));
    lent.desk.watches[3].members[255] = 0x8000; /* a member too many */
    expect_set(16, 202, 201, whole, BORAGEFILE_UNSOUND);
    expect_clear(16, whole, BORAGEFILE_UNSOUND);
    lent.desk.watches[3].members[255] = 0;
    expect_clear(3, whole, 0);
    assert(all((const uint8_t *)lent.desk.watches, sizeof lent.desk.watches, 0));
    expect_clear(3, whole, BORAGEFILE_NO_WATCH);

    /* sound after all these */
    assert(is_sound(sizeof lent.pages));

    /* a file: nobody is on; one byte too short; an unsound store, and other pages, which come first */
    const char *const nobody = HEADER, *const everyone = HEADER "7,100,200,4294967295\r\n4095,65535,0,0\r\n";
    const size_t bytes = strlen(everyone);
    expect_file(sizeof lent.buffer, whole, 0, strlen(nobody), nobody);
    expect_file(strlen(nobody), whole, 0, strlen(nobody), nobody);
    expect_file(strlen(nobody) - 1, whole, BORAGEFILE_ANSWER_BUFFER, strlen(nobody), "");
    expect_file(0, whole - 1, BORAGEFILE_PAGE_BUFFER, 0, "");
    lent.desk.parts.tally = 16;
    expect_file(0, whole, BORAGEFILE_UNSOUND, 0, "");

    /* reading one makes a store of its own, whatever stood there, in its own order */
    expect_set(3, 0, 201, whole, BORAGEFILE_UNSOUND);
    EXPECT_LINES("7,100,200,4294967295\r\n\"4095\",\"65535\",00,0", 0, 0);
    assert(is_sound(whole) && lent.desk.parts.tally == 2 && lent.desk.parts.highest == UINT32_MAX && lent.desk.parts.on == 2);
    assert(all((const uint8_t *)lent.desk.watches, sizeof lent.desk.watches, 0));
    expect_file(bytes, whole, 0, bytes, everyone);
    expect_file(bytes - 1, whole, BORAGEFILE_ANSWER_BUFFER, bytes, "");
    expect_file(0, whole, BORAGEFILE_ANSWER_BUFFER, bytes, "");
    expect_at(UINT32_MAX, report, sizeof report, 0, 0);

    /* turned down: each with the line of the file, and every byte kept */
    expect_read(everyone, bytes, whole + 1, BORAGEFILE_PAGE_BUFFER, 0);
    expect_read(everyone, 0, whole, BORAGEFILE_BAD_LINE, 1);
    expect_read("radio,east,north\r\n", 18, whole, BORAGEFILE_BAD_LINE, 1);
    EXPECT_LINES("7,100,200,1\r\n\r\n", BORAGEFILE_BAD_LINE, 3);
    EXPECT_LINES("7,100,200,1\r\n4096,1,1,1\r\n7,1,1,1\r\n", BORAGEFILE_BAD_LINE, 3);
    EXPECT_LINES("7,100,200,4294967296", BORAGEFILE_BAD_LINE, 2);
    EXPECT_LINES("7,0,0,2\r\n8,0,0,1\r\n", BORAGEFILE_NO_FIX, 3);
    EXPECT_LINES("7,1,1,2\r\n8,1,1,1\r\n7,2,2,1\r\n", BORAGEFILE_ALREADY_ON, 2);
    EXPECT_LINES("", 0, 0);
    expect_fresh();

    /* the 513th; and a line whose number 16 bits do not hold */
    static char many[sizeof HEADER + 70000 * 16];
    size_t length = (size_t)sprintf(many, HEADER), at_512 = 0;
    for (unsigned line = 2; line <= 70001; line++) {
        length += (size_t)sprintf(many + length, "%u,1,1,%u\r\n", line % 4095 + 1, line);
        if (line == 513)
            at_512 = length;
    }
    expect_read(many, length, whole, BORAGEFILE_FULL, 514);
    expect_read(many, length - 1, whole, BORAGEFILE_BAD_LINE, 70001);
    expect_read(many, at_512, whole, 0, 0);
    assert(lent.desk.parts.on == 512 && is_sound(whole));
    expect_at(513, on, sizeof on, BORAGEFILE_ALREADY_ON, 0);
    expect_at(512, on, sizeof on, BORAGEFILE_TOO_EARLY, 0);
    EXPECT_LINES("7,100,200,16909060", 0, 0);
    expect_at(minute, off, sizeof off, 0, 0);

    /* a desk is its bytes: whatever it is copied over, the copy is the same desk, and a fresh one is the same wherever it is made */
    boragefile_desk copy;
    memset(&copy, 0x5A, sizeof copy);
    memcpy(&copy, &lent.desk, sizeof copy);
    assert(boragefile_sound(&copy, lent.pages, sizeof lent.pages));
    static uint8_t pages[2][BORAGEFILE_PAGES_BYTES];
    boragefile_desk fresh[2];
    memset(&fresh[0], 0x00, sizeof fresh[0]);
    memset(&fresh[1], 0xFF, sizeof fresh[1]);
    for (int i = 0; i < 2; i++)
        assert(boragefile_begin(&fresh[i], pages[i], sizeof pages[i]).number == BORAGEFILE_ACCEPTED);
    assert(memcmp(&fresh[0], &fresh[1], sizeof fresh[0]) == 0 && memcmp(pages[0], pages[1], sizeof pages[0]) == 0);

    /* a damaged store: number 2 */
    lent.desk.parts.tally = 16;
    expect_at(minute, range, sizeof range, BORAGEFILE_UNSOUND, 0);
    assert(!is_sound(sizeof lent.pages));

    printf("ok\n");
    return 0;
}
