/* The position desk: the seven functions of libboragefile.a, the desk that they are lent, and what they answer. docs/USING.md says how to use them. */
#ifndef BORAGEFILE_H
#define BORAGEFILE_H

#include <stdbool.h>
#include <stddef.h>
#include <stdint.h>

/* The layout of the desk is part of the version: a desk that another version saved is not for this one. */
#define BORAGEFILE_VERSION_MAJOR 0
#define BORAGEFILE_VERSION_MINOR 7
#define BORAGEFILE_VERSION_PATCH 0
#define BORAGEFILE_VERSION "0.7.0"

#define BORAGEFILE_PAGES_BYTES 41984 /* 128 pages of 328 bytes */
#define BORAGEFILE_DESK_BYTES 23280
#define BORAGEFILE_ENTRY_BYTES 6   /* radio, east, north: what a range lists of a radio */
#define BORAGEFILE_LIST_BYTES 3072 /* an answer buffer that takes 512 radios, all that may be on */
#define BORAGEFILE_CSV_BYTES 14873 /* a buffer that takes the file of 512 radios, all that may be on */
#define BORAGEFILE_KEPT_MINUTES 720 /* a range leaves out a radio whose minute is more than this before its own */
#define BORAGEFILE_WATCHES 16 /* rectangles that may be watched, under numbers 0 to 15 */

/* the kinds of records */
enum {
    BORAGEFILE_KIND_SIGN_ON = 1,
    BORAGEFILE_KIND_REPORT = 2,
    BORAGEFILE_KIND_SIGN_OFF = 3,
    BORAGEFILE_KIND_RANGE = 4
};

/* an answer's number: 0, or that of the first check that turned the call down. They are checked in this order, but 12 and then 13 after 6 and before 7,
 * and 14 after 2. Reading a file makes 1, 15, 12, 8 and 10, in this order. */
enum {
    BORAGEFILE_ACCEPTED = 0,
    BORAGEFILE_PAGE_BUFFER = 1,
    BORAGEFILE_UNSOUND = 2,
    BORAGEFILE_LENGTH = 3,
    BORAGEFILE_KIND = 4,
    BORAGEFILE_LENGTH_OF_KIND = 5,
    BORAGEFILE_RADIO = 6,
    BORAGEFILE_RECTANGLE = 7,
    BORAGEFILE_ALREADY_ON = 8,
    BORAGEFILE_NOT_ON = 9,
    BORAGEFILE_FULL = 10,
    BORAGEFILE_ANSWER_BUFFER = 11,
    BORAGEFILE_NO_FIX = 12,
    BORAGEFILE_TOO_EARLY = 13,
    BORAGEFILE_NO_WATCH = 14,
    BORAGEFILE_BAD_LINE = 15
};

/* An answer's number in words. The text is constant; it is never null. */
static inline const char *boragefile_words(uint16_t number)
{
    switch (number) {
    case BORAGEFILE_ACCEPTED: return "accepted";
    case BORAGEFILE_PAGE_BUFFER: return "the page buffer isn't 41,984 bytes";
    case BORAGEFILE_UNSOUND: return "the store isn't sound";
    case BORAGEFILE_LENGTH: return "fewer than 4 bytes are at hand, or the length is below 4 or above what is at hand";
    case BORAGEFILE_KIND: return "the kind isn't 1 to 4";
    case BORAGEFILE_LENGTH_OF_KIND: return "the length isn't the one for its kind";
    case BORAGEFILE_RADIO: return "a radio is 0 or above 4,095";
    case BORAGEFILE_RECTANGLE: return "a range or watch has west above east or south above north";
    case BORAGEFILE_ALREADY_ON: return "a sign-on names a radio that is on";
    case BORAGEFILE_NOT_ON: return "a report or sign-off names a radio that isn't on";
    case BORAGEFILE_FULL: return "a sign-on comes while 512 are on";
    case BORAGEFILE_ANSWER_BUFFER: return "the answer buffer is too small for the radios found or the file";
    case BORAGEFILE_NO_FIX: return "a sign-on or report has the place (0,0): the radio has no fix";
    case BORAGEFILE_TOO_EARLY: return "the minute is below the store's highest";
    case BORAGEFILE_NO_WATCH: return "a watch number is above 15, or the watch to be cleared isn't set";
    case BORAGEFILE_BAD_LINE: return "a line of the file isn't four fields of plain digits in range, or its header is wrong";
    default: return "no number of this version";
    }
}

/* The desk, field by field as the proved code has it: first its parts, with every count, then five arrays. Every field is a 16-bit number but the highest
 * minute, which has 32 bits, with nothing between the fields and nothing after the last: two desks with equal fields are equal byte by byte, and a desk may be
 * saved and compared as bytes. Slots past a count, and watches that aren't set, are zero. */

/* the cuts of one direction, rising: n of them */
typedef struct {
    uint16_t n;
    uint16_t at[15];
} boragefile_cut_list;

/* the grid but for its cells */
typedef struct {
    boragefile_cut_list easts, norths;
    uint16_t cells; /* how many cells there are */
    uint16_t free;  /* the front of the free chain */
} boragefile_frame;

/* the desk but for its arrays */
typedef struct {
    boragefile_frame frame;
    uint16_t waiting; /* how many reports wait */
    uint16_t lines;   /* how many lines the memo has */
    uint16_t on;      /* how many radios are on */
    uint16_t tally;   /* accepted sign-ons, reports and sign-offs since the last sweep of the round */
    uint32_t highest; /* the highest minute of an accepted sign-on, report or sign-off; 0 in a fresh store */
} boragefile_parts;

/* a cell: its number, its edges and the first page of its chain */
typedef struct {
    uint16_t number, west, east, south, north, first;
} boragefile_slot;

/* the waiting reports, by rising radio, field by field: report i has number i of each, and news[i] is 1 where it is marked new, else 0. Its minute is
 * lows[i] + 65536 * highs[i]. There is room for one more than may wait between two calls. */
typedef struct {
    uint16_t radios[128], easts[128], norths[128], news[128], lows[128], highs[128];
} boragefile_waiting;

/* a memo line; placed is 1 where it has a place, and 0, with the place zero, where it has none */
typedef struct {
    uint16_t radio, missed, placed, east, north;
} boragefile_line;

/* a watch: set is 1 where it is, and all of it is zero where it is not. Bit j of members[i] is radio 16 i + j's: boragefile_has_member reads it */
typedef struct {
    uint16_t set, west, east, south, north;
    uint16_t members[256];
} boragefile_watch;

typedef struct {
    boragefile_parts parts;
    boragefile_slot cells[64];  /* in the order of the round, its front first; parts.frame.cells of them */
    boragefile_waiting waiting; /* parts.waiting of them */
    boragefile_line memo[1152]; /* by rising radio, parts.lines of them: room for two more than there may be between two calls */
    uint16_t on[512];           /* the radios on, rising; parts.on of them */
    boragefile_watch watches[BORAGEFILE_WATCHES];
} boragefile_desk;

/* Whether a radio, from 1 to 4,095, is a member of a watch: it is on, and its latest place lies in the watch's rectangle, whatever its age. */
static inline bool boragefile_has_member(const boragefile_watch *watch, uint16_t radio)
{
    return radio < 4096 && (watch->members[radio / 16] >> radio % 16 & 1) == 1;
}

/* 0, or the number of the check that turned the call down; of an accepted sign-on, report or sign-off, which watches gained its radio and which lost it: bit w
 * is set exactly if watch w did, and both are 0 for every other answer; and a count, of 64 bits: the radios that a range found, the bytes of a file that is
 * written, both also under number 11, the line that turned a file down, else 0. */
typedef struct {
    uint16_t number, gained, lost;
    uint64_t count;
} boragefile_answer;

#ifdef __cplusplus
#define BORAGEFILE_STATIC_ASSERT static_assert
#else
#define BORAGEFILE_STATIC_ASSERT _Static_assert
#endif

BORAGEFILE_STATIC_ASSERT(sizeof(boragefile_cut_list) == 32, "cut list");
BORAGEFILE_STATIC_ASSERT(sizeof(boragefile_frame) == 68, "frame");
BORAGEFILE_STATIC_ASSERT(offsetof(boragefile_frame, norths) == 32, "north cuts");
BORAGEFILE_STATIC_ASSERT(offsetof(boragefile_frame, cells) == 64, "how many cells");
BORAGEFILE_STATIC_ASSERT(offsetof(boragefile_frame, free) == 66, "front of the free chain");
BORAGEFILE_STATIC_ASSERT(sizeof(boragefile_parts) == 80, "parts");
BORAGEFILE_STATIC_ASSERT(offsetof(boragefile_parts, waiting) == 68, "how many wait");
BORAGEFILE_STATIC_ASSERT(offsetof(boragefile_parts, lines) == 70, "how many lines");
BORAGEFILE_STATIC_ASSERT(offsetof(boragefile_parts, on) == 72, "how many are on");
BORAGEFILE_STATIC_ASSERT(offsetof(boragefile_parts, tally) == 74, "tally");
BORAGEFILE_STATIC_ASSERT(offsetof(boragefile_parts, highest) == 76, "highest minute");
BORAGEFILE_STATIC_ASSERT(sizeof(boragefile_slot) == 12, "slot");
BORAGEFILE_STATIC_ASSERT(sizeof(boragefile_waiting) == 1536, "waiting");
BORAGEFILE_STATIC_ASSERT(offsetof(boragefile_waiting, easts) == 256, "easts of the waiting");
BORAGEFILE_STATIC_ASSERT(offsetof(boragefile_waiting, norths) == 512, "norths of the waiting");
BORAGEFILE_STATIC_ASSERT(offsetof(boragefile_waiting, news) == 768, "marks of the waiting");
BORAGEFILE_STATIC_ASSERT(offsetof(boragefile_waiting, lows) == 1024, "lower halves of the minutes");
BORAGEFILE_STATIC_ASSERT(offsetof(boragefile_waiting, highs) == 1280, "higher halves of the minutes");
BORAGEFILE_STATIC_ASSERT(sizeof(boragefile_line) == 10, "line");
BORAGEFILE_STATIC_ASSERT(sizeof(boragefile_watch) == 522, "watch");
BORAGEFILE_STATIC_ASSERT(offsetof(boragefile_watch, west) == 2, "west edge of a watch");
BORAGEFILE_STATIC_ASSERT(offsetof(boragefile_watch, east) == 4, "east edge of a watch");
BORAGEFILE_STATIC_ASSERT(offsetof(boragefile_watch, south) == 6, "south edge of a watch");
BORAGEFILE_STATIC_ASSERT(offsetof(boragefile_watch, north) == 8, "north edge of a watch");
BORAGEFILE_STATIC_ASSERT(offsetof(boragefile_watch, members) == 10, "members of a watch");
BORAGEFILE_STATIC_ASSERT(sizeof(boragefile_desk) == BORAGEFILE_DESK_BYTES, "desk");
BORAGEFILE_STATIC_ASSERT(offsetof(boragefile_desk, cells) == 80, "cells in the desk");
BORAGEFILE_STATIC_ASSERT(offsetof(boragefile_desk, waiting) == 848, "waiting in the desk");
BORAGEFILE_STATIC_ASSERT(offsetof(boragefile_desk, memo) == 2384, "memo in the desk");
BORAGEFILE_STATIC_ASSERT(offsetof(boragefile_desk, on) == 13904, "on in the desk");
BORAGEFILE_STATIC_ASSERT(offsetof(boragefile_desk, watches) == 14928, "watches in the desk");
BORAGEFILE_STATIC_ASSERT(sizeof(boragefile_answer) == 16, "answer");
BORAGEFILE_STATIC_ASSERT(offsetof(boragefile_answer, gained) == 2, "watches that gained");
BORAGEFILE_STATIC_ASSERT(offsetof(boragefile_answer, lost) == 4, "watches that lost");
BORAGEFILE_STATIC_ASSERT(offsetof(boragefile_answer, count) == 8, "count");

#undef BORAGEFILE_STATIC_ASSERT

#ifdef __cplusplus
extern "C" {
#endif

/* A slice is a pointer and a length. The caller owes this much: no pointer is null, but that of a slice of length 0 may be; the desk is aligned; no two
 * of desk, pages, bytes, file and buffer overlap. What stands in them is free. */

/* Makes desk and pages a fresh store. Only number 1 can turn it down. */
boragefile_answer boragefile_begin(boragefile_desk *desk, uint8_t *pages, size_t pages_length);

/* Hands in one record. A turned-down call keeps every byte. An accepted range lists its radios at the buffer's start, count of them; after any
 * other answer, number 11 among them, what stands in the buffer is no list. A range's west and south edges are inside, its east and north edges
 * outside; but an east or north edge of 65,535 takes in that last line. It leaves out a radio whose minute is more than 720 before its own. */
boragefile_answer boragefile_call(boragefile_desk *desk, uint8_t *pages, size_t pages_length,
                                  const uint8_t *bytes, size_t bytes_length,
                                  uint8_t *buffer, size_t buffer_length);

/* Watches a rectangle under a number from 0 to 15; one that is watched under it already is replaced. Its edges are as a range's. Its members are
 * desk->watches[watch] then, and every accepted sign-on, report or sign-off keeps them so. Numbers 1, 2, 14 and 7 can turn it down; pages are only read. */
boragefile_answer boragefile_watch_set(boragefile_desk *desk, const uint8_t *pages, size_t pages_length, uint16_t watch,
                                       uint16_t west, uint16_t east, uint16_t south, uint16_t north);

/* Watches the rectangle under this number no longer. Numbers 1, 2 and 14 can turn it down. */
boragefile_answer boragefile_watch_clear(boragefile_desk *desk, const uint8_t *pages, size_t pages_length, uint16_t watch);

/* Writes all radios on to the buffer's start as a file of comma-separated lines (RFC 4180), count bytes, whatever their age: the header
 * "radio,east,north,minute", then a line for each by rising number, with CRLF after every line. Nothing behind these bytes is touched. Numbers 1, 2 and 11 can
 * turn it down; under 11 count is the bytes needed. Desk and pages are only read. */
boragefile_answer boragefile_csv_write(const boragefile_desk *desk, const uint8_t *pages, size_t pages_length, uint8_t *buffer, size_t buffer_length);

/* Makes desk and pages, whatever stood in them, the store of such a file: a fresh one, with no watch set, to which each line is a sign-on, by rising minute, then
 * radio, then line. Fields may stand in quotes and have leading zeros, and the last CRLF may be missing. Number 2 isn't tested. Number 1 can turn it down; 15 with
 * the first bad line in count, the header being line 1; then 12, 8 or 10 with the first line, in the order taken, that the check of a sign-on stops. */
boragefile_answer boragefile_csv_read(boragefile_desk *desk, uint8_t *pages, size_t pages_length, const uint8_t *file, size_t file_length);

/* Whether desk and pages are those of a sound store: the test that each call makes first. It changes nothing. */
bool boragefile_sound(const boragefile_desk *desk, const uint8_t *pages, size_t pages_length);

#ifdef __cplusplus
}
#endif

#endif
