/* A desk that keeps its store in a file across restarts, in C. desk.rs beside it is the same in Rust: each reads the other's file.
 *
 *     desk FILE < LINES
 *
 * A line is one of "on RADIO EAST NORTH MINUTE", "report RADIO EAST NORTH MINUTE", "off RADIO MINUTE" and "range WEST EAST SOUTH NORTH MINUTE", or one of
 * "watch WATCH WEST EAST SOUTH NORTH", "unwatch WATCH" and "members WATCH", or one of "save-csv NAME" and "load-csv NAME": all radios on to a spreadsheet's
 * file, and a store from one in place of this. For line i it prints "i ok", with the watches that gained and lost the radio, "i found n" and then n lines
 * "radio east north", "i members" with the radios, "i wrote n bytes", "i refused r: words" (of a file "i refused r in line l: words"), "i no file", or
 * "i no call". What was answered with "ok" is in the file.
 *
 * The file: a line with the version, the desk, the pages, and a sum over all of these, so that a bit that flipped on the disk is found even where
 * the store is sound with it. A file that cannot be used is left as it is, and the program ends with 1. */
#define _POSIX_C_SOURCE 200809L
#include "boragefile.h"
#include <errno.h>
#include <fcntl.h>
#include <inttypes.h>
#include <stdio.h>
#include <stdlib.h>
#include <string.h>
#include <unistd.h>

#define HEAD "boragefile " BORAGEFILE_VERSION "\n"
#define HEAD_BYTES (sizeof HEAD - 1)
#define SUM_BYTES 8
#define FILE_BYTES (HEAD_BYTES + BORAGEFILE_DESK_BYTES + BORAGEFILE_PAGES_BYTES + SUM_BYTES)

static boragefile_desk desk;
static uint8_t pages[BORAGEFILE_PAGES_BYTES];
static uint8_t buffer[BORAGEFILE_LIST_BYTES], csv[BORAGEFILE_CSV_BYTES]; /* these take every radio, so number 11 never comes */

static void end(const char *path, const char *why)
{
    fprintf(stderr, "desk: %s: %s\n", path, why);
    exit(1);
}

/* FNV-1a, 64 bits, of the file but for its sum; written with its lowest byte first */
static void put_sum(uint8_t sum[SUM_BYTES], const uint8_t file[FILE_BYTES])
{
    uint64_t hash = 0xcbf29ce484222325u;
    for (size_t i = 0; i < FILE_BYTES - SUM_BYTES; i++)
        hash = (hash ^ file[i]) * 0x100000001b3u;
    for (unsigned i = 0; i < SUM_BYTES; i++)
        sum[i] = (uint8_t)(hash >> 8 * i);
}

/* Takes the store from the file, or begins a fresh one where there is no file. */
static void restore(const char *path)
{
    FILE *file = fopen(path, "rb");
    if (!file) {
        if (errno != ENOENT)
            end(path, strerror(errno));
        if (boragefile_begin(&desk, pages, sizeof pages).number != BORAGEFILE_ACCEPTED)
            end(path, "no fresh store");
        return;
    }
    uint8_t saved[FILE_BYTES + 1], sum[SUM_BYTES]; /* a byte more, to see that the file ends */
    size_t length = fread(saved, 1, sizeof saved, file);
    if (ferror(file))
        end(path, "it cannot be read");
    fclose(file);
    if (length < HEAD_BYTES || memcmp(saved, HEAD, HEAD_BYTES) != 0)
        end(path, "it is no store of version " BORAGEFILE_VERSION);
    if (length == FILE_BYTES)
        put_sum(sum, saved);
    if (length != FILE_BYTES || memcmp(sum, saved + FILE_BYTES - SUM_BYTES, SUM_BYTES) != 0)
        end(path, "it is damaged: keep it for inspection, begin with another file and have the radios sign on again");
    memcpy(&desk, saved + HEAD_BYTES, sizeof desk);
    memcpy(pages, saved + HEAD_BYTES + sizeof desk, sizeof pages);
    if (!boragefile_sound(&desk, pages, sizeof pages))
        end(path, boragefile_words(BORAGEFILE_UNSOUND));
}

/* What is written to this folder's list of names is on the disk. */
static int sync_folder(const char *path)
{
    char *folder = strdup(path);
    if (!folder)
        return -1;
    char *slash = strrchr(folder, '/');
    if (slash)
        slash[slash == folder] = '\0';
    int fd = open(slash ? folder : ".", O_RDONLY | O_DIRECTORY);
    free(folder);
    if (fd < 0)
        return -1;
    int failed = fsync(fd);
    return close(fd) || failed ? -1 : 0;
}

/* Saves the store: a new file first, whole and on the disk, which then takes the old one's name. So there is a whole file at any time. */
static void save(const char *path)
{
    uint8_t saved[FILE_BYTES];
    memcpy(saved, HEAD, HEAD_BYTES);
    memcpy(saved + HEAD_BYTES, &desk, sizeof desk);
    memcpy(saved + HEAD_BYTES + sizeof desk, pages, sizeof pages);
    put_sum(saved + FILE_BYTES - SUM_BYTES, saved);

    size_t length = strlen(path);
    char *fresh = malloc(length + sizeof ".new");
    if (!fresh)
        end(path, strerror(errno));
    memcpy(fresh, path, length);
    memcpy(fresh + length, ".new", sizeof ".new");
    FILE *file = fopen(fresh, "wb");
    if (!file)
        end(fresh, strerror(errno));
    int written = fwrite(saved, 1, sizeof saved, file) == sizeof saved && fflush(file) == 0 && fsync(fileno(file)) == 0;
    if (fclose(file) != 0 || !written)
        end(fresh, "it cannot be written");
    if (rename(fresh, path) != 0 || sync_folder(path) != 0)
        end(path, strerror(errno));
    free(fresh);
}

static uint16_t field(const uint8_t *bytes)
{
    return (uint16_t)(bytes[0] + 256 * bytes[1]);
}

static void put_field(uint8_t *bytes, unsigned value)
{
    bytes[0] = value & 255;
    bytes[1] = value >> 8 & 255;
}

/* A number of digits, 0 to the most that is given, or -1. */
static int64_t number_of(const char *word, int64_t most)
{
    int64_t value = 0;
    for (; *word; word++) {
        if (*word < '0' || *word > '9' || (value = 10 * value + (*word - '0')) > most)
            return -1;
    }
    return value;
}

#define MOST_WORDS 6

/* Cuts a line into its words. Answers how many there are, or 0 where there are more than any call has. */
static unsigned words_of(char *line, char *words[MOST_WORDS])
{
    const char *between = " \t\f\r\n";
    unsigned count = 0;
    for (char *word = strtok(line, between); word; word = strtok(NULL, between)) {
        if (count == MOST_WORDS)
            return 0;
        words[count++] = word;
    }
    return count;
}

/* The numbers of 16 bits that stand after a line's first word, this many of them. */
static bool numbers_of(char *words[MOST_WORDS], unsigned count, uint16_t numbers[MOST_WORDS - 1])
{
    for (unsigned i = 0; i < count; i++) {
        int64_t value = number_of(words[1 + i], UINT16_MAX);
        if (value < 0)
            return false;
        numbers[i] = (uint16_t)value;
    }
    return true;
}

/* Makes the record of a line and answers its length, or 0 where the line is no record. Its last word is the minute. */
static size_t record_of(char *words[MOST_WORDS], unsigned count, uint8_t record[16])
{
    static const struct {
        const char *word;
        unsigned numbers;
    } kinds[] = {
        [BORAGEFILE_KIND_SIGN_ON] = {"on", 3},
        [BORAGEFILE_KIND_REPORT] = {"report", 3},
        [BORAGEFILE_KIND_SIGN_OFF] = {"off", 1},
        [BORAGEFILE_KIND_RANGE] = {"range", 4},
    };
    unsigned kind = BORAGEFILE_KIND_SIGN_ON;
    while (count > 0 && kind <= BORAGEFILE_KIND_RANGE && strcmp(words[0], kinds[kind].word) != 0)
        kind++;
    uint16_t numbers[MOST_WORDS - 1];
    if (count == 0 || kind > BORAGEFILE_KIND_RANGE || count != kinds[kind].numbers + 2 || !numbers_of(words, kinds[kind].numbers, numbers))
        return 0;
    int64_t minute = number_of(words[count - 1], UINT32_MAX);
    if (minute < 0)
        return 0;
    size_t minute_at = 4 + 2 * kinds[kind].numbers, length = minute_at + 4;
    put_field(record, (unsigned)length);
    put_field(record + 2, kind);
    for (unsigned i = 0; i < kinds[kind].numbers; i++)
        put_field(record + 4 + 2 * i, numbers[i]);
    put_field(record + minute_at, (unsigned)minute);
    put_field(record + minute_at + 2, (unsigned)(minute >> 16));
    return length;
}

/* Sets or clears a watch, where the line says so. */
static bool watch_call(char *words[MOST_WORDS], unsigned count, boragefile_answer *answer)
{
    uint16_t n[MOST_WORDS - 1];
    bool set = count == 6 && strcmp(words[0], "watch") == 0, clear = count == 2 && strcmp(words[0], "unwatch") == 0;
    if ((!set && !clear) || !numbers_of(words, count - 1, n))
        return false;
    *answer = set ? boragefile_watch_set(&desk, pages, sizeof pages, n[0], n[1], n[2], n[3], n[4])
                  : boragefile_watch_clear(&desk, pages, sizeof pages, n[0]);
    return true;
}

/* A file's bytes, which the caller frees, or null where it cannot be read. */
static uint8_t *bytes_of(const char *name, size_t *length)
{
    FILE *file = fopen(name, "rb");
    if (!file)
        return NULL;
    size_t room = sizeof csv, some;
    uint8_t *bytes = malloc(room);
    for (*length = 0; bytes && (some = fread(bytes + *length, 1, room - *length, file)) > 0;) {
        *length += some;
        uint8_t *more = *length < room ? bytes : realloc(bytes, room *= 2);
        if (!more)
            free(bytes);
        bytes = more;
    }
    if (ferror(file)) {
        free(bytes);
        bytes = NULL;
    }
    fclose(file);
    return bytes;
}

/* Whether these bytes are written to a file. */
static bool put_bytes(const char *name, const uint8_t *bytes, size_t length)
{
    FILE *file = fopen(name, "wb");
    if (!file)
        return false;
    bool written = fwrite(bytes, 1, length, file) == length;
    return fclose(file) == 0 && written;
}

static void print_refusal(unsigned long i, boragefile_answer answer)
{
    printf("%lu refused %u", i, answer.number);
    if (answer.count > 0) /* only where a file is read: the buffers are large enough for all else */
        printf(" in line %" PRIu64, answer.count);
    printf(": %s\n", boragefile_words(answer.number));
}

/* Writes all radios on to a spreadsheet's file. */
static void save_csv(unsigned long i, const char *name)
{
    boragefile_answer answer = boragefile_csv_write(&desk, pages, sizeof pages, csv, sizeof csv);
    if (answer.number != BORAGEFILE_ACCEPTED)
        print_refusal(i, answer);
    else if (put_bytes(name, csv, (size_t)answer.count))
        printf("%lu wrote %" PRIu64 " bytes\n", i, answer.count);
    else
        printf("%lu no file\n", i);
}

/* Makes a store of a spreadsheet's file, where there is one. */
static bool load_csv(const char *name, boragefile_answer *answer)
{
    size_t length;
    uint8_t *bytes = bytes_of(name, &length);
    if (!bytes)
        return false;
    *answer = boragefile_csv_read(&desk, pages, sizeof pages, bytes, length);
    free(bytes);
    return true;
}

/* Prints the members of a watch, where the line asks for them; one that is not set has none. */
static bool print_members(unsigned long i, char *words[MOST_WORDS], unsigned count)
{
    uint16_t watch[MOST_WORDS - 1];
    if (count != 2 || strcmp(words[0], "members") != 0 || !numbers_of(words, 1, watch) || watch[0] >= BORAGEFILE_WATCHES)
        return false;
    printf("%lu members", i);
    for (uint16_t radio = 1; radio <= 4095; radio++)
        if (boragefile_has_member(&desk.watches[watch[0]], radio))
            printf(" %u", radio);
    printf("\n");
    return true;
}

/* Watches, each by its bit, after a word. */
static void print_watches(const char *word, uint16_t watches)
{
    if (watches != 0)
        printf(" %s", word);
    for (unsigned watch = 0; watch < BORAGEFILE_WATCHES; watch++)
        if (watches >> watch & 1)
            printf(" %u", watch);
}

static void print_list(unsigned long i, size_t count)
{
    printf("%lu found %zu\n", i, count);
    for (const uint8_t *entry = buffer; entry < buffer + BORAGEFILE_ENTRY_BYTES * count; entry += BORAGEFILE_ENTRY_BYTES)
        printf("%u %u %u\n", field(entry), field(entry + 2), field(entry + 4));
}

/* Answers one line, whose words these are. */
static void serve(const char *path, unsigned long i, char *words[MOST_WORDS], unsigned count)
{
    boragefile_answer answer;
    uint8_t record[16] = {0};
    size_t bytes = record_of(words, count, record);
    if (bytes > 0) {
        answer = boragefile_call(&desk, pages, sizeof pages, record, bytes, buffer, sizeof buffer);
    } else if (print_members(i, words, count)) {
        return;
    } else if (count == 2 && strcmp(words[0], "save-csv") == 0) {
        save_csv(i, words[1]);
        return;
    } else if (count == 2 && strcmp(words[0], "load-csv") == 0) {
        if (!load_csv(words[1], &answer)) {
            printf("%lu no file\n", i);
            return;
        }
    } else if (!watch_call(words, count, &answer)) {
        printf("%lu no call\n", i);
        return;
    }
    if (answer.number != BORAGEFILE_ACCEPTED) {
        print_refusal(i, answer);
    } else if (field(record + 2) == BORAGEFILE_KIND_RANGE) {
        print_list(i, (size_t)answer.count);
    } else {
        save(path);
        printf("%lu ok", i);
        print_watches("gained", answer.gained);
        print_watches("lost", answer.lost);
        printf("\n");
    }
}

int main(int count, char **arguments)
{
    if (count != 2) {
        fprintf(stderr, "usage: desk FILE < LINES\n");
        return 2;
    }
    const char *path = arguments[1];
    restore(path);
    setvbuf(stdout, NULL, _IOLBF, 0);

    char *line = NULL;
    size_t room = 0;
    ssize_t length;
    for (unsigned long i = 1; (length = getline(&line, &room, stdin)) >= 0; i++) {
        char *words[MOST_WORDS];
        unsigned given = strlen(line) == (size_t)length ? words_of(line, words) : 0;
        serve(path, i, words, given);
    }
    free(line);
    return 0;
}
