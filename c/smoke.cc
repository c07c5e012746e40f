// The desk from C++: the header, a fresh store, a watch, a sign-on, a range, and a file written and read.
#include "boragefile.h"
#include <cstdio>
#include <cstring>

static boragefile_desk desk;
static uint8_t pages[BORAGEFILE_PAGES_BYTES], buffer[BORAGEFILE_LIST_BYTES], file[BORAGEFILE_CSV_BYTES];

template <size_t N> static boragefile_answer call(const uint8_t (&record)[N])
{
    return boragefile_call(&desk, pages, sizeof pages, record, N, buffer, sizeof buffer);
}

int main()
{
    const uint8_t on[] = {14, 0, BORAGEFILE_KIND_SIGN_ON, 0, 7, 0, 100, 0, 200, 0, 0, 0, 0, 0};
    const uint8_t range[] = {16, 0, BORAGEFILE_KIND_RANGE, 0, 0, 0, 101, 0, 0, 0, 201, 0, 0, 0, 0, 0};
    const uint8_t listed[] = {7, 0, 100, 0, 200, 0};
    if (boragefile_begin(&desk, pages, sizeof pages).number != BORAGEFILE_ACCEPTED ||
        boragefile_watch_set(&desk, pages, sizeof pages, 0, 0, 101, 0, 201).number != BORAGEFILE_ACCEPTED)
        return 1;
    const boragefile_answer signed_on = call(on);
    if (signed_on.number != BORAGEFILE_ACCEPTED || signed_on.gained != 1 || signed_on.lost != 0 || !boragefile_has_member(&desk.watches[0], 7))
        return 1;
    const boragefile_answer found = call(range);
    if (found.number != BORAGEFILE_ACCEPTED || found.count != 1 || std::memcmp(buffer, listed, sizeof listed) != 0)
        return 1;
    if (boragefile_watch_clear(&desk, pages, sizeof pages, 0).number != BORAGEFILE_ACCEPTED ||
        boragefile_watch_clear(&desk, pages, sizeof pages, 0).number != BORAGEFILE_NO_WATCH)
        return 1;
    if (call(on).number != BORAGEFILE_ALREADY_ON || !boragefile_sound(&desk, pages, sizeof pages))
        return 1;
    const boragefile_answer written = boragefile_csv_write(&desk, pages, sizeof pages, file, sizeof file);
    if (written.number != BORAGEFILE_ACCEPTED || written.count != 38 || std::memcmp(file, "radio,east,north,minute\r\n7,100,200,0\r\n", 38) != 0)
        return 1;
    if (boragefile_csv_read(&desk, pages, sizeof pages, file, 38).number != BORAGEFILE_ACCEPTED || call(on).number != BORAGEFILE_ALREADY_ON)
        return 1;
    const boragefile_answer bad = boragefile_csv_read(&desk, pages, sizeof pages, file, 37);
    if (bad.number != BORAGEFILE_BAD_LINE || bad.count != 2)
        return 1;
    std::puts("ok");
    return 0;
}
