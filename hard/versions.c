/* T-11: round files of either version read and written back in their version, each against its sentence. */
#include "check.h"

static const uint8_t MARK[] = { 'R', 'N', 'D' };

/* What stands before the choices: 9 bytes, and 2 more for the area of version 2. */
static size_t head_length(uint16_t version)
{
    return version == 2 ? YND_AREA_ROUND_BYTES : YND_ROUND_BYTES;
}

/* The version that a file's first five bytes say; 0 where they aren't the mark and a version that is read. */
static uint16_t version_of(const uint8_t *file, size_t n)
{
    if (n < 5 || memcmp(file, MARK, sizeof MARK) != 0)
        return 0;
    uint16_t version = (uint16_t)number_at(file, 3, 2);
    return version == 1 || version == 2 ? version : 0;
}

/* What reading says of the bytes before memory counts: 15, 16 by the version found, or 0. */
static uint32_t bad_file(const uint8_t *file, size_t n)
{
    uint16_t version = version_of(file, n);
    size_t head = head_length(version);
    if (version == 0)
        return YND_NO_ROUND_FILE;
    return n < head || n != head + number_at(file, head - 2, 2) ? YND_BAD_ROUND_LENGTH : 0;
}

/* What writing refuses, in its order. */
static uint32_t bad_write(uint16_t version, size_t count, size_t room)
{
    if (version != 1 && version != 2)
        return YND_NO_ROUND_FILE;
    if (count > YND_CHOICES_MOST)
        return YND_BAD_ROUND_LENGTH;
    return room < head_length(version) + count ? YND_LENT_TOO_SHORT : 0;
}

/* Written into memory of this length. */
static void write_with(uint16_t version, uint16_t area, uint16_t start, const uint8_t *choices, size_t count,
    const uint8_t *want, size_t room)
{
    uint8_t *to = block(room), *old = block(room);
    size_t *length = block(sizeof *length), *place = block(sizeof *place), n = head_length(version) + count;
    uint32_t bad = bad_write(version, count, room);
    uint32_t number = ynd_write_round_versioned(version, area, start, choices, count, to, room, length, place);
    CHECK(answer(WRITE_VERSION, number, *place) == bad);
    if (number) {
        CHECK(*place == (number == YND_LENT_TOO_SHORT ? YND_VISITED : 0));
        CHECK(*length == KEPT_SIZE && memcmp(to, old, room) == 0);
    } else {
        CHECK(*length == n && memcmp(to, want, n) == 0 && memcmp(to + n, old + n, room - n) == 0);
    }
    unblock(place, sizeof *place);
    unblock(length, sizeof *length);
    unblock(old, room);
    unblock(to, room);
}

/* An accepted file, written back in its version and in none that isn't there. */
static void write_back(uint16_t version, uint16_t area, uint16_t start, const uint8_t *choices, size_t count,
    const uint8_t *file, size_t n)
{
    write_with(version, area, start, choices, count, file, n);
    write_with(version, area, start, choices, count, file, n + 3);
    write_with(version, area, start, choices, count, file, n - 1);
    write_with(0, area, start, choices, count, file, n);
    write_with(3, area, start, choices, count, file, n);
    write_with((uint16_t)(version + 256), area, start, choices, count, file, n);
}

/* Read into memory of this length. A file of version 1 gives what the reader of version 1 gives. */
static void read_with(const uint8_t *file, size_t n, size_t room)
{
    uint8_t *choices = block(room), *old = block(room);
    uint16_t *version = block(sizeof *version), *area = block(sizeof *area), *start = block(sizeof *start);
    size_t *count = block(sizeof *count), *place = block(sizeof *place);
    uint16_t found = version_of(file, n);
    size_t head = head_length(found);
    uint32_t bad = bad_file(file, n);
    if (!bad && room < n - head)
        bad = YND_LENT_TOO_SHORT;
    uint32_t number = ynd_read_round_versioned(file, n, choices, room, version, area, start, count, place);
    CHECK(answer(READ_VERSION, number, *place) == bad);
    if (number) {
        CHECK(*place == (number == YND_LENT_TOO_SHORT ? YND_VISITED : 0));
        CHECK(*version == 0xA5A5 && *area == 0xA5A5 && *start == 0xA5A5 && *count == KEPT_SIZE);
        CHECK(memcmp(choices, old, room) == 0);
    } else {
        CHECK(*version == found && *area == (found == 2 ? number_at(file, 5, 2) : 0));
        CHECK(*start == number_at(file, head - 4, 2) && *count == n - head);
        CHECK(memcmp(choices, file + head, *count) == 0);
        CHECK(memcmp(choices + *count, old + *count, room - *count) == 0);
        write_back(*version, *area, *start, choices, *count, file, n);
    }
    unblock(place, sizeof *place);
    unblock(count, sizeof *count);
    unblock(start, sizeof *start);
    unblock(area, sizeof *area);
    unblock(version, sizeof *version);
    unblock(old, room);
    unblock(choices, room);
}

void check_versions(const uint8_t *file, size_t size)
{
    size_t head = head_length(version_of(file, size)), held = size > head ? size - head : 0;
    read_with(file, size, held);
    read_with(file, size, held + 2);
    if (held > 0)
        read_with(file, size, held - 1);
}

/* Each version's number, in a file that is whole in version 1 and in one that is whole in version 2. */
void every_version(void)
{
    uint8_t file[YND_AREA_ROUND_BYTES] = { 'R', 'N', 'D' }, *to = block(YND_AREA_ROUND_BYTES);
    size_t length, place;
    for (uint32_t version = 0; version < 65536; version++) {
        file[3] = (uint8_t)version;
        file[4] = (uint8_t)(version >> 8);
        read_with(file, YND_ROUND_BYTES, 0);
        read_with(file, YND_AREA_ROUND_BYTES, 0);
        uint32_t number = ynd_write_round_versioned(
            (uint16_t)version, 0, 0, NULL, 0, to, YND_AREA_ROUND_BYTES, &length, &place);
        CHECK(number == (version == 1 || version == 2 ? 0 : YND_NO_ROUND_FILE) && place == 0);
    }
    unblock(to, YND_AREA_ROUND_BYTES);
}

/* As many choices as a file of version 2 holds, and one more. */
void most_choices_of_area(void)
{
    size_t most = YND_CHOICES_MOST, long_file = head_length(2) + most, room = long_file + 1;
    uint8_t *choices = block(most + 1), *want = block(long_file);
    memcpy(want, (uint8_t[]){ 'R', 'N', 'D', 2, 0, 3, 4, 9, 0, 255, 255 }, head_length(2));
    write_with(2, 1027, 9, choices, most, want, room);
    write_with(2, 1027, 9, choices, most, want, long_file);
    write_with(2, 1027, 9, choices, most, want, long_file - 1);
    write_with(2, 1027, 9, choices, most + 1, want, room);
    write_with(2, 1027, 9, choices, most + 1, want, 0);
    write_with(3, 1027, 9, choices, most + 1, want, room);
    check_versions(want, long_file);
    unblock(want, long_file);
    unblock(choices, most + 1);
}
