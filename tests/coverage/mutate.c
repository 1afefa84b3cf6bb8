/* Changes files by their structure. The sections of DWARF are taken out of a file, and in one of them a unit, a line
 * table or just some bytes are dropped, copied, repeated or changed, or get an address or an offset that means
 * something in the file. The lengths and offsets that this moves are mended, and a file is laid out around the sections
 * again, with two addresses behind it. One in eight changes is of plain bytes instead. */
#include "search.h"

#include <stdbool.h>
#include <string.h>

enum { INFO, ABBREV, LINE, LINE_STR, STR, STR_OFFSETS, ADDR, RNGLISTS, SECTIONS };
static const char *const names[SECTIONS] = {".debug_info", ".debug_abbrev", ".debug_line", ".debug_line_str",
                                            ".debug_str", ".debug_str_offsets", ".debug_addr", ".debug_rnglists"};
enum { ROOM = 1 << 16, MOST = 4096, MADE = 1 << 12, HEADER = 64, ENDS = 16 };

struct text {
    size_t size;
    uint8_t bytes[ROOM];
};

struct parts {
    struct text sections[SECTIONS];
    uint8_t header[HEADER], ends[ENDS];
};

static struct parts one, other;

size_t LLVMFuzzerMutate(uint8_t *data, size_t size, size_t most);
size_t LLVMFuzzerCustomMutator(uint8_t *data, size_t size, size_t most, unsigned seed);
size_t LLVMFuzzerCustomCrossOver(const uint8_t *first, size_t first_size, const uint8_t *second, size_t second_size,
                                 uint8_t *out, size_t most, unsigned seed);

/* ---- draws */

static uint64_t state;

static void begin_draws(uint64_t seed)
{
    state = seed * 0x9e3779b97f4a7c15 + 0x1234567;
}

static uint64_t draw(void)
{
    state ^= state << 13;
    state ^= state >> 7;
    state ^= state << 17;
    return state * 0x2545f4914f6cdd1d;
}

static size_t below(size_t most)
{
    return most ? (draw() >> 20) % most : 0;
}

static bool one_in(size_t many)
{
    return below(many) == 0;
}

/* ---- numbers */

static uint64_t get(const uint8_t *at, size_t size)
{
    uint64_t value = 0;

    while (size-- > 0)
        value = value << 8 | at[size];
    return value;
}

static size_t put(uint8_t *at, uint64_t value, size_t size)
{
    size_t i;

    for (i = 0; i < size; i++)
        at[i] = i < 8 ? (uint8_t)(value >> 8 * i) : 0;
    return size;
}

/* ---- the file */

static bool take_apart(const uint8_t *data, size_t size, struct parts *parts)
{
    size_t i, table, count, index, text, length;

    if (size < HEADER + ENDS || memcmp(data, "\177ELF", 4))
        return false;
    table = get(data + 40, 8);
    count = get(data + 60, 2);
    index = get(data + 62, 2);
    if (table > size || count > (size - table) / 64 || index >= count)
        return false;
    text = get(data + table + 64 * index + 24, 8);
    length = get(data + table + 64 * index + 32, 8);
    if (text > size || length > size - text)
        return false;
    memcpy(parts->header, data, HEADER);
    memcpy(parts->ends, data + size - ENDS, ENDS);
    for (i = 0; i < SECTIONS; i++)
        parts->sections[i].size = 0;
    while (count-- > 0) {
        const uint8_t *header = data + table + 64 * count;
        size_t name = get(header, 4), at = get(header + 24, 8), bytes = get(header + 32, 8);

        if (name >= length || at > size || bytes > size - at || bytes > ROOM / 2)
            continue;
        for (i = 0; i < SECTIONS; i++)
            if (length - name > strlen(names[i]) && !memcmp(data + text + name, names[i], strlen(names[i]) + 1)) {
                memcpy(parts->sections[i].bytes, data + at, bytes);
                parts->sections[i].size = bytes;
            }
    }
    return parts->sections[INFO].size > 0;
}

static void put_header(uint8_t *at, uint64_t name, uint64_t type, uint64_t offset, uint64_t size)
{
    memset(at, 0, 64);
    put(at, name, 4);
    put(at + 4, type, 4);
    put(at + 24, offset, 8);
    put(at + 32, size, 8);
}

/* Lays a file out: header, names, sections, section headers, addresses. Returns its size, or 0 where it has no room. */
static size_t put_together(const struct parts *parts, uint8_t *out, size_t most)
{
    static uint8_t headers[64 * (SECTIONS + 2)], text[256];
    size_t i, at, count = 2, total = HEADER + ENDS, name = 1;

    memcpy(text + name, ".shstrtab", 10);
    name += 10;
    for (i = 0; i < SECTIONS; i++) {
        total += parts->sections[i].size;
        if (parts->sections[i].size) {
            memcpy(text + name, names[i], strlen(names[i]) + 1);
            put_header(headers + 64 * count++, name, 1, 0, parts->sections[i].size);
            name += strlen(names[i]) + 1;
        }
    }
    if (total + name + 64 * count > most)
        return 0;
    memcpy(out, parts->header, HEADER);
    memcpy(out + HEADER, text, name);
    put_header(headers + 64, 1, 3, HEADER, name);
    at = HEADER + name;
    for (i = 0, count = 2; i < SECTIONS; i++)
        if (parts->sections[i].size) {
            put(headers + 64 * count++ + 24, at, 8);
            memcpy(out + at, parts->sections[i].bytes, parts->sections[i].size);
            at += parts->sections[i].size;
        }
    put(out + 40, at, 8);
    put(out + 60, count, 2);
    put(out + 62, 1, 2);
    memcpy(out + at, headers, 64 * count);
    memcpy(out + at + 64 * count, parts->ends, ENDS);
    return at + 64 * count + ENDS;
}

/* ---- units and line tables */

struct part {
    size_t at, body, end, offset_size; /* the body begins behind the length */
};

static struct part found_parts[MOST];

static size_t parts_of(const struct text *text)
{
    size_t at = 0, count = 0;

    while (at + 12 <= text->size && count < MOST) {
        bool wide = get(text->bytes + at, 4) == 0xffffffff;
        struct part part = {at, at + (wide ? 12 : 4), 0, wide ? 8 : 4};
        uint64_t length = get(text->bytes + part.body - part.offset_size, part.offset_size);

        at = part.end = length > text->size - part.body ? text->size : part.body + length;
        if (length > part.offset_size + 4)
            found_parts[count++] = part;
    }
    return count;
}

struct counts counts_of(const uint8_t *file, size_t size)
{
    struct counts counts = {0};

    if (take_apart(file, size, &other)) {
        counts.units = parts_of(&other.sections[INFO]);
        counts.info_bytes = other.sections[INFO].size;
        counts.abbrev_bytes = other.sections[ABBREV].size;
        counts.line_bytes = other.sections[LINE].size;
        counts.range_bytes = other.sections[RNGLISTS].size;
    }
    return counts;
}

static void add_to(uint8_t *at, uint64_t more, size_t size)
{
    put(at, get(at, size) + more, size);
}

/* Where the instructions of a line table begin. */
static size_t program_of(const struct text *text, const struct part *table)
{
    size_t at = table->body + 4;

    return at + table->offset_size + get(text->bytes + at, table->offset_size);
}

/* The length of the part in which bytes were replaced, and the length of a table's header. */
static void mend_lengths(struct text *text, bool tables, size_t at, uint64_t more)
{
    size_t i, count = parts_of(text);

    for (i = 0; i < count; i++) {
        const struct part *part = &found_parts[i];
        size_t program = program_of(text, part);

        if (at < part->body || at > part->end || (at == part->end && i + 1 < count && one_in(2)))
            continue;
        add_to(text->bytes + part->body - part->offset_size, more, part->offset_size);
        if (tables && at >= part->body + 4 + part->offset_size && at < program)
            add_to(text->bytes + part->body + 4, more, part->offset_size);
        return;
    }
}

/* The offsets of tables of declarations that lie behind the place. */
static void mend_tables(struct text *info, size_t at, uint64_t more)
{
    size_t i, count = parts_of(info);

    for (i = 0; i < count; i++) {
        uint8_t *offset = info->bytes + found_parts[i].body + 4;

        if (get(offset, found_parts[i].offset_size) > at)
            add_to(offset, more, found_parts[i].offset_size);
    }
}

/* Replaces bytes of a section by others. */
static void replace(struct parts *parts, size_t section, size_t at, size_t gone, const uint8_t *bytes, size_t size)
{
    struct text *text = &parts->sections[section];

    if (at > text->size || gone > text->size - at || text->size + size > ROOM / 2)
        return;
    if (size != gone && !one_in(30)) {
        if (section == INFO || section == LINE)
            mend_lengths(text, section == LINE, at, size - gone);
        if (section == ABBREV)
            mend_tables(&parts->sections[INFO], at, size - gone);
    }
    memmove(text->bytes + at + size, text->bytes + at + gone, text->size - at - gone);
    if (size)
        memcpy(text->bytes + at, bytes, size);
    text->size += size - gone;
}

/* ---- changes */

/* An address that stands in the file, or is beside one, or at the end of all. */
static uint64_t some_address(const struct parts *parts)
{
    const struct text *text = &parts->sections[one_in(2) ? ADDR : INFO];
    uint64_t found = one_in(3) || text->size < 8 ? get(parts->ends + 8 * below(2), 8)
                                                 : get(text->bytes + below(text->size - 7), 8);

    if (one_in(12))
        found = UINT64_MAX;
    return one_in(2) ? found : found + below(64) - 16;
}

/* A place of a section, or a small number. */
static uint64_t some_offset(const struct parts *parts)
{
    return one_in(2) ? below(24) : below(parts->sections[below(SECTIONS)].size + 1);
}

/* Copies some bytes of a section many times to a place of it. */
static void repeat(struct parts *parts, size_t section, size_t from, size_t size, size_t times, size_t to)
{
    static uint8_t made[MADE];
    size_t i;

    if (!size || size > MADE)
        return;
    if (times > MADE / size)
        times = MADE / size;
    for (i = 0; i < times; i++)
        memcpy(made + i * size, parts->sections[section].bytes + from, size);
    replace(parts, section, to, 0, made, times * size);
}

/* Has libFuzzer change some bytes, which become more at times. */
static void change_bytes(struct parts *parts, size_t section, size_t at, size_t size)
{
    static uint8_t made[MADE + ENDS];

    if (size > MADE)
        size = MADE;
    memcpy(made, parts->sections[section].bytes + at, size);
    replace(parts, section, at, size, made, LLVMFuzzerMutate(made, size, one_in(2) && size ? size : size + ENDS));
}

/* Puts a number in the place of as many bytes. */
static void put_number(struct parts *parts, size_t section, size_t at, uint64_t number, size_t size)
{
    if (size <= parts->sections[section].size - at)
        put(parts->sections[section].bytes + at, number, size);
}

/* Draws some bytes of a section, or a whole unit or table of it. */
static size_t draw_bytes(const struct text *text, bool whole, size_t *size)
{
    size_t count = whole ? parts_of(text) : 0, at;

    if (count) {
        at = below(count);
        *size = found_parts[at].end - found_parts[at].at;
        return found_parts[at].at;
    }
    at = below(text->size + 1);
    *size = below(one_in(4) ? 100 : 12);
    if (*size > text->size - at)
        *size = text->size - at;
    return at;
}

static void change_section(struct parts *parts, size_t section, bool whole)
{
    size_t size, at = draw_bytes(&parts->sections[section], whole, &size), ignored;
    size_t to = draw_bytes(&parts->sections[section], whole, &ignored);

    switch (below(9)) {
    case 0: replace(parts, section, at, size, NULL, 0); return;
    case 1: repeat(parts, section, at, size, 1, to); return;
    case 2: repeat(parts, section, at, size, one_in(4) ? below(200) : 1 + below(8), at); return;
    case 3: put_number(parts, section, at, some_address(parts), 8); return;
    case 4: put_number(parts, section, at, some_offset(parts), one_in(3) ? 4 : 1); return;
    default: change_bytes(parts, section, at, size); return;
    }
}

size_t LLVMFuzzerCustomMutator(uint8_t *data, size_t size, size_t most, unsigned seed)
{
    static const uint8_t likely[] = {INFO, INFO, INFO, ABBREV, ABBREV, LINE, LINE, LINE, RNGLISTS, ADDR};
    size_t times, changed;

    begin_draws(seed);
    if (one_in(8) || !take_apart(data, size, &one))
        return LLVMFuzzerMutate(data, size, most);
    for (times = 1 + below(4); times > 0; times--)
        if (one_in(9))
            put(one.ends + 8 * below(2), some_address(&one), 8);
        else if (one_in(8))
            change_section(&one, one_in(2) ? INFO : LINE, true);
        else
            change_section(&one, one_in(5) ? below(SECTIONS) : likely[below(sizeof likely)], false);
    changed = put_together(&one, data, most);
    return changed ? changed : LLVMFuzzerMutate(data, size, most);
}

/* A file with a section of another one, or with some of its bytes. */
size_t LLVMFuzzerCustomCrossOver(const uint8_t *first, size_t first_size, const uint8_t *second, size_t second_size,
                                 uint8_t *out, size_t most, unsigned seed)
{
    size_t section, from, size;

    begin_draws(seed);
    if (!take_apart(first, first_size, &one) || !take_apart(second, second_size, &other))
        return 0;
    section = below(SECTIONS);
    from = below(other.sections[section].size);
    size = below(other.sections[section].size - from);
    if (one_in(2)) {
        one.sections[section] = other.sections[section];
        if (section == INFO)
            one.sections[ABBREV] = other.sections[ABBREV];
    } else {
        replace(&one, section, below(one.sections[section].size + 1), 0, other.sections[section].bytes + from, size);
    }
    if (one_in(2))
        memcpy(one.ends, other.ends, ENDS);
    return put_together(&one, out, most);
}
