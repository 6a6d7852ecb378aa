/* A plain reader of IFC files, with no proof: what tests/reading compares the reading of `check` with.

   plain_reader FILE prints `read_cold_s`, the seconds from the bytes in memory to the triangles of all elements,
   and how many of both there are. One pass over the bytes makes a flat table of cells of eight bytes, in which each number is
   read at once; instances stand in a table by their numbers. It reads triangulated sets in millimetres, onto a grid of tenths,
   without placements, and stops at whatever else it meets. */
#define _GNU_SOURCE
#include <stdint.h>
#include <stdio.h>
#include <stdlib.h>
#include <string.h>
#include <strings.h>
#include <time.h>

/* A cell: its kind in the low three bits. A number has the digits behind its point in the next five, and all its digits with
   their sign above; a list how many values it has in the next 29 bits, and how many cells they take above; a reference its
   number; a text, an enumeration or a typed value's keyword the place where it begins. */
enum kind { NONE, NUMBER, REFERENCE, LIST, PLACE, TYPED };
typedef uint64_t cell;

enum entity { OTHER, PROJECT, ASSIGNMENT, UNIT, SHAPE, REPRESENTATION, SET, POINTS, ELEMENT };
static const struct { const char *word; enum entity entity; } WORDS[] = {
    {"IFCPROJECT", PROJECT}, {"IFCUNITASSIGNMENT", ASSIGNMENT}, {"IFCSIUNIT", UNIT}, {"IFCPRODUCTDEFINITIONSHAPE", SHAPE},
    {"IFCSHAPEREPRESENTATION", REPRESENTATION}, {"IFCTRIANGULATEDFACESET", SET}, {"IFCCARTESIANPOINTLIST3D", POINTS},
    {"IFCBEAM", ELEMENT}, {"IFCCOLUMN", ELEMENT}, {"IFCDOOR", ELEMENT}, {"IFCDUCTSEGMENT", ELEMENT}, {"IFCMEMBER", ELEMENT},
    {"IFCPIPESEGMENT", ELEMENT}, {"IFCPLATE", ELEMENT}, {"IFCSLAB", ELEMENT}, {"IFCSTAIR", ELEMENT}, {"IFCWALL", ELEMENT},
    {"IFCWINDOW", ELEMENT}};

struct instance { uint32_t number, word, length, values; enum entity entity; };
struct triangle { int32_t corners[9]; };
struct element { uint32_t name, from, to; int32_t low[3], high[3]; };

static const uint8_t *bytes, *at, *end;
static cell *cells;
static struct instance *instances;
static uint32_t used, count, top, *places;
static struct triangle *triangles;
static struct element *elements;
static int32_t (*points)[3];
static size_t elements_made, triangles_made;

static void stop(const char *why)
{
    fprintf(stderr, "plain_reader: %s at %td\n", why, at - bytes);
    exit(1);
}

static void *room(size_t size)
{
    void *made = malloc(size);
    if (!made)
        stop("no memory");
    return made;
}

/* ---- tokens; zeros stand behind the last byte */

static inline uint8_t next(void)
{
    for (;;) {
        if (*at > ' ' && *at != '/')
            return *at;
        if (at >= end)
            return 0;
        if (*at != '/') {
            at++;
        } else if (at[1] == '*') {
            const uint8_t *close = memmem(at + 2, end - at - 2, "*/", 2);
            if (!close)
                stop("a comment has no end");
            at = close + 2;
        } else {
            stop("no token");
        }
    }
}

static inline void want(uint8_t sign)
{
    if (next() != sign)
        stop("another sign is wanted");
    at++;
}

static inline int is_word_byte(uint8_t b)
{
    return (uint8_t)((b | 32) - 'a') < 26 || (uint8_t)(b - '0') < 10 || b == '_' || b == '-';
}

static uint32_t word(void)
{
    uint8_t first = next();
    const uint8_t *from = at;
    if ((uint8_t)((first | 32) - 'a') >= 26 && first != '_')
        stop("a word is wanted");
    while (is_word_byte(*at))
        at++;
    return at - from;
}

static void want_word(const char *wanted)
{
    uint32_t length = word();
    if (length != strlen(wanted) || strncasecmp((const char *)at - length, wanted, length))
        stop("another word is wanted");
}

static inline uint64_t digits(uint64_t value)
{
    for (; (uint8_t)(*at - '0') < 10; at++)
        value = value * 10 + (*at - '0');
    return value;
}

static inline cell number(void)
{
    int negative = *at == '-', behind = 0;
    at += negative || *at == '+';
    const uint8_t *from = at;
    uint64_t value = digits(0);
    int all = at - from;
    if (!all)
        stop("no digit");
    if (*at == '.') {
        const uint8_t *point = ++at;
        value = digits(value);
        behind = at - point;
    }
    if (all + behind > 15 || (*at | 32) == 'e')
        stop("a number that this reader doesn't read");
    return NUMBER | (cell)behind << 3 | (cell)(negative ? -value : value) << 8;
}

static inline void text(uint8_t close)
{
    cells[used++] = PLACE | (cell)(at - bytes) << 3;
    for (at++;; at++) {
        while (*at != close)
            if (at++ >= end)
                stop("a text has no end");
        at++;
        if (close != '\'' || *at != close)
            return;
    }
}

/* The values up to the closing parenthesis, behind the opening one. */
static void list(int depth)
{
    uint32_t head = used++, values = 0;
    if (depth > 32)
        stop("too deep");
    if (next() == ')')
        at++;
    else
        for (uint8_t sign = ',';; values++) {
            sign = next();
            if ((uint8_t)(sign - '0') < 10 || sign == '-' || sign == '+') {
                cells[used++] = number();
            } else if (sign == '#') {
                at++;
                cells[used++] = REFERENCE | digits(0) << 3;
            } else if (sign == '(') {
                at++;
                list(depth + 1);
            } else if (sign == '$' || sign == '*') {
                at++;
                cells[used++] = NONE;
            } else if (sign == '\'' || sign == '.' || sign == '"') {
                text(sign);
            } else {
                cells[used++] = TYPED | (cell)(at - bytes) << 3;
                word();
                want('(');
                list(depth + 1);
            }
            sign = next();
            at++;
            if (sign == ')') {
                values++;
                break;
            }
            if (sign != ',')
                stop("no comma");
        }
    cells[head] = LIST | (cell)values << 3 | (cell)(used - head) << 32;
}

/* ---- the table */

static enum entity slots[1024];
static const char *slot_words[1024];

static inline uint32_t slot_of(const uint8_t *from, uint32_t length)
{
    uint32_t hash = length;
    for (uint32_t i = 0; i < length; i++)
        hash = (hash ^ (from[i] & 0xDF)) * 0x9E3779B1u;
    return hash >> 22;
}

static void name_words(void)
{
    for (size_t i = 0; i < sizeof WORDS / sizeof *WORDS; i++) {
        uint32_t slot = slot_of((const uint8_t *)WORDS[i].word, strlen(WORDS[i].word));
        while (slot_words[slot])
            slot = (slot + 1) % 1024;
        slot_words[slot] = WORDS[i].word;
        slots[slot] = WORDS[i].entity;
    }
}

static enum entity entity_of(const uint8_t *from, uint32_t length)
{
    for (uint32_t slot = slot_of(from, length); slot_words[slot]; slot = (slot + 1) % 1024)
        if (strlen(slot_words[slot]) == length && !strncasecmp(slot_words[slot], (const char *)from, length))
            return slots[slot];
    return OTHER;
}

static void header(void)
{
    want_word("ISO-10303-21"), want(';'), want_word("HEADER"), want(';');
    for (;;) {
        uint32_t length = word();
        if (length == 6 && !strncasecmp((const char *)at - 6, "ENDSEC", 6))
            break;
        want('('), list(0), want(';');
    }
    want(';');
}

static void table(void)
{
    header();
    want_word("DATA"), want(';');
    for (; next() == '#'; count++) {
        struct instance *made = &instances[count];
        at++;
        uint64_t named = digits(0);
        if (named > UINT32_MAX / 2)
            stop("a number that this reader doesn't read");
        want('=');
        made->number = named;
        made->length = word();
        made->word = at - bytes - made->length;
        made->entity = entity_of(at - made->length, made->length);
        made->values = used;
        want('('), list(0), want(';');
        top = named > top ? named : top;
    }
    want_word("ENDSEC"), want(';'), want_word("END-ISO-10303-21"), want(';');
    if (next())
        stop("more behind the end");
    if (top > 8 * (uint64_t)count + 64)
        stop("numbers that this reader doesn't read");
    places = room((top + 1) * sizeof *places);
    memset(places, 255, (top + 1) * sizeof *places);
    for (uint32_t i = 0; i < count; i++) {
        if (places[instances[i].number] != UINT32_MAX)
            stop("a number stands twice");
        places[instances[i].number] = i;
    }
}

/* ---- elements and triangles */

static inline uint32_t after(uint32_t place)
{
    cell value = cells[place];
    return (value & 7) == LIST ? place + (value >> 32) : (value & 7) == TYPED ? after(place + 1) : place + 1;
}

static uint32_t attribute(const struct instance *of, uint32_t number)
{
    if (number >= (uint32_t)cells[of->values] >> 3)
        stop("too few attributes");
    uint32_t place = of->values + 1;
    while (number--)
        place = after(place);
    return place;
}

static const struct instance *follow(uint32_t place, enum entity wanted)
{
    cell value = cells[place];
    if ((value & 7) != REFERENCE || value >> 3 > top || places[value >> 3] == UINT32_MAX)
        stop("a reference to nothing");
    const struct instance *found = &instances[places[value >> 3]];
    if (found->entity != wanted)
        stop("a reference to another entity");
    return found;
}

static uint32_t values_in(uint32_t place)
{
    if ((cells[place] & 7) != LIST)
        stop("no list");
    return (uint32_t)cells[place] >> 3;
}

static int says(uint32_t place, const char *wanted)
{
    return (cells[place] & 7) == PLACE && !strncmp((const char *)bytes + (cells[place] >> 3), wanted, strlen(wanted));
}

/* A number times ten to so many places, which has to be whole. */
static inline int64_t whole(cell value, int places)
{
    if ((value & 7) != NUMBER)
        stop("no number");
    int64_t read = (int64_t)value >> 8;
    int places_left = (int)(value >> 3 & 31) - places;
    for (; places_left < 0; places_left++)
        read *= 10;
    for (; places_left > 0; places_left--) {
        if (read % 10)
            stop("a length between the grid's");
        read /= 10;
    }
    return read;
}

static void millimetres(void)
{
    for (uint32_t i = 0; i < count; i++)
        if (instances[i].entity == PROJECT) {
            uint32_t units = attribute(follow(attribute(&instances[i], 8), ASSIGNMENT), 0);
            for (uint32_t k = 0; k < values_in(units); k++) {
                const struct instance *unit = follow(units + 1 + k, UNIT);
                if (says(attribute(unit, 1), ".LENGTHUNIT.") && says(attribute(unit, 2), ".MILLI."))
                    return;
            }
        }
    stop("no unit");
}

static const cell THREE = LIST | (cell)3 << 3 | (cell)4 << 32;

static uint32_t read_points(uint32_t place)
{
    uint32_t all = values_in(place);
    points = realloc(points, all * sizeof *points + 1);
    const cell *from = cells + place + 1;
    for (uint32_t i = 0; i < all; i++, from += 4) {
        if (*from != THREE)
            stop("no three numbers");
        for (int k = 0; k < 3; k++) {
            int64_t read = whole(from[k + 1], 1);
            if (read > 8000000 || read < -8000000)
                stop("a point far away");
            points[i][k] = read;
        }
    }
    return all;
}

static void read_triangles(uint32_t place, uint32_t all_points)
{
    const cell *from = cells + place + 1;
    for (uint32_t all = values_in(place); all; all--, from += 4) {
        struct triangle *made = &triangles[triangles_made++];
        if (*from != THREE)
            stop("no three indexes");
        for (int k = 0; k < 3; k++) {
            uint64_t index = (uint64_t)whole(from[k + 1], 0) - 1;
            if (index >= all_points)
                stop("a bad index");
            memcpy(made->corners + 3 * k, points[index], sizeof *points);
        }
    }
}

static void read_shape(const struct instance *shape)
{
    uint32_t bodies = attribute(shape, 2);
    for (uint32_t r = 0; r < values_in(bodies); r++) {
        const struct instance *body = follow(bodies + 1 + r, REPRESENTATION);
        if (!says(attribute(body, 1), "'Body'"))
            continue;
        uint32_t items = attribute(body, 3);
        for (uint32_t t = 0; t < values_in(items); t++) {
            const struct instance *set = follow(items + 1 + t, SET);
            uint32_t list_at = attribute(follow(attribute(set, 0), POINTS), 0), rows = attribute(set, 3);
            static size_t room_for = 0;
            if (triangles_made + values_in(rows) > room_for) {
                room_for = 2 * room_for + values_in(rows) + (end - bytes) / 45;
                triangles = realloc(triangles, room_for * sizeof *triangles);
            }
            read_triangles(rows, read_points(list_at));
        }
    }
}

static void build(void)
{
    millimetres();
    elements = room(count * sizeof *elements + 1);
    for (uint32_t i = 0; i < count; i++) {
        if (instances[i].entity != ELEMENT)
            continue;
        struct element *made = &elements[elements_made];
        uint32_t name = attribute(&instances[i], 0), shape = attribute(&instances[i], 6);
        if ((cells[shape] & 7) == NONE)
            continue;
        if ((cells[attribute(&instances[i], 5)] & 7) != NONE)
            stop("a placement");
        made->name = cells[name] >> 3;
        made->from = triangles_made;
        read_shape(follow(shape, SHAPE));
        made->to = triangles_made;
        for (int k = 0; k < 3; k++)
            made->low[k] = INT32_MAX, made->high[k] = INT32_MIN;
        for (uint32_t t = made->from; t < made->to; t++)
            for (int k = 0; k < 9; k++) {
                int32_t corner = triangles[t].corners[k];
                made->low[k % 3] = corner < made->low[k % 3] ? corner : made->low[k % 3];
                made->high[k % 3] = corner > made->high[k % 3] ? corner : made->high[k % 3];
            }
        elements_made += made->to > made->from;
    }
}

static double seconds(void)
{
    struct timespec now;
    clock_gettime(CLOCK_MONOTONIC, &now);
    return now.tv_sec + now.tv_nsec / 1e9;
}

int main(int words, char **given)
{
    FILE *file = words > 1 ? fopen(given[1], "rb") : NULL;
    if (!file) {
        fputs("plain_reader FILE\n", stderr);
        return 2;
    }
    fseek(file, 0, SEEK_END);
    size_t size = ftell(file);
    rewind(file);
    uint8_t *read = room(size + 16);
    if (fread(read, 1, size, file) != size)
        return 1;
    memset(read + size, 0, 16);
    bytes = at = read, end = read + size;
    double start = seconds();
    name_words();
    cells = room((size / 2 + 16) * sizeof *cells);
    instances = room((size / 8 + 1) * sizeof *instances);
    table();
    build();
    printf("read_cold_s %.6f elements %zu triangles %zu\n", seconds() - start, elements_made, triangles_made);
    return 0;
}
