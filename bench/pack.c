/* What bench/pack compares `pack` with: packets of three types, packed by code that was written for these types alone.

       pack two|telemetry|record COUNT [TIMES]

   draws COUNT values, packs each into one buffer, once or so many times, and writes the packets. A packet of `two` is that of
   examples/first, one of `telemetry` that of examples/telemetry, and one of `record` that of record.asn beside this file, of some 200
   octets. */
#include <stdint.h>
#include <stdio.h>
#include <stdlib.h>
#include <string.h>

enum { MOST_OCTETS = 1024, MOST_PARTS = 15, MOST_NAME = 15, MOST_BLOB = 31 };

typedef struct {
    uint8_t a, b;
} Two;

typedef struct {
    uint16_t apid, count, time;
    uint8_t mode;
    int8_t temp;
} Telemetry;

typedef struct {
    uint16_t id;
    uint8_t name_len, blob_len;
    int8_t level;
    _Bool has_blob, has_level, ok;
    char name[MOST_NAME];
    uint8_t blob[MOST_BLOB];
} Part;

typedef struct {
    uint32_t seq;
    uint8_t kind, count;
    Part parts[MOST_PARTS];
} Record;

/* Numbers of a linear congruence, the upper 32 bits of each. */
static uint64_t drawn = 1;

static uint32_t below(uint64_t n) {
    drawn = drawn * 6364136223846793005u + 1442695040888963407u;
    return (uint32_t)((drawn >> 32) % n);
}

static Two draw_two(void) {
    return (Two){.a = (uint8_t)below(256), .b = (uint8_t)below(8)};
}

static Telemetry draw_telemetry(void) {
    Telemetry v;
    v.apid = (uint16_t)below(2048);
    v.count = (uint16_t)below(16384);
    v.time = (uint16_t)below(4096);
    v.mode = (uint8_t)below(3);
    v.temp = (int8_t)((int)below(128) - 40);
    return v;
}

static Part draw_part(void) {
    Part v;
    v.id = (uint16_t)below(4096);
    v.name_len = (uint8_t)below(MOST_NAME + 1);
    for (int i = 0; i < v.name_len; i++) v.name[i] = (char)('a' + below(26));
    v.has_blob = below(2);
    v.blob_len = (uint8_t)below(MOST_BLOB + 1);
    for (int i = 0; i < v.blob_len; i++) v.blob[i] = (uint8_t)below(256);
    v.has_level = below(2);
    v.level = (int8_t)((int)below(256) - 128);
    v.ok = below(2);
    return v;
}

static Record draw_record(void) {
    Record v;
    v.seq = below(1ull << 32);
    v.kind = (uint8_t)below(4);
    v.count = (uint8_t)(7 + below(9));
    for (int i = 0; i < v.count; i++) v.parts[i] = draw_part();
    return v;
}

/* Bits that wait until they fill an octet. */
typedef struct {
    uint8_t *octets;
    size_t at;
    uint64_t waiting;
    unsigned count;
} Pen;

static inline void put(Pen *pen, unsigned n, uint64_t v) {
    pen->waiting = pen->waiting << n | v;
    pen->count += n;
    while (pen->count >= 8) {
        pen->count -= 8;
        pen->octets[pen->at++] = (uint8_t)(pen->waiting >> pen->count);
    }
}

static inline size_t ended(Pen *pen) {
    if (pen->count) pen->octets[pen->at++] = (uint8_t)(pen->waiting << (8 - pen->count));
    return pen->at;
}

/* Each gives how many octets the packet has, and none where a constraint is broken. */

__attribute__((noinline)) static size_t pack_two(const Two *v, uint8_t *octets) {
    if (v->b > 7) return 0;
    octets[0] = v->a;
    octets[1] = (uint8_t)(v->b << 5);
    return 2;
}

__attribute__((noinline)) static size_t pack_telemetry(const Telemetry *v, uint8_t *octets) {
    if (v->apid > 2047 || v->count > 16383 || v->time > 4095 || v->mode > 2 || v->temp < -40 || v->temp > 87) return 0;
    uint32_t body = (uint32_t)v->time << 12 | (uint32_t)v->mode << 10 | (uint32_t)(v->temp + 40) << 3;
    octets[0] = (uint8_t)(v->apid >> 8);
    octets[1] = (uint8_t)v->apid;
    octets[2] = (uint8_t)(0xc0 | v->count >> 8);
    octets[3] = (uint8_t)v->count;
    octets[4] = 0;
    octets[5] = 2;
    octets[6] = (uint8_t)(body >> 16);
    octets[7] = (uint8_t)(body >> 8);
    octets[8] = (uint8_t)body;
    return 9;
}

__attribute__((noinline)) static size_t pack_record(const Record *v, uint8_t *octets) {
    Pen pen = {octets, 0, 0, 0};
    if (v->kind > 3 || v->count > MOST_PARTS) return 0;
    put(&pen, 32, v->seq);
    put(&pen, 2, v->kind);
    put(&pen, 4, v->count);
    for (int i = 0; i < v->count; i++) {
        const Part *part = &v->parts[i];
        if (part->id > 4095 || part->name_len > MOST_NAME || part->blob_len > MOST_BLOB) return 0;
        put(&pen, 1, part->has_blob);
        put(&pen, 1, part->has_level);
        put(&pen, 12, part->id);
        put(&pen, 4, part->name_len);
        for (int j = 0; j < part->name_len; j++) put(&pen, 7, (uint8_t)part->name[j] & 127);
        if (part->has_blob) {
            put(&pen, 5, part->blob_len);
            for (int j = 0; j < part->blob_len; j++) put(&pen, 8, part->blob[j]);
        }
        if (part->has_level) put(&pen, 8, (uint64_t)(part->level + 128));
        put(&pen, 1, part->ok);
    }
    return ended(&pen);
}

int main(int argc, char **argv) {
    static uint8_t octets[MOST_OCTETS];
    if (argc != 3 && argc != 4) return 2;
    long times = argc == 4 ? strtol(argv[3], NULL, 10) : 1;
    for (long left = strtol(argv[2], NULL, 10); left > 0; left--) {
        size_t count = 0;
        if (!strcmp(argv[1], "two")) {
            Two v = draw_two();
            for (long i = 0; i < times; i++) count = pack_two(&v, octets);
        } else if (!strcmp(argv[1], "telemetry")) {
            Telemetry v = draw_telemetry();
            for (long i = 0; i < times; i++) count = pack_telemetry(&v, octets);
        } else if (!strcmp(argv[1], "record")) {
            Record v = draw_record();
            for (long i = 0; i < times; i++) count = pack_record(&v, octets);
        }
        if (!count || fwrite(octets, 1, count, stdout) != count) return 1;
    }
    return 0;
}
