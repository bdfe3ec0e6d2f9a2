/*
 * What the program acn_bench times, written in C: the same places, the same calls and the same sums.
 *
 * Nanoseconds a call go to standard error, and the sums to standard output.
 */
#include <stdbool.h>
#include <stdint.h>
#include <stdio.h>
#include <string.h>
#include <time.h>

enum { OCTETS = 4096, ROUNDS = 1 << 22, PASSES = 1 << 10 };

/* A linear congruence whose upper halves are drawn. */
struct draw {
    uint64_t state;
};

static uint64_t draw_next(struct draw *draw) {
    draw->state = draw->state * UINT64_C(6364136223846793005) + UINT64_C(1442695040888963407);
    return draw->state >> 32;
}

static const struct draw start_of_draws = {UINT64_C(1442695040888963407)};

static uint64_t load(const uint8_t *octets) {
    uint64_t word;
    memcpy(&word, octets, 8);
    return __builtin_bswap64(word);
}

static void store(uint8_t *octets, uint64_t word) {
    word = __builtin_bswap64(word);
    memcpy(octets, &word, 8);
}

/* The n lowest bits, at most 64. */
static uint64_t ones(unsigned n) {
    return n == 0 ? 0 : UINT64_MAX >> (64 - n);
}

struct reader {
    const uint8_t *octets;
    size_t count;
    uint64_t place;
    uint64_t end;
};

/* The next n bits, at most 64, where they are there. */
static bool take(struct reader *reader, unsigned n, uint64_t *number) {
    if (n > reader->end - reader->place) {
        return false;
    }
    size_t at = reader->place / 8;
    unsigned skip = reader->place % 8;
    reader->place += n;
    if (reader->count - at >= 8) {
        uint64_t inside = load(reader->octets + at) & (UINT64_MAX >> skip);
        if (skip + n <= 64) {
            *number = n == 0 ? 0 : inside >> (64 - skip - n);
        } else {
            unsigned extra = skip + n - 64;
            *number = inside << extra | reader->octets[at + 8] >> (8 - extra);
        }
        return true;
    }
    uint64_t spelled = 0;
    for (unsigned i = skip; i < skip + n; i++) {
        spelled = spelled << 1 | (reader->octets[at + i / 8] >> (7 - i % 8) & 1);
    }
    *number = spelled;
    return true;
}

static bool skip(struct reader *reader, uint64_t n) {
    if (n > reader->end - reader->place) {
        return false;
    }
    reader->place += n;
    return true;
}

struct writer {
    uint8_t *octets;
    size_t count;
    uint64_t at;
};

/* Writes the n lowest bits of v, at most 64, which has no others, where there is room. */
static void put(struct writer *writer, unsigned n, uint64_t v) {
    size_t at = writer->at / 8;
    unsigned skip = writer->at % 8;
    writer->at += n;
    if (skip + n <= 64 && writer->count - at >= 8) {
        unsigned behind = 64 - skip - n;
        uint64_t mask = behind == 64 ? 0 : ones(n) << behind;
        uint64_t word = load(writer->octets + at);
        store(writer->octets + at, (word & ~mask) | (behind == 64 ? 0 : v << behind));
        return;
    }
    for (unsigned i = 0; i < n; i++) {
        unsigned bit = 7 - (skip + i) % 8;
        uint8_t *octet = &writer->octets[at + (skip + i) / 8];
        *octet = (uint8_t)((*octet & ~(1u << bit)) | ((v >> (n - 1 - i) & 1) << bit));
    }
}

static double nanoseconds(struct timespec from, struct timespec to) {
    return (to.tv_sec - from.tv_sec) * 1e9 + (to.tv_nsec - from.tv_nsec);
}

static void report(const char *name, struct timespec start, uint64_t calls, uint64_t sum) {
    struct timespec end;
    clock_gettime(CLOCK_MONOTONIC, &end);
    fprintf(stderr, "%s: %.1f ns\n", name, nanoseconds(start, end) / (double)calls);
    printf("%s: %llu\n", name, (unsigned long long)sum);
}

static uint64_t takes(const uint8_t *octets, unsigned n, unsigned rounds) {
    struct draw draw = start_of_draws;
    uint64_t sum = 0;
    for (unsigned round = 0; round < rounds; round++) {
        struct reader reader = {octets, OCTETS, 0, 8 * OCTETS};
        uint64_t number;
        if (skip(&reader, draw_next(&draw) % (8 * OCTETS)) && take(&reader, n, &number)) {
            sum += number;
        }
    }
    return sum;
}

static uint64_t puts_over(uint8_t *octets, unsigned passes) {
    struct draw draw = start_of_draws;
    uint64_t count = 0;
    for (unsigned pass = 0; pass < passes; pass++) {
        struct writer writer = {octets, OCTETS, 0};
        while (8 * OCTETS - writer.at >= 18) {
            uint64_t drawn = draw_next(&draw);
            put(&writer, drawn % 8, 0);
            put(&writer, 11, drawn / 8 % 2048);
            count++;
        }
    }
    return count;
}

static uint64_t sum_of(const uint8_t *octets) {
    uint64_t sum = 0;
    for (size_t i = 0; i < OCTETS; i++) {
        sum = sum * 31 + octets[i];
    }
    return sum;
}

int main(void) {
    static uint8_t octets[OCTETS];
    struct draw draw = start_of_draws;
    struct timespec start;
    for (size_t i = 0; i < OCTETS; i++) {
        octets[i] = (uint8_t)draw_next(&draw);
    }
    clock_gettime(CLOCK_MONOTONIC, &start);
    report("take of 11 bits", start, ROUNDS, takes(octets, 11, ROUNDS));
    clock_gettime(CLOCK_MONOTONIC, &start);
    report("read_num of 11 bits", start, ROUNDS, takes(octets, 11, ROUNDS));
    clock_gettime(CLOCK_MONOTONIC, &start);
    report("read_num of 32 bits", start, ROUNDS, takes(octets, 32, ROUNDS));
    clock_gettime(CLOCK_MONOTONIC, &start);
    uint64_t count = puts_over(octets, PASSES);
    report("put of 0 to 7 bits and put of 11 bits", start, count, sum_of(octets));
    return 0;
}
