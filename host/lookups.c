/* Times the index of a tape's blocks: building it against counting, and blocks through it against the plain walk; and saving a tape against counting. */

#include <stddef.h>
#include <stdint.h>

/* Own prototypes, as in door.c. */
long read(int file, void *to, size_t length);
long write(int file, const void *from, size_t length);
size_t strlen(const char *text);
_Noreturn void _exit(int status);
struct host_time {
    long seconds;
    long nanoseconds;
};
int clock_gettime(int clock, struct host_time *time);

enum { CLOCK_OF_PROCESS = 2, ROUNDS = 15, LOOKUPS = 10000, WALKS = 10 };

/* The functions that host/lookups builds over the library: how many blocks or words there are, and 0 of what is refused. */
uint64_t lookups_count(uint32_t edition, const uint8_t *shorthand, size_t shorthand_length, const uint8_t *profile,
                       size_t profile_length, const uint8_t *tape, size_t rows);
uint64_t lookups_build(uint32_t edition, const uint8_t *shorthand, size_t shorthand_length, const uint8_t *profile,
                       size_t profile_length, const uint8_t *tape, size_t rows, size_t *firsts, size_t firsts_length,
                       uint64_t *numbers, size_t numbers_length);
uint64_t lookups_walk(uint32_t edition, const uint8_t *shorthand, size_t shorthand_length, const uint8_t *profile,
                      size_t profile_length, const uint8_t *tape, size_t rows, size_t n);
uint64_t lookups_block(uint32_t edition, const uint8_t *shorthand, size_t shorthand_length, const uint8_t *profile,
                       size_t profile_length, const uint8_t *tape, size_t rows, const size_t *firsts, size_t count, size_t n);
uint64_t lookups_save(uint32_t edition, const uint8_t *shorthand, size_t shorthand_length, const uint8_t *profile,
                      size_t profile_length, uint8_t *tape, size_t rows, size_t *firsts, size_t firsts_length, size_t *sizes,
                      size_t sizes_length, uint32_t *refusals, size_t refusals_length);
uint64_t lookups_number(const uint64_t *numbers, size_t count, uint64_t sequence);

static void say(const char *text) {
    if (write(1, text, strlen(text)) < 0) {
        _exit(3);
    }
}

static void say_number(uint64_t number) {
    char digits[21];
    size_t at = sizeof digits - 1;
    digits[at] = 0;
    do {
        digits[--at] = (char)('0' + number % 10);
        number /= 10;
    } while (number != 0);
    say(digits + at);
}

static _Noreturn void fail(const char *why) {
    say("lookups: ");
    say(why);
    say("\n");
    _exit(1);
}

static uint64_t now(void) {
    struct host_time time;
    if (clock_gettime(CLOCK_OF_PROCESS, &time) != 0) {
        fail("no clock");
    }
    return (uint64_t)time.seconds * 1000000000U + (uint64_t)time.nanoseconds;
}

/* The standard input is the listing program's: edition, a space, the shorthand, LF, the rows. */
enum { MOST = 1001000 };
static uint8_t text[MOST];
static size_t firsts[200000];
static uint64_t numbers[200000];
enum { PLACES = sizeof firsts / sizeof firsts[0] };

/* A tape to be saved, laid out anew for each saving, and the lists of its losses. */
static uint8_t worn[MOST];
static uint8_t image[MOST];
static size_t losses[MOST], sizes[MOST];
static uint32_t refusals[MOST];

struct asked {
    uint32_t edition;
    const uint8_t *shorthand, *profile, *tape;
    size_t shorthand_length, profile_length, rows, blocks;
};

static struct asked take_tape(const char *profile) {
    size_t length = 0;
    for (long got = 1; got > 0 && length < MOST; length += (size_t)got) {
        got = read(0, text + length, MOST - length);
        got = got < 0 ? 0 : got;
    }
    struct asked asked = {0, NULL, (const uint8_t *)profile, NULL, 0, strlen(profile), 0, 0};
    size_t at = 0;
    for (; at < length && text[at] >= '0' && text[at] <= '9'; at += 1) {
        asked.edition = asked.edition * 10U + (uint32_t)(text[at] - '0');
    }
    asked.shorthand = text + at + 1;
    while (at < length && text[at] != '\n') {
        at += 1;
    }
    if (at >= length || text + at < asked.shorthand) {
        fail("no edition and shorthand");
    }
    asked.shorthand_length = (size_t)(text + at - asked.shorthand);
    asked.tape = text + at + 1;
    asked.rows = length - at - 1;
    return asked;
}

/* What is timed: each answers a number, so that no call can be left out. */
typedef uint64_t work(const struct asked *asked, size_t n);

static uint64_t count(const struct asked *asked, size_t n) {
    (void)n;
    return lookups_count(asked->edition, asked->shorthand, asked->shorthand_length, asked->profile, asked->profile_length,
                         asked->tape, asked->rows);
}

static uint64_t build(const struct asked *asked, size_t n) {
    (void)n;
    return lookups_build(asked->edition, asked->shorthand, asked->shorthand_length, asked->profile, asked->profile_length,
                         asked->tape, asked->rows, firsts, PLACES, numbers, PLACES);
}

static uint64_t walk(const struct asked *asked, size_t n) {
    return lookups_walk(asked->edition, asked->shorthand, asked->shorthand_length, asked->profile, asked->profile_length,
                        asked->tape, asked->rows, n);
}

static uint64_t find(const struct asked *asked, size_t n) {
    return lookups_block(asked->edition, asked->shorthand, asked->shorthand_length, asked->profile, asked->profile_length,
                         asked->tape, asked->rows, firsts, asked->blocks, n);
}

static uint64_t find_often(const struct asked *asked, size_t n) {
    uint64_t all = 0;
    for (size_t at = 0; at < LOOKUPS; at += 1) {
        all += find(asked, n);
    }
    return all;
}

/* One of the blocks that are looked for all over the tape. */
static size_t anywhere(const struct asked *asked, size_t at) {
    return (size_t)(at * UINT64_C(2654435761) % asked->blocks);
}

static uint64_t walk_anywhere(const struct asked *asked, size_t n) {
    uint64_t all = 0;
    for (size_t at = 0; at < WALKS; at += 1) {
        all += walk(asked, anywhere(asked, n + at));
    }
    return all;
}

static uint64_t find_anywhere(const struct asked *asked, size_t n) {
    uint64_t all = 0;
    for (size_t at = 0; at < LOOKUPS; at += 1) {
        all += find(asked, anywhere(asked, n + at));
    }
    return all;
}

static uint64_t find_none(const struct asked *asked, size_t n) {
    return lookups_number(numbers, asked->blocks, UINT64_MAX - 1 - n);
}

static void compare(const struct asked *asked, size_t n, const char *shorter, work *fast, uint64_t fast_calls,
                    const char *longer, work *slow, uint64_t slow_calls);

/* Saving is timed with a copy of the tape, which it changes. */
static uint64_t save(const struct asked *asked, size_t n) {
    (void)n;
    for (size_t at = 0; at < asked->rows; at += 1) {
        image[at] = worn[at];
    }
    return lookups_save(asked->edition, asked->shorthand, asked->shorthand_length, asked->profile, asked->profile_length, image,
                        asked->rows, losses, MOST, sizes, MOST, refusals, MOST);
}

/* How many pieces are lost of the tape that stands to be saved, said before the times. */
static void save_against_count(const struct asked *asked, const char *what) {
    say(what);
    say_number(save(asked, 0));
    compare(asked, 0, " pieces lost; counting the tape: ", count, 1, "; saving: ", save, 1);
}

/* The time of one of the calls that a work makes, in thousandths of a nanosecond. */
static uint64_t timed(work *work, const struct asked *asked, size_t n, uint64_t calls) {
    static volatile uint64_t kept;
    uint64_t start = now();
    kept += work(asked, n);
    return (now() - start) * 1000 / calls;
}

static void sort(uint64_t *list) {
    for (size_t at = 1; at < ROUNDS; at += 1) {
        for (size_t to = at; to > 0 && list[to] < list[to - 1]; to -= 1) {
            uint64_t less = list[to];
            list[to] = list[to - 1];
            list[to - 1] = less;
        }
    }
}

/* The shortest and the middle one, in nanoseconds. */
static void say_times(const char *what, uint64_t *times) {
    sort(times);
    say(what);
    say_number(times[0] / 1000);
    say(", ");
    say_number(times[ROUNDS / 2] / 1000);
}

static uint64_t ratio(uint64_t over, uint64_t under) {
    return under == 0 ? 0 : over * 100 / under;
}

/* Said of a number of hundredths. */
static void say_ratio(uint64_t hundredths) {
    say_number(hundredths / 100);
    say(hundredths % 100 < 10 ? ".0" : ".");
    say_number(hundredths % 100);
}

/* Both in turns, as a machine's speed changes; then the ratio of the shortest times and the middle one of the rounds' ratios. */
static void compare(const struct asked *asked, size_t n, const char *shorter, work *fast, uint64_t fast_calls,
                    const char *longer, work *slow, uint64_t slow_calls) {
    uint64_t fasts[ROUNDS], slows[ROUNDS], ratios[ROUNDS];
    for (size_t round = 0; round < ROUNDS; round += 1) {
        fasts[round] = timed(fast, asked, n, fast_calls);
        slows[round] = timed(slow, asked, n, slow_calls);
        ratios[round] = ratio(slows[round], fasts[round]);
    }
    sort(ratios);
    say_times(shorter, fasts);
    say_times(longer, slows);
    say("; ratio ");
    say_ratio(ratio(slows[0], fasts[0]));
    say(", ");
    say_ratio(ratios[ROUNDS / 2]);
    say("\n");
}

int main(int words, char **word) {
    struct asked asked = take_tape(words > 1 ? word[1] : "");
    asked.blocks = (size_t)build(&asked, 0);
    if (asked.blocks == 0 || asked.blocks != count(&asked, 0)) {
        fail("the tape is refused, or has no block");
    }
    say_number(asked.rows);
    say(" rows, ");
    say_number(asked.blocks);
    say(" blocks\n");
    compare(&asked, 0, "counting: ", count, 1, "; building: ", build, 1);
    size_t places[] = {0, asked.blocks / 2, asked.blocks - 1};
    for (size_t at = 0; at < sizeof places / sizeof places[0]; at += 1) {
        if (walk(&asked, places[at]) != find(&asked, places[at])) {
            fail("the walk and the index find two blocks");
        }
        say("block ");
        say_number(places[at]);
        compare(&asked, places[at], ", through the index: ", find_often, LOOKUPS, "; by the walk: ", walk, 1);
    }
    compare(&asked, 0, "a block of 10000 anywhere, through the index: ", find_anywhere, LOOKUPS, "; by the walk: ",
            walk_anywhere, WALKS);
    uint64_t none[ROUNDS];
    for (size_t round = 0; round < ROUNDS; round += 1) {
        none[round] = timed(find_none, &asked, round, 1);
    }
    say_times("a number that no block has: ", none);
    say("\n");
    for (size_t at = 0; at < asked.rows; at += 1) {
        worn[at] = asked.tape[at];
    }
    save_against_count(&asked, "sound: ");
    for (size_t at = 100; at < asked.rows; at += 100) {
        worn[at] ^= 1;
    }
    save_against_count(&asked, "an odd row in each hundred: ");
    size_t head = 0;
    while (worn[head] != '\n') {
        head += 1;
    }
    for (size_t at = head; at < asked.rows; at += 1) {
        worn[at] = '\n';
    }
    save_against_count(&asked, "LF alone behind the head: ");
    return 0;
}
