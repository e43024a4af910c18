/* The C host: calls the library's four C functions, for a self-test, for the comparison and for timing. */

#include <stddef.h>
#include <stdint.h>

#include "crumbtrellis.h"

/* Own prototypes, because a compiler for another processor than its own may come without the C
   library's headers. The numbers are Linux's, the same on x86-64 and on Arm. */
long read(int file, void *to, size_t length);
long write(int file, const void *from, size_t length);
void *mmap(void *at, size_t length, int protection, int flags, int file, long offset);
int mprotect(void *at, size_t length, int protection);
void *memcpy(void *to, const void *from, size_t length);
void *memset(void *to, int byte, size_t length);
int memcmp(const void *one, const void *other, size_t length);
size_t strlen(const char *text);
int strcmp(const char *one, const char *other);
_Noreturn void _exit(int status);
struct host_time {
    long seconds;
    long nanoseconds;
};
int clock_gettime(int clock, struct host_time *time);

enum { PROTECT_NONE = 0, PROTECT_READ_WRITE = 3, MAP_OWN_ANONYMOUS = 0x22, CLOCK_OF_PROCESS = 2 };

/* A multiple of every page size in use. */
#define GUARD ((size_t)65536)
#define MOST_TAPE ((size_t)32 * GUARD)
#define MOST_TEXT GUARD

/* What *place and *value hold before a call, and *kind: an answer that was not written shows. */
#define UNWRITTEN UINT64_C(0xA5A5A5A5A5A5A5A5)
#define UNWRITTEN_KIND ((uint32_t)UNWRITTEN)

/* ---- saying things */

static void say(const char *text) {
    if (write(2, text, strlen(text)) < 0) {
        _exit(3);
    }
}

static void say_number(uint64_t number) {
    char digits[21];
    size_t at = sizeof digits - 1;
    digits[at] = 0;
    do {
        digits[--at] = (char)('0' + number % 10);
        number /= 10;
    } while (number != 0);
    say(digits + at);
}

static _Noreturn void fail(const char *why) {
    say("door: ");
    say(why);
    say("\n");
    _exit(1);
}

/* ---- lent memory */

/* Memory whose end is flush against an unreadable page: one byte past the end traps. */
struct lent {
    uint8_t *end;
    size_t room;
};

/* Bytes that are only read. */
struct slice {
    const uint8_t *bytes;
    size_t length;
};

static const struct slice nothing = {NULL, 0};

static struct lent lend(size_t room) {
    room = (room + GUARD - 1) / GUARD * GUARD;
    uint8_t *start = mmap(NULL, room + GUARD, PROTECT_READ_WRITE, MAP_OWN_ANONYMOUS, -1, 0);
    if ((uintptr_t)start == UINTPTR_MAX || mprotect(start + room, GUARD, PROTECT_NONE) != 0) {
        fail("no memory");
    }
    return (struct lent){start + room, room};
}

/* The last `length` bytes; no bytes at all are a null pointer. */
static uint8_t *last(struct lent memory, size_t length) {
    if (length > memory.room) {
        fail("more than there is room for");
    }
    return length == 0 ? NULL : memory.end - length;
}

/* A copy of `from` at the memory's end. */
static struct slice fill(struct lent memory, struct slice from) {
    uint8_t *to = last(memory, from.length);
    if (from.length != 0) {
        memcpy(to, from.bytes, from.length);
    }
    return (struct slice){to, from.length};
}

static int same(struct slice one, struct slice other) {
    return one.length == other.length && (one.length == 0 || memcmp(one.bytes, other.bytes, one.length) == 0);
}

static struct slice text_slice(const char *text) {
    return (struct slice){(const uint8_t *)text, strlen(text)};
}

/* ---- the self-test */

/* The kind is a speed's; any other value has kind 0. */
struct answer {
    uint64_t number;
    uint64_t place;
    uint64_t kind;
    uint64_t value;
};

static const struct answer unwritten = {0, UNWRITTEN, 0, UNWRITTEN};

static unsigned long tests;
static unsigned long faults;

static void say_answer(struct answer answer) {
    say("number ");
    say_number(answer.number);
    say(" place ");
    say_number(answer.place);
    if (answer.kind != 0) {
        say(" kind ");
        say_number(answer.kind);
    }
    say(" value ");
    say_number(answer.value);
}

static void expect_answer(const char *what, struct answer found, struct answer due) {
    tests += 1;
    if (memcmp(&found, &due, sizeof due) == 0) {
        return;
    }
    faults += 1;
    say("door: ");
    say(what);
    say(": found ");
    say_answer(found);
    say(", not ");
    say_answer(due);
    say("\n");
}

static void expect(const char *what, struct answer found, uint64_t number, uint64_t place, uint64_t value) {
    expect_answer(what, found, (struct answer){number, place, 0, value});
}

static void expect_true(const char *what, int holds) {
    tests += 1;
    if (!holds) {
        faults += 1;
        say("door: ");
        say(what);
        say("\n");
    }
}

/* What a count is handed. */
struct counted {
    uint32_t edition;
    struct slice shorthand;
    struct slice profile;
    struct slice tape;
};

static struct answer count_blocks(struct counted counted) {
    struct answer answer = unwritten;
    answer.number = crumbtrellis_count_blocks(counted.edition, counted.shorthand.bytes, counted.shorthand.length,
                                              counted.profile.bytes, counted.profile.length, counted.tape.bytes,
                                              counted.tape.length, &answer.place, &answer.value);
    return answer;
}

static struct answer speed_of(uint32_t digits, uint64_t code) {
    struct answer answer = unwritten;
    /* its neighbours show a number written too wide */
    uint32_t kind[3] = {UNWRITTEN_KIND, UNWRITTEN_KIND, UNWRITTEN_KIND};
    answer.number = crumbtrellis_speed_of(digits, code, &answer.place, &kind[1], &answer.value);
    if (kind[0] != UNWRITTEN_KIND || kind[2] != UNWRITTEN_KIND) {
        fail("what stands beside the kind was changed");
    }
    answer.kind = kind[1];
    return answer;
}

static struct answer code_of(uint32_t digits, uint32_t kind, uint64_t units) {
    struct answer answer = unwritten;
    answer.number = crumbtrellis_code_of(digits, kind, units, &answer.place, &answer.value);
    return answer;
}

static struct answer punch_head(uint8_t *buffer, size_t length) {
    struct answer answer = unwritten;
    answer.number = crumbtrellis_punch_head(buffer, length, &answer.place, &answer.value);
    return answer;
}

/* The row of a character: the eighth hole makes their number even. */
static uint8_t row(char character) {
    unsigned ones = 0;
    for (unsigned bits = (unsigned char)character; bits != 0; bits >>= 1) {
        ones += bits & 1U;
    }
    return (uint8_t)((unsigned char)character | (ones % 2U) << 7);
}

/* Lent memory for each slice of a count. */
struct desk {
    struct lent shorthand;
    struct lent profile;
    struct lent tape;
};

static struct desk lend_desk(void) {
    return (struct desk){lend(MOST_TEXT), lend(MOST_TEXT), lend(MOST_TAPE)};
}

/* The same with each slice flush against its guard. */
static struct counted laid_out(const struct desk *desk, struct counted from) {
    return (struct counted){from.edition, fill(desk->shorthand, from.shorthand), fill(desk->profile, from.profile),
                            fill(desk->tape, from.tape)};
}

static int unchanged(struct counted one, struct counted other) {
    return same(one.shorthand, other.shorthand) && same(one.profile, other.profile) && same(one.tape, other.tape);
}

/* Counts the blocks of `text` punched, with all slices flush against their guards and unchanged after. */
static void expect_under(const struct desk *desk, uint32_t edition, const char *format, const char *profile,
                         const char *text, uint64_t number, uint64_t place, uint64_t value) {
    uint8_t rows[256];
    size_t length = strlen(text);
    for (size_t at = 0; at < length; at += 1) {
        rows[at] = row(text[at]);
    }
    struct counted asked = {edition, text_slice(format), text_slice(profile), {rows, length}};
    struct counted lent = laid_out(desk, asked);
    expect(text, count_blocks(lent), number, place, value);
    expect_true("a lent slice was changed", unchanged(lent, asked));
}

/* The same without a profile. */
static void expect_count(const struct desk *desk, uint32_t edition, const char *format, const char *text,
                         uint64_t number, uint64_t place, uint64_t value) {
    expect_under(desk, edition, format, "", text, number, place, value);
}

static void test_counts(const struct desk *desk) {
    static const char format[] = "N3.G2.X+42.F3.M2*";
    expect_count(desk, 1057, format, "%\nN001\tG01\tX+012500\tF615\n/N002\t\tX-000250\n", 0, 0, 2);
    expect_count(desk, 1057, format, "%\n", 0, 0, 0);
    expect_count(desk, 1057, format, "%\r(CR THEN A REMARK\n)\n:001\t\t\t\t\n", 0, 0, 1);
    expect_count(desk, 2539, "N4X042Y+420*", "%\nN0001X5Y5\n", 0, 0, 1);
    expect_count(desk, 1058, format, "%\n", 1, 0, 0);
    expect_count(desk, 2539, "N3X+040*", "%\n", 2, 2, 0);
    expect_count(desk, 2539, "", "%\n", 2, 0, 0);
    expect_count(desk, 1057, "N3.X+042*", "%\n", 3, 2, 0);
    expect_count(desk, 1057, format, "%\n(A)B)", 7, 6, 0);
    expect_count(desk, 1057, format, "", 8, 0, 0);
    expect_count(desk, 1057, format, "%", 8, 1, 0);
    expect_count(desk, 1057, format, "%\nN01\n", 9, 5, 0);
    expect_count(desk, 1057, format, "%\nN001G01\n", 10, 6, 0);
    expect_count(desk, 1057, format, "%\nN001\tG1\n", 11, 9, 0);
    expect_count(desk, 1057, format, "%\nN001\t\tX000000\n", 12, 9, 0);
    expect_count(desk, 1057, format, "%\nN001\t\t\tF100\n", 13, 9, 0);
    expect_count(desk, 1057, format, "%\nN001", 14, 6, 0);

    /* speeds of two digits, none of which gives 13 */
    expect_count(desk, 2539, "N3.F2.S2*", "%\nN001\tF00\tS99\nN002\tF10\n", 0, 0, 2);
    expect_count(desk, 2539, "N3.F2.S2*", "%\nN001\tF100\n", 11, 10, 0);
    expect_count(desk, 1057, "N3.F2*", "%\n", 3, 2, 0);
    expect_count(desk, 1057, "N3.F3.S2*", "%\n", 3, 5, 0);
    expect_count(desk, 2539, "N3.E2*", "%\n", 2, 2, 0);
    expect_count(desk, 1057, "N3.D2*", "%\n", 2, 2, 0);

    /* blocks without number, which only 2539 has, and with neither number nor word, which none has */
    expect_count(desk, 2539, "N3X+042*", "%\nX5\nN007X6\n/X7\n", 0, 0, 3);
    expect_count(desk, 2539, "N3X+042*", "%\n\n", 9, 2, 0);
    expect_count(desk, 2539, "N3X+042*", "%\n/\n", 9, 3, 0);
    expect_count(desk, 2539, "N3X+042*", "%\n\r\n", 9, 3, 0);
    expect_count(desk, 2539, "N3X+042*", "%\n\rX5\n", 10, 2, 0);
    expect_count(desk, 2539, "N3X+042*", "%\nX5\n\r", 14, 6, 0);
    expect_count(desk, 2539, "N3X+042*", "%\n:X5\n", 9, 3, 0);
    expect_count(desk, 2539, "N3.X+042*", "%\n\tX5\n", 0, 0, 1);
    expect_count(desk, 2539, "N3.X+042*", "%\nX5\n", 9, 2, 0);
    expect_count(desk, 2539, "N3.X+042*", "%\n\t\n", 9, 3, 0);
    expect_count(desk, 1057, "N3.X+42*", "%\n\tX+000005\n", 9, 2, 0);

    static const uint8_t odd[] = {165, 10, 37};
    static const uint8_t unknown[] = {165, 10, 33};
    struct counted asked = {1057, text_slice(format), nothing, {odd, 3}};
    expect("an odd row", count_blocks(laid_out(desk, asked)), 5, 2, 0);
    asked.tape.bytes = unknown;
    expect("an unknown row", count_blocks(laid_out(desk, asked)), 6, 2, 0);
}

/* A profile that agrees, that doesn't, and out of form; and words without addresses. */
static void test_profiles(const struct desk *desk) {
    static const char format[] = "N3.G2.X+042*";
    expect_under(desk, 2539, "N3.G2.X+42.Y+32.Z31.B33.F3.S3.T2.M2*", "LSMD442A", "%\n", 0, 0, 0);
    expect_under(desk, 2539, "N3.G2.X+42.Y+32.Z31.F3.S3.T2.M2*", "LSMD442A", "%\n", 23, 0, 0);
    expect_under(desk, 1057, "N3.X+42*", "IPM111", "%\nN001\tX+000000\n", 0, 0, 1);
    expect_under(desk, 1057, "N3.X+42*", "IPM 111 ", "%\n", 0, 0, 0);
    expect_under(desk, 1057, "N3.X+42*", "IPM11", "%\n", 22, 5, 0);
    expect_under(desk, 1057, "N3.X+42*", "IPX111", "%\n", 22, 2, 0);
    expect_under(desk, 1057, "N3.X+42*", "IPM1111", "%\n", 22, 6, 0);
    expect_under(desk, 1057, "N3.X+42*", "IPM121", "%\n", 23, 0, 0);

    expect_under(desk, 2539, format, "LTM110A", "%\nN001\t01\t5\nN002\t\t-0\nN003\t\t\n", 0, 0, 3);
    expect_under(desk, 2539, format, "LTM110A", "%\nN004\tG01\n", 10, 7, 0);
    expect_under(desk, 2539, format, "LTM110A", "%\nN004\t\t\t\n", 10, 8, 0);
    expect_under(desk, 2539, format, "LTM110A", "%\nN005\t\t+\n", 11, 9, 0);
    expect_under(desk, 2539, format, "LTM110A", "%\nN005\t+01\n", 12, 7, 0);
    expect_under(desk, 2539, "N3.F3*", "LTM000A", "%\nN006\t605\n", 13, 7, 0);
    expect_under(desk, 2539, format, "LTM110A", "%\nN007\t01\t", 14, 10, 0);
    expect_under(desk, 2539, format, "", "%\nN008\t01\n", 10, 7, 0);
    expect_under(desk, 2539, format, "LTM110A", "%\n\t01\n/\t\t5\n", 0, 0, 2);
    expect_under(desk, 2539, format, "LTM110A", "%\n5\n", 9, 2, 0);
    expect_under(desk, 2539, format, "LTM110A", "%\n\t\t\n", 9, 4, 0);

    /* before the tape, and after edition and shorthand */
    expect_under(desk, 2539, format, "LTM110", "", 22, 6, 0);
    expect_under(desk, 2539, format, "LTM111I", "", 23, 0, 0);
    expect_under(desk, 2538, format, "LTM110", "", 1, 0, 0);
    expect_under(desk, 2539, "N3.G2", "LTM110", "", 2, 5, 0);
    expect_under(desk, 1057, format, "LTM110", "", 3, 5, 0);
}

/* Null pointers with length 0, empty slices that are not null, and the longest tapes. */
static void test_edges(const struct desk *desk) {
    struct slice shorthand = fill(desk->shorthand, text_slice("N3*"));
    struct slice no_shorthand = {desk->shorthand.end, 0};
    struct slice no_profile = {desk->profile.end, 0};
    struct slice no_tape = {desk->tape.end, 0};
    expect("no shorthand, no tape", count_blocks((struct counted){1057, nothing, nothing, nothing}), 2, 0, 0);
    expect("no tape", count_blocks((struct counted){1057, shorthand, nothing, nothing}), 8, 0, 0);
    expect("an empty tape", count_blocks((struct counted){1057, shorthand, nothing, no_tape}), 8, 0, 0);
    expect("an empty profile", count_blocks((struct counted){1057, shorthand, no_profile, no_tape}), 8, 0, 0);
    expect("an empty shorthand", count_blocks((struct counted){2539, no_shorthand, no_profile, no_tape}), 2, 0, 0);
    expect("no edition", count_blocks((struct counted){0, nothing, nothing, nothing}), 1, 0, 0);
    expect("the greatest edition", count_blocks((struct counted){UINT32_MAX, nothing, nothing, nothing}), 1, 0, 0);

    uint8_t *tape = last(desk->tape, 1000001);
    for (size_t at = 0; at < 1000001; at += 1) {
        tape[at] = 0;
    }
    struct counted asked = {1057, shorthand, nothing, {tape, 1000001}};
    expect("a tape too long", count_blocks(asked), 4, 1000000, 0);
    asked.profile = fill(desk->profile, text_slice("ILI001"));
    expect("a tape too long, and no agreement", count_blocks(asked), 23, 0, 0);
    asked.profile = nothing;
    asked.tape = (struct slice){tape + 1, 1000000};
    expect("the longest tape, without a head", count_blocks(asked), 8, 1000000, 0);
    tape[999999] = row('%');
    tape[1000000] = row('\n');
    expect("the longest tape", count_blocks(asked), 0, 0, 0);
    memset(last(desk->profile, MOST_TEXT), ' ', MOST_TEXT);
    asked.profile = (struct slice){last(desk->profile, MOST_TEXT), MOST_TEXT};
    expect("a long profile", count_blocks(asked), 22, 0, 0);
}

static void test_speeds(void) {
    expect("717", speed_of(3, 717), 0, 0, UINT64_C(17000000000));
    expect("046", speed_of(3, 46), 0, 0, 4600);
    expect("000, a rate of zero", speed_of(3, 0), 0, 0, 0);
    expect("99999", speed_of(5, 99999), 0, 0, UINT64_C(9999000000000));
    expect("100", speed_of(3, 100), 13, 0, 0);
    expect("1000 in three", speed_of(3, 1000), 21, 0, 0);
    expect("a code of no digits", speed_of(0, 0), 21, 0, 0);
    expect("a code of one", speed_of(1, 0), 21, 0, 0);
    expect("a code of six", speed_of(6, 0), 21, 0, 0);
    expect("the greatest code", speed_of(UINT32_MAX, UINT64_MAX), 21, 0, 0);
}

static void test_codes(void) {
    enum { RATE = CRUMBTRELLIS_RATE };
    expect("152,500,000", code_of(4, RATE, 152500000), 0, 0, 5153);
    expect("99,600,000", code_of(3, RATE, 99600000), 0, 0, 510);
    expect("995", code_of(3, RATE, 995), 0, 0, 10);
    expect("nothing", code_of(5, RATE, 0), 0, 0, 0);
    expect("994", code_of(3, RATE, 994), 20, 0, 0);
    expect("9,949,999,999,999", code_of(3, RATE, UINT64_C(9949999999999)), 0, 0, 999);
    expect("9,950,000,000,000", code_of(3, RATE, UINT64_C(9950000000000)), 20, 0, 0);
    expect("the greatest rate", code_of(5, RATE, UINT64_MAX), 20, 0, 0);
    expect("one digit", code_of(1, RATE, 995), 21, 0, 0);
    expect("the most digits", code_of(UINT32_MAX, RATE, 0), 21, 0, 0);
    for (uint32_t digits = 3; digits <= 5; digits += 1) {
        expect("a stop in three to five", code_of(digits, CRUMBTRELLIS_STOP, 0), 20, 0, 0);
        expect("a rapid in three to five", code_of(digits, CRUMBTRELLIS_RAPID, 0), 20, 0, 0);
    }
}

/* Neither kind nor units is written before a call, so that a success and a refusal have to write both. */
static void test_two_digit_speeds(void) {
    expect("46", speed_of(2, 46), 0, 0, UINT64_C(2000000000));
    expect("01", speed_of(2, 1), 0, 0, 11200000);
    expect("98", speed_of(2, 98), 0, 0, UINT64_C(800000000000));
    expect_answer("00", speed_of(2, 0), (struct answer){0, 0, CRUMBTRELLIS_STOP, 0});
    expect_answer("99", speed_of(2, 99), (struct answer){0, 0, CRUMBTRELLIS_RAPID, 0});
    expect("100 in two", speed_of(2, 100), 21, 0, 0);
    for (uint64_t code = 1; code <= 98; code += 1) {
        struct answer speed = speed_of(2, code);
        expect_true("a code of two digits is no rate's", speed.number == 0 && speed.kind == CRUMBTRELLIS_RATE);
        expect("a code that comes back", code_of(2, CRUMBTRELLIS_RATE, speed.value), 0, 0, code);
    }
}

static void test_two_digit_codes(void) {
    enum { RATE = CRUMBTRELLIS_RATE, STOP = CRUMBTRELLIS_STOP, RAPID = CRUMBTRELLIS_RAPID };
    expect("11,850,000", code_of(2, RATE, 11850000), 0, 0, 2);
    expect("11,849,999", code_of(2, RATE, 11849999), 0, 0, 1);
    expect("11,200,000", code_of(2, RATE, 11200000), 0, 0, 1);
    expect("11,199,999", code_of(2, RATE, 11199999), 20, 0, 0);
    expect("no rate in two", code_of(2, RATE, 0), 20, 0, 0);
    expect("800,000,000,000", code_of(2, RATE, UINT64_C(800000000000)), 0, 0, 98);
    expect("800,000,000,001", code_of(2, RATE, UINT64_C(800000000001)), 20, 0, 0);
    expect("a stop", code_of(2, STOP, 0), 0, 0, 0);
    expect("a rapid", code_of(2, RAPID, 0), 0, 0, 99);

    expect("a stop with units", code_of(2, STOP, 1), 20, 0, 0);
    expect("a rapid with units", code_of(2, RAPID, UINT64_MAX), 20, 0, 0);
    expect("no kind", code_of(2, 3, 0), 20, 0, 0);
    expect("no kind, with a rate's units", code_of(3, 3, 4600), 20, 0, 0);
    expect("the greatest kind", code_of(2, UINT32_MAX, UINT64_MAX), 20, 0, 0);
    expect("no kind in one digit", code_of(1, 3, 0), 21, 0, 0);
    expect("a stop with units in six", code_of(6, STOP, 1), 21, 0, 0);
}

/* The byte that a lent buffer has at `at` before a call. */
static uint8_t before(uint64_t first, size_t at) {
    return (uint8_t)(first + at);
}

static uint8_t *lend_buffer(struct lent memory, size_t length, uint64_t first) {
    uint8_t *buffer = last(memory, length);
    for (size_t at = 0; at < length; at += 1) {
        buffer[at] = before(first, at);
    }
    return buffer;
}

static void test_heads(struct lent memory) {
    enum { BEFORE = 90 };
    expect("a head nowhere", punch_head(NULL, 0), 19, 2, 0);
    expect("a head in an empty slice", punch_head(memory.end, 0), 19, 2, 0);
    for (size_t length = 1; length <= 16; length += 1) {
        uint8_t *buffer = lend_buffer(memory, length, BEFORE);
        int fits = length >= 2;
        expect("a head", punch_head(buffer, length), fits ? 0 : 19, fits ? 0 : 2, fits ? 2 : 0);
        expect_true("the head's rows", !fits || (buffer[0] == 165 && buffer[1] == 10));
        for (size_t at = fits ? 2 : 0; at < length; at += 1) {
            expect_true("a row past the head was changed", buffer[at] == before(BEFORE, at));
        }
    }
}

static int selftest(void) {
    struct desk desk = lend_desk();
    test_counts(&desk);
    test_profiles(&desk);
    test_edges(&desk);
    test_speeds();
    test_codes();
    test_two_digit_speeds();
    test_two_digit_codes();
    test_heads(desk.tape);
    say("door: ");
    say_number(tests - faults);
    say(" of ");
    say_number(tests);
    say(" tests passed\n");
    return faults == 0 ? 0 : 1;
}

/* ---- serving requests */

/* A request is six numbers and, for a count, the bytes of the shorthand, of the profile and of the tape, whose
   lengths are the last numbers before the repeats. The answer is five numbers and, for a head, the whole buffer.
   Numbers are 8 bytes, lowest first. */
enum { COUNT = 1, SPEED = 2, CODE = 3, HEAD = 4 };
enum { OPERATION, FIRST, SECOND, THIRD, FOURTH, REPEATS, REQUEST };
enum { NUMBER, PLACE, KIND, VALUE, NANOSECONDS, ANSWER };

static uint8_t input[65536];
static size_t input_at, input_end;
static uint8_t output[65536];
static size_t output_end;

static void flush(void) {
    size_t at = 0;
    while (at < output_end) {
        long written = write(1, output + at, output_end - at);
        if (written <= 0) {
            fail("nobody takes the answers");
        }
        at += (size_t)written;
    }
    output_end = 0;
}

static void put(const void *from, size_t length) {
    const uint8_t *bytes = from;
    for (size_t at = 0; at < length; at += 1) {
        if (output_end == sizeof output) {
            flush();
        }
        output[output_end++] = bytes[at];
    }
}

/* Takes up to `length` bytes of the standard input: fewer only where it ends. */
static size_t get(void *to, size_t length) {
    uint8_t *bytes = to;
    size_t got = 0;
    while (got < length) {
        if (input_at == input_end) {
            /* whoever waits for answers must have them before more is asked for */
            flush();
            long found = read(0, input, sizeof input);
            if (found <= 0) {
                break;
            }
            input_at = 0;
            input_end = (size_t)found;
        }
        size_t part = input_end - input_at < length - got ? input_end - input_at : length - got;
        memcpy(bytes + got, input + input_at, part);
        input_at += part;
        got += part;
    }
    return got;
}

/* The processor's time spent on this process, so that what else the machine does is not counted. */
static uint64_t now(void) {
    struct host_time time = {0, 0};
    if (clock_gettime(CLOCK_OF_PROCESS, &time) != 0) {
        fail("no clock");
    }
    return (uint64_t)time.seconds * 1000000000U + (uint64_t)time.nanoseconds;
}

/* Counts `repeats` times and keeps the shortest time. */
static struct answer timed_count(struct counted counted, uint64_t repeats, uint64_t *shortest) {
    struct answer answer = unwritten;
    *shortest = UINT64_MAX;
    for (uint64_t run = 0; run < repeats; run += 1) {
        uint64_t start = now();
        answer = count_blocks(counted);
        uint64_t time = now() - start;
        if (time < *shortest) {
            *shortest = time;
        }
    }
    return answer;
}

/* What is lent to the library, and the requests' own bytes beside it. */
struct service {
    struct desk lent;
    struct desk copies;
};

static struct slice take_slice(struct lent memory, uint64_t length) {
    if (length > memory.room || get(memory.end - memory.room, (size_t)length) != length) {
        fail("a request is cut short");
    }
    return (struct slice){memory.end - memory.room, (size_t)length};
}

static struct answer serve_count(const struct service *service, const uint64_t *request, uint64_t *nanoseconds) {
    struct counted asked = {(uint32_t)request[FIRST], nothing, nothing, nothing};
    asked.shorthand = take_slice(service->copies.shorthand, request[SECOND]);
    asked.profile = take_slice(service->copies.profile, request[THIRD]);
    asked.tape = take_slice(service->copies.tape, request[FOURTH]);
    struct counted lent = laid_out(&service->lent, asked);
    struct answer answer;
    if (request[REPEATS] == 0) {
        answer = count_blocks(lent);
    } else {
        answer = timed_count(lent, request[REPEATS], nanoseconds);
    }
    if (!unchanged(lent, asked)) {
        fail("a lent slice was changed");
    }
    return answer;
}

static void put_answer(struct answer answer, uint64_t nanoseconds) {
    uint64_t numbers[ANSWER] = {answer.number, answer.place, answer.kind, answer.value, nanoseconds};
    put(numbers, sizeof numbers);
}

static void serve_one(const struct service *service, const uint64_t *request) {
    uint64_t nanoseconds = 0;
    struct answer answer;
    switch (request[OPERATION]) {
    case COUNT:
        answer = serve_count(service, request, &nanoseconds);
        put_answer(answer, nanoseconds);
        break;
    case SPEED:
        put_answer(speed_of((uint32_t)request[FIRST], request[SECOND]), 0);
        break;
    case CODE:
        put_answer(code_of((uint32_t)request[FIRST], (uint32_t)request[SECOND], request[THIRD]), 0);
        break;
    case HEAD: {
        size_t length = (size_t)request[FIRST];
        uint8_t *buffer = lend_buffer(service->lent.tape, length, request[SECOND]);
        put_answer(punch_head(buffer, length), 0);
        put(buffer, length);
        break;
    }
    default:
        fail("a request of no kind");
    }
}

static int serve(void) {
    struct service service = {lend_desk(), lend_desk()};
    uint64_t request[REQUEST];
    size_t got;
    while ((got = get(request, sizeof request)) == sizeof request) {
        serve_one(&service, request);
    }
    flush();
    return got == 0 ? 0 : 1;
}

/* ---- one tape by hand: its time, and the fetches of its rows */

/* The standard input is the listing program's: edition, a space, the shorthand, LF, the rows. */
static struct counted take_tape(const char *profile) {
    struct lent memory = lend(MOST_TAPE);
    uint8_t *text = memory.end - memory.room;
    size_t length = get(text, memory.room);
    uint32_t edition = 0;
    size_t at = 0;
    for (; at < length && text[at] >= '0' && text[at] <= '9'; at += 1) {
        edition = edition * 10U + (uint32_t)(text[at] - '0');
    }
    size_t shorthand = at + 1;
    while (at < length && text[at] != '\n') {
        at += 1;
    }
    if (at >= length || at < shorthand) {
        fail("no edition and shorthand");
    }
    return (struct counted){edition, {text + shorthand, at - shorthand}, text_slice(profile),
                            {text + at + 1, length - at - 1}};
}

static int bench(const char *profile, uint64_t repeats) {
    uint64_t shortest;
    say_answer(timed_count(take_tape(profile), repeats, &shortest));
    say(", nanoseconds ");
    say_number(shortest);
    say("\n");
    return 0;
}

/* How often each row of the tape was fetched, and whether any load is told at all. */
static struct slice watched;
static uint32_t fetched[MOST_TAPE];
static int told;

static void fetch(const void *from, size_t length) {
    told = 1;
    for (size_t byte = 0; byte < length; byte += 1) {
        uintptr_t row = (uintptr_t)from + byte - (uintptr_t)watched.bytes;
        if (row < watched.length) {
            fetched[row] += 1;
        }
    }
}

/* In a library that `host/native fetches` has built, every load calls the one of its width first. */
void __sanitizer_cov_load1(const void *from) { fetch(from, 1); }
void __sanitizer_cov_load2(const void *from) { fetch(from, 2); }
void __sanitizer_cov_load4(const void *from) { fetch(from, 4); }
void __sanitizer_cov_load8(const void *from) { fetch(from, 8); }
void __sanitizer_cov_load16(const void *from) { fetch(from, 16); }

static void count_fetches(const char *what, struct counted counted) {
    memset(fetched, 0, sizeof fetched);
    watched = counted.tape;
    struct answer answer = count_blocks(counted);
    watched = nothing;
    if (!told) {
        fail("no load is told: the library is not one of host/native fetches");
    }
    uint64_t all = 0, most = 0;
    for (size_t row = 0; row < counted.tape.length; row += 1) {
        all += fetched[row];
        most = fetched[row] > most ? fetched[row] : most;
    }
    say(what);
    say(": rows ");
    say_number(counted.tape.length);
    say(", fetches ");
    say_number(all);
    say(", of one row at most ");
    say_number(most);
    say(", ");
    say_answer(answer);
    say("\n");
}

/* The tape as it is, and with its first or last row changed, so that a refusal tells how far the first three stages came. */
static int fetches(const char *profile) {
    enum { OPENS = 40, CLOSES = 169, FOREIGN = 3, ODD = 1, KEPT = -1 };
    static const struct {
        const char *what;
        int first, last;
    } tapes[] = {
        {"as it is", KEPT, KEPT},
        {"\"(\" last", KEPT, OPENS},
        {"an odd row last", KEPT, ODD},
        {"a foreign row first", FOREIGN, KEPT},
        {"a foreign row first, an odd one last", FOREIGN, ODD},
        {"\")\" first", CLOSES, KEPT},
        {"\")\" first, a foreign row last", CLOSES, FOREIGN},
        {"\"(\" first, an odd row last", OPENS, ODD},
    };
    struct counted counted = take_tape(profile);
    struct slice tape = fill(lend(MOST_TAPE), counted.tape);
    uint8_t *rows = (uint8_t *)tape.bytes;
    if (tape.length == 0) {
        fail("a tape of no rows");
    }
    for (size_t at = 0; at < sizeof tapes / sizeof tapes[0]; at += 1) {
        memcpy(rows, counted.tape.bytes, tape.length);
        rows[0] = tapes[at].first == KEPT ? rows[0] : (uint8_t)tapes[at].first;
        rows[tape.length - 1] = tapes[at].last == KEPT ? rows[tape.length - 1] : (uint8_t)tapes[at].last;
        count_fetches(tapes[at].what, (struct counted){counted.edition, counted.shorthand, counted.profile, tape});
    }
    return 0;
}

int main(int count, char **words) {
    if (count == 2 && strcmp(words[1], "selftest") == 0) {
        return selftest();
    }
    if (count == 2 && strcmp(words[1], "serve") == 0) {
        return serve();
    }
    if ((count == 2 || count == 3) && strcmp(words[1], "bench") == 0) {
        return bench(count == 3 ? words[2] : "", 20);
    }
    if ((count == 2 || count == 3) && strcmp(words[1], "fetches") == 0) {
        return fetches(count == 3 ? words[2] : "");
    }
    fail("say selftest, serve, bench or fetches");
}
