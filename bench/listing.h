/* What the scanners of flex and re2c have beside their rules: a text in memory, the lines of its items, and the files one behind the other.

   It is meant to be as fast as such a printer can be, so that nothing flatters lx: the digits of the line and the high ones of the start are kept from
   item to item, and bytes are tested and copied 16 at a time. So up to 16 bytes behind a text are read, and behind what is printed written. */
#include <emmintrin.h>
#include <fcntl.h>
#include <stdint.h>
#include <stdlib.h>
#include <string.h>
#include <sys/stat.h>
#include <unistd.h>

enum {
    OUTPUT_BYTES = 1 << 16,
    /* An item's line without its text: the kind, three numbers and what is between. */
    FRONT_BYTES = 1 << 10,
    ESCAPED_BYTES = 4,
    FILE_NUMBER_BYTES = 8,
    NUMBER_BYTES = 32,
    BLOCK_BYTES = 16,
    /* Behind a text: two zeros that flex wants, of which re2c wants one, and what is read with its last block. */
    BEHIND_TEXT = 2 + BLOCK_BYTES,
    /* The digits of a start below these are made anew for each item. */
    LOW_STARTS = 10000,
    READY_LENGTHS = 100,
};

#define LIKELY(condition) __builtin_expect(!!(condition), 1)
#define UNLIKELY(condition) __builtin_expect(!!(condition), 0)

/* A number in digits, and what may stand behind it; so many bytes count. */
struct digits {
    char bytes[NUMBER_BYTES];
    size_t length;
};

static unsigned char *text;
static size_t text_room;
static size_t line;
/* The number of the file and a blank. All eight bytes are copied, which takes no loop, and so many of them count. */
static char file_number[FILE_NUMBER_BYTES];
static size_t file_number_length;
/* The line of the item before and a blank, and the start of that item without its last four digits. */
static struct digits line_digits, high_digits;
static size_t line_kept, high_kept;
/* A length and a blank, as four bytes. */
static uint32_t ready_lengths[READY_LENGTHS];
static char output[OUTPUT_BYTES + BLOCK_BYTES];
static char *next = output;

static const unsigned char is_plain[256] = {[' ' ... '['] = 1, [']' ... '~'] = 1};

static const char digit_pairs[] =
    "00010203040506070809101112131415161718192021222324252627282930313233343536373839404142434445464748495051525354555657585960616263646566676869"
    "707172737475767778798081828384858687888990919293949596979899";

static void fail(int status, const char *message)
{
    ssize_t ignored = write(2, message, strlen(message));
    (void)ignored;
    exit(status);
}

/* Reads a file, and gives its size. Behind its bytes are zeros. */
static size_t read_text(const char *name)
{
    struct stat status;
    size_t size, filled = 0;
    int file = open(name, O_RDONLY);
    if (file < 0 || fstat(file, &status) != 0)
        fail(3, "no file to read\n");
    size = status.st_size;
    if (size + BEHIND_TEXT > text_room) {
        free(text);
        text_room = size + BEHIND_TEXT;
        text = malloc(text_room);
    }
    if (text == NULL)
        fail(5, "out of memory\n");
    while (filled < size) {
        ssize_t got = read(file, text + filled, size - filled);
        if (got <= 0)
            fail(3, "cannot read\n");
        filled += got;
    }
    close(file);
    memset(text + size, 0, BEHIND_TEXT);
    return size;
}

static void write_out(void)
{
    const char *from = output;
    while (from < next) {
        ssize_t written = write(1, from, next - from);
        if (written <= 0)
            fail(4, "cannot write\n");
        from += written;
    }
    next = output;
}

/* Puts a number without zeros before it. */
static char *put_digits(char *to, size_t number)
{
    char digits[NUMBER_BYTES];
    size_t at = NUMBER_BYTES;
    for (; number >= 100; number /= 100)
        memcpy(digits + (at -= 2), digit_pairs + number % 100 * 2, 2);
    if (number >= 10)
        memcpy(digits + (at -= 2), digit_pairs + number * 2, 2);
    else
        digits[--at] = '0' + number;
    memcpy(to, digits + at, NUMBER_BYTES - at);
    return to + (NUMBER_BYTES - at);
}

static char *put_number(char *to, size_t number)
{
    to = put_digits(to, number);
    *to = ' ';
    return to + 1;
}

static void make_ready_lengths(void)
{
    for (size_t length = 0; length < READY_LENGTHS; length++) {
        char digits[NUMBER_BYTES] = {0};
        put_number(digits, length);
        memcpy(&ready_lengths[length], digits, sizeof ready_lengths[length]);
    }
}

/* Keeps the digits of the line: those of the line before, raised by one, where that takes no further digit. */
static __attribute__((noinline)) void keep_line(void)
{
    if (line == line_kept + 1) {
        char *digit = line_digits.bytes + line_digits.length - 2;
        while (digit >= line_digits.bytes && *digit == '9')
            *digit-- = '0';
        if (digit >= line_digits.bytes) {
            ++*digit;
            line_kept = line;
            return;
        }
    }
    line_digits.length = put_number(line_digits.bytes, line) - line_digits.bytes;
    line_kept = line;
}

static __attribute__((noinline)) void keep_high(size_t high)
{
    high_digits.length = high ? put_digits(high_digits.bytes, high) - high_digits.bytes : 0;
    high_kept = high;
}

static void begin_file(size_t number)
{
    char digits[32];
    file_number_length = put_number(digits, number) - digits;
    if (file_number_length > FILE_NUMBER_BYTES)
        fail(2, "too many files\n");
    memcpy(file_number, digits, FILE_NUMBER_BYTES);
    line = 1;
    line_kept = 0;
    keep_line();
    keep_high(0);
}

static inline void copy_block(void *to, const void *from)
{
    _mm_storeu_si128(to, _mm_loadu_si128(from));
}

/* A bit for each of 16 bytes that is escaped. Bytes from 128 on are below 32 as signed ones. */
static inline unsigned escaped_in_block(const void *from)
{
    __m128i block = _mm_loadu_si128(from);
    __m128i control = _mm_or_si128(_mm_cmplt_epi8(block, _mm_set1_epi8(' ')), _mm_cmpeq_epi8(block, _mm_set1_epi8(127)));
    return _mm_movemask_epi8(_mm_or_si128(control, _mm_cmpeq_epi8(block, _mm_set1_epi8('\\'))));
}

static char *put_escaped(char *to, unsigned char byte)
{
    static const char digits[] = "0123456789ABCDEF";
    *to++ = '\\';
    if (byte == '\\') {
        *to++ = '\\';
    } else {
        *to++ = 'x';
        *to++ = digits[byte >> 4];
        *to++ = digits[byte & 15];
    }
    return to;
}

/* Puts a text byte by byte, and counts its newlines, which are among the bytes that are escaped. */
static __attribute__((noinline)) char *put_bytes(char *to, const unsigned char *from, const unsigned char *end)
{
    for (;;) {
        size_t room = (output + OUTPUT_BYTES - to - 1) / ESCAPED_BYTES;
        const unsigned char *stop = (size_t)(end - from) <= room ? end : from + room;
        while (from < stop) {
            unsigned char byte = *from++;
            if (is_plain[byte]) {
                *to++ = byte;
            } else {
                to = put_escaped(to, byte);
                line += byte == '\n';
            }
        }
        if (from == end)
            return to;
        next = to;
        write_out();
        to = next;
    }
}

/* Puts a text a block at a time, while nothing in it is escaped and there is room. */
static inline __attribute__((always_inline)) char *put_text(char *to, const unsigned char *from, const unsigned char *end)
{
    while (end - from > BLOCK_BYTES && to < output + OUTPUT_BYTES - 2 * BLOCK_BYTES) {
        copy_block(to, from);
        if (UNLIKELY(escaped_in_block(from)))
            return put_bytes(to, from, end);
        from += BLOCK_BYTES;
        to += BLOCK_BYTES;
    }
    if (UNLIKELY(end - from > BLOCK_BYTES))
        return put_bytes(to, from, end);
    copy_block(to, from);
    if (UNLIKELY(escaped_in_block(from) & ((1u << (end - from)) - 1)))
        return put_bytes(to, from, end);
    return to + (end - from);
}

/* Puts the numbers and the text of an item. */
static inline __attribute__((always_inline)) void list_rest(char *to, const unsigned char *from, const unsigned char *end)
{
    size_t start = from - text, length = end - from, low = start - high_kept * LOW_STARTS;
    if (line != line_kept)
        keep_line();
    copy_block(to, line_digits.bytes);
    to += line_digits.length;
    if (UNLIKELY(low >= LOW_STARTS)) {
        keep_high(start / LOW_STARTS);
        low = start % LOW_STARTS;
    }
    if (LIKELY(high_digits.length)) {
        uint32_t front = (uint32_t)low / 100;
        copy_block(to, high_digits.bytes);
        to += high_digits.length;
        memcpy(to, digit_pairs + front * 2, 2);
        memcpy(to + 2, digit_pairs + ((uint32_t)low - front * 100) * 2, 2);
        to += 4;
    } else {
        to = put_digits(to, low);
    }
    *to++ = ' ';
    if (LIKELY(length < READY_LENGTHS)) {
        memcpy(to, &ready_lengths[length], sizeof ready_lengths[length]);
        to += 2 + (length >= 10);
    } else {
        to = put_number(to, length);
    }
    to = put_text(to, from, end);
    *to++ = '\n';
    next = to;
}

/* Lists the item from `start` to `end`, whose class and kind are in a literal: so many bytes are copied without a loop. */
#define LIST(kind, start, end)                                                       \
    do {                                                                             \
        static const char front[] = kind " ";                                        \
        char *to;                                                                    \
        _Static_assert(sizeof front + 64 <= FRONT_BYTES, "a kind with a long name"); \
        if (next > output + OUTPUT_BYTES - FRONT_BYTES)                              \
            write_out();                                                             \
        memcpy(next, file_number, FILE_NUMBER_BYTES);                                \
        to = next + file_number_length;                                              \
        memcpy(to, front, sizeof front - 1);                                         \
        list_rest(to + sizeof front - 1, start, end);                                \
    } while (0)

/* A block of these from place 16 - n on has n ones, and zeros behind them. */
static const unsigned char ones[2 * BLOCK_BYTES] = {[0 ... BLOCK_BYTES - 1] = 1};

/* Counts the newlines of a text that isn't listed. */
static inline void count_lines(const unsigned char *from, const unsigned char *end)
{
    __m128i newline = _mm_set1_epi8('\n'), zero = _mm_setzero_si128(), count = zero;
    for (; UNLIKELY(end - from > BLOCK_BYTES); from += BLOCK_BYTES) {
        __m128i found = _mm_cmpeq_epi8(_mm_loadu_si128((const __m128i *)from), newline);
        count = _mm_add_epi64(count, _mm_sad_epu8(_mm_and_si128(found, _mm_set1_epi8(1)), zero));
    }
    __m128i counted = _mm_loadu_si128((const __m128i *)(ones + BLOCK_BYTES - (end - from)));
    __m128i found = _mm_cmpeq_epi8(_mm_loadu_si128((const __m128i *)from), newline);
    count = _mm_add_epi64(count, _mm_sad_epu8(_mm_and_si128(found, counted), zero));
    line += _mm_cvtsi128_si64(count) + _mm_cvtsi128_si64(_mm_srli_si128(count, 8));
}

/* Lists the items of the text, which has so many bytes. It stands behind the rules. */
static void scan_text(size_t size);

/* The first file has the number 0, or FIRST: [-nFIRST] FILE.. */
int main(int count, char **words)
{
    int place = 1;
    size_t number = 0;
    if (count > 1 && strncmp(words[1], "-n", 2) == 0)
        number = strtoul(words[place++] + 2, NULL, 10);
    if (place == count)
        fail(2, "no file to read\n");
    make_ready_lengths();
    for (; place < count; place++, number++) {
        size_t size = read_text(words[place]);
        begin_file(number);
        scan_text(size);
    }
    write_out();
    return 0;
}
