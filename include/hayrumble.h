/* Hayrumble for C: the shape of an SQL statement, and the three stages that make it.
 *
 * Link with libsql_lexer_c.a (`tools/archive sql_lexer_c` prints its folder). Every call that keeps to what is said here answers, whatever the
 * bytes and words lent to it hold. It reads and writes only the memory that is lent to it, keeps no state and allocates nothing, so calls may be
 * made from several threads at once, each with memory of its own.
 *
 * What the caller sees to:
 *   - A pointer is not null, also where its length is 0; there it may be any other, as long as it is aligned.
 *   - `slots` is aligned for uint32_t, as any array of uint32_t is. Text and output may start at any byte.
 *   - Behind a pointer lie as many bytes, or words, as its length says. All of them hold some value: an array without an initialiser is cleared
 *     first. They stay as they are until the call returns, but for what the call itself writes.
 *   - Memory that a call may write (`slots` and `out` without const) overlaps no other memory lent to the same call. What is only read may.
 *   - Lengths are at most PTRDIFF_MAX bytes, as those of C's objects are.
 *
 * A slot is three words: the kind's number (hay_kind) and two words that go with it. `words` counts words, so 9 words hold 3 tokens, and 8 hold 2.
 * As many slots as the text has bytes, 3 words a byte, always suffice: each token takes a byte or more of it.
 */
#ifndef HAYRUMBLE_H
#define HAYRUMBLE_H

#include <stddef.h>
#include <stdint.h>

#ifdef __cplusplus
extern "C" {
#endif

/* The kinds of tokens. HAY_OTHER and HAY_CHARSET to HAY_NUMBERED_PLACEHOLDER carry the byte offsets at which their text starts and ends, HAY_UNKNOWN
 * its character and 0, all others 0 and 0. */
typedef enum {
    /* blanked by the sanitiser */
    HAY_NONE = 0,
    /* single characters */
    HAY_SPACE = 1, HAY_NEWLINE = 2, HAY_DOT = 3, HAY_COMMA = 4, HAY_WILDCARD = 5, HAY_PARENTHESE_OPEN = 6,
    HAY_PARENTHESE_CLOSE = 7, HAY_SQUARE_BRACKET_OPEN = 8, HAY_SQUARE_BRACKET_CLOSE = 9, HAY_COLON = 10, HAY_SEMICOLON = 11,
    /* put in by the sanitiser, and values that are words */
    HAY_PLACEHOLDER = 12, HAY_ELLIPSIS = 13, HAY_NULL = 14, HAY_TRUE = 15, HAY_FALSE = 16,
    /* operators: arithmetic */
    HAY_MULTIPLY = 17, HAY_DIVIDE = 18, HAY_MODULO = 19, HAY_PLUS = 20, HAY_MINUS = 21,
    /* logical */
    HAY_IN = 22, HAY_NOT = 23, HAY_LIKE = 24, HAY_ILIKE = 25, HAY_RLIKE = 26, HAY_GLOB = 27, HAY_MATCH = 28, HAY_REGEXP = 29,
    HAY_THEN = 30, HAY_ELSE = 31,
    /* comparison */
    HAY_EQUAL = 32, HAY_EQUAL2 = 33, HAY_NULL_SAFE_EQUAL = 34, HAY_GREATER_THAN_OR_EQUAL = 35, HAY_LESS_THAN_OR_EQUAL = 36,
    HAY_EQUAL_OR_GREATER_THAN = 37, HAY_EQUAL_OR_LESS_THAN = 38, HAY_EQUAL_WITH_ARROWS = 39, HAY_NOT_EQUAL = 40,
    HAY_GREATER_THAN = 41, HAY_LESS_THAN = 42,
    /* bitwise, and those of JSON */
    HAY_LEFT_SHIFT = 43, HAY_RIGHT_SHIFT = 44, HAY_BITWISE_AND = 45, HAY_BITWISE_OR = 46, HAY_SPECIFIED_PATH = 47,
    HAY_SPECIFIED_PATH_AS_TEXT = 48,
    /* words */
    HAY_SELECT = 49, HAY_FROM = 50, HAY_WHERE = 51, HAY_AND = 52, HAY_OR = 53, HAY_UPDATE = 54, HAY_SET = 55, HAY_INSERT = 56,
    HAY_INTO = 57, HAY_VALUES = 58, HAY_INNER = 59, HAY_JOIN = 60, HAY_ON = 61, HAY_LIMIT = 62, HAY_OFFSET = 63,
    HAY_BETWEEN = 64, HAY_ARRAY = 65,
    /* any other word: carries its offsets */
    HAY_OTHER = 66,
    /* what may stand before a value */
    HAY_BINARY = 67, HAY_DATE = 68, HAY_TIME = 69, HAY_TIMESTAMP = 70, HAY_X = 71, HAY_ZERO_X = 72, HAY_B = 73, HAY_ZERO_B = 74,
    HAY_N = 75,
    /* carry their offsets */
    HAY_CHARSET = 76, HAY_BACKTICKED = 77, HAY_DOUBLE_QUOTED = 78, HAY_SINGLE_QUOTED = 79, HAY_NUMERIC = 80, HAY_COMMENT = 81,
    HAY_NUMBERED_PLACEHOLDER = 82,
    /* any other character: carries it */
    HAY_UNKNOWN = 83
} hay_kind;

/* An answer. refusal 0: answered, and the fields that the call has are set. Else why it was refused, and its detail:
 *   1  the text is over 1,048,576 bytes                       its length
 *   2  the text is not valid UTF-8 (RFC 3629)                 the offset of the first byte of the first bad sequence
 *   3  fewer whole slots than tokens read                     the tokens needed
 *   4  the count is over 1,048,576 or over the whole slots    the whole slots
 *   5  a slot is not well formed                              its place
 *   6  a slice starts or ends inside a character              the first such place
 *   7  the text written is longer than the output             the bytes needed
 * A refusal changes no buffer, except 7 of hay_sanitize_string: the tokens are then sanitised in their slots.
 * Fields that an answer does not have are 0. */
typedef struct {
    uint64_t refusal, detail; /* 0, 0 where answered */
    uint64_t tokens;          /* hay_lex, hay_sanitize_string: the tokens read */
    uint64_t stop;            /* the same two: the text's length, or where an unrecognised run of operators starts */
    uint64_t exposed;         /* hay_sanitize, hay_sanitize_string: quoted texts and numbers left in the list */
    uint64_t length;          /* hay_write, hay_sanitize_string: the bytes written */
} hay_answer;

#if defined(__x86_64__)

/* Reads a statement into slots. */
hay_answer hay_lex(const uint8_t *text, size_t text_len, uint32_t *slots, size_t words);

/* Sanitises the first `count` slots. */
hay_answer hay_sanitize(uint32_t *slots, size_t words, size_t count);

/* Writes the first `count` slots as text. */
hay_answer hay_write(const uint8_t *text, size_t text_len, const uint32_t *slots, size_t words, size_t count, uint8_t *out, size_t out_len);

/* The shape of a statement: the three in one. */
hay_answer hay_sanitize_string(const uint8_t *text, size_t text_len, uint32_t *slots, size_t words, uint8_t *out, size_t out_len);

#else

/* The toolchain compiles for x86-64, where an answer of this size goes through a pointer before the other arguments. The same module compiled
 * for another processor keeps that order, so there the calls are declared so, and these wrappers give them the form above. The names of the
 * library's functions are bound by the assembler name. */
void hay_into_lex(hay_answer *, const uint8_t *, size_t, uint32_t *, size_t) __asm__("hay_lex");
void hay_into_sanitize(hay_answer *, uint32_t *, size_t, size_t) __asm__("hay_sanitize");
void hay_into_write(hay_answer *, const uint8_t *, size_t, const uint32_t *, size_t, size_t, uint8_t *, size_t) __asm__("hay_write");
void hay_into_sanitize_string(hay_answer *, const uint8_t *, size_t, uint32_t *, size_t, uint8_t *, size_t) __asm__("hay_sanitize_string");

static inline hay_answer hay_call_lex(const uint8_t *text, size_t text_len, uint32_t *slots, size_t words) {
    hay_answer answer;
    hay_into_lex(&answer, text, text_len, slots, words);
    return answer;
}

static inline hay_answer hay_call_sanitize(uint32_t *slots, size_t words, size_t count) {
    hay_answer answer;
    hay_into_sanitize(&answer, slots, words, count);
    return answer;
}

static inline hay_answer hay_call_write(const uint8_t *text, size_t text_len, const uint32_t *slots, size_t words, size_t count, uint8_t *out,
                                        size_t out_len) {
    hay_answer answer;
    hay_into_write(&answer, text, text_len, slots, words, count, out, out_len);
    return answer;
}

static inline hay_answer hay_call_sanitize_string(const uint8_t *text, size_t text_len, uint32_t *slots, size_t words, uint8_t *out,
                                                  size_t out_len) {
    hay_answer answer;
    hay_into_sanitize_string(&answer, text, text_len, slots, words, out, out_len);
    return answer;
}

#define hay_lex hay_call_lex
#define hay_sanitize hay_call_sanitize
#define hay_write hay_call_write
#define hay_sanitize_string hay_call_sanitize_string

#endif

#ifdef __cplusplus
}
#endif

#endif
