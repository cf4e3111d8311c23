/* The calls through include/hayrumble.h, from C, on statements of document 01: a shape, a stop, each refusal; kinds by their names; buffers at the edge of
 * what the header allows. `tools/compare` builds and runs it. */
#include "../include/hayrumble.h"
#include <stdio.h>
#include <string.h>

static int wrong;

static void expect(const char *what, hay_answer got, hay_answer want) {
    if (memcmp(&got, &want, sizeof got) != 0) {
        wrong++;
        printf("header: DIFFERENT: %s: refusal %llu detail %llu tokens %llu stop %llu exposed %llu length %llu\n", what,
               (unsigned long long)got.refusal, (unsigned long long)got.detail, (unsigned long long)got.tokens, (unsigned long long)got.stop,
               (unsigned long long)got.exposed, (unsigned long long)got.length);
    }
}

static hay_answer refused(uint64_t refusal, uint64_t detail) {
    hay_answer answer = {refusal, detail, 0, 0, 0, 0};
    return answer;
}

static void shape(const char *statement, const char *shape, hay_answer want) {
    uint32_t slots[300] = {0};
    uint8_t out[100] = {0};
    hay_answer got = hay_sanitize_string((const uint8_t *)statement, strlen(statement), slots, 300, out, 100);
    expect(statement, got, want);
    if (got.length != strlen(shape) || memcmp(out, shape, strlen(shape)) != 0) {
        wrong++;
        printf("header: DIFFERENT: %s: %.*s\n", statement, (int)got.length, out);
    }
}

static void kinds(const char *statement, const uint32_t *want, size_t count) {
    uint32_t slots[300] = {0};
    hay_answer got = hay_lex((const uint8_t *)statement, strlen(statement), slots, 300);
    for (size_t place = 0; place < count || place < got.tokens; place++) {
        if (place >= count || place >= got.tokens || slots[place * 3] != want[place]) {
            wrong++;
            printf("header: DIFFERENT: %s: kind %u at place %zu\n", statement, (unsigned)slots[place * 3], place);
        }
    }
}

int main(void) {
    static uint8_t text[1048577];
    uint32_t slots[30] = {0};
    uint8_t out[30] = {0};
    memset(text, 'a', sizeof text);
    shape("a =< 1", "a <= ?", (hay_answer){0, 0, 5, 6, 0, 6});
    shape("a ! b", "a ", (hay_answer){0, 0, 2, 2, 0, 2});
    shape("k IN ((1,2),(3,4))", "k IN ((?),(3,4))", (hay_answer){0, 0, 17, 18, 2, 16});
    expect("1", hay_sanitize_string(text, sizeof text, slots, 30, out, 30), refused(1, 1048577));
    expect("2", hay_sanitize_string((const uint8_t *)"a\xff", 2, slots, 30, out, 30), refused(2, 1));
    expect("3", hay_sanitize_string((const uint8_t *)"a b c", 5, slots, 14, out, 30), refused(3, 5));
    expect("7", hay_sanitize_string((const uint8_t *)"a b c", 5, slots, 15, out, 4), refused(7, 5));
    expect("lex", hay_lex((const uint8_t *)"a 1", 3, slots, 9), (hay_answer){0, 0, 3, 3, 0, 0});
    expect("write", hay_write((const uint8_t *)"a 1", 3, slots, 9, 3, out, 30), (hay_answer){0, 0, 0, 0, 0, 3});
    expect("sanitize", hay_sanitize(slots, 9, 3), (hay_answer){0, 0, 0, 0, 1, 0});
    expect("4", hay_sanitize(slots, 8, 3), refused(4, 2));
    slots[3] = 84;
    expect("5", hay_sanitize(slots, 9, 3), refused(5, 1));
    kinds("select from*`a`", (uint32_t[]){HAY_SELECT, HAY_SPACE, HAY_FROM, HAY_MULTIPLY, HAY_BACKTICKED}, 5);
    kinds("x'f'=<$1;\t", (uint32_t[]){HAY_X, HAY_SINGLE_QUOTED, HAY_EQUAL_OR_LESS_THAN, HAY_NUMBERED_PLACEHOLDER, HAY_SEMICOLON, HAY_UNKNOWN}, 6);
    /* no text, no slots and no output: any pointers that are not null and aligned */
    expect("nothing lent", hay_sanitize_string(text, 0, slots, 0, out, 0), (hay_answer){0, 0, 0, 0, 0, 0});
    /* a text from any byte on; as many slots as bytes suffice where each byte is a token; what is only read may overlap */
    expect("as many slots as bytes", hay_lex((const uint8_t *)"x(((((((((("+1, 10, slots, 30), (hay_answer){0, 0, 10, 10, 0, 0});
    expect("read twice", hay_write((const uint8_t *)slots, 3, slots, 30, 1, out, 30), (hay_answer){0, 0, 0, 0, 0, 1});
    printf("header: the calls through include/hayrumble.h from C: %d differences\n", wrong);
    return wrong != 0;
}
