// Digests of what the x86-64 code of chars_c answers, for machines that have to emulate it: compare/src/bin/digest.rs prints the same lines
// from Rust's own answers, and tools/compare holds one to the other. No C library: it stands alone, with the system's calls.
typedef unsigned char u8;
typedef unsigned int u32;
typedef unsigned long u64;

typedef struct {
    u32 status, scalar;
    u64 next;
} HayStep;

_Bool hay_is_alphabetic(u32 c);
_Bool hay_is_numeric(u32 c);
u64 hay_valid_up_to(const u8 *text, u64 len);
HayStep hay_step(const u8 *text, u64 len, u64 at);

static long call(long number, long a, long b, long c) {
    long answer;
    __asm__ volatile("syscall" : "=a"(answer) : "a"(number), "D"(a), "S"(b), "d"(c) : "rcx", "r11", "memory");
    return answer;
}

static const u64 START = 14695981039346656037UL;
static u64 digest = START;

static void eat(u64 answer) {
    digest = (digest ^ answer) * 1099511628211UL;
    digest ^= digest >> 29;
}

static void show(const char *name) {
    char line[64];
    int at = 0;
    while (name[at]) { line[at] = name[at]; at++; }
    line[at++] = ' ';
    for (int place = 60; place >= 0; place -= 4) line[at++] = "0123456789abcdef"[(digest >> place) & 15];
    line[at++] = '\n';
    call(1, 1, (long)line, at);
    digest = START;
}

static u64 encode(u32 c, u8 *out) {
    if (c < 0x80) { out[0] = c; return 1; }
    if (c < 0x800) { out[0] = 0xC0 | c >> 6; out[1] = 0x80 | (c & 63); return 2; }
    if (c < 0x10000) { out[0] = 0xE0 | c >> 12; out[1] = 0x80 | (c >> 6 & 63); out[2] = 0x80 | (c & 63); return 3; }
    out[0] = 0xF0 | c >> 18; out[1] = 0x80 | (c >> 12 & 63); out[2] = 0x80 | (c >> 6 & 63); out[3] = 0x80 | (c & 63);
    return 4;
}

static const u8 BYTES[] = {0x00, 0x41, 0x7F, 0x80, 0x8F, 0x90, 0x9F, 0xA0, 0xBF, 0xC0, 0xC1, 0xC2, 0xDF, 0xE0, 0xE1, 0xEC, 0xED,
                           0xEE, 0xEF, 0xF0, 0xF1, 0xF3, 0xF4, 0xF5, 0xF7, 0xF8, 0xFE, 0xFF};
enum { COUNT = sizeof BYTES };

static int surrogate(u32 c) { return 0xD800 <= c && c <= 0xDFFF; }

void run(void) {
    u8 text[4];
    for (u32 c = 0; c <= 0x10FFFF; c++)
        if (!surrogate(c)) eat(hay_is_alphabetic(c) * 2 + hay_is_numeric(c));
    show("classes of every scalar value:");
    for (u32 c = 0; c <= 0x10FFFF; c++)
        if (!surrogate(c)) {
            HayStep step = hay_step(text, encode(c, text), 0);
            eat(step.status); eat(step.scalar); eat(step.next);
        }
    show("step at every scalar value:");
    for (int a = 0; a < 256; a++)
        for (int b = 0; b < 256; b++)
            for (int c = 0; c < 256; c++) {
                text[0] = a; text[1] = b; text[2] = c;
                eat(hay_valid_up_to(text, 3));
            }
    show("validity of every three bytes:");
    for (int a = 0; a < COUNT; a++)
        for (int b = 0; b < COUNT; b++)
            for (int c = 0; c < COUNT; c++)
                for (int d = 0; d < COUNT; d++) {
                    text[0] = BYTES[a]; text[1] = BYTES[b]; text[2] = BYTES[c]; text[3] = BYTES[d];
                    eat(hay_valid_up_to(text, 4));
                }
    show("validity of four bytes beside the limits:");
    call(60, 0, 0, 0);
}

__asm__(".globl _start\n_start: xor %ebp, %ebp\n and $-16, %rsp\n call run\n");
