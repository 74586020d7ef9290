/* Text and numbers as petalbuzz tells them: any bytes, for a reader and as JSON. */
#ifndef HOST_TEXT_H
#define HOST_TEXT_H

#include "record.h"
#include <stdint.h>

/* The length of the UTF-8 character at the start of a run, and its number; 0 if
 * there is none. */
static inline size_t character(const uint8_t *at, size_t n, uint32_t *code) {
    static const uint32_t least[] = {0, 0, 0x80, 0x800, 0x10000};
    size_t len = at[0] < 0x80 ? 1 : at[0] < 0xE0 ? 2 : at[0] < 0xF0 ? 3 : 4;
    *code = at[0];
    if (len == 1) return 1;
    if (at[0] < 0xC0 || at[0] > 0xF4 || len > n) return 0;
    *code = at[0] & (0xFFu >> (len + 1));
    for (size_t i = 1; i < len; i++) {
        if ((at[i] & 0xC0) != 0x80) return 0;
        *code = *code << 6 | (at[i] & 0x3Fu);
    }
    int half = *code >= 0xD800 && *code < 0xE000;
    return *code < least[len] || *code > 0x10FFFF || half ? 0 : len;
}

/* Characters that do not reach a screen, since they act on it, turn the direction
 * of what is read, show nothing or pass for a blank: Unicode's classes Cc, Cf,
 * Zl, Zp and Zs without the blank itself, and what it lets a screen ignore. */
static inline int is_unseen(uint32_t code) {
    static const uint32_t ranges[][2] = {
        {0x00, 0x1F},       {0x7F, 0xA0},       {0xAD, 0xAD},       {0x34F, 0x34F},
        {0x600, 0x605},     {0x61C, 0x61C},     {0x6DD, 0x6DD},     {0x70F, 0x70F},
        {0x890, 0x891},     {0x8E2, 0x8E2},     {0x115F, 0x1160},   {0x1680, 0x1680},
        {0x17B4, 0x17B5},   {0x180B, 0x180F},   {0x2000, 0x200F},   {0x2028, 0x202F},
        {0x205F, 0x206F},   {0x2800, 0x2800},   {0x3000, 0x3000},   {0x3164, 0x3164},
        {0xFE00, 0xFE0F},   {0xFEFF, 0xFEFF},   {0xFFA0, 0xFFA0},   {0xFFF0, 0xFFFB},
        {0x110BD, 0x110BD}, {0x110CD, 0x110CD}, {0x13430, 0x1343F}, {0x1BCA0, 0x1BCA3},
        {0x1D173, 0x1D17A}, {0xE0000, 0xE0FFF},
    };
    if (code >= 0x20 && code < 0x7F) return 0;
    for (size_t i = 0; i < sizeof ranges / sizeof ranges[0]; i++)
        if (code <= ranges[i][1]) return code >= ranges[i][0];
    return 0;
}

static inline void add_hex(struct record *to, const char *before, const uint8_t *from, size_t n) {
    static const char digits[] = "0123456789abcdef";
    for (size_t i = 0; i < n; i++) {
        char pair[2] = {digits[from[i] >> 4], digits[from[i] & 15]};
        add(to, before);
        add_bytes(to, pair, 2);
    }
}

/* What stands at the start of a run, and how long it is: characters that print as
 * they are, one of the two that JSON marks, one that is not to be seen, or a byte
 * that begins no character. */
enum piece { PLAIN, MARKED, UNSEEN, NO_CHARACTER };
static inline enum piece piece(const uint8_t *at, size_t n, size_t *len, uint32_t *code) {
    for (*len = 0; *len < n; ++*len) {
        *code = at[*len];
        if (*code < 0x20 || *code >= 0x7F || *code == '"' || *code == '\\') break;
    }
    if (*len > 0) return PLAIN;
    *len = character(at, n, code);
    if (*len == 0) {
        *len = 1;
        return NO_CHARACTER;
    }
    return *code == '"' || *code == '\\' ? MARKED : is_unseen(*code) ? UNSEEN : PLAIN;
}

/* Adds any bytes for a reader: a byte that does not print is \xHH. */
static inline void add_text(struct record *to, const void *from, size_t n) {
    const uint8_t *text = from;
    uint32_t code;
    for (size_t i = 0, len; i < n; i += len) {
        enum piece next = piece(text + i, n - i, &len, &code);
        if (next == UNSEEN || next == NO_CHARACTER)
            add_hex(to, "\\x", text + i, len);
        else {
            if (code == '\\' && next == MARKED) add(to, "\\");
            add_bytes(to, text + i, len);
        }
    }
}

/* Adds \uHHHH, or a pair of these for a number above FFFF. */
static inline void add_escaped(struct record *to, uint32_t code) {
    if (code > 0xFFFF) {
        add_escaped(to, 0xD7C0 + (code >> 10));
        code = 0xDC00 | (code & 0x3FF);
    }
    uint8_t bytes[2] = {(uint8_t)(code >> 8), (uint8_t)code};
    add(to, "\\u");
    add_hex(to, "", bytes, 2);
}

/* Adds ,"name_hex":"bytes" for bytes that JSON cannot show. */
static inline void add_hex_member(struct record *to, const char *name, const void *from, size_t n) {
    add(to, ",\"");
    add(to, name);
    add(to, "_hex\":\"");
    add_hex(to, "", from, n);
    add(to, "\"");
}

/* Adds "name":"text" of any bytes. A byte that is not UTF-8 is U+FFFD there,
 * and "name_hex" then has all bytes. */
static inline void add_member(struct record *to, const char *name, const void *from, size_t n) {
    const uint8_t *text = from;
    uint32_t code;
    int other = 0;
    add(to, "\"");
    add(to, name);
    add(to, "\":\"");
    for (size_t i = 0, len; i < n; i += len) {
        enum piece next = piece(text + i, n - i, &len, &code);
        if (next == NO_CHARACTER) other = 1;
        if (next == UNSEEN || next == NO_CHARACTER)
            add_escaped(to, next == UNSEEN ? code : 0xFFFD);
        else {
            if (next == MARKED) add(to, "\\");
            add_bytes(to, text + i, len);
        }
    }
    add(to, "\"");
    if (other) add_hex_member(to, name, from, n);
}

static inline int is_number(double value) { return value - value == 0; }

/* Adds the shortest of 15 to 17 digits that reads back as the same double. */
static inline void add_double(struct record *to, double value) {
    char text[32];
    for (int digits = 15; digits <= 17; digits++) {
        snprintf(text, sizeof text, "%.*g", digits, value);
        if (strtod(text, NULL) == value) break;
    }
    add(to, text);
    if (!strpbrk(text, ".en")) add(to, ".0");
}

#endif
