/* A lexer of WGSL by hand, for comparison: the least that reading a text takes. Tokens of 12 bytes, interned names, template lists.

   usage: lexer RUNS < TEXT      prints how many tokens the text has, how many of them begin a template list, and the least time of so many
                                 runs in nanoseconds; memory is asked for once, before the first run */
#include <stdint.h>
#include <stdio.h>
#include <stdlib.h>
#include <string.h>
#include <time.h>

typedef struct {
    uint32_t start, name;
    uint16_t length;
    uint8_t kind, in_template;
} Token;

enum { NAME, NUMBER, MARK, FAULT };

static uint8_t class_of[256]; /* 1: begins a name, 2: a digit, 4: a blank */
static const char *text;
static uint32_t size, token_count, name_count, list_count;
static Token *tokens;
static uint32_t *slots, slot_mask; /* a name's number and one, or none */
static Token *names;

static uint32_t intern(uint32_t start, uint32_t length) {
    uint32_t hash = 2166136261u;
    for (uint32_t i = 0; i < length; i++)
        hash = (hash ^ (uint8_t)text[start + i]) * 16777619u;
    for (uint32_t at = hash & slot_mask;; at = (at + 1) & slot_mask) {
        if (slots[at] == 0) {
            names[name_count] = (Token){.start = start, .length = (uint16_t)length};
            slots[at] = ++name_count;
            return name_count;
        }
        Token it = names[slots[at] - 1];
        if (it.length == (uint16_t)length && memcmp(text + it.start, text + start, length) == 0)
            return slots[at];
    }
}

/* Behind blanks and comments; block comments may stand in one another. */
static uint32_t blanks(uint32_t at) {
    for (;;) {
        while (class_of[(uint8_t)text[at]] & 4)
            at++;
        if (text[at] != '/' || (text[at + 1] != '/' && text[at + 1] != '*'))
            return at;
        if (text[at + 1] == '/') {
            while (at < size && text[at] != '\n')
                at++;
            continue;
        }
        uint32_t depth = 1;
        for (at += 2; depth > 0 && at < size; at++) {
            if (text[at] == '/' && text[at + 1] == '*')
                depth++, at++;
            else if (text[at] == '*' && text[at + 1] == '/')
                depth--, at++;
        }
    }
}

static uint32_t number(uint32_t at) {
    if (text[at] == '0' && (text[at + 1] | 32) == 'x') {
        for (at += 2; strchr("0123456789abcdefABCDEF.", text[at]) && text[at]; at++)
            ;
        if ((text[at] | 32) == 'p')
            for (at += 1 + (text[at + 1] == '+' || text[at + 1] == '-'); class_of[(uint8_t)text[at]] & 2; at++)
                ;
    } else {
        while ((class_of[(uint8_t)text[at]] & 2) || text[at] == '.')
            at++;
        if ((text[at] | 32) == 'e')
            for (at += 1 + (text[at + 1] == '+' || text[at + 1] == '-'); class_of[(uint8_t)text[at]] & 2; at++)
                ;
    }
    return at + (text[at] == 'i' || text[at] == 'u' || text[at] == 'f' || text[at] == 'h');
}

/* How long the mark is that begins here: the longest one, but that `>` stands alone, since it may end a template list. */
static uint32_t mark(uint32_t at) {
    char a = text[at], b = text[at + 1];
    if (a == '<' && b == '<')
        return 2 + (text[at + 2] == '=');
    if ((a == '-' && b == '>') || (b == a && strchr("&|+-:=", a)))
        return 2;
    return 1 + (b == '=' && strchr("=!<+-*/%&|^", a) != NULL);
}

/* Pairs of `<` behind a name and `>`, as WGSL's rule finds them. */
static void lists(void) {
    uint32_t open = 0, depth = 0, *starts = slots + slot_mask + 1, *depths = starts + size + 1;
    for (uint32_t i = 0; i < token_count; i++) {
        char a = text[tokens[i].start];
        if (tokens[i].kind != MARK)
            continue;
        if (a == '<' && tokens[i].length == 1 && i > 0 && tokens[i - 1].kind == NAME) {
            starts[open] = i;
            depths[open++] = depth;
        } else if (a == '>' && open > 0 && depths[open - 1] == depth) {
            tokens[starts[--open]].in_template = tokens[i].in_template = 1;
            list_count++;
        } else if (a == '(' || a == '[') {
            depth++;
        } else if (a == ')' || a == ']') {
            while (open > 0 && depths[open - 1] >= depth)
                open--;
            depth -= depth > 0;
        } else if (a == ';' || a == '{' || a == ':' || (a == '=' && tokens[i].length == 1)) {
            open = depth = 0;
        } else if ((a == '&' || a == '|') && tokens[i].length == 2) {
            while (open > 0 && depths[open - 1] >= depth)
                open--;
        }
    }
}

static void lex(void) {
    token_count = name_count = list_count = 0;
    memset(slots, 0, (slot_mask + 1) * sizeof *slots);
    for (uint32_t at = blanks(0); at < size; at = blanks(at)) {
        uint32_t start = at, name = 0;
        uint8_t first = class_of[(uint8_t)text[at]], kind = MARK;
        if (first & 1) {
            while (class_of[(uint8_t)text[at]] & 3)
                at++;
            name = intern(start, at - start), kind = NAME;
        } else if ((first & 2) || (text[at] == '.' && (class_of[(uint8_t)text[at + 1]] & 2))) {
            at = number(at), kind = NUMBER;
        } else if (strchr("&-@/![]{}:,=>.%+|<()^;*~?#$\"'`\\", text[at])) {
            at += mark(at);
        } else {
            at++, kind = FAULT;
        }
        tokens[token_count++] = (Token){start, name, (uint16_t)(at - start), kind, 0};
    }
    lists();
}

int main(int count, char **words) {
    size_t room = 1 << 20, read = 0, got;
    char *held = malloc(room);
    while (held && (got = fread(held + read, 1, room - read - 4, stdin)) > 0)
        if ((read += got) + 4 == room)
            held = realloc(held, room *= 2);
    if (!held || count != 2)
        return 1;
    memset(held + read, 0, 4);
    text = held, size = (uint32_t)read;
    for (int c = 1; c < 256; c++)
        class_of[c] = (c >= '0' && c <= '9') ? 2 : (c == '_' || (c >= 'a' && c <= 'z') || (c >= 'A' && c <= 'Z') || c >= 128) ? 1 : (c == ' ' || (c >= 9 && c <= 13)) ? 4 : 0;
    for (slot_mask = 1; slot_mask < size + 16; slot_mask *= 2)
        ;
    slot_mask--;
    tokens = calloc(size + 1, sizeof *tokens), names = calloc(size + 1, sizeof *names);
    slots = calloc(slot_mask + 1 + 2 * ((size_t)size + 1), sizeof *slots);
    if (!tokens || !names || !slots)
        return 1;
    uint64_t least = UINT64_MAX;
    for (int run = atoi(words[1]); run > 0; run--) {
        struct timespec begin, end;
        clock_gettime(CLOCK_MONOTONIC, &begin), lex(), clock_gettime(CLOCK_MONOTONIC, &end);
        uint64_t took = (end.tv_sec - begin.tv_sec) * 1000000000ull + end.tv_nsec - begin.tv_nsec;
        least = took < least ? took : least;
    }
    printf("%u %u %llu\n", token_count, list_count, (unsigned long long)least);
    return 0;
}
