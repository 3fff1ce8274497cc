/* What window manager, apps and output tell one another, as words.py has it: a letter and three numbers, of 13 bytes. */
#ifndef WORDS_H
#define WORDS_H

#include <stdbool.h>
#include <stddef.h>
#include <stdint.h>

enum { WORD = 13 };
enum { SHOW = 'w', MOVE = 'm', PRESS = 'b', RELEASE = 'r', KEY = 'k', CLOSE = 'c', AGAIN = 's' };

typedef struct word { char letter; int32_t first, second, third; } word;

static inline void put_word(uint8_t to[WORD], word told) {
    const int32_t numbers[] = {told.first, told.second, told.third};
    to[0] = (uint8_t)told.letter;
    for (int i = 0; i < 12; i++) to[1 + i] = (uint8_t)((uint32_t)numbers[i / 4] >> (24 - 8 * (i % 4)));
}

/* Reads what was told. False where that is no word. */
static inline bool get_word(const uint8_t *from, size_t count, word *told) {
    uint32_t numbers[3] = {0};
    if (count != WORD) return false;
    for (int i = 0; i < 12; i++) numbers[i / 4] = numbers[i / 4] << 8 | from[1 + i];
    *told = (word){(char)from[0], (int32_t)numbers[0], (int32_t)numbers[1], (int32_t)numbers[2]};
    return true;
}

#endif
