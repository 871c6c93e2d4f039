/* Images written out by hand. */
#ifndef IMAGES_H
#define IMAGES_H

#include <stdio.h>
#include <stdlib.h>
#include <string.h>

#include "matchdesk.h"

/* The longest image of the tests: one cell more than the longest good one. */
#define LONGEST (MATCHDESK_MAX_IMAGE + MATCHDESK_CELL)

/*
 * Writes an image and returns its length. A word of the text is a cell in hexadecimal, without the zeros at its end; `2048*0A0100` is so many
 * cells; `=00` is bytes with nothing behind them. So "F0070001 0A0100" is function 7 with the instruction Label 1. Where `packed` is set every word
 * is bytes with nothing behind them: "F0070001000000 0A0100", each cell in all the bytes that it keeps, is the packed form of the same image.
 */
static inline size_t assemble_as(int packed, const char *text, unsigned char *to)
{
    size_t length = 0;
    while (*text != '\0') {
        unsigned char cell[MATCHDESK_CELL] = {0};
        size_t times = 1, bytes = 0;
        if (strcspn(text, "*") < strcspn(text, " "))
            times = (size_t)strtoul(text, (char **)&text, 10), text++;
        int bare = *text == '=';
        text += bare;
        for (unsigned byte; sscanf(text, "%2x", &byte) == 1 && *text != ' ' && *text != '\0'; text += 2)
            cell[bytes++] = (unsigned char)byte;
        text += strspn(text, " ");
        size_t size = bare || packed ? bytes : MATCHDESK_CELL;
        for (size_t i = 0; i < times; i++, length += size)
            memcpy(to + length, cell, size);
    }
    return length;
}

static inline size_t assemble(const char *text, unsigned char *to)
{
    return assemble_as(0, text, to);
}

static inline size_t assemble_packed(const char *text, unsigned char *to)
{
    return assemble_as(1, text, to);
}

#endif
