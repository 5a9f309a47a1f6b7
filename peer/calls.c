/*
 * Reads records of questions about images from standard input and writes the answers of the
 * library, a byte each. A record is: the length of the image, its bytes, user, role, privilege;
 * numbers in four bytes, the low one first. Each image lies in memory of just its length, so that
 * a checker sees every byte that is read beyond it.
 */
#include <stdint.h>
#include <stdio.h>
#include <stdlib.h>

#include "kulzhemiq.h"

enum { MAX_BYTES = 1 << 24 };

static uint32_t number(const uint8_t *bytes)
{
    return (uint32_t)bytes[0] | (uint32_t)bytes[1] << 8 | (uint32_t)bytes[2] << 16 |
           (uint32_t)bytes[3] << 24;
}

/* 1 if the whole of it was read, 0 where the input ends, -1 where it breaks off. */
static int take(void *to, size_t length)
{
    size_t got = fread(to, 1, length, stdin);

    if (got == length)
        return 1;
    return got == 0 && !ferror(stdin) ? 0 : -1;
}

static int answer_one(size_t length)
{
    uint8_t numbers[12];
    uint8_t *image = malloc(length > 0 ? length : 1);
    int broken = image == NULL || (length > 0 && take(image, length) != 1) ||
                 take(numbers, sizeof numbers) != 1;

    if (!broken) {
        uint32_t answer = kulzhemiq_access(image, length, number(numbers), number(numbers + 4),
                                           number(numbers + 8));
        broken = answer > 255 || putchar((int)answer) == EOF;
    }
    free(image);
    return broken ? -1 : 0;
}

int main(void)
{
    uint8_t head[4];
    int got;

    while ((got = take(head, sizeof head)) == 1) {
        uint32_t length = number(head);

        if (length > MAX_BYTES || answer_one(length) != 0) {
            got = -1;
            break;
        }
    }
    if (got != 0 || fflush(stdout) != 0) {
        fputs("calls: the records break off, or an answer could not be written\n", stderr);
        return 2;
    }
    return 0;
}
