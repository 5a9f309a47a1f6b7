/* How long a call takes: times IMAGE USERS asks for every user and user privilege of a table that has as
 * many roles as users, and prints the nanoseconds of a call in the fastest of ten rounds. */
#define _POSIX_C_SOURCE 199309L
#include <stdio.h>
#include <stdlib.h>
#include <time.h>

#include "kulzhemiq.h"

enum { MOST = 2051, FIRST = 128, PRIVILEGES = 128, TURNS = 10, ROUNDS = 10 };

static uint8_t image[MOST];
static size_t length;

static double seconds(void)
{
    struct timespec now;

    clock_gettime(CLOCK_MONOTONIC, &now);
    return (double)now.tv_sec + (double)now.tv_nsec * 1e-9;
}

/* How many of the questions are answered yes. */
static unsigned long ask(uint32_t users)
{
    unsigned long yes = 0;

    for (uint32_t privilege = 0; privilege < PRIVILEGES; privilege++) {
        for (uint32_t user = 0; user < users; user++) {
            uint32_t role = 64 + user * 7 % users;
            yes += kulzhemiq_access(image, length, user, role, FIRST + privilege) == 1;
        }
    }
    return yes;
}

static int read_image(const char *name)
{
    FILE *file = fopen(name, "rb");

    if (file == NULL)
        return 0;
    length = fread(image, 1, sizeof image, file);
    fclose(file);
    return 1;
}

int main(int argc, char **argv)
{
    uint32_t users = argc == 3 ? (uint32_t)strtoul(argv[2], NULL, 10) : 0;
    unsigned long asked = (unsigned long)users * PRIVILEGES, yes = 0;
    double least = 1e9;

    if (users < 1 || users > 64 || !read_image(argv[1])) {
        fprintf(stderr, "usage: times IMAGE USERS\n");
        return 2;
    }
    for (int round = 0; round < ROUNDS; round++) {
        double start = seconds(), took;

        for (int turn = 0; turn < TURNS; turn++)
            yes = ask(users);
        took = seconds() - start;
        least = took < least ? took : least;
    }
    printf("    call for C, image validated: %.1f ns (%lu asked, %lu yes)\n",
           least * 1e9 / (double)asked / TURNS, asked, yes);
    return 0;
}
