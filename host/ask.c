/* Reads an image file and asks: ask IMAGE USER ROLE PRIVILEGE prints the answer's number. */
#include <errno.h>
#include <stdio.h>
#include <stdlib.h>

#include "kulzhemiq.h"

/* One byte more than the longest image, so that a longer file is seen to be none. */
enum { MOST = 2051 };

static int read_number(const char *text, uint32_t *number)
{
    char *end = NULL;
    unsigned long value;

    errno = 0;
    value = strtoul(text, &end, 10);
    if (text[0] < '0' || text[0] > '9' || *end != '\0' || errno != 0 || value > UINT32_MAX) {
        return 0;
    }
    *number = (uint32_t)value;
    return 1;
}

int main(int argc, char **argv)
{
    static uint8_t image[MOST];
    uint32_t user, role, privilege;
    size_t length;
    FILE *file;

    if (argc != 5 || !read_number(argv[2], &user) || !read_number(argv[3], &role)
        || !read_number(argv[4], &privilege)) {
        fprintf(stderr, "usage: ask IMAGE USER ROLE PRIVILEGE\n");
        return 2;
    }
    file = fopen(argv[1], "rb");
    if (file == NULL) {
        perror(argv[1]);
        return 2;
    }
    length = fread(image, 1, sizeof image, file);
    if (ferror(file)) {
        perror(argv[1]);
        fclose(file);
        return 2;
    }
    fclose(file);
    printf("%u\n", (unsigned)kulzhemiq_access(image, length, user, role, privilege));
    return 0;
}
