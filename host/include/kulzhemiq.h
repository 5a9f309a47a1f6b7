/* Access questions about the image of a vault's table. */
#ifndef KULZHEMIQ_H
#define KULZHEMIQ_H

#include <stddef.h>
#include <stdint.h>

#ifdef __cplusplus
extern "C" {
#endif

/* What kulzhemiq_access answers. */
enum kulzhemiq_answer {
    KULZHEMIQ_NO = 0,             /* the user has no access in that role */
    KULZHEMIQ_YES = 1,            /* the user reaches the role, and the role the privilege */
    KULZHEMIQ_NO_USER = 101,      /* user is not below 64 */
    KULZHEMIQ_NO_PRIVILEGE = 110, /* privilege is not from 128 to 255 */
    KULZHEMIQ_NO_ROLE = 114,      /* role is not from 64 to 127, or the user does not reach it */
    KULZHEMIQ_NO_IMAGE = 118      /* the bytes are not exactly the image of a table */
};

/*
 * Has `user`, acting in `role`, access to `privilege`, by the table whose image the `length` bytes
 * at `image` are? It asks user, privilege, image and role, in that order, and answers the first no.
 * `image` may not be NULL; the length is that of the image, not of a buffer it lies in. The bytes
 * are only read. Nothing is allocated and nothing is kept; calls may run side by side.
 */
uint32_t kulzhemiq_access(const uint8_t *image, size_t length, uint32_t user, uint32_t role,
                          uint32_t privilege);

#ifdef __cplusplus
}
#endif

#endif
