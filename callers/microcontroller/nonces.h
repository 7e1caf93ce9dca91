/* A counter of nonces that is kept in flash: no nonce comes twice, although power may fail at any moment, also while flash is erased or
 * written. */
#ifndef NONCES_H
#define NONCES_H

#include <fotsgure_gcm.h>

#define NONCES_PLACE (2 * FOTSGURE_GCM_NONCE) /* bytes: a nonce and its complement */
#ifndef NONCES_RESERVED
#define NONCES_RESERVED 1000 /* nonces that come before flash is written again */
#endif

struct nonces {
    struct fotsgure_gcm_counter counter; /* for fotsgure_gcm_seal_next, after nonces_reserve */
    uint8_t end[FOTSGURE_GCM_NONCE];     /* the first nonce that isn't reserved */
    int older;                           /* the place that is written next: 0 or 1 */
};

/* Your board has these two. Each place is in a page of flash of its own. flash_read returns 0 if the chip reports an error, as one does
 * whose flash has a code that corrects errors. flash_write erases the page, and then writes the bytes. */
int flash_read(int place, uint8_t bytes[NONCES_PLACE]);
void flash_write(int place, const uint8_t bytes[NONCES_PLACE]);

/* Makes the counter of a new key, once, before its first use. Returns 0 if flash doesn't keep it. */
int nonces_of_new_key(void);
/* Reads the counter after each start. Returns 0 if neither place has one: then use a new key. */
int nonces_start(struct nonces *nonces);
/* Call it before each nonce. It writes to flash if none is reserved any more. Returns 0 if flash doesn't keep that: then seal nothing. */
int nonces_reserve(struct nonces *nonces);

#endif
