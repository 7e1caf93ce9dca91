/* Keeps a counter of nonces in two places of flash. docs/MICROCONTROLLERS.md says how it is used. */
#include "nonces.h"
#include <string.h>

/* Erasing a page sets its bits, and writing clears some of them. So in a place that was cut short, some bit is set in both halves. */
static int is_whole(const uint8_t place[NONCES_PLACE])
{
    int differ = 1;
    for (int i = 0; i < FOTSGURE_GCM_NONCE; i++)
        differ &= (place[i] ^ place[FOTSGURE_GCM_NONCE + i]) == 0xff;
    return differ;
}

static int is_stored(int at, const uint8_t number[FOTSGURE_GCM_NONCE])
{
    uint8_t place[NONCES_PLACE], back[NONCES_PLACE];
    for (int i = 0; i < FOTSGURE_GCM_NONCE; i++) {
        place[i] = number[i];
        place[FOTSGURE_GCM_NONCE + i] = (uint8_t)~number[i];
    }
    flash_write(at, place);
    return flash_read(at, back) && memcmp(back, place, sizeof place) == 0;
}

int nonces_of_new_key(void)
{
    static const uint8_t zero[FOTSGURE_GCM_NONCE];
    return is_stored(0, zero);
}

int nonces_start(struct nonces *nonces)
{
    uint8_t place[2][NONCES_PLACE];
    int whole[2];
    for (int i = 0; i < 2; i++) {
        whole[i] = flash_read(i, place[i]) && is_whole(place[i]);
        if (!whole[i])
            memset(place[i], 0xff, NONCES_PLACE); /* no nonce is left */
    }
    int newer = !whole[0] || (whole[1] && memcmp(place[1], place[0], FOTSGURE_GCM_NONCE) > 0);
    nonces->older = !newer;
    memcpy(nonces->counter.next, place[newer], FOTSGURE_GCM_NONCE);
    memcpy(nonces->end, place[newer], FOTSGURE_GCM_NONCE);
    return whole[newer];
}

int nonces_reserve(struct nonces *nonces)
{
    uint8_t end[FOTSGURE_GCM_NONCE];
    unsigned carry = NONCES_RESERVED;
    if (memcmp(nonces->counter.next, nonces->end, sizeof end) < 0)
        return 1;
    for (int i = FOTSGURE_GCM_NONCE; i-- > 0; carry >>= 8) {
        carry += nonces->end[i];
        end[i] = (uint8_t)carry;
    }
    if (carry || !is_stored(nonces->older, end))
        return 0;
    memcpy(nonces->end, end, sizeof end);
    nonces->older = !nonces->older;
    return 1;
}
