/* Wraps a key under another key, and unwraps it again. */
#include <fotsgure_aes.h>

#include <string.h>

/* Wraps a key of 20 bytes, which fill three semiblocks, and unwraps it again. */
static int there_and_back(const struct fotsgure_aes *aes, const uint8_t key[20])
{
    uint8_t wrapped[8 * 4], unwrapped[8 * 3];
    size_t length;
    if (fotsgure_aes_wrap_padded(aes, key, 20, wrapped, 4) != FOTSGURE_AES_DONE)
        return 0;
    if (fotsgure_aes_unwrap_padded(aes, wrapped, 4, unwrapped, 3, &length) != FOTSGURE_AES_DONE)
        return 0; /* it was not wrapped under this key, or was changed: `unwrapped` is zeros */
    return length == 20 && memcmp(unwrapped, key, 20) == 0;
}

int main(void)
{
    uint8_t key[32] = {1, 2, 3}, other[20] = {4, 5, 6};
    struct fotsgure_aes aes;
    if (fotsgure_aes_set_key(&aes, key, sizeof key) != FOTSGURE_AES_DONE)
        return 1;
    int same = there_and_back(&aes, other);
    fotsgure_aes_wipe(&aes);
    return !same;
}
