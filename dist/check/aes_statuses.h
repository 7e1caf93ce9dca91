/* Every status, NULL with a count of 0, what a shorter key leaves, and the wipe: a part of aes.c. */

static void other_key_lengths(void)
{
    uint8_t text[48], bytes[48];
    struct fotsgure_aes aes;
    struct fotsgure_aes_ctr ctr = {{0}, 5};
    int refused = 1, kept = 1;
    fill(text, sizeof text, 7);
    memcpy(bytes, text, sizeof text);
    for (size_t size = 0; size <= 33; size++) {
        if (size == 16 || size == 24 || size == 32)
            continue;
        memset(&aes, 0xff, sizeof aes);
        refused &= fotsgure_aes_set_key(&aes, counted, size) == FOTSGURE_AES_KEY_LENGTH &&
            fotsgure_aes_key_length(&aes) == 0;
        refused &= fotsgure_aes_encrypt_blocks_with(counted, size, bytes, 3) == FOTSGURE_AES_KEY_LENGTH;
        refused &= fotsgure_aes_decrypt_blocks_with(counted, size, bytes, 3) == FOTSGURE_AES_KEY_LENGTH;
        refused &= fotsgure_aes_add_keystream_with(counted, size, &ctr, bytes, 48) == FOTSGURE_AES_KEY_LENGTH;
        kept &= !memcmp(bytes, text, sizeof text) && ctr.position == 5;
    }
    expect(refused, "keys of every other length are refused", 0);
    expect(kept, "and nothing is written", 0);
}

/* A struct that held a longer key and then a shorter one is as if it had held the shorter one alone. */
static void shorter_key(void)
{
    for (size_t size = 16; size <= 24; size += 8) {
        struct fotsgure_aes aes, alone;
        memset(&aes, 0xa5, sizeof aes);
        memset(&alone, 0xa5, sizeof alone);
        expect(fotsgure_aes_set_key(&aes, counted, 32) == FOTSGURE_AES_DONE &&
            fotsgure_aes_set_key(&aes, counted, size) == FOTSGURE_AES_DONE &&
            fotsgure_aes_set_key(&alone, counted, size) == FOTSGURE_AES_DONE && !memcmp(&aes, &alone, sizeof aes),
            "after a shorter key", size);
    }
}

/* Every call with a struct that holds no key. */
static void calls_without_key(const struct fotsgure_aes *aes, size_t wiped)
{
    uint8_t text[48], bytes[48];
    struct fotsgure_aes_ctr ctr = {{0}, 5};
    struct fotsgure_aes_cbc cbc = {{7}};
    struct fotsgure_aes_cmac_message tagged = {1, 0, {7}, {0}};
    size_t length = 7;
    fill(text, sizeof text, 7);
    memcpy(bytes, text, sizeof text);
    expect(fotsgure_aes_key_length(aes) == 0 && fotsgure_aes_encrypt_blocks(aes, bytes, 3) == FOTSGURE_AES_NO_KEY &&
        fotsgure_aes_decrypt_blocks(aes, bytes, 3) == FOTSGURE_AES_NO_KEY &&
        fotsgure_aes_encrypt_blocks_to(aes, counted, 2, bytes, 2) == FOTSGURE_AES_NO_KEY &&
        fotsgure_aes_decrypt_blocks_to(aes, counted, 2, bytes, 2) == FOTSGURE_AES_NO_KEY &&
        fotsgure_aes_add_keystream(aes, &ctr, bytes, 48) == FOTSGURE_AES_NO_KEY &&
        fotsgure_aes_add_keystream_to(aes, &ctr, counted, 9, bytes, 9) == FOTSGURE_AES_NO_KEY &&
        fotsgure_aes_cbc_encrypt(aes, &cbc, bytes, 3) == FOTSGURE_AES_NO_KEY &&
        fotsgure_aes_cbc_decrypt(aes, &cbc, bytes, 3) == FOTSGURE_AES_NO_KEY && cbc.previous[0] == 7 &&
        fotsgure_aes_wrap(aes, counted, 2, bytes, 3) == FOTSGURE_AES_NO_KEY &&
        fotsgure_aes_unwrap(aes, counted, 3, bytes, 2) == FOTSGURE_AES_NO_KEY &&
        fotsgure_aes_wrap_padded(aes, counted, 9, bytes, 3) == FOTSGURE_AES_NO_KEY &&
        fotsgure_aes_unwrap_padded(aes, counted, 3, bytes, 2, &length) == FOTSGURE_AES_NO_KEY && length == 0 &&
        fotsgure_aes_cmac(aes, counted, 5, bytes) == FOTSGURE_AES_NO_KEY &&
        fotsgure_aes_cmac_verify(aes, counted, 5, bytes, 3) == FOTSGURE_AES_NO_KEY &&
        fotsgure_aes_cmac_begin(aes, &tagged) == FOTSGURE_AES_NO_KEY &&
        fotsgure_aes_cmac_update(aes, &tagged, counted, 17) == FOTSGURE_AES_NO_KEY &&
        fotsgure_aes_cmac_finish(aes, &tagged, bytes) == FOTSGURE_AES_NO_KEY &&
        fotsgure_aes_cmac_accept(aes, &tagged, counted, 3) == FOTSGURE_AES_NO_KEY && tagged.value[0] == 7 &&
        fotsgure_aes_ccm_seal(aes, counted, 5, counted, 9, bytes, 9, bytes + 16, 8) == FOTSGURE_AES_NO_KEY &&
        fotsgure_aes_ccm_open(aes, counted, 5, counted, 9, bytes, 9, counted, 8) == FOTSGURE_AES_NO_KEY &&
        fotsgure_aes_encrypt_blocks(aes, NULL, 0) == FOTSGURE_AES_NO_KEY &&
        !memcmp(bytes, text, sizeof text) && ctr.position == 5, "no key, nothing written", wiped);
}

static void no_key(void)
{
    struct fotsgure_aes aes = {0, {0}}, zeros = aes;
    calls_without_key(&aes, 0);
    expect(fotsgure_aes_set_key(&aes, counted, 32) == FOTSGURE_AES_DONE, "a key is kept", 32);
    fotsgure_aes_wipe(&aes);
    expect(!memcmp(&aes, &zeros, sizeof aes), "wiped", 32);
    calls_without_key(&aes, 1);
}

static void unequal_counts(const struct fotsgure_aes *aes)
{
    uint8_t text[48], bytes[48];
    fill(text, sizeof text, 7);
    memcpy(bytes, text, sizeof text);
    expect(fotsgure_aes_encrypt_blocks_to(aes, counted, 2, bytes, 3) == FOTSGURE_AES_UNEQUAL_COUNTS &&
        fotsgure_aes_decrypt_blocks_to(aes, counted, 1, bytes, 0) == FOTSGURE_AES_UNEQUAL_COUNTS &&
        !memcmp(bytes, text, sizeof text), "unequal counts, nothing written", 0);
}

static void null_pointers(const struct fotsgure_aes *aes)
{
    uint8_t bytes[16];
    struct fotsgure_aes_ctr ctr = {{0}, 5};
    struct fotsgure_aes_cbc cbc = {{7}};
    size_t length = 7;
    expect(fotsgure_aes_encrypt_blocks(aes, NULL, 0) == FOTSGURE_AES_DONE &&
        fotsgure_aes_decrypt_blocks(aes, NULL, 0) == FOTSGURE_AES_DONE &&
        fotsgure_aes_encrypt_blocks_to(aes, NULL, 0, NULL, 0) == FOTSGURE_AES_DONE &&
        fotsgure_aes_decrypt_blocks_to(aes, NULL, 0, NULL, 0) == FOTSGURE_AES_DONE &&
        fotsgure_aes_decrypt_blocks_to(aes, NULL, 0, bytes, 1) == FOTSGURE_AES_UNEQUAL_COUNTS &&
        fotsgure_aes_add_keystream(aes, &ctr, NULL, 0) == FOTSGURE_AES_DONE &&
        fotsgure_aes_cbc_encrypt(aes, &cbc, NULL, 0) == FOTSGURE_AES_DONE &&
        fotsgure_aes_cbc_decrypt(aes, &cbc, NULL, 0) == FOTSGURE_AES_DONE && cbc.previous[0] == 7 &&
        fotsgure_aes_wrap(aes, NULL, 0, NULL, 0) == FOTSGURE_AES_INVALID_COUNT &&
        fotsgure_aes_unwrap(aes, NULL, 0, NULL, 0) == FOTSGURE_AES_INVALID_COUNT &&
        fotsgure_aes_wrap_padded(aes, NULL, 0, NULL, 0) == FOTSGURE_AES_INVALID_COUNT &&
        fotsgure_aes_unwrap_padded(aes, NULL, 0, NULL, 0, &length) == FOTSGURE_AES_INVALID_COUNT &&
        fotsgure_aes_add_keystream_to(aes, &ctr, NULL, 0, NULL, 0) == FOTSGURE_AES_DONE &&
        fotsgure_aes_encrypt_blocks_with(counted, 16, NULL, 0) == FOTSGURE_AES_DONE &&
        fotsgure_aes_decrypt_blocks_with(NULL, 0, NULL, 0) == FOTSGURE_AES_KEY_LENGTH &&
        fotsgure_aes_add_keystream_with(counted, 24, &ctr, NULL, 0) == FOTSGURE_AES_DONE &&
        ctr.position == 5, "NULL with a count of 0", 0);
}

/* A compound literal is one argument, however many commas it has. */
static void compound_literals(struct fotsgure_aes *aes)
{
    uint8_t bytes[16];
    expect(fotsgure_aes_set_key(aes, (const uint8_t[]){0, 1, 2, 3, 4, 5, 6, 7, 8, 9, 10, 11, 12, 13, 14, 15}, 16) ==
        FOTSGURE_AES_DONE && fotsgure_aes_encrypt_blocks_to(aes, (const uint8_t[16]){1, 2}, 1, bytes, 1) ==
        FOTSGURE_AES_DONE && fotsgure_aes_decrypt_blocks(aes, bytes, 1) == FOTSGURE_AES_DONE &&
        !memcmp(bytes, (const uint8_t[16]){1, 2}, 16), "compound literals", 16);
}

static void statuses(void)
{
    struct fotsgure_aes aes, before;
    other_key_lengths();
    shorter_key();
    no_key();
    expect(fotsgure_aes_set_key(&aes, counted, 24) == FOTSGURE_AES_DONE, "a key is kept", 24);
    unequal_counts(&aes);
    null_pointers(&aes);
    compound_literals(&aes);
    expect(fotsgure_aes_set_key(&aes, counted, 24) == FOTSGURE_AES_DONE, "a key is kept", 24);
    before = aes;
    expect(fotsgure_aes_set_key(&aes, NULL, 0) == FOTSGURE_AES_KEY_LENGTH &&
        fotsgure_aes_key_length(&aes) == 0, "no bytes are no key", 0);
    memset(&aes, 0xff, sizeof aes);
    expect(fotsgure_aes_set_key(&aes, counted, 24) == FOTSGURE_AES_DONE &&
        !memcmp(&aes, &before, KEPT), "what was there before does not count", 24);
    expect(fotsgure_aes_version() == FOTSGURE_AES_VERSION, "header and library are of one version", 0);
}
