/* AES-GCM-SIV from C, a part of gcm.c: messages of RFC 8452, section 8 and appendices C.1 to C.3; texts of every length
 * from 0 to 700 bytes, of 5,001 and of 65,537, whose encryptions and tags have the sum that OpenSSL 4.0's have; every
 * status; that nothing is written after a refusal; nonces that the system draws; the wipe. */
static const struct { const char *key, *nonce, *additional, *plain, *cipher, *tag; } siv_cases[] = {
    {"ee8e1ed9ff2540ae8f2ba9f50bc2f27c", "752abad3e0afb5f434dc4310", "6578616d706c65", "48656c6c6f20776f726c64",
        "5d349ead175ef6b1def6fd", "4fbcdeb7e4793f4a1d7e4faa70100af1"},
    {"01000000000000000000000000000000", "030000000000000000000000", "", "", "", "dc20e2d83f25705bb49e439eca56de25"},
    {"01000000000000000000000000000000", "030000000000000000000000", "", "0100000000000000", "b5d839330ac7b786",
        "578782fff6013b815b287c22493a364c"},
    {"f901cfe8a69615a93fdf7a98cad48179", "6245709fb18853f68d833640",
        "7576f7028ec6eb5ea7e298342a94d4b202b370ef9768ec6561c4fe6b7e7296fa859c21", "e42a3c02c25b64869e146d7b233987bddfc240871d",
        "391cc328d484a4f46406181bcd62efd9b3ee197d05", "2d15506c84a9edd65e13e9d24a2a6e70"},
    {"0100000000000000000000000000000000000000000000000000000000000000", "030000000000000000000000", "",
        "010000000000000000000000", "9aab2aeb3faa0a34aea8e2b1", "8ca50da9ae6559e48fd10f6e5c9ca17e"},
    {ZERO_KEY ZERO_KEY, ZERO_NONCE, "", "000000000000000000000000000000004db923dc793ee6497c76dcc03a98e108",
        "f3f80f2cf0cb2dd9c5984fcda908456cc537703b5ba70324a6793a7bf218d3ea", "ffffffff000000000000000000000000"},
    {ZERO_KEY ZERO_KEY, ZERO_NONCE, "", "eb3640277c7ffd1303c7a542d02d3e4c0000000000000000",
        "18ce4f0b8cb4d0cac65fea8f79257b20888e53e72299e56d", "ffffffff000000000000000000000000"},
};

/* A published message from one buffer to another, and with its tag changed, which leaves zeros. */
static void siv_to_a_buffer(const struct fotsgure_gcm_siv *siv, size_t row)
{
    uint8_t nonce[12], data[48], plain[48], sealed[48], output[48], wanted[16], tag[16];
    size_t extra = from_hex(data, siv_cases[row].additional), length = from_hex(plain, siv_cases[row].plain);
    from_hex(nonce, siv_cases[row].nonce);
    from_hex(sealed, siv_cases[row].cipher);
    from_hex(wanted, siv_cases[row].tag);
    expect(fotsgure_gcm_siv_seal_to(siv, nonce, data, extra, plain, length, output, length, tag) == FOTSGURE_GCM_DONE &&
        memcmp(output, sealed, length) == 0 && memcmp(tag, wanted, 16) == 0, "siv_seal_to", row);
    expect(fotsgure_gcm_siv_open_to(siv, nonce, data, extra, sealed, length, output, length, tag) == FOTSGURE_GCM_DONE &&
        memcmp(output, plain, length) == 0, "siv_open_to", row);
    tag[0] ^= 1;
    expect(fotsgure_gcm_siv_open_to(siv, nonce, data, extra, sealed, length, output, length, tag) == FOTSGURE_GCM_REFUSED &&
        all(output, length, 0), "siv_open_to leaves zeros", row);
    expect(fotsgure_gcm_siv_open_to(siv, nonce, data, extra, NULL, 0, output, 1, tag) == FOTSGURE_GCM_UNEQUAL_LENGTHS &&
        fotsgure_gcm_siv_seal_to(siv, nonce, data, extra, plain, 1, NULL, 0, tag) == FOTSGURE_GCM_UNEQUAL_LENGTHS,
        "siv: lengths of buffers", row);
}

static void siv_published(void)
{
    for (size_t i = 0; i < sizeof siv_cases / sizeof *siv_cases; i++) {
        uint8_t key[32], nonce[12], data[48], text[48], sealed[48], wanted[16], tag[16];
        size_t key_length = from_hex(key, siv_cases[i].key), extra = from_hex(data, siv_cases[i].additional);
        size_t length = from_hex(text, siv_cases[i].plain);
        struct fotsgure_gcm_siv siv = {0, {0}};
        from_hex(nonce, siv_cases[i].nonce);
        from_hex(sealed, siv_cases[i].cipher);
        from_hex(wanted, siv_cases[i].tag);
        expect(fotsgure_gcm_siv_set_key(&siv, key, key_length) == FOTSGURE_GCM_DONE, "siv_set_key", i);
        expect(fotsgure_gcm_siv_seal(&siv, nonce, data, extra, text, length, tag) == FOTSGURE_GCM_DONE &&
            memcmp(text, sealed, length) == 0 && memcmp(tag, wanted, 16) == 0, "siv_seal", i);
        siv_to_a_buffer(&siv, i);
        fotsgure_gcm_siv_wipe(&siv);
        expect(all(&siv, sizeof siv, 0), "siv_wipe", i);
    }
}

/* Texts of many lengths: sealed, refused with a bit changed and then as they were, and opened. */
static void siv_lengths(void)
{
    enum { EACH = 700 };
    static const char *const sums[2] = {"8df3b4d0e452500860f6d458a2ae85d1", "617ef69e2c024fd40e67c5662032a5c0"};
    static const size_t longer[2] = {5001, 65537};
    static uint8_t whole[65537], data[EACH], text[sizeof whole], sealed[sizeof whole];
    for (size_t i = 0; i < sizeof whole; i++)
        whole[i] = (uint8_t)(i * 7 + i / 256);
    for (size_t i = 0; i < sizeof data; i++)
        data[i] = (uint8_t)(i * 13);
    for (size_t key_length = 16; key_length <= 32; key_length += 16) {
        struct fotsgure_gcm_siv siv;
        uint8_t sum[16] = {0}, wanted[16], tag[16];
        int right = fotsgure_gcm_siv_set_key(&siv, whole, key_length) == FOTSGURE_GCM_DONE;
        for (size_t i = 0; i <= EACH + 2; i++) {
            size_t length = i <= EACH ? i : longer[i - EACH - 1], used = i <= EACH ? EACH : length;
            const uint8_t nonce[12] = {7, (uint8_t)length, (uint8_t)(length >> 8)};
            size_t extra = length * 5 % sizeof data;
            memcpy(text, whole, used);
            right &= fotsgure_gcm_siv_seal(&siv, nonce, data, extra, text, length, tag) == FOTSGURE_GCM_DONE &&
                memcmp(text + length, whole + length, used - length) == 0;
            add_to_sum(sum, text, length);
            add_to_sum(sum, tag, 16);
            memcpy(sealed, text, used);
            tag[length % 16] ^= (uint8_t)(1 << length % 8);
            right &= fotsgure_gcm_siv_open(&siv, nonce, data, extra, text, length, tag) == FOTSGURE_GCM_REFUSED &&
                memcmp(text, sealed, used) == 0;
            tag[length % 16] ^= (uint8_t)(1 << length % 8);
            right &= fotsgure_gcm_siv_open(&siv, nonce, data, extra, text, length, tag) == FOTSGURE_GCM_DONE &&
                memcmp(text, whole, used) == 0;
            expect(right, "siv: a text there and back", length);
        }
        from_hex(wanted, sums[key_length / 32]);
        expect(memcmp(sum, wanted, 16) == 0, "siv: as OpenSSL", key_length);
        fotsgure_gcm_siv_wipe(&siv);
    }
}

/* Every status, in the order in which calls name them, and that nothing is written after one. */
static void siv_statuses(void)
{
    uint8_t key[33] = {1}, nonce[12], text[4] = {3, 3, 3, 3}, tag[16];
    struct fotsgure_gcm_siv siv, none;
    const size_t too_long = (size_t)FOTSGURE_GCM_SIV_MOST + 1;
    memset(&none, 0, sizeof none);
    memset(nonce, 2, sizeof nonce);
    memset(tag, 9, sizeof tag);
    for (size_t length = 0; length <= 33; length++) {
        memset(&siv, 0xa5, sizeof siv);
        if (length != 16 && length != 32)
            expect(fotsgure_gcm_siv_set_key(&siv, length ? key : NULL, length) == FOTSGURE_GCM_KEY_LENGTH &&
                is_emptied(&siv, sizeof siv, 0xa5), "siv: a key of another length", length);
    }
    struct fotsgure_gcm_siv alone = siv;
    expect(fotsgure_gcm_siv_set_key(&siv, key, 32) == FOTSGURE_GCM_DONE &&
        fotsgure_gcm_siv_set_key(&siv, key, 16) == FOTSGURE_GCM_DONE &&
        fotsgure_gcm_siv_set_key(&alone, key, 16) == FOTSGURE_GCM_DONE && memcmp(&siv, &alone, sizeof siv) == 0,
        "siv: after a shorter key", 16);
    expect(IS_32 || fotsgure_gcm_siv_seal(&none, nonce, NULL, 0, text, too_long, tag) == FOTSGURE_GCM_TOO_LONG, "siv", 1);
    expect(IS_32 || fotsgure_gcm_siv_seal(&none, nonce, key, too_long, text, 4, tag) == FOTSGURE_GCM_TOO_LONG, "siv", 2);
    expect(fotsgure_gcm_siv_seal(&none, nonce, NULL, 0, text, 4, tag) == FOTSGURE_GCM_NO_KEY, "siv", 3);
#ifndef FOTSGURE_CHECK_BARE
    expect(IS_32 || fotsgure_gcm_siv_seal_random(&none, nonce, NULL, 0, text, too_long, tag) == FOTSGURE_GCM_TOO_LONG, "siv", 4);
    expect(fotsgure_gcm_siv_seal_random(&none, nonce, NULL, 0, text, 4, tag) == FOTSGURE_GCM_NO_KEY, "siv", 5);
#endif
    expect(IS_32 || fotsgure_gcm_siv_open(&none, nonce, NULL, 0, text, too_long, tag) == FOTSGURE_GCM_TOO_LONG, "siv", 6);
    expect(fotsgure_gcm_siv_open(&none, nonce, NULL, 0, text, 4, tag) == FOTSGURE_GCM_NO_KEY, "siv", 7);
    expect(fotsgure_gcm_siv_open(&siv, nonce, NULL, 0, text, 4, tag) == FOTSGURE_GCM_REFUSED, "siv", 8);
    expect(all(text, 4, 3) && all(tag, 16, 9) && all(nonce, 12, 2), "siv: nothing is written after a refusal", 0);
    expect(fotsgure_gcm_siv_seal(&siv, nonce, NULL, 0, NULL, 0, tag) == FOTSGURE_GCM_DONE &&
        fotsgure_gcm_siv_open(&siv, nonce, NULL, 0, NULL, 0, tag) == FOTSGURE_GCM_DONE, "siv: NULL for no bytes", 0);
    fotsgure_gcm_siv_wipe(&siv);
}

#ifndef FOTSGURE_CHECK_BARE
/* Nonces that the system draws: no two of them are equal, and each is the one that the message was sealed under. */
static void siv_drawn(void)
{
    uint8_t key[32] = {5}, nonces[64][12], text[20], tag[16];
    struct fotsgure_gcm_siv siv;
    int right = fotsgure_gcm_siv_set_key(&siv, key, sizeof key) == FOTSGURE_GCM_DONE;
    for (size_t i = 0; i < 64; i++) {
        memset(text, 1, sizeof text);
        right &= fotsgure_gcm_siv_seal_random(&siv, nonces[i], key, 3, text, sizeof text, tag) == FOTSGURE_GCM_DONE &&
            fotsgure_gcm_siv_open(&siv, nonces[i], key, 3, text, sizeof text, tag) == FOTSGURE_GCM_DONE &&
            all(text, sizeof text, 1);
        for (size_t j = 0; j < i; j++)
            right &= memcmp(nonces[i], nonces[j], 12) != 0;
        expect(right, "siv: a nonce that is drawn", i);
    }
    fotsgure_gcm_siv_wipe(&siv);
}
#endif

static void siv(void)
{
    siv_published();
    siv_lengths();
    siv_statuses();
#ifndef FOTSGURE_CHECK_BARE
    siv_drawn();
#endif
}
