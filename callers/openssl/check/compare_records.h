/* Records of TLS by GCM and by CBC, and nonces that are counted: a part of compare.c. */

/* One record of TLS 1.2 by GCM, which is made from `record`, or opened. Now and then it is too short, or its header has a
 * wrong length, or names one. After a wrong header *got is -1: OpenSSL continues without a header, under the next nonce. */
static int record(struct run *r, unsigned char *record, int text_length, int decrypts, int *got)
{
    unsigned char header[13] = {0, 1, 2, 3, 4, 5, 6, 7, 8, 9, 10};
    int around = decrypts ? 24 : 8, length = text_length + around, is_changed = decrypts && draw(r, 2);
    int named = draw(r, 16) ? length : (int)draw(r, (unsigned)around), count = draw(r, 16) ? 13 : (int)draw(r, 13);
    header[11] = (unsigned char)(named >> 8), header[12] = (unsigned char)named;
    *got = -1;
    if (ctrl(r, "header", EVP_CTRL_AEAD_TLS1_AAD, count, header, 0))
        return 1;
    if (count < 13 || named < around)
        return 0;
    if (is_changed)
        record[draw(r, (unsigned)text_length + 24)] ^= 1;
    length = draw(r, 16) ? text_length + 24 : (int)draw(r, (unsigned)text_length + 24);
    return update(r, record, length, draw(r, 2) ? BY_CIPHER : IN_PLACE, got) && !(is_changed && *got <= 0);
}

/* As OpenSSH counts nonces: one is taken, then a message comes. */
static int counted_message(struct run *r, const unsigned char *bytes, int decrypts)
{
    int got, is_sent = decrypts && draw(r, 2);
    return (is_sent ? ctrl(r, "sent", EVP_CTRL_GCM_SET_IV_INV, 8, bytes, 0)
                    : ctrl(r, "taken", EVP_CTRL_GCM_IV_GEN, draw(r, 2) ? 12 : 8, NULL, 1)) ||
        update(r, bytes, 4, ADDITIONAL, &got) || update(r, bytes + 12, 77, APART, &got) || answers(r) ||
        (decrypts && ctrl(r, "set tag", EVP_CTRL_AEAD_SET_TAG, 16, bytes, 0)) || finish(r, &got, &got);
}

static int records(struct run *r, const unsigned char *key)
{
    unsigned char fixed[12], bytes[600], sealed[600];
    int got, sealed_length = 0, whole = (int)draw(r, 2);
    fill(r, fixed, sizeof fixed);
    for (int decrypts = 0; decrypts < 2; decrypts++) {
        if (init(r, r->cipher, key, NULL, !decrypts) ||
            ctrl(r, "fixed", EVP_CTRL_AEAD_SET_IV_FIXED, whole || !decrypts ? -1 : 4, fixed, 0))
            return 1;
        for (int i = 0; i < 3; i++) {
            int length = decrypts ? sealed_length - 24 : (int)draw(r, 500);
            if (decrypts)
                memcpy(bytes, sealed, sizeof sealed);
            else
                fill(r, bytes, (size_t)length + 24);
            if (record(r, bytes, length, decrypts, &got))
                return 1;
            if (got < 0)
                return 0;
            if (!decrypts)
                memcpy(sealed, r->out[0], sizeof sealed), sealed_length = got;
            if (!decrypts && got < 24)
                return 0;
        }
        if (counted_message(r, bytes, decrypts))
            return 1;
    }
    return 0;
}

/* The MAC that a record by CBC had. Where its padding is wrong, each provider makes up another one. */
static int compare_macs(struct run *r, size_t length)
{
    unsigned char *mac[2] = {NULL, NULL};
    for (int k = 0; k < 2; k++) {
        OSSL_PARAM params[] = {
            OSSL_PARAM_octet_ptr(OSSL_CIPHER_PARAM_TLS_MAC, (void **)&mac[k], length), OSSL_PARAM_END};
        if (!EVP_CIPHER_CTX_get_params(r->ctx[k], params))
            return differ(r, "MAC", 1, 0);
    }
    return differ(r, "MAC", 1, length == 0 || (mac[0] && mac[1] && memcmp(mac[0], mac[1], length) == 0));
}

/* Records of TLS by CBC: each is made, and opened as it is, changed or cut. The version comes last: 3.0 is refused. */
static int records_by_cbc(struct run *r, const unsigned char *key)
{
    static const size_t mac_lengths[] = {0, 20, 32, 48};
    unsigned char bytes[600], iv[16];
    int version = 0x301 + (int)draw(r, 3), got, is_whole = 1;
    size_t mac_length = mac_lengths[draw(r, 4)];
    int length = 16 + (int)mac_length + (int)draw(r, 500);
    fill(r, bytes, sizeof bytes), fill(r, iv, sizeof iv);
    for (int decrypts = 0; decrypts < 2; decrypts++) {
        OSSL_PARAM params[] = {OSSL_PARAM_size_t(OSSL_CIPHER_PARAM_TLS_MAC_SIZE, &mac_length),
            OSSL_PARAM_int(OSSL_CIPHER_PARAM_TLS_VERSION, &version), OSSL_PARAM_END};
        if (init(r, r->cipher, key, iv, !decrypts) || differ(r, "params",
            EVP_CIPHER_CTX_set_params(r->ctx[0], params), EVP_CIPHER_CTX_set_params(r->ctx[1], params)))
            return 1;
        if (decrypts && draw(r, 2))
            bytes[draw(r, (unsigned)length)] ^= (unsigned char)(1 << draw(r, 8)), is_whole = 0;
        if (decrypts && draw(r, 4) == 0) /* OpenSSL reads a record without a first block as one of 2^64 bytes */
            length = 16 + (int)draw(r, (unsigned)length - 15), is_whole = 0;
        r->records_by_cbc = decrypts;
        if (update(r, bytes, length, draw(r, 8) ? IN_PLACE : APART, &got))
            return 1;
        if (got > 0 && decrypts)
            return is_whole && compare_macs(r, mac_length);
        is_whole = got > 0;
        if (got > 0)
            memcpy(bytes, r->out[0], (size_t)got), length = got;
    }
    return finish(r, &got, &got);
}
