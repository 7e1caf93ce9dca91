/* Messages in pieces, a part of gcm.c: cut in many ways, the published ones too; under counted nonces, out of turn; their fields; short
 * tags; every status. */
static uint8_t plain[300], text[300], sealed[300], additional[300], tag[16], wanted[16];

/* Whether a message in pieces of `piece` bytes is that of one call, and comes back in pieces, in each way. */
static int cut(const struct fotsgure_gcm *gcm, const uint8_t *nonce, size_t nonce_length, size_t piece, size_t extra,
    size_t length)
{
    struct fotsgure_gcm_message message;
    memcpy(sealed, plain, length);
    memcpy(text, plain, length);
    int right = fotsgure_gcm_seal(gcm, nonce, nonce_length, additional, extra, sealed, length, wanted) == 0;
    for (int way = 0; way < 4; way++) {
        size_t at, n;
        if (way >= 2)
            memcpy(text, sealed, length);
        right &= fotsgure_gcm_begin(gcm, &message, nonce, nonce_length) == FOTSGURE_GCM_DONE;
        for (at = 0; at < extra; at += n) {
            n = extra - at < piece ? extra - at : piece;
            right &= fotsgure_gcm_additional(gcm, &message, additional + at, n) == FOTSGURE_GCM_DONE;
        }
        for (at = 0; at < length; at += n) {
            n = length - at < piece ? length - at : piece;
            right &= (way == 0 ? fotsgure_gcm_encrypt(gcm, &message, text + at, n)
                    : way == 1 ? fotsgure_gcm_verify(gcm, &message, text + at, n)
                               : fotsgure_gcm_decrypt_unverified(gcm, &message, text + at, n)) == FOTSGURE_GCM_DONE;
        }
        if (way == 0 || way == 3) {
            memset(tag, 0, 16);
            right &= (way == 0 ? fotsgure_gcm_finish(gcm, &message, tag)
                               : fotsgure_gcm_finish_unverified(gcm, &message, tag)) == FOTSGURE_GCM_DONE;
            right &= memcmp(tag, wanted, 16) == 0 && memcmp(text, way == 0 ? sealed : plain, length) == 0;
            right &= all(&message, sizeof message, 0);
            continue;
        }
        tag[length % 16] ^= 8;
        right &= fotsgure_gcm_accept(gcm, &message, tag, 16) == FOTSGURE_GCM_REFUSED;
        tag[length % 16] ^= 8;
        right &= fotsgure_gcm_accept(gcm, &message, tag, 16) == FOTSGURE_GCM_DONE;
        for (at = 0; way == 1 && at < length; at += n) {
            n = length - at < piece ? length - at : piece;
            right &= fotsgure_gcm_decrypt(gcm, &message, text + at, n) == FOTSGURE_GCM_DONE;
        }
        right &= memcmp(text, plain, length) == 0;
        right &= way == 2 || fotsgure_gcm_decrypt(gcm, &message, text, 1) == FOTSGURE_GCM_TOO_LONG;
    }
    fotsgure_gcm_wipe_message(&message);
    return right && all(&message, sizeof message, 0);
}

/* Messages in pieces under counted nonces, with a carry, up to the end of the counter. */
static void counted_pieces(const struct fotsgure_gcm *gcm, const struct fotsgure_gcm *none)
{
    struct fotsgure_gcm_message message, before;
    struct fotsgure_gcm_counter counter = {{0}};
    uint8_t nonce[12];
    memset(counter.next + 9, 0xff, 3);
    memset(text, 1, 5);
    memset(sealed, 1, 5);
    memset(&message, 6, sizeof message);
    before = message;
    memset(nonce, 2, 12);
    expect(fotsgure_gcm_begin_next(none, &message, &counter, nonce) == FOTSGURE_GCM_NO_KEY && counter.next[11] == 0xff &&
        all(nonce, 12, 2) && memcmp(&message, &before, sizeof message) == 0, "begin_next", 0);
    expect(fotsgure_gcm_begin_next(gcm, &message, &counter, nonce) == FOTSGURE_GCM_DONE && all(nonce, 9, 0) &&
        all(nonce + 9, 3, 0xff) && all(counter.next, 8, 0) && counter.next[8] == 1 && all(counter.next + 9, 3, 0),
        "begin_next", 1);
    expect(fotsgure_gcm_encrypt(gcm, &message, text, 2) == FOTSGURE_GCM_DONE &&
        fotsgure_gcm_encrypt(gcm, &message, text + 2, 3) == FOTSGURE_GCM_DONE &&
        fotsgure_gcm_finish(gcm, &message, tag) == FOTSGURE_GCM_DONE &&
        fotsgure_gcm_seal(gcm, nonce, 12, NULL, 0, sealed, 5, wanted) == FOTSGURE_GCM_DONE &&
        memcmp(text, sealed, 5) == 0 && memcmp(tag, wanted, 16) == 0, "begin_next", 2);
    memset(counter.next, 0xff, 12);
    expect(fotsgure_gcm_begin_next(none, &message, &counter, nonce) == FOTSGURE_GCM_NONCES_END, "begin_next", 3);
}

/* Short tags: each length with each fixed length, right ones and ones with a bit changed. */
static void short_tags(const struct fotsgure_gcm *gcm)
{
    struct fotsgure_gcm_message message;
    uint8_t nonce[12] = {8}, other[16];
    memcpy(text, plain, 20);
    if (fotsgure_gcm_seal(gcm, nonce, 12, additional, 7, text, 20, tag) != FOTSGURE_GCM_DONE)
        abort();
    for (size_t fixed = 0; fixed <= 17; fixed++) {
        int allowed = fixed == 4 || fixed == 8 || (fixed >= 12 && fixed <= 15);
        for (size_t length = 0; length <= 16; length++) {
            int right = fotsgure_gcm_begin(gcm, &message, nonce, 12) == FOTSGURE_GCM_DONE &&
                fotsgure_gcm_additional(gcm, &message, additional, 7) == FOTSGURE_GCM_DONE &&
                fotsgure_gcm_verify(gcm, &message, text, 20) == FOTSGURE_GCM_DONE;
            memcpy(other, tag, 16);
            other[length / 2] ^= 4;
            enum fotsgure_gcm_status refused = fotsgure_gcm_accept_short(gcm, &message, fixed, other, length);
            enum fotsgure_gcm_status accepted = fotsgure_gcm_accept_short(gcm, &message, fixed, tag, length);
            enum fotsgure_gcm_status decrypted = fotsgure_gcm_decrypt(gcm, &message, NULL, 0);
            expect(right && (allowed && length == fixed
                ? refused == FOTSGURE_GCM_REFUSED && accepted == FOTSGURE_GCM_DONE && decrypted == FOTSGURE_GCM_DONE
                : refused == FOTSGURE_GCM_TAG_LENGTH && accepted == FOTSGURE_GCM_TAG_LENGTH &&
                    decrypted == FOTSGURE_GCM_OUT_OF_TURN), "a short tag", 100 * fixed + length);
        }
    }
    fotsgure_gcm_wipe_message(&message);
}

/* The fields of a message, as a program reads them: what has come, and what comes next. No proof fixes their places. */
static void fields(const struct fotsgure_gcm *gcm)
{
    struct fotsgure_gcm_message message;
    const uint8_t nonce[12] = {1, 2, 3, 4, 5, 6, 7, 8, 9, 10, 11, 12};
    memset(text, 5, 21);
    expect(fotsgure_gcm_begin(gcm, &message, nonce, 12) == FOTSGURE_GCM_DONE &&
        fotsgure_gcm_additional(gcm, &message, additional, 3) == FOTSGURE_GCM_DONE && message.phase == 1 &&
        memcmp(message.first, nonce, 12) == 0 && message.first[15] == 1 && memcmp(message.rest, additional, 3) == 0 &&
        all(message.value, 16, 0), "fields after additional data", 3);
    expect(fotsgure_gcm_encrypt(gcm, &message, text, 21) == FOTSGURE_GCM_DONE && message.additional == 3 &&
        message.text == 21 && message.decrypted == 0 && message.phase == 2 && memcmp(message.rest, text + 16, 5) == 0,
        "fields after text", 21);
    expect(fotsgure_gcm_finish(gcm, &message, tag) == FOTSGURE_GCM_DONE &&
        fotsgure_gcm_begin(gcm, &message, nonce, 12) == FOTSGURE_GCM_DONE &&
        fotsgure_gcm_additional(gcm, &message, additional, 3) == FOTSGURE_GCM_DONE &&
        fotsgure_gcm_verify(gcm, &message, text, 21) == FOTSGURE_GCM_DONE && message.phase == 3 &&
        fotsgure_gcm_accept(gcm, &message, tag, 16) == FOTSGURE_GCM_DONE &&
        fotsgure_gcm_decrypt(gcm, &message, text, 2) == FOTSGURE_GCM_DONE && message.decrypted == 2 &&
        message.text == 21 && message.phase == 4, "fields of an accepted message", 21);
    fotsgure_gcm_wipe_message(&message);
}

/* What each call on a message answers in each phase: additional, encrypt, finish, verify, accept, decrypt, decrypt_unverified,
 * finish_unverified. */
static void out_of_turn(const struct fotsgure_gcm *gcm)
{
    enum { DONE = FOTSGURE_GCM_DONE, OUT = FOTSGURE_GCM_OUT_OF_TURN, LONG = FOTSGURE_GCM_TOO_LONG,
           REFUSED = FOTSGURE_GCM_REFUSED };
    static const int answers[6][8] = {
        {OUT, OUT, OUT, OUT, OUT, OUT, OUT, OUT}, {DONE, DONE, DONE, DONE, REFUSED, OUT, DONE, DONE},
        {OUT, DONE, DONE, OUT, OUT, OUT, OUT, OUT}, {OUT, OUT, OUT, DONE, REFUSED, OUT, DONE, DONE},
        {OUT, OUT, OUT, OUT, OUT, LONG, OUT, OUT}, {OUT, OUT, OUT, OUT, OUT, OUT, OUT, OUT},
    };
    const uint8_t nonce[12] = {1};
    for (uint64_t phase = 0; phase < 6; phase++) {
        for (int call = 0; call < 8; call++) {
            struct fotsgure_gcm_message message, before;
            uint8_t bytes[3] = {7, 7, 7}, made[16];
            memset(made, 9, sizeof made);
            if (fotsgure_gcm_begin(gcm, &message, nonce, 12) != FOTSGURE_GCM_DONE)
                abort();
            message.phase = phase;
            before = message;
            int status = call == 0 ? (int)fotsgure_gcm_additional(gcm, &message, bytes, 3)
                : call == 1 ? (int)fotsgure_gcm_encrypt(gcm, &message, bytes, 3)
                : call == 2 ? (int)fotsgure_gcm_finish(gcm, &message, made)
                : call == 3 ? (int)fotsgure_gcm_verify(gcm, &message, bytes, 3)
                : call == 4 ? (int)fotsgure_gcm_accept(gcm, &message, made, 16)
                : call == 5 ? (int)fotsgure_gcm_decrypt(gcm, &message, bytes, 3)
                : call == 6 ? (int)fotsgure_gcm_decrypt_unverified(gcm, &message, bytes, 3)
                            : (int)fotsgure_gcm_finish_unverified(gcm, &message, made);
            int same = memcmp(&message, &before, sizeof message) == 0 && all(bytes, 3, 7) && all(made, 16, 9);
            expect(status == answers[phase][call] && (status == DONE || same), "out of turn", 8 * phase + (size_t)call);
        }
    }
}

/* The published messages, in pieces of each size. Where the counter wraps, these end before the wrap, at it and after it. What one call
 * makes of them is what is published. */
static void published_in_pieces(void)
{
    for (size_t i = 0; i < sizeof cases / sizeof *cases; i++) {
        uint8_t key[32], nonce[128];
        struct fotsgure_gcm gcm;
        size_t bytes = from_hex(nonce, cases[i].nonce), extra = from_hex(additional, cases[i].additional);
        size_t length = from_hex(plain, cases[i].plain);
        if (fotsgure_gcm_set_key(&gcm, key, from_hex(key, cases[i].key)) != FOTSGURE_GCM_DONE)
            abort();
        for (size_t piece = 1; piece <= length; piece++)
            expect(cut(&gcm, nonce, bytes, piece, extra, length), "a published message, cut", 100 * i + piece);
        fotsgure_gcm_wipe(&gcm);
    }
}

/* Without a key, and too long: a message that is refused stays as it was. */
static void refused_pieces(const struct fotsgure_gcm *gcm, const struct fotsgure_gcm *none)
{
    uint8_t key[32] = {3}, nonce[12] = {4};
    struct fotsgure_gcm_message message, before;
    if (fotsgure_gcm_begin(gcm, &message, nonce, 12) != FOTSGURE_GCM_DONE)
        abort();
    before = message;
    expect(fotsgure_gcm_begin(none, &message, NULL, 0) == FOTSGURE_GCM_NONCE_LENGTH &&
        fotsgure_gcm_begin(gcm, &message, NULL, 0) == FOTSGURE_GCM_NONCE_LENGTH, "begin", 0);
    expect(fotsgure_gcm_begin(none, &message, nonce, 12) == FOTSGURE_GCM_NO_KEY, "begin", 1);
    expect(fotsgure_gcm_additional(none, &message, NULL, 0) == FOTSGURE_GCM_NO_KEY, "no key", 0);
    expect(fotsgure_gcm_encrypt(none, &message, NULL, 0) == FOTSGURE_GCM_NO_KEY, "no key", 1);
    expect(fotsgure_gcm_finish(none, &message, tag) == FOTSGURE_GCM_NO_KEY, "no key", 2);
    expect(fotsgure_gcm_verify(none, &message, NULL, 0) == FOTSGURE_GCM_NO_KEY, "no key", 3);
    expect(fotsgure_gcm_accept(none, &message, tag, 15) == FOTSGURE_GCM_TAG_LENGTH &&
        fotsgure_gcm_accept(gcm, &message, tag, 15) == FOTSGURE_GCM_TAG_LENGTH, "no key", 4);
    expect(fotsgure_gcm_accept(none, &message, tag, 16) == FOTSGURE_GCM_NO_KEY, "no key", 5);
    expect(fotsgure_gcm_decrypt(none, &message, NULL, 0) == FOTSGURE_GCM_NO_KEY, "no key", 6);
    expect(fotsgure_gcm_decrypt_unverified(none, &message, NULL, 0) == FOTSGURE_GCM_NO_KEY, "no key", 7);
    expect(fotsgure_gcm_finish_unverified(none, &message, tag) == FOTSGURE_GCM_NO_KEY, "no key", 8);
    expect(IS_32 || fotsgure_gcm_additional(gcm, &message, key, (size_t)FOTSGURE_GCM_MOST_ADDITIONAL + 1) ==
        FOTSGURE_GCM_TOO_LONG, "too long", 0);
    expect(IS_32 || fotsgure_gcm_encrypt(gcm, &message, key, (size_t)FOTSGURE_GCM_MOST + 1) == FOTSGURE_GCM_TOO_LONG,
        "too long", 1);
    expect(memcmp(&message, &before, sizeof message) == 0, "a message that is refused stays as it was", 0);
    expect(fotsgure_gcm_encrypt(gcm, &message, NULL, 0) == FOTSGURE_GCM_DONE, "NULL for no bytes", 1);
    fotsgure_gcm_wipe_message(&message);
}

static void pieces(void)
{
    uint8_t key[32] = {3}, nonce[60] = {4};
    struct fotsgure_gcm gcm, none;
    memset(&none, 0, sizeof none);
    for (size_t i = 0; i < sizeof plain; i++) {
        plain[i] = (uint8_t)(i * 5 + 1);
        additional[i] = (uint8_t)(i * 3 + 2);
    }
    if (fotsgure_gcm_set_key(&gcm, key, sizeof key) != FOTSGURE_GCM_DONE)
        abort();
    for (size_t length = 0; length <= sizeof plain; length += 1 + length / 12)
        for (size_t piece = 1; piece <= 67; piece += 1 + piece / 3)
            expect(cut(&gcm, nonce, piece % 2 ? 12 : 1 + length % 60, piece, length * 7 % 200, length), "cut", length);
    out_of_turn(&gcm);
    fields(&gcm);
    published_in_pieces();
    counted_pieces(&gcm, &none);
    short_tags(&gcm);
    refused_pieces(&gcm, &none);
    fotsgure_gcm_wipe(&gcm);
}
