/* Made by tools/dist from the header: the exports of a static library of several builds. */
#include "choose.h"
#include "fotsgure_gcm.h"

EITHER(uint32_t, fotsgure_gcm_version, (void), ())
EITHER(enum fotsgure_gcm_status, fotsgure_gcm_set_key, (struct fotsgure_gcm *gcm, const uint8_t *key,
    size_t key_length), (gcm, key, key_length))
EITHER(enum fotsgure_gcm_status, fotsgure_gcm_set_key_of, (struct fotsgure_gcm *gcm, const struct fotsgure_aes *aes),
    (gcm, aes))
EITHER(size_t, fotsgure_gcm_key_length, (const struct fotsgure_gcm *gcm), (gcm))
EITHER_VOID(fotsgure_gcm_wipe, (struct fotsgure_gcm *gcm), (gcm))
EITHER(enum fotsgure_gcm_status, fotsgure_gcm_seal, (const struct fotsgure_gcm *gcm, const uint8_t *nonce,
    size_t nonce_length, const uint8_t *additional, size_t additional_length, uint8_t *text, size_t text_length,
    uint8_t tag[FOTSGURE_GCM_TAG]), (gcm, nonce, nonce_length, additional, additional_length, text, text_length, tag))
EITHER(enum fotsgure_gcm_status, fotsgure_gcm_seal_to, (const struct fotsgure_gcm *gcm, const uint8_t *nonce,
    size_t nonce_length, const uint8_t *additional, size_t additional_length, const uint8_t *input,
    size_t input_length, uint8_t *output, size_t output_length, uint8_t tag[FOTSGURE_GCM_TAG]), (gcm, nonce,
    nonce_length, additional, additional_length, input, input_length, output, output_length, tag))
EITHER(enum fotsgure_gcm_status, fotsgure_gcm_seal_next, (const struct fotsgure_gcm *gcm,
    struct fotsgure_gcm_counter *counter, uint8_t nonce[FOTSGURE_GCM_NONCE], const uint8_t *additional,
    size_t additional_length, uint8_t *text, size_t text_length, uint8_t tag[FOTSGURE_GCM_TAG]), (gcm, counter, nonce,
    additional, additional_length, text, text_length, tag))
EITHER(enum fotsgure_gcm_status, fotsgure_gcm_open, (const struct fotsgure_gcm *gcm, const uint8_t *nonce,
    size_t nonce_length, const uint8_t *additional, size_t additional_length, uint8_t *text, size_t text_length,
    const uint8_t *tag, size_t tag_length), (gcm, nonce, nonce_length, additional, additional_length, text,
    text_length, tag, tag_length))
EITHER(enum fotsgure_gcm_status, fotsgure_gcm_open_to, (const struct fotsgure_gcm *gcm, const uint8_t *nonce,
    size_t nonce_length, const uint8_t *additional, size_t additional_length, const uint8_t *input,
    size_t input_length, uint8_t *output, size_t output_length, const uint8_t *tag, size_t tag_length), (gcm, nonce,
    nonce_length, additional, additional_length, input, input_length, output, output_length, tag, tag_length))
EITHER(enum fotsgure_gcm_status, fotsgure_gcm_begin, (const struct fotsgure_gcm *gcm,
    struct fotsgure_gcm_message *message, const uint8_t *nonce, size_t nonce_length), (gcm, message, nonce,
    nonce_length))
EITHER(enum fotsgure_gcm_status, fotsgure_gcm_begin_next, (const struct fotsgure_gcm *gcm,
    struct fotsgure_gcm_message *message, struct fotsgure_gcm_counter *counter, uint8_t nonce[FOTSGURE_GCM_NONCE]),
    (gcm, message, counter, nonce))
EITHER(enum fotsgure_gcm_status, fotsgure_gcm_additional, (const struct fotsgure_gcm *gcm,
    struct fotsgure_gcm_message *message, const uint8_t *additional, size_t additional_length), (gcm, message,
    additional, additional_length))
EITHER(enum fotsgure_gcm_status, fotsgure_gcm_encrypt, (const struct fotsgure_gcm *gcm,
    struct fotsgure_gcm_message *message, uint8_t *text, size_t text_length), (gcm, message, text, text_length))
EITHER(enum fotsgure_gcm_status, fotsgure_gcm_finish, (const struct fotsgure_gcm *gcm,
    struct fotsgure_gcm_message *message, uint8_t tag[FOTSGURE_GCM_TAG]), (gcm, message, tag))
EITHER(enum fotsgure_gcm_status, fotsgure_gcm_verify, (const struct fotsgure_gcm *gcm,
    struct fotsgure_gcm_message *message, const uint8_t *text, size_t text_length), (gcm, message, text, text_length))
EITHER(enum fotsgure_gcm_status, fotsgure_gcm_accept, (const struct fotsgure_gcm *gcm,
    struct fotsgure_gcm_message *message, const uint8_t *tag, size_t tag_length), (gcm, message, tag, tag_length))
EITHER(enum fotsgure_gcm_status, fotsgure_gcm_accept_short, (const struct fotsgure_gcm *gcm,
    struct fotsgure_gcm_message *message, size_t fixed_length, const uint8_t *tag, size_t tag_length), (gcm, message,
    fixed_length, tag, tag_length))
EITHER(enum fotsgure_gcm_status, fotsgure_gcm_decrypt, (const struct fotsgure_gcm *gcm,
    struct fotsgure_gcm_message *message, uint8_t *text, size_t text_length), (gcm, message, text, text_length))
EITHER(enum fotsgure_gcm_status, fotsgure_gcm_decrypt_unverified, (const struct fotsgure_gcm *gcm,
    struct fotsgure_gcm_message *message, uint8_t *text, size_t text_length), (gcm, message, text, text_length))
EITHER(enum fotsgure_gcm_status, fotsgure_gcm_finish_unverified, (const struct fotsgure_gcm *gcm,
    struct fotsgure_gcm_message *message, uint8_t tag[FOTSGURE_GCM_TAG]), (gcm, message, tag))
EITHER_VOID(fotsgure_gcm_wipe_message, (struct fotsgure_gcm_message *message), (message))
EITHER(enum fotsgure_gcm_status, fotsgure_gcm_siv_set_key, (struct fotsgure_gcm_siv *siv, const uint8_t *key,
    size_t key_length), (siv, key, key_length))
EITHER(enum fotsgure_gcm_status, fotsgure_gcm_siv_seal, (const struct fotsgure_gcm_siv *siv,
    const uint8_t nonce[FOTSGURE_GCM_SIV_NONCE], const uint8_t *additional, size_t additional_length, uint8_t *text,
    size_t text_length, uint8_t tag[FOTSGURE_GCM_TAG]), (siv, nonce, additional, additional_length, text, text_length,
    tag))
EITHER(enum fotsgure_gcm_status, fotsgure_gcm_siv_seal_to, (const struct fotsgure_gcm_siv *siv,
    const uint8_t nonce[FOTSGURE_GCM_SIV_NONCE], const uint8_t *additional, size_t additional_length,
    const uint8_t *input, size_t input_length, uint8_t *output, size_t output_length, uint8_t tag[FOTSGURE_GCM_TAG]),
    (siv, nonce, additional, additional_length, input, input_length, output, output_length, tag))
EITHER(enum fotsgure_gcm_status, fotsgure_gcm_siv_open, (const struct fotsgure_gcm_siv *siv,
    const uint8_t nonce[FOTSGURE_GCM_SIV_NONCE], const uint8_t *additional, size_t additional_length, uint8_t *text,
    size_t text_length, const uint8_t tag[FOTSGURE_GCM_TAG]), (siv, nonce, additional, additional_length, text,
    text_length, tag))
EITHER(enum fotsgure_gcm_status, fotsgure_gcm_siv_open_to, (const struct fotsgure_gcm_siv *siv,
    const uint8_t nonce[FOTSGURE_GCM_SIV_NONCE], const uint8_t *additional, size_t additional_length,
    const uint8_t *input, size_t input_length, uint8_t *output, size_t output_length,
    const uint8_t tag[FOTSGURE_GCM_TAG]), (siv, nonce, additional, additional_length, input, input_length, output,
    output_length, tag))
EITHER_VOID(fotsgure_gcm_siv_wipe, (struct fotsgure_gcm_siv *siv), (siv))
