/* A PSA driver over fotsgure: see psa_driver.h. Each entry point makes a key schedule, makes proved calls with it, and wipes it. */
#include "psa_driver.h"
#include <string.h>
#include "fotsgure_aes.h"
#include "fotsgure_gcm.h"

/* What a call of AEAD is about. `input` is copied to `text`, which is processed in place. */
struct message {
    const uint8_t *nonce, *additional, *input;
    size_t nonce_length, additional_length;
    uint8_t *text;
    size_t length, tag_length;
};

static psa_status_t of_aes(enum fotsgure_aes_status status)
{
    if (status == FOTSGURE_AES_REFUSED)
        return PSA_ERROR_INVALID_SIGNATURE;
    return status == FOTSGURE_AES_DONE ? PSA_SUCCESS : PSA_ERROR_INVALID_ARGUMENT;
}

static psa_status_t of_gcm(enum fotsgure_gcm_status status)
{
    if (status == FOTSGURE_GCM_REFUSED)
        return PSA_ERROR_INVALID_SIGNATURE;
    return status == FOTSGURE_GCM_DONE ? PSA_SUCCESS : PSA_ERROR_INVALID_ARGUMENT;
}

/* Moves the input to where it is processed in place. */
static void put(uint8_t *output, const uint8_t *input, size_t length)
{
    if (length > 0)
        memmove(output, input, length);
}

static int is_aes(const psa_key_attributes_t *attributes)
{
    return psa_get_key_type(attributes) == PSA_KEY_TYPE_AES;
}

static int has_mode(psa_algorithm_t alg, psa_algorithm_t mode)
{
    return PSA_ALG_AEAD_WITH_SHORTENED_TAG(alg, 0) == PSA_ALG_AEAD_WITH_SHORTENED_TAG(mode, 0);
}

/* The tags that SP 800-38D allows (5.2.1.2). Others are left to PSA's own code. */
static int is_tag_of_gcm(size_t length)
{
    return length == 4 || length == 8 || (length >= 12 && length <= FOTSGURE_GCM_TAG);
}

static psa_status_t gcm_encrypt(const struct fotsgure_gcm *key, const struct message *message, uint8_t *tag)
{
    uint8_t whole[FOTSGURE_GCM_TAG];
    put(message->text, message->input, message->length);
    const psa_status_t status = of_gcm(fotsgure_gcm_seal(key, message->nonce, message->nonce_length, message->additional,
        message->additional_length, message->text, message->length, whole));
    if (status == PSA_SUCCESS)
        memcpy(tag, whole, message->tag_length);
    return status;
}

/* Compares the tag, and then decrypts. */
static psa_status_t gcm_decrypt(const struct fotsgure_gcm *key, const struct message *message, const uint8_t *tag)
{
    struct fotsgure_gcm_message pieces;
    const size_t tag_length = message->tag_length;
    enum fotsgure_gcm_status status = fotsgure_gcm_begin(key, &pieces, message->nonce, message->nonce_length);
    if (status == FOTSGURE_GCM_DONE)
        status = fotsgure_gcm_additional(key, &pieces, message->additional, message->additional_length);
    if (status == FOTSGURE_GCM_DONE)
        status = fotsgure_gcm_verify(key, &pieces, message->input, message->length);
    if (status == FOTSGURE_GCM_DONE)
        status = tag_length == FOTSGURE_GCM_TAG ? fotsgure_gcm_accept(key, &pieces, tag, tag_length)
                                                : fotsgure_gcm_accept_short(key, &pieces, tag_length, tag, tag_length);
    if (status == FOTSGURE_GCM_DONE) {
        put(message->text, message->input, message->length);
        status = fotsgure_gcm_decrypt(key, &pieces, message->text, message->length);
    }
    fotsgure_gcm_wipe_message(&pieces);
    return of_gcm(status);
}

/* Encrypts if `written` is where the tag goes, or else decrypts if `tag` is right. What fails leaves zeros. */
static psa_status_t aead(
    const uint8_t *key, size_t key_length, psa_algorithm_t alg, const struct message *message, uint8_t *written, const uint8_t *tag)
{
    psa_status_t status;
    if (has_mode(alg, PSA_ALG_GCM)) {
        struct fotsgure_gcm gcm;
        status = of_gcm(fotsgure_gcm_set_key(&gcm, key, key_length));
        if (status == PSA_SUCCESS)
            status = written ? gcm_encrypt(&gcm, message, written) : gcm_decrypt(&gcm, message, tag);
        fotsgure_gcm_wipe(&gcm);
    } else {
        struct fotsgure_aes aes;
        status = of_aes(fotsgure_aes_set_key(&aes, key, key_length));
        put(message->text, message->input, message->length);
        if (status == PSA_SUCCESS)
            status = of_aes(written ? fotsgure_aes_ccm_seal(&aes, message->nonce, message->nonce_length, message->additional,
                                          message->additional_length, message->text, message->length, written, message->tag_length)
                                    : fotsgure_aes_ccm_open(&aes, message->nonce, message->nonce_length, message->additional,
                                          message->additional_length, message->text, message->length, tag, message->tag_length));
        fotsgure_aes_wipe(&aes);
    }
    if (status != PSA_SUCCESS && message->length > 0)
        memset(message->text, 0, message->length);
    return status;
}

static int serves_aead(const psa_key_attributes_t *attributes, psa_algorithm_t alg)
{
    return is_aes(attributes) &&
        (has_mode(alg, PSA_ALG_CCM) || (has_mode(alg, PSA_ALG_GCM) && is_tag_of_gcm(PSA_ALG_AEAD_GET_TAG_LENGTH(alg))));
}

psa_status_t fotsgure_psa_aead_encrypt(const psa_key_attributes_t *attributes, const uint8_t *key_buffer, size_t key_buffer_size,
    psa_algorithm_t alg, const uint8_t *nonce, size_t nonce_length, const uint8_t *additional_data, size_t additional_data_length,
    const uint8_t *plaintext, size_t plaintext_length, uint8_t *ciphertext, size_t ciphertext_size, size_t *ciphertext_length)
{
    const size_t tag_length = PSA_ALG_AEAD_GET_TAG_LENGTH(alg);
    if (!serves_aead(attributes, alg))
        return PSA_ERROR_NOT_SUPPORTED;
    if (ciphertext_size < tag_length || ciphertext_size - tag_length < plaintext_length)
        return PSA_ERROR_BUFFER_TOO_SMALL;
    const struct message message = {
        nonce, additional_data, plaintext, nonce_length, additional_data_length, ciphertext, plaintext_length, tag_length};
    const psa_status_t status = aead(key_buffer, key_buffer_size, alg, &message, ciphertext + plaintext_length, NULL);
    if (status == PSA_SUCCESS)
        *ciphertext_length = plaintext_length + tag_length;
    return status;
}

psa_status_t fotsgure_psa_aead_decrypt(const psa_key_attributes_t *attributes, const uint8_t *key_buffer, size_t key_buffer_size,
    psa_algorithm_t alg, const uint8_t *nonce, size_t nonce_length, const uint8_t *additional_data, size_t additional_data_length,
    const uint8_t *ciphertext, size_t ciphertext_length, uint8_t *plaintext, size_t plaintext_size, size_t *plaintext_length)
{
    const size_t tag_length = PSA_ALG_AEAD_GET_TAG_LENGTH(alg);
    if (!serves_aead(attributes, alg))
        return PSA_ERROR_NOT_SUPPORTED;
    if (ciphertext_length < tag_length)
        return PSA_ERROR_INVALID_ARGUMENT;
    const size_t length = ciphertext_length - tag_length;
    if (plaintext_size < length)
        return PSA_ERROR_BUFFER_TOO_SMALL;
    const struct message message = {
        nonce, additional_data, ciphertext, nonce_length, additional_data_length, plaintext, length, tag_length};
    const psa_status_t status = aead(key_buffer, key_buffer_size, alg, &message, NULL, ciphertext + length);
    if (status == PSA_SUCCESS)
        *plaintext_length = length;
    return status;
}

psa_status_t fotsgure_psa_mac_compute(const psa_key_attributes_t *attributes, const uint8_t *key_buffer, size_t key_buffer_size,
    psa_algorithm_t alg, const uint8_t *input, size_t input_length, uint8_t *mac, size_t mac_size, size_t *mac_length)
{
    struct fotsgure_aes aes;
    uint8_t whole[FOTSGURE_AES_BLOCK];
    if (!is_aes(attributes) || PSA_ALG_FULL_LENGTH_MAC(alg) != PSA_ALG_CMAC)
        return PSA_ERROR_NOT_SUPPORTED;
    const size_t length = PSA_MAC_LENGTH(PSA_KEY_TYPE_AES, 8 * key_buffer_size, alg);
    if (length > sizeof whole)
        return PSA_ERROR_INVALID_ARGUMENT;
    if (mac_size < length)
        return PSA_ERROR_BUFFER_TOO_SMALL;
    psa_status_t status = of_aes(fotsgure_aes_set_key(&aes, key_buffer, key_buffer_size));
    if (status == PSA_SUCCESS)
        status = of_aes(fotsgure_aes_cmac(&aes, input, input_length, whole));
    if (status == PSA_SUCCESS) {
        memcpy(mac, whole, length);
        *mac_length = length;
    }
    fotsgure_aes_wipe(&aes);
    return status;
}

/* The text in place. */
static enum fotsgure_aes_status cipher(
    const struct fotsgure_aes *aes, psa_algorithm_t alg, int encrypts, const uint8_t *iv, uint8_t *text, size_t length)
{
    struct fotsgure_aes_ctr ctr = {{0}, 0};
    struct fotsgure_aes_cbc cbc;
    if (alg == PSA_ALG_CTR) {
        memcpy(ctr.iv, iv, 16);
        return fotsgure_aes_add_keystream(aes, &ctr, text, length);
    }
    if (alg == PSA_ALG_ECB_NO_PADDING)
        return encrypts ? fotsgure_aes_encrypt_blocks(aes, text, length / 16) : fotsgure_aes_decrypt_blocks(aes, text, length / 16);
    memcpy(cbc.previous, iv, 16);
    return encrypts ? fotsgure_aes_cbc_encrypt(aes, &cbc, text, length / 16) : fotsgure_aes_cbc_decrypt(aes, &cbc, text, length / 16);
}

static int serves_cipher(const psa_key_attributes_t *attributes, psa_algorithm_t alg)
{
    return is_aes(attributes) && (alg == PSA_ALG_CTR || alg == PSA_ALG_CBC_NO_PADDING || alg == PSA_ALG_ECB_NO_PADDING);
}

static psa_status_t process(const uint8_t *key, size_t key_length, psa_algorithm_t alg, int encrypts, const uint8_t *iv,
    const uint8_t *input, size_t input_length, uint8_t *output, size_t output_size, size_t *output_length)
{
    struct fotsgure_aes aes;
    uint8_t own_iv[16] = {0}; /* an output in place of the input may overwrite the other one */
    if (alg != PSA_ALG_CTR && input_length % 16 != 0)
        return PSA_ERROR_INVALID_ARGUMENT;
    if (output_size < input_length)
        return PSA_ERROR_BUFFER_TOO_SMALL;
    psa_status_t status = of_aes(fotsgure_aes_set_key(&aes, key, key_length));
    if (status == PSA_SUCCESS) {
        if (alg != PSA_ALG_ECB_NO_PADDING)
            memcpy(own_iv, iv, sizeof own_iv);
        put(output, input, input_length);
        status = of_aes(cipher(&aes, alg, encrypts, own_iv, output, input_length));
        *output_length = input_length;
    }
    fotsgure_aes_wipe(&aes);
    return status;
}

psa_status_t fotsgure_psa_cipher_encrypt(const psa_key_attributes_t *attributes, const uint8_t *key_buffer, size_t key_buffer_size,
    psa_algorithm_t alg, const uint8_t *iv, size_t iv_length, const uint8_t *input, size_t input_length, uint8_t *output,
    size_t output_size, size_t *output_length)
{
    if (!serves_cipher(attributes, alg))
        return PSA_ERROR_NOT_SUPPORTED;
    if (iv_length != (alg == PSA_ALG_ECB_NO_PADDING ? 0 : 16))
        return PSA_ERROR_INVALID_ARGUMENT;
    return process(key_buffer, key_buffer_size, alg, 1, iv, input, input_length, output, output_size, output_length);
}

/* The input begins with the initialization vector. */
psa_status_t fotsgure_psa_cipher_decrypt(const psa_key_attributes_t *attributes, const uint8_t *key_buffer, size_t key_buffer_size,
    psa_algorithm_t alg, const uint8_t *input, size_t input_length, uint8_t *output, size_t output_size, size_t *output_length)
{
    const size_t iv_length = alg == PSA_ALG_ECB_NO_PADDING ? 0 : 16;
    if (!serves_cipher(attributes, alg))
        return PSA_ERROR_NOT_SUPPORTED;
    if (input_length < iv_length)
        return PSA_ERROR_INVALID_ARGUMENT;
    return process(
        key_buffer, key_buffer_size, alg, 0, input, input + iv_length, input_length - iv_length, output, output_size, output_length);
}
