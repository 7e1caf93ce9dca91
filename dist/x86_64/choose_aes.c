/* Made by tools/dist from the header: the exports of a static library of several builds. */
#include "choose.h"
#include "fotsgure_aes.h"

EITHER(uint32_t, fotsgure_aes_version, (void), ())
EITHER(enum fotsgure_aes_status, fotsgure_aes_set_key, (struct fotsgure_aes *aes, const uint8_t *key,
    size_t key_length), (aes, key, key_length))
EITHER(size_t, fotsgure_aes_key_length, (const struct fotsgure_aes *aes), (aes))
EITHER_VOID(fotsgure_aes_wipe, (struct fotsgure_aes *aes), (aes))
EITHER(enum fotsgure_aes_status, fotsgure_aes_encrypt_blocks, (const struct fotsgure_aes *aes, uint8_t *blocks,
    size_t count), (aes, blocks, count))
EITHER(enum fotsgure_aes_status, fotsgure_aes_decrypt_blocks, (const struct fotsgure_aes *aes, uint8_t *blocks,
    size_t count), (aes, blocks, count))
EITHER(enum fotsgure_aes_status, fotsgure_aes_encrypt_blocks_to, (const struct fotsgure_aes *aes,
    const uint8_t *input, size_t input_count, uint8_t *output, size_t output_count), (aes, input, input_count, output,
    output_count))
EITHER(enum fotsgure_aes_status, fotsgure_aes_decrypt_blocks_to, (const struct fotsgure_aes *aes,
    const uint8_t *input, size_t input_count, uint8_t *output, size_t output_count), (aes, input, input_count, output,
    output_count))
EITHER(enum fotsgure_aes_status, fotsgure_aes_add_keystream, (const struct fotsgure_aes *aes,
    struct fotsgure_aes_ctr *ctr, uint8_t *bytes, size_t count), (aes, ctr, bytes, count))
EITHER(enum fotsgure_aes_status, fotsgure_aes_add_keystream_to, (const struct fotsgure_aes *aes,
    struct fotsgure_aes_ctr *ctr, const uint8_t *input, size_t input_count, uint8_t *output, size_t output_count),
    (aes, ctr, input, input_count, output, output_count))
EITHER(enum fotsgure_aes_status, fotsgure_aes_cbc_encrypt, (const struct fotsgure_aes *aes,
    struct fotsgure_aes_cbc *cbc, uint8_t *blocks, size_t count), (aes, cbc, blocks, count))
EITHER(enum fotsgure_aes_status, fotsgure_aes_cbc_decrypt, (const struct fotsgure_aes *aes,
    struct fotsgure_aes_cbc *cbc, uint8_t *blocks, size_t count), (aes, cbc, blocks, count))
EITHER(enum fotsgure_aes_status, fotsgure_aes_wrap, (const struct fotsgure_aes *aes, const uint8_t *input,
    size_t input_count, uint8_t *output, size_t output_count), (aes, input, input_count, output, output_count))
EITHER(enum fotsgure_aes_status, fotsgure_aes_unwrap, (const struct fotsgure_aes *aes, const uint8_t *input,
    size_t input_count, uint8_t *output, size_t output_count), (aes, input, input_count, output, output_count))
EITHER(enum fotsgure_aes_status, fotsgure_aes_wrap_padded, (const struct fotsgure_aes *aes, const uint8_t *input,
    size_t input_length, uint8_t *output, size_t output_count), (aes, input, input_length, output, output_count))
EITHER(enum fotsgure_aes_status, fotsgure_aes_unwrap_padded, (const struct fotsgure_aes *aes, const uint8_t *input,
    size_t input_count, uint8_t *output, size_t output_count, size_t *key_length), (aes, input, input_count, output,
    output_count, key_length))
EITHER(enum fotsgure_aes_status, fotsgure_aes_cmac, (const struct fotsgure_aes *aes, const uint8_t *message,
    size_t message_length, uint8_t tag[FOTSGURE_AES_BLOCK]), (aes, message, message_length, tag))
EITHER(enum fotsgure_aes_status, fotsgure_aes_cmac_verify, (const struct fotsgure_aes *aes, const uint8_t *message,
    size_t message_length, const uint8_t *tag, size_t tag_length), (aes, message, message_length, tag, tag_length))
EITHER(enum fotsgure_aes_status, fotsgure_aes_cmac_begin, (const struct fotsgure_aes *aes,
    struct fotsgure_aes_cmac_message *message), (aes, message))
EITHER(enum fotsgure_aes_status, fotsgure_aes_cmac_update, (const struct fotsgure_aes *aes,
    struct fotsgure_aes_cmac_message *message, const uint8_t *bytes, size_t count), (aes, message, bytes, count))
EITHER(enum fotsgure_aes_status, fotsgure_aes_cmac_finish, (const struct fotsgure_aes *aes,
    struct fotsgure_aes_cmac_message *message, uint8_t tag[FOTSGURE_AES_BLOCK]), (aes, message, tag))
EITHER(enum fotsgure_aes_status, fotsgure_aes_cmac_accept, (const struct fotsgure_aes *aes,
    struct fotsgure_aes_cmac_message *message, const uint8_t *tag, size_t tag_length), (aes, message, tag,
    tag_length))
EITHER_VOID(fotsgure_aes_cmac_wipe, (struct fotsgure_aes_cmac_message *message), (message))
EITHER(enum fotsgure_aes_status, fotsgure_aes_ccm_seal, (const struct fotsgure_aes *aes, const uint8_t *nonce,
    size_t nonce_length, const uint8_t *additional, size_t additional_length, uint8_t *text, size_t text_length,
    uint8_t *tag, size_t tag_length), (aes, nonce, nonce_length, additional, additional_length, text, text_length,
    tag, tag_length))
EITHER(enum fotsgure_aes_status, fotsgure_aes_ccm_open, (const struct fotsgure_aes *aes, const uint8_t *nonce,
    size_t nonce_length, const uint8_t *additional, size_t additional_length, uint8_t *text, size_t text_length,
    const uint8_t *tag, size_t tag_length), (aes, nonce, nonce_length, additional, additional_length, text,
    text_length, tag, tag_length))
EITHER_VOID(fotsgure_aes_cipher_round, (uint8_t block[FOTSGURE_AES_BLOCK],
    const uint8_t round_key[FOTSGURE_AES_BLOCK]), (block, round_key))
EITHER_VOID(fotsgure_aes_equiv_inv_cipher_round, (uint8_t block[FOTSGURE_AES_BLOCK],
    const uint8_t round_key[FOTSGURE_AES_BLOCK]), (block, round_key))
EITHER_VOID(fotsgure_aes_cipher_round_par, (uint8_t blocks[FOTSGURE_AES_EIGHT_BLOCKS],
    const uint8_t round_keys[FOTSGURE_AES_EIGHT_BLOCKS]), (blocks, round_keys))
EITHER_VOID(fotsgure_aes_equiv_inv_cipher_round_par, (uint8_t blocks[FOTSGURE_AES_EIGHT_BLOCKS],
    const uint8_t round_keys[FOTSGURE_AES_EIGHT_BLOCKS]), (blocks, round_keys))
EITHER_VOID(fotsgure_aes_mix_columns, (uint8_t block[FOTSGURE_AES_BLOCK]), (block))
EITHER_VOID(fotsgure_aes_inv_mix_columns, (uint8_t block[FOTSGURE_AES_BLOCK]), (block))
EITHER(enum fotsgure_aes_status, fotsgure_aes_encrypt_blocks_with, (const uint8_t *key, size_t key_length,
    uint8_t *blocks, size_t count), (key, key_length, blocks, count))
EITHER(enum fotsgure_aes_status, fotsgure_aes_decrypt_blocks_with, (const uint8_t *key, size_t key_length,
    uint8_t *blocks, size_t count), (key, key_length, blocks, count))
EITHER(enum fotsgure_aes_status, fotsgure_aes_add_keystream_with, (const uint8_t *key, size_t key_length,
    struct fotsgure_aes_ctr *ctr, uint8_t *bytes, size_t count), (key, key_length, ctr, bytes, count))
