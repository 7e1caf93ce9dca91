/* The entry points of a PSA driver over fotsgure, for keys of AES: aead_encrypt and aead_decrypt (GCM, CCM), mac_compute (CMAC), and
 * cipher_encrypt and cipher_decrypt (CTR, ECB and CBC without padding), each a message in one call. The driver's prefix is fotsgure_psa.
 * For everything else they return PSA_ERROR_NOT_SUPPORTED, so that PSA asks the next driver, or its own code. */
#ifndef FOTSGURE_PSA_DRIVER_H
#define FOTSGURE_PSA_DRIVER_H

#include <psa/crypto.h>

psa_status_t fotsgure_psa_aead_encrypt(const psa_key_attributes_t *attributes, const uint8_t *key_buffer, size_t key_buffer_size,
    psa_algorithm_t alg, const uint8_t *nonce, size_t nonce_length, const uint8_t *additional_data, size_t additional_data_length,
    const uint8_t *plaintext, size_t plaintext_length, uint8_t *ciphertext, size_t ciphertext_size, size_t *ciphertext_length);
psa_status_t fotsgure_psa_aead_decrypt(const psa_key_attributes_t *attributes, const uint8_t *key_buffer, size_t key_buffer_size,
    psa_algorithm_t alg, const uint8_t *nonce, size_t nonce_length, const uint8_t *additional_data, size_t additional_data_length,
    const uint8_t *ciphertext, size_t ciphertext_length, uint8_t *plaintext, size_t plaintext_size, size_t *plaintext_length);
psa_status_t fotsgure_psa_mac_compute(const psa_key_attributes_t *attributes, const uint8_t *key_buffer, size_t key_buffer_size,
    psa_algorithm_t alg, const uint8_t *input, size_t input_length, uint8_t *mac, size_t mac_size, size_t *mac_length);
psa_status_t fotsgure_psa_cipher_encrypt(const psa_key_attributes_t *attributes, const uint8_t *key_buffer, size_t key_buffer_size,
    psa_algorithm_t alg, const uint8_t *iv, size_t iv_length, const uint8_t *input, size_t input_length, uint8_t *output,
    size_t output_size, size_t *output_length);
psa_status_t fotsgure_psa_cipher_decrypt(const psa_key_attributes_t *attributes, const uint8_t *key_buffer, size_t key_buffer_size,
    psa_algorithm_t alg, const uint8_t *input, size_t input_length, uint8_t *output, size_t output_size, size_t *output_length);

#endif
