/* wolfSSL's AES over fotsgure, by a callback: GCM, CCM, CBC, counter mode and ECB.
 *
 *     wc_CryptoCb_RegisterDevice(ID, fotsgure_wolfssl_callback, NULL);
 *
 * From then on an Aes that has this ID (wc_AesInit(&aes, NULL, ID), wolfSSL_CTX_SetDevId(ctx, ID)) is served by fotsgure. wolfSSL has to be
 * compiled with WOLF_CRYPTO_CB. Compile callback.c with the options of wolfSSL, also that of the standard (-std): the layout of
 * wc_CryptoInfo depends on it. */
#ifndef FOTSGURE_WOLFSSL_H
#define FOTSGURE_WOLFSSL_H

#include <wolfssl/wolfcrypt/settings.h>
#include <wolfssl/wolfcrypt/cryptocb.h>

#ifdef __cplusplus
extern "C" {
#endif
int fotsgure_wolfssl_callback(int device, wc_CryptoInfo *info, void *context);
#ifdef __cplusplus
}
#endif
#endif
