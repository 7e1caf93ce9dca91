/* MBEDTLS_GCM_ALT: the context of mbedtls' GCM, of which fotsgure_gcm is inside. mbedtls/gcm.h includes this file. */
#ifndef FOTSGURE_MBEDTLS_GCM_ALT_H
#define FOTSGURE_MBEDTLS_GCM_ALT_H

#include "fotsgure_gcm.h"

typedef struct mbedtls_gcm_context {
    struct fotsgure_gcm key;
    struct fotsgure_gcm_message message;
    uint64_t text; /* bytes of text that have come */
    unsigned char begun, decrypting;
} mbedtls_gcm_context;

#endif
