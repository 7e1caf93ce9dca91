/* mbedtls' configuration for check/microcontroller.c: AES and its modes, and nothing that needs a system. With WITH_FOTSGURE they are
 * over fotsgure; else they are mbedtls' own, with tables in flash. */
#define MBEDTLS_AES_C
#define MBEDTLS_CIPHER_C
#define MBEDTLS_CIPHER_MODE_CBC
#define MBEDTLS_CIPHER_MODE_CTR
#define MBEDTLS_CIPHER_MODE_CFB
#define MBEDTLS_CIPHER_MODE_OFB
#define MBEDTLS_CIPHER_MODE_XTS
#define MBEDTLS_GCM_C
#define MBEDTLS_CCM_C
#define MBEDTLS_CMAC_C
#define MBEDTLS_NIST_KW_C
#define MBEDTLS_CTR_DRBG_C
#define MBEDTLS_PLATFORM_C
#define MBEDTLS_HAVE_ASM
#define MBEDTLS_AES_ROM_TABLES
#define MBEDTLS_SELF_TEST
#ifdef FEWER_TABLES
#define MBEDTLS_AES_FEWER_TABLES
#endif
#ifdef WITH_FOTSGURE
#define MBEDTLS_AES_ALT
#define MBEDTLS_GCM_ALT
#define MBEDTLS_CCM_ALT
#define MBEDTLS_NIST_KW_ALT
#endif
