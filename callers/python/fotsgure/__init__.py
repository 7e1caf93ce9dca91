"""AES, counter mode, GCM and AES-GCM-SIV, proved, over the C libraries fotsgure_aes and fotsgure_gcm.

    fotsgure.gcm     messages: GcmSiv, Gcm, Refused
    fotsgure.aead    AESGCM and AESGCMSIV, as the package cryptography has them
    fotsgure.aes     blocks and counter mode: Aes
"""
__all__ = ["aead", "aes", "gcm"]
__version__ = "0.4.0"
