"""The statements for the calls of fotsgure_aes.h."""
