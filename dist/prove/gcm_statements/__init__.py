"""The statements for the calls of fotsgure_gcm.h."""
