"""Repeats what fotsgure_gcm.h says of statuses, structs, lengths and the phases of a message. headers.py lets the compiler compare the
first two."""
STATUSES = ("DONE KEY_LENGTH NO_KEY NONCE_LENGTH TAG_LENGTH TOO_LONG REFUSED NONCES_END OUT_OF_TURN NO_RANDOMNESS UNEQUAL_LENGTHS").split()
DONE, KEY_LENGTH, NO_KEY, NONCE_LENGTH, TAG_LENGTH, TOO_LONG, REFUSED, NONCES_END, OUT_OF_TURN, _, UNEQUAL_LENGTHS = range(11)
MULTIPLES, MESSAGE, REST = 1536, 80, 64
NONE, ADDITIONAL, ENCRYPTING, VERIFYING, DECRYPTING = range(5)  # phases of a message
# The phases in which a call may come.
TURNS = {"additional": (ADDITIONAL,), "encrypt": (ADDITIONAL, ENCRYPTING), "finish": (ADDITIONAL, ENCRYPTING),
         **{call: (ADDITIONAL, VERIFYING) for call in ("verify", "decrypt_unverified", "finish_unverified", "accept", "accept_short")},
         "decrypt": (DECRYPTING,)}
PHASES = {"encrypt": ENCRYPTING, "verify": VERIFYING, "decrypt_unverified": VERIFYING}  # phases in which later pieces of a text come
MOST, MOST_ADDITIONAL, MOST_NONCE = 2 ** 36 - 32, 2 ** 61 - 1, 2 ** 61 - 1
SHORT_TAGS = 4, 8, 12, 13, 14, 15  # bytes
