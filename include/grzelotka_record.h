/* Grzelotka: where the bytes of a device's record are, for a C or C++ host that reads them. docs/RECORD.md says which values they have.

   A name is the offset of the first byte of what it names. Words are 32 bits, low byte first. */
#ifndef GRZELOTKA_RECORD_H
#define GRZELOTKA_RECORD_H

enum {
    /* a byte each */
    GRZELOTKA_STACK_PRESENT = 0,
    GRZELOTKA_MODE = 1,
    GRZELOTKA_KEYS_STORED = 2,
    GRZELOTKA_AUTH_KEY_PRESENT = 3,
    GRZELOTKA_AUTH_KEY_LOCKED = 4,
    GRZELOTKA_ANTIROLLBACK = 5,
    GRZELOTKA_LOADED_KEY = 6,
    GRZELOTKA_STATE_REQUESTED = 7,
    GRZELOTKA_PENDING_ERROR = 8,
    GRZELOTKA_STORES_MADE = 9,
    /* a word each; those of the image and of the sectors recorded are an upgrade's or a delete's */
    GRZELOTKA_STACK_VERSION = 10,
    GRZELOTKA_STACK_SECTORS = 14,
    GRZELOTKA_BOUNDARY = 18,
    GRZELOTKA_IMAGE_SECTOR = 22,
    GRZELOTKA_IMAGE_SIZE = 26,
    GRZELOTKA_IMAGE_VERSION = 30,
    GRZELOTKA_SECTORS_RECORDED = 34,
    GRZELOTKA_FLOOR = 38,
    /* GRZELOTKA_SLOTS bytes for the locks, the types and the sizes of keys, a byte for each index */
    GRZELOTKA_LOCKS = 42,
    GRZELOTKA_AUTH_KEY = 143,
    GRZELOTKA_TYPES = 207,
    GRZELOTKA_SIZES = 308,
    GRZELOTKA_KEY_BYTES = 409,
    /* how many bytes a record has: what grzelotka_record_bytes answers */
    GRZELOTKA_RECORD_BYTES = 4853
};

/* How many indices a key can have (0 is the master's), the bytes for each key, and the bytes of the authentication key. */
enum { GRZELOTKA_SLOTS = 101, GRZELOTKA_KEY_BYTES_EACH = 44, GRZELOTKA_AUTH_KEY_BYTES = 64 };

/* The modes. From GRZELOTKA_IDLE on FUS runs, from GRZELOTKA_UPGRADE on there is a job. */
enum { GRZELOTKA_STACK_RUNS = 0, GRZELOTKA_IDLE = 1, GRZELOTKA_UPGRADE = 2, GRZELOTKA_DELETE = 3 };

#endif
