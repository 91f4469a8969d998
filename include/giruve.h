/*
 * Giruve: finishes reads of an IBM 3330 disk that a correctable data check cut short. The calls of the proved library libgiruve.a, for C.
 *
 * What for. An adapter starts a chain of CCWs on its channel. Where the chain ends with unit check, it fetches the sense bytes, writes
 * them with the CSW into a report, and calls giruve_recover, which mends the bytes that are wrong in storage and says how to go on: most
 * often by the restart program that it has built. The next cut is treated alike, until the chain has ended. examples/adapter.c does this
 * from end to end. Besides, there are a trial drive that runs chains over the image of a pack (giruve_run, giruve_run_restart), a whole
 * reading on that drive (giruve_reading; examples/worked.c), and the checks of what these are lent (giruve_check_..).
 *
 * Model. A call that meets track addresses is told the model of the pack first, GIRUVE_MODEL_1 or GIRUVE_MODEL_11. It says which cylinders there
 * are, for the image, the extent, every seek and every restart. The library cannot see which model a pack is of; what comes of the wrong one
 * stands in docs/ADAPTERS.md of the repository.
 *
 * Areas. An area is a pointer and a length in bytes. A pointer is never NULL, not even for length 0, and an area that a call writes
 * overlaps no other area of that call; all else about the areas is checked. No area needs an alignment.
 *
 * Questions. A call asks its questions in the order of their numbers (GIRUVE_REFUSED_..), returns the number of the first whose answer is
 * no, and has then changed nothing. Where all are answered with yes, it returns GIRUVE_DONE, GIRUVE_LIMIT or GIRUVE_STOPPED, and has
 * written its answer area and whatever else is named with the call, and nothing besides.
 *
 * State. A call keeps nothing for the next one. The library has no writable data of its own, allocates nothing and makes no system call.
 * Calls may run on several threads at once, as long as an area that one of them writes is lent to no other meanwhile; areas that all of
 * them only read may be shared. A call needs GIRUVE_STACK bytes of stack.
 *
 * Linking. libgiruve.a is for x86-64, as ELF, with the System V calling convention (Linux); red zone and SSE registers are used as that
 * convention has them. It is position independent: it may become part of any program or shared library. It calls memmove and memset
 * and no other function from outside, so that a program without a C library need only bring these two.
 *
 * Bytes. A number of several bytes has its highest byte first, and bit 0 of a byte is its highest bit. A number behind the name of a part is its
 * length in bytes.
 */
#ifndef GIRUVE_H
#define GIRUVE_H

#include <stddef.h>
#include <stdint.h>

#ifdef __cplusplus
extern "C" {
#endif

/*
 * The version of this header, which is C99 and C++11, and of the library beside it; no call tells it. Major: a name or a call has changed or
 * gone, or an answer is another one; a program must be looked at. Minor: names or calls were added, or a report is answered that was refused; a
 * program need only be compiled. Patch: neither.
 */
#define GIRUVE_VERSION "4.0.0"
enum {
    GIRUVE_VERSION_MAJOR = 4,
    GIRUVE_VERSION_MINOR = 0,
    GIRUVE_VERSION_PATCH = 0,
};

/* The model of a 3336 pack. Both have heads 0 to 18. Any other number is refused by GIRUVE_REFUSED_AREAS, whatever else the call is lent. */
enum {
    GIRUVE_MODEL_1 = 1,    /* cylinders 0 to 410 */
    GIRUVE_MODEL_11 = 11,  /* cylinders 0 to 814 */
};

/* What a call returns where no question refuses it. Questions have the numbers 1 to 63. */
enum {
    GIRUVE_DONE = 0,      /* accepted, ended or answered */
    GIRUVE_LIMIT = 64,    /* "limit": as many commands as a run may begin, and no end; or a cut behind as many recoveries as a reading may make */
    GIRUVE_STOPPED = 65,  /* a reading ended as "stopped": a cut could not be recovered from */
};

/*
 * What a call returns where a question refuses it: the question whose answer is no. What makes an image, a fault list or a report well formed,
 * and when report and chain agree, stands point by point in docs/REFERENCE.md of the repository.
 */
enum {
    GIRUVE_REFUSED_AREAS = 1,      /* Are the model, the lengths of all areas and the command limit as they must be? */
    GIRUVE_REFUSED_IMAGE = 2,      /* Is the image well formed, and are its tracks on a pack of the model? */
    GIRUVE_REFUSED_FAULTS = 3,     /* Are the faults well formed, and has the image their records? */
    GIRUVE_REFUSED_REPORT = 4,     /* Is the report well formed? */
    GIRUVE_REFUSED_EXTENT = 5,     /* Are both tracks of the extent on a pack of the model, and is the first not after the last? */
    GIRUVE_REFUSED_ROW = 6,        /* Do sense bytes 0 to 2 name an error that the error table has? */
    GIRUVE_REFUSED_ACTION = 7,     /* Is the action for that error none of 6, 6A and 7, which are not built? */
    GIRUVE_REFUSED_FORMAT = 8,     /* For action 5: is sense byte 7 that of a correctable data check, 53 hexadecimal? */
    GIRUVE_REFUSED_AGREEMENT = 9,  /* Do report and chain agree? */
};

/*
 * Lengths of the areas that a caller lends. Those with one length have it exactly.
 *
 * chain      CCWs, a multiple of GIRUVE_CHAIN_MIN bytes; the first has address 0. TICs name CCWs of the chain, control and search commands
 *            bytes of the arguments, reads bytes of the storage; the first byte of each has address 0.
 * arguments  what control and search commands take: seek addresses, file mask, sector, IDs.
 * storage    what reads fill.
 * image      tagged fields (tag 1, length of the contents 2, contents). For each track, in ascending order: tag 01 hexadecimal, its home
 *            address (00, cylinder 2, 00, head 1); then for each record tag 02, its count area (cylinder 2, head 2, record number 1, key
 *            length 1, data length 2), key and data, together at most 13,030 bytes. Record 0 comes first; the others have distinct
 *            numbers. May be empty.
 * faults     tagged fields, at most one for a record: tag 20 hexadecimal, the record (cylinder 2, head 2, record number 1, not 0), error
 *            displacement 2 (where the wrong bytes begin, counted back from the end of the data area) and pattern 3. May be empty.
 * extent     the tracks in which a restart may seek: the first and the last, each cylinder 2, head 2.
 * list       entries of a reading's recoveries: room for as many as the command limit, or more.
 */
enum {
    GIRUVE_CHAIN_MIN = 8,
    GIRUVE_CHAIN_MAX = 2048,
    GIRUVE_ARGUMENTS_MAX = 4096,
    GIRUVE_STORAGE_MAX = 65536,
    GIRUVE_IMAGE_MAX = 1048576,
    GIRUVE_FAULTS_MAX = 65536,
    GIRUVE_EXTENT = 8,
    GIRUVE_REPORT_MAX = 60,         /* all six fields; a longer report is not well formed */
    GIRUVE_PROGRAM = 64,            /* restart program */
    GIRUVE_RESTART_ARGUMENTS = 16,  /* its arguments */
    GIRUVE_RUN_ANSWER = 36,
    GIRUVE_RECOVERY_ANSWER = 10,
    GIRUVE_READING_ANSWER = 11,
    GIRUVE_ENTRY = 6,               /* one entry of a list */
    GIRUVE_LIST_MAX = 24576,        /* GIRUVE_LIMIT_MAX entries: a list of this length serves every command limit */
};

/* Lengths of parts. */
enum {
    GIRUVE_CSW = 8,
    GIRUVE_SENSE = 24,
};

/*
 * Command limits: the commands that a run may begin. TICs and data-chained CCWs do not count. A reading also recovers from no more cuts
 * than the limit of its chain.
 */
enum {
    GIRUVE_LIMIT_MIN = 1,
    GIRUVE_LIMIT_MAX = 4096,
    GIRUVE_RESTART_LIMIT = 8192,  /* of a restart program's run, always */
};

/*
 * Bytes of stack that suffice for any call: its arguments and return address, all frames below them, and memmove and memset, even where the
 * dynamic linker first looks for these in the middle of a call. It is measured, with room above it (docs/FIGURES.md of the repository).
 * giruve_recover and the checks, without that search, use less than a tenth of it.
 */
enum {
    GIRUVE_STACK = 24576,
};

/* Places in a CSW. Its first byte is 0. */
enum {
    GIRUVE_AT_CSW_ADDRESS = 1,         /* 3: address of the last CCW, plus the length of a CCW */
    GIRUVE_AT_CSW_UNIT_STATUS = 4,     /* 1 */
    GIRUVE_AT_CSW_CHANNEL_STATUS = 5,  /* 1 */
    GIRUVE_AT_CSW_COUNT = 6,           /* 2: count left */
};

/* Bits of the unit status. */
enum {
    GIRUVE_CHANNEL_END = 0x08,
    GIRUVE_DEVICE_END = 0x04,
    GIRUVE_UNIT_CHECK = 0x02,      /* the sense bytes say why */
    GIRUVE_UNIT_EXCEPTION = 0x01,  /* a record without data */
};

/* Bits of the channel status. */
enum {
    GIRUVE_INCORRECT_LENGTH = 0x40,  /* bytes of a record, or a part of the count, were left over */
    GIRUVE_PROGRAM_CHECK = 0x20,     /* the chain itself is at fault */
};

/*
 * A report: tagged fields (tag 1, length of the contents 2, contents) in ascending order of their tags. The first three must be there, the
 * others may be.
 */
enum {
    GIRUVE_TAG_SENSE = 0x10,          /* GIRUVE_SENSE: as the drive gives them. Bits 3 to 7 of byte 6, the head reached, are for actions 10A and 11. For 9
                                         and 11 byte 3 is 06 hexadecimal, and bytes 15 to 17 have how many bytes the read has come */
    GIRUVE_TAG_CSW = 0x11,            /* GIRUVE_CSW: its first byte 0, its address counted from the front of the chain */
    GIRUVE_TAG_FIRST_CCW = 0x12,      /* 2: address of the first CCW of the read that was cut, or interrupted inside an overflow record, and of its data
                                         chain; 0 where no read was */
    GIRUVE_TAG_MASK = 0x13,           /* 1: the file mask that the chain had set, with bits 2, 5 and 6 off; absent where it had set none */
    GIRUVE_TAG_SEEK_ARGUMENT = 0x14,  /* 6: 0, 0, cylinder 2, head 2, for actions 8 to 11: that of the seek that a mask forbade, else of the last seek
                                         made, by a restart too. It cannot be checked: a wrong one leads to a wrong track. 8, 9, 10A and 11 take
                                         its cylinder alone; its head must still lie on the pack */
    GIRUVE_TAG_TRIES = 0x15,          /* 1: how often it was tried again for this error; absent stands for 0 */
};

/*
 * Where the restart stands among the addresses of the chain: its CCWs name these places, and its last TIC a CCW of the chain. The read of a restart
 * by action 9 or 11 names the storage.
 */
enum {
    GIRUVE_PROGRAM_ADDRESS = 0x1000,
    GIRUVE_RESTART_ARGUMENTS_ADDRESS = 0x2000,
};

/* Places in the answer of a run. */
enum {
    GIRUVE_AT_RUN_CSW = 0,         /* GIRUVE_CSW */
    GIRUVE_AT_RUN_SENSE = 8,       /* GIRUVE_SENSE: zeros where there is no unit check */
    GIRUVE_AT_RUN_MASK_SET = 32,   /* 1: whether a file mask is set, 1 or 0 */
    GIRUVE_AT_RUN_MASK = 33,       /* 1: that mask, or 0 */
    GIRUVE_AT_RUN_FIRST_CCW = 34,  /* 2: address of the first CCW of a read that was cut, or 0 where none was */
};

/* Places in the answer of a recovery. */
enum {
    GIRUVE_AT_RECOVERY_WHAT = 0,    /* 1: GIRUVE_ANSWER_.. */
    GIRUVE_AT_RECOVERY_ACTION = 1,  /* 1: GIRUVE_ACTION_.. */
    GIRUVE_AT_RECOVERY_CSW = 2,     /* GIRUVE_CSW: zeros, but for GIRUVE_ANSWER_FINISHED */
};

/* What is to be done, by the answer of a recovery. */
enum {
    GIRUVE_ANSWER_ACTION_1 = 1,        /* the error is permanent: tell the operator */
    GIRUVE_ANSWER_ACTION_2 = 2,        /* give the error back to the program that wanted to read, without another try */
    GIRUVE_ANSWER_REPEAT = 3,          /* run the chain again from its start, and count this as a try */
    GIRUVE_ANSWER_CORRECTED_ONLY = 4,  /* storage is mended; the chain is not carried on, since its mask has bit 7 (PCI fetch mode) on */
    GIRUVE_ANSWER_FINISHED = 5,        /* storage is mended, and the chain was at its end: it ended with the CSW of the answer */
    GIRUVE_ANSWER_RESTART = 6,         /* start the restart program; for action 5 and 5A storage is mended */
};

/* The action by which a recovery was made. */
enum {
    GIRUVE_ACTION_NONE = 0,    /* with GIRUVE_ANSWER_ACTION_1, GIRUVE_ANSWER_ACTION_2 and GIRUVE_ANSWER_REPEAT */
    GIRUVE_ACTION_5 = 0x05,    /* a data check mended; a restart goes on behind the record, found by its ID */
    GIRUVE_ACTION_5A = 0x15,   /* the same, with a read count (12, or 92 before an 86 or 8E) before the restart's last TIC */
    GIRUVE_ACTION_8 = 0x08,    /* a restart at the first track of the next cylinder, with the CCW that was interrupted */
    GIRUVE_ACTION_9 = 0x09,    /* a restart at the first track of the next cylinder, inside an overflow record: its read takes what is left of the CCW
                                  that was interrupted, and the chain goes on behind that */
    GIRUVE_ACTION_10 = 0x0A,   /* a restart that makes the user's seek, and goes on behind it */
    GIRUVE_ACTION_10A = 0x1A,  /* a restart at the track behind the head reached, with the CCW that was interrupted */
    GIRUVE_ACTION_11 = 0x0B,   /* a restart at the track behind the head reached, inside an overflow record: as action 9 */
};

/* Places in the answer of a reading. */
enum {
    GIRUVE_AT_READING_CSW = 0,          /* GIRUVE_CSW */
    GIRUVE_AT_READING_RECOVERIES = 8,   /* 2: how many were made, and stand in the list */
    GIRUVE_AT_READING_STOPPED_BY = 10,  /* 1: for GIRUVE_STOPPED, GIRUVE_ANSWER_ACTION_2 or GIRUVE_REFUSED_AGREEMENT; else 0 */
};

/* Places in an entry of a reading's list. */
enum {
    GIRUVE_AT_ENTRY_ACTION = 0,    /* 1: GIRUVE_ACTION_5 or GIRUVE_ACTION_5A */
    GIRUVE_AT_ENTRY_CYLINDER = 1,  /* 2 */
    GIRUVE_AT_ENTRY_HEAD = 3,      /* 2 */
    GIRUVE_AT_ENTRY_RECORD = 5,    /* 1 */
};

/* Asks GIRUVE_REFUSED_AREAS and GIRUVE_REFUSED_IMAGE of an image. Writes nothing. */
uint8_t giruve_check_image(uint8_t model, const uint8_t *image, size_t image_length);

/* Asks GIRUVE_REFUSED_AREAS, GIRUVE_REFUSED_IMAGE and GIRUVE_REFUSED_FAULTS of an image and a fault list. Writes nothing. */
uint8_t giruve_check_faults(uint8_t model, const uint8_t *image, size_t image_length, const uint8_t *faults, size_t faults_length);

/* Asks GIRUVE_REFUSED_AREAS and GIRUVE_REFUSED_EXTENT of an extent. Writes nothing. */
uint8_t giruve_check_extent(uint8_t model, const uint8_t *extent, size_t extent_length);

/* Ask GIRUVE_REFUSED_AREAS alone, of the lengths of a run's areas and its command limit, and of the lengths of the restart areas. */
uint8_t giruve_check_areas(size_t chain, size_t arguments, size_t storage, size_t image, size_t faults, size_t limit);
uint8_t giruve_check_restart_areas(size_t program, size_t restart_arguments);

/*
 * Recovers from one report. Asks GIRUVE_REFUSED_AREAS, then GIRUVE_REFUSED_REPORT and all that follow it; then returns GIRUVE_DONE.
 *
 * Writes the answer (GIRUVE_AT_RECOVERY_..), and by what it says (GIRUVE_ANSWER_..): storage, where it is mended; the restart program and its
 * arguments, both whole, for GIRUVE_ANSWER_RESTART. Where the seek of a restart would leave the pack or the extent, there is none:
 * GIRUVE_ANSWER_ACTION_2 is answered, and storage keeps its bytes. Of storage it changes the bytes that it mends, three at most, and
 * copies none: its time goes by the CCWs of the read, not by its bytes. For actions 9 and 11 it follows the read as far as sense bytes 15 to 17 say.
 * The longest way, 16,777,215 CCWs of one byte round a TIC, took a tenth of a second.
 */
uint8_t giruve_recover(uint8_t model, const uint8_t *chain, size_t chain_length, const uint8_t *report, size_t report_length,
                       const uint8_t *extent, size_t extent_length, uint8_t *storage, size_t storage_length,
                       uint8_t *program, size_t program_length,
                       uint8_t *restart_arguments, size_t restart_arguments_length, uint8_t *answer, size_t answer_length);

/*
 * Runs a chain on the trial drive, which begins at the index of track 000/00 and has no file mask. Asks GIRUVE_REFUSED_AREAS,
 * GIRUVE_REFUSED_IMAGE and GIRUVE_REFUSED_FAULTS; then returns GIRUVE_DONE where the run ended, by a cut too, or GIRUVE_LIMIT.
 *
 * Writes the answer (GIRUVE_AT_RUN_..), and storage as the reads do. A read of a faulted record is a cut: its bytes arrive with the pattern
 * exclusive-ored into them, and the run ends with GIRUVE_UNIT_CHECK and the sense bytes of a correctable data check.
 *
 * The drive takes these commands, hexadecimal, and rejects all others: 03 no-op, 07 seek, 1F set file mask, 23 set sector, 31 search ID
 * equal, 06 read data, 0E read key and data, 12 read count, 1E read count, key and data, 1A read home address; and B1, 86, 8E, 92 and 9E, the
 * multitrack forms of 31, 06, 0E, 12 and 1E, which step to the next head of the cylinder where these would come round to the front of the
 * track. A step past head 18 ends the run with GIRUVE_UNIT_CHECK, and end of cylinder in the sense: 20 in byte 1. So does a step that the file
 * mask forbids, with file protected in the sense: 04 in byte 1, and in byte 6 the head on which the drive stands.
 */
uint8_t giruve_run(uint8_t model, const uint8_t *chain, size_t chain_length, const uint8_t *arguments, size_t arguments_length,
                   uint8_t *storage, size_t storage_length, const uint8_t *image, size_t image_length,
                   const uint8_t *faults, size_t faults_length, size_t limit, uint8_t *answer, size_t answer_length);

/*
 * Runs a restart program, and the chain from the CCW on to which it leads, with GIRUVE_RESTART_LIMIT. Asks, returns and writes the same.
 *
 * The address in the CSW may lie in the restart program. Where the image lacks the track that a restart by action 8 to 11 seeks, it is that of its read
 * home address, 1A, which finds no record: 08 in byte 1 of the sense. The read of a restart by action 9 or 11 ends the chain there where it chains
 * nothing or has incorrect length. No record of the trial drive goes on on the next track.
 */
uint8_t giruve_run_restart(uint8_t model, const uint8_t *chain, size_t chain_length, const uint8_t *arguments, size_t arguments_length,
                           const uint8_t *program, size_t program_length,
                           const uint8_t *restart_arguments, size_t restart_arguments_length,
                           uint8_t *storage, size_t storage_length, const uint8_t *image, size_t image_length,
                           const uint8_t *faults, size_t faults_length, uint8_t *answer, size_t answer_length);

/*
 * A whole reading on the trial drive: run, recover, run on. Asks GIRUVE_REFUSED_AREAS, GIRUVE_REFUSED_IMAGE, GIRUVE_REFUSED_FAULTS and
 * GIRUVE_REFUSED_EXTENT; then returns GIRUVE_DONE where it ended, GIRUVE_LIMIT or GIRUVE_STOPPED.
 *
 * Writes the answer (GIRUVE_AT_READING_..); storage as reads and recoveries do; the list, with an entry (GIRUVE_AT_ENTRY_..) for each
 * recovery in order, and nothing behind the last; and for each restart its program and arguments, of which the last remain.
 *
 * The address in the CSW may lie in the restart program, from GIRUVE_PROGRAM_ADDRESS on. Only a read count, 92, ends a reading there, where the step
 * to the next head fails that the 86 or 8E behind it was to make (docs/OPERATORS.md of the repository).
 */
uint8_t giruve_reading(uint8_t model, const uint8_t *chain, size_t chain_length, const uint8_t *arguments, size_t arguments_length,
                       uint8_t *storage, size_t storage_length, const uint8_t *image, size_t image_length,
                       const uint8_t *faults, size_t faults_length, const uint8_t *extent, size_t extent_length, size_t limit,
                       uint8_t *program, size_t program_length,
                       uint8_t *restart_arguments, size_t restart_arguments_length,
                       uint8_t *list, size_t list_length, uint8_t *answer, size_t answer_length);

#ifdef __cplusplus
}
#endif

#endif
