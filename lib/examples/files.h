/* Files that are read whole, replaced whole and locked, for the example programs. Not proved.
 *
 * Each call answers 0, or -1 and says on standard error which file and why, so a caller only ends. */
#ifndef FILES_H
#define FILES_H

#include <stdbool.h>
#include <stddef.h>
#include <stdint.h>

/* Keys aren't written to a core, nor read by another process of the user; the files that the process makes are its
 * user's alone. */
void keep_secrets(void);

/* Reads a regular file whole, into a block that the caller frees by file_free; a 0 follows its octets. What is no
 * regular file is refused, and what is longer than `most` octets, so nothing is cut. */
int file_read(const char *path, size_t most, uint8_t **octets, size_t *octets_len);
/* Reads a file of a station in the same way: its engine's boots, or saved clocks. One of another user than this and
 * root is refused too. */
int file_read_own(const char *path, size_t most, uint8_t **octets, size_t *octets_len);
/* Wipes a block of file_read and frees it: a configuration has passwords. */
void file_free(uint8_t *octets, size_t octets_len);

/* Replaces the file by these octets: after a crash at any point, or on an error, the file has its old octets
 * or these, whole. It is readable by its owner alone. A new file, PATH.new. and six random characters, is written
 * first. One process does this at a time: lock it. */
int file_replace(const char *path, const void *octets, size_t octets_len);

/* Whether there is nothing at the path, not even a link to nothing. */
bool file_is_absent(const char *path);

/* Locks PATH.lock until the descriptor *lock is closed, or if `lock` is null until the process ends, and removes what
 * file_replace left of PATH in a process that was killed. It waits for the lock up to LOCK_SECONDS. An error: another
 * process has it still, or other users may write to its folder, as to /tmp. They could put files of theirs under these
 * names, or take these away. */
#define LOCK_SECONDS 5
int file_lock(const char *path, int *lock);

/* RFC 3414, section 2.2.2: here boots stay until the engine has another ID or its users other passwords. */
#define BOOTS_LATCHED 2147483647u

/* Locks the boots' file, and tells one more than its boots, or 1 where there is no file, which is refused where the
 * file must exist. Of BOOTS_LATCHED it tells the same. What isn't a number from 0 to BOOTS_LATCHED and a line feed is
 * refused, an empty file too: to begin at 1 again would have old messages accepted. */
int boots_next(const char *path, bool must_exist, uint32_t *boots);
/* Writes these boots into the file, which boots_next has locked. Nothing is sent with them before. */
int boots_keep(const char *path, uint32_t boots);

#endif
