/* A message is sealed under the next nonce of a counter that is kept in a file beside its key, and opened again.
 *
 *   example seal FOLDER > MESSAGE    with the file FOLDER/key, which it makes if there is none
 *   example open FILE < MESSAGE      with the file of its key: FOLDER/key, FOLDER/key.1, ..
 *   example new-key FOLDER           moves FOLDER/key to the first free name of FOLDER/key.1, .., which it prints. The next
 *                                    message draws another key
 *   example old-key FOLDER NAME      moves FOLDER/key away likewise, and FOLDER/NAME back to FOLDER/key
 *
 * The order is what keeps a nonce from being used twice: lock, read key and counter, seal, store both, unlock, and only
 * then send. A crash in between loses a nonce, which does no harm.
 *
 *  - Two processes, and two threads: the second waits for the lock, and reads what the first has stored.
 *  - A forked child: the same. Each call opens the folder and reads the file again, and no counter stays in memory,
 *    where a fork would copy it.
 *  - A new key: `new-key` moves the file, so that the counter stays with its key, and replaces no other file. Old messages
 *    are opened with the old file, by a call that can't seal. Never move the file without the lock: a call that runs may
 *    write it again, and the moved copy then has an older counter.
 *  - A copy of the file that comes back, from a backup or a snapshot: its counter is an old one. The nonces come again,
 *    and nothing here can see it. CALL new-key before the next message, and never go back to that key. Do the same if
 *    the file is damaged, which is refused here.
 *  - The folder needs a local file system, which has flock(2) for folders. */
#define _GNU_SOURCE
#include <fotsgure_gcm.h>

#include <errno.h>
#include <fcntl.h>
#include <stdio.h>
#include <string.h>
#include <sys/file.h>
#include <sys/random.h>
#include <sys/stat.h>
#include <unistd.h>

/* What the file holds: a key, and the next nonce under it. They are written and moved together, so that no key is ever
 * beside the counter of another. */
struct kept {
    uint8_t key[32];
    struct fotsgure_gcm_counter counter;
};

/* A message as it is sent. The name and the nonce aren't encrypted. */
struct sealed {
    uint8_t name[16], nonce[FOTSGURE_GCM_NONCE], text[32], tag[FOTSGURE_GCM_TAG];
};

/* Says what failed and why: `why`, or without it what the system says. Returns 0. */
static int fails(const char *what, const char *why)
{
    fprintf(stderr, "example: %s: %s\n", what, why ? why : strerror(errno));
    return 0;
}

/* The calls below return 1, or 0 once they have said what failed. */

static int load(int folder, const char *name, struct kept *kept)
{
    uint8_t more;
    int file = openat(folder, name, O_RDONLY | O_CLOEXEC);
    ssize_t length = file < 0 ? -1 : read(file, kept, sizeof *kept);
    int loaded = length == (ssize_t)sizeof *kept && read(file, &more, 1) == 0;
    if (length < 0)
        fails(name, NULL);
    else if (!loaded)
        fails(name, "it doesn't have the 44 bytes of a key and its counter. Call new-key: the next message draws another key");
    if (file >= 0)
        close(file);
    return loaded;
}

/* Draws a key from the system's generator. Don't use a password as a key. */
static int draw(struct kept *kept)
{
    memset(&kept->counter, 0, sizeof kept->counter);
    return getrandom(kept->key, sizeof kept->key, 0) == sizeof kept->key || fails("no key was drawn", NULL);
}

/* Writes another file, flushes it, gives it the name, and flushes the folder. After a crash the old file or the new one is
 * there, whole. A file that a crash left is not written again: others might be allowed to read it. */
static int store(int folder, const char *name, const struct kept *kept)
{
    int is_free = unlinkat(folder, "new", 0) == 0 || errno == ENOENT;
    int file = is_free ? openat(folder, "new", O_WRONLY | O_CREAT | O_EXCL | O_CLOEXEC, 0600) : -1;
    if (file >= 0)
        errno = ENOSPC; /* the reason if fewer bytes are written */
    int stored = file >= 0 && write(file, kept, sizeof *kept) == (ssize_t)sizeof *kept && fsync(file) == 0;
    if (file >= 0 && close(file) != 0)
        stored = 0;
    return (stored && renameat(folder, "new", folder, name) == 0 && fsync(folder) == 0) ||
        fails("the counter was not stored, so nothing is sent, and the key is as good as before", NULL);
}

static int seal_next(struct kept *kept, struct sealed *message)
{
    struct fotsgure_gcm gcm = {0};
    int sealed = fotsgure_gcm_set_key(&gcm, kept->key, sizeof kept->key) == FOTSGURE_GCM_DONE &&
        fotsgure_gcm_seal_next(&gcm, &kept->counter, message->nonce, message->name, sizeof message->name, message->text,
            sizeof message->text, message->tag) == FOTSGURE_GCM_DONE;
    fotsgure_gcm_wipe(&gcm);
    return sealed || fails("key", "no nonce is left. Call new-key: the next message draws another key");
}

/* Opens the folder and waits for its lock. Returns -1 if that fails, or if others may write the folder: they could put
 * an old counter back. */
static int locked(const char *path)
{
    struct stat about;
    int folder = open(path, O_RDONLY | O_DIRECTORY | O_CLOEXEC), is_ours = 0;
    if (folder < 0 || fstat(folder, &about) != 0 || flock(folder, LOCK_EX) != 0)
        fails(path, NULL);
    else if (about.st_uid != geteuid() || (about.st_mode & (S_IWGRP | S_IWOTH)) != 0)
        fails(path, "others may write this folder. Use one of your own, with chmod 700");
    else
        is_ours = 1;
    if (folder >= 0 && !is_ours)
        close(folder);
    return is_ours ? folder : -1;
}

static int is_there(int folder, const char *name)
{
    struct stat about;
    return fstatat(folder, name, &about, AT_SYMLINK_NOFOLLOW) == 0 || errno != ENOENT;
}

/* Encrypts the text in place. Send it if this returns 1, and if not, send nothing of it. */
static int seal(const char *path, struct sealed *message)
{
    struct kept kept;
    int folder = locked(path);
    if (folder < 0)
        return 0;
    int sealed = (is_there(folder, "key") ? load(folder, "key", &kept) : draw(&kept)) && seal_next(&kept, message) &&
        store(folder, "key", &kept);
    explicit_bzero(&kept, sizeof kept);
    close(folder); /* and so unlocks it */
    return sealed;
}

/* Moves a file of the folder, whose lock is held, to a name that no file has. After a crash it has one of the names. */
static int move(int folder, const char *from, const char *to)
{
    return (renameat(folder, from, folder, to) == 0 && fsync(folder) == 0) || fails("the key was not changed", NULL);
}

/* Moves the key to the first free name of key.1, key.2, .. */
static int move_away(int folder, char name[16])
{
    int number = 0;
    do
        snprintf(name, 16, "key.%d", ++number);
    while (is_there(folder, name));
    return move(folder, "key", name);
}

static int new_key(const char *path)
{
    char name[16];
    int folder = locked(path);
    if (folder < 0)
        return 0;
    int moved = is_there(folder, "key") ? move_away(folder, name) : fails("key", "there is none: the next message draws one");
    close(folder);
    return moved && printf("%s/%s\n", path, name) > 0;
}

/* A crash during this call leaves no key: the next message draws one. */
static int old_key(const char *path, const char *name)
{
    char other[16] = "";
    struct kept kept;
    if (strncmp(name, "key.", strlen("key.")) != 0 || strchr(name, '/'))
        return fails(name, "use a name that new-key has printed, without the folder");
    int folder = locked(path);
    if (folder < 0)
        return 0;
    int moved = load(folder, name, &kept) && (!is_there(folder, "key") || move_away(folder, other)) &&
        move(folder, name, "key");
    explicit_bzero(&kept, sizeof kept);
    close(folder);
    return moved && (!*other || printf("%s/%s\n", path, other) > 0);
}

/* Decrypts the text in place, if nothing was changed, with the key of the file that is named: the present one or an
 * older. */
static int open_with(const char *file, struct sealed *message)
{
    struct kept kept;
    struct fotsgure_gcm gcm = {0};
    int loaded = load(AT_FDCWD, file, &kept);
    int opened = loaded && fotsgure_gcm_set_key(&gcm, kept.key, sizeof kept.key) == FOTSGURE_GCM_DONE &&
        fotsgure_gcm_open(&gcm, message->nonce, sizeof message->nonce, message->name, sizeof message->name, message->text,
            sizeof message->text, message->tag, sizeof message->tag) == FOTSGURE_GCM_DONE;
    fotsgure_gcm_wipe(&gcm);
    explicit_bzero(&kept, sizeof kept);
    return opened || (loaded && fails("the message", "it was changed, or sealed under another key"));
}

/* Returns 1, or 0 if something failed, or -1 if there is no such call. */
static int run(int count, char **words)
{
    struct sealed message = {"its name", {0}, "a message", {0}};
    const char *word = count >= 3 ? words[1] : "";
    if (count == 3 && strcmp(word, "seal") == 0)
        return seal(words[2], &message) && fwrite(&message, sizeof message, 1, stdout) == 1;
    if (count == 3 && strcmp(word, "open") == 0)
        return (fread(&message, sizeof message, 1, stdin) == 1 || fails("the message", "it is too short")) &&
            open_with(words[2], &message) && printf("%.32s\n", (char *)message.text) > 0;
    if (count == 3 && strcmp(word, "new-key") == 0)
        return new_key(words[2]);
    if (count == 4 && strcmp(word, "old-key") == 0)
        return old_key(words[2], words[3]);
    fprintf(stderr, "usage: example seal FOLDER > MESSAGE, or example open FILE < MESSAGE, or example new-key FOLDER,\n"
                    "or example old-key FOLDER NAME\n");
    return -1;
}

int main(int count, char **words)
{
    int done = run(count, words);
    int written = (fflush(stdout) == 0 && !ferror(stdout)) || fails("the output", NULL);
    return done < 0 ? 2 : !(done && written);
}
