/* Two programs send each other messages over two streams, here pipes with a name; this one can also talk to conversation.py.
 *
 *   mkfifo there back
 *   conversation answer KEY there back &         answers each text with that text
 *   conversation ask KEY there back TEXT ..      sends each text, and prints the answers
 *
 * Each message is sealed by AES-GCM-SIV under the key of 32 bytes in the file KEY. Its additional data says, in fields of a
 * fixed length, which conversation it belongs to, who sends it, and its number. So a message that was changed, repeated, left
 * out, moved, sent back or taken from another conversation is refused, and then the conversation is over. The last message
 * of each side is empty: a stream that ends before it was cut. */
#define _DEFAULT_SOURCE
#include <fotsgure_gcm.h>

#include <errno.h>
#include <signal.h>
#include <stddef.h>
#include <stdio.h>
#include <string.h>
#include <sys/random.h>

enum { HELLO = 16, MOST = 4096 };

/* What a message says of itself. It isn't sent, since the receiver knows what has to come next. */
struct about {
    uint8_t hellos[2][HELLO]; /* random bytes of both sides, so that no other conversation has these */
    uint8_t sender;           /* 0: the one who asks; 1: the one who answers */
    uint8_t number[8];        /* counted by each sender from 0 on, highest byte first */
};

/* A message as it is sent. Of `text` only as many bytes are sent as `length` says. */
struct frame {
    uint8_t length[4], nonce[FOTSGURE_GCM_SIV_NONCE], tag[FOTSGURE_GCM_TAG], text[MOST];
};

struct side {
    struct fotsgure_gcm_siv siv;
    uint8_t role; /* a sender, as in `about` */
    uint8_t hellos[2][HELLO];
    uint64_t numbers[2]; /* the next of each sender */
    FILE *in, *out;
};

/* Says what failed and why: `why`, or without it what the system says. Returns 0. */
static int fails(const char *what, const char *why)
{
    fprintf(stderr, "conversation: %s: %s\n", what, why ? why : strerror(errno));
    return 0;
}

static void put_number(uint8_t *bytes, int count, uint64_t number)
{
    for (int i = count; i-- > 0; number >>= 8)
        bytes[i] = (uint8_t)number;
}

static struct about about_next(struct side *side, uint8_t sender)
{
    struct about about;
    memcpy(about.hellos, side->hellos, sizeof about.hellos);
    about.sender = sender;
    put_number(about.number, sizeof about.number, side->numbers[sender]++);
    return about;
}

/* The calls below return 1, or 0 once they have said what failed. */

static int say(struct side *side, const char *text)
{
    struct frame frame;
    struct about about = about_next(side, side->role);
    size_t length = strlen(text);
    if (length > MOST)
        return fails("a text", "it is too long");
    put_number(frame.length, sizeof frame.length, length);
    memcpy(frame.text, text, length);
    enum fotsgure_gcm_status status = fotsgure_gcm_siv_seal_random(&side->siv, frame.nonce, (const uint8_t *)&about, sizeof about,
        frame.text, length, frame.tag);
    if (status != FOTSGURE_GCM_DONE)
        return fails("a text", fotsgure_gcm_status_text(status));
    return (fwrite(&frame, offsetof(struct frame, text) + length, 1, side->out) == 1 && fflush(side->out) == 0) ||
        fails("the other side", NULL);
}

static int hear(struct side *side, char text[MOST + 1])
{
    struct frame frame;
    struct about about = about_next(side, !side->role);
    if (fread(&frame, offsetof(struct frame, text), 1, side->in) != 1)
        return fails("the other side", "its stream was cut");
    size_t length = (size_t)frame.length[0] << 24 | (size_t)frame.length[1] << 16 | (size_t)frame.length[2] << 8 | frame.length[3];
    if (length > MOST || fread(frame.text, 1, length, side->in) != length)
        return fails("the other side", "its message is too long, or was cut");
    enum fotsgure_gcm_status status = fotsgure_gcm_siv_open(&side->siv, frame.nonce, (const uint8_t *)&about, sizeof about,
        frame.text, length, frame.tag);
    if (status != FOTSGURE_GCM_DONE)
        return fails("a message", fotsgure_gcm_status_text(status));
    memcpy(text, frame.text, length);
    text[length] = '\0';
    return 1;
}

static int greet(struct side *side)
{
    uint8_t *mine = side->hellos[side->role], *other = side->hellos[!side->role];
    if (getentropy(mine, HELLO) != 0 || fwrite(mine, HELLO, 1, side->out) != 1 || fflush(side->out) != 0)
        return fails("the greeting", NULL);
    return fread(other, HELLO, 1, side->in) == 1 || fails("the other side", "its stream was cut");
}

static int ask(struct side *side, char **texts)
{
    char answer[MOST + 1];
    for (; *texts; texts++)
        if (!say(side, *texts) || !hear(side, answer) || puts(answer) < 0)
            return 0;
    return say(side, "") && hear(side, answer) && (!*answer || fails("the other side", "it sent more after the end"));
}

static int answer(struct side *side)
{
    char text[MOST + 1];
    do
        if (!hear(side, text) || !say(side, text))
            return 0;
    while (*text);
    return 1;
}

static int set_key(struct side *side, const char *path)
{
    uint8_t key[32], more;
    FILE *file = fopen(path, "rb");
    if (!file || setvbuf(file, NULL, _IONBF, 0) != 0)
        return fails(path, NULL);
    int is_key = fread(key, sizeof key, 1, file) == 1 && fread(&more, 1, 1, file) == 0 &&
        fotsgure_gcm_siv_set_key(&side->siv, key, sizeof key) == FOTSGURE_GCM_DONE;
    fclose(file);
    fotsgure_gcm_wipe_bytes(key, sizeof key);
    return is_key || fails(path, "a key has 32 bytes");
}

/* Opens a pipe. Both sides open `there` first, since each waits for the other. */
static int open_pipe(FILE **pipe, const char *path, const char *mode)
{
    *pipe = fopen(path, mode);
    return *pipe || fails(path, NULL);
}

int main(int count, char **words)
{
    struct side side = {0};
    int asks = count >= 6 && strcmp(words[1], "ask") == 0;
    if (!asks && (count != 5 || strcmp(words[1], "answer") != 0)) {
        fprintf(stderr, "usage: conversation ask KEY THERE BACK TEXT .., or conversation answer KEY THERE BACK\n");
        return 2;
    }
    side.role = !asks;
    signal(SIGPIPE, SIG_IGN); /* a write to a side that has gone then fails in words */
    int done = set_key(&side, words[2]) && open_pipe(asks ? &side.out : &side.in, words[3], asks ? "wb" : "rb") &&
        open_pipe(asks ? &side.in : &side.out, words[4], asks ? "rb" : "wb") && greet(&side) &&
        (asks ? ask(&side, words + 5) : answer(&side));
    fotsgure_gcm_siv_wipe(&side.siv);
    int written = (fflush(stdout) == 0 && !ferror(stdout)) || fails("the output", NULL);
    return !(done && written);
}
