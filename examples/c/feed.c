/* A child writes 200,000 bytes into a pipe, in pieces of many lengths, and its parent reads them: whatever the turns are, each
   byte comes once and in order, and the parent reads the end of input once the child has closed its end by ending. */
#include <stdio.h>
#include <string.h>
#include <sys/wait.h>
#include <unistd.h>

enum { TOTAL = 200000, PERIOD = 251 };

/* The bytes of the feed repeat with a period that is no length of a piece, so a byte that is lost or comes twice shows. */
static unsigned char period[65536 + PERIOD];

static void fill(void)
{
    for (unsigned i = 0; i < PERIOD; i++)
        period[i] = i;
    for (unsigned at = PERIOD; at < sizeof period; at += PERIOD)
        memcpy(period + at, period, at + PERIOD <= sizeof period ? PERIOD : sizeof period - at);
}

/* Above 4096 bytes a write may take a part only. */
static int feed(void)
{
    static const int pieces[] = {1, 4096, 100, 40000, 4095, 7, 60000};
    int done = 0;
    for (unsigned i = 0; done < TOTAL; i++) {
        int piece = pieces[i % (sizeof pieces / sizeof *pieces)];
        if (piece > TOTAL - done)
            piece = TOTAL - done;
        int wrote = write(1, period + done % PERIOD, piece);
        if (wrote <= 0)
            return 1;
        done += wrote;
    }
    return 0;
}

/* Starts this program as the child, with its descriptor 1 at the pipe's writing end. */
static pid_t start(int fds[2])
{
    char *words[] = {"feed", "child", 0};
    pid_t child = vfork();
    if (child == 0) {
        close(fds[0]);
        dup2(fds[1], 1);
        close(fds[1]);
        execv(words[0], words);
        _exit(127);
    }
    close(fds[1]);
    return child;
}

int main(int argc, char **argv)
{
    setvbuf(stdout, 0, _IOLBF, 0);
    static unsigned char piece[4096];
    int fds[2], status = 0, got, total = 0, wrong = 0;
    (void)argv;
    fill();
    if (argc > 1)
        return feed();
    if (pipe(fds) == -1)
        return 1;
    pid_t child = start(fds);
    while ((got = read(fds[0], piece, sizeof piece)) > 0) {
        wrong += memcmp(piece, period + total % PERIOD, got) != 0;
        total += got;
    }
    printf("%d bytes, wrong pieces: %d, then %d\n", total, wrong, got);
    printf("the child: %d, ", waitpid(child, &status, 0) == child);
    printf("exit %d\n", WIFEXITED(status) ? WEXITSTATUS(status) : -1);
    return 0;
}
