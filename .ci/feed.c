/* The parts of .ci/programs-test that a shell has no word for.

   Built as a program, it starts PROGRAM with a pipe as standard input and writes FILE into it:
       feed halves FILE PROGRAM     the pipe does not block its reader; the second half comes 0.3 s after the first
       feed bytes FILE PROGRAM      byte by byte
   Built with -DREAD as a shared library that is loaded first, it is a `read` of standard input that fails: its first FAILING calls
   set errno to ERROR. */
#define _GNU_SOURCE
#include <errno.h>
#include <stdio.h>
#include <stdlib.h>
#include <string.h>
#include <unistd.h>
#ifdef READ
#include <sys/syscall.h>

ssize_t read(int fd, void *bytes, size_t length)
{
    static int calls;
    if (fd == 0 && calls < atoi(getenv("FAILING"))) {
        calls++;
        errno = atoi(getenv("ERROR"));
        return -1;
    }
    return syscall(SYS_read, fd, bytes, length);
}
#else
#include <fcntl.h>
#include <signal.h>
#include <sys/wait.h>

static void give(int fd, const char *bytes, size_t length)
{
    if (write(fd, bytes, length) != (ssize_t)length)
        _exit(3);
}

int main(int count, char **words)
{
    static char text[65536];
    int ends[2], status;
    if (count != 4)
        return 2;
    FILE *file = fopen(words[2], "rb");
    if (!file || pipe(ends))
        return 3;
    size_t length = fread(text, 1, sizeof text, file), half = length / 2;
    if (strcmp(words[1], "bytes") != 0)
        fcntl(ends[0], F_SETFL, O_NONBLOCK);
    pid_t child = fork();
    if (child == 0) {
        dup2(ends[0], 0);
        close(ends[0]);
        close(ends[1]);
        execl(words[3], words[3], (char *)0);
        _exit(3);
    }
    close(ends[0]);
    signal(SIGPIPE, SIG_IGN);
    if (strcmp(words[1], "bytes") == 0) {
        for (size_t i = 0; i < length; i++) {
            give(ends[1], text + i, 1);
            usleep(200);
        }
    } else {
        give(ends[1], text, half);
        usleep(300000);
        give(ends[1], text + half, length - half);
    }
    close(ends[1]);
    waitpid(child, &status, 0);
    return status != 0;
}
#endif
