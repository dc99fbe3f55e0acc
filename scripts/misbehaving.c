/* A program that does wrong what handref does right: `scripts/hostile itself` tries each part with it, and the part has to fail.
 * It runs PROGRAM, and answers as that does but for one thing, WRONG. Both are set when it is compiled. */
#define _GNU_SOURCE
#include <fcntl.h>
#include <signal.h>
#include <stdlib.h>
#include <string.h>
#include <sys/stat.h>
#include <sys/wait.h>
#include <time.h>
#include <unistd.h>

enum wrong { OUTPUT_AFTER_FAULT = 1, MEMORY_AS_FAULT, READ_AS_DONE, WRITE_AS_DONE, SIGNAL, SLOW, ESCAPES, FAULT_AS_DONE };

int main(int count, char **words) {
    pid_t child = fork();
    if (child < 0) return 70;
    if (child == 0) {
        execv(PROGRAM, words);
        _exit(70);
    }
    int how;
    if (waitpid(child, &how, 0) < 0) return 70;
    int status = WIFEXITED(how) ? WEXITSTATUS(how) : 128 + WTERMSIG(how);
    struct stat input;
    switch (WRONG) {
    case OUTPUT_AFTER_FAULT:
        if (status == 3) (void)!write(1, "legal hands: 0\n", 15);
        break;
    case MEMORY_AS_FAULT:
        if (status == 8) return 3;
        break;
    case READ_AS_DONE:
        if (status == 5) return 0;
        break;
    case WRITE_AS_DONE:
        if (status == 6) return 0;
        break;
    case SIGNAL:
        if (status >= 128) (void)!write(1, "hand", 4);
        break;
    case SLOW:
        /* Only `check` of a short input, which is compared with a long one. */
        if (count < 2 || strcmp(words[1], "check") != 0) break;
        while (fstat(0, &input) == 0 && input.st_size < 20000 && clock() < 9 * CLOCKS_PER_SEC) {}
        break;
    case FAULT_AS_DONE:
        if (status == 3) return 0;
        break;
    case ESCAPES: (void)!write(2, "\033[2J\n", 5); break;
    }
    if (status >= 128) kill(getpid(), status - 128);
    return status;
}
