// Starts a program, its output to nowhere, and writes three numbers: the microseconds of processor time that it took, the
// most kilobytes of memory that it held, and its status. Started by a large program, a process would be counted with
// the memory of that one.
//
//     launch PROGRAM WORD..
#include <fcntl.h>
#include <stdio.h>
#include <sys/resource.h>
#include <sys/wait.h>
#include <unistd.h>

static long long microseconds(struct timeval it) { return 1000000LL * it.tv_sec + it.tv_usec; }

int main(int count, char **words) {
    if (count < 2) return 2;
    pid_t child = vfork();
    if (child < 0) return 1;
    if (child == 0) {
        int nowhere = open("/dev/null", O_WRONLY);
        dup2(nowhere, 1);
        dup2(nowhere, 2);
        execv(words[1], words + 1);
        _exit(127);
    }
    int status;
    struct rusage used;
    if (wait4(child, &status, 0, &used) != child) return 1;
    printf("%lld %ld %d\n", microseconds(used.ru_utime) + microseconds(used.ru_stime), used.ru_maxrss,
           WIFEXITED(status) ? WEXITSTATUS(status) : 128 + WTERMSIG(status));
    return 0;
}
