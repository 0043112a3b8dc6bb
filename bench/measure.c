/* measure INPUT OUTPUT PROGRAM WORD..: runs a program, and prints how many microseconds it took and its peak memory in
   KiB (at least its own, which is about 1,000). It ends with 1 if the program failed. */
#include <fcntl.h>
#include <stdio.h>
#include <sys/resource.h>
#include <sys/wait.h>
#include <time.h>
#include <unistd.h>

int main(int count, char **words)
{
    struct timespec from, to;
    struct rusage used;
    int status;
    pid_t child;

    if (count < 4)
        return 2;
    clock_gettime(CLOCK_MONOTONIC, &from);
    child = fork();
    if (child < 0)
        return 2;
    if (child == 0) {
        int input = open(words[1], O_RDONLY);
        int output = open(words[2], O_WRONLY | O_CREAT | O_TRUNC, 0600);
        if (input < 0 || output < 0 || dup2(input, 0) < 0 || dup2(output, 1) < 0)
            _exit(127);
        execv(words[3], words + 3);
        _exit(127);
    }
    if (wait4(child, &status, 0, &used) != child)
        return 2;
    clock_gettime(CLOCK_MONOTONIC, &to);
    printf("%lld %ld\n", (to.tv_sec - from.tv_sec) * 1000000LL + (to.tv_nsec - from.tv_nsec) / 1000, used.ru_maxrss);
    return status != 0;
}
