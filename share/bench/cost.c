/* cost FILE COMMAND..: runs a command, and writes its processor seconds and its peak memory in kB to FILE. A process that is begun by a
   large one is told the peak of that one too; this one is small. */
#include <stdio.h>
#include <sys/resource.h>
#include <sys/wait.h>
#include <unistd.h>

static double seconds(struct timeval time)
{
    return time.tv_sec + time.tv_usec * 1e-6;
}

int main(int argc, char **argv)
{
    int status;
    struct rusage used;
    if (argc < 3)
        return 2;
    pid_t child = fork();
    if (child == 0) {
        execv(argv[2], argv + 2);
        _exit(127);
    }
    FILE *out = fopen(argv[1], "w");
    if (child < 0 || !out || wait4(child, &status, 0, &used) < 0)
        return 70;
    fprintf(out, "%.6f %ld\n", seconds(used.ru_utime) + seconds(used.ru_stime), used.ru_maxrss);
    fclose(out);
    return WIFEXITED(status) ? WEXITSTATUS(status) : 128 + WTERMSIG(status);
}
