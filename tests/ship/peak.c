/* Runs a program on its own standard input and output, and writes to the file PEAK how many KiB that one had at its peak. It is
   small itself, since what is measured of a program is at least what had started it. Its status is the program's. */
#include <stdio.h>
#include <stdlib.h>
#include <sys/resource.h>
#include <sys/wait.h>
#include <unistd.h>

int main(int count, char **words) {
    struct rusage used;
    int status;
    if (count < 3) return 125;
    pid_t child = fork();
    if (child == 0) {
        execv(words[2], words + 2);
        _exit(126);
    }
    if (child < 0 || wait4(child, &status, 0, &used) != child) return 125;
    FILE *peak = fopen(words[1], "w");
    if (!peak || fprintf(peak, "%ld\n", used.ru_maxrss) < 0 || fclose(peak) != 0) return 125;
    return WIFEXITED(status) ? WEXITSTATUS(status) : 124;
}
