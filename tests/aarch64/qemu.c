/* Runs PROGRAM, which is for aarch64, by qemu. It is linked without a C library of its own that is loaded, so that
 * LD_PRELOAD is for the program alone. */
#include <stdio.h>
#include <string.h>
#include <unistd.h>

int main(int count, char **words)
{
    char *all[count + 4];

    all[0] = "qemu-aarch64-static";
    all[1] = "-L";
    all[2] = "/usr/aarch64-linux-gnu";
    all[3] = PROGRAM;
    memcpy(all + 4, words + 1, (size_t)count * sizeof *all);
    execv("/usr/bin/qemu-aarch64-static", all);
    perror("qemu-aarch64-static");
    return 127;
}
