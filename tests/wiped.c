// wiped REPLAY SCRIPT PATTERN: plays SCRIPT with REPLAY and holds it open where it waits for more lines. Then looks through
// all of its memory for the 64-bit number PATTERN (hexadecimal), in the order in which a register of this machine holds it,
// and in the other order, in which the program in the window has it. Prints how often each was found.
#define _GNU_SOURCE
#include <fcntl.h>
#include <inttypes.h>
#include <signal.h>
#include <stdint.h>
#include <stdio.h>
#include <stdlib.h>
#include <string.h>
#include <sys/ioctl.h>
#include <sys/types.h>
#include <sys/wait.h>
#include <unistd.h>

static void fail(const char *what) {
    perror(what);
    exit(2);
}

// Starts REPLAY with its input from a pipe; the other end of it is in *input.
static pid_t start(const char *replay, int *input) {
    int ends[2];
    if (pipe(ends) != 0) fail("pipe");
    pid_t child = fork();
    if (child < 0) fail("fork");
    if (child == 0) {
        dup2(ends[0], 0);
        close(ends[0]);
        close(ends[1]);
        int sink = open("/dev/null", O_WRONLY);
        dup2(sink, 1);
        execl(replay, replay, (char *)NULL);
        _exit(127);
    }
    close(ends[0]);
    *input = ends[1];
    return child;
}

static void give(int input, const char *script) {
    char bytes[4096];
    int from = open(script, O_RDONLY);
    if (from < 0) fail(script);
    for (ssize_t n; (n = read(from, bytes, sizeof bytes)) > 0;)
        if (write(input, bytes, (size_t)n) != n) fail("write");
    close(from);
}

// Whether the process sleeps; it has no child to wait for, so it sleeps only where it reads.
static int sleeps(pid_t child) {
    char path[64], state = '?';
    snprintf(path, sizeof path, "/proc/%d/stat", (int)child);
    FILE *stat = fopen(path, "r");
    if (stat == NULL) fail(path);
    if (fscanf(stat, "%*d (%*[^)]) %c", &state) != 1) fail(path);
    fclose(stat);
    return state == 'S';
}

// Waits until it has taken all that was given and asks for more.
static void wait_for_more(pid_t child, int input) {
    for (int calm = 0, turns = 0; calm < 3; turns++) {
        int left = 0;
        if (ioctl(input, FIONREAD, &left) != 0) fail("ioctl");
        calm = left == 0 && sleeps(child) ? calm + 1 : 0;
        if (turns == 1000) {
            fprintf(stderr, "wiped: the program does not come to its input's end\n");
            exit(2);
        }
        usleep(10000);
    }
}

// How often the eight bytes stand in the N bytes.
static long found(const uint8_t *bytes, size_t n, const uint8_t *eight) {
    long times = 0;
    const uint8_t *at = bytes;
    while ((at = memmem(at, n - (size_t)(at - bytes), eight, 8)) != NULL) {
        times++;
        at++;
    }
    return times;
}

int main(int count, char **words) {
    if (count != 4) {
        fprintf(stderr, "usage: wiped REPLAY SCRIPT PATTERN\n");
        return 2;
    }
    uint64_t pattern = strtoull(words[3], NULL, 16);
    uint64_t other = __builtin_bswap64(pattern);
    int input;
    pid_t child = start(words[1], &input);
    give(input, words[2]);
    wait_for_more(child, input);

    char path[64], line[512];
    snprintf(path, sizeof path, "/proc/%d/mem", (int)child);
    int memory = open(path, O_RDONLY);
    if (memory < 0) fail(path);
    snprintf(path, sizeof path, "/proc/%d/maps", (int)child);
    FILE *maps = fopen(path, "r");
    if (maps == NULL) fail(path);
    long in_order = 0, reversed = 0;
    while (fgets(line, sizeof line, maps) != NULL) {
        uint64_t from, to;
        char mode[5];
        if (sscanf(line, "%" SCNx64 "-%" SCNx64 " %4s", &from, &to, mode) != 3 || mode[0] != 'r') continue;
        uint8_t *bytes = malloc(to - from);
        if (bytes == NULL) fail("malloc");
        ssize_t n = pread(memory, bytes, to - from, (off_t)from);
        // The kernel's own pages cannot be read.
        if (n > 0) {
            in_order += found(bytes, (size_t)n, (const uint8_t *)&pattern);
            reversed += found(bytes, (size_t)n, (const uint8_t *)&other);
        }
        free(bytes);
    }
    kill(child, SIGKILL);
    waitpid(child, NULL, 0);
    printf("%ld %ld\n", in_order, reversed);
    return 0;
}
