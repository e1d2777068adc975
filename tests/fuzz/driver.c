/*
 * The fuzzer without libFuzzer, for the gate: pseudo-random inputs, the same in each run. Arguments: how many inputs and their seed; or a file, an
 * input to be repeated. An input that fails goes to a file next to this program.
 */
#define _DEFAULT_SOURCE /* open, write */
#include <errno.h>
#include <fcntl.h>
#include <inttypes.h>
#include <signal.h>
#include <stdint.h>
#include <stdio.h>
#include <stdlib.h>
#include <string.h>
#include <unistd.h>

int LLVMFuzzerInitialize(int *argc, char ***argv);
int LLVMFuzzerTestOneInput(const uint8_t *data, size_t size);

enum { SHORTEST = 8, LONGEST = 1024, LONGEST_FILE = 1 << 20 };

static uint8_t input[LONGEST_FILE];
static size_t input_len;

/* Where a failed input goes, and what says so: made beforehand, since a signal's handler may neither allocate nor print. */
static char failed[4096], message[3 * sizeof failed];

static void say(const char *text)
{
    if (write(STDERR_FILENO, text, strlen(text)) < 0)
        _exit(2);
}

static void on_signal(int number)
{
    const int file = open(failed, O_WRONLY | O_CREAT | O_TRUNC, 0644);
    if (number == SIGSEGV || number == SIGBUS)
        say("fuzz: a byte outside the buffers was touched\n");
    if (file >= 0 && write(file, input, input_len) == (ssize_t)input_len)
        say(message);
    else
        say("fuzz: FAILED, and the input could not be written\n");
    _exit(1);
}

static void keep_failed(const char *program)
{
    static const int faults[] = {SIGABRT, SIGSEGV, SIGBUS, SIGILL, SIGFPE};
    snprintf(failed, sizeof failed, "%s.failed", program);
    snprintf(message, sizeof message, "fuzz: FAILED; again with: %s %s\n", program, failed);
    for (size_t i = 0; i < sizeof faults / sizeof *faults; i++)
        signal(faults[i], on_signal);
}

/* splitmix64 */
static uint64_t next(uint64_t *state)
{
    uint64_t x = *state += 0x9E3779B97F4A7C15;
    x = (x ^ (x >> 30)) * 0xBF58476D1CE4E5B9;
    x = (x ^ (x >> 27)) * 0x94D049BB133111EB;
    return x ^ (x >> 31);
}

static void run_inputs(uint64_t inputs, uint64_t state)
{
    for (uint64_t i = 0; i < inputs; i++) {
        input_len = SHORTEST + next(&state) % (LONGEST - SHORTEST + 1);
        for (size_t at = 0; at < input_len; at++)
            input[at] = (uint8_t)(next(&state) >> 56);
        LLVMFuzzerTestOneInput(input, input_len);
    }
}

static void read_input(const char *name)
{
    FILE *const file = fopen(name, "rb");
    if (file == NULL) {
        perror(name);
        exit(1);
    }
    input_len = fread(input, 1, sizeof input, file);
    fclose(file);
}

static _Noreturn void usage(const char *program)
{
    fprintf(stderr, "usage: %s INPUTS SEED\n       %s FILE\n", program, program);
    exit(1);
}

static uint64_t number(const char *program, const char *word)
{
    char *end;
    errno = 0;
    const uint64_t value = strtoull(word, &end, 10);
    if (*word < '0' || *word > '9' || *end != '\0' || errno != 0)
        usage(program);
    return value;
}

int main(int argc, char **argv)
{
    uint64_t inputs = 0, seed = 0;
    if (argc == 2) {
        read_input(argv[1]);
    } else if (argc == 3) {
        inputs = number(argv[0], argv[1]);
        seed = number(argv[0], argv[2]);
    } else {
        usage(argv[0]);
    }
    LLVMFuzzerInitialize(&argc, &argv);
    if (argc == 2)
        return LLVMFuzzerTestOneInput(input, input_len);
    keep_failed(argv[0]);
    run_inputs(inputs, seed);
    return 0;
}
