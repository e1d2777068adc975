/*
 * What the station does with one beacon's log. It starts three copies of a decoder, each as a process of its own, on a
 * heap of its own, with new seeds and a pattern that no other copy has. It gives each the log, gathers what they write,
 * and passes on what two copies agree on. A copy that crashes, hangs until its time is up or writes without end is one
 * copy less, and no more. What repeats a readout goes to standard error, for the rental slip, and then how each copy
 * ended.
 *
 * A vote takes outputs of one length, and copies write what they write. So of each copy a record is made: how it ended,
 * with which number, and how many bytes it wrote, each as 32 bits, lowest byte first; then these bytes; then zeros, up
 * to the longest record. Two records are equal exactly when all of that is: the length in front says where the zeros
 * begin. Copies that crash alike agree too, and may win; what they agree on is no output, and nothing is passed on.
 *
 * The decoder, in faulty_decoder.h, reports on a signal after its free where the log withdraws the nearest one. Each
 * copy then reads its own pattern there, or a later signal that its draws put there: no two agree, and no wrong
 * distance leaves the station.
 *
 * Exit status: 0 two copies or more agree, 1 no two agree, 2 wrong arguments or trouble with the system, 3 too few
 * copies ended well for two to agree.
 */
#define _POSIX_C_SOURCE 200809L
#include "faulty_decoder.h"
#include "poheldu.h"

#include <errno.h>
#include <fcntl.h>
#include <inttypes.h>
#include <poll.h>
#include <signal.h>
#include <stdio.h>
#include <stdlib.h>
#include <string.h>
#include <sys/wait.h>
#include <time.h>
#include <unistd.h>

enum { COPIES = 3, LONGEST_LOG = 16777216 };

/* The longest record that a vote takes, what of it stands in front of the output, and so the longest output. */
enum { RECORD = 1048576, FRONT = 12, LONGEST_OUTPUT = RECORD - FRONT };

/* The station's exit status. */
enum { AGREED = 0, NO_AGREEMENT = 1, TROUBLE = 2, TOO_FEW = 3 };

/* How a copy ended. A record has it as a number, and beside it the exit status or the signal, else 0. */
enum ending { RUNNING, EXITED, CRASHED, HUNG, TOO_LONG };

/*
 * What clear slots hold: in each copy another, that differs in every byte. With one pattern for all, copies that read
 * what they have freed would read the same, and agree on it.
 */
static const uint32_t patterns[COPIES] = {0xB5E3C7A9, 0xA7D1F3E5, 0xC9B3E1D7};

/* ---- copies as processes */

/* A copy of the decoder. */
struct copy {
    poheldu_seeds seeds;
    enum fault fault;
    pid_t process;
    int to, from;          /* pipes to its standard input and from its standard output; -1 once closed */
    size_t given, written; /* how many bytes of the log it was given, and how many it wrote */
    enum ending ending;
    uint32_t number;
};

/* A readout: what the arguments ask for, the log, the copies' records one after another, and the record that wins. */
static struct readout {
    const char *file; /* null for standard input */
    int seconds;
    struct copy copies[COPIES];
    char log[LONGEST_LOG];
    size_t log_len;
    uint8_t records[COPIES * RECORD], won[RECORD];
} readout;

static int trouble(const char *what)
{
    fprintf(stderr, "readout: %s: %s\n", what, strerror(errno));
    return TROUBLE;
}

/* Milliseconds of a clock that nobody sets. */
static int64_t now(void)
{
    struct timespec t = {0, 0};
    clock_gettime(CLOCK_MONOTONIC, &t);
    return (int64_t)t.tv_sec * 1000 + t.tv_nsec / 1000000;
}

static void close_end(int *end)
{
    if (*end >= 0)
        close(*end);
    *end = -1;
}

/* A pipe with both ends above standard error: neither stands where the caller left one of the first three closed. */
static int open_pipe(int ends[2])
{
    int low[2];
    if (pipe(low) < 0)
        return 0;
    for (int i = 0; i < 2; i++) {
        ends[i] = fcntl(low[i], F_DUPFD, STDERR_FILENO + 1);
        close(low[i]);
    }
    return ends[0] >= 0 && ends[1] >= 0;
}

/*
 * Starts a copy; 0 where that cannot be done. The new process closes the pipes of the copies before: as long as it held
 * them, their input would not end. A decoder that is a program of its own is started here by execv in place of
 * decoder(), with seeds and pattern as its arguments.
 */
static int start(struct readout *r, int i)
{
    struct copy *const copies = r->copies;
    int in[2], out[2];
    if (!open_pipe(in) || !open_pipe(out) || fcntl(in[1], F_SETFL, O_NONBLOCK) < 0)
        return 0;
    const pid_t process = fork();
    if (process == 0) {
        if (dup2(in[0], STDIN_FILENO) < 0 || dup2(out[1], STDOUT_FILENO) < 0)
            _exit(TROUBLE);
        for (int end = 0; end < 2; end++) {
            close(in[end]);
            close(out[end]);
        }
        for (int before = 0; before < i; before++) {
            close_end(&copies[before].to);
            close_end(&copies[before].from);
        }
        signal(SIGPIPE, SIG_DFL);
        alarm(2 * (unsigned)r->seconds); /* for one that hangs and whose station is gone */
        exit(decoder(i, copies[i].seeds, patterns[i], copies[i].fault));
    }
    close(in[0]);
    close(out[1]);
    copies[i].process = process;
    copies[i].to = in[1];
    copies[i].from = out[0];
    return process > 0;
}

static void stop(struct copy *c, enum ending ending)
{
    kill(c->process, SIGKILL);
    c->ending = ending;
}

/* Gives a copy more of the log. Its input ends after the log, or where the copy reads no more. */
static void give(struct copy *c, const char *log, size_t len)
{
    const ssize_t n = write(c->to, log + c->given, len - c->given);
    if (n > 0)
        c->given += (size_t)n;
    if (c->given == len || (n < 0 && errno != EAGAIN && errno != EINTR))
        close_end(&c->to);
}

/* Takes more of a copy's output to its record. Where that is full and more comes, the copy is stopped. */
static void take(struct copy *c, uint8_t *record)
{
    uint8_t more;
    const size_t room = LONGEST_OUTPUT - c->written;
    const ssize_t n = room > 0 ? read(c->from, record + FRONT + c->written, room) : read(c->from, &more, 1);
    if (n > 0 && room > 0)
        c->written += (size_t)n;
    else if (n > 0)
        stop(c, TOO_LONG);
    if (n == 0 || c->ending == TOO_LONG)
        close_end(&c->from);
}

/*
 * Gives the log and takes outputs, of whichever copy is ready, until all outputs have ended or the time is up. To give
 * one copy all of the log first would not do: a copy that waits until its output is taken does not read on.
 */
static void exchange(struct readout *r, int64_t deadline)
{
    struct pollfd ends[2 * COPIES];
    for (;;) {
        int writing = 0;
        for (int i = 0; i < COPIES; i++) {
            ends[2 * i] = (struct pollfd){r->copies[i].to, POLLOUT, 0}; /* poll passes over -1 */
            ends[2 * i + 1] = (struct pollfd){r->copies[i].from, POLLIN, 0};
            writing += r->copies[i].from >= 0;
        }
        const int64_t left = deadline - now();
        if (writing == 0 || left <= 0)
            return;
        const int ready = poll(ends, 2 * COPIES, (int)left);
        for (int i = 0; i < COPIES && ready > 0; i++) {
            if (ends[2 * i].revents != 0)
                give(&r->copies[i], r->log, r->log_len);
            if (ends[2 * i + 1].revents != 0)
                take(&r->copies[i], r->records + i * RECORD);
        }
    }
}

/* Waits for a copy's end, or makes one when the time is up. An output that has not ended by then is not whole. */
static void finish(struct copy *c, int64_t deadline)
{
    int status = 0;
    pid_t ended;
    if (c->from >= 0)
        stop(c, HUNG);
    close_end(&c->to);
    close_end(&c->from);
    while ((ended = waitpid(c->process, &status, c->ending == RUNNING ? WNOHANG : 0)) == 0) {
        if (now() >= deadline)
            stop(c, HUNG);
        else
            poll(NULL, 0, 1);
    }
    if (c->ending == RUNNING && ended > 0) {
        c->ending = WIFEXITED(status) ? EXITED : CRASHED;
        c->number = (uint32_t)(WIFEXITED(status) ? WEXITSTATUS(status) : WTERMSIG(status));
    }
}

/* Runs the copies on the log; 0 where one cannot be started. */
static int run(struct readout *r)
{
    const int64_t deadline = now() + r->seconds * INT64_C(1000);
    int started = 0;
    while (started < COPIES && start(r, started))
        started++;
    if (started == COPIES)
        exchange(r, deadline);
    else
        trouble("starting a copy");
    for (int i = 0; i < started; i++)
        finish(&r->copies[i], deadline);
    return started == COPIES;
}

/* ---- the vote and the slip */

static int ended_well(const struct copy *c)
{
    return c->ending == EXITED && c->number == 0;
}

/*
 * Writes the front of each record and moves the records together, each as long as the longest, which it gives. Behind
 * its output a record is zero: nothing was written there.
 */
static size_t line_up(struct readout *r)
{
    size_t longest = 0;
    for (int i = 0; i < COPIES; i++)
        longest = r->copies[i].written > longest ? r->copies[i].written : longest;
    for (size_t i = 0; i < COPIES; i++) {
        const struct copy *const c = &r->copies[i];
        const uint32_t front[FRONT / 4] = {(uint32_t)c->ending, c->number, (uint32_t)c->written};
        uint8_t *const record = r->records + i * RECORD;
        for (int b = 0; b < FRONT; b++)
            record[b] = (uint8_t)(front[b / 4] >> b % 4 * 8);
        memmove(r->records + i * (FRONT + longest), record, FRONT + longest);
    }
    return FRONT + longest;
}

/* Says what repeats the readout, before anything runs; 0 where a heap's opening would be refused. */
static int note_seeds(const struct readout *r)
{
    fprintf(stderr, "log of %zu bytes, %d copies, regions of %d bytes\n", r->log_len, COPIES, REGION);
    for (int i = 0; i < COPIES; i++) {
        const poheldu_seeds s = r->copies[i].seeds;
        fprintf(stderr, "copy %d: seeds %08" PRIx32 " %08" PRIx32 ", pattern %08" PRIx32 "\n", i, s.z, s.w,
                patterns[i]);
        if (!poheldu_usable_seeds(s)) {
            fprintf(stderr, "copy %d: %s\n", i, poheldu_name(POHELDU_UNUSABLE_SEED));
            return 0;
        }
    }
    return 1;
}

/* Says how a copy ended, and whether it is one of those that win. */
static void note_ending(const struct copy *c, int i, int wins)
{
    static const char *const endings[] = {"lost", "exited with", "crashed by signal", "hung",
                                          "wrote more than a vote takes"};
    fprintf(stderr, "copy %d: %s", i, endings[c->ending]);
    if (c->ending == EXITED || c->ending == CRASHED)
        fprintf(stderr, " %" PRIu32, c->number);
    fprintf(stderr, ", %zu bytes of output", c->written);
    if (ended_well(c))
        fprintf(stderr, wins ? ": agrees" : ": differs");
    fputc('\n', stderr);
}

/* Votes, and says on the slip what came of it; the exit status. Those that win must have ended well, too. */
static int judge(struct readout *r, poheldu_verdict *v)
{
    const size_t length = line_up(r);
    int well = 0;
    *v = poheldu_vote_whole(r->records, COPIES * length, COPIES, length, r->won, sizeof r->won);
    for (int i = 0; i < COPIES; i++) {
        note_ending(&r->copies[i], i, (v->mask >> i & 1) != 0);
        well += ended_well(&r->copies[i]);
    }
    if (v->number == POHELDU_SERVED && ended_well(&r->copies[v->replica])) {
        fprintf(stderr, "%u of %d copies agree, the first is copy %u\n", v->value, COPIES, v->replica);
        return AGREED;
    }
    if (v->number == POHELDU_SERVED || well < 2) {
        fprintf(stderr, "%d of %d copies ended well: no output\n", well, COPIES);
        return TOO_FEW;
    }
    fprintf(stderr, "%s in block %u: no output\n", poheldu_name(v->number), v->value);
    return NO_AGREEMENT;
}

/* ---- the program */

static const char help[] =
    "usage: readout [--seeds z w z w z w] [--limit SECONDS] [FAULT N].. [FILE]\n"
    "Decodes the log in FILE, or on standard input, by three copies of a decoder. Writes to standard\n"
    "output what two of them agree on, and to standard error a slip: what repeats the readout, and\n"
    "how each copy ended.\n"
    "\n"
    "  --seeds z w ..   repeats a readout, with the seeds that its slip names for copies 0, 1 and 2\n"
    "  --limit SECONDS  how long the copies may take, 1 to 3600; 10 where it is not given\n"
    "\n"
    "FAULT N makes copy N, from 0, go wrong, to see what becomes of it:\n"
    "  --quit N         it exits with 1 and reads nothing\n"
    "  --hang N         it hangs and reads nothing\n"
    "  --crash N        it crashes amid its output\n"
    "  --flood N        it writes without end\n"
    "  --wrong N        its last byte is another\n"
    "  --longer N       it writes a zero byte more\n"
    "\n"
    "Exit status: 0 two copies or more agree, 1 no two agree, 2 wrong arguments or trouble with the\n"
    "system, 3 too few copies ended well for two to agree.\n";

/* Reads a number up to most; 0 where the text is none, or null. */
static int read_number(const char *text, int base, unsigned long most, unsigned long *number)
{
    char *end = NULL;
    *number = text != NULL ? strtoul(text, &end, base) : 0;
    return end != text && *end == '\0' && *number <= most;
}

/* Takes the seeds of all copies; gives how many arguments that were with the option, or 0. */
static int take_seeds(char **arguments, struct copy *copies)
{
    for (int i = 0; i < COPIES; i++) {
        unsigned long z, w;
        if (!read_number(arguments[1 + 2 * i], 16, UINT32_MAX, &z) ||
            !read_number(arguments[2 + 2 * i], 16, UINT32_MAX, &w))
            return 0;
        copies[i].seeds = (poheldu_seeds){(uint32_t)z, (uint32_t)w};
    }
    return 1 + 2 * COPIES;
}

/* Takes an argument and the values after it; gives how many arguments that were, or 0. */
static int take_argument(char **arguments, struct readout *r)
{
    static const char *const faults[] = {"", "--quit", "--hang", "--crash", "--flood", "--wrong", "--longer"};
    unsigned long number;
    if (strcmp(arguments[0], "--seeds") == 0)
        return take_seeds(arguments, r->copies);
    if (strcmp(arguments[0], "--limit") == 0) {
        const int good = read_number(arguments[1], 10, 3600, &number) && number > 0;
        r->seconds = good ? (int)number : 0;
        return good ? 2 : 0;
    }
    for (int f = QUIT; f <= LONGER; f++)
        if (strcmp(arguments[0], faults[f]) == 0 && read_number(arguments[1], 10, COPIES - 1, &number)) {
            r->copies[number].fault = (enum fault)f;
            return 2;
        }
    if (arguments[0][0] == '-' || r->file != NULL)
        return 0;
    r->file = arguments[0];
    return 1;
}

/* Reads the log to its end; 0, with a message, where that cannot be done. */
static int read_log(struct readout *r)
{
    const int from = r->file != NULL ? open(r->file, O_RDONLY) : STDIN_FILENO;
    ssize_t n = -1;
    while (from >= 0 && (n = read(from, r->log + r->log_len, LONGEST_LOG - r->log_len)) > 0)
        r->log_len += (size_t)n;
    if (r->file != NULL && from >= 0)
        close(from);
    if (r->log_len == LONGEST_LOG) { /* or longer */
        n = -1;
        errno = EFBIG;
    }
    if (n < 0)
        trouble(r->file != NULL ? r->file : "standard input");
    return n == 0;
}

int main(int count, char **arguments)
{
    struct readout *const r = &readout;
    poheldu_verdict v;
    r->seconds = 10;
    if (count == 2 && strcmp(arguments[1], "--help") == 0)
        return fputs(help, stdout) >= 0 && fflush(stdout) == 0 ? 0 : trouble("standard output");
    for (int i = 0; i < COPIES; i++)
        r->copies[i].seeds = poheldu_random_seeds();
    for (int i = 1, taken; i < count; i += taken)
        if ((taken = take_argument(arguments + i, r)) == 0) {
            fprintf(stderr, "readout: \"%s\" is unknown or has no such value; see --help\n", arguments[i]);
            return TROUBLE;
        }
    signal(SIGPIPE, SIG_IGN); /* a copy that reads no more, and an output that is closed, is an error of a write */
    signal(SIGCHLD, SIG_DFL); /* where the caller ignores it, nothing could be waited for */
    if (!read_log(r) || !note_seeds(r) || !run(r))
        return TROUBLE;
    const int status = judge(r, &v);
    if (status != AGREED || ferror(stderr)) /* no output without its slip */
        return ferror(stderr) ? TROUBLE : status;
    const size_t len = r->copies[v.replica].written;
    return fwrite(r->won + FRONT, 1, len, stdout) == len && fflush(stdout) == 0 ? AGREED : trouble("standard output");
}
