/*
 * Starts a proved program and gives its status. A copy of this program named NAME starts bin/NAME beside its own file, with `--status` before its
 * own arguments: the proved program then ends with a status, where by itself it always ends with 0.
 */
#define _POSIX_C_SOURCE 200809L
#include <errno.h>
#include <signal.h>
#include <stdio.h>
#include <string.h>
#include <sys/prctl.h>
#include <sys/wait.h>
#include <unistd.h>

enum { CANNOT_START = 2, ENDED_BY_SIGNAL = 128 };

static int refuse(const char *name, const char *what)
{
    fprintf(stderr, "%s: %s: %s\n", name, what, strerror(errno));
    return CANNOT_START;
}

int main(int argc, char **argv)
{
    char file[4096], program[4096 + 4], *arguments[argc + 3];
    ssize_t length = readlink("/proc/self/exe", file, sizeof file - 1);
    int ended;
    if (length < 0)
        return refuse("launch", "/proc/self/exe");
    file[length] = '\0';
    char *name = strrchr(file, '/') + 1;
    snprintf(program, sizeof program, "%.*sbin/%s", (int)(name - file), file, name);
    int count = 0;
    arguments[count++] = program;
    arguments[count++] = "--status";
    for (int i = 1; i < argc; i++)
        arguments[count++] = argv[i];
    arguments[count] = NULL;
    signal(SIGCHLD, SIG_DFL); /* where the caller ignores it, nothing could be waited for */
    pid_t child = fork();
    if (child < 0)
        return refuse(name, "fork");
    if (child == 0) {
        prctl(PR_SET_PDEATHSIG, SIGTERM); /* it does not outlive this program */
        execv(program, arguments);
        _exit(refuse(name, program));
    }
    if (waitpid(child, &ended, 0) < 0)
        return refuse(name, "wait");
    if (WIFSIGNALED(ended))
        return ENDED_BY_SIGNAL + WTERMSIG(ended);
    return WEXITSTATUS(ended);
}
