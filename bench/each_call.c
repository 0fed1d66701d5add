// Runs a program once for each of its calls of which one thing may go wrong, and lets it go wrong there: memory that is refused, a
// file that does not open, a read or a write that fails. Says how many there were and how the runs ended, and each run that ended
// as none may.
//
//   each_call SHIM WHAT STATUS PROGRAM WORDS..
//
// A run may end as the one in which nothing goes wrong. Where STATUS is 5, 6 or 7 it may also end with that status: with 5 and
// `cannot read`, with 6 and a front of that run's text, or with 7 and a front of whole lines of it. bench/refuse.c is the shim.
#include <stdio.h>
#include <stdlib.h>
#include <string.h>
#include <sys/wait.h>
#include <unistd.h>

struct end {
    char *text;
    size_t length;
    int status;
    unsigned long calls;
};

static void give_up(const char *what) {
    perror(what);
    exit(2);
}

// Runs the program, where the call of this number goes wrong; none does where it is 0.
static struct end run(const char *shim, const char *what, unsigned long call, char **words) {
    int out[2], count[2];
    if (pipe(out) != 0 || pipe(count) != 0) give_up("pipe");
    pid_t child = fork();
    if (child < 0) give_up("fork");
    if (child == 0) {
        char number[32];
        snprintf(number, sizeof number, "%lu", call);
        dup2(out[1], 1);
        dup2(count[1], 9);
        close(out[0]);
        close(count[0]);
        setenv("LD_PRELOAD", shim, 1);
        setenv("GOES_WRONG", what, 1);
        setenv("CALL", number, 1);
        execv(words[0], words);
        _exit(127);
    }
    close(out[1]);
    close(count[1]);
    struct end end = {0};
    size_t room = 0;
    for (;;) {
        if (end.length == room) {
            room = room ? 2 * room : 65536;
            end.text = realloc(end.text, room);
            if (!end.text) give_up("realloc");
        }
        ssize_t got = read(out[0], end.text + end.length, room - end.length);
        if (got <= 0) break;
        end.length += got;
    }
    int status;
    if (read(count[0], &end.calls, sizeof end.calls) != sizeof end.calls) end.calls = 0;
    waitpid(child, &status, 0);
    end.status = WIFEXITED(status) ? WEXITSTATUS(status) : -WTERMSIG(status);
    close(out[0]);
    close(count[0]);
    return end;
}

static int is_same(struct end a, struct end b) {
    return a.status == b.status && a.length == b.length && memcmp(a.text, b.text, a.length) == 0;
}

// Whether a run that ended with the status that may come has written what may stand there.
static int is_allowed(struct end end, struct end whole, int allowed) {
    static const char unread[] = "cannot read\n";
    if (allowed < 5 || end.status != allowed) return 0;
    if (allowed == 5) return end.length == sizeof unread - 1 && memcmp(end.text, unread, end.length) == 0;
    if (end.length > whole.length || memcmp(end.text, whole.text, end.length) != 0) return 0;
    return allowed == 6 || end.length == 0 || end.text[end.length - 1] == '\n';
}

int main(int count, char **words) {
    if (count < 5) return 2;
    int allowed = atoi(words[3]);
    struct end whole = run(words[1], words[2], 0, words + 4);
    unsigned long same = 0, stopped = 0, other = 0;
    for (unsigned long call = 1; call <= whole.calls; call++) {
        struct end end = run(words[1], words[2], call, words + 4);
        if (is_same(end, whole)) same++;
        else if (is_allowed(end, whole, allowed)) stopped++;
        else {
            other++;
            printf("  call %lu: status %d and %zu bytes, where it was %d and %zu\n", call, end.status, end.length, whole.status, whole.length);
        }
        free(end.text);
    }
    printf("%s: %lu calls, ", words[2], whole.calls);
    if (allowed >= 5) printf("%lu with status %d, ", stopped, allowed);
    printf("%lu as without, %lu otherwise\n", same, other);
    return other != 0;
}
