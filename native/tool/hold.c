/* What the launcher is in the end: it starts the program, hands signals on to it, waits for it and
   for what runs beside it, and ends as it did.

       hold TOKEN FEED TABLE REPLAYED COMMAND [WORDS ..]

   FEED and TABLE are the descriptors that the trace and the table go to, and from REPLAYED comes
   the status of what counts them; -1 where there is none. The processes beside the program are this
   one's children from before.

   TOKEN is -1, or with `--child` a pipe with one byte, which the process that is recorded takes.
   Then a guard stands between this process and the program: what outlives the program becomes a
   child of the guard's, gets the signals that come, and is waited for too. Where this process is
   killed, the program is killed with it; or the guard gets a signal, and kills all of them.

   Where one of the words is `--switch=?`, SIGUSR2 is counted in a file of memory, whose descriptor
   takes the place of the `?`; elsewhere it is said that the signal does nothing. One that came
   before this process was blocked by who started it, and is taken here. */
#define _GNU_SOURCE
#include <dirent.h>
#include <errno.h>
#include <fcntl.h>
#include <signal.h>
#include <stdio.h>
#include <stdlib.h>
#include <string.h>
#include <sys/mman.h>
#include <sys/prctl.h>
#include <sys/wait.h>
#include <time.h>
#include <unistd.h>

#define LEFT_ALONE    SIGRTMAX /* what the guard gets where this process is killed */
#define MOST_CHILDREN 4096
#define SWITCH        "--switch=?"

static sigset_t taken, before;
static struct sigaction child_before;
static pid_t told_of[MOST_CHILDREN]; /* the guard's children that a signal was handed on to */
static int told_count;

static int status_of(int status)
{
    return WIFSIGNALED(status) ? 128 + WTERMSIG(status) : WEXITSTATUS(status);
}

/* A child, which gets the signal `number` where this process is killed; in the child 0. */
static pid_t start(int number)
{
    pid_t own = getpid(), child = fork();
    if (child < 0) {
        fprintf(stderr, "predator native: no process can be made: %s\n", strerror(errno));
        exit(126);
    }
    if (child == 0) {
        prctl(PR_SET_PDEATHSIG, number);
        if (getppid() != own)
            _exit(128 + SIGKILL);
    }
    return child;
}

static pid_t start_program(char **words)
{
    pid_t child = start(SIGKILL);
    if (child == 0) {
        sigaction(SIGCHLD, &child_before, 0);
        sigprocmask(SIG_SETMASK, &before, 0);
        execvp(words[0], words);
        fprintf(stderr, "predator native: %s: %s\n", words[0], strerror(errno));
        _exit(126);
    }
    return child;
}

static int was_told(pid_t child)
{
    int it;
    for (it = 0; it < told_count; it++)
        if (told_of[it] == child)
            return 1;
    return 0;
}

/* Whether it is the first signal for that child. */
static int send(pid_t child, int number, int again)
{
    int is_first = !was_told(child);
    if (is_first || again)
        kill(child, number);
    if (is_first && told_count < MOST_CHILDREN)
        told_of[told_count++] = child;
    return is_first;
}

/* A signal to each child, or to those alone that it wasn't handed on to before. */
static void to_children(int number, int again)
{
    FILE *list = fopen("/proc/thread-self/children", "r");
    int child;
    while (list && fscanf(list, "%d", &child) == 1)
        send(child, number, again);
    if (list)
        fclose(list);
}

static pid_t stopped[MOST_CHILDREN];
static int stopped_count;

static int is_stopped(pid_t child)
{
    int it;
    for (it = 0; it < stopped_count; it++)
        if (stopped[it] == child)
            return 1;
    return 0;
}

/* Stops what a process has started, and what these have. */
static void stop_below(pid_t parent)
{
    char path[64];
    snprintf(path, sizeof path, "/proc/%d/task", (int)parent);
    DIR *tasks = opendir(path);
    struct dirent *task;
    int child;
    while (tasks && (task = readdir(tasks))) {
        char name[512];
        snprintf(name, sizeof name, "%s/%s/children", path, task->d_name);
        FILE *list = task->d_name[0] == '.' ? 0 : fopen(name, "r");
        while (list && fscanf(list, "%d", &child) == 1) {
            if (!is_stopped(child) && stopped_count < MOST_CHILDREN) {
                kill(child, SIGSTOP);
                stopped[stopped_count++] = child;
            }
            stop_below(child);
        }
        if (list)
            fclose(list);
    }
    if (tasks)
        closedir(tasks);
}

/* A signal to each process below this one, or to those alone that it wasn't handed on to before:
 * how many these are. All of them are stopped meanwhile, so that none starts another one that
 * doesn't get it. */
static int to_all(int number, int again)
{
    int it, count, fresh = 0;
    stopped_count = 0;
    do {
        count = stopped_count;
        stop_below(getpid());
    } while (stopped_count > count);
    for (it = 0; it < stopped_count; it++)
        fresh += send(stopped[it], number, again);
    for (it = 0; it < stopped_count; it++)
        kill(stopped[it], SIGCONT);
    return fresh;
}

/* A signal to what outlives the program. Where that goes on starting processes for two seconds, all
 * of it is killed. */
static void end_rest(int *number)
{
    static time_t began;
    struct timespec now;
    clock_gettime(CLOCK_MONOTONIC, &now);
    began = began ? began : now.tv_sec;
    if (to_all(*number, *number == SIGKILL) > 0 && now.tv_sec - began > 2)
        to_all(*number = SIGKILL, 1);
}

/* The guard: it ends with the program's status, once no process is left that came of it. */
static void guard(char **words)
{
    pid_t program, child;
    int ended = 0, status = 0, one;
    prctl(PR_SET_CHILD_SUBREAPER, 1);
    program = start_program(words);
    for (;;) {
        one = sigwaitinfo(&taken, 0);
        if (one == SIGTERM || one == SIGHUP || one == LEFT_ALONE) {
            ended = one == LEFT_ALONE ? SIGKILL : one;
            if (program > 0 && ended != SIGKILL)
                to_children(ended, 1);
            else
                to_all(ended, 1);
        } else if (one == SIGCHLD) {
            int how;
            while ((child = waitpid(-1, &how, WNOHANG)) > 0)
                if (child == program) {
                    status = status_of(how);
                    program = 0;
                }
            if (child < 0)
                exit(status);
            if (ended && program > 0)
                to_children(ended, 0);
            else if (ended)
                end_rest(&ended);
        }
    }
}

/* Where no process was recorded, what is there to be read is a trace without an access. */
static void tell_none(int token, int feed)
{
    static const unsigned char trace[45] = {'P', 'R', 'D', 'T',      'R',
                                            'C', '0', '1', [17] = 1, [20] = 6};
    char byte;
    if (token < 0 || read(token, &byte, 1) != 1)
        return;
    fputs("predator native: no access was recorded: no process that the program started had two "
          "threads at a time\n",
          stderr);
    if (write(feed, trace, sizeof trace) != sizeof trace)
        perror("predator native: the trace");
}

/* The number that is to be read there. There is none where who was to write it was killed. */
static int number_in(int pipe)
{
    char text[12] = "";
    if (pipe < 0)
        return 0;
    return read(pipe, text, sizeof text - 1) > 0 ? atoi(text) : 128 + SIGKILL;
}

/* The file in which SIGUSR2 is counted, or -1 where no word asks for it. */
static int switch_file = -1;

static void open_switch(char **words)
{
    static char word[32];
    unsigned none = 0;
    while (*words && strcmp(*words, SWITCH) != 0)
        words++;
    if (!*words)
        return;
    switch_file = memfd_create("predator-switch", 0);
    if (switch_file < 0 || pwrite(switch_file, &none, sizeof none, 0) != sizeof none) {
        perror("predator native: a file of memory");
        exit(126);
    }
    snprintf(word, sizeof word, "--switch=%d", switch_file);
    *words = word;
}

static void flip_switch(void)
{
    static unsigned flips;
    flips++;
    if (switch_file < 0) {
        if (flips == 1)
            fputs("predator native: SIGUSR2 does nothing here: with --child and --built recording "
                  "isn't switched\n",
                  stderr);
        return;
    }
    if (pwrite(switch_file, &flips, sizeof flips, 0) != sizeof flips)
        perror("predator native: a file of memory");
}

int main(int argc, char **argv)
{
    int token, feed, table, replayed, status = 0, number, how;
    pid_t program, child;
    if (argc < 6)
        return fputs("usage: hold TOKEN FEED TABLE REPLAYED COMMAND [WORDS ..]\n", stderr), 125;
    token = atoi(argv[1]);
    feed = atoi(argv[2]);
    table = atoi(argv[3]);
    replayed = atoi(argv[4]);
    fcntl(replayed, F_SETFD, FD_CLOEXEC); /* the program must not inherit it */
    sigemptyset(&taken);
    for (int it = 0; it < 7; it++)
        sigaddset(&taken,
                  (int[]){SIGTERM, SIGHUP, SIGINT, SIGQUIT, SIGUSR2, SIGCHLD, LEFT_ALONE}[it]);
    open_switch(argv + 5);
    sigprocmask(SIG_BLOCK, &taken, &before);
    sigdelset(&before, SIGUSR2);
    sigaction(SIGCHLD, &(struct sigaction){.sa_handler = SIG_DFL, .sa_flags = SA_NOCLDSTOP},
              &child_before);
    program = token < 0 ? start_program(argv + 5) : start(LEFT_ALONE);
    if (program == 0)
        guard(argv + 5);
    if (token < 0) {
        close(feed);
        close(table);
    }
    for (;;) {
        while ((child = waitpid(-1, &how, WNOHANG)) > 0) {
            if (child != program)
                continue;
            status = status_of(how);
            program = 0;
            if (token >= 0) {
                tell_none(token, feed);
                close(feed);
                close(table);
            }
        }
        if (child < 0)
            break;
        number = sigwaitinfo(&taken, 0);
        if (number == SIGUSR2)
            flip_switch();
        /* (an interrupt from the terminal has come to the program already) */
        if (program > 0 && (number == SIGTERM || number == SIGHUP))
            kill(program, number);
    }
    number = number_in(replayed);
    if (number != 0)
        fprintf(stderr, "predator native: the replay ended with status %d\n", number);
    return status;
}
