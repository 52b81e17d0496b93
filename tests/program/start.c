// start MODE PROGRAM <TEXT: runs the program on the text. The mode says what its standard input or its standard output is; the other stays as it is here.
//   late     input is a non-blocking pipe, and what follows the third line is sent once the program has read all before it and was found asleep often
//   N        input is a non-blocking pipe, and N bytes are sent at a time, each time once those before were read
//   cut      input is a terminal that gives the text and then an error, since its other end is closed
//   slow     output is a non-blocking pipe of one page, which is read only once it is full and the program was found asleep often
//   gone     output is a pipe that nobody reads, and the signal that says so is ignored
//   killed   the same, and the signal is not ignored
// Says on standard error if the program ended by a signal or a status, or used the processor for a quarter of the time that it waited for the late part. One
// that never sleeps is never found asleep, so that this does not end. Other work on the machine makes waits longer and that share smaller.
#define _GNU_SOURCE
#include <fcntl.h>
#include <poll.h>
#include <signal.h>
#include <stdio.h>
#include <stdlib.h>
#include <string.h>
#include <sys/ioctl.h>
#include <sys/resource.h>
#include <sys/wait.h>
#include <termios.h>
#include <time.h>
#include <unistd.h>

static const char *mode;
static char text[1 << 17];
static size_t length;

static void need(int held, const char *what)
{
    if (!held) {
        perror(what);
        exit(2);
    }
}

static int is(const char *name)
{
    return strcmp(mode, name) == 0;
}

static void wait_ms(long ms)
{
    struct timespec span = {ms / 1000, ms % 1000 * 1000000};
    nanosleep(&span, NULL);
}

// Whether the other end of the pipe is still open.
static int is_open(int fd)
{
    struct pollfd end = {fd, 0, 0};
    poll(&end, 1, 0);
    return (end.revents & (POLLERR | POLLHUP)) == 0;
}

// Waits until the pipe holds so many bytes, or its other end is closed.
static void wait_until(int fd, int bytes)
{
    int held;
    do {
        wait_ms(1);
        need(ioctl(fd, FIONREAD, &held) == 0, "FIONREAD");
    } while (held != bytes && is_open(fd));
}

// The letter for what a process does, which stands in /proc behind its name in parentheses: S if it sleeps, Z if it has ended.
static char state_of(pid_t pid)
{
    char path[64], line[512];
    snprintf(path, sizeof path, "/proc/%d/stat", (int)pid);
    FILE *file = fopen(path, "r");
    need(file != NULL && fgets(line, sizeof line, file) != NULL && strrchr(line, ')') != NULL, path);
    fclose(file);
    return strrchr(line, ')')[2];
}

// Waits until the program was found asleep so many times, or has ended.
static void wait_asleep(pid_t pid, int times)
{
    for (char state = 0; times > 0 && state != 'Z'; times -= state == 'S') {
        wait_ms(1);
        state = state_of(pid);
    }
}

static long now_ms(void)
{
    struct timespec now;
    need(clock_gettime(CLOCK_MONOTONIC, &now) == 0, "clock");
    return now.tv_sec * 1000 + now.tv_nsec / 1000000;
}

// Sends the text's bytes from one place to another, and waits until they were read.
static void send_part(int fd, size_t from, size_t to)
{
    if (write(fd, text + from, to - from) == (ssize_t)(to - from))
        wait_until(fd, 0);
}

static size_t third_line_end(void)
{
    size_t end = 0;
    for (int lines = 0; lines < 3; end++)
        lines += text[end] == '\n';
    return end;
}

static void send_text(int fd, pid_t pid)
{
    if (is("late")) {
        send_part(fd, 0, third_line_end());
        wait_asleep(pid, 300);
        send_part(fd, third_line_end(), length);
    } else {
        size_t piece = strtoul(mode, NULL, 10);
        for (size_t at = 0; at < length; at += piece)
            send_part(fd, at, at + piece < length ? at + piece : length);
    }
    close(fd);
}

// A terminal's own end, to whose other end the text was written before that was closed.
static int cut_terminal(void)
{
    struct termios raw;
    int own = posix_openpt(O_RDWR | O_NOCTTY | O_CLOEXEC);
    need(own >= 0 && grantpt(own) == 0 && unlockpt(own) == 0, "terminal");
    int other = open(ptsname(own), O_RDWR | O_NOCTTY | O_CLOEXEC);
    need(other >= 0 && tcgetattr(other, &raw) == 0, "other end");
    cfmakeraw(&raw);
    need(tcsetattr(other, TCSANOW, &raw) == 0, "raw");
    need(write(other, text, length) == (ssize_t)length, "write");
    close(other);
    return own;
}

static pid_t launch(char *program, int in, int out)
{
    pid_t pid = fork();
    need(pid >= 0, "fork");
    if (pid == 0) {
        signal(SIGPIPE, is("gone") ? SIG_IGN : SIG_DFL);
        need(dup2(in, 0) == 0 && dup2(out, 1) == 1, "dup2");
        execl(program, program, (char *)NULL);
        need(0, program);
    }
    return pid;
}

// Passes on what comes once the pipe is full.
static void pass_on(int fd, pid_t pid)
{
    ssize_t got;
    wait_until(fd, 4096);
    wait_asleep(pid, 50);
    while ((got = read(fd, text, sizeof text)) > 0)
        need(write(1, text, (size_t)got) == got, "write");
}

static void report(pid_t pid, long from)
{
    struct rusage used;
    int status;
    need(wait4(pid, &status, 0, &used) == pid, "wait");
    long ms = (used.ru_utime.tv_sec + used.ru_stime.tv_sec) * 1000 + (used.ru_utime.tv_usec + used.ru_stime.tv_usec) / 1000;
    if (WIFSIGNALED(status))
        fprintf(stderr, "ended by signal %d\n", WTERMSIG(status));
    else if (WEXITSTATUS(status) != 0)
        fprintf(stderr, "ended with status %d\n", WEXITSTATUS(status));
    if (is("late") && ms > (now_ms() - from) / 4)
        fprintf(stderr, "used the processor for %ld of %ld ms\n", ms, now_ms() - from);
}

// The program's input is a pipe, of which the end to write to is answered.
static int feed(char *program, pid_t *pid)
{
    int ends[2];
    need(pipe2(ends, O_CLOEXEC) == 0 && fcntl(ends[0], F_SETFL, O_NONBLOCK) == 0, "pipe");
    *pid = launch(program, ends[0], 1);
    close(ends[0]);
    return ends[1];
}

// The program's output is a pipe, of which the end to read from is answered; where nobody is to read it, that end is closed before the program starts.
static int drain(char *program, pid_t *pid)
{
    int ends[2];
    need(pipe2(ends, O_CLOEXEC) == 0 && fcntl(ends[1], F_SETPIPE_SZ, 4096) == 4096, "pipe");
    need(!is("slow") || fcntl(ends[1], F_SETFL, O_WRONLY | O_NONBLOCK) == 0, "pipe");
    if (!is("slow"))
        close(ends[0]);
    need(lseek(0, 0, SEEK_SET) == 0, "seek");
    *pid = launch(program, 0, ends[1]);
    close(ends[1]);
    return ends[0];
}

int main(int count, char **words)
{
    pid_t pid;
    long from = now_ms();
    if (count != 3)
        return 2;
    mode = words[1];
    length = (size_t)read(0, text, sizeof text);
    signal(SIGPIPE, SIG_IGN);
    if (is("cut"))
        pid = launch(words[2], cut_terminal(), 1);
    else if (is("gone") || is("killed"))
        drain(words[2], &pid);
    else if (is("slow")) {
        int end = drain(words[2], &pid);
        pass_on(end, pid);
    } else {
        int end = feed(words[2], &pid);
        send_text(end, pid);
    }
    report(pid, from);
    return 0;
}
