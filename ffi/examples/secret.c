/* Reading a password from a file descriptor or from the terminal. */
#define _GNU_SOURCE
#include "secret.h"

#include <errno.h>
#include <fcntl.h>
#include <poll.h>
#include <signal.h>
#include <stdio.h>
#include <termios.h>
#include <unistd.h>

/* Reads one byte at a time: what follows the line is not ours. */
static enum fault read_line(int fd, char *line, size_t longest) {
    for (size_t used = 0; used <= longest;) {
        ssize_t got = read(fd, line + used, 1);
        if (got < 0 && errno == EINTR)
            continue;
        if (got < 0 || (got == 0 && used == 0))
            return FAULT_PASSWORD;
        if (got == 0 || line[used] == '\n') {
            line[used] = '\0';
            return FAULT_NONE;
        }
        used++;
    }
    return FAULT_PASSWORD;
}

/* The signals that end or stop a program at its terminal. They are held back while echo is off, so
 * that none of them leaves it off. */
static const int kept_back[] = {SIGINT, SIGTERM, SIGHUP, SIGQUIT, SIGTSTP};
enum { KEPT_BACK = sizeof kept_back / sizeof kept_back[0] };

static volatile sig_atomic_t caught;

static void note(int number) {
    caught = number;
}

/* How the program handled the signals before. */
struct dispositions {
    sigset_t mask;
    struct sigaction actions[KEPT_BACK];
};

static void keep_back(struct dispositions *before) {
    sigset_t set;
    struct sigaction noting = {.sa_handler = note};
    sigemptyset(&set);
    caught = 0;
    for (size_t i = 0; i < KEPT_BACK; i++)
        sigaddset(&set, kept_back[i]);
    sigprocmask(SIG_BLOCK, &set, &before->mask);
    for (size_t i = 0; i < KEPT_BACK; i++) {
        sigaction(kept_back[i], NULL, &before->actions[i]);
        if (before->actions[i].sa_handler != SIG_IGN)
            sigaction(kept_back[i], &noting, NULL);
    }
}

/* Delivers to the program a signal that arrived meanwhile. */
static void hand_on(const struct dispositions *before) {
    for (size_t i = 0; i < KEPT_BACK; i++)
        sigaction(kept_back[i], &before->actions[i], NULL);
    if (caught)
        raise(caught);
    sigprocmask(SIG_SETMASK, &before->mask, NULL);
}

/* Signals arrive only while it waits, so none is missed. A terminal sends whole lines. */
static enum fault read_answer(int terminal, char *password, const sigset_t *mask) {
    struct pollfd ready = {.fd = terminal, .events = POLLIN};
    if (ppoll(&ready, 1, NULL, mask) != 1)
        return FAULT_PASSWORD;
    return read_line(terminal, password, PASSWORD_BYTES);
}

static enum fault ask(int terminal, const char *prompt, char *password) {
    struct termios before, silent;
    struct dispositions dispositions;
    enum fault fault = FAULT_PASSWORD;
    if (tcgetattr(terminal, &before) != 0)
        return FAULT_PASSWORD;
    silent = before;
    silent.c_lflag &= ~(tcflag_t)ECHO;
    keep_back(&dispositions);
    if (dprintf(terminal, "%s", prompt) > 0 && tcsetattr(terminal, TCSAFLUSH, &silent) == 0) {
        fault = read_answer(terminal, password, &dispositions.mask);
        tcsetattr(terminal, TCSAFLUSH, &before);
        dprintf(terminal, "\n");
    }
    hand_on(&dispositions);
    return fault;
}

/* A program that was stopped at the prompt asks again once it continues. */
static enum fault prompt_for(const char *prompt, char *password) {
    enum fault fault = FAULT_PASSWORD;
    int terminal = open("/dev/tty", O_RDWR | O_CLOEXEC);
    if (terminal < 0)
        return FAULT_PASSWORD;
    do
        fault = ask(terminal, prompt, password);
    while (fault != FAULT_NONE && caught == SIGTSTP);
    close(terminal);
    return fault;
}

enum fault read_password(int fd, const char *prompt, char password[PASSWORD_BYTES + 1]) {
    return fd < 0 ? prompt_for(prompt, password) : read_line(fd, password, PASSWORD_BYTES);
}
