/* Progress: one line of text, shown again each second by an alarm. The only state that outlives a call. */
#include "command.h"

#include <errno.h>
#include <signal.h>
#include <stdio.h>
#include <string.h>
#include <unistd.h>

#include "progress.h"

#define LINE_MOST 70

static char line[LINE_MOST + 1];
static volatile sig_atomic_t line_length;
static volatile sig_atomic_t seconds;
static volatile sig_atomic_t on_screen;

/* Runs inside a signal: it uses write alone. */
static void show(int signal_number)
{
    (void)signal_number;
    int before = errno;
    char text[LINE_MOST + 32];
    size_t length = 0;
    unsigned passed = (unsigned)++seconds;
    char digits[12];
    size_t count = 0;
    do {
        digits[count++] = (char)('0' + passed % 10);
        passed /= 10;
    } while (passed != 0);
    text[length++] = '\r';
    for (int i = 0; i < line_length; i++) {
        text[length++] = line[i];
    }
    while (count > 0) {
        text[length++] = digits[--count];
    }
    text[length++] = ' ';
    text[length++] = 's';
    ssize_t written = write(STDERR_FILENO, text, length);
    (void)written;
    on_screen = 1;
    alarm(1);
    errno = before;
}

void progress_begin(const char *doing, const char *name)
{
    progress_end();
    if (!isatty(STDOUT_FILENO) || !isatty(STDERR_FILENO)) {
        return;
    }
    char text[SHOWN_BYTES];
    int length = snprintf(line, sizeof line, "%s %.40s: ", doing, shown(name, text));
    line_length = length < LINE_MOST ? length : LINE_MOST;
    seconds = 0;
    struct sigaction action;
    memset(&action, 0, sizeof action);
    action.sa_handler = show;
    action.sa_flags = SA_RESTART;
    sigemptyset(&action.sa_mask);
    if (sigaction(SIGALRM, &action, NULL) == 0) {
        alarm(1);
    }
}

void progress_end(void)
{
    if (line_length == 0) {
        return;
    }
    alarm(0);
    signal(SIGALRM, SIG_IGN);
    line_length = 0;
    if (on_screen) {
        on_screen = 0;
        ssize_t written = write(STDERR_FILENO, "\r\033[K", 4);
        (void)written;
    }
}
