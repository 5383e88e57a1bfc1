/*
 * The installed program: the words of its command line, and then the proved function, which reads standard input, writes the answers and gives the status. What stands
 * here is not proved; it opens a file as standard input, or says what it cannot do, and that is all. A write that the system answers by a signal is to fail instead, so
 * that the function can say so.
 */
#define _POSIX_C_SOURCE 200809L
#include "dates.h"

#include <errno.h>
#include <fcntl.h>
#include <signal.h>
#include <string.h>
#include <sys/stat.h>
#include <unistd.h>

uint32_t dates_main(uint8_t *text, size_t length);

/* Room for the text, one byte more than a script may have: no page of it is touched that is not read into. */
static uint8_t script[DATES_TEXT + 1];

static const char usage[] =
    "usage: dates [FILE]\n"
    "\n"
    "Runs a script of rules (SMT-LIB, QF_IDL) and prints its answers. FILE may be anything that can be read;\n"
    "without it, or where it is -, the script is standard input.\n"
    "\n"
    "  --version    print the version\n"
    "  --help       print this\n"
    "\n"
    "Exit status: 0 the script came to its end or to exit; 1 a refusal, (error \"N\"), ended it; 2 the script\n"
    "cannot be read, an answer cannot be written, or the words are not in this form.\n"
    "The manual page dates(1) says what is read and printed.\n";

/* Writes a text to a descriptor, and gives the status to end with. */
static int tell(int to, const char *text, int status)
{
    size_t left = strlen(text);
    while (left > 0) {
        ssize_t some = write(to, text, left);
        if (some < 0 && errno != EINTR)
            return 2;
        if (some > 0) {
            text += some;
            left -= (size_t)some;
        }
    }
    return status;
}

/* Says on standard error what is wrong, and gives the status 2. */
static int refuse(const char *before, const char *name, const char *after)
{
    tell(2, "dates: ", 2);
    tell(2, before, 2);
    tell(2, name, 2);
    tell(2, after, 2);
    return tell(2, "\n", 2);
}

/* Makes a file standard input. Gives -1 where that is done, else the status to end with. */
static int read_from(const char *name)
{
    struct stat about;
    int file;
    if (*name == 0)
        return refuse("the name of the script is empty", "", "");
    if (stat(name, &about) != 0)
        return refuse(errno == EACCES ? "" : "there is no file ", name, errno == EACCES ? " may not be read" : "");
    if (S_ISDIR(about.st_mode))
        return refuse("", name, " is a folder, not a script");
    file = open(name, O_RDONLY);
    if (file < 0)
        return refuse("", name, errno == EACCES ? " may not be read" : " cannot be read");
    if (file != 0 && (dup2(file, 0) != 0 || close(file) != 0))
        return refuse("", name, " cannot be standard input");
    return -1;
}

/* Sees to the command line. Gives -1 where the script is to be run, else the status to end with. */
static int see_to(int count, char **words)
{
    const char *word = count > 1 ? words[1] : "-";
    int from = 1;
    if (strcmp(word, "--help") == 0 || strcmp(word, "-h") == 0)
        return tell(1, usage, 0);
    if (strcmp(word, "--version") == 0)
        return tell(1, "dates " DATES_VERSION "\n", 0);
    if (strcmp(word, "--") == 0)
        from = 2;
    else if (word[0] == '-' && word[1] != 0)
        return refuse("there is no option ", word, "; dates --help says what there is");
    if (count > from + 1)
        return refuse("usage: dates [FILE]", "", "");
    if (count <= from || (from == 1 && strcmp(word, "-") == 0))
        return -1;
    return read_from(words[from]);
}

int main(int count, char **words)
{
    int status;
    signal(SIGPIPE, SIG_IGN);
    signal(SIGXFSZ, SIG_IGN);
    status = see_to(count, words);
    return status >= 0 ? status : (int)dates_main(script, sizeof script);
}
