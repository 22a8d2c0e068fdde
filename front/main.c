/* loft: a library on disk. */
#include "tool.h"
#include <signal.h>
#include <unistd.h>

int main(int count, char **words)
{
    signal(SIGPIPE, SIG_IGN); /* a reader that goes away, and a file that may not grow, are told like any other fault */
    signal(SIGXFSZ, SIG_IGN);
    return loft_run(count - 1, words + 1, STDOUT_FILENO, stderr);
}
