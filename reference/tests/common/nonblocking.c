/* nonblocking in|full PROGRAM    runs the program with a standard input on which no call waits, or with such a standard output, which is filled
   up first; once there is no room left in it, standard error gets the line `full` */
#include <fcntl.h>
#include <string.h>
#include <unistd.h>

static int stop_waiting(int descriptor)
{
    int flags = fcntl(descriptor, F_GETFL);

    return flags >= 0 && fcntl(descriptor, F_SETFL, flags | O_NONBLOCK) >= 0;
}

static int fill(void)
{
    char filling[4096];
    size_t size;

    memset(filling, 'x', sizeof filling);
    for (size = sizeof filling; size > 0; size /= 2)
        while (write(1, filling, size) > 0)
            ;
    return write(2, "full\n", 5) == 5;
}

int main(int count, char **words)
{
    if (count != 3)
        return 2;
    if (strcmp(words[1], "full") == 0) {
        if (!stop_waiting(1) || !fill())
            return 2;
    } else if (!stop_waiting(0)) {
        return 2;
    }
    execl(words[2], words[2], (char *)0);
    return 2;
}
