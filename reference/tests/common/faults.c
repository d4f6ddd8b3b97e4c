/* Preloaded into a program, this says how its reads of standard input and its writes to standard output go. The variables READS and WRITES
   are lists of numbers, one for each call: a number n lets the call move at most n bytes, 0 none, and -n makes it fail with the error n. A
   number with a `*` behind it holds for all further calls. Behind the last number a call is as it would be without this. */
#define _GNU_SOURCE
#include <errno.h>
#include <stdlib.h>
#include <sys/syscall.h>
#include <unistd.h>

/* Takes the next number of a list for a call of so many bytes. Gives 0 if there is none left. */
static int next_of(const char **list, const char *name, size_t size, long *number)
{
    char *end;

    if (*list == NULL) {
        *list = getenv(name);
        if (*list == NULL)
            *list = "";
    }
    *number = strtol(*list, &end, 10);
    if (end == *list)
        return 0;
    if (*end != '*')
        *list = end;
    if (*number > (long)size)
        *number = (long)size;
    return 1;
}

static ssize_t failed(long number)
{
    errno = (int)-number;
    return -1;
}

/* A call gets all the bytes that it is let have, however slowly they come. */
ssize_t read(int descriptor, void *bytes, size_t size)
{
    static const char *list;
    ssize_t done = 0, got;
    long number;

    if (descriptor != 0 || !next_of(&list, "READS", size, &number))
        return syscall(SYS_read, descriptor, bytes, size);
    if (number < 0)
        return failed(number);
    while (done < number) {
        got = syscall(SYS_read, descriptor, (char *)bytes + done, (size_t)(number - done));
        if (got <= 0)
            break;
        done += got;
    }
    return done;
}

ssize_t write(int descriptor, const void *bytes, size_t size)
{
    static const char *list;
    long number;

    if (descriptor != 1 || !next_of(&list, "WRITES", size, &number))
        return syscall(SYS_write, descriptor, bytes, size);
    if (number < 0)
        return failed(number);
    return number == 0 ? 0 : syscall(SYS_write, descriptor, bytes, (size_t)number);
}
