/* Runs a program many times, each time on other files and under a limit, and tells how each run ended. tools/fuzz.py
 * builds it. It stays small, since what a process took at most counts from what its parent has.
 *
 * A request comes through standard input: the number of a limited resource or -1 (int), its size (long), how many words
 * and how many files (int each); each word with its length before it (int); each file's name, with its length, and its
 * bytes, with theirs. The files are written into the folder that this was started in, the command is run there, and
 * what it left in the folder `out` is removed. The answer on standard output is the code, or a signal's number below 0
 * (int), processor time in microseconds, kilobytes at most (long each), and what the command put and said, with the
 * length of each before it (int). Answers wait until a request without a word and a file comes. Ends with the input. */
#define _GNU_SOURCE
#include <dirent.h>
#include <fcntl.h>
#include <signal.h>
#include <stdio.h>
#include <stdlib.h>
#include <sys/resource.h>
#include <sys/wait.h>
#include <unistd.h>

/* A run is ended by a signal after so much processor time, and after so much time of the clock. */
enum { SECONDS = 60, SECONDS_OF_CLOCK = 600, MOST_WORDS = 32, PART = 1 << 16 };

static char part[PART];
static char *environment[] = {"PATH=/usr/bin:/bin", NULL};

static void fail(const char *what) {
    perror(what);
    exit(1);
}

static void take(void *bytes, size_t size) {
    if (fread(bytes, 1, size, stdin) != size)
        exit(ferror(stdin) != 0);
}

static int take_int(void) {
    int number;
    take(&number, sizeof number);
    return number;
}

static char *take_text(void) {
    int size = take_int();
    char *text = malloc(size + 1);
    if (text == NULL)
        fail("memory");
    take(text, size);
    text[size] = 0;
    return text;
}

static void put(const void *bytes, size_t size) {
    if (fwrite(bytes, 1, size, stdout) != size)
        fail("answer");
}

static void take_file(void) {
    char *name = take_text();
    int file = open(name, O_WRONLY | O_CREAT | O_TRUNC | O_CLOEXEC, 0600);
    if (file < 0)
        fail(name);
    for (int left = take_int(); left > 0;) {
        int size = left < PART ? left : PART;
        take(part, size);
        if (write(file, part, size) != size)
            fail(name);
        left -= size;
    }
    close(file);
    free(name);
}

/* A file for what is put or said, which is emptied for each run. */
static int opened(const char *name) {
    int file = open(name, O_RDWR | O_CREAT | O_TRUNC | O_CLOEXEC, 0600);
    if (file < 0)
        fail(name);
    return file;
}

static void emptied(int file) {
    if (ftruncate(file, 0) || lseek(file, 0, SEEK_SET))
        fail("output");
}

static void put_file(int file) {
    off_t size = lseek(file, 0, SEEK_END);
    int told = size;
    put(&told, sizeof told);
    for (off_t at = 0; at < size;) {
        ssize_t got = pread(file, part, PART, at);
        if (got <= 0)
            fail("output");
        put(part, got);
        at += got;
    }
}

static void empty_folder(const char *name) {
    DIR *folder = opendir(name);
    if (folder == NULL)
        return;
    for (struct dirent *each; (each = readdir(folder)) != NULL;)
        if (each->d_name[0] != '.')
            unlinkat(dirfd(folder), each->d_name, 0);
    closedir(folder);
}

/* A file that may not grow further is a failed write, as under `./rvf`. */
static void begin(char **words, int resource, long size, int in, int out, int err) {
    dup2(in, 0);
    dup2(out, 1);
    dup2(err, 2);
    struct rlimit limit = {SECONDS, SECONDS + 1};
    setrlimit(RLIMIT_CPU, &limit);
    alarm(SECONDS_OF_CLOCK);
    signal(SIGXFSZ, SIG_IGN);
    if (resource >= 0 && getrlimit(resource, &limit) == 0) {
        limit.rlim_cur = size;
        setrlimit(resource, &limit);
    }
    execve(words[0], words, environment);
    _exit(127);
}

static long microseconds(struct timeval time) {
    return time.tv_sec * 1000000L + time.tv_usec;
}

static void run(char **words, int resource, long size, int in, int out, int err) {
    emptied(out);
    emptied(err);
    pid_t child = vfork();
    if (child < 0)
        fail("process");
    if (child == 0)
        begin(words, resource, size, in, out, err);
    int status;
    struct rusage usage;
    if (wait4(child, &status, 0, &usage) != child)
        fail("process");
    int code = WIFEXITED(status) ? WEXITSTATUS(status) : -WTERMSIG(status);
    long took[2] = {microseconds(usage.ru_utime) + microseconds(usage.ru_stime), usage.ru_maxrss};
    put(&code, sizeof code);
    put(took, sizeof took);
    put_file(out);
    put_file(err);
    empty_folder("out");
}

int main(void) {
    int in = open("/dev/null", O_RDONLY | O_CLOEXEC), out = opened("put"), err = opened("said");
    for (;;) {
        int resource = take_int();
        long size;
        take(&size, sizeof size);
        int words = take_int(), files = take_int();
        char *command[MOST_WORDS + 1] = {NULL};
        if (words < 0 || words > MOST_WORDS)
            return 1;
        if (words == 0 && fflush(stdout))
            fail("answer");
        for (int at = 0; at < words; at++)
            command[at] = take_text();
        for (int at = 0; at < files; at++)
            take_file();
        if (words > 0)
            run(command, resource, size, in, out, err);
        for (int at = 0; at < words; at++)
            free(command[at]);
    }
}
