/* The fork server that `tools/afl-fork` compiles and becomes: it gives inputs to one process of `vmhost fuzz`, and AFL++ what its lines say.
 *
 *     ROOM/afl-fork ROOM BUILT WORD..
 *
 * It removes itself and the folder ROOM, in which it lies alone; BUILT is the `vmhost` that is taken where none is in the path; the words are those of
 * `tools/afl-fork`, whose text says what they mean and what the fuzzer is told. */
#define _GNU_SOURCE
#include <errno.h>
#include <fcntl.h>
#include <signal.h>
#include <stdio.h>
#include <stdlib.h>
#include <string.h>
#include <sys/shm.h>
#include <sys/wait.h>
#include <unistd.h>

enum {
    CONTROL = 198,     /* what the fuzzer writes to */
    STATUS = 199,      /* what it reads from */
    MAP_SIZE = 65536,  /* the bytes of its map, where nothing else is agreed on */
    MOST_INPUT = 256,  /* the console takes so many bytes before the first step */
    MOST_CRASHES = 64
};

/* the options of `vmhost fuzz` that have a value */
static const char *const VALUED[] = {"--profile", "--pages", "--ready", "--steps", "--until", "--logs", "--coverage", "--jobs", NULL};

/* what the words say is to be run: `vmhost fuzz` with these words, the file of the input (NULL: standard input), and which addresses are crashes */
static char **command;
static const char *input_name;
static unsigned long crashes[MOST_CRASHES];
static int crash_count;

/* the process that runs inputs, what it reads, and what it has written and isn't taken yet */
static pid_t runner;
static int to_runner, from_runner;
static char *said;
static size_t room_said, begins, ends;

static void fail(const char *what, const char *why, int status)
{
    fprintf(stderr, "afl-fork: %s%s\n", what, why);
    exit(status);
}

static void fail_by_system(const char *what)
{
    fprintf(stderr, "afl-fork: %s: %s\n", what, strerror(errno));
    exit(1);
}

static int has_value(const char *word)
{
    for (const char *const *option = VALUED; *option; option++)
        if (!strcmp(word, *option))
            return 1;
    return 0;
}

/* Reads the words: sets the command, the addresses that are crashes, and the file of the input. */
static void read_words(char **words, int count)
{
    const char *plain[2];
    int plains = 0, length = 0;
    command = calloc((size_t)count * 2 + 8, sizeof *command);
    if (!command)
        fail_by_system("memory");
    command[length++] = "vmhost";
    command[length++] = "fuzz";
    command[length++] = "--reached";
    for (int at = 0; at < count; at++) {
        char *word = words[at], *rest;
        int is_crash = !strcmp(word, "--crash");
        if (is_crash || has_value(word)) {
            if (++at == count)
                fail(word, " without a value", 2);
            command[length++] = is_crash ? "--until" : word;
            command[length++] = words[at];
            if (!is_crash)
                continue;
            if (crash_count == MOST_CRASHES)
                fail("--crash", " too often", 2);
            errno = 0;
            crashes[crash_count++] = strtoul(words[at], &rest, 16);
            if (errno || *rest || rest == words[at]) {
                fprintf(stderr, "afl-fork: --crash %s: no address\n", words[at]);
                exit(2);
            }
        } else if (!strncmp(word, "--", 2)) {
            command[length++] = word;
        } else if (plains < 2) {
            plain[plains++] = word;
        } else {
            plains = 3;
            break;
        }
    }
    if (plains < 1 || plains > 2)
        fail("an image, and at most one file of an input", "", 2);
    command[length++] = "--";
    command[length] = (char *)plain[0];
    input_name = plains == 2 ? plain[1] : NULL;
}

/* Begins the process that runs inputs. */
static void begin(const char *built)
{
    int to[2], from[2];
    if (pipe2(to, O_CLOEXEC) || pipe2(from, O_CLOEXEC) || (runner = fork()) < 0)
        fail_by_system("vmhost");
    if (runner == 0) {
        close(CONTROL);
        close(STATUS);
        signal(SIGPIPE, SIG_DFL);
        dup2(to[0], 0);
        dup2(from[1], 1);
        execvp("vmhost", command);
        execv(built, command);
        fprintf(stderr, "afl-fork: vmhost: %s\n", strerror(errno));
        _exit(1);
    }
    close(to[0]);
    close(from[1]);
    to_runner = to[1];
    from_runner = from[0];
    begins = ends = 0;
}

/* Ends it, and answers its status as the system tells it. */
static int end(void)
{
    int status;
    close(to_runner);
    while (waitpid(runner, &status, 0) < 0)
        if (errno != EINTR)
            fail_by_system("vmhost");
    close(from_runner);
    return status;
}

/* The next line of the process without its end, NULL where it has ended before. */
static char *line_of_runner(void)
{
    size_t seen = begins;
    for (;;) {
        char *end_of_line = ends > seen ? memchr(said + seen, '\n', ends - seen) : NULL;
        if (end_of_line) {
            char *line = said + begins;
            *end_of_line = 0;
            begins = (size_t)(end_of_line + 1 - said);
            return line;
        }
        memmove(said, said + begins, ends - begins);
        ends -= begins;
        begins = 0;
        seen = ends;
        if (room_said - ends < 4096) {
            room_said = room_said ? 2 * room_said : 65536;
            said = realloc(said, room_said);
            if (!said)
                fail_by_system("memory");
        }
        ssize_t got = read(from_runner, said + ends, room_said - ends);
        if (got == 0 || (got < 0 && errno != EINTR))
            return NULL;
        ends += got > 0 ? (size_t)got : 0;
    }
}

/* The line of an input, NULL where the process was ended before it came. */
static char *run(const unsigned char *input, size_t length)
{
    static const char digits[] = "0123456789abcdef";
    char text[2 * MOST_INPUT + 1];
    size_t count = 0, written = 0;
    for (size_t at = 0; at < length; at++) {
        text[count++] = digits[input[at] >> 4];
        text[count++] = digits[input[at] & 15];
    }
    text[count++] = '\n';
    while (written < count) {
        ssize_t got = write(to_runner, text + written, count - written);
        if (got < 0 && errno != EINTR)
            return NULL;
        written += got > 0 ? (size_t)got : 0;
    }
    return line_of_runner();
}

/* The bytes of the next input. */
static size_t read_input(unsigned char *input)
{
    int file = input_name ? open(input_name, O_RDONLY | O_CLOEXEC) : 0;
    size_t length = 0;
    if (file < 0)
        fail_by_system(input_name);
    while (length < MOST_INPUT) {
        ssize_t got = pread(file, input + length, MOST_INPUT - length, (off_t)length);
        if (got < 0 && errno == EINTR)
            continue;
        if (got < 0)
            fail_by_system(input_name ? input_name : "standard input");
        if (got == 0)
            break;
        length += (size_t)got;
    }
    if (input_name)
        close(file);
    return length;
}

/* What a run's line is to the fuzzer: the status of a process, as the system tells it. A line is NAME `steps` N HOW .. */
static int status_of(const char *line)
{
    char how[16] = "", where[16] = "";
    if (sscanf(line, "%*s steps %*s %15s %15s", how, where) < 1)
        fail("vmhost fuzz answered: ", line, 1);
    if (!strcmp(how, "exception"))
        return SIGSEGV;
    if (!strcmp(how, "stop"))
        return SIGABRT;
    if (!strcmp(how, "address"))
        for (int at = 0; at < crash_count; at++)
            if (strtoul(where, NULL, 16) == crashes[at])
                return SIGABRT;
    return 0;
}

/* Marks the words that a line names. */
static void mark(const char *line, unsigned char *map)
{
    const char *at = strstr(line, " reached ");
    char *rest;
    if (!at)
        fail("vmhost fuzz answered: ", line, 1);
    for (at += 9; *at && *at != '-'; at = *rest ? rest + 1 : rest) {
        unsigned long word = strtoul(at, &rest, 16);
        if (rest == at)
            fail("vmhost fuzz answered: ", line, 1);
        map[(word >> 2) % MAP_SIZE] = 1;
    }
}

/* Whether four bytes came. */
static int is_asked(void)
{
    char word[4];
    ssize_t got;
    while ((got = read(CONTROL, word, 4)) < 0 && errno == EINTR)
        ;
    return got == 4;
}

static void say(int word)
{
    if (write(STATUS, &word, 4) != 4)
        exit(0);
}

/* Runs an input each time that the fuzzer asks for it, until it doesn't any more. */
static int serve(const char *built, unsigned char *map)
{
    unsigned char input[MOST_INPUT];
    begin(built);
    say(0);
    while (is_asked()) {
        int status;
        say(runner);
        char *line = run(input, read_input(input));
        if (line) {
            mark(line, map);
            status = status_of(line);
        } else {
            status = end();
            if (WIFEXITED(status))
                return WEXITSTATUS(status) ? WEXITSTATUS(status) : 1;
            begin(built);
        }
        say(status);
    }
    return 0;
}

/* Runs the one input that is given, and prints its line. */
static int run_one(const char *built)
{
    unsigned char input[MOST_INPUT];
    size_t length = 0;
    ssize_t got;
    if (input_name)
        length = read_input(input);
    else
        while (length < MOST_INPUT && (got = read(0, input + length, MOST_INPUT - length)) > 0)
            length += (size_t)got;
    begin(built);
    char *line = run(input, length);
    if (line)
        puts(line);
    int status = end();
    if (line)
        return 0;
    return WIFEXITED(status) && WEXITSTATUS(status) ? WEXITSTATUS(status) : 1;
}

int main(int count, char **words)
{
    if (count < 3)
        return 2;
    unlink(words[0]);
    rmdir(words[1]);
    signal(SIGPIPE, SIG_IGN);
    read_words(words + 3, count - 3);
    const char *name = getenv("__AFL_SHM_ID");
    if (!name)
        return run_one(words[2]);
    unsigned char *map = shmat(atoi(name), NULL, 0);
    if (map == (void *)-1)
        fail_by_system("the fuzzer's map");
    return serve(words[2], map);
}
