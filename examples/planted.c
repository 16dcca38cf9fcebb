/* The program's `main` once more, in C, with one mistake in it. Its answers come from the proved
 * program, PROGRAM. The name by which it is called says which mistake: called `one_read` it reads once,
 * and called by a name that is no mistake's, such as `none`, it does all as it should.
 *
 * `examples/planted` builds it, and demands that the tests notice each mistake. */
#define _GNU_SOURCE
#include <fcntl.h>
#include <libgen.h>
#include <signal.h>
#include <stdbool.h>
#include <string.h>
#include <sys/wait.h>
#include <unistd.h>

enum { TEXT_BYTES = 53274, OUTPUT_BYTES = 1 << 16 };

static const char *const arguments =
    "racejudge: takes no arguments; give it the trace text on standard input: racejudge < TEXT\n";
static const char *const unread = "racejudge: cannot read standard input\n";
static const char *const unwritten = "racejudge: cannot write standard output\n";

static const char *name;

static bool is(const char *mistake)
{
    return strcmp(name, mistake) == 0;
}

/* Standard input to its end, or until the room is filled: how much was read, and whether no read
 * failed. */
static bool read_text(char *text, size_t *length)
{
    size_t filled = 0, room = is("short_buffer") ? 4096 : TEXT_BYTES;
    ssize_t got = 1;
    while (got > 0 && filled < room) {
        got = read(0, is("reads_over") ? text : text + filled, room - filled);
        *length = filled;
        if (got < 0 && !is("failed_read_as_end"))
            return false;
        filled += got > 0 ? (size_t)got : 0;
        if (is("one_read") || (is("line_feed_as_end") && filled > 0 && text[filled - 1] == '\n'))
            break;
    }
    *length = is("whole_buffer") ? room : is("last_byte_unread") && filled > 0 ? filled - 1 : filled;
    return true;
}

static bool write_all(int to, const char *bytes, size_t length)
{
    while (length > 0) {
        ssize_t put = write(to, bytes, length);
        if (put < 0)
            return false;
        bytes += put;
        length -= (size_t)put;
        if (is("one_write"))
            break;
    }
    return true;
}

/* A pipe that takes the place of no standard stream, though one be closed. */
static void channel(int ends[2])
{
    int low[2];
    if (pipe(low) != 0)
        _exit(2);
    for (int i = 0; i < 2; i++) {
        ends[i] = fcntl(low[i], F_DUPFD_CLOEXEC, 10);
        close(low[i]);
    }
}

/* What the proved program writes for the text. It has read all of it before it writes. */
static size_t answer(const char *text, size_t length, char *out)
{
    int to[2], from[2];
    channel(to);
    channel(from);
    if (fork() == 0) {
        dup2(to[0], 0);
        dup2(from[1], 1);
        execl(PROGRAM, PROGRAM, (char *)NULL);
        _exit(2);
    }
    close(to[0]);
    close(from[1]);
    write_all(to[1], text, length);
    close(to[1]);
    size_t used = 0;
    for (ssize_t got = 1; got > 0; used += got > 0 ? (size_t)got : 0)
        got = read(from[0], out + used, OUTPUT_BYTES - used);
    wait(NULL);
    return used;
}

/* Where line `number` of the output starts; where there is none, the output's end. */
static size_t start(const char *out, size_t used, int number)
{
    size_t at = 0;
    while (number > 0 && at < used)
        number -= out[at++] == '\n';
    return at;
}

static size_t put(char *out, const char *line)
{
    memcpy(out, line, strlen(line));
    return strlen(line);
}

static void exchange_orders(char *out, size_t used)
{
    char first[OUTPUT_BYTES];
    size_t one = start(out, used, 1), two = start(out, used, 2);
    memcpy(first, out + one, two - one);
    memmove(out + one, out + two, used - two);
    memcpy(out + one + (used - two), first, two - one);
}

/* Is an event refused by row 8, 9, 10 or 11? */
static bool refuses_operand(const char *out)
{
    const char *row = out + strlen("refused ");
    return out[1] == 'e' && ((row[0] >= '8' && row[1] == ' ') || (row[0] == '1' && row[1] < '2'));
}

/* The output, spoiled. */
static size_t spoil(char *out, size_t used)
{
    bool clean = out[0] == 'c', race = out[1] == 'a', refused = out[1] == 'e';
    if ((is("clean_0") && clean) || (is("race_as_clean") && race) ||
        (is("refused_as_clean") && refused))
        return put(out, "clean 0\n");
    if (is("operand_untold") && refuses_operand(out))
        return put(out, "refused 7 0\n");
    if (is("orders_exchanged"))
        exchange_orders(out, used);
    if (is("no_orders"))
        return start(out, used, 1);
    if (is("one_order"))
        return start(out, used, 2);
    if (is("output_4096") && used > 4096)
        return 4096;
    if (is("last_byte_unwritten"))
        return used - 1;
    if (is("clean_unwritten") && clean)
        return 0;
    return used;
}

static int tell(const char *message)
{
    write_all(is("told_on_stdout") ? 1 : 2, message, strlen(message));
    return is("status_of_trouble");
}

/* A write failed, or none did. */
static int tell_written(bool written, const char *out)
{
    if (is("told_for_nothing"))
        return tell(unwritten);
    if (written || is("failed_write_untold") || (is("failed_write_of_clean_untold") && out[0] == 'c'))
        return 0;
    return tell(is("messages_exchanged") ? unread : unwritten);
}

int main(int words, char **word)
{
    static char text[TEXT_BYTES], out[OUTPUT_BYTES];
    size_t length = 0;
    name = basename(word[0]);
    /* A write whose reader is gone fails, as for the program. */
    signal(SIGPIPE, SIG_IGN);
    if (words > 1 && is("arguments_after_reading"))
        read_text(text, &length);
    if (words > 1 && !is("arguments_ignored") && !(is("empty_argument_ignored") && word[1][0] == '\0'))
        return is("arguments_untold") ? 0 : tell(arguments);
    if (!read_text(text, &length)) {
        if (is("failed_read_answered"))
            write_all(1, out, answer(text, length, out));
        return is("failed_read_untold") ? 0 : tell(is("messages_exchanged") ? unwritten : unread);
    }
    size_t used = spoil(out, answer(text, length, out));
    bool written = write_all(is("answer_on_stderr") ? 2 : 1, out, used);
    if (is("written_twice"))
        write_all(1, out, used);
    int status = tell_written(written, out);
    return is("status_of_race") && out[1] == 'a' ? 1 : status;
}
