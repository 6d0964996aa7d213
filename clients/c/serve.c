/* Plays scripts by `cc_player serve 1`: writes each line of standard input to the server, waits for its answer, and
 * prints one line: its number, the status, how many bytes of recording came, and why a script was refused.
 *
 *     cc -o serve clients/c/serve.c && ./serve cc_player < scripts.jsonl
 *
 * Two pipes and POSIX; nothing else is needed. */
#include <signal.h>
#include <stdio.h>
#include <stdlib.h>
#include <string.h>
#include <sys/wait.h>
#include <unistd.h>

/* Starts the server: what is written to `*in` are its lines, what is read from `*out` its answers. */
static pid_t start(const char *program, FILE **in, FILE **out)
{
    int lines[2], answers[2];
    if (pipe(lines) || pipe(answers))
        return -1;
    pid_t child = fork();
    if (child == 0) {
        dup2(lines[0], 0);
        dup2(answers[1], 1);
        close(lines[0]), close(lines[1]), close(answers[0]), close(answers[1]);
        execlp(program, program, "serve", "1", (char *)0);
        perror(program);
        _exit(127);
    }
    close(lines[0]), close(answers[1]);
    *in = fdopen(lines[1], "w");
    *out = fdopen(answers[0], "r");
    return child;
}

/* Takes a piece of `count` bytes of a recording: here it is thrown away. 0 where it came whole. */
static int take_piece(FILE *out, unsigned long count)
{
    char bytes[65536];
    while (count > 0) {
        size_t got = fread(bytes, 1, count < sizeof bytes ? count : sizeof bytes, out);
        if (got == 0)
            return 1;
        count -= got;
    }
    return 0;
}

/* Reads one answer, and prints it. 0 where it is one. */
static int take_answer(FILE *out)
{
    char *line = 0;
    size_t room = 0;
    unsigned long long all = 0;
    unsigned long count, number, status;
    int at = 0, wrong = 1;
    while (getline(&line, &room, out) > 0) {
        if (sscanf(line, "data %lu", &count) == 1) {
            all += count;
            if (take_piece(out, count))
                break;
            continue;
        }
        if (sscanf(line, "ok %lu", &number) == 1)
            wrong = printf("%lu 0 %llu\n", number, all) < 0;
        else if (sscanf(line, "no %lu %lu: %n", &number, &status, &at) == 2 && at > 0)
            wrong = printf("%lu %lu %llu %s", number, status, all, line + at) < 0;
        break;
    }
    free(line);
    return wrong;
}

int main(int words, char **word)
{
    FILE *in, *out;
    char *line = 0;
    size_t room = 0;
    ssize_t length;
    int wrong = 0, status = 0;
    signal(SIGPIPE, SIG_IGN);
    pid_t child = start(words > 1 ? word[1] : "cc_player", &in, &out);
    if (child < 0)
        return 1;
    while (!wrong && (length = getline(&line, &room, stdin)) > 0) {
        if (line[length - 1] != '\n')
            wrong = fwrite(line, 1, length, in) != (size_t)length || putc('\n', in) == EOF;
        else
            wrong = fwrite(line, 1, length, in) != (size_t)length;
        wrong = wrong || fflush(in) || take_answer(out);
    }
    free(line);
    fclose(in);
    fclose(out);
    waitpid(child, &status, 0);
    return wrong || status != 0;
}
