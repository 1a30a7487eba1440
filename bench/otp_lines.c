// The line program beside the C program of tests/programs/otp_peer.c: otp_lines OURS PEER INPUT FOLDER prints rows of the report's
// table. The answers of the two stay in the folder, as `ours` and `peer`.
#define _POSIX_C_SOURCE 200809L
#include "../tests/library/otp_reference.h"
#include "dykeladder.h"
#include "racing.h"

#include <fcntl.h>
#include <spawn.h>
#include <sys/wait.h>

enum { LINES = 1000000, KEPT = 100000, MOST_LINE = 200, MOST_PATH = 4096 };

// Where the lines are read and the answers written.
static const char *ours_program, *peer_program, *input;
static char ours_answers[MOST_PATH], peer_answers[MOST_PATH], copy[MOST_PATH];

// The arguments of the first lines, for the passwords alone.
static struct kept {
    struct otp_arguments arguments;
    char line[MOST_LINE];
    uint8_t key[OTP_MOST_KEY];
} kept[KEPT];

extern char **environ;

static void run(const char *program, const char *from, const char *to)
{
    posix_spawn_file_actions_t files;
    char *arguments[] = {(char *)program, NULL};
    pid_t child;
    int status;
    posix_spawn_file_actions_init(&files);
    posix_spawn_file_actions_addopen(&files, 0, from, O_RDONLY, 0);
    posix_spawn_file_actions_addopen(&files, 1, to, O_WRONLY | O_CREAT | O_TRUNC, 0600);
    if (posix_spawnp(&child, program, &files, NULL, arguments, environ) != 0 || waitpid(child, &status, 0) != child
        || status != 0)
        die("a program did not run or failed");
    posix_spawn_file_actions_destroy(&files);
}

// ---- the contestants: a call is the whole input

static void ours(uint64_t number)
{
    (void)number;
    run(ours_program, input, ours_answers);
}

static void peer(uint64_t number)
{
    (void)number;
    run(peer_program, input, peer_answers);
}

static uint16_t password_of(const struct otp_arguments *a, uint8_t *password)
{
    return dl_password((uint8_t)a->algorithm, a->key, a->key_len, (uint8_t)a->has_time, a->time, (uint8_t)a->has_count,
                       a->count, a->challenge, a->challenge_len, (uint8_t)a->digits, password, DL_MOST_DIGITS);
}

// The lines read and the answers written in C, and the passwords by the library.
static void hosted(uint64_t number)
{
    FILE *from = fopen(input, "r"), *to = fopen(copy, "w");
    struct otp_arguments arguments;
    uint8_t key[OTP_MOST_KEY], password[DL_MOST_DIGITS + 1];
    char *line = NULL;
    size_t room = 0;
    ssize_t n;
    (void)number;
    if (from == NULL || to == NULL)
        die("no input, or no room for the answers");
    while ((n = getline(&line, &room, from)) > 0) {
        if (!otp_read_line(line, (size_t)n - 1, key, &arguments) || password_of(&arguments, password) != DL_DONE)
            die("a line of the input has no password");
        password[arguments.digits] = '\n';
        fwrite(password, 1, arguments.digits + 1, to);
    }
    free(line);
    fclose(from);
    fclose(to);
}

// What no program can be without: the input read, the answers written, and the passwords; no line is taken apart.
static void least(uint64_t number)
{
    uint8_t password[DL_MOST_DIGITS];
    (void)number;
    run("cat", input, "/dev/null");
    run("cat", ours_answers, copy);
    for (size_t i = 0; i < LINES; i++)
        password_of(&kept[i % KEPT].arguments, password);
}

static struct race races[] = {
    {"A line of 1,000,000", 1, 1, LINES,
     {{"otp_lines", ours, 0, 0}, {"C program over OpenSSL", peer, 0, 0}, {"C program, dl_password", hosted, 0, 0},
      {"cat and dl_password alone", least, 0, 0}},
     {0, 1.5, 1.0, 0}},
};

static void keep_lines(void)
{
    FILE *file = fopen(input, "r");
    if (file == NULL)
        die("no input");
    for (size_t i = 0; i < KEPT; i++) {
        struct kept *one = &kept[i];
        if (fgets(one->line, MOST_LINE, file) == NULL
            || !otp_read_line(one->line, strcspn(one->line, "\n"), one->key, &one->arguments))
            die("a line of the input is not valid");
    }
    fclose(file);
}

int main(int argc, char **argv)
{
    if (argc != 5)
        die("four arguments are needed: OURS PEER INPUT FOLDER");
    ours_program = argv[1];
    peer_program = argv[2];
    input = argv[3];
    snprintf(ours_answers, MOST_PATH, "%s/ours", argv[4]);
    snprintf(peer_answers, MOST_PATH, "%s/peer", argv[4]);
    snprintf(copy, MOST_PATH, "%s/copy", argv[4]);
    keep_lines();
    run_races(races, sizeof races / sizeof *races, 15);
    return 0;
}
