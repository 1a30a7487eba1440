// The line program of document 01 in C over OpenSSL's libcrypto: what the proved one is compared with, in answers and in time.
#define _POSIX_C_SOURCE 200809L
#include "../library/otp_reference.h"

#include <sys/types.h>

// Prints the line's password or 9005.
static void answer(const char *line, size_t n)
{
    struct otp_arguments arguments;
    uint8_t key[OTP_MOST_KEY], password[OTP_MOST_DIGITS + 1];
    if (!otp_read_line(line, n, key, &arguments) || !otp_password(&arguments, password)) {
        fputs("9005\n", stdout);
        return;
    }
    password[arguments.digits] = '\n';
    fwrite(password, 1, arguments.digits + 1, stdout);
}

int main(void)
{
    char *line = NULL;
    size_t room = 0;
    ssize_t n;
    while ((n = getline(&line, &room, stdin)) > 0)
        answer(line, (size_t)n - (line[n - 1] == '\n'));
    free(line);
    return ferror(stdin) || !feof(stdin) || fflush(stdout) != 0;
}
