// Starts a program whose standard input is a file's bytes as one message of a socket: message FILE PROGRAM ARGUMENT...
// A read of a message that has less room than the message loses the rest.
#include <stdio.h>
#include <sys/socket.h>
#include <unistd.h>

int main(int argc, char **argv) {
    static char bytes[65536];
    int pair[2];
    FILE *file;
    size_t n;

    if (argc < 3 || (file = fopen(argv[1], "rb")) == NULL) {
        fprintf(stderr, "usage: message FILE PROGRAM ARGUMENT...\n");
        return 2;
    }
    n = fread(bytes, 1, sizeof bytes, file);
    fclose(file);
    if (socketpair(AF_UNIX, SOCK_SEQPACKET, 0, pair) != 0 || write(pair[0], bytes, n) != (ssize_t)n) {
        perror("message");
        return 2;
    }
    close(pair[0]);
    dup2(pair[1], 0);
    close(pair[1]);
    execvp(argv[2], argv + 2);
    perror(argv[2]);
    return 2;
}
