// Clients that ask, and hear each answer, each in a process of its own:
// client CLIENTS LINES BURST FILE..
//
// Each says BURST lines at once, hears as many replies, and so on, until it has said LINES of them.
// With two files a client it is one of `host`: it says `peek` lines to the first and hears the
// replies from the second. With one file it is a client of Redis at that socket: it sets eight
// bytes. Once all are connected, client prints how many lines a second were answered.
#include <fcntl.h>
#include <stdio.h>
#include <stdlib.h>
#include <string.h>
#include <sys/socket.h>
#include <sys/un.h>
#include <sys/wait.h>
#include <time.h>
#include <unistd.h>

enum { MOST = 64, ROOM = 4096 };

static const char peek[] = "peek 0 80000800\n", word[] = "word 00000000\n";
static const char set[] = "*3\r\n$3\r\nSET\r\n$2\r\nkk\r\n$8\r\n00000000\r\n", ok[] = "+OK\r\n";

static void all(ssize_t (*move)(int, void *, size_t), int file, char *bytes, size_t count)
{
    while (count > 0) {
        ssize_t moved = move(file, bytes, count);
        if (moved <= 0)
            exit(1);
        bytes += moved;
        count -= (size_t)moved;
    }
}

static ssize_t give(int file, void *bytes, size_t count)
{
    return write(file, bytes, count);
}

static int socket_at(const char *path)
{
    struct sockaddr_un name = {.sun_family = AF_UNIX};
    strncpy(name.sun_path, path, sizeof name.sun_path - 1);
    int file = socket(AF_UNIX, SOCK_STREAM, 0);
    if (file < 0 || connect(file, (struct sockaddr *)&name, sizeof name) != 0)
        exit(1);
    return file;
}

static void converse(int said, int heard, const char *line, const char *reply, int lines, int burst)
{
    char out[ROOM], in[ROOM], wanted[ROOM];
    size_t asked = strlen(line), answered = strlen(reply);
    for (int k = 0; k < burst; k++) {
        memcpy(out + (size_t)k * asked, line, asked);
        memcpy(wanted + (size_t)k * answered, reply, answered);
    }
    for (int left = lines; left > 0; left -= burst) {
        size_t now = (size_t)(left < burst ? left : burst);
        all(give, said, out, now * asked);
        all(read, heard, in, now * answered);
        if (memcmp(in, wanted, now * answered) != 0)
            exit(1);
    }
}

static double seconds(void)
{
    struct timespec now;
    clock_gettime(CLOCK_MONOTONIC, &now);
    return (double)now.tv_sec + (double)now.tv_nsec / 1e9;
}

int main(int count, char **words)
{
    if (count < 5)
        return 2;
    int clients = atoi(words[1]), lines = atoi(words[2]), burst = atoi(words[3]), files = count - 4;
    int ready[2], begins[2], well = 1;
    if (burst < 1 || burst > MOST || (files != 1 && files != 2 * clients) || pipe(ready) != 0 ||
        pipe(begins) != 0)
        return 2;
    for (int k = 0; k < clients; k++)
        if (fork() == 0) {
            int redis = files == 1;
            int said = redis ? socket_at(words[4]) : open(words[4 + 2 * k], O_WRONLY);
            int heard = redis ? said : open(words[5 + 2 * k], O_RDONLY);
            char byte = 0;
            all(give, ready[1], &byte, 1);
            all(read, begins[0], &byte, 1);
            converse(said, heard, redis ? set : peek, redis ? ok : word, lines, burst);
            exit(0);
        }
    char bytes[ROOM] = {0};
    all(read, ready[0], bytes, (size_t)clients);
    double begun = seconds();
    all(give, begins[1], bytes, (size_t)clients);
    for (int k = 0; k < clients; k++) {
        int status;
        well &= wait(&status) > 0 && status == 0;
    }
    printf("%.0f\n", clients * (double)lines / (seconds() - begun));
    return well ? 0 : 1;
}
