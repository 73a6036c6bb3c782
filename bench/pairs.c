/* As many commits as told, by writes and syncs alone: pairs FILE COMMITS [asked [LINKS]]
   Each is a write of 1,100 bytes behind the file and a sync, and then a write of one byte and a sync. With `asked` another
   process is told of the first sync over a socket of the host, and asks for the second: a commit in two phases. With LINKS
   there are so many of these processes; they take turns, and each commit is told to all others by 64 bytes. */
#include <arpa/inet.h>
#include <fcntl.h>
#include <netinet/in.h>
#include <netinet/tcp.h>
#include <stdlib.h>
#include <sys/socket.h>
#include <unistd.h>

enum { MOST = 256, NEWS = 64 };

static int get(int link, char *bytes, ssize_t count) {
    for (ssize_t got; count > 0; bytes += got, count -= got)
        if ((got = read(link, bytes, count)) <= 0) return 0;
    return 1;
}

/* One of the processes: answers the first sync of the commits that are its own, and takes the news of the others. */
static int serve_turns(int link, int commits, int links, int place) {
    char bytes[NEWS];
    for (int i = 0; i < commits; i++)
        if (i % links == place) {
            if (!get(link, bytes, 1) || write(link, bytes, 1) != 1) return 1;
        } else if (!get(link, bytes, NEWS)) return 1;
    return 0;
}

static void reach(int commits, int links, int *to) {
    int one = 1, listener = socket(AF_INET, SOCK_STREAM, 0);
    struct sockaddr_in at = {.sin_family = AF_INET, .sin_addr.s_addr = htonl(INADDR_LOOPBACK)};
    socklen_t size = sizeof at;
    if (bind(listener, (struct sockaddr *)&at, size) || listen(listener, links) || getsockname(listener, (struct sockaddr *)&at, &size)) exit(1);
    for (int place = 0; place < links; place++) {
        if (fork() == 0) {
            int link = socket(AF_INET, SOCK_STREAM, 0);
            if (connect(link, (struct sockaddr *)&at, sizeof at)) _exit(1);
            setsockopt(link, IPPROTO_TCP, TCP_NODELAY, &one, sizeof one);
            _exit(serve_turns(link, commits, links, place));
        }
        to[place] = accept(listener, NULL, NULL);
        setsockopt(to[place], IPPROTO_TCP, TCP_NODELAY, &one, sizeof one);
    }
}

int main(int argc, char **argv) {
    if (argc < 3) return 2;
    static char bytes[1100];
    static int to[MOST];
    int file = open(argv[1], O_RDWR | O_CREAT | O_TRUNC, 0644), commits = atoi(argv[2]);
    int links = argc > 4 ? atoi(argv[4]) : argc > 3;
    if (links < 0 || links > MOST) return 2;
    if (links > 0) reach(commits, links, to);
    off_t end = 0;
    for (int i = 0; i < commits; i++, end += sizeof bytes) {
        char byte = 0;
        if (pwrite(file, bytes, sizeof bytes, end) != sizeof bytes || fsync(file)) return 1;
        if (links > 0 && (write(to[i % links], &byte, 1) != 1 || read(to[i % links], &byte, 1) != 1)) return 1;
        if (pwrite(file, " ", 1, end + 16) != 1 || fsync(file)) return 1;
        for (int other = 0; other < links; other++)
            if (other != i % links && write(to[other], bytes, NEWS) != NEWS) return 1;
    }
    return 0;
}
