// What the looks of a quiet daemon cost at least: threads that wait 100 ms at a UDP socket each, again and again.
//
// waits THREADS SECONDS JOURNAL: a look waits for a datagram that never comes, and writes a line to JOURNAL under a lock.
// With `-` for JOURNAL it only waits. Prints the milliseconds of a processor a second, and the looks a second.
#include <arpa/inet.h>
#include <fcntl.h>
#include <pthread.h>
#include <stdatomic.h>
#include <stdio.h>
#include <stdlib.h>
#include <sys/resource.h>
#include <sys/socket.h>
#include <sys/time.h>
#include <unistd.h>

static const struct timeval WAIT = {0, 100000};
static const char LINE[] = "e 1234567 pull 12 done .\n";
static int journal = -1;
static _Atomic long looks;
static pthread_mutex_t lock = PTHREAD_MUTEX_INITIALIZER;

static int opened(void) {
    struct sockaddr_in own = {.sin_family = AF_INET, .sin_addr.s_addr = htonl(INADDR_LOOPBACK)};
    int port = socket(AF_INET, SOCK_DGRAM, 0);
    if (port < 0 || bind(port, (struct sockaddr *)&own, sizeof own) || setsockopt(port, SOL_SOCKET, SO_RCVTIMEO, &WAIT, sizeof WAIT)) exit(1);
    return port;
}

static void *look(void *unused) {
    char room[2048];
    int port = opened();
    for (;;) {
        struct sockaddr_in from;
        socklen_t size = sizeof from;
        recvfrom(port, room, sizeof room, 0, (struct sockaddr *)&from, &size);
        looks++;
        if (journal >= 0) {
            pthread_mutex_lock(&lock);
            if (write(journal, LINE, sizeof LINE - 1) < 0) exit(1);
            pthread_mutex_unlock(&lock);
        }
    }
    return unused;
}

static double processor(void) {
    struct rusage used;
    getrusage(RUSAGE_SELF, &used);
    return used.ru_utime.tv_sec + used.ru_stime.tv_sec + (used.ru_utime.tv_usec + used.ru_stime.tv_usec) / 1e6;
}

int main(int count, char **words) {
    if (count != 4) return 2;
    int threads = atoi(words[1]), seconds = atoi(words[2]);
    if (words[3][0] != '-' && (journal = open(words[3], O_WRONLY | O_CREAT | O_TRUNC, 0600)) < 0) return 1;
    for (int place = 0; place < threads; place++) {
        pthread_t begun;
        if (pthread_create(&begun, NULL, look, NULL)) return 1;
    }
    sleep(1);
    double begin = processor();
    long before = looks;
    sleep(seconds);
    printf("%.1f %.0f\n", (processor() - begin) / seconds * 1000, (double)(looks - before) / seconds);
    return 0;
}
