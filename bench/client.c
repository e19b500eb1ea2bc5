/* Sessions of `mtcd serve` over loopback, each a thread: it sends a line, waits for its reply, and goes on with the next, for some seconds.

   Usage: client PORT SESSIONS SECONDS. The rounds are those of bench/serve, which compiles it: a change of role, a flight that is filed far from all
   others, a change of role, a probe of a flight of the session's own, a list, a change of role, and the flight dropped. It prints the lines a
   second of all sessions together, and the median and the 99th hundredth of the round trip in nanoseconds. */

#include <arpa/inet.h>
#include <netinet/tcp.h>
#include <pthread.h>
#include <stdio.h>
#include <stdlib.h>
#include <string.h>
#include <sys/socket.h>
#include <time.h>
#include <unistd.h>

enum { LANE = 40000, MOST = 4000000, ROUND = 7 };

struct session {
    int number, socket;
    pthread_t thread;
    size_t trips, room;
    unsigned *took;
    double rate;
};

static int port, sessions;
static double seconds;

static double now(void)
{
    struct timespec t;
    clock_gettime(CLOCK_MONOTONIC, &t);
    return t.tv_sec + 1e-9 * t.tv_nsec;
}

static void stop(const char *why)
{
    perror(why);
    exit(1);
}

/* Sends a line and reads up to the end of its reply, which must hold a word. */
static void ask(struct session *s, const char *line, size_t size, const char *word)
{
    static __thread char reply[1 << 20];
    double begin = now();
    if (send(s->socket, line, size, 0) != (ssize_t)size)
        stop("send");
    size_t got = 0;
    do {
        ssize_t some = recv(s->socket, reply + got, sizeof reply - 1 - got, 0);
        if (some <= 0)
            stop("recv");
        got += some;
    } while (reply[got - 1] != '\n');
    if (s->trips < s->room)
        s->took[s->trips] = 1e9 * (now() - begin);
    s->trips++;
    reply[got] = 0;
    if (!strstr(reply, word)) {
        fprintf(stderr, "%s was answered %s", line, reply);
        exit(1);
    }
}

static size_t lane(char *line, const char *kind, int number, int place)
{
    return sprintf(line, "{\"do\":\"external\",\"call\":\"%s%d\",\"from\":0,\"to\":1200,\"x\":0,\"y\":%d,\"z\":2100000,\"vx\":480}\n", kind, number, 1000000 + LANE * place);
}

static void *work(void *of)
{
    struct session *s = of;
    char text[ROUND][200];
    size_t size[ROUND];
    const char *words[ROUND] = {"role", "entered", "role", "", "version", "role", "entered"};
    const char *feed = "{\"do\":\"hello\",\"role\":\"feed\"}\n", *position = "{\"do\":\"hello\",\"role\":\"position\"}\n";
    size[0] = sprintf(text[0], "%s", feed);
    size[1] = lane(text[1], "F", s->number, s->number);
    size[2] = sprintf(text[2], "%s", position);
    size[3] = sprintf(text[3], "{\"do\":\"probe\",\"call\":\"P%d\",\"level\":360}\n", s->number);
    size[4] = sprintf(text[4], "{\"do\":\"list\"}\n");
    size[5] = sprintf(text[5], "%s", feed);
    size[6] = sprintf(text[6], "{\"do\":\"drop\",\"call\":\"F%d\"}\n", s->number);
    char own[200];
    ask(s, text[0], size[0], "role");
    ask(s, own, lane(own, "P", s->number, -s->number - 40), "entered");
    s->trips = 0;
    double begin = now(), end = begin + seconds;
    while (now() < end)
        for (int i = 0; i < ROUND; i++)
            ask(s, text[i], size[i], words[i]);
    s->rate = s->trips / (now() - begin);
    size_t trips = s->trips;
    ask(s, "{\"do\":\"bye\"}\n", 13, "bye");
    s->trips = trips;
    return NULL;
}

static int by_size(const void *a, const void *b)
{
    unsigned x = *(const unsigned *)a, y = *(const unsigned *)b;
    return (x > y) - (x < y);
}

int main(int count, char **words)
{
    if (count != 4)
        return 2;
    port = atoi(words[1]);
    sessions = atoi(words[2]);
    seconds = atof(words[3]);
    struct session *all = calloc(sessions, sizeof *all);
    for (int i = 0; i < sessions; i++) {
        all[i] = (struct session){.number = i, .room = MOST / sessions};
        all[i].took = malloc(all[i].room * sizeof(unsigned));
        struct sockaddr_in at = {.sin_family = AF_INET, .sin_port = htons(port), .sin_addr.s_addr = htonl(INADDR_LOOPBACK)};
        int one = 1;
        for (int tries = 0;; tries++) {
            all[i].socket = socket(AF_INET, SOCK_STREAM, 0);
            if (!connect(all[i].socket, (struct sockaddr *)&at, sizeof at))
                break;
            close(all[i].socket);
            if (tries == 1000)
                stop("connect");
            usleep(10000);
        }
        setsockopt(all[i].socket, IPPROTO_TCP, TCP_NODELAY, &one, sizeof one);
    }
    for (int i = 0; i < sessions; i++)
        if (pthread_create(&all[i].thread, NULL, work, &all[i]))
            stop("pthread_create");
    double rate = 0;
    size_t trips = 0;
    unsigned *took = malloc((MOST + 64) * sizeof *took);
    for (int i = 0; i < sessions; i++) {
        pthread_join(all[i].thread, NULL);
        close(all[i].socket);
        rate += all[i].rate;
        size_t kept = all[i].trips < all[i].room ? all[i].trips : all[i].room;
        memcpy(took + trips, all[i].took, kept * sizeof *took);
        trips += kept;
    }
    qsort(took, trips, sizeof *took, by_size);
    printf("%.0f %u %u\n", rate, took[trips / 2], took[trips * 99 / 100]);
    return 0;
}
