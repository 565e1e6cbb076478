// The clients of bench/brokers, in C so that they cost less than any broker. They speak MQTT 5.0 to
// a port of 127.0.0.1, check what they are answered, and print:
//
//     load PORT publish QOS CONNECTIONS COUNT TOPICS SIZE WINDOW NAME
//         three numbers: how many were published, at most COUNT by each connection; microseconds;
//         and the longest time from a send to the next PUBACK, of the first connection
//     load PORT fill COUNT SIZE PATTERN
//         nothing
//     load PORT replay QOS FILTER MESSAGES ROUNDS DELAYED PATTERN ORDERED
//         the microseconds of each SUBSCRIBE, up to its last message
//     load PORT connect ROUNDS
//         the microseconds of each connection, up to its CONNACK
//     load PORT fleet CLIENTS GROUPS DELAY STAYS
//         the microseconds in which so many clients connect in the same moment, and each reads the
//         messages of its group and leaves, or stays if STAYS is 1. DELAY microseconds pass between
//         what a client is answered and its next packet
//     load PORT crowd CLIENTS MICROS
//         two numbers: how many publications of QoS 1 so many clients make, each one at a time, and
//         microseconds; or nothing but a line when they begin, if MICROS is 0: they go on until it
//         is killed
//     load PORT silent CLIENTS
//         a line when so many have connected that say nothing, until it is killed
//     load PORT commits FILE COUNT SIZE LENGTH
//         microseconds: so often SIZE bytes are written to a file of LENGTH bytes, one behind the
//         other and from its begin again, and synced
//     load PORT burn
//         nothing: it keeps a processor busy until it is killed
//     load PORT echo
//         the port at which it serves one connection, a free one if PORT is 0: it answers CONNECT,
//         and each PUBLISH of QoS 1 by its PUBACK
//
// WINDOW is how many publications of QoS 1 wait for their PUBACK. NAME begins the topics of the
// publications. PATTERN writes a topic, with the hundreds and the rest of its number. The messages
// of a replay are those that were filled by it. The topics of a fleet's group are those of GROUP.

#define _GNU_SOURCE
#include <arpa/inet.h>
#include <errno.h>
#include <fcntl.h>
#include <netinet/tcp.h>
#include <pthread.h>
#include <stdint.h>
#include <stdio.h>
#include <stdlib.h>
#include <string.h>
#include <sys/epoll.h>
#include <sys/mman.h>
#include <sys/socket.h>
#include <time.h>
#include <unistd.h>

enum { CONNECT = 0x10, CONNACK = 0x20, PUBLISH = 0x30, PUBACK = 0x40, SUBACK = 0x90 };
enum { PINGRESP = 0xD0 };

// The most publications of QoS 1 that wait for their PUBACK: what rstored's CONNACK allows, and
// less than mosquitto's.
enum { WINDOW = 16 };

// The microseconds after which a publisher at QoS 1 ends.
static const double LONGEST = 2e6;

enum { ROOM = 1 << 20 };

// The room for a topic and a zero byte.
enum { TOPIC = 100 };

typedef char Topic[TOPIC];

static int port;

static void fail(const char *what) {
    perror(what);
    exit(1);
}

static double now(void) {
    struct timespec time;
    clock_gettime(CLOCK_MONOTONIC, &time);
    return time.tv_sec * 1e6 + time.tv_nsec / 1e3;
}

// A connection, with what was read of it and not yet looked at, and with acknowledgements that are
// not yet sent.
typedef struct {
    int fd;
    size_t start, end, waiting;
    uint8_t room[ROOM], acknowledgements[ROOM];
} Client;

typedef struct {
    uint8_t kind, qos;
    const uint8_t *body;
    size_t size;
} Packet;

static void send_all(Client *client, const uint8_t *bytes, size_t size) {
    while (size > 0) {
        ssize_t sent = send(client->fd, bytes, size, MSG_NOSIGNAL);
        if (sent <= 0) fail("send");
        bytes += sent;
        size -= (size_t)sent;
    }
}

// The next packet, if it was read whole.
static int has_packet(Client *client, Packet *packet) {
    const uint8_t *at = client->room + client->start;
    size_t left = client->end - client->start, length = 0, digits = 0;
    do {
        if (left < 2 + digits || digits == 4) return 0;
        length |= (size_t)(at[1 + digits] & 127) << (7 * digits);
    } while (at[1 + digits++] & 128);
    if (left < 1 + digits + length) return 0;
    *packet = (Packet){at[0] & 0xF0, at[0] >> 1 & 3, at + 1 + digits, length};
    client->start += 1 + digits + length;
    return 1;
}

static void read_more(Client *client) {
    memmove(client->room, client->room + client->start, client->end - client->start);
    client->end -= client->start;
    client->start = 0;
    ssize_t got = recv(client->fd, client->room + client->end, ROOM - client->end, 0);
    if (got <= 0) fail("recv");
    client->end += (size_t)got;
}

static Packet take(Client *client) {
    Packet packet;
    while (!has_packet(client, &packet)) read_more(client);
    return packet;
}

static void expect(Client *client, int kind) {
    Packet packet = take(client);
    if (packet.kind != kind) {
        fprintf(stderr, "a packet %02x came, and not %02x\n", packet.kind, kind);
        exit(1);
    }
}

static const uint8_t PING[] = {0xC0, 0}, DISCONNECT[] = {0xE0, 0};

static size_t put_text(uint8_t *at, const char *text) {
    size_t size = strlen(text);
    at[0] = (uint8_t)(size >> 8);
    at[1] = (uint8_t)size;
    memcpy(at + 2, text, size);
    return 2 + size;
}

// Begins to connect, by a socket of this kind.
static void begin_client(Client *client, int kind) {
    struct sockaddr_in address = {.sin_family = AF_INET, .sin_port = htons(port)};
    address.sin_addr.s_addr = htonl(INADDR_LOOPBACK);
    int yes = 1;
    client->fd = socket(AF_INET, SOCK_STREAM | kind, 0);
    client->start = client->end = client->waiting = 0;
    const struct sockaddr *to = (struct sockaddr *)&address;
    if (client->fd < 0) fail("socket");
    if (connect(client->fd, to, sizeof address) != 0 && errno != EINPROGRESS) fail("connect");
    setsockopt(client->fd, IPPROTO_TCP, TCP_NODELAY, &yes, sizeof yes);
}

static void send_connect(Client *client, const char *identifier) {
    uint8_t packet[100] = {0x10, 0, 0, 4, 'M', 'Q', 'T', 'T', 5, 2, 0, 60, 0};
    size_t size = 13 + put_text(packet + 13, identifier);
    packet[1] = (uint8_t)(size - 2);
    send_all(client, packet, size);
}

static void close_client(Client *client) {
    send_all(client, DISCONNECT, sizeof DISCONNECT);
    close(client->fd);
}

// A name of its own, so that no client takes another one's place.
static void send_named(Client *client, char kind, int number) {
    char identifier[20];
    snprintf(identifier, sizeof identifier, "%c%d", kind, number);
    send_connect(client, identifier);
}

static void open_named(Client *client, char kind, int number) {
    begin_client(client, 0);
    send_named(client, kind, number);
    expect(client, CONNACK);
}

static size_t put_length(uint8_t *at, size_t length) {
    size_t digits = 0;
    do {
        at[digits++] = (uint8_t)(length % 128 + (length > 127 ? 128 : 0));
        length /= 128;
    } while (length > 0);
    return digits;
}

static void put_topic(Topic topic, const char *pattern, size_t number) {
    snprintf(topic, TOPIC, pattern, (int)(number / 100), (int)(number % 100));
}

// The bytes of some PUBLISH packets, and where each begins.
typedef struct {
    uint8_t *bytes;
    size_t *starts, count;
} Publications;

static Publications publications(
    size_t count, int qos, size_t size, const char *pattern, size_t topics) {
    Publications made = {malloc(count * (size + 128)), malloc((count + 1) * sizeof(size_t)), count};
    if (!made.bytes || !made.starts) fail("malloc");
    size_t at = 0;
    for (size_t i = 0; i < count; i++) {
        Topic topic;
        put_topic(topic, pattern, i % topics);
        made.starts[i] = at;
        made.bytes[at++] = (uint8_t)(0x31 + 2 * qos);
        at += put_length(made.bytes + at, 2 + strlen(topic) + (qos ? 2 : 0) + 1 + size);
        at += put_text(made.bytes + at, topic);
        if (qos) {
            made.bytes[at++] = 0;
            made.bytes[at++] = (uint8_t)(i % WINDOW + 1);
        }
        made.bytes[at++] = 0;
        memset(made.bytes + at, 'x', size);
        at += size;
    }
    made.starts[count] = at;
    return made;
}

static void check_stored(const Packet *answer) {
    int is_refused = answer->size > 2 && answer->body[2] >= 0x80;
    if (answer->kind != PUBACK || is_refused) fail("no PUBACK");
}

// Sends them, those of QoS 1 until the time is over. How many were sent; all of them were handled
// when this returns.
static size_t publish_all(Client *client, const Publications *made, int qos, size_t window,
    double time, double *longest) {
    size_t sent = 0, acknowledged = 0, count = made->count;
    if (qos == 0) {
        send_all(client, made->bytes, made->starts[count]);
        send_all(client, PING, sizeof PING);
        expect(client, PINGRESP);
        return count;
    }
    for (double start = now(); acknowledged < count;) {
        if (now() - start > time) count = sent;
        if (acknowledged == count) break;
        size_t until = acknowledged + window < count ? acknowledged + window : count;
        size_t first = made->starts[sent];
        send_all(client, made->bytes + first, made->starts[until] - first);
        sent = until;
        double begun = now();
        Packet packet = take(client);
        if (now() - begun > *longest) *longest = now() - begun;
        do {
            check_stored(&packet);
            acknowledged++;
        } while (acknowledged < count && has_packet(client, &packet));
    }
    return count;
}

typedef struct {
    int qos, number;
    size_t count, topics, size, window;
    double longest;
    const char *name;
    pthread_barrier_t *barrier;
} Job;

static void *publisher(void *given) {
    Job *job = given;
    char pattern[100];
    snprintf(pattern, sizeof pattern, "%.40s/%d/%%04d%%02d/state", job->name, job->number);
    Publications made = publications(job->count, job->qos, job->size, pattern, job->topics);
    Client *client = malloc(sizeof *client);
    if (!client) fail("malloc");
    open_named(client, 'p', job->number);
    pthread_barrier_wait(job->barrier);
    job->count = publish_all(client, &made, job->qos, job->window, LONGEST, &job->longest);
    pthread_barrier_wait(job->barrier);
    close_client(client);
    return NULL;
}

// Connections that publish at once, each so many publications over topics of its own.
static void publish(int connections, Job job) {
    pthread_barrier_t barrier;
    pthread_t threads[64];
    Job jobs[64];
    pthread_barrier_init(&barrier, NULL, (unsigned)connections + 1);
    for (int i = 0; i < connections; i++) {
        jobs[i] = job;
        jobs[i].number = i;
        jobs[i].barrier = &barrier;
        if (pthread_create(&threads[i], NULL, publisher, &jobs[i]) != 0) fail("pthread_create");
    }
    pthread_barrier_wait(&barrier);
    double start = now();
    pthread_barrier_wait(&barrier);
    double time = now() - start;
    size_t total = 0;
    for (int i = 0; i < connections; i++) {
        pthread_join(threads[i], NULL);
        total += jobs[i].count;
    }
    printf("%zu %.0f %.1f\n", total, time, jobs[0].longest);
}

// The client of the jobs that have one.
static Client single;

// One retained message a topic.
static void fill(size_t count, size_t size, const char *pattern) {
    Publications made = publications(count, 1, size, pattern, count);
    open_named(&single, 'f', 0);
    double longest = 0;
    publish_all(&single, &made, 1, WINDOW, 1e12, &longest);
    close_client(&single);
}

// Whether TCP acknowledges what comes at once, or late (delayed acknowledgements). The system
// forgets it, so it is said before each read.
static void set_quick(const Client *client, int is_quick) {
    setsockopt(client->fd, IPPROTO_TCP, TCP_QUICKACK, &is_quick, sizeof is_quick);
}

static void send_acknowledgements(Client *client) {
    send_all(client, client->acknowledgements, client->waiting);
    client->waiting = 0;
}

static size_t topic_size(const Packet *publication) {
    return (size_t)(publication->body[0] << 8 | publication->body[1]);
}

static void acknowledge(Client *client, const Packet *publication) {
    const uint8_t *identifier = publication->body + 2 + topic_size(publication);
    const uint8_t puback[] = {PUBACK, 2, identifier[0], identifier[1]};
    memcpy(client->acknowledgements + client->waiting, puback, sizeof puback);
    client->waiting += sizeof puback;
}

static void take_topic(Topic topic, const Packet *publication) {
    size_t size = topic_size(publication);
    if (size >= TOPIC) fail("a long topic");
    memcpy(topic, publication->body + 2, size);
    topic[size] = 0;
}

// Reads the SUBACK and so many messages, and their topics if there is room for them. Those of QoS 1
// are acknowledged, as many at once as were read at once.
static void take_messages(Client *client, size_t messages, int is_delayed, Topic *topics) {
    for (size_t answered = 0; answered < messages + 1; answered++) {
        Packet packet;
        while (!has_packet(client, &packet)) {
            send_acknowledgements(client);
            set_quick(client, !is_delayed);
            read_more(client);
        }
        int is_granted = packet.kind == SUBACK && packet.body[packet.size - 1] < 0x80;
        if (!is_granted && packet.kind != PUBLISH) fail("no PUBLISH");
        if (packet.kind == PUBLISH && packet.qos == 1) acknowledge(client, &packet);
        if (packet.kind == PUBLISH && topics) take_topic(*topics++, &packet);
    }
    send_acknowledgements(client);
}

static int compare(const void *one, const void *other) {
    return strcmp(one, other);
}

// Whether these are the topics that were filled, each once, and in order if that is wanted.
static void check_topics(Topic *topics, size_t count, const char *pattern, int is_ordered) {
    if (!is_ordered) qsort(topics, count, sizeof *topics, compare);
    for (size_t i = 0; i < count; i++) {
        Topic topic;
        put_topic(topic, pattern, i);
        if (strcmp(topics[i], topic) != 0) fail("another topic");
    }
}

static size_t put_subscribe(uint8_t *at, const char *filter, int qos) {
    const uint8_t head[] = {0x82, 0, 0, 1, 0};
    memcpy(at, head, sizeof head);
    size_t size = sizeof head + put_text(at + sizeof head, filter) + 1;
    at[size - 1] = (uint8_t)qos;
    at[1] = (uint8_t)(size - 2);
    return size;
}

// So many rounds, or without an end if there are to be 0. In a round before them, which is not
// measured, the topics are looked at.
static void replay(int qos, const char *filter, size_t messages, size_t rounds, int is_delayed,
    const char *pattern, int is_ordered) {
    uint8_t packet[200];
    size_t size = put_subscribe(packet, filter, qos);
    open_named(&single, 'r', getpid());
    Topic *topics = calloc(messages, sizeof *topics);
    if (!topics) fail("calloc");
    send_all(&single, packet, size);
    take_messages(&single, messages, is_delayed, topics);
    check_topics(topics, messages, pattern, is_ordered);
    free(topics);
    if (rounds == 0) {
        puts("ready");
        fflush(stdout);
    }
    for (size_t i = 0; i < rounds || rounds == 0; i++) {
        set_quick(&single, !is_delayed);
        double start = now();
        send_all(&single, packet, size);
        take_messages(&single, messages, is_delayed, NULL);
        if (rounds > 0) printf("%.1f\n", now() - start);
    }
    close_client(&single);
}

static void connect_often(size_t rounds) {
    for (size_t i = 0; i < rounds; i++) {
        double start = now();
        open_named(&single, 'c', (int)i);
        printf("%.1f\n", now() - start);
        close_client(&single);
    }
}

// The clients of one thread, which waits for all of them at once.
typedef struct {
    int epoll, count;
    Client *clients;
} Crew;

static Crew crew(int count) {
    // Ten thousand have room for 20 GB, of which they use little.
    enum { OWN = MAP_PRIVATE | MAP_ANONYMOUS | MAP_NORESERVE };
    size_t size = (size_t)count * sizeof(Client);
    Crew made = {epoll_create1(0), count, mmap(NULL, size, PROT_READ | PROT_WRITE, OWN, -1, 0)};
    if (made.epoll < 0 || made.clients == MAP_FAILED) fail("crew");
    return made;
}

// Waits for a client until it can be read, or written if that is said.
static void await(const Crew *crew, int number, uint32_t what, int operation) {
    struct epoll_event event = {.events = what, .data.u32 = (uint32_t)number};
    if (epoll_ctl(crew->epoll, operation, crew->clients[number].fd, &event) != 0) fail("epoll_ctl");
}

enum { EVENTS = 256 };

// Those that can be read or written, after at most so many microseconds.
static int ready(const Crew *crew, struct epoll_event *events, double micros) {
    int count = epoll_wait(crew->epoll, events, EVENTS, micros < 0 ? -1 : (int)(micros / 1e3) + 1);
    if (count < 0) fail("epoll_wait");
    return count;
}

// The filter of a group. Each of its topics has a level more.
#define GROUP "fleet/%02d%02d/+"
enum { IN_GROUP = 10 };

// Where a client of a fleet is, and when its next packet is due.
typedef struct {
    enum { CONNECTING, SUBSCRIBING, LEAVING } next;
    size_t missing;
    double due;
} Member;

static void send_next(Client *client, Member *member, int number, int groups) {
    uint8_t packet[200];
    Topic filter;
    switch (member->next++) {
    case CONNECTING:
        send_named(client, 'm', number);
        member->missing = 1;
        break;
    case SUBSCRIBING:
        put_topic(filter, GROUP, (size_t)(number % groups));
        send_all(client, packet, put_subscribe(packet, filter, 0));
        member->missing = 1 + IN_GROUP;
        break;
    default: close_client(client);
    }
}

// Reads what there is. Whether that was the last of what is missing.
static int take_missing(Client *client, Member *member, int number, int groups) {
    Packet packet;
    Topic filter;
    put_topic(filter, GROUP, (size_t)(number % groups));
    for (read_more(client); has_packet(client, &packet); member->missing--) {
        size_t same = strlen(filter) - 1;
        int is_right = packet.kind == PUBLISH   ? memcmp(packet.body + 2, filter, same) == 0
                       : packet.kind == CONNACK ? packet.body[1] == 0
                                                : packet.body[packet.size - 1] < 0x80;
        if (!is_right || member->missing == 0) fail("another packet");
    }
    return member->missing == 0;
}

static void fleet(int count, int groups, double delay, int stays) {
    Crew own = crew(count);
    Member *members = calloc((size_t)count, sizeof *members);
    // Those whose next packet is due, in the order of their times: each is there twice at most.
    int *line = calloc(2 * (size_t)count, sizeof *line), first = 0, last = 0, left = count;
    if (!members || !line) fail("calloc");
    double start = now();
    for (int i = 0; i < count; i++) {
        begin_client(&own.clients[i], SOCK_NONBLOCK);
        await(&own, i, EPOLLOUT, EPOLL_CTL_ADD);
    }
    while (left > 0) {
        struct epoll_event events[EVENTS];
        int found = ready(&own, events, first < last ? members[line[first]].due - now() : -1);
        for (int i = 0; i < found; i++) {
            int number = (int)events[i].data.u32;
            Member *member = &members[number];
            Client *client = &own.clients[number];
            if (member->next == CONNECTING) {
                send_next(client, member, number, groups);
                await(&own, number, EPOLLIN, EPOLL_CTL_MOD);
            } else if (take_missing(client, member, number, groups)) {
                member->due = now() + delay;
                if (stays && member->next == LEAVING)
                    left--;
                else
                    line[last++] = number;
            }
        }
        for (; first < last && members[line[first]].due <= now(); first++) {
            Member *member = &members[line[first]];
            left -= member->next == LEAVING;
            send_next(&own.clients[line[first]], member, line[first], groups);
        }
    }
    printf("%.1f\n", now() - start);
}

static void publish_next(Client *client, int number) {
    Topic topic;
    put_topic(topic, "crowd/%02d%02d/state", (size_t)number);
    uint8_t packet[TOPIC + 100] = {0x33};
    size_t size = 2 + put_text(packet + 2, topic);
    packet[size + 1] = 1;
    memset(packet + size + 3, 'x', 64);
    size += 3 + 64;
    packet[1] = (uint8_t)(size - 2);
    send_all(client, packet, size);
}

// How many threads the clients of a crowd share. One alone is busier than a server that only sends
// each PUBACK back.
enum { CREWS = 2 };

// Some clients of a crowd, from this number on, and what they have published.
typedef struct {
    int first, count;
    double micros;
    long published;
    pthread_barrier_t *barrier;
} Part;

static void *publish_part(void *given) {
    Part *part = given;
    Crew own = crew(part->count);
    for (int i = 0; i < own.count; i++) {
        open_named(&own.clients[i], 'm', part->first + i);
        await(&own, i, EPOLLIN, EPOLL_CTL_ADD);
    }
    pthread_barrier_wait(part->barrier);
    // All are connected.
    pthread_barrier_wait(part->barrier);
    double start = now();
    int open = own.count;
    for (int i = 0; i < own.count; i++) publish_next(&own.clients[i], part->first + i);
    while (open > 0) {
        struct epoll_event events[EVENTS];
        int found = ready(&own, events, -1);
        int is_over = part->micros > 0 && now() - start > part->micros;
        for (int i = 0; i < found; i++) {
            int number = (int)events[i].data.u32;
            Packet answer = take(&own.clients[number]);
            check_stored(&answer);
            part->published++;
            if (is_over)
                open--;
            else
                publish_next(&own.clients[number], part->first + number);
        }
    }
    return NULL;
}

static void crowd(int count, double micros) {
    pthread_barrier_t barrier;
    pthread_t threads[CREWS];
    Part parts[CREWS];
    pthread_barrier_init(&barrier, NULL, CREWS + 1);
    for (int i = 0; i < CREWS; i++) {
        int first = count * i / CREWS, next = count * (i + 1) / CREWS;
        parts[i] = (Part){first, next - first, micros, 0, &barrier};
        if (pthread_create(&threads[i], NULL, publish_part, &parts[i]) != 0) fail("pthread_create");
    }
    pthread_barrier_wait(&barrier);
    if (micros == 0) {
        puts("ready");
        fflush(stdout);
    }
    double start = now();
    pthread_barrier_wait(&barrier);
    long published = 0;
    for (int i = 0; i < CREWS; i++) {
        pthread_join(threads[i], NULL);
        published += parts[i].published;
    }
    printf("%ld %.0f\n", published, now() - start);
}

static void silent(int count) {
    for (Crew own = crew(count); count > 0; count--) begin_client(&own.clients[count - 1], 0);
    puts("ready");
    fflush(stdout);
    pause();
}

static void commits(const char *file, size_t count, size_t size, size_t length) {
    uint8_t *bytes = calloc(1, size);
    int fd = open(file, O_RDWR | O_CREAT, 0600);
    if (fd < 0 || !bytes || ftruncate(fd, 0) != 0 || fsync(fd) != 0) fail(file);
    double start = now();
    for (size_t i = 0, at = 0; i < count; i++) {
        if (pwrite(fd, bytes, size, (off_t)at) != (ssize_t)size) fail("pwrite");
        if (fdatasync(fd) != 0) fail("fdatasync");
        at = at + size < length ? at + size : 0;
    }
    printf("%.1f\n", now() - start);
    close(fd);
}

static void echo(void) {
    static const uint8_t connack[] = {CONNACK, 3, 0, 0, 0};
    struct sockaddr_in address = {.sin_family = AF_INET, .sin_port = htons(port)};
    struct sockaddr *at = (struct sockaddr *)&address;
    socklen_t size = sizeof address;
    address.sin_addr.s_addr = htonl(INADDR_LOOPBACK);
    int listener = socket(AF_INET, SOCK_STREAM, 0);
    if (bind(listener, at, size) != 0 || listen(listener, 1) != 0) fail("listen");
    if (getsockname(listener, at, &size) != 0) fail("getsockname");
    printf("%d\n", ntohs(address.sin_port));
    fflush(stdout);
    single.fd = accept(listener, NULL, NULL);
    if (single.fd < 0) fail("accept");
    for (Packet packet = take(&single); packet.kind != DISCONNECT[0]; packet = take(&single)) {
        if (packet.kind == CONNECT) send_all(&single, connack, sizeof connack);
        if (packet.kind == PUBLISH && packet.qos == 1) acknowledge(&single, &packet);
        send_acknowledgements(&single);
    }
}

int main(int count, char **words) {
    if (count < 3) return 2;
    port = atoi(words[1]);
    const char *job = words[2];
    long n[8] = {0};
    for (int i = 3; i < count && i < 10; i++) n[i - 3] = atol(words[i]);
    if (strcmp(job, "publish") == 0 && count == 10)
        publish((int)n[1], (Job){.qos = (int)n[0],
                               .count = (size_t)n[2],
                               .topics = (size_t)n[3],
                               .size = (size_t)n[4],
                               .window = (size_t)n[5],
                               .name = words[9]});
    else if (strcmp(job, "fill") == 0 && count == 6)
        fill((size_t)n[0], (size_t)n[1], words[5]);
    else if (strcmp(job, "replay") == 0 && count == 10)
        replay((int)n[0], words[4], (size_t)n[2], (size_t)n[3], (int)n[4], words[8], (int)n[6]);
    else if (strcmp(job, "connect") == 0 && count == 4)
        connect_often((size_t)n[0]);
    else if (strcmp(job, "fleet") == 0 && count == 7)
        fleet((int)n[0], (int)n[1], (double)n[2], (int)n[3]);
    else if (strcmp(job, "crowd") == 0 && count == 5)
        crowd((int)n[0], (double)n[1]);
    else if (strcmp(job, "silent") == 0 && count == 4)
        silent((int)n[0]);
    else if (strcmp(job, "commits") == 0 && count == 7)
        commits(words[3], (size_t)n[1], (size_t)n[2], (size_t)n[3]);
    else if (strcmp(job, "burn") == 0 && count == 3)
        for (volatile size_t i = 0;; i++) {}
    else if (strcmp(job, "echo") == 0 && count == 3)
        echo();
    else
        return 2;
    return 0;
}
