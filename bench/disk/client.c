// One connection's throughput: client OPERATION BYTES DEPTH SECONDS MIB FLUSH -- SERVER ARGUMENTS..
//
// OPERATION is r (reads) or w (writes), each of BYTES at a random place of the first MIB mebibytes, with DEPTH requests under
// way at once. All of these bytes are written first, and before reads one is answered that doesn't count. FLUSH is the number of
// writes between two flushes, 0 for none, and -1 for FUA with each write. The server is started with its standard input and output
// as the connection. Prints requests a second, and ends with status 1 where one fails.
#include <libnbd.h>
#include <stdint.h>
#include <stdio.h>
#include <stdlib.h>
#include <time.h>

enum { MOST_DEPTH = 64, FILL = 1 << 20 };

struct job {
    int reads;
    uint64_t bytes;
    int depth;
    double seconds;
    uint64_t size;
    int flush;
};

static double now(void) {
    struct timespec at;
    clock_gettime(CLOCK_MONOTONIC, &at);
    return at.tv_sec + at.tv_nsec * 1e-9;
}

static void give_up(void) {
    fprintf(stderr, "%s\n", nbd_get_error());
    exit(1);
}

// xorshift64
static uint64_t next_random(uint64_t *seed) {
    *seed ^= *seed << 13;
    *seed ^= *seed >> 7;
    *seed ^= *seed << 17;
    return *seed;
}

static int64_t ask(struct nbd_handle *server, const struct job *job, char *buffer, uint64_t *seed) {
    uint64_t at = next_random(seed) % (job->size / job->bytes) * job->bytes;
    if (job->reads)
        return nbd_aio_pread(server, buffer, job->bytes, at, NBD_NULL_COMPLETION, 0);
    return nbd_aio_pwrite(server, buffer, job->bytes, at, NBD_NULL_COMPLETION, job->flush < 0 ? LIBNBD_CMD_FLAG_FUA : 0);
}

// Keeps DEPTH requests under way until the time is over. Returns how many were answered.
static uint64_t use(struct nbd_handle *server, const struct job *job, char *buffers[]) {
    int64_t cookies[MOST_DEPTH] = {0};
    uint64_t answered = 0, seed = 88172645463325252ull;
    double end = now() + job->seconds;
    for (;;) {
        int live = 0;
        for (int i = 0; i < job->depth; i++) {
            if (cookies[i]) {
                int done = nbd_aio_command_completed(server, cookies[i]);
                if (done == -1)
                    give_up();
                if (done) {
                    cookies[i] = 0;
                    answered++;
                    if (!job->reads && job->flush > 0 && answered % job->flush == 0 && nbd_flush(server, 0) == -1)
                        give_up();
                }
            }
            if (!cookies[i] && now() < end && (cookies[i] = ask(server, job, buffers[i], &seed)) == -1)
                give_up();
            live += cookies[i] != 0;
        }
        if (!live)
            return answered;
        if (nbd_poll(server, -1) == -1)
            give_up();
    }
}

int main(int count, char **words) {
    if (count < 9) {
        fprintf(stderr, "client OPERATION BYTES DEPTH SECONDS MIB FLUSH -- SERVER ARGUMENTS..\n");
        return 2;
    }
    struct job job = {words[1][0] == 'r', strtoull(words[2], NULL, 10), atoi(words[3]), atof(words[4]),
                      strtoull(words[5], NULL, 10) << 20, atoi(words[6])};
    if (job.depth < 1 || job.depth > MOST_DEPTH || job.bytes < 1 || job.bytes > FILL || job.bytes > job.size)
        return 2;
    struct nbd_handle *server = nbd_create();
    if (!server || nbd_connect_command(server, words + 8) == -1)
        give_up();
    char *buffers[MOST_DEPTH];
    for (int i = 0; i < MOST_DEPTH; i++) {
        buffers[i] = malloc(FILL);
        for (int k = 0; k < FILL; k++)
            buffers[i][k] = (char)(k * 7 + i + k / 4096);
    }
    for (uint64_t at = 0; at < job.size; at += FILL)
        if (nbd_pwrite(server, buffers[at / FILL % MOST_DEPTH], FILL, at, 0) == -1)
            give_up();
    // The answer comes after what the last write has left to be done, which is no part of a read.
    if (job.reads && nbd_pread(server, buffers[0], 512, 0, 0) == -1)
        give_up();
    double start = now();
    uint64_t answered = use(server, &job, buffers);
    printf("%.0f\n", answered / (now() - start));
    nbd_shutdown(server, 0);
    nbd_close(server);
    return 0;
}
