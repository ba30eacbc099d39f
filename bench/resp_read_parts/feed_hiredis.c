/* Feeds the bytes of standard input to hiredis's reader in pieces of so many bytes, the first word.
 * Prints how many values it read and the microseconds that it took. Ends with 2 and the reader's words where it reads no
 * further. With the word `version` it prints that of hiredis. */
#define _POSIX_C_SOURCE 199309L
#include <hiredis/hiredis.h>
#include <stdio.h>
#include <stdlib.h>
#include <string.h>
#include <time.h>

static char *read_input(size_t *length) {
    size_t room = 1 << 20, count = 0, got;
    char *bytes = malloc(room);
    while (bytes && (got = fread(bytes + count, 1, room - count, stdin)) > 0) {
        count += got;
        if (count == room) bytes = realloc(bytes, room *= 2);
    }
    *length = count;
    return bytes;
}

static int feed(redisReader *reader, const char *bytes, size_t length, size_t size, unsigned long *values) {
    for (size_t at = 0; at < length; at += size) {
        size_t piece = length - at < size ? length - at : size;
        if (redisReaderFeed(reader, bytes + at, piece) != REDIS_OK) return REDIS_ERR;
        for (;;) {
            void *reply = NULL;
            if (redisReaderGetReply(reader, &reply) != REDIS_OK) return REDIS_ERR;
            if (reply == NULL) break;
            freeReplyObject(reply);
            ++*values;
        }
    }
    return REDIS_OK;
}

int main(int argc, char **argv) {
    if (argc > 1 && strcmp(argv[1], "version") == 0) {
        printf("%d.%d.%d\n", HIREDIS_MAJOR, HIREDIS_MINOR, HIREDIS_PATCH);
        return 0;
    }
    size_t size = argc > 1 ? strtoul(argv[1], NULL, 10) : 0, length;
    if (size == 0) return 1;
    char *bytes = read_input(&length);
    redisReader *reader = redisReaderCreate();
    if (!bytes || !reader) return 3;
    unsigned long values = 0;
    struct timespec before, after;
    clock_gettime(CLOCK_MONOTONIC, &before);
    int answer = feed(reader, bytes, length, size, &values);
    clock_gettime(CLOCK_MONOTONIC, &after);
    if (answer != REDIS_OK) {
        fprintf(stderr, "%s\n", reader->errstr);
        return 2;
    }
    printf("%lu %lld\n", values, (after.tv_sec - before.tv_sec) * 1000000LL + (after.tv_nsec - before.tv_nsec) / 1000);
    redisReaderFree(reader);
    free(bytes);
    return 0;
}
