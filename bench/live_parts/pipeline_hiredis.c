/* GETs of one key over a pipeline that holds so many commands: PORT COUNT DEPTH. */
#include <hiredis/hiredis.h>
#include <stdio.h>
#include <stdlib.h>
#include <string.h>

static void answered(redisContext *link)
{
    redisReply *reply = NULL;
    if (redisGetReply(link, (void **)&reply) != REDIS_OK || reply->type != REDIS_REPLY_STRING || strcmp(reply->str, "abc") != 0) {
        fprintf(stderr, "a reply is not what was set\n");
        exit(1);
    }
    freeReplyObject(reply);
}

int main(int count_of_words, char **words)
{
    if (count_of_words != 4)
        return 2;
    long count = atol(words[2]), depth = atol(words[3]);
    redisContext *link = redisConnect("127.0.0.1", atoi(words[1]));
    if (link == NULL || link->err)
        return 1;
    long asked = 0;
    for (long done = 0; done < count; done++) {
        for (; asked < count && asked - done < depth; asked++)
            redisAppendCommand(link, "GET k");
        answered(link);
    }
    redisFree(link);
    return 0;
}
