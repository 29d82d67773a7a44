/* A million reads, or as many as are asked for: the process has no more memory behind them than behind the first thousand.
 *     often FILE COUNT */
#include <zaxmonth.h>

#include <stdio.h>
#include <stdlib.h>

static char text[1 << 16];

/* The memory of its own that the process has, in kB. */
static long own_memory(void)
{
    char line[256];
    long found = -1;
    FILE *file = fopen("/proc/self/status", "r");
    while (file && fgets(line, sizeof line, file))
        sscanf(line, "RssAnon: %ld", &found);
    if (found < 0)
        exit(3);
    fclose(file);
    return found;
}

int main(int count, char **words)
{
    FILE *file = count == 3 ? fopen(words[1], "rb") : NULL;
    if (!file)
        return 2;
    size_t length = fread(text, 1, sizeof text, file);
    fclose(file);
    long times = atol(words[2]), before = 0;
    for (long i = 0; i < times; i++) {
        zax_session *session;
        if (zax_read(text, length, &session, NULL) != ZAX_OK)
            return printf("0 passed, 1 failed\n"), 1;
        zax_session_free(session);
        if (i == 1000)
            before = own_memory();
    }
    long more = own_memory() - before;
    if (more > 8)
        printf("%ld kB more behind %ld reads\n", more, times);
    printf("%d passed, %d failed\n", more <= 8, more > 8);
    return more > 8;
}
