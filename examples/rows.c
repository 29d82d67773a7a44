/* Prints the rows of an offer:   rows FILE
 *     cc rows.c $(pkg-config --cflags --libs zaxmonth) -o rows */
#include <zaxmonth.h>

#include <stdio.h>

static char text[1 << 20];

static void show(zax_session *session, size_t section)
{
    char mid[64], codec[64], fmtp[1024];
    zax_row rows[128];
    size_t named = 0, found = 0;
    if (zax_section_mid(session, section, mid, sizeof mid, &named) != ZAX_OK ||
        zax_rows(session, section, rows, 128, &found) != ZAX_OK)
        return;
    for (size_t i = 0; i < found; i++) {
        size_t length = 0, said = 0;
        zax_row_codec(session, section, i, codec, sizeof codec, &length);
        zax_row_fmtp(session, section, i, fmtp, sizeof fmtp, &said);
        printf("mid %.*s: payload type %d, %.*s at %u Hz%s%.*s\n", (int)named, mid, rows[i].pt, (int)length, codec, rows[i].clock_rate,
               said ? ", " : "", (int)said, fmtp);
    }
}

int main(int count, char **words)
{
    FILE *file = count == 2 ? fopen(words[1], "rb") : NULL;
    if (!file)
        return fprintf(stderr, "usage: rows FILE\n"), 2;
    size_t length = fread(text, 1, sizeof text, file);
    fclose(file);

    zax_session *session;
    zax_error error;
    if (zax_read(text, length, &session, &error) != ZAX_OK)
        return fprintf(stderr, "%s\n", error.message), 1;
    if (error.line)
        fprintf(stderr, "reading ended at line %u\n", error.line);
    for (size_t section = 0; section < zax_sections(session); section++)
        show(session, section);
    zax_session_free(session);
    return 0;
}
