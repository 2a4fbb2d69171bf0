/* The floor of pstops: a program that reads a document whole, looks at each of its lines, and writes it back in slices: a
 * new page line and the rest of the page for each page. It checks nothing, places nothing and has one thread.
 * bench/run compiles it, and measures it together with the programs.
 *
 * It ends with status 1 if memory is missing, or if reading or writing fails.
 */
#define _GNU_SOURCE
#include <stdio.h>
#include <stdlib.h>
#include <string.h>
#include <sys/stat.h>
#include <sys/uio.h>
#include <unistd.h>

#define LEAST_ROOM 65536
#define PAGES 500
#define PAGE_LINE 64

struct document {
    char *bytes;
    size_t len;
};

/* Slices to be written: two for each page, and one for what comes before the first. */
static struct iovec slices[2 * PAGES + 1];
static int waiting;
static char page_lines[PAGES][PAGE_LINE];
static int pages_waiting;

/* Reads the standard input to its end. A file's length is known before. */
static int read_whole(struct document *document)
{
    struct stat status;
    size_t room = LEAST_ROOM;
    if (fstat(0, &status) == 0 && S_ISREG(status.st_mode) && (size_t)status.st_size >= room)
        room = (size_t)status.st_size + 1;
    document->len = 0;
    document->bytes = malloc(room);
    while (document->bytes != NULL) {
        ssize_t got = read(0, document->bytes + document->len, room - document->len);
        if (got <= 0)
            return got == 0;
        document->len += (size_t)got;
        if (document->len == room) {
            room *= 2;
            document->bytes = realloc(document->bytes, room);
        }
    }
    return 0;
}

static int write_slices(void)
{
    struct iovec *next = slices;
    while (waiting > 0) {
        ssize_t written = writev(1, next, waiting);
        if (written < 0)
            return 0;
        while (waiting > 0 && (size_t)written >= next->iov_len) {
            written -= (ssize_t)next->iov_len;
            next++;
            waiting--;
        }
        if (waiting > 0) {
            next->iov_base = (char *)next->iov_base + written;
            next->iov_len -= (size_t)written;
        }
    }
    pages_waiting = 0;
    return 1;
}

static void add_slice(char *bytes, size_t len)
{
    slices[waiting].iov_base = bytes;
    slices[waiting].iov_len = len;
    waiting++;
}

static int add_page(long page, char *bytes, size_t len)
{
    if (pages_waiting == PAGES && !write_slices())
        return 0;
    char *line = page_lines[pages_waiting++];
    add_slice(line, (size_t)snprintf(line, PAGE_LINE, "%%%%Page: (%ld) %ld\n", page, page));
    add_slice(bytes, len);
    return 1;
}

/* The place after the line that begins here. */
static size_t line_end(const struct document *document, size_t start)
{
    const char *line_feed = memchr(document->bytes + start, '\n', document->len - start);
    return line_feed == NULL ? document->len : (size_t)(line_feed - document->bytes) + 1;
}

static int begins(const char *line, size_t len, const char *key)
{
    size_t key_len = strlen(key);
    return len >= key_len && memcmp(line, key, key_len) == 0;
}

/* The number of bytes of data after this line, which ends in a line feed: those of a block whose bytes are counted. */
static size_t data_len(const char *line, size_t len)
{
    if (begins(line, len, "%%BeginBinary:"))
        return strtoul(line + 14, NULL, 10);
    if (begins(line, len, "%%BeginData:") && memmem(line, len, "Lines", 5) == NULL)
        return strtoul(line + 12, NULL, 10);
    return 0;
}

/* Looks at each line, and writes page by page. */
static int write_pages(const struct document *document)
{
    size_t body = 0;
    size_t at = 0;
    long page = 0;
    while (at < document->len) {
        const char *line = document->bytes + at;
        size_t end = line_end(document, at);
        size_t len = end - at;
        if (len > 2 && line[0] == '%' && line[1] == '%') {
            if (begins(line, len, "%%Page:")) {
                if (page == 0)
                    add_slice(document->bytes, at);
                else if (!add_page(page, document->bytes + body, at - body))
                    return 0;
                page++;
                body = end;
            } else {
                size_t data = line[len - 1] == '\n' ? data_len(line, len) : 0;
                end = data < document->len - end ? end + data : document->len;
            }
        }
        at = end;
    }
    if (page == 0)
        add_slice(document->bytes, document->len);
    else if (!add_page(page, document->bytes + body, document->len - body))
        return 0;
    return write_slices();
}

int main(void)
{
    struct document document;
    return read_whole(&document) && write_pages(&document) ? 0 : 1;
}
