/* list [structural|exhaustive] FILE: prints the listing of a rules file, a line
 * for each verdict and then the counts; or `refused`, the number and the
 * record. The exit status is 0 for a whole listing, 1 for a refusal or a
 * failure, 2 for a wrong call. */
#include "rules.h"

#include <inttypes.h>
#include <stdio.h>
#include <stdlib.h>
#include <string.h>

/* Verdicts of a page. */
enum { PAGE = 1024 };

/* A rules file, with room for one byte more than the longest, so that a longer
 * one is seen to be too long. */
struct file {
    uint8_t bytes[RULES_LONGEST + 1];
    size_t len;
};

/* What a listing needs. */
struct listing {
    uint8_t engine;
    const struct file *file;
    size_t fields;
    int64_t *scratch;
    size_t scratch_len;
    int64_t *out;
    size_t out_len;
};

static int failed(const char *what)
{
    fprintf(stderr, "list: %s\n", what);
    return EXIT_FAILURE;
}

static int read_file(const char *name, struct file *file)
{
    FILE *stream = fopen(name, "rb");
    if (stream == NULL) {
        perror(name);
        return EXIT_FAILURE;
    }
    file->len = fread(file->bytes, 1, sizeof file->bytes, stream);
    int bad = ferror(stream);
    if (bad)
        perror(name);
    fclose(stream);
    return bad ? EXIT_FAILURE : EXIT_SUCCESS;
}

/* Zeroed numbers, or null where there is no memory. At least one, so that the
 * pointer is not null where none are needed. */
static int64_t *numbers(size_t len)
{
    return calloc(len > 0 ? len : 1, sizeof(int64_t));
}

/* What stands where there is no acceptance. */
static int not_accepted(uint8_t status, const size_t *answer)
{
    if (status != RULES_REFUSED)
        return failed("the library was called wrongly");
    printf("refused %zu %zu\n", answer[0], answer[1]);
    return EXIT_FAILURE;
}

static void print_verdict(const int64_t *row, size_t fields)
{
    printf("%c %" PRId64, row[0] == 1 ? 'P' : 'F', row[1]);
    if (row[2] == 1)
        printf(" %" PRId64, row[3]);
    else
        printf(" -");
    for (size_t i = 0; i < fields; i++)
        printf(" %" PRId64, row[RULES_ROW + i]);
    putchar('\n');
}

/* Prints the verdicts page by page, and says how many there were. */
static int print_verdicts(const struct listing *l, size_t *rows)
{
    size_t answer[RULES_PAGE_ANSWER];
    size_t start[RULES_TUPLE] = {0};
    size_t start_len = 0;
    size_t words = l->fields + RULES_ROW;

    *rows = 0;
    do {
        uint8_t status = rules_page(l->engine, l->file->bytes, l->file->len, l->scratch, l->scratch_len,
                                    l->out, l->out_len, start, start_len, answer, RULES_PAGE_ANSWER);
        if (status != RULES_ACCEPTED)
            return not_accepted(status, answer);
        for (size_t i = 0; i < answer[0]; i++)
            print_verdict(l->out + i * words, l->fields);
        if (ferror(stdout))
            return failed("the listing cannot be written");
        *rows += answer[0];
        memcpy(start, answer + 2, sizeof start);
        start_len = RULES_TUPLE;
    } while (answer[1] == 0);
    return EXIT_SUCCESS;
}

/* Prints the verdicts and the counts. The last line is printed only if as many
 * verdicts were printed as are counted. */
static int print_listing(const struct listing *l)
{
    size_t counts[RULES_ANSWER];
    uint8_t status = rules_count(l->engine, l->file->bytes, l->file->len, l->scratch, l->scratch_len,
                                 counts, RULES_ANSWER);
    if (status != RULES_ACCEPTED)
        return not_accepted(status, counts);

    size_t rows;
    int result = print_verdicts(l, &rows);
    if (result != EXIT_SUCCESS)
        return result;
    if (rows != counts[1])
        return failed("the pages hold another number of verdicts than the count");
    printf("end %zu %zu %zu %zu\n", counts[0], counts[1], counts[2], counts[3]);
    return EXIT_SUCCESS;
}

static int list(uint8_t engine, const struct file *file)
{
    size_t shape[RULES_ANSWER];
    uint8_t status = rules_validate(file->bytes, file->len, shape, RULES_ANSWER);
    if (status != RULES_ACCEPTED)
        return not_accepted(status, shape);

    struct listing l = {.engine = engine, .file = file, .fields = shape[0]};
    l.scratch_len = shape[3];
    l.scratch = numbers(l.scratch_len);
    l.out_len = PAGE * (l.fields + RULES_ROW);
    l.out = numbers(l.out_len);
    int result;
    if (l.scratch == NULL || l.out == NULL)
        result = failed("out of memory");
    else
        result = print_listing(&l);
    free(l.out);
    free(l.scratch);
    return result;
}

static int usage(void)
{
    fputs("usage: list [structural|exhaustive] FILE\n", stderr);
    return 2;
}

int main(int argc, char **argv)
{
    static struct file file;
    uint8_t engine = RULES_STRUCTURAL;

    if (argc != 2 && argc != 3)
        return usage();
    if (argc == 3 && strcmp(argv[1], "exhaustive") == 0)
        engine = RULES_EXHAUSTIVE;
    else if (argc == 3 && strcmp(argv[1], "structural") != 0)
        return usage();
    if (read_file(argv[argc - 1], &file) != EXIT_SUCCESS)
        return EXIT_FAILURE;

    int result = list(engine, &file);
    if (fflush(stdout) != 0 || ferror(stdout))
        return failed("the listing cannot be written");
    return result;
}
