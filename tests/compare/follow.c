/* follow.c: see follow.h. */
#include "follow.h"

#include "both.h"
#include "check.h"
#include "script.h"

#include <errno.h>
#include <stdlib.h>
#include <string.h>

static const char arrow[] = " => ";

/* The lines with a call or a look: as expected, not, and with nothing expected. */
static unsigned long as_expected, not_so, unheld;

/* The calls up to a crash are printed already. */
static void print_no_more(void)
{
}

static int cannot_read(const char *path)
{
    fprintf(stderr, "compare: %s: %s\n", path, strerror(errno));
    return 2;
}

/* What was found, beside what is expected, if anything is. */
static void held(const char *found, const char *expected, bool agree)
{
    bool is_same = !expected || !strcmp(found, expected);
    printf("%s%s", arrow, found);
    if (!is_same)
        printf("   EXPECTED %s", expected);
    putchar('\n');
    if (!agree)
        both_print_differences(stdout);
    if (!is_same || !agree)
        not_so++;
    else if (expected)
        as_expected++;
    else
        unheld++;
}

static void follow_line(char *line)
{
    char *found = NULL, *expected = strstr(line, arrow);
    size_t len = 0;
    bool agree;
    FILE *into = open_memstream(&found, &len);
    if (!into) {
        perror("compare");
        exit(2);
    }
    if (expected) {
        *expected = 0;
        expected += sizeof arrow - 1;
    }
    fputs(line, stdout);
    enum line kind = script_follow(line, into, &agree);
    fclose(into);
    if (kind == LINE_ANSWERS) {
        held(found, expected, agree);
    } else if (kind == LINE_NOTE && expected) {
        printf("%s%s\n", arrow, expected);
    } else if (kind == LINE_NOT_READ || expected || !agree) {
        puts("   NOT READ");
        not_so++;
    } else {
        putchar('\n');
    }
    free(found);
}

int follow(const char *path)
{
    char *line = NULL;
    size_t room = 0;
    FILE *file = strcmp(path, "-") ? fopen(path, "r") : stdin;
    if (!file)
        return cannot_read(path);
    print_with(print_no_more);
    script_begin();
    while (getline(&line, &room, file) >= 0) {
        line[strcspn(line, "\r\n")] = 0;
        follow_line(line);
    }
    free(line);
    bool is_wrong = ferror(file);
    if (file != stdin)
        fclose(file);
    if (is_wrong)
        return cannot_read(path);
    printf("\n%lu as expected, %lu not", as_expected, not_so);
    printf(unheld ? ", %lu with nothing expected\n" : "\n", unheld);
    if (!as_expected && !not_so && !unheld) {
        fprintf(stderr, "compare: %s: no call in it\n", path);
        return 2;
    }
    return not_so ? 1 : 0;
}
