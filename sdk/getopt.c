/* getopt, getopt_long and getopt_long_only as POSIX and Linux's C libraries have them: words that are no options go behind the
   options, but where the letters begin with + or POSIXLY_CORRECT is set; with - they are options of value 1; a lone - is none.
   Newlib's takes it for one. */
#include <getopt.h>
#include <stdio.h>
#include <stdlib.h>
#include <string.h>
#include <unistd.h>

char *optarg;
int optind = 1, opterr = 1, optopt, optreset;

/* The letters that are left of the word at `at`, and where the words before it begin that are no options. */
static char *rest;
static int at, first;

static int is_option(const char *word)
{
    return word[0] == '-' && word[1];
}

static int told(char *const words[], const char *letters, const char *what, const char *name, int size)
{
    if (opterr && letters[*letters == '+' || *letters == '-'] != ':')
        fprintf(stderr, "%s: %s -- '%.*s'\n", words[0], what, size, name);
    return '?';
}

/* The words from `first` to `at` go behind those that were read, up to optind. */
static void move(char **words)
{
    for (; at < optind; at++) {
        char *word = words[at];
        memmove(words + first + 1, words + first, (at - first) * sizeof *words);
        words[first++] = word;
    }
    optind = first;
}

static int missing(char *const words[], const char *letters, const char *name, int size)
{
    told(words, letters, "option requires an argument", name, size);
    return letters[*letters == '+' || *letters == '-'] == ':' ? ':' : '?';
}

static int short_option(int count, char *const words[], const char *letters)
{
    char *name = rest++;
    const char *known = *name == ':' ? 0 : strchr(letters + (*letters == '+' || *letters == '-'), *name);
    if (!*rest)
        optind++;
    optopt = *name;
    if (!known) {
        if (!*rest)
            rest = 0;
        return told(words, letters, "invalid option", name, 1);
    }
    if (known[1] == ':') {
        optarg = *rest ? rest : 0;
        if (*rest)
            optind++;
        else if (known[2] != ':' && optind < count)
            optarg = words[optind++];
        rest = 0;
        if (!optarg && known[2] != ':')
            return missing(words, letters, name, 1);
    } else if (!*rest) {
        rest = 0;
    }
    return *name;
}

/* The long option that a name is or begins, if it is one; `ambiguous` where it begins several. */
static const struct option *long_of(const struct option *options, const char *name, size_t size, int *ambiguous)
{
    const struct option *found = 0;
    *ambiguous = 0;
    for (const struct option *option = options; option->name; option++)
        if (strncmp(option->name, name, size) == 0) {
            if (!option->name[size])
                return option;
            *ambiguous |= found && (found->has_arg != option->has_arg || found->flag != option->flag || found->val != option->val);
            if (!found)
                found = option;
        }
    return *ambiguous ? 0 : found;
}

static int long_option(int count, char *const words[], const char *letters, const struct option *option, int *index,
    const struct option *options, const char *name, size_t size)
{
    const char *value = name[size] == '=' ? name + size + 1 : 0;
    optind++;
    rest = 0;
    optopt = option->val;
    if (value && option->has_arg == no_argument)
        return told(words, letters, "option doesn't allow an argument", name, size);
    optarg = (char *)value;
    if (option->has_arg == required_argument && !value) {
        if (optind >= count)
            return missing(words, letters, name, size);
        optarg = words[optind++];
    }
    if (index)
        *index = option - options;
    if (!option->flag)
        return option->val;
    *option->flag = option->val;
    return 0;
}

static int next_option(int count, char *const words[], const char *letters, const struct option *options, int *index, int only)
{
    const char *word = words[optind];
    int dashes = word[1] == '-' ? 2 : 1, ambiguous;
    if (!rest && options && (dashes == 2 || only)) {
        const char *name = word + dashes;
        size_t size = strcspn(name, "=");
        const struct option *option = long_of(options, name, size, &ambiguous);
        if (option)
            return long_option(count, words, letters, option, index, options, name, size);
        if (dashes == 2 || ambiguous) {
            optind++;
            optopt = 0;
            return told(words, letters, ambiguous ? "ambiguous option" : "unrecognized option", name, size);
        }
    }
    if (!rest)
        rest = words[optind] + 1;
    return short_option(count, words, letters);
}

static int next(int count, char *const words[], const char *letters, const struct option *options, int *index, int only)
{
    if (!optind || optreset) {
        optind = 1;
        optreset = 0;
        rest = 0;
    }
    /* A program that reads other words from the start sets optind to 1. */
    if (rest && (at != optind || at >= count || rest <= words[at] || rest > words[at] + strlen(words[at])))
        rest = 0;
    optarg = 0;
    if (!rest) {
        first = optind;
        if (*letters != '-' && *letters != '+' && !getenv("POSIXLY_CORRECT"))
            while (optind < count && !is_option(words[optind]))
                optind++;
        at = optind;
        if (at >= count || !is_option(words[at])) {
            int others = at < count && *letters == '-';
            optarg = others ? words[at] : 0;
            optind = others ? at + 1 : at < count ? at : first;
            return others ? 1 : -1;
        }
    }
    int option = -1;
    if (!rest && strcmp(words[at], "--") == 0)
        optind++;
    else
        option = next_option(count, words, letters, options, index, only);
    if (!rest)
        move((char **)words);
    return option;
}

int getopt(int count, char *const words[], const char *letters)
{
    return next(count, words, letters, 0, 0, 0);
}

int getopt_long(int count, char *const words[], const char *letters, const struct option *options, int *index)
{
    return next(count, words, letters, options, index, 0);
}

int getopt_long_only(int count, char *const words[], const char *letters, const struct option *options, int *index)
{
    return next(count, words, letters, options, index, 1);
}
