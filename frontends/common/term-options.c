/* The line of a program, and how it ends. */
#include "terminal.h"
#include <errno.h>
#include <getopt.h>
#include <stdio.h>
#include <stdlib.h>
#include <string.h>

static const uint64_t MOST_STEPS = 1000000000000, MOST_LINES = 1000000000;

/* A number in this range, of digits alone. */
static bool read_number(const char *text, uint64_t least, uint64_t most, uint64_t *number)
{
    char *end;
    errno = 0;
    *number = strtoull(text, &end, 10);
    return text[0] >= '0' && text[0] <= '9' && *end == '\0' && errno == 0 && *number >= least && *number <= most;
}

static bool read_line(const struct program *program, int count, char **words, struct options *options)
{
    static const struct option KNOWN[] = {{"limit", required_argument, NULL, 'l'}, {"output", required_argument, NULL, 'o'},
        {"in-place", no_argument, NULL, 'i'}, {"file", required_argument, NULL, 'f'}, {"page-lines", required_argument, NULL, 'p'},
        {"undo", required_argument, NULL, 'u'}, {"help", no_argument, NULL, 'h'}, {"version", no_argument, NULL, 'V'},
        {"steps", no_argument, NULL, 's'}, {"wide", no_argument, NULL, 'w'}, {0}};
    bool is_good = true;
    int option;
    while (is_good && (option = getopt_long(count, words, "o:f:ihV", KNOWN, NULL)) != -1) {
        switch (option) {
        case 'l': is_good = read_number(optarg, 0, MOST_STEPS, &options->limit); break;
        case 'o': options->output = optarg; break;
        case 'f':
            options->files[options->file_count++] = optarg;
            is_good = strcmp(optarg, "-") != 0;
            break;
        case 'i': options->in_place = true; break;
        case 'p': is_good = read_number(optarg, 1, MOST_LINES, &options->lines); break;
        case 'u': is_good = read_number(optarg, 1, TECO_DEPTH_LIMIT, &options->depth); break;
        case 'w': options->wide = true; break;
        case 's': options->steps = is_good = program->has_steps; break;
        case 'h': options->help = true; break;
        case 'V': options->version = true; break;
        default: is_good = false;
        }
    }
    options->inputs = words + optind;
    options->count = count - optind;
    is_good = is_good && (options->output == NULL || (!options->in_place && options->count == 1));
    return is_good && (options->help || options->version || options->count > 0);
}

/* What the line comes to, as options_read tells. */
static int follow_line(const struct program *program, int count, char **words, struct options *options)
{
    if (!read_line(program, count, words, options)) {
        (void)fputs(program->usage, stderr);
        return 3;
    }
    if (options->help)
        return fputs(program->help, stdout) >= 0 ? 0 : 3;
    if (options->version)
        return printf("%s %s\n", program->name, TECO_VERSION) >= 0 ? 0 : 3;
    return -1;
}

int options_read(const struct program *program, int count, char **words, struct options *options)
{
    *options = (struct options){.limit = 1000000, .files = calloc((size_t)count + 1, sizeof(char *))};
    if (options->files == NULL)
        return conclude(program, "", NO_MEMORY);
    int status = follow_line(program, count, words, options);
    if (status >= 0)
        free(options->files);
    return status;
}

int conclude(const struct program *program, const char *name, enum fate fate)
{
    static const char *const SAID[] = {[NO_INPUT] = "cannot read ", [LARGE_INPUT] = " is too large",
        [NO_TERMINAL] = "standard input and output are no terminal",
        [POOR_TERMINAL] = "this terminal can't move its cursor, or isn't known: TERM says what it is", [READ_FAULT] = "cannot read commands",
        [SHOW_FAULT] = "cannot show", [NO_MEMORY] = "no memory"};
    if (fate == EXIT || fate == SAVED || fate == END_OF_COMMANDS || fate == TERMINAL_GONE)
        return fate == END_OF_COMMANDS || fate == TERMINAL_GONE ? 2 : 0;
    (void)fprintf(stderr, "%s: %s%s%s\n", program->name, fate == LARGE_INPUT ? name : "", SAID[fate], fate == NO_INPUT ? name : "");
    return 1;
}

int edit_all(const struct program *program, struct options *options, enum fate (*edit)(const struct options *options))
{
    int status = sources_read(program, options);
    enum fate fate = status < 0 ? EXIT : BAD_SOURCE;
    status = status < 0 ? 0 : status;
    for (int i = 0; i < options->count && (fate == EXIT || fate == NO_INPUT || fate == LARGE_INPUT); i++) {
        options->input = options->inputs[i];
        options->output = options->in_place ? options->input : options->output;
        fate = edit(options);
        int own = conclude(program, options->input, fate);
        status = own == 1 || status == 0 ? own : status;
    }
    past_free();
    bytes_free(&options->strings);
    free(options->files);
    return keep_has_failed() ? 1 : status;
}
