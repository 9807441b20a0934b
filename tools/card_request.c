/* Takes a command line apart into operands and options, and refuses what the command does not know. */
#include "card_request.h"
#include "card_say.h"
#include "card_text.h"

#include <string.h>

static const struct {
    const char *word;
    int has_value;
} forms[OPTIONS] = {
    [OPTION_DATE] = {"--date", 1},
    [OPTION_DELETED] = {"--deleted", 0},
    [OPTION_FORCE] = {"--force", 0},
    [OPTION_FROM_BACKUP] = {"--from-backup", 0},
    [OPTION_HELP] = {"--help", 0},
    [OPTION_INDEXES] = {"--indexes", 1},
    [OPTION_KIND] = {"--kind", 1},
    [OPTION_LABEL] = {"--label", 1},
    [OPTION_NAME] = {"--name", 1},
    [OPTION_READ] = {"--read", 0},
    [OPTION_SVG] = {"--svg", 1},
    [OPTION_TYPES] = {"--types", 1},
    [OPTION_VARIABLE] = {"--variable", 1},
    [OPTION_WITHHELD] = {"--withheld", 1},
    [OPTION_WRITE] = {"--write", 0},
    [OPTION_ZONES] = {"--zones", 1},
};

/* The words that are still to be taken. */
struct words {
    int count;
    char **at;
};

static char *next_word(struct words *words) {
    words->count--;
    return *words->at++;
}

/* The option that a word names, up to its end or to `=`; OPTIONS if it is none. */
static enum option find_option(const char *word) {
    size_t length = strcspn(word, "=");
    enum option option = 0;
    while (option < OPTIONS && (strlen(forms[option].word) != length || memcmp(forms[option].word, word, length) != 0))
        option++;
    return option;
}

static int take_option(const struct command *command, const char *word, struct words *words,
                       struct request *request) {
    enum option option = find_option(word);
    const char *equals = strchr(word, '=');
    if (option == OPTIONS || ((command->takes | TAKES(OPTION_HELP) | TAKES(OPTION_WITHHELD)) & TAKES(option)) == 0)
        return say_misuse("there is no option %s", word);
    if (request->options[option] != NULL)
        return say_misuse("%s is given twice", forms[option].word);
    if (!forms[option].has_value) {
        request->options[option] = "";
        return equals == NULL ? CARD_DONE : say_misuse("%s takes no value", forms[option].word);
    }
    if (equals == NULL && words->count == 0)
        return say_misuse("%s takes a value", forms[option].word);
    request->options[option] = equals != NULL ? equals + 1 : next_word(words);
    return CARD_DONE;
}

static int take_operand(const struct command *command, const char *word, int *operands, struct request *request) {
    if (*operands == command->most)
        return say_misuse("'%s' is one word too many", word);
    request->operands[(*operands)++] = word;
    return CARD_DONE;
}

int request_take(const struct command *command, int count, char **at, struct request *request) {
    struct words words = {count, at};
    int operands = 0, only_operands = 0, status = CARD_DONE;
    memset(request, 0, sizeof *request);
    while (words.count > 0 && status == CARD_DONE) {
        const char *word = next_word(&words);
        if (!only_operands && strcmp(word, "--") == 0)
            only_operands = 1;
        else if (!only_operands && word[0] == '-' && word[1] != '\0')
            status = take_option(command, word, &words, request);
        else
            status = take_operand(command, word, &operands, request);
    }
    if (status == CARD_DONE && request->options[OPTION_HELP] == NULL && operands < command->least)
        status = say_misuse(operands == 0 ? "an image is needed" : "a word is missing");
    return status;
}

int request_date(const struct request *request, uint8_t date[ISC_DATE]) {
    const char *text = request->options[OPTION_DATE];
    if (text == NULL)
        return text_now(date) ? CARD_DONE : say_failure("the clock cannot be read: give --date");
    return text_date(text, date) ? CARD_DONE : say_misuse("--date is YYYY-MM-DDTHH:MM");
}
