/* Prints the value of each line of a file that is a number, and why others are not. The arguments are settings:
 *     cc -Wall -Wextra -Werror example.c libpeltzivar_c.a -o example
 *     ./example digit_separator=46 integer_internal_digit_separator=true point=44 < prices.txt */
#include "peltzivar.h"
#include <inttypes.h>
#include <stdio.h>
#include <string.h>

/* Prints an integer that an int64_t can have, or a float, and otherwise why there is no such value. */
static void print_value(const peltzivar_literal *literal) {
    int64_t integer;
    double number;
    peltzivar_value_status status = peltzivar_to_i64(literal, &integer);
    if (status == PELTZIVAR_VALUE_OK) {
        printf("%" PRId64 "\n", integer);
        return;
    }
    if (status == PELTZIVAR_VALUE_FLOAT) status = peltzivar_to_f64(literal, &number);
    if (status == PELTZIVAR_VALUE_OK) printf("%.17g\n", number);
    else puts(peltzivar_value_description(status));
}

int main(int argc, char **argv) {
    if (!PELTZIVAR_VERSION_FITS()) return puts("libpeltzivar_c must be " PELTZIVAR_VERSION " or a later 1.x"), 2;
    char settings[4096] = "", line[4096], message[PELTZIVAR_TEXT_SIZE];
    for (int i = 1; i < argc; i++) {
        if (strlen(settings) + strlen(argv[i]) + 2 > sizeof settings) return puts("the settings are too long"), 2;
        strcat(strcat(settings, argv[i]), "\n");
    }
    peltzivar_syntax syntax;
    const size_t len = strlen(settings);
    const bool is_wrong = peltzivar_read_settings(settings, len, &syntax, NULL);
    for (size_t i = 0; peltzivar_settings_text(settings, len, i, message, sizeof message); i++) puts(message);
    if (is_wrong) return 1;

    for (int number = 1; fgets(line, sizeof line, stdin); number++) {
        size_t size = strlen(line);
        if (size == sizeof line - 1 && line[size - 1] != '\n') return printf("line %d is too long\n", number), 2;
        if (size && line[size - 1] == '\n') size--;
        if (size && line[size - 1] == '\r') size--;
        peltzivar_literal literal;
        peltzivar_read_error error;
        peltzivar_explanation why;
        if (!peltzivar_read(&syntax, line, size, &literal, &error)) {
            print_value(&literal);
        } else if (!peltzivar_explain(&error, &why)) {
            peltzivar_read_error_text(&error, message, sizeof message);
            printf("line %d, column %zu: %s\n", number, why.span.start + 1, message);
        }
    }
    return 0;
}
