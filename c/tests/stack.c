/* Prints how many bytes of stack each function of both headers needs at most, by each language and by a list of 64 forms.
 * test_c.py writes CALLS, with the name of each and a function that calls it with the variables below. */
#include "peltzivar_words.h"
#include <pthread.h>
#include <stdio.h>
#include <stdlib.h>
#include <string.h>

#define STACK 65536
static const char *const texts[] = {"1", "-1.5", "0x1Fu;", "12345678901234567890.5e-300", "1e400x", "nan", "16r7fz", "radix=37\npoint=none\nradx=1\nradix=2"};
static char stack[STACK] __attribute__((aligned(4096))), out[65536], memory[2][65536];
static const peltzivar_style style = {.group = 3, .min_digits = 255, .has_decimals = true, .decimals = 20};
static const peltzivar_edit edits[] = {{PELTZIVAR_SET_MANTISSA_RADIX, 36}};
static peltzivar_fields fields;
static peltzivar_form form[64];
static peltzivar_literal literal;
static peltzivar_read_error error;
static const peltzivar_forms *forms;
static const peltzivar_list *list;
static const char *text;
static int64_t offsets[2];
#include CALLS

static void nothing(void) {}

static void *run(void *call) {
    (*(void (*const *)(void))call)();
    return NULL;
}

/* Returns the bytes of the stack that a call has written. */
static size_t depth(void (*call)(void)) {
    pthread_t thread;
    pthread_attr_t attributes;
    size_t first = 0;
    memset(stack, 0xA5, STACK);
    if (pthread_attr_init(&attributes) || pthread_attr_setstack(&attributes, stack, STACK)) abort();
    if (pthread_create(&thread, &attributes, run, &call) || pthread_join(thread, NULL)) abort();
    while (first < STACK && stack[first] == (char)0xA5) first++;
    return STACK - first;
}

static void measure(size_t *most) {
    const size_t least = depth(nothing);
    for (size_t i = 0; i < sizeof texts / sizeof *texts; i++) {
        text = texts[i], offsets[1] = (int64_t)strlen(text), fields = peltzivar_fields_of(list->forms->syntax.format);
        if (peltzivar_forms_read(forms, text, strlen(text), &literal, &error) && i == 1) literal.magic = 0;
        for (size_t j = 0; j < sizeof calls / sizeof *calls; j++) {
            const size_t bytes = depth(calls[j].call) - least;
            if (bytes > most[j]) most[j] = bytes;
        }
    }
}

int main(void) {
    size_t most[sizeof calls / sizeof *calls] = {0};
    for (size_t i = 0; *peltzivar_language_name(i); i++) {
        const char *const name = peltzivar_language_name(i);
        forms = peltzivar_language(name, strlen(name)), list = peltzivar_list_of(forms, memory[0], sizeof *memory, NULL);
        measure(most);
    }
    const peltzivar_list own = {.forms = form, .count = 64, .specials = list->specials, .tokens = list->tokens};
    for (int i = 0; i < 64; i++) form[i] = list->forms[i % list->count];
    list = &own, forms = peltzivar_make_forms(list, memory[1], sizeof *memory, NULL);
    if (!forms) return 1;
    measure(most);
    for (size_t i = 0; i < sizeof calls / sizeof *calls; i++) printf("%s %zu\n", calls[i].name, most[i]);
    return 0;
}
