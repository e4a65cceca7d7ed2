/*
 * Two ways to call the library from C:
 *   editor read TEXT ..                 each text is read
 *   editor judge TEXT LEAD-IN LABEL ..  the journey of these labels is judged by the text; a label is a run of letters
 *                                       a to p, or - for none
 */
#include <stdio.h>
#include <stdlib.h>
#include <string.h>
#include "presscheck.h"

static void say_refusal(uint32_t answer)
{
    printf("refused, cause %u at place %u\n", PRESSCHECK_CAUSE(answer), PRESSCHECK_PLACE(answer));
}

static void read_text(const char *text)
{
    uint32_t answer = presscheck_read((const uint8_t *)text, strlen(text));
    printf("%s: ", text);
    if (answer == 1) {
        printf("a rule\n");
    } else {
        say_refusal(answer);
    }
}

static unsigned label_of(const char *letters)
{
    unsigned label = 0;
    for (; *letters != '\0'; letters++) {
        if (*letters >= 'a' && *letters <= 'p') {
            label |= 1u << (*letters - 'a');
        }
    }
    return label;
}

static int judge_journey(const char *text, size_t lead_in, int count, char **words)
{
    uint8_t *labels = malloc(2 * (size_t)count + 1);
    uint8_t *work = malloc(128 * (size_t)count + 1);
    if (labels == NULL || work == NULL) {
        return 1;
    }
    for (int i = 0; i < count; i++) {
        unsigned label = label_of(words[i]);
        labels[2 * i] = (uint8_t)(label & 0xff);
        labels[2 * i + 1] = (uint8_t)(label >> 8);
    }
    uint32_t answer = presscheck_judge((const uint8_t *)text, strlen(text), labels, 2 * (size_t)count, lead_in, work,
                                       128 * (size_t)count);
    printf("%s: ", text);
    if (answer <= 1) {
        printf("%s\n", answer == 1 ? "true" : "false");
    } else {
        say_refusal(answer);
    }
    free(labels);
    free(work);
    return 0;
}

int main(int argc, char **argv)
{
    if (argc >= 2 && strcmp(argv[1], "read") == 0) {
        for (int i = 2; i < argc; i++) {
            read_text(argv[i]);
        }
        return 0;
    }
    if (argc >= 4 && strcmp(argv[1], "judge") == 0) {
        return judge_journey(argv[2], strtoul(argv[3], NULL, 10), argc - 4, argv + 4);
    }
    fprintf(stderr, "usage: editor read TEXT .. | editor judge TEXT LEAD-IN LABEL ..\n");
    return 2;
}
