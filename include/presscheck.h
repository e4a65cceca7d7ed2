/*
 * Rule texts and journeys for an editor written in C. Link with libeditor.a; nothing here allocates memory.
 * Every pointer points to as many bytes as the length behind it says and is not NULL, even where that is 0, and `work`
 * does not overlap what is only read.
 */
#ifndef PRESSCHECK_H
#define PRESSCHECK_H

#include <stddef.h>
#include <stdint.h>

#ifdef __cplusplus
extern "C" {
#endif

/* The two parts of a refusal, which is one number above 1: cause * 65536 + place. */
#define PRESSCHECK_CAUSE(answer) ((answer) >> 16)
#define PRESSCHECK_PLACE(answer) ((answer) & 0xffff)

/*
 * Reads a rule text. Answers 1 for a rule, else a refusal:
 *   11  more than 128 bytes; place 128
 *   12  the first byte with which the text begins no rule; its place
 *   13  the text ends too early; its length
 *   14  the tenth temporal operator; its place
 */
uint32_t presscheck_read(const uint8_t *text, size_t length);

/*
 * Judges an endless journey by a rule text. A label is two bytes, the least first, bit 0 for letter a up to bit 15 for
 * letter p; an odd last byte does not count. With N labels, the journey goes from label N - 1 back to label `lead_in`.
 * Answers 1 where the rule is true of the journey, 0 where it is false, else a refusal: those of the text first, then
 *   20  the lead-in is not below N, or N is above 4096; place N, at most 65535
 *   35  fewer than 128 * N bytes of work; place 1
 * A refusal leaves `work` as it was; otherwise it may hold anything afterwards.
 */
uint32_t presscheck_judge(const uint8_t *text, size_t text_length, const uint8_t *labels, size_t labels_length,
                          size_t lead_in, uint8_t *work, size_t work_length);

#ifdef __cplusplus
}
#endif

#endif
