/* Huntyghai for C: the proved checker for recipes as a static library.
 *
 * Build it with `rt lib` in crates/huntyghai and link crates/huntyghai/out/libhuntyghai.a. Each function is proved to
 * meet the promise of its Rattle source (crates/huntyghai), for every input; nothing checks this header against that
 * source. docs/CALLING.md has programs that use it, and docs/FORMAT.md says what verdicts, refusals and numbers mean.
 *
 * A slice is a pointer and a length in elements. A length of 0 may come with any pointer; the parts of memory lent to
 * one call must not overlap where one of them is written to. Nothing is kept after a call and nothing is allocated.
 * A call holds its arrays on the stack: at most 92 KiB in huntyghai_report, 32 in huntyghai_check_history, 27 in
 * huntyghai_check_set, 20 in huntyghai_causal_reading, 11 in huntyghai_translate, 10 in huntyghai_read_history and 3 in
 * the two by the completion formulas, on every input tried, the largest recipe and tables of 4,096 rules among them;
 * what a thread takes for itself comes on top (measured, not proved).
 *
 * An answer is one number: its code is the answer modulo 256, and its value is the answer divided by 256.
 *
 *   code    meaning                                    value
 *   1..63   a refusal by that number (today 1 to 13)   its place, modulo 2^56
 *   64      passes                                     0
 *   65      clash                                      the atom
 *   66      broken                                     the rule
 *   67      unfounded                                  the literal code
 *   68      missing                                    the atom
 *   72      holds                                      0
 *   73      fails                                      the literal code, 65535 for false
 *   80      path                                       0
 *   81      contradicted                               65536 * time + law
 *   82      uncaused                                   65536 * time + fluent
 *   96      written                                    atoms + 65536 * rules + 65536 * 65536 * words
 *   112     read                                       0
 *
 * So an answer is a refusal exactly if its code is below 64. After a refusal all lent memory is as it was; only
 * huntyghai_report, which gives no such answer, writes its output after a refusal too, for the output says it.
 */
#ifndef HUNTYGHAI_H
#define HUNTYGHAI_H

#include <stddef.h>
#include <stdint.h>

#ifdef __cplusplus
extern "C" {
#endif

/* What the program check prints for an input, written to out as far as out goes. The result is the length of the whole
 * output, which is never over 400 bytes. */
size_t huntyghai_report(const uint8_t *input, size_t input_length, uint8_t *out, size_t out_length);

/* The engine: is the set of literals that the values hold an answer set of the table's rules? One value an atom:
 * 0 none, 1 true, 2 false, 3 both. Codes 10, 11, 12, 64 to 67. */
uint64_t huntyghai_check_set(const uint8_t *values, size_t values_length, const uint16_t *table, size_t table_length);

/* A verdict without derivation, by the completion formulas: is each literal in the set exactly if the body of some rule
 * for it holds, negated parts read as complements, and does no body of a rule headed by false hold? The lowest literal
 * whose formula fails is named, false last. Before that the lowest atom that has no value or both decides: it is
 * missing if it has none and a clash if it has both, as by huntyghai_check_history. The cost grows with the words of
 * the table. Codes 10, 11, 12, 65, 68, 72, 73. On the words that huntyghai_translate wrote and values 1 and 2 the
 * answer is 72 exactly if huntyghai_check_set answers 64; on other tables it may differ: with the words 0,0,1,0 and the
 * value 1 the formulas hold and the engine says unfounded. */
uint64_t huntyghai_check_completion(const uint8_t *values, size_t values_length, const uint16_t *table,
                                    size_t table_length);

/* The same with a level for each literal code, which are to show that no literal depends on itself: levels_length is
 * twice values_length, and the level of each literal head is above that of each plain part of its rule. Refusal 13 says
 * that they are not so: place 65535 for the length, which is tested first, else the lowest such rule, counted from 0.
 * Where no refusal comes, and for values 1 and 2, the answer is 72 exactly if huntyghai_check_set answers 64. Codes 10
 * to 13, 65, 68, 72, 73.
 *
 *     const uint8_t values[] = {1, 1};
 *     const uint16_t rules[] = {0, 1, 0, 1, 1, 1, 0, 0, 2, 0, 1, 0};
 *     const uint16_t levels[] = {0, 0, 1, 0};
 *     huntyghai_check_by_levels(values, 2, rules, 12, levels, 4);
 *
 * answers 72: atom 0 may be so or not, and atom 1 is so if atom 0 is. With the level of literal 2 at 0 it is refused by
 * 13 with place 2, and with values {1, 2} it answers 73 with literal 2. */
uint64_t huntyghai_check_by_levels(const uint8_t *values, size_t values_length, const uint16_t *table,
                                   size_t table_length, const uint16_t *levels, size_t levels_length);

/* Translates the description at the text's start. What stands behind its end line is not read, but counts for the
 * text's length: a text over 65,535 bytes is refused by 1. Codes 1 to 6, 9, 96. On success the table's first words are
 * the rules; 30,912 words are enough for every description. */
uint64_t huntyghai_translate(const uint8_t *text, size_t text_length, uint16_t *table, size_t table_length);

/* Reads a history's text, which begins behind the description's end line, into one value an atom. An action that its
 * act line does not list has value 2, false; a fluent that its state line does not list has 0. Codes 1 to 7, 10, 112;
 * the description's own refusal comes first. Lines are counted within the text that is refused. */
uint64_t huntyghai_read_history(const uint8_t *description, size_t description_length, const uint8_t *history,
                                size_t history_length, uint8_t *values, size_t values_length);

/* The history check on the description at the text's start, which is read as by huntyghai_translate. The values are
 * taken as they are: where atoms, actions' too, have value 0 or 3, the lowest such atom decides, and the answer is
 * missing if its value is 0 and clash if it is 3. Codes 1 to 6, 9 to 11, 64 to 68. After every verdict the table's
 * first words are the description's rules.
 *
 * A history of T steps with n fluents and m actions that passes may be cut after k steps, k from 1 to T - 1: lend a
 * text of the same description with horizon k and the first k * (n + m) + n values, then one with horizon T - k and the
 * values from place k * (n + m) on; both halves pass, and the same table is long enough. Where the last n values of one
 * history that passes are the first n of another of the same description, and both have at most 30 steps together, the
 * values of the first and those of the second behind its first n pass with the horizon of both together, in a table
 * that is long enough for it. */
uint64_t huntyghai_check_history(const uint8_t *text, size_t text_length, const uint8_t *values, size_t values_length,
                                 uint16_t *table, size_t table_length);

/* The causal reading of a whole input, a description and its history. Codes 1 to 7, 11, 80, 81, 82; lines are counted
 * over the whole input. A history that leaves an atom without exactly one value is refused by 11. */
uint64_t huntyghai_causal_reading(const uint8_t *input, size_t input_length);

#ifdef __cplusplus
}
#endif

#endif
