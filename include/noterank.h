/* The ranking of a note file, and its writing. Every call returns; no argument is assumed to be right.
   Pointers point to as many elements as the length beside them says; buffers that are written must not overlap with any other argument. */
#ifndef NOTERANK_H
#define NOTERANK_H

#include <stddef.h>
#include <stdint.h>

#ifdef __cplusplus
extern "C" {
#endif

/* 0 if the note file is accepted, else the number of its refusal, 1 to 9. */
uint32_t noterank_check(const uint8_t *file, size_t file_len);

/* One run. Returns 0, or the number of its refusal, 1 to 12; *count is always written.

   query:   list numbers from 0, at most 16, repeats allowed
   walk:    0 skipping, 1 plain
   mode:    0 union, 1 intersection, 2 single
   scoring: 0 unstepped, 1 stepped (each score and bound cut down to a multiple of 1/1024)
   rule:    0 script: the threshold is `start`, and after each report the next entry of `script`; k is not looked at
            1 best k: the larger of `start` and the k-th best score reported, once k exist; `script` is not looked at
   rows:    the shorter of the two buffers; row i is documents[i] with scores[i]

   With 0, *count rows are written, the whole list, documents upward. With 12 a report was due and no row was left: *count rows, the first
   reports. With 1 to 11 nothing is written and *count is 0. Cells behind the count are never touched.
   A walk or a mode outside its numbers is 10, a scoring or a rule outside its numbers 11. */
uint32_t noterank_run(const uint8_t *file, size_t file_len,
                      const uint32_t *query, size_t query_len,
                      uint32_t walk, uint32_t mode, uint32_t scoring,
                      uint32_t rule, float start, uint32_t k,
                      const float *script, size_t script_len,
                      uint32_t *documents, size_t documents_len,
                      float *scores, size_t scores_len,
                      uint32_t *count);

/* The k best notes of a query, by falling score, then rising document. Returns 0, or the number of its refusal, 1 to 12 or 14; *count is
   always written.

   query, mode, scoring: as in noterank_run; the run is a skipping one, best k from `start`
   report rows: report_documents and report_scores, the shorter counts; the run writes its reports here
   note rows:   documents and scores, the shorter counts; k are needed

   With 0, *count notes are written, at most k, and the report rows hold the run's reports. With scoring 1 the notes are the first k of all
   matching documents above `start`, or all if fewer; with scoring 0 the first k of the run's reports. With 12 the report rows were too few:
   they hold the first reports, *count is 0 and no note row is written. With 1 to 11 as in noterank_run, and with 14, fewer than k note
   rows, nothing is written and *count is 0; 14 is tested after 11. Cells behind what is written are never touched. */
uint32_t noterank_find(const uint8_t *file, size_t file_len,
                       const uint32_t *query, size_t query_len,
                       uint32_t mode, uint32_t scoring,
                       float start, uint32_t k,
                       uint32_t *report_documents, size_t report_documents_len,
                       float *report_scores, size_t report_scores_len,
                       uint32_t *documents, size_t documents_len,
                       float *scores, size_t scores_len,
                       uint32_t *count);

/* Writes the note file of these contents. Returns 0, or the number of its refusal; *length is always written.

   documents: how many there are, numbered from 0
   kind:      0 a norm code for each document, in `norms`, and `code` is 0
              1 one norm code for all documents, `code`, and `norms` is empty
   average:   the average field length
   weights:   the weight of each list
   counts:    the number of postings of each list; counts_len is the number of lists
   docs:      the documents of list 0, strictly rising, then those of list 1, and so on
   freqs:     beside each of them its frequency

   With 0 the file stands in the first *length bytes of `out`; bytes behind them are not touched. With any other number *length is 0 and
   every byte of `out` is as it was. The number is that of the first of these that holds:

   1:  over 16 lists; documents over 1,048,576; kind over 1; kind 0 with a code; code over 255
   2:  average not from 0.0625 to 2,147,483,648, or NaN
   3:  with kind 0 not as many norms as documents, with kind 1 any; not as many weights as counts; docs or freqs not as many as the sum of
       the counts
   4:  a list's weight has its sign bit set, is NaN or is over 1,000; a list's count is over documents
   then list by list, each over the whole list before the next:
   7:  its documents not strictly rising, or one not below `documents`
   8:  a frequency 0 or over 2,013,265,944
   9:  an unstepped score above the list's bound, the score of norm code 255 with frequency 2,013,265,944
   and last:
   13: out_len below the file's length; 9 + 13 * counts_len + norms_len + 8 * docs_len is always enough */
uint32_t noterank_write(uint32_t documents, uint32_t kind, uint32_t code,
                        const uint8_t *norms, size_t norms_len, float average,
                        const float *weights, size_t weights_len,
                        const uint32_t *counts, size_t counts_len,
                        const uint32_t *docs, size_t docs_len,
                        const uint32_t *freqs, size_t freqs_len,
                        uint8_t *out, size_t out_len,
                        uint32_t *length);

#ifdef __cplusplus
}
#endif

#endif
