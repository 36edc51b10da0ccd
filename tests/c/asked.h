/* The eight calls that a handle can be passed to: each with a handle, beside the same call without. */
#ifndef ASKED_H
#define ASKED_H

#include "build.h"

enum call { ASK_DOCUMENT_LEN, ASK_DF, ASK_DOCS, ASK_POSTINGS, ASK_POSITIONS, ASK_PHRASE, ASK_NEAR, ASK_NEAR_TERMS };

/* One call and what it is given. What a call does not take is left out. */
struct asked {
    enum call call;
    const uint8_t *segment;
    size_t segment_len;
    const uint8_t *text; /* a name, the first name of near_match, or the names of a question */
    size_t text_len;
    const uint8_t *second; /* the second name of near_match */
    size_t second_len;
    const uint32_t *ends;
    size_t ends_len;
    uint32_t number; /* the id or the window */
    bool ordered;
    size_t room[3]; /* elements of the lent buffers */
};

/* The call with the handles of pstp_check and of pstp_open_once, beside the call without: reply and every lent element alike. */
void expect_alike(const char *note, const struct asked *asked);

/* The same with a handle that is known to be of these bytes. */
void expect_alike_with(const char *note, const struct asked *asked, pstp_handle handle);

/* The call with any handle: no fault, a refusal leaves every buffer, and an answer fits its buffers and leaves what is behind it. */
void expect_inside(const char *note, const struct asked *asked, pstp_handle handle);

/* A segment's two handles. For pstp_check: `want` is its refusal, or accepted, with the numbers of pstp_open. Then many calls, each with
 * buffers exactly full, one short, empty and larger, all alike. */
void expect_handles(const char *note, const struct bytes *segment, pstp_reply want);

/* What pstp_check should say of a segment, by the calls without a handle: the refusal of opening, else of the first list, else accepted. */
pstp_reply first_refusal(const struct bytes *segment);

void expect_handle(const char *note, pstp_handle got, pstp_handle want);
pstp_handle handle_of(const struct bytes *segment, pstp_reply want, uint32_t level);

#endif
