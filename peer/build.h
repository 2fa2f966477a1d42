/* build.h: writes tapes, good ones; damage is done on the bytes after. */
#ifndef BUILD_H
#define BUILD_H

#include "peer.h"

void build_word(unsigned char *p, uint32_t n);
void build_order(unsigned char *p, const struct peer_order *o);
void build_event(unsigned char *p, size_t form, const struct peer_event *e);     /* an old one has no participant */
void build_trailer(unsigned char *p, size_t form, uint32_t s, uint32_t n);

/* Events by kind; sequence and time first. */
struct peer_event build_gtx(uint32_t seq, uint32_t time, uint32_t side, uint32_t size, uint32_t price, uint32_t marks);
struct peer_event build_cancel(uint32_t seq, uint32_t time, uint32_t which);
struct peer_event build_limit(uint32_t seq, uint32_t time, uint32_t side, uint32_t size, uint32_t price, uint32_t marks);
struct peer_event build_market(uint32_t seq, uint32_t time, uint32_t side, uint32_t size, uint32_t marks);
struct peer_event build_quotes(uint32_t seq, uint32_t time, uint32_t nbb, uint32_t nbo, uint32_t bb, uint32_t bo, uint32_t marks);

/* Names a live GTX, and gives it a new size and price. */
struct peer_event build_amend(uint32_t seq, uint32_t time, uint32_t which, uint32_t size, uint32_t price);

/* The same event by a participant. */
struct peer_event build_by(uint32_t participant, struct peer_event e);

/* A record in form turned to the other side; made apart from the engine. */
struct peer_order build_turn_order(struct peer_order o);
struct peer_event build_turn_event(struct peer_event e);

/* A whole tape without prefix: gives its length. */
size_t build_tape(unsigned char *out, size_t form, const struct peer_order *o, const struct peer_event *e, int n);

#endif
