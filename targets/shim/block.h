/* What the compiled code wants for a request for memory, in two registers. */
struct block { long is_there; void *start; };

/* Returns the block at an address; at 0 none, whose address no one reads or writes. */
static inline struct block block_at(void *start) { return (struct block){start != 0, start ? start : (void *)16}; }
