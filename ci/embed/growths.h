/* Growths of memory, counted and refused, in a caller that is linked with --wrap=malloc, --wrap=realloc and --wrap=free. */
#ifndef GROWTHS_H
#define GROWTHS_H

/* How many pieces of memory are live. */
extern long live;

/* How often memory was taken or grown. */
extern long taken;

/* So many growths succeed before one is refused; none is refused where it is below 0, which it is after the refusal. */
extern long left;

#endif
