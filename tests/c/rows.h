/* The tests, one function for each file of them. */
#ifndef ROWS_H
#define ROWS_H

/* P1 to P10, and what else the scope paper says of its specimen table. */
void test_specimen(void);

/* Short, empty and absent buffers, inputs over their limits, and which refusal comes first. */
void test_rooms(void);

/* The specimen and what goes with it, cut at each byte, and with each byte changed to each other value. */
void test_damaged(void);

/* A table and a key table of full size, and the stack that each function takes on them. */
void test_full_size(void);

#endif
