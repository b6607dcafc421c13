/* The tests, one function for each part of the header. */
#ifndef TESTS_H
#define TESTS_H

void test_numbers(void);
void test_reading(void);
void test_keys(void);
void test_hmacs(void);
void test_writing(void);
void test_servers(void);
void test_clients(void);
void test_streams(void);
void test_turn(void);
void test_turn_answers(void);
void test_turn_more(void);
void test_allocations(void);
void test_ice(void);
void test_nulls(void);
void test_calls(void);
void test_overlaps(void);

#endif
