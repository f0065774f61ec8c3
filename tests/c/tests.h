/* The tests, each on memory of its own. */
#ifndef TESTS_H
#define TESTS_H

/* calls.c */
void test_fresh(void);
void test_begin(void);
void test_begin_refused(void);
void test_fetch(void);
void test_fetch_joins(void);
void test_fetch_touches(void);
void test_fetch_looked_at(void);
void test_fetch_looked_at_64(void);
void test_fetch_refused(void);
void test_fetch_full(void);
void test_end(void);
void test_end_refused(void);
void test_host_write(void);
void test_host_write_refused(void);
void test_own_write(void);
void test_own_write_alone(void);
void test_own_write_joins(void);
void test_own_write_of_none(void);
void test_own_write_refused(void);
void test_own_write_full(void);
void test_show(void);
void test_nulls(void);

/* walk.c */
void test_walk_one_page(void);
void test_walk_two_pages(void);
void test_walk_list(void);
void test_walk_onward(void);
void test_walk_any_pages(void);
void test_walk_window_end(void);
void test_walk_outside(void);
void test_walk_multiples(void);
void test_walk_order(void);
void test_walk_refused(void);
void test_walk_room(void);
void test_walk_full(void);
void test_walk_again(void);
void test_walk_looked_at(void);
void test_walk_looked_at_most(void);
void test_walk_held(void);
void test_walk_own_entries(void);
void test_walk_keeps(void);
void test_walk_commands(void);

/* states.c */
void test_broken_words(void);
void test_words_at_their_limits(void);
void test_state_in_a_struct(void);
void test_states_side_by_side(void);

/* frames.c */
void test_frame_read(void);
void test_frame_read_refused(void);
void test_frame_write(void);
void test_frame_write_refused(void);
void test_journal(void);
void test_journal_own_write(void);
void test_journal_cut(void);
void test_journal_refused(void);
void test_journal_nulls(void);

/* map.c */
void test_map_fresh(void);
void test_map_open(void);
void test_map_begin(void);
void test_map_fetch(void);
void test_map_fetch_words(void);
void test_map_fetch_mixed(void);
void test_map_fetch_joins(void);
void test_map_fetch_refused(void);
void test_map_fetch_full(void);
void test_map_end(void);
void test_map_own_write(void);
void test_map_own_write_words(void);
void test_map_own_write_mixed(void);
void test_map_own_write_joins(void);
void test_map_own_write_refused(void);
void test_map_own_write_full(void);
void test_map_nulls(void);

/* maps.c */
void test_broken_maps(void);
void test_maps_at_their_limits(void);
void test_maps_side_by_side(void);
void test_map_as_a_command(void);

#endif
