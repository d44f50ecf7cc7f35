#!/usr/bin/env python3
"""bench_mutations: wrong versions of what the benches draw and of how they measure, each of which test_benches.py must see.

Each is a copy of a file of benches/ with one text exchanged, and the test that has to fail on it, and to pass on the file as it is.
"""
import folders

from wrong_versions import Version, try_all

TOWN, TURNS, BENCH, FEW, SCENES, MEASURE, TABLE = "town.py", "turns.py", "bench.py", "few_tiles.py", "scenes.py", "measure.py", "table.py"
COUNT = "count_instructions.py"
MUTATIONS = [   # name, file, text, what stands there instead, test
    ("town: by a chance of its own", TOWN, "random.Random(seed)", "random.Random()", "Towns.test_the_same_words_write_the_same_bytes"),
    ("town: a piece loses its last triangle", TOWN, "self.triangles[start : start + size]", "self.triangles[start : start + size - 1]", "Towns.test_pieces_draw_the_same"),
    ("town: a piece is drawn in another state", TOWN, 'self.state(self.current["raster"])', "self.state(CLOCKWISE)", "Towns.test_pieces_draw_the_same"),
    ("town: any state event in the middle", TOWN, "if self.current.get(kind) != event:", "if True:", "Towns.test_the_state_event_in_the_middle_sets_something"),
    ("town: depths that no capture has", TOWN, "min(int(depth * 65534), 65534)", "int(depth * 99999)", "Towns.test_it_is_a_capture"),
    ("captures: culled triangles that are drawn", FEW, "[(0, 0), (0, side), (side, 0)]", "[(0, 0), (side, 0), (0, side)]", "Captures"),
    ("captures: a mesh in order", SCENES, "    random.Random(1).shuffle(places)\n", "", "Captures.test_triangles_in_random_order_lie_apart"),
    ("turns: one after the other", TURNS, "    for _ in range(rounds):\n        for program, column in zip(programs, values):\n",
     "    for program, column in zip(programs, values):\n        for _ in range(rounds):\n", "Turns.test_programs_take_turns"),
    ("turns: the worst", TURNS, "[min(each) for each", "[max(each) for each", "Turns.test_programs_take_turns"),
    ("turns: upside down", TURNS, "return self.here / self.beside if", "return self.beside / self.here if", "Turns.test_both_programs_are_measured"),
    ("turns: one program twice", BENCH, "with Session(work.path, program=program)", "with Session(work.path)", "Turns.test_both_programs_are_measured"),
    ("turns: any answer", BENCH, "if session.first != work.answer:", "if False:", "Turns.test_an_answer_that_is_not_the_known_one_ends_it"),
    ("asked: more is less", BENCH, "else 1 / self.times", "else self.times", "Turns.test_what_is_asked"),
    ("counted: with what goes before", TURNS, "self.run(words, most) - self.run(words, least)", "self.run(words, most)", "Counting.test_what_goes_before_is_taken_off"),
    ("counted: what isn't counted", TURNS, "if ran.returncode or not found:", "if ran.returncode:", "Counting.test_where_it_is_not_there"),
    ("counted: half a square", COUNT, "(0, side), (side, 0), (side, side), (0, side)]", "(0, side)]",
     "CountedScenes.test_squares_cover_each_pixel_once_and_look_alike"),
    ("counted: a small draw without its second triangle", COUNT, "(1, 3), (5, 1), (5, 3), (1, 3)]", "(1, 3)]",
     "CountedScenes.test_a_small_draw_has_eight_pixels_and_a_step_goes_over_it"),
    ("counted: a small picture over all", COUNT, '"picture": picture(8, [', '"picture": picture(side, [', "CountedScenes.test_a_small_picture_lies_in_the_first_tile"),
    ("counted: a test that all pass", COUNT, '"NEVER")]', '"ALWAYS")]', "CountedScenes.test_states_let_draw_nothing"),
    ("counted: the same capture twice", COUNT, "scene.capture if scene.half is None else scene.half", "scene.capture", "CountedScenes.test_what_is_read_is_counted_beside_half_of_it"),
    ("counted: more than is said", COUNT, "[event] * (2 * count)", "[event] * (3 * count)", "CountedScenes.test_what_is_read_is_counted_beside_half_of_it"),
    ("counted: what is given back at the end", COUNT, "        if is_stopped:\n            run.terminate()\n", "", "CountedScenes.test_a_run_is_stopped_behind_its_last_reply"),
    ("counted: a way back that is counted twice", COUNT, '"goto 0\\n", "tile", tiles, f"goto {events}\\n"', '"goto 0\\n", "tile", tiles, ""',
     "CountedScenes.test_a_way_back_and_the_next_one_end_with_their_replies"),
    ("table: a row stands where another one stood", TABLE, "if row in measured else old", "if row in measured else []", "Tables.test_what_is_measured_first_goes_to_its_place"),
    ("table: half a row is written", TABLE, "if all(name in figures for name in row.names())]", "if any(name in figures for name in row.names())]",
     "Tables.test_half_a_row_is_not_written"),
    ("table: a list of anything", TABLE, "!= there or not set(missing) <= {row.work for row in rows}", "!= there", "Tables.test_a_page_of_other_rows"),
    ("measure: small sizes are written", MEASURE, "if words.write and SCALE != 1:", "if words.write and SCALE == 3:", "Measures"),
]


if __name__ == "__main__":
    try_all(__doc__, [Version(name, f"benches/{file}", old, new, "test_benches.py", test) for name, file, old, new, test in MUTATIONS])
