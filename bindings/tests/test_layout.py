"""The header, docs/FORMAT.md and the desk's package name each word, kind, task, outcome, note, validity and refusal as
the definitions have it. The Rust crate is held to the header by its own tests."""

import re
import unittest
from typing import Dict

import desk.answer
import desk.batch
import desk.blocks
import desk.book
import desk.distance
import desk.library
import desk.places
import desk.pool
import desk.preview
import desk.question
import desk.queue
import desk.readers
import desk.refusals
import desk.tasks
from definitions import body, cases, every, fields, first, listed, numbers_of, spent, stated
from pages import commented, enums, macros, page, span
from support import ANSWER_ROOM, BLOCK

WORDS = 64


def short(tag: str, prefix: str) -> Dict[str, int]:
    """An enumeration without the prefix of its names."""
    return {name[len(prefix) :]: value for name, value in enums()[tag].items()}


KIND = short("zektonk_kind", "ZEKTONK_KIND_")
MODELS = short("zektonk_model", "ZEKTONK_MODEL_")
ANY = short("zektonk_any_word", "ZEKTONK_WORD_")
BOOK = short("zektonk_book_word", "ZEKTONK_BOOK_WORD_")
SOLVENT = short("zektonk_solvent_word", "ZEKTONK_SOLVENT_WORD_")
PAIR = short("zektonk_pair_word", "ZEKTONK_PAIR_WORD_")
WILSON = short("zektonk_wilson_word", "ZEKTONK_WILSON_WORD_")
QUESTION = short("zektonk_question_word", "ZEKTONK_QUESTION_WORD_")
ANSWER = short("zektonk_answer_word", "ZEKTONK_ANSWER_WORD_")
TRIAL = short("zektonk_trial_word", "ZEKTONK_TRIAL_WORD_")
DISTANCE = short("zektonk_distance_word", "ZEKTONK_DISTANCE_WORD_")
FLOOR = short("zektonk_floor_word", "ZEKTONK_FLOOR_WORD_")
PLACE = short("zektonk_place_word", "ZEKTONK_PLACE_WORD_")
PLACE_KIND = short("zektonk_place_kind", "ZEKTONK_PLACE_")
FEED = short("zektonk_feed", "ZEKTONK_FEED_")
TASK = short("zektonk_task", "ZEKTONK_")
REFUSAL = short("zektonk_refusal", "ZEKTONK_")
# in the order of the definitions of these words, which call some of them otherwise
STATE = ["TEMPERATURE", "PRESSURE", "BUBBLE", "DEW", "ITERATIONS", "RESIDUAL", "BALANCE", "VAPOR_FRACTION"]
STATE += ["TRIALS", "NOTES"]
MODEL = ["REDUCED_GIBBS", "GIBBS", "ENTHALPY", "ENTROPY", "HEAT_CAPACITY", "VALIDITY", "INFERRED", "STABLE"]
MODEL += ["EVALUATIONS"]
CALLED = {"t": "TEMPERATURE", "p": "PRESSURE", "β": "VAPOR_FRACTION", "cp": "HEAT_CAPACITY"}
CALLED["reduced"] = "REDUCED_GIBBS"
MOST = int(macros()["ZEKTONK_SOLVENTS_MOST"])
TERMS = int(macros()["ZEKTONK_TERMS_MOST"])


class Definitions(unittest.TestCase):
    """The header against crates/*/specs: its numbers are looked for in the definitions."""

    def test_blocks(self):
        check = ANY["CHECK"]
        self.assertIn(f"row_to (λ k. bytes (w k)) {check} ++ bytes (", body("block_bytes"))
        self.assertRegex(body("check_right"), rf"^sum_by rule w == w {check}$")
        plain, running = f"sum_by Plain w = check_sum w {check}", f"sum_by Running w = running_sum w {check}"
        self.assertIn(f"{plain} {running}", stated("sum_by"))
        self.assertIn(f"length s % {macros()['ZEKTONK_BLOCK']}", body("book_of"))
        self.assertEqual(int(macros()["ZEKTONK_BLOCK"]), 8 * int(macros()["ZEKTONK_WORDS"]))
        self.assertEqual(ANY, {"KIND": 0, "CHECK": WORDS - 1})

    def test_sizes(self):
        self.assertRegex(first("answer_room", "sheet_of"), rf"\b{macros()['ZEKTONK_ANSWER_ROOM']}\b")
        self.assertIn(f"eqb (length q) {macros()['ZEKTONK_QUESTION']}", first("task_in", "question_of"))
        largest = 1 + MOST + MOST * (MOST - 1) // 2
        self.assertEqual(int(macros()["ZEKTONK_BOOK_LARGEST"]), BLOCK * largest)
        self.assertEqual(int(macros()["ZEKTONK_BOOK_MOST"]), BLOCK * (largest + 1))

    def test_book(self):
        n, version = BOOK["SOLVENTS"], BOOK["VERSION"]
        first, mass, last = (macros()[f"ZEKTONK_FORMAT_VERSION{name}"] for name in ("", "_MASS", "_RUNNING"))
        self.assertEqual((first, mass, last), ("1", "2", "3"))
        kind = f"w {ANY['KIND']} == {KIND['BOOK']}"
        known = f"nat_lt 0 (w {version}) && nat_le (w {version}) {last}"
        self.assertEqual(body("version_right"), f"not ({kind}) || ({known})")
        self.assertEqual(body("head_right"), f"{kind} && nat_lt 0 (w {n}) && nat_le (w {n}) {MOST}")
        self.assertEqual(body("has_masses"), f"nat_le {mass} version")
        nrtl, wilson = (f"w {BOOK['MODEL']} == {number}" for number in MODELS.values())
        self.assertEqual(body("model_right"), f"{nrtl} || ({wilson} && nat_le {mass} (w {version}))")
        self.assertEqual(body("model_in"), f"cond ({wilson}) Wilson Nrtl")
        self.assertEqual(body("rule_in"), f"cond ({kind} && w {version} == {last}) Running Plain")

    def test_solvents(self):
        counts = [SOLVENT["VAPOR_TERMS"], SOLVENT["DENSITY_TERMS"]]
        kind = f"w {ANY['KIND']} == {KIND['SOLVENT']} && w {SOLVENT['INDEX']} == i"
        counted = " && ".join(f"nat_lt 0 (w {count}) && nat_le (w {count}) {TERMS}" for count in counts)
        self.assertEqual(body("solvent_right"), f"{kind} && not (w {SOLVENT['CAS']} == 0) && {counted}")
        self.assertEqual(body("molar_mass"), f"float (w (i + 1)) {SOLVENT['MOLAR_MASS']}")
        records = [SOLVENT["VAPOR_T_R"], SOLVENT["DENSITY_T_R"]]
        self.assertEqual(body("records_right"), " && ".join(f"record_right w {start}" for start in records))
        for record in ("VAPOR", "DENSITY"):
            start = SOLVENT[f"{record}_T_R"]
            names = ("REDUCING", "LOW", "HIGH", "TERMS", "N", "EXPONENT")
            at = {name: SOLVENT[f"{record}_{name}"] - start for name in names}
            self.assertEqual(
                fields("ancillary_of"),
                {
                    "t_r": "float w f",
                    "reducing_value": f"float w (f + {at['REDUCING']})",
                    "low": f"float w (f + {at['LOW']})",
                    "high": f"float w (f + {at['HIGH']})",
                    "count": "term_count w f",
                    "n": f"vec (λ k. float w (f + {at['N']} + k)) {TERMS}",
                    "t": f"vec (λ k. float w (f + {at['EXPONENT']} + k)) {TERMS}",
                },
            )
            self.assertEqual(body("term_count"), f"places (w (f + {at['TERMS']}))")

    def test_pairs(self):
        kind = f"w {ANY['KIND']} == {KIND['PAIR']} && w {PAIR['I']} == i && w {PAIR['J']} == j"
        interval, inferred = PAIR["INTERVAL"], PAIR["INFERRED"]
        self.assertEqual(body("pair_right"), f"{kind} && nat_le (w {interval}) 1 && nat_le (w {inferred}) 1")
        there, back = (f"(pair_term m (w (pair_place n {pair})) {{}} k)" for pair in ("i j", "j i"))
        taken = f"cond (ltb i j) {there.format(PAIR['TAU_IJ'])} (cond (ltb j i) {back.format('(lower_from m)')} 0f)"
        self.assertEqual(body("parameter"), taken)
        self.assertEqual(cases("lower_from"), {"Nrtl": PAIR["TAU_JI"], "Wilson": WILSON["A_JI"]})
        self.assertEqual(PAIR["TAU_IJ"], WILSON["A_IJ"])
        nrtl = f"parameters_finite Nrtl w = floats_finite w {PAIR['TAU_IJ']} {PAIR['INTERVAL'] - PAIR['TAU_IJ']}"
        wilson = f"parameters_finite Wilson w = floats_finite w {WILSON['A_IJ']} {len(WILSON)}"
        self.assertIn(f"{nrtl} {wilson}", stated("parameters_finite"))
        a, b = PAIR["ALPHA_IJ"], PAIR["ALPHA_JI"]
        both = f"eq (float w {a}) (float w {b}) && eq (float w {a + 1}) (float w {b + 1})"
        self.assertIn(f"alphas_equal Nrtl w = {both} alphas_equal Wilson w = true", stated("alphas_equal"))
        bounds = f"low = float w {PAIR['LOW']}; high = float w {PAIR['HIGH']}"
        held = f"record {{ {bounds}; inferred = not (eqb (w {inferred}) 0) }}"
        self.assertEqual(body("regression_of"), f"cond (eqb (w {interval}) 0) None (Some ({held}))")

    def test_question(self):
        asked = first("task_in", "question_of")
        self.assertIn(f"eqb (word q {ANY['KIND']}) {KIND['QUESTION']}", asked)
        self.assertIn(f"is_task (word q {QUESTION['TASK']})", asked)
        question = fields("question_from")
        if "options" in question:
            question.update(fields("options_in"))
        called = {"LOW": "minimum_temperature_k", "HIGH": "maximum_temperature_k"}
        for name, word in QUESTION.items():
            if name not in ("FRACTIONS", "K_VALUES", "ENERGY_TOLERANCE", "FEED"):
                value = question.get(called.get(name), question.get(name.lower()))
                self.assertIn(value, (f"w {word}", f"float w {word}"), name)
        self.assertEqual(body("question::by_mass"), f"eqb (w {QUESTION['FEED']}) {FEED['MASS']}")
        self.assertIn(f"eqb (w {QUESTION['FEED']}) {FEED['MOLES']}", body("kind_right"))
        self.assertEqual(body("question::fraction"), f"float w ({QUESTION['FRACTIONS']} + i)")
        self.assertEqual(body("question::ratio"), f"float w ({QUESTION['K_VALUES']} + i)")
        for name in ("TOLERANCE", "ENERGY_TOLERANCE"):
            self.assertIn(f"tolerance_right (float w {QUESTION[name]})", body("options_right"))

    def test_answer(self):
        for name, words in (("state_words", STATE), ("model_words", MODEL)):
            self.assertEqual([CALLED.get(entry, entry.upper()) for entry in listed(name)], words)
            start = ANSWER[words[0]]
            self.assertEqual([ANSWER[word] for word in words], list(range(start, start + len(words))))
        rows = [
            rf"fill_from \(.*model\)* {ANSWER['REDUCED_GIBBS']} {len(MODEL)}",
            rf"\(fill_from \(λ i\. .*vapor.* {ANSWER['VAPOR']} {MOST}",
            rf"\(fill_from \(λ i\. .*liquid.* {ANSWER['LIQUID']} {MOST}",
            rf"\(fill_from \(.*state\)* {ANSWER['TEMPERATURE']} {len(STATE)}",
            rf"\({KIND['ANSWER']} ∷ task ∷ 0 ∷ (?:b\.)?outcome ∷ replicate 60 0\)\)\)\)",
        ]
        self.assertRegex(body("answer_words"), f"^{' '.join(rows)}$")
        self.assertEqual([ANSWER[word] for word in ("TASK", "REFUSAL", "OUTCOME")], [1, 2, 3])
        # in the places of liquid and vapor
        self.assertRegex(first("excess_block", "excessAnswer"), r"e\.ln_gamma(?:; vapor =)? e\.slopes\b")
        self.assertEqual((ANSWER["LN_GAMMA"], ANSWER["SLOPES"]), (ANSWER["LIQUID"], ANSWER["VAPOR"]))

    def test_trial(self):
        self.assertEqual(
            body("trial_words"),
            f"fill_from (λ i. bits_of (at t.composition i)) {TRIAL['FRACTIONS']} {MOST}"
            f" ({KIND['TRIAL']} ∷ t.component ∷ bits_of t.distance ∷ t.iterations ∷ bit t.trivial"
            " ∷ replicate 59 0)",
        )
        self.assertEqual([TRIAL[word] for word in ("COMPONENT", "DISTANCE", "ITERATIONS", "TRIVIAL")], [1, 2, 3, 4])

    def test_readers(self):
        """Words 1 to 5, 11 and 14 to 29, of task 1 the first five; 1, then 10."""
        places, first = [*range(1, 6), ANSWER["VAPOR_FRACTION"], *range(ANSWER["LIQUID"], ANSWER["VAPOR"] + MOST)], 5
        count, trials = (macros()[f"ZEKTONK_{name}"] for name in ("FLOOR_WORDS", "TRIALS_MOST"))
        names = ("TASK", "REFUSAL", "OUTCOME", "TEMPERATURE", "PRESSURE", "VAPOR_FRACTION", "LIQUID", "VAPOR")
        self.assertEqual(FLOOR, {name: places.index(ANSWER[name]) for name in names})
        self.assertEqual(int(count), len(places))
        rest = f"cond (eqb i {first}) {places[first]} ({places[-1] - len(places) + 1} + i)"
        self.assertEqual(body("floor_place"), f"cond (ltb i {first}) (1 + i) ({rest})")
        self.assertEqual(body("shown_of"), f"cond (eqb task {TASK['EXCESS_AT']}) {first} {count}")
        shown = f"fill (λ i. word s (floor_place i)) (shown_of (word s {ANSWER['TASK']})) (replicate {count} 0)"
        self.assertEqual(body("floor_words"), shown)
        number, at = REFUSAL["BOOK_LENGTH"], ANSWER["TRIALS"]
        tests = (
            f"eqb (word s {ANY['KIND']}) {KIND['ANSWER']}",
            f"leb (word s {at}) {trials}",
            f"leb (part_length (word s {at})) (length s)",
            f"trials_right s (word s {at})",
        )
        asked = " (".join(f"need ({test}) {number}" for test in tests)
        self.assertTrue(body("part_of").startswith(f"{asked} (ok (part_length (word s {at}))"), body("part_of"))
        self.assertEqual(body("part_length"), f"{BLOCK} * (1 + n)")
        kind = f"eqb (word (block s (1 + k)) {ANY['KIND']}) {KIND['TRIAL']}"
        self.assertEqual(body("trials_right"), f"all_to (λ k. {kind}) n")
        room = f"need (leb {count} room) {REFUSAL['ANSWER_SHORT']} (ok ws)"
        self.assertEqual(body("floor_to"), f"bind (floor_of s) (λ ws. {room})")

    def test_places(self):
        """A kind, then the block or the two solvents; which numbers can have which."""
        words = re.findall(r"place_words \(?(\w+)[^=]*? = (\d) ∷ (\w) ∷ (\w) ∷ \[\]", stated("place_words"))
        cases = {name.upper(): number for name, number in PLACE_KIND.items()}
        self.assertEqual({name.upper(): int(kind) for name, kind, _, _ in words}, cases)
        self.assertEqual({name: rest for name, _, *rest in words}["Pair"], ["i", "j"])
        self.assertEqual((PLACE["KIND"], PLACE["BLOCK"], PLACE["I"], PLACE["J"]), (0, 1, 1, 2))
        self.assertIn(f"nat_le {macros()['ZEKTONK_PLACE_WORDS']} (length old)", body("place_written"))
        names = ("BOOK_CHECK", "SOLVENT_BLOCK", "SOLVENT_NUMBER", "PAIR_BLOCK", "PAIR_NUMBER", "PAIR_ALPHAS")
        self.assertEqual(body("put_to_blocks"), " || ".join(f"(r == {REFUSAL[name]})" for name in names))
        names = ("BOOK_LENGTH", "BOOK_CHECK", "PAIR_BLOCK", "PAIR_NUMBER", "PAIR_ALPHAS")
        self.assertEqual(body("put_to_offered"), " || ".join(f"(r == {REFUSAL[name]})" for name in names))
        self.assertIn(f"can_have r (Pair i j) = r == {REFUSAL['SOLVENT_TWICE']}", stated("can_have"))

    def test_sentences(self):
        """1, then 10 below 160 bytes."""
        first, last, room = REFUSAL["BOOK_LENGTH"], max(REFUSAL.values()), macros()["ZEKTONK_SENTENCE_ROOM"]
        self.assertEqual(body("sentence_room"), room)
        asked = f"need (nat_le {first} r && nat_le r {last}) {REFUSAL['BOOK_LENGTH']}"
        asked += f" (need (nat_le sentence_room room) {REFUSAL['ANSWER_SHORT']} "
        self.assertTrue(body("sentence_to").startswith(asked), body("sentence_to"))

    def test_tasks(self):
        """`task1` to `task9` are chosen by their numbers; each has the solver that the header's name says."""
        chosen = [pair for text in every() for pair in re.findall(r"\(eqb q\.task (\d+)\) \(?task(\d+)", text)]
        self.assertGreaterEqual(len(chosen), 7)
        self.assertEqual([number for number, _ in chosen], [number for _, number in chosen])
        self.assertEqual(set(TASK), set(SOLVERS))
        self.assertEqual(sorted(TASK.values()), list(range(1, 10)))
        for name, number in TASK.items():
            self.assertRegex(body(f"task{number}"), rf"\({SOLVERS[name]} ", name)
        self.assertIn("(flash_counted ", body("task7_counted"))

    def test_numbers_of_enums(self):
        outcome, validity = short("zektonk_outcome", "ZEKTONK_"), short("zektonk_validity", "ZEKTONK_")
        phases = {"Liquid": outcome["LIQUID"], "Vapor": outcome["VAPOR"], "Both": outcome["LIQUID_AND_VAPOR"]}
        self.assertEqual(cases("phase_number"), phases)
        number = r"\brice\w+ \(?(\w+)[^=]*? = (?:record \{ outcome = |plain_block )?(\d)"
        split = re.findall(number, first("rice_block", "riceNumber"))
        names = {"LiquidOnly": "LIQUID", "VaporOnly": "VAPOR", "TwoPhase": "LIQUID_AND_VAPOR"}
        self.assertEqual(dict(split), {case: str(outcome[name]) for case, name in names.items()})
        names = {"Unassessed": "UNASSESSED", "WithinDeclaredDomain": "WITHIN", "Extrapolated": "EXTRAPOLATED"}
        self.assertEqual(cases("status_number"), {case: validity[name] for case, name in names.items()})
        notes = short("zektonk_note", "ZEKTONK_NOTE_")
        self.assertEqual(summed("gamma_phi"), notes["GAMMA_PHI"])
        self.assertEqual(summed("at_boundary"), notes["GAMMA_PHI"] | notes["SPLIT_AT_SATURATION_BOUNDARY"])
        self.assertEqual(summed("finite_trials"), notes["GAMMA_PHI"] | notes["LIQUID_TPD_FINITE_TRIALS"])

    def test_refusals(self):
        for name, question in QUESTIONS.items():
            self.assertEqual(numbers_of(question), {REFUSAL[name]}, name)
        self.assertEqual({number for _, number in spent()}, {REFUSAL["NOT_CONVERGED"]})
        self.assertEqual(set(REFUSAL) - set(QUESTIONS), {"ANSWERED", "NOT_CONVERGED"})
        self.assertEqual(sorted(REFUSAL.values()), list(range(40)))
        self.assertIn(f"number_of (ok bs) = {REFUSAL['ANSWERED']}", stated("sheet::number_of"))

    def test_drums(self):
        """64 bytes of eight counts; 31, 32 and 36 in this order, ahead of what the feed is asked."""
        size, most, total = (macros()[f"ZEKTONK_{name}"] for name in ("DRUM_BYTES", "DRUMS_MOST", "POOL_MOST"))
        self.assertEqual((int(size), int(total)), (8 * MOST, 2**53))
        self.assertEqual(body("drum_count"), f"length drums / {size}")
        self.assertEqual(body("count_in"), f"word drums ({MOST} * d + i)")
        self.assertEqual(body("drums_right"), f"eqb (length drums % {size}) 0 && within 1 {most} (drum_count drums)")
        self.assertEqual(body("total_right"), "within 1 (2 ^ 53) (pool_total drums n)")
        moles = f"eqb (word question {QUESTION['FEED']}) {FEED['MOLES']}"
        tests = {"DRUMS_LENGTH": "drums_right drums", "DRUMS_TOTAL": "total_right drums n", "FEED_KIND": moles}
        asked = " (".join(f"need ({test}) {REFUSAL[name]}" for name, test in tests.items())
        self.assertTrue(body("drums_to").startswith(f"{asked} (bind (pool_feed drums n)"), body("drums_to"))
        self.assertRegex(body("pooled_from"), r"^roomy room \(bind \(task_in .*\) \(λ task\. drums_to ")

    def test_feeds(self):
        """64 bytes of eight floats; 33 and 10 behind the book, then feed by feed 11, 12 for the tasks at a temperature
        alone, and 36."""
        size, most = (macros()[f"ZEKTONK_{name}"] for name in ("FEED_BYTES", "FEEDS_MOST"))
        self.assertEqual(int(size), 8 * MOST)
        self.assertEqual(body("feed_count"), f"length feeds / {size}")
        self.assertEqual(body("feeds_right"), f"eqb (length feeds % {size}) 0 && within 1 {most} (feed_count feeds)")
        self.assertEqual(body("feed_at"), f"vec (λ i. float (word feeds) ({MOST} * k + i)) n")
        short, many = REFUSAL["ANSWER_SHORT"], REFUSAL["FEEDS_LENGTH"]
        room = f"need (leb (answer_room * feed_count feeds) (length old)) {short}"
        self.assertIn(f"bind (book_of book) (λ h. need (feeds_right feeds) {many} ({room} (ok ", body("feeds_of"))
        kind = f"need (kind_right version (word question)) {REFUSAL['FEED_KIND']}"
        asked = f"need (needs_temperature task) {REFUSAL['TASK']} ({kind} "
        self.assertIn(f"bind (task_in (rule_of book) question) (λ task. {asked}", body("task_among"))
        self.assertIn("put l (answer_room * j) (feed_reply ", body("batch::parts_to"))
        self.assertEqual(body("needs_temperature"), "within 1 3 k || within 6 7 k")

    def test_queue(self):
        """Whole questions, all of task 7 where 11 passes; 39 and 10 behind the book; what is asked for; the block of
        one put off."""
        size, most = (macros()[f"ZEKTONK_{name}"] for name in ("QUESTION", "QUEUE_MOST"))
        self.assertEqual(body("question_count"), f"length questions / {size}")
        whole = f"eqb (length questions % {size}) 0 && within 1 {most} (question_count questions)"
        self.assertTrue(body("questions_right").startswith(f"{whole} && all_to (λ k. is_flash (task_in rule "))
        flash, block = TASK["TP_FLASH"], REFUSAL["QUESTION_BLOCK"]
        self.assertIn(f"is_flash (ok task) = eqb task {flash} is_flash (no r) = eqb r {block}", stated("is_flash"))
        short_room, many = REFUSAL["ANSWER_SHORT"], REFUSAL["QUEUE_QUESTIONS"]
        room = f"need (leb (answer_room * question_count questions) (length old)) {short_room}"
        asked = f"bind (book_of book) (λ h. need (questions_right (rule_of book) questions) {many} ({room} (ok "
        self.assertTrue(body("queue_of").startswith(asked), body("queue_of"))
        self.assertIn("put l (answer_room * j) (queue_reply ", body("queue::parts_to"))
        self.assertEqual(body("most_evaluations"), "(present_count z n + 2) * o.max_iterations + 4")
        put_off = short("zektonk_outcome", "ZEKTONK_")["PUT_OFF"]
        self.assertEqual(body("replies::put_off"), str(put_off))
        self.assertEqual(body("put_off_words"), f"{KIND['ANSWER']} ∷ {flash} ∷ 0 ∷ put_off ∷ replicate 60 0")
        self.assertEqual(desk.queue.put_off(desk.blocks.Rule.PLAIN).head[:4], [KIND["ANSWER"], flash, 0, put_off])

    def test_distance(self):
        """Steps of 100 Pa up and down in turn; 12 for all tasks but the flash; the four words of the result."""
        names = ("STEP_PASCALS", "STEPS_MOST", "DISTANCE_WORDS")
        pascals, most, words = (macros()[f"ZEKTONK_{name}"] for name in names)
        self.assertEqual(body("step_count"), str(2 * int(most)))
        self.assertEqual(body("hundreds"), f"of_int binary64 (pos ({pascals} * m))")
        up, size = "eqb (j % 2) 0", "(hundreds (step_size j))"
        self.assertEqual(body("step_size"), "j / 2 + 1")
        self.assertEqual(body("pressure_at"), f"P ⊕ cond ({up}) {size} (neg {size})")
        self.assertEqual(body("step_word"), f"cond ({up}) (step_size j) (2 ^ 64 - step_size j)")
        self.assertIn(f"need (eqb task {TASK['TP_FLASH']}) {REFUSAL['TASK']} (question_to ", body("flash_question"))
        order = sorted(DISTANCE, key=DISTANCE.get)
        self.assertEqual(order, ["FOUND", "STEPS", "OUTCOME", "REFUSED"])
        self.assertEqual((list(DISTANCE.values()), int(words)), (list(range(4)), len(DISTANCE)))
        found, none = "1 ∷ s ∷ o ∷ refused ∷ []", "0 ∷ 0 ∷ 0 ∷ refused ∷ []"
        four = f"four_words (Step s o refused) = {found} four_words (None refused) = {none}"
        self.assertIn(four, stated("distance::four_words"))
        written = "(ok d) old = four_in (four_words d) old distance_written (no r) old = old"
        self.assertIn(written, stated("distance_written"))
        self.assertEqual(body("four_in"), f"cond (leb {words} (length old)) (ws ++ drop {words} old) old")

    def test_offered(self):
        """Behind the book: 1, 2, 7, 8 and 9 of one block, a pair of any i < j below n; then as on the copy."""
        numbers = [REFUSAL[name] for name in ("BOOK_LENGTH", "BOOK_CHECK", "PAIR_BLOCK", "PAIR_NUMBER", "PAIR_ALPHAS")]
        tests = (
            f"length offered == {macros()['ZEKTONK_BLOCK']}",
            "check_right rule (word offered)",
            "offered_right h.n (word offered)",
            "pair_finite h.model (word offered)",
            "alphas_equal h.model (word offered)",
        )
        asked = " (".join(f"need ({test}) {number}" for test, number in zip(tests, numbers))
        self.assertTrue(body("offered_of").startswith(f"{asked} (ok h)"), body("offered_of"))
        i, j = PAIR["I"], PAIR["J"]
        places = f"nat_lt (w {i}) (w {j}) && nat_lt (w {j}) n && pair_right w (w {i}) (w {j})"
        self.assertEqual(body("offered_right"), places)
        first = "bind (book_of book) (λ h. bind (offered_of (rule_of book) h offered)"
        self.assertTrue(body("preview_of").startswith(first), body("preview_of"))
        self.assertEqual((desk.preview.I, desk.preview.J), (i, j))
        found = [getattr(desk.preview, name) for name in ("LENGTH", "CHECK", "PLACES", "NUMBERS", "ALPHAS")]
        self.assertEqual((found, desk.preview.QUESTION), (numbers, REFUSAL["QUESTION_BLOCK"]))
        self.assertEqual(list(desk.refusals.OFFERED), numbers)


def summed(name: str) -> int:
    """A number, or a sum of numbers."""
    return sum(map(int, body(name).split(" + ")))


SOLVERS = {
    "EXCESS_AT": r"(?:excess_of|m\.excess)",
    "BUBBLE_PRESSURE": "bubble_pressure",
    "DEW_PRESSURE": "dew_pressure_point",
    "BUBBLE_TEMPERATURE": "bubble_temperature",
    "DEW_TEMPERATURE": "dew_temperature",
    "LIQUID_STABILITY": "stability_of",
    "TP_FLASH": "task7_counted",
    "RACHFORD_RICE": "constrained",
    "RACHFORD_RICE_NEGATIVE": "negative",
}

# of each refusal a text that stands in the test behind it, and in no other
QUESTIONS = {
    "BOOK_LENGTH": r"nat_lt 0 \(length s\)",
    "BOOK_CHECK": r"check_right (?:\(rule_of s\) )?\(words s k\)",
    "BOOK_HEAD": r"head_right",
    "SOLVENT_BLOCK": r"solvent_right",
    "SOLVENT_NUMBER": r"records_right",
    "SOLVENT_TWICE": r"cas_new",
    "PAIR_BLOCK": r"row_right",
    "PAIR_NUMBER": r"pair_finite",
    "PAIR_ALPHAS": r"alphas_equal",
    "ANSWER_SHORT": r"leb \w+ room",
    "QUESTION_BLOCK": r"check_right (?:rule )?\(word q\)",
    "TASK": r"is_task",
    "TEMPERATURE": r"temperature_right",
    "PRESSURE": r"(?:needs_pressure|pressure_right)",
    "NOT_FINITE": r"(?:is_finite \(fraction|inputs_finite)",
    "FRACTION_NEGATIVE": r"(?:lt \(fraction w i\) 0f|none_negative \(at x\))",
    "K_NOT_POSITIVE": r"(?:lt 0f \(ratio w i\)|ratios_positive)",
    "FRACTION_SUM": r"sums_to_one",
    "OPTIONS": r"options_right",
    "LIMIT_ZERO": r"(?:eqb \(w 12\) 0|limits_some)",
    "LIMIT_HIGH": r"(?:limited \(w 14\)|limits_few)",
    "TEMPERATURE_OUTSIDE": r"temperature_in_domain",
    "PRESSURE_OUTSIDE": r"pressure_in_domain",
    "ALPHA_NOT_POSITIVE": r"alphas_right",
    "RESULT_NOT_FINITE": r"is_finite e\.reduced",
    "NOT_BRACKETED": r"lt 0f a\.value",
    "K_ONE_SIDED": r"le k_max 1f",
    "LIQUID_UNSTABLE": r"s\.stable",
    "VAPOR_FRACTION_OUTSIDE": r"inside s\.vapor_fraction",
    "DRUMS_LENGTH": r"drums_right",
    "DRUMS_TOTAL": r"total_right",
    "FEEDS_LENGTH": r"feeds_right",
    "NOT_NORMALIZABLE": r"(?:lt 0f|positive) \(sum_to x n\)",
    "MOLAR_MASS": r"masses_right",
    "FEED_KIND": r"kind_right",
    "BOOK_MODEL": r"model_right",
    "BOOK_VERSION": r"version_right",
    "QUEUE_QUESTIONS": r"questions_right",
}


class Page(unittest.TestCase):
    """docs/FORMAT.md against the header."""

    def test_every_name_of_the_header(self):
        named = {name: value for places in enums().values() for name, value in places.items()}
        stated = page()
        defaults = {name: value for name, value in macros().items() if name.startswith("ZEKTONK_DEFAULT_")}
        self.assertEqual(set(stated), set(named) | set(defaults))
        for name, value in named.items():
            self.assertEqual(span(stated[name])[0], value, name)
        for name, value in defaults.items():
            self.assertEqual(float(stated[name]), float(value), name)

    def test_words_stand_in_a_row(self):
        """Each block's words begin where those before them end; only the two names of task 1 stand twice."""
        lasts = {"BOOK": 3, "SOLVENT": 45, "PAIR": 18, "QUESTION": 27, "ANSWER": 38, "TRIAL": 12}
        for block, last in lasts.items():
            names = [name for name in page() if name.startswith(f"ZEKTONK_{block}_WORD_")]
            names = [name for name in names if not name.endswith(("_LN_GAMMA", "_SLOPES"))]
            words = [word for name in names for word in span(page()[name])]
            self.assertEqual(words, list(range(1, last + 1)), block)
        words = [word for name in page() if name.startswith("ZEKTONK_FLOOR_WORD_") for word in span(page()[name])]
        self.assertEqual(words, list(range(int(macros()["ZEKTONK_FLOOR_WORDS"]))))
        self.assertEqual(list(WILSON.values()), list(range(PAIR["TAU_IJ"], PAIR["TAU_JI"])))
        words = [span(page()[f"ZEKTONK_PLACE_WORD_{name}"])[0] for name in PLACE]
        self.assertEqual(sorted(set(words)), list(range(int(macros()["ZEKTONK_PLACE_WORDS"]))))
        words = [word for name in page() if name.startswith("ZEKTONK_DISTANCE_WORD_") for word in span(page()[name])]
        self.assertEqual(words, list(range(int(macros()["ZEKTONK_DISTANCE_WORDS"]))))


class Phrases(unittest.TestCase):
    """What the header says beside each refusal."""

    def test_the_header_has_the_definitions_word_for_word(self):
        matters = re.findall(r'codes "(.*?)"', body("matters"))
        self.assertEqual(len(matters), max(REFUSAL.values()))
        self.assertEqual(commented("zektonk_refusal"), dict(enumerate(matters, 1)))

    @unittest.skipUnless(desk.library.offers("zektonk_sentence"), "the library has no zektonk_sentence")
    def test_the_header_has_what_the_core_says(self):
        said = {number: f"{number}: {matter}." for number, matter in commented("zektonk_refusal").items()}
        self.assertEqual(said, {number: desk.library.sentence(number) for number in said})


class Desk(unittest.TestCase):
    """The package desk/ against the header."""

    def test_blocks(self):
        self.assertEqual((desk.blocks.BLOCK, desk.blocks.WORDS, desk.blocks.CHECK), (BLOCK, WORDS, ANY["CHECK"]))
        self.assertEqual(desk.library.ANSWER_ROOM, ANSWER_ROOM)
        self.assertEqual(desk.library.BOOK_MOST, int(macros()["ZEKTONK_BOOK_MOST"]))
        kinds = {"BOOK": desk.book.KIND_HEAD, "SOLVENT": desk.book.KIND_SOLVENT, "PAIR": desk.book.KIND_PAIR}
        kinds["QUESTION"] = desk.question.KIND
        kinds.update({"ANSWER": desk.answer.KIND_ANSWER, "TRIAL": desk.answer.KIND_TRIAL})
        self.assertEqual(kinds, KIND)

    def test_book(self):
        book = desk.book
        self.assertEqual((book.MOST_SOLVENTS, book.MOST_TERMS), (MOST, TERMS))
        self.assertEqual(str(book.VERSION), macros()["ZEKTONK_FORMAT_VERSION"])
        self.assertEqual(str(book.MASS_VERSION), macros()["ZEKTONK_FORMAT_VERSION_MASS"])
        self.assertEqual(str(book.RUNNING_VERSION), macros()["ZEKTONK_FORMAT_VERSION_RUNNING"])
        self.assertEqual(desk.blocks._RUNNING_HEAD, [KIND["BOOK"], book.RUNNING_VERSION])
        self.assertEqual(book.MOLAR_MASS, SOLVENT["MOLAR_MASS"])
        for first, record in ((book.VAPOR_PRESSURE, "VAPOR"), (book.DENSITY, "DENSITY")):
            places = [first, first + book.COUNT, first + book.COEFFICIENTS, first + book.EXPONENTS]
            self.assertEqual(places, [SOLVENT[f"{record}_{name}"] for name in ("T_R", "TERMS", "N", "EXPONENT")])
        for name in ("TAU_IJ", "TAU_JI", "ALPHA_IJ", "ALPHA_JI", "INTERVAL", "LOW", "INFERRED"):
            there = {"INTERVAL": "FLAG", "LOW": "BOUNDS"}.get(name, name)
            self.assertEqual(getattr(book, there), PAIR[name], name)
        for name, word in WILSON.items():
            self.assertEqual(getattr(book, name), word, name)
        self.assertEqual(book.MODEL, BOOK["MODEL"])
        self.assertEqual({model.name: model.value for model in book.Model}, MODELS)

    def test_question(self):
        for name, word in QUESTION.items():
            there = getattr(desk.question, {"LOW": "BRACKET", "HIGH": "BRACKET"}.get(name, name))
            self.assertEqual(there + (name == "HIGH"), word, name)
        self.assertEqual({"MOLES": desk.question.MOLES, "MASS": desk.question.MASS}, FEED)
        options = desk.question.Options()
        values = {"LOW": options.bracket[0], "HIGH": options.bracket[1]}
        for name, value in macros().items():
            if name.startswith("ZEKTONK_DEFAULT_"):
                option = name[len("ZEKTONK_DEFAULT_") :]
                self.assertEqual(values.get(option, getattr(options, option.lower(), None)), float(value), name)

    def test_answer(self):
        there = desk.answer
        called = {"TEMPERATURE": "T", "PRESSURE": "P", "LN_GAMMA": "LIQUID", "SLOPES": "VAPOR"}
        called["REDUCED_GIBBS"] = "ENERGIES"
        for name, word in ANSWER.items():
            if name not in ("GIBBS", "ENTHALPY", "ENTROPY", "HEAT_CAPACITY"):  # behind ENERGIES in a row
                self.assertEqual(getattr(there, called.get(name, name)), word, name)
        for name, word in TRIAL.items():
            self.assertEqual(getattr(there, f"TRIAL_{name}"), word, name)
        outcome = short("zektonk_outcome", "ZEKTONK_")
        self.assertEqual((there.LIQUID_ONLY, there.VAPOR_ONLY, there.BOTH, there.PUT_OFF), tuple(outcome.values()))
        self.assertEqual(set(there.VALIDITIES), set(short("zektonk_validity", "ZEKTONK_").values()))
        for bit, (name, _) in enumerate(there.NOTE_WORDS):
            notes = short("zektonk_note", "ZEKTONK_NOTE_")
            self.assertEqual(notes[name[len("A7-") :].replace("-", "_")], 1 << bit)

    def test_floor(self):
        called = {"TEMPERATURE": "T", "PRESSURE": "P"}
        self.assertEqual({name: getattr(desk.readers, called.get(name, name)) for name in FLOOR}, FLOOR)
        found = (desk.readers.FLOOR_WORDS, desk.readers.MOST_TRIALS)
        self.assertEqual(found, tuple(int(macros()[f"ZEKTONK_{n}"]) for n in ("FLOOR_WORDS", "TRIALS_MOST")))
        numbers = (desk.readers.NO_ANSWER, desk.readers.NO_ROOM)
        self.assertEqual(numbers, (REFUSAL["BOOK_LENGTH"], REFUSAL["ANSWER_SHORT"]))

    def test_places(self):
        there = desk.places
        self.assertEqual((there.KIND, there.BLOCK, there.I, there.J), tuple(PLACE.values()))
        kinds = (there.NO_PLACE, there.A_BLOCK, there.A_PAIR, there.AN_OFFERED_BLOCK)
        self.assertEqual(kinds, tuple(PLACE_KIND.values()))
        found = (there.WORDS, desk.library.SENTENCE_ROOM)
        self.assertEqual(found, tuple(int(macros()[f"ZEKTONK_{n}"]) for n in ("PLACE_WORDS", "SENTENCE_ROOM")))

    def test_drums(self):
        found = (desk.pool.DRUM_BYTES, desk.pool.MOST_DRUMS, desk.pool.MOST_TOTAL)
        self.assertEqual(found, tuple(int(macros()[f"ZEKTONK_{n}"]) for n in ("DRUM_BYTES", "DRUMS_MOST", "POOL_MOST")))
        numbers = (desk.pool.DRUMS, desk.pool.TOTAL, desk.pool.NOT_MOLES)
        self.assertEqual(numbers, tuple(REFUSAL[name] for name in ("DRUMS_LENGTH", "DRUMS_TOTAL", "FEED_KIND")))

    def test_feeds(self):
        found = (desk.batch.FEED_BYTES, desk.batch.MOST_FEEDS, desk.batch.PART)
        names = ("FEED_BYTES", "FEEDS_MOST", "ANSWER_ROOM")
        self.assertEqual(found, tuple(int(macros()[f"ZEKTONK_{name}"]) for name in names))
        self.assertEqual((desk.batch.FEEDS, desk.batch.TASK), (REFUSAL["FEEDS_LENGTH"], REFUSAL["TASK"]))
        self.assertEqual([task.number for task in desk.batch.TASKS], [1, 2, 3, 6, 7])

    def test_queue(self):
        self.assertEqual(desk.queue.MOST_QUESTIONS, int(macros()["ZEKTONK_QUEUE_MOST"]))
        self.assertEqual(desk.queue.QUEUE, REFUSAL["QUEUE_QUESTIONS"])
        names = ("NOT_FINITE", "FRACTION_SUM", "NOT_NORMALIZABLE", "ALPHA_NOT_POSITIVE")
        numbers = desk.queue.NOT_FINITE, desk.queue.SUM, desk.queue.NORMALIZED, desk.queue.ALPHA
        self.assertEqual(numbers, tuple(REFUSAL[name] for name in names))

    def test_distance(self):
        there = desk.distance
        self.assertEqual([there.FOUND, there.STEPS, there.CHANGED, there.REFUSED], list(DISTANCE.values()))
        found = [int(macros()[f"ZEKTONK_{name}"]) for name in ("DISTANCE_WORDS", "STEP_PASCALS", "STEPS_MOST")]
        self.assertEqual([there.WORDS, there.STEP, there.MOST_STEPS], found)
        self.assertEqual((there.ORDER[:4], there.ORDER[-2:], len(there.ORDER)), ((1, -1, 2, -2), (1000, -1000), 2000))

    def test_tasks_and_refusals(self):
        functions = {task.function.replace("activity_", "").upper(): task.number for task in desk.tasks.TASKS}
        self.assertEqual(functions, TASK)
        self.assertEqual(set(desk.refusals.REFUSALS), set(REFUSAL.values()) - {REFUSAL["ANSWERED"]})


if __name__ == "__main__":
    unittest.main()
