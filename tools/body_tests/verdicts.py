"""How a check's lines are judged, and who is tried again without its written answers."""
import unittest

from body_edits import Body
from body_places import Place
from body_tests.source import body
from body_verdicts import judge, part_told, try_all, verdicts_of


class Verdicts(unittest.TestCase):
    def judged(self, said, is_alone=True):
        return judge(body("a", "f"), verdicts_of(said), is_alone)

    def test_a_goal_of_its_own(self):
        self.assertTrue(self.judged("fn k::m::f: no proof: `search` did not prove `returns`; it calls `k::m::g`, which is not proved\n")[0])
        self.assertTrue(self.judged("./proofs/m/f/Answers.antt:3:5: error: `returns`: `search`: no proof of `x` was found\nfn k::m::f: not proved\n")[0])
        self.assertTrue(self.judged("./proofs/m/f/Invariants.antt:3:5: error: `at`: the two types differ\nfn k::m::f: not proved\n")[0])

    def test_a_body_that_is_proved(self):
        self.assertEqual(self.judged("fn k::m::f: proved\n"), (False, "NOT REFUSED: it is proved", {}))

    def test_a_body_that_no_line_names(self):
        self.assertFalse(self.judged("fn k::m::g: not proved\n")[0])

    def test_an_answer_that_names_what_is_gone(self):
        said = "proofs/m/f/Invariants.antt:3:5: error: `at`: record `R`\n  has no field `push`\nfn k::m::f: not proved\n"
        self.assertIs(self.judged(said)[0], False)

    def test_an_answer_that_does_not_fit(self):
        line = "./proofs/m/f/Answers.antt:{}: error: {}\n"
        for reason in ("`returns`: the two types differ", "`returns`: record `R`\n  has no field `push`", "`returns`: a part's `search`: no proof"):
            said = line.format("3:5", reason) + "fn k::m::f: not proved\n"
            self.assertEqual(self.judged(said)[::2], (None, {"m/f": {("Answers.antt", "returns", True)}}))
        said = line.format("3:5", "`returns`: `goal.returns`: module `Goals` has no `returns` that") + "fn k::m::f: not proved\n"
        self.assertEqual(self.judged(said)[2], {"m/f": {("Answers.antt", "returns", False)}})
        said = line.format("1:5", "module `Goals` has no `then`") + "fn k::m::f: not proved\n"
        self.assertEqual(self.judged(said)[2], {"m/f": {("Answers.antt", "", True)}})

    def test_answers_that_are_not_read_say_nothing(self):
        reason = "rattle does not read `Answers.antt` of `k::m::f`, since the borrow checker does not cover it yet (a call of `k::m::g`)"
        said = f"./proofs/m/f/Answers.antt: error: {reason}\nfn k::m::f: no proof: the borrow checker does not cover this function yet\n"
        self.assertEqual(self.judged(said, False)[::2], (False, {}))

    def test_a_search_may_be_a_part_of_an_answer(self):
        answers = ["pub a : goal.a\na c = search rules", "pub b : goal.b\nb c =\n    let h = search rules in\n    search rules", "pub d : goal.d\nd c = f (search rules)"]
        text, said = "\n\n".join(answers), "./proofs/m/f/Answers.antt:{}: error: `x`: `search`: no proof"
        told = [part_told(said.format(at), lambda _: text).partition("`x`: ")[2] for at in ("2:7", "6:13", "7:5", "10:10")]
        self.assertEqual([it.startswith("a part's") for it in told], [False, True, False, True])

    def test_a_function_that_waits_for_another(self):
        said = "fn k::m::f: no proof: it calls `k::m::g`, which is not proved\n"
        self.assertIsNone(self.judged(said, False)[0])
        self.assertFalse(self.judged(said, True)[0])


class Tries(unittest.TestCase):
    def test_who_waits_is_tried_again(self):
        def check(bodies):
            lines = {"f": "fn k::m::f: no proof: `search` did not prove `returns`", "g": "fn k::m::g: no proof: `search` did not prove `returns`"}
            if len(bodies) == 2:
                lines["f"] = "fn k::m::f: no proof: it calls `k::m::g`, which is not proved"
            return "\n".join([*lines.values(), "logic=not-proved"])

        told = [(it.label, is_refused) for it, is_refused, _ in try_all([body("a", "f"), body("b", "g", 3)], check, check)]
        self.assertEqual(told, [("b", True), ("a", True)])

    def test_who_is_not_refused_beside_the_unproved_is_tried_beside_the_proved(self):
        beside = {"unproved": "fn k::m::f: no proof: it calls `k::m::g`, which is not proved", "proved": "fn k::m::f: proved"}
        told = [*try_all([body("a", "f")], lambda _: beside["proved"] + "\nlogic=proved", lambda _: beside["unproved"] + "\nlogic=not-proved")]
        self.assertEqual([it[1:] for it in told], [(False, "NOT REFUSED: it is proved")])

    def test_who_does_not_fit_its_answers_is_judged_without_them(self):
        unfit = "./proofs/m/f/Answers.antt:3:5: error: `returns`: the two types differ\nfn k::m::f: not proved\nlogic=not-proved"
        own, proved = "fn k::m::f: no proof: `search` did not prove `returns`\nlogic=not-proved", "fn k::m::f: proved\nlogic=proved"

        def told(second):
            without = lambda it, _: Body(it.label, it.changes, it.places, gone=["returns"])
            return [it[:2] for it in try_all([body("a", "f")], *[lambda bodies: second if bodies[0].gone else unfit] * 2, without=without)]

        self.assertEqual([(it.gone, is_refused) for it, is_refused in told(own) + told(proved)], [(["returns"], True), (["returns"], False)])

    def test_of_two_that_wait_for_each_other_one_is_tried_alone(self):
        waits = {"a": "fn k::m::f: no proof: it calls `k::m::g`, which is not proved", "b": "fn k::m::g: no proof: it calls `k::m::f`, which is not proved"}
        own = {"a": "fn k::m::f: no proof: `search` did not prove `returns`", "b": "fn k::m::g: no proof: `search` did not prove `returns`"}

        def told_where(alone):
            def check(bodies):
                lines = waits if len(bodies) == 2 else alone
                return "\n".join([*(lines[it.label] for it in bodies), "logic=not-proved"])

            return [(it.label, is_refused) for it, is_refused, _ in try_all([body("a", "f"), body("b", "g", 3)], check, check)]

        self.assertEqual(told_where(own), [("a", True), ("b", True)])
        self.assertEqual(told_where(waits), [("a", False), ("b", False)])

    def test_what_stands_in_no_function_is_tried_beside_the_proved(self):
        said = "fn k::m::f: no proof: `search` did not prove `returns`\nlogic=not-proved"
        told = [*try_all([Body("a", [("src/m.rt", 0, 1, "x")], {Place("m")})], lambda _: said, None)]
        self.assertTrue(told[0][1])

    def test_who_does_not_compile_fails_alone(self):
        def check(bodies):
            if any(it.label == "b" for it in bodies):
                return "error: a type is missing\n"
            return "fn k::m::f: no proof: `search` did not prove `returns`\nlogic=not-proved\n"

        told = {it.label: is_refused for it, is_refused, _ in try_all([body("a", "f"), body("b", "g", 3)], check, check)}
        self.assertEqual(told, {"a": True, "b": False})
