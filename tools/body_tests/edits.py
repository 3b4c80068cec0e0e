"""How a body's function is found, and how rounds are made."""
import unittest

from body_edits import Body, next_round, read_body, texts_of, with_twins, without_answers, without_bodies, without_proofs
from body_places import Place, functions_of, place_of
from body_tests.source import SOURCE, body, folder_with, place, write
from wrong_bodies import paths_of


class Places(unittest.TestCase):
    def test_a_function_is_known_by_its_module(self):
        self.assertEqual(place("else"), Place("m", name="free"))
        self.assertTrue(place("else").is_of("krate::m::free"))
        self.assertFalse(place("else").is_of("krate::other::free"))

    def test_a_method_is_known_by_its_type_and_trait(self):
        self.assertEqual(place("5"), Place("m", "Cursor", "Sink", "", "put"))
        self.assertTrue(place("5").is_of("krate::m::CursorSink::put"))
        self.assertFalse(place("5").is_of("krate::m::BoxSink::put"))

    def test_a_lent_value_has_a_name(self):
        self.assertTrue(place("8").is_of("krate::m::RefMutSink::put"))

    def test_an_argument_tells_impls_apart(self):
        self.assertTrue(place("Fault::Six").is_of("krate::m::FaultFromFmtError::from"))
        self.assertFalse(place("Fault::Six").is_of("krate::m::FaultFromIoError::from"))

    def test_an_arrow_ends_no_generics(self):
        text = "impl<F: Fn(u8) -> u8, T> Sink for Held<F, T> {\n    fn put(&mut self) -> usize {\n        9\n    }\n}\n"
        self.assertEqual(place_of(text, text.index("9"), "m"), Place("m", "Held", "Sink", "", "put"))

    def test_an_impls_own_parameters_are_not_in_its_name(self):
        text = "impl<S: Drop, P> From<Start<S, P>> for Fault {\n    fn from(start: Start<S, P>) -> Fault {\n        9\n    }\n}\n"
        self.assertEqual(place_of(text, text.index("9"), "m"), Place("m", "Fault", "From", "Start", "from"))

    def test_a_reference_is_a_word_of_an_impls_name(self):
        def place_in(head, name):
            text = f"{head} {{\n    fn {name}() -> usize {{\n        9\n    }}\n}}\n"
            return place_of(text, text.index("9"), "m")

        lent, held = place_in("impl From<&Event> for Key", "from"), place_in("impl From<Event> for Key", "from")
        self.assertEqual([it.is_of("krate::m::KeyFromRefEvent::from") for it in (lent, held)], [True, False])
        self.assertEqual([it.is_of("krate::m::KeyFromEvent::from") for it in (lent, held)], [False, True])
        self.assertEqual(place_in("impl<'a> From<&'a State> for Opts<'a>", "from"), Place("m", "Opts", "From", "RefState", "from"))
        self.assertEqual(place_in("impl Sink for &'static mut [u8]", "put"), Place("m", "RefMutSliceU8", "Sink", "", "put"))
        self.assertEqual(place_in("impl Sink for Vec<u8>", "put"), Place("m", "VecU8", "Sink", "", "put"))
        shared = place_in("impl<T> Sink for &T", "put")
        self.assertTrue(shared.is_of("krate::m::RefSink::put") and not shared.is_of("krate::m::RefMutSink::put"))

    def test_a_check_is_asked_for_what_bodies_turn(self):
        bodies = [Body(mark, [], {place(mark)}) for mark in ("else", "5", "Fault::Six")]
        self.assertEqual(paths_of(bodies, []), ["CursorSink::put", "FaultFromFmtError::from", "m::free"])
        known = ["krate::m::CursorU8Sink::settle", "krate::m::FaultFrom::from", "krate::other::free"]
        self.assertEqual(paths_of(bodies, known), ["m::CursorU8Sink::put", "m::FaultFrom::from", "m::free"])
        self.assertEqual(paths_of([Body("LIMIT", [], {place("LIMIT")})], []), ["m"])
        self.assertEqual(paths_of([*bodies, Body("top", [], {Place()})], []), [])

    def test_constants_and_defaults_stand_in_no_function(self):
        for mark in ("LIMIT", "4;", "7"):
            self.assertEqual(place(mark), Place("m"))


class Rounds(unittest.TestCase):
    def test_a_round_turns_each_function_once(self):
        first, again, other = body("a", "f"), body("b", "f", 3), body("c", "g", 6)
        self.assertEqual(next_round([first, again, other]), [first, other])

    def test_a_body_outside_a_function_is_alone(self):
        constant = Body("a", [("src/m.rt", 0, 1, "x")], {Place("m")})
        self.assertEqual(next_round([constant, body("b", "f", 3)]), [constant])
        self.assertEqual(next_round([body("b", "f", 3), constant]), [body("b", "f", 3)])

    def test_a_file_gets_all_that_a_round_changes(self):
        source = "fn f() {\n    one\n}\n\nfn g() {\n    two\n}\n"
        edit = "file: src/m.rt\nold: two\nnew: three\nold: one\nnew: four\n"
        with folder_with({"src/m.rt": source, "it.edit": edit}) as folder:
            it = read_body(f"{folder}/it.edit", folder)
            self.assertEqual(texts_of([it], folder)["src/m.rt"], "fn f() {\n    four\n}\n\nfn g() {\n    three\n}\n")
            self.assertEqual({place.name for place in it.places}, {"f", "g"})
            write(folder, "it.edit", "file: src/m.rt\nold: fn\nnew: const\n")
            self.assertIn("2 times", read_body(f"{folder}/it.edit", folder).fault)

    def test_a_second_body_of_a_function_turns_a_twin(self):
        source = "#[tactic(auto)]\nfn f() {\n    one\n}\n\nfn g() {\n    two\n}\n"
        answers = "use Rattle.k.proofs.m.f.Goals as goal\n"
        turns = {"a": "old: one\nnew: three\n", "b": "old: one\nnew: four\n", "c": "old: two\nnew: five\n"}
        edits = {f"{label}.edit": f"file: src/m.rt\n{text}" for label, text in turns.items()}
        with folder_with({"src/m.rt": source, "proofs/m/f/Answers.antt": answers, **edits}) as folder:
            bodies = [read_body(f"{folder}/{it}", folder) for it in edits]
            tried_as = with_twins(bodies, folder, functions_of(folder, []))
            self.assertEqual(next_round(tried_as), tried_as)
            text = texts_of(tried_as, folder)["src/m.rt"]
        twin = "#[tactic(auto)]\nfn f__2() {\n    four\n}\n\n"
        self.assertEqual(text, "#[tactic(auto)]\nfn f() {\n    three\n}\n\n" + twin + "fn g() {\n    five\n}\n")
        self.assertEqual([it.label for it in tried_as], ["a.edit", "b.edit", "c.edit"])
        self.assertEqual(tried_as[1].files, {"proofs/m/f__2/Answers.antt": "use Rattle.k.proofs.m.f__2.Goals as goal\n"})

    def test_a_search_stands_for_an_answer_that_does_not_fit(self):
        text = "use k.Goals as goal\n\npub a : goal.a\na c = refl\n\n-- why\npub b : goal.b\nunfolding f\nb c =\n    let h = 1 in\n    refl"
        file = "proofs/m/f/Answers.antt"
        with folder_with({file: text}) as folder:
            def left(body, *names):
                return without_answers(body, {"m/f": {("Answers.antt", *it) for it in names}}, folder)

            first = left(body("x", "f"), ("b", True), ("a", False))
            self.assertEqual(first.files, {file: "use Rattle.std.proofs.Common.{rules}\nuse k.Goals as goal\n\n-- why\npub b : goal.b\nunfolding f\nb c = search rules"})
            # (a search that is refused for its form goes too, and of an import the whole file)
            self.assertEqual(left(first, ("b", True)).files, {file: "use Rattle.std.proofs.Common.{rules}\nuse k.Goals as goal"})
            self.assertEqual(left(first, ("", True)).files, {file: ""})
            self.assertEqual(left(first, ("", True)).gone, ["a", "b", "Answers.antt"])

    def test_an_impl_of_a_trait_stands_where_it_is_written(self):
        impls = "impl One {\n    fn own(&self) {}\n}\n\nimpl From<&u8> for One {\n    fn from(n: &u8) -> One {}\n}\n"
        with folder_with({"src/a.rt": "pub struct One;\n", "src/b.rt": impls}) as folder:
            self.assertEqual({*functions_of(folder, []).values()}, {"a::One::own", "b::OneFromRefU8::from"})

    def test_who_is_not_turned_has_an_empty_proof(self):
        with folder_with({"src/m.rt": SOURCE}) as folder:
            found = functions_of(folder, ["krate::m::CursorTSink::put"])
        self.assertEqual({it.name for it in found}, {"free", "put", "from"})
        turned = [Body("a", [], {place("else")}), Body("b", [], {place("8")})]
        empty = without_proofs(found, turned)
        self.assertEqual(empty, {"proofs/m/CursorTSink/put/Proof.antt": "", "proofs/m/FaultFromFmtError/from/Proof.antt": ""})

    def test_who_is_not_turned_has_no_body(self):
        clauses = "pub fn one(n: usize) -> usize\n    ensures { result ≡ record {\n      n = n;\n    } }\n{\n    n\n}\n"
        law = "pub fn law()\n    ensures { 1 ≡ 1 }\n{}\n"
        with folder_with({"src/m.rt": f"{SOURCE}\n{law}\n{clauses}"}) as folder:
            functions = functions_of(folder, [])
            turned = Body("a", [], {place("5")})
            text = texts_of([without_bodies(functions, [turned], folder)], folder)["src/m.rt"]
        left = SOURCE.replace("    if n == 0 {\n        1\n    } else {\n        2\n    }\n", "    loop {}\n")
        left = left.replace("        8\n", "        loop {}\n").replace("        Fault::Six(cause)\n", "        loop {}\n")
        self.assertEqual(text, f"{left}\n{law}\n{clauses.replace(chr(10) + '    n' + chr(10), chr(10) + '    loop {}' + chr(10))}")

    def test_a_drop_stays_as_it_is(self):
        drop = "pub struct One;\n\nimpl Drop for One {\n    fn drop(self) {\n        let One = self;\n    }\n}\n"
        with folder_with({"src/m.rt": drop}) as folder:
            functions = functions_of(folder, [])
            self.assertEqual({it.name for it in functions}, {"drop"})
            self.assertEqual(without_proofs(functions, []), {})
            self.assertEqual(without_bodies(functions, [], folder).changes, [])
