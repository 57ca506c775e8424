"""Sessions with the real program, which the environment's ACQUIRE names."""

import itertools
import os
import signal
import tempfile
import threading
import unittest

import acquire
from acquire import (Collapsed, Converged, JournalRefused, NotFinished, ProgramEnded, ProgramMissing, Refusal, Session, Suspended,
                     SystemFault, Undecided, VocabularyRefused)

DIFFER = {"name": "differ", "arity": 2, "formula": ["!=", "$0", "$1"]}
BEFORE = {"name": "before", "arity": 2, "formula": ["<", "$0", "$1"]}
NEAR = {"name": "near", "arity": 2, "tuples": [[1, 2], [2, 1], [2, 3], [3, 2]]}
THREE = {"variables": ["a", "b", "c"], "domain": [1, 3], "relations": [DIFFER, BEFORE], "scopes": "all"}


def all_differ(shown):
    return len(set(shown.values())) == len(shown)


def solutions(vocabulary, constraints):
    names = vocabulary["variables"]
    low, high = vocabulary["domain"]
    for values in itertools.product(range(low, high + 1), repeat=len(names)):
        assignment = dict(zip(names, values, strict=True))
        if all(it.holds(assignment) for it in constraints):
            yield values


class Runs(unittest.TestCase):
    """A function answers."""

    def test_each_plan_learns_the_owner_s_solutions(self):
        due = [values for values in itertools.product(range(1, 4), repeat=3) if all_differ(dict(zip("abc", values, strict=True)))]
        for plan in acquire.PLANS:
            with self.subTest(plan), Session(THREE, plan=plan) as session:
                ending = session.run(all_differ)
                self.assertIsInstance(ending, Converged)
                self.assertEqual(due, list(solutions(THREE, ending.learned)))
                self.assertEqual(ending.answers, len(session.answers))
                self.assertEqual(ending.learned, session.learned)

    def test_questions_are_partial_and_complete(self):
        with Session(THREE) as session:
            sizes = set()
            while session.question:
                sizes.add((len(session.question.shown), session.question.is_complete))
                session.answer(all_differ(session.question.shown))
        self.assertEqual({(2, False), (3, True)}, sizes)

    def test_an_answer_is_kept_with_its_question(self):
        with Session(THREE, plan="scopes") as session:
            first = session.question
            session.answer(False)
            self.assertEqual([(1, first.shown, False)], [(it.question.number, it.question.shown, it.yes) for it in session.answers])
            self.assertEqual(2, session.question.number)

    def test_an_oracle_s_own_exception_comes_out_and_nothing_is_lost(self):
        class Tired(Exception):
            pass

        def oracle(shown):
            if len(session.answers) == 2:
                raise Tired
            return all_differ(shown)

        with Session(THREE) as session:
            with self.assertRaises(Tired):
                session.run(oracle)
            self.assertEqual(3, session.question.number)
            self.assertIsInstance(session.run(all_differ), Converged)

    def test_answers_that_no_relation_explains_collapse(self):
        with Session(THREE) as session:
            ending = session.run(lambda shown: len(shown) < 3)
        self.assertEqual(Collapsed(len(session.answers)), ending)

    def test_a_small_budget_leaves_it_undecided(self):
        names = [f"v{i}" for i in range(8)]
        with Session({"variables": names, "domain": [1, 6], "relations": [DIFFER, BEFORE], "scopes": "all"}, budget=1) as session:
            ending = session.run(all_differ)
            self.assertIsInstance(ending, Undecided)
            self.assertTrue(ending.open)

    def test_stop_suspends(self):
        with Session(THREE) as session:
            session.answer(False)
            self.assertEqual(Suspended(1), session.stop())
            self.assertIsNone(session.question)

    def test_nothing_is_answered_behind_the_end(self):
        with Session(THREE) as session:
            session.run(all_differ)
            for call in (lambda: session.answer(True), session.back, session.stop):
                self.assertRaises(NotFinished, call)

    def test_back_takes_the_last_answer_back(self):
        with Session(THREE) as session:
            first = session.question
            self.assertRaises(NotFinished, session.back)
            session.answer(False)
            self.assertEqual(first, session.back())
            self.assertEqual((), session.answers)
            self.assertIsInstance(session.run(all_differ), Converged)

    def test_what_is_learned_is_known_in_between(self):
        with Session(THREE, plan="scopes") as session:
            while not session.learned:
                session.answer(all_differ(session.question.shown))
            self.assertEqual(["differ a b"], [it.text for it in session.learned])


class Journals(unittest.TestCase):
    """A session in a file."""

    def setUp(self):
        folder = tempfile.TemporaryDirectory()
        self.addCleanup(folder.cleanup)
        self.journal = os.path.join(folder.name, "j")

    def test_it_goes_on_where_it_was(self):
        with Session(THREE, plan="scopes", journal=self.journal) as session:
            session.answer(False)
            due = session.question
            before = session.answers
        with Session(journal=self.journal) as session:
            self.assertEqual((due, before, "scopes"), (session.question, session.answers, session.plan))
            self.assertEqual(THREE, session.vocabulary.data)
            self.assertIsInstance(session.run(all_differ), Converged)
        with Session(THREE, journal=self.journal) as session:
            self.assertIsInstance(session.ending, Converged)

    def test_another_vocabulary_or_plan_is_refused(self):
        Session(THREE, journal=self.journal).close()
        for words, reason in (({"vocabulary": {**THREE, "domain": [1, 4]}}, "has another vocabulary"), ({"plan": "multi"}, "has plan quacq")):
            with self.subTest(reason), self.assertRaises(JournalRefused) as caught:
                Session(journal=self.journal, **words)
            self.assertEqual(reason, caught.exception.reason)

    def test_no_session_and_no_vocabulary(self):
        with self.assertRaises(JournalRefused) as caught:
            Session(journal=self.journal)
        self.assertEqual("no session", caught.exception.reason)

    def test_a_file_that_is_no_journal_is_left_as_it_is(self):
        with open(self.journal, "w", encoding="utf-8") as file:
            file.write("a letter to somebody\n")
        with self.assertRaises(JournalRefused) as caught:
            Session(THREE, journal=self.journal)
        self.assertEqual("not a journal", caught.exception.reason)
        with open(self.journal, encoding="utf-8") as file:
            self.assertEqual("a letter to somebody\n", file.read())

    def test_a_fault_of_the_disk_is_named(self):
        with self.assertRaises(SystemFault) as caught:
            Session(THREE, journal=os.path.join(self.journal, "below"))
        self.assertEqual(10, caught.exception.status)

    def test_a_killed_program_loses_no_acknowledged_answer(self):
        session = Session(THREE, journal=self.journal)
        session.answer(False)
        os.kill(session._run.pid, signal.SIGKILL)
        with self.assertRaises(ProgramEnded) as caught:
            session.answer(False)
        self.assertEqual("SIGKILL", caught.exception.signal)
        session.close()
        with Session(journal=self.journal) as session:
            self.assertEqual([False], [it.yes for it in session.answers])


class HandsOn(unittest.TestCase):
    """What has been learned, for others."""

    def setUp(self):
        self.session = Session(THREE)
        self.addCleanup(self.session.close)
        self.ending = self.session.run(all_differ)

    def test_a_constraint_is_a_predicate(self):
        constraint = self.ending.learned[0]
        self.assertEqual((("differ",), ("a", "b")), (constraint.relations, constraint.variables))
        self.assertEqual([True, False], [constraint.predicate(1, 2), constraint.predicate(2, 2)])
        self.assertEqual([True, False, None], [constraint.holds(it) for it in ({"a": 1, "b": 3}, {"a": 1, "b": 1}, {"a": 1})])
        self.assertEqual([(1, 2), (1, 3), (2, 1), (2, 3), (3, 1), (3, 2)], list(self.session.vocabulary.accepted(constraint)))

    def test_a_constraint_of_tuples_and_one_of_two_relations(self):
        vocabulary = acquire.Vocabulary({**THREE, "relations": [NEAR, BEFORE], "ranges": [["b", 2, 3]]})
        both = vocabulary.constraint("near&before a b")
        self.assertEqual([(1, 2), (2, 3)], list(vocabulary.accepted(both)))
        self.assertEqual(range(2, 4), vocabulary.values("b"))

    def test_clauses_have_the_solutions_as_models(self):
        lines = self.session.clauses().splitlines()
        named = {int(line.split()[2]): line.split()[1] for line in lines if line.startswith("c ")}
        clauses = [[int(word) for word in line.split()[:-1]] for line in lines if line[0] not in "cp"]
        found = set()
        for true in itertools.combinations(sorted(named), 3):
            if all(any((literal > 0) == (abs(literal) in true) for literal in clause) for clause in clauses):
                found.add(tuple(int(named[it].split("=")[1]) for it in true))
        self.assertEqual(set(solutions(THREE, self.ending.learned)), found)

    def test_what_follows_is_left_out(self):
        with Session(THREE) as session:
            ending = session.run(lambda shown: all(one < other for one, other in itertools.pairwise(shown.values())))
            self.assertIsInstance(ending, Converged)
            reduced = session.reduced()
        self.assertEqual([("a", "b"), ("b", "c")], sorted(it.variables for it in reduced))
        self.assertEqual(list(solutions(THREE, ending.learned)), list(solutions(THREE, reduced)))

    def test_a_certificate_is_confirmed_and_a_changed_one_is_not(self):
        certificate = self.session.certificate()
        self.assertEqual(self.ending.answers, acquire.check(certificate))
        self.assertRaises(Refusal, acquire.check, certificate.replace(b"\nyes ", b"\nno ", 1))

    def test_a_model_is_a_solution(self):
        try:
            model = self.session.model()
        except ProgramMissing as missing:
            self.skipTest(str(missing))
        self.assertIn(tuple(model.values()), set(solutions(THREE, self.ending.learned)))

    def test_no_solver(self):
        self.assertRaises(ProgramMissing, self.session.model, "no-such-solver")


class Refused(unittest.TestCase):
    """What isn't taken."""

    def test_a_vocabulary_by_its_first_fault(self):
        for changed, reason in (({"domain": [3, 1]}, "bad domain"), ({"variables": ["a", "a"]}, "name repeated 0 1"), ({"more": 1}, "unknown key whole")):
            with self.subTest(reason), self.assertRaises(VocabularyRefused) as caught:
                Session({**THREE, **changed})
            self.assertEqual(reason, caught.exception.reason)

    def test_a_refused_vocabulary_leaves_no_journal(self):
        with tempfile.TemporaryDirectory() as folder:
            journal = os.path.join(folder, "j")
            self.assertRaises(VocabularyRefused, Session, {**THREE, "domain": [3, 1]}, journal=journal)
            self.assertFalse(os.path.exists(journal))

    def test_words_are_tried_before_anything_is_started(self):
        for words in ({"plan": "fast"}, {"budget": 0}, {"budget": 1_000_000_001}):
            with self.subTest(words):
                self.assertRaises(ValueError, Session, THREE, program="/bin/false", **words)
        self.assertRaises(ValueError, Session)

    def test_no_program(self):
        self.assertRaises(ProgramMissing, Session, THREE, program="/no/such/program")

    def test_a_program_that_says_something_else(self):
        with self.assertRaises(ProgramEnded) as caught:
            Session(THREE, program="/bin/echo")
        self.assertIn("try", str(caught.exception))


class Threads(unittest.TestCase):
    """Sessions of several threads don't meet."""

    def test_side_by_side(self):
        endings = []
        threads = [threading.Thread(target=lambda: endings.append(Session(THREE).run(all_differ))) for _ in range(4)]
        for thread in threads:
            thread.start()
        for thread in threads:
            thread.join()
        self.assertEqual([Converged] * 4, [type(it) for it in endings])


if __name__ == "__main__":
    unittest.main()
