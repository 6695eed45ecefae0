"""Tests of the package. usage: KAPI_LIBRARY=libkapi.so python3 -m unittest tests.test_kapi"""

import unittest
from dataclasses import replace

from example import OBJECTS
from kapi import BadLine, Decision, KapiError, NoQuestion, NotText, Policy, Question


class Answers(unittest.TestCase):
    def setUp(self) -> None:
        self.policy = Policy.load(OBJECTS)
        self.addCleanup(self.policy.close)

    def test_decisions(self) -> None:
        ask = lambda **how: self.policy.decide(Question(**{"user": "ann", "verb": "get", "resource": "pods/log", "namespace": "web", **how}))
        self.assertIs(ask(), Decision.ALLOWED)
        self.assertIs(ask(resource="pods", subresource="log"), Decision.ALLOWED)
        self.assertIs(ask(user="bob"), Decision.DENIED)
        self.assertIs(ask(namespace=""), Decision.DENIED)
        self.assertIs(ask(path="/healthz"), Decision.DENIED)
        self.assertIs(ask(user="bob", groups=["a"] * 1000 + ["system:masters"]), Decision.MASTERS)

    def test_lines(self) -> None:
        self.assertTrue(self.policy.why(Question("ann", "get", "pods/log", namespace="web")).startswith("allowed "))
        self.assertEqual(self.policy.why(Question("bob", "get", "pods")), "denied")
        self.assertTrue(self.policy.settled)

    def test_shares(self) -> None:
        logs = Question("ann", "get", "pods/log", namespace="web")
        with self.policy.share() as other:
            self.policy.close()
            self.assertTrue(other.may(logs))
        with self.assertRaises(KapiError):
            self.policy.share()

    def test_lists(self) -> None:
        logs = Question("", "get", "pods/log", namespace="web")
        self.assertEqual([it["subject"] for it in self.policy.who(logs)], ["system:masters", "ann"])
        self.assertEqual(len(self.policy.who(replace(logs, namespace=""))), 1)
        self.assertEqual(len(self.policy.who(replace(logs, namespace=""), anywhere=True)), 2)
        self.assertEqual(self.policy.what("ann", namespace="web")[0]["rule"]["resources"], ["pods/log"])
        self.assertEqual(self.policy.risks()[-1], {"settled": True})
        self.assertEqual(self.policy.paths(without=["escalate"])[-1], {"settled": True})
        with self.assertRaises(NoQuestion):
            self.policy.paths(without=["escalate", "escalation"])
        self.assertEqual(self.policy.missing("bob", "Role", "logs", namespace="web"), [["get", "", "pods/log"]])
        self.assertEqual(self.policy.missing("ann", "Role", "logs", namespace="web"), [])
        with self.assertRaises(NoQuestion):
            self.policy.missing("ann", "Role", "none", namespace="web")
        self.assertEqual(self.policy.gains(OBJECTS), (True, []))
        nobody, lines = self.policy.gains(OBJECTS.replace('"get"', '"get","list"'))
        self.assertEqual((nobody, [it["atom"] for it in lines]), (False, [["list", "", "pods/log"]]))
        with self.assertRaises(BadLine) as fault:
            self.policy.gains(OBJECTS + "no object\n")
        self.assertEqual(fault.exception.line, 4)

    def test_faults(self) -> None:
        with self.assertRaises(NotText):
            self.policy.may(Question(b"\xff", "get", "pods"))
        with self.assertRaises(NoQuestion):
            self.policy.may(Question("ann", "get", "pods/log/x"))
        with self.assertRaises(BadLine) as fault:
            Policy.load(OBJECTS + "no object\n")
        self.assertEqual(fault.exception.line, 4)
        self.policy.close()
        with self.assertRaises(KapiError):
            self.policy.may(Question("ann", "get", "pods"))


if __name__ == "__main__":
    unittest.main()
