"""Decisions of Kubernetes' RBAC, by Kapi's library.

A policy is loaded from objects, a JSON object a line, and asked whether a user may do something. The library is `libkapi.so`
as the system finds it, or the file that the variable KAPI_LIBRARY names.
"""

from __future__ import annotations

import ctypes
import enum
import json
import os
import threading
from dataclasses import dataclass
from typing import Any, Sequence, Union

__all__ = ["BadLine", "Decision", "KapiError", "NoQuestion", "NotText", "Policy", "Question"]

Text = Union[str, bytes]
Line = dict[str, Any]

ABI = 2
OK, NO_MEMORY, BAD_LINE, NOT_TEXT, NO_QUESTION, NO_ROOM = range(6)
WANTS_SETTLED, WANTS_DECISION, WANTS_LINE, WANTS_WHO, WANTS_WHO_ANYWHERE, WANTS_WHAT, WANTS_RISKS, WANTS_PATHS, WANTS_MISSING, WANTS_GAINS = range(10)
FORM_JSON = 2


class KapiError(Exception):
    """A call of the library failed."""


class BadLine(KapiError):
    """A line of the objects is not loaded."""

    def __init__(self, line: int) -> None:
        super().__init__(f"line {line} holds no object that can be created")
        self.line = line


class NotText(KapiError):
    """A text is no UTF-8."""


class NoQuestion(KapiError):
    """What is asked is no question, as of a resource with two slashes."""


class Decision(enum.IntEnum):
    DENIED = 0
    ALLOWED = 1
    MASTERS = 2


@dataclass(frozen=True)
class Question:
    """Whether a user may do something. No group is added: name `system:authenticated` too. With a path, it is asked about that."""

    user: Text
    verb: Text
    resource: Text = ""
    groups: Sequence[Text] = ()
    namespace: Text = ""
    group: Text = ""
    subresource: Text = ""
    name: Text = ""
    path: Text = ""


class _Text(ctypes.Structure):
    _fields_ = [("bytes", ctypes.c_char_p), ("length", ctypes.c_size_t)]


class _Texts(ctypes.Structure):
    _fields_ = [("texts", ctypes.POINTER(_Text)), ("length", ctypes.c_size_t)]


class _Question(ctypes.Structure):
    _fields_ = [
        ("user", _Text),
        ("groups", _Texts),
        ("name_space", _Text),
        ("verb", _Text),
        ("group", _Text),
        ("resource", _Text),
        ("subresource", _Text),
        ("name", _Text),
        ("path", _Text),
    ]


class _Call(ctypes.Structure):
    _fields_ = [
        ("wants", ctypes.c_uint32),
        ("form", ctypes.c_uint32),
        ("question", _Question),
        ("other", _Text),
        ("without", _Texts),
    ]


class _Answer(ctypes.Structure):
    _fields_ = [("decision", ctypes.c_uint32), ("length", ctypes.c_size_t)]


def _library() -> ctypes.CDLL:
    library = ctypes.CDLL(os.environ.get("KAPI_LIBRARY", "libkapi.so"))
    policy = ctypes.c_void_p
    library.kapi_abi.restype = ctypes.c_uint32
    library.kapi_load.restype = ctypes.c_uint32
    library.kapi_load.argtypes = [ctypes.c_char_p, ctypes.c_size_t, ctypes.POINTER(ctypes.c_size_t), ctypes.POINTER(policy)]
    library.kapi_ask.restype = ctypes.c_uint32
    library.kapi_ask.argtypes = [policy, ctypes.POINTER(_Call), ctypes.POINTER(_Answer), ctypes.c_char_p, ctypes.c_size_t]
    library.kapi_share.restype = ctypes.c_uint32
    library.kapi_share.argtypes = [policy, ctypes.POINTER(policy)]
    library.kapi_drop.restype = None
    library.kapi_drop.argtypes = [policy]
    if library.kapi_abi() != ABI:
        raise ImportError(f"the library has interface {library.kapi_abi()}, and this package needs {ABI}")
    return library


_LIBRARY = _library()


def _bytes(text: Text) -> bytes:
    return text.encode() if isinstance(text, str) else text


def _text(text: Text) -> _Text:
    # A c_char_p keeps the bytes object that it was made of, and so does the structure.
    held = _bytes(text)
    return _Text(held, len(held))


def _texts(texts: Sequence[Text]) -> _Texts:
    array = (_Text * len(texts))(*map(_text, texts))
    return _Texts(array, len(texts))


def _call(wants: int, question: Question | None = None, other: Text = "", without: Sequence[Text] = ()) -> _Call:
    call = _Call(wants=wants, form=FORM_JSON, other=_text(other), without=_texts(without))
    if question is not None:
        call.question = _Question(
            _text(question.user),
            _texts(question.groups),
            _text(question.namespace),
            _text(question.verb),
            _text(question.group),
            _text(question.resource),
            _text(question.subresource),
            _text(question.name),
            _text(question.path),
        )
    return call


def _check(status: int, line: int = 0) -> None:
    if status == NO_MEMORY:
        raise MemoryError
    if status == BAD_LINE:
        raise BadLine(line)
    if status == NOT_TEXT:
        raise NotText("a text is no UTF-8")
    if status == NO_QUESTION:
        raise NoQuestion("there is no such question")
    if status != OK:
        raise KapiError(f"status {status}")


class Policy:
    """A policy that was loaded. A lock lets one thread ask at a time: for more at once `share` it with each."""

    def __init__(self, handle: ctypes.c_void_p) -> None:
        self._handle = handle
        self._lock = threading.Lock()

    @classmethod
    def load(cls, objects: Text) -> Policy:
        """Loads objects, a JSON object a line."""
        held, line, handle = _bytes(objects), ctypes.c_size_t(0), ctypes.c_void_p()
        _check(_LIBRARY.kapi_load(held, len(held), ctypes.byref(line), ctypes.byref(handle)), line.value)
        return cls(handle)

    def share(self) -> Policy:
        """The same policy for another thread. Nothing is copied, and each is closed on its own."""
        handle = ctypes.c_void_p()
        with self._lock:
            if not self._handle:
                raise KapiError("the policy is closed")
            _check(_LIBRARY.kapi_share(self._handle, ctypes.byref(handle)))
        return Policy(handle)

    def decide(self, question: Question) -> Decision:
        """The decision, denied unless the policy allows it."""
        return Decision(self._ask(_call(WANTS_DECISION, question))[0])

    def may(self, question: Question) -> bool:
        """Whether the policy allows it."""
        return self.decide(question) is not Decision.DENIED

    def why(self, question: Question) -> str:
        """The line that `kapi audit` writes: `denied`, or `allowed` and the reason."""
        return self._ask(_call(WANTS_LINE, question))[1].decode().rstrip("\n")

    def who(self, question: Question, anywhere: bool = False) -> list[Line]:
        """Who may do what is asked, whoever its user is, in its namespace or, `anywhere`, in each: as `kapi who --json`."""
        return self._lines(_call(WANTS_WHO_ANYWHERE if anywhere else WANTS_WHO, question))[1]

    def what(self, user: Text, groups: Sequence[Text] = (), namespace: Text = "") -> list[Line]:
        """What a user has, in a namespace or everywhere: as `kapi what --json`."""
        return self._lines(_call(WANTS_WHAT, Question(user, "", groups=groups, namespace=namespace)))[1]

    def risks(self) -> list[Line]:
        """Who may gain more than the policy gives: as `kapi risks --json`."""
        return self._lines(_call(WANTS_RISKS))[1]

    def paths(self, to: Text = "", without: Sequence[Text] = ()) -> list[Line]:
        """Who can become whom, or one whom `to` names, without the rights of some kinds: as `kapi paths --json`."""
        return self._lines(_call(WANTS_PATHS, other=to, without=without))[1]

    def missing(self, user: Text, kind: Text, role: Text, groups: Sequence[Text] = (), namespace: Text = "") -> list[list[str]]:
        """What a user lacks of a role of the kind `Role` or `ClusterRole`: verb, group, resource and maybe a name, or verb and path."""
        return self._lines(_call(WANTS_MISSING, Question(user, "", kind, groups=groups, namespace=namespace, name=role)))[1]

    def gains(self, objects: Text) -> tuple[bool, list[Line]]:
        """Whether other objects give nobody more, if both policies are settled; and who gains what, as `kapi compare --json`."""
        number, lines = self._lines(_call(WANTS_GAINS, other=objects))
        return number == 1, lines

    @property
    def settled(self) -> bool:
        """Whether each aggregated cluster role has all that it takes from others."""
        return self._ask(_call(WANTS_SETTLED))[0] == 1

    def close(self) -> None:
        """Frees the policy, which answers nothing more."""
        with self._lock:
            handle, self._handle = self._handle, ctypes.c_void_p()
            if handle:
                _LIBRARY.kapi_drop(handle)

    def _lines(self, call: _Call) -> tuple[int, list[Any]]:
        number, text = self._ask(call)
        return number, [json.loads(line) for line in text.splitlines()]

    def _ask(self, call: _Call) -> tuple[int, bytes]:
        answer, size = _Answer(), 1024
        with self._lock:
            if not self._handle:
                raise KapiError("the policy is closed")
            while True:
                room = ctypes.create_string_buffer(size)
                status = _LIBRARY.kapi_ask(self._handle, ctypes.byref(call), ctypes.byref(answer), room, size)
                if status != NO_ROOM:
                    break
                size = answer.length
        _check(status, answer.length)
        return answer.decision, room.raw[: answer.length]

    def __enter__(self) -> Policy:
        return self

    def __exit__(self, *_: object) -> None:
        self.close()

    def __del__(self) -> None:
        if getattr(self, "_handle", None):
            self.close()
