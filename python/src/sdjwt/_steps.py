"""A call in steps, between which functions of the caller are called, such as `check` and `sign`.

The steps are a generator: it yields a function with its arguments, and is sent what the function returned. So the same
steps are taken by a call that waits, and by a coroutine whose caller gives coroutines.
"""
from __future__ import annotations

import asyncio
import inspect
from collections.abc import Callable, Generator
from contextlib import suppress
from typing import Generic, NamedTuple, TypeVar, Union

from sdjwt._stack import need_stack

Result = TypeVar("Result")


class Asked(NamedTuple):
    """A function of the caller, which is called next, its name as an argument, and what it is given."""

    function: Callable[..., object]
    name: str
    given: tuple[object, ...]


class _Done(Generic[Result]):
    """The result of steps."""

    __slots__ = ("result",)

    def __init__(self, result: Result) -> None:
        self.result = result


Steps = Generator[Asked, object, Result]


def _next(steps: Steps[Result], answer: object) -> Union[Asked, _Done[Result]]:
    need_stack()
    try:
        return steps.send(answer)
    except StopIteration as end:
        return _Done(end.value)


def finish(steps: Steps[Result]) -> Result:
    """The result of steps. The functions are called on this thread."""
    try:
        reached = _next(steps, None)
        while isinstance(reached, Asked):
            answer = reached.function(*reached.given)
            if inspect.isawaitable(answer):
                _refuse(answer, reached.name)
            reached = _next(steps, answer)
        return reached.result
    finally:
        steps.close()


def _refuse(answer: object, name: str) -> None:
    if inspect.iscoroutine(answer):
        answer.close()
    raise TypeError(
        f"sdjwt: {name} is a coroutine function, and this call does not wait for one: await the call whose name ends "
        "in _async"
    )


async def finish_async(steps: Steps[Result]) -> Result:
    """The result of steps, which run on other threads.

    Coroutine functions are awaited here; other functions run on threads too.
    """
    try:
        reached = await asyncio.to_thread(_next, steps, None)
        while isinstance(reached, Asked):
            if inspect.iscoroutinefunction(reached.function):
                answer = await reached.function(*reached.given)
            else:
                answer = await asyncio.to_thread(_called, reached)
                if inspect.isawaitable(answer):
                    answer = await answer
            reached = await asyncio.to_thread(_next, steps, answer)
        return reached.result
    finally:
        # if this was cancelled, a thread may run the steps still, and they end with it
        with suppress(ValueError):
            steps.close()


def _called(asked: Asked) -> object:
    try:
        return asked.function(*asked.given)
    except StopIteration as end:
        # no future can have it as its exception
        raise RuntimeError(f"sdjwt: {asked.name} raised StopIteration") from end
