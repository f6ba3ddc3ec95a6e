"""Many queries over many processors or machines."""

from __future__ import annotations

import contextlib
import os
from collections import deque
from concurrent.futures import Executor, Future, ThreadPoolExecutor
from dataclasses import replace
from typing import Any, Deque, Dict, Iterable, Iterator, List, Optional, Tuple, Union

from .client import File, Source, Words, ask
from .transcript import Item


def map(
    files: Union[File, Iterable[File]],
    queries: Iterable[str],
    *,
    executor: Optional[Executor] = None,
    ahead: int = 256,
    steps: Optional[int] = None,
    pivots: Optional[int] = None,
    answers: Optional[int] = None,
    program: Optional[Words] = None,
) -> Iterator[Tuple[Item, ...]]:
    """Asks each query in a run of its own and yields the items of each, in the order of the queries.

    The runs are tasks of `executor`, which is any executor of `concurrent.futures` or one that does as these do, as
    `Client.get_executor()` of Dask; without it they are started by as many threads as there are processors. At most `ahead` tasks are under way
    or wait for their turn, so queries may come one by one and without end.

    Each query gets the files' clauses afresh: what one adds, removes or declares is not there for another one. What the files
    themselves say stands with None as its query before the answers of each. A path is opened where the task runs; a `Source` is
    sent along. A `RunFailed` of a task is raised where its items would come. Leaving the iteration cancels the tasks that have not begun.
    """
    if ahead < 1:
        raise ValueError("ahead is at least 1")
    if isinstance(queries, str):
        raise TypeError("queries is an iterable of texts of one query each")
    listed: List[File] = [files] if isinstance(files, (str, os.PathLike, Source)) else [*files]
    options = {"steps": steps, "pivots": pivots, "answers": answers, "program": program}
    ask(listed, [], **options)  # type: ignore[arg-type]  # says now what is wrong with the options
    return _mapped(listed, queries, executor, ahead, options)


def _mapped(
    files: List[File], queries: Iterable[str], executor: Optional[Executor], ahead: int, options: Dict[str, Any]
) -> Iterator[Tuple[Item, ...]]:
    under_way: Deque["Future[Tuple[Item, ...]]"] = deque()
    with contextlib.ExitStack() as stack:
        if executor is None:
            executor = stack.enter_context(ThreadPoolExecutor(os.cpu_count()))
        try:
            for number, query in enumerate(queries):
                under_way.append(executor.submit(answered, files, number, query, options))
                if len(under_way) == ahead:
                    yield under_way.popleft().result()
            while under_way:
                yield under_way.popleft().result()
        finally:
            for it in under_way:
                it.cancel()


def answered(files: List[File], number: int, query: str, options: Dict[str, Any]) -> Tuple[Item, ...]:
    """What a run over the files says of one query, which is that of this number."""
    return tuple(it if it.query is None else replace(it, query=number) for it in ask(files, [query], **options))
