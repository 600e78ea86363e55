"""How a chain is derived, in names: what the proved writer wrote, shown after the proved checker accepted it."""

from collections.abc import Sequence

from .causes import Refusal
from .faults import Fault
from .library import called, rabbitsteel
from .model import Book, Role, chain_words


def derivation(data: bytes, role: int, chain: bytes) -> Sequence[rabbitsteel.Step] | Refusal | None:
    """The steps from the role to the chain, or none where it is not derived. None that the checker does not accept."""
    written = called(rabbitsteel.write_derivation, data, role, chain)
    if written is None or isinstance(written, Refusal):
        return written
    accepted = called(rabbitsteel.check_derivation, data, role, chain, written)
    if isinstance(accepted, Refusal):
        return accepted
    if not accepted:
        raise Fault("the checker does not accept what the writer of derivations wrote")
    return written.steps


def lines(book: Book, asked: Role, steps: Sequence[rabbitsteel.Step]) -> list[str]:
    """The asked role, then a line a step: the chain after it, brackets around the links put in, and the rule."""
    chain: list[Role] = [asked]
    shown, rules = [str(asked)], [""]
    for step in steps:
        rule = book.rules[step.rule]
        left = (rule.mirror() if step.inverse else rule).left
        before, after = chain[: step.place], chain[step.place + 1 :]
        chain = [*before, *left, *after]
        shown.append(" ".join([*map(str, before), f"[{chain_words(left)}]", *map(str, after)]))
        rules.append(f"by {'inverse of ' if step.inverse else ''}rule {step.rule}, {rule}")
    width = max(map(len, shown))
    return [f"{text:{width}}  {rule}".rstrip() for text, rule in zip(shown, rules)]
