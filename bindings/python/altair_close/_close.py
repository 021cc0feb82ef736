"""The whole close, and the lines of its listing, asked for together."""
from typing import Iterator, Optional, Sequence

from ._signatures import SIGNATURES, buffers, call, function, lend, pair_of, promised, refused
from ._types import (VALIDATOR_LENGTH, Buffer, BytesLike, Closed, DenebRules, DepositNumbers, ElectraClosed, ElectraRules, ExitChurn,
                     ExitQueue, Finality, Line, NumbersLike, StoreLike)


@promised
def close(store: StoreLike, finality: Finality, queue: Optional[ExitQueue], registry: NumbersLike, slashings: NumbersLike, roots: BytesLike,
          *, out: Sequence[Optional[Buffer]] = (None, None, None)) -> Closed:
    """It gives Closed. `store` is a Store, or Rules, or Settings, by which it closes as Altair. `queue` is the exit queue's pair of the
    registry, or None, and it is worked out. `out` is the three buffers."""
    lent = buffers(out, "registry", "slashings", "amounts")
    return call("close", store, finality, pair_of(queue, registry), registry, slashings, roots, *lent).went_by(store)


@promised
def deneb_close(rules: DenebRules, finality: Finality, queue: Optional[ExitQueue], registry: NumbersLike, slashings: NumbersLike,
                roots: BytesLike, *, out: Sequence[Optional[Buffer]] = (None, None, None)) -> Closed:
    """It gives Closed. `queue` and `out` are as those of close."""
    lent = buffers(out, "registry", "slashings", "amounts")
    return call("deneb_close", rules, finality, pair_of(queue, registry), registry, slashings, roots, *lent).went_by(rules)


@promised
def electra_close(rules: ElectraRules, finality: Finality, churn: ExitChurn, numbers: DepositNumbers, registry: NumbersLike,
                  compounding: NumbersLike, slashings: NumbersLike, roots: BytesLike, deposits: NumbersLike, consolidations: NumbersLike,
                  *, out: Sequence[Optional[Buffer]] = (None,) * 6) -> ElectraClosed:
    """It gives ElectraClosed. `out` is the six closing buffers; with D deposits the registry has room for N + D validators, as have
    compounding and amounts, and the others are as long as the opening's. A list to work in is made."""
    lent = buffers(out, "registry", "compounding", "slashings", "deposits", "consolidations", "amounts")
    return call("electra_close", rules, finality, churn, numbers, registry, compounding, slashings, roots, deposits, consolidations,
                *lent, None)


def listing_lines(opening: NumbersLike, closing: NumbersLike) -> Iterator[Line]:
    """Every validator's line, in order. The registries are checked and lent once. A listing is only `refused 7` where one of
    its lines is: take all of them before the first is printed."""
    lent: dict = {}
    *words, _ = lend("listing_line", (opening, closing, 0), lent)
    line, answered = function("listing_line"), SIGNATURES["listing_line"].answer
    for index in range(lent["opening"].count // VALIDATOR_LENGTH):
        answer = line(*words, index)
        number, given = answered.read(answer)
        if number != 0:
            raise refused("listing_line", [*words, index], number, answer)
        yield given
