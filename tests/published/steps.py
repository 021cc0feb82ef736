"""The library's eight steps on record files, through its Python module: the one place that names it."""
import altair_close as library

Refused = library.Refused


def _by_finalized_epoch(step):
    return lambda r: r._replace(registry=step(r.settings, r.finality.slot, r.finality.finalized_checkpoint.epoch, r.registry))


def _registry_updates(r):
    finalized = r.finality.finalized_checkpoint.epoch
    return r._replace(**library.process_registry_updates(r.settings, r.finality.slot, finalized, r.queue, r.registry)._asdict())


# by the names that the published tests give them, in the order of the close
STEPS = {
    "justification_and_finalization": lambda r: r._replace(
        finality=library.process_justification_and_finalization(r.settings, r.roots, r.finality, r.registry).finality
    ),
    "inactivity_updates": _by_finalized_epoch(library.process_inactivity_updates),
    "rewards_and_penalties": _by_finalized_epoch(library.process_rewards_and_penalties),
    "registry_updates": _registry_updates,
    "slashings": lambda r: r._replace(registry=library.process_slashings(r.settings, r.finality.slot, r.slashings, r.registry)),
    "effective_balance_updates": lambda r: r._replace(registry=library.process_effective_balance_updates(r.settings, r.registry)),
    "slashings_reset": lambda r: r._replace(slashings=library.process_slashings_reset(r.settings, r.finality.slot, r.slashings)),
    "participation_flag_updates": lambda r: r._replace(registry=library.process_participation_flag_updates(r.registry)),
}


def after(step, file):
    """The record file after a step of the record in a file; Refused where the library refuses it."""
    return STEPS[step](library.Record.read(file)).write()
