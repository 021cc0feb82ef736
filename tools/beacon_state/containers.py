"""The containers of a state, by fork.

Altair: altair/beacon_state.rs, phase0/validator.rs and phase0/operations.rs of ralexstokes/ethereum-consensus, and the
public text for Fork, BeaconBlockHeader and SyncCommittee. Bellatrix to Fulu: the public text, from knowledge."""
from .ssz import Bits, Boolean, ByteList, Bytes, Container, List, Uint, Vector

FORKS = ("altair", "bellatrix", "capella", "deneb", "electra", "fulu")
# what no state is read of, but is told by its name
OTHERS = ("phase0", "gloas")
U8, U64, U256 = Uint(1), Uint(8), Uint(32)
Root = Hash = Bytes(32)
PublicKey = Bytes(48)

Fork = Container(("previous_version", Bytes(4)), ("current_version", Bytes(4)), ("epoch", U64))
Checkpoint = Container(("epoch", U64), ("root", Root))
Eth1Data = Container(("deposit_root", Root), ("deposit_count", U64), ("block_hash", Hash))
BeaconBlockHeader = Container(
    ("slot", U64), ("proposer_index", U64), ("parent_root", Root), ("state_root", Root), ("body_root", Root)
)
Validator = Container(
    ("pubkey", PublicKey),
    ("withdrawal_credentials", Bytes(32)),
    ("effective_balance", U64),
    ("slashed", Boolean()),
    ("activation_eligibility_epoch", U64),
    ("activation_epoch", U64),
    ("exit_epoch", U64),
    ("withdrawable_epoch", U64),
)
HistoricalSummary = Container(("block_summary_root", Root), ("state_summary_root", Root))
PendingDeposit = Container(
    ("pubkey", PublicKey), ("withdrawal_credentials", Bytes(32)), ("amount", U64), ("signature", Bytes(96)), ("slot", U64)
)
PendingPartialWithdrawal = Container(("validator_index", U64), ("amount", U64), ("withdrawable_epoch", U64))
PendingConsolidation = Container(("source_index", U64), ("target_index", U64))


def from_on(fork, first):
    """Whether a fork is this one or a later one."""
    return FORKS.index(fork) >= FORKS.index(first)


def execution_payload_header(fork, sizes):
    fields = [
        ("parent_hash", Hash),
        ("fee_recipient", Bytes(20)),
        ("state_root", Root),
        ("receipts_root", Root),
        ("logs_bloom", Bytes(sizes["BYTES_PER_LOGS_BLOOM"])),
        ("prev_randao", Bytes(32)),
        ("block_number", U64),
        ("gas_limit", U64),
        ("gas_used", U64),
        ("timestamp", U64),
        ("extra_data", ByteList(sizes["MAX_EXTRA_DATA_BYTES"])),
        ("base_fee_per_gas", U256),
        ("block_hash", Hash),
        ("transactions_root", Root),
    ]
    if from_on(fork, "capella"):
        fields.append(("withdrawals_root", Root))
    if from_on(fork, "deneb"):
        fields += [("blob_gas_used", U64), ("excess_blob_gas", U64)]
    return Container(*fields)


def beacon_state(fork, sizes):
    """The state of a fork; sizes has the preset's names."""
    roots = Vector(Root, sizes["SLOTS_PER_HISTORICAL_ROOT"])
    registry = sizes["VALIDATOR_REGISTRY_LIMIT"]
    committee = Container(("pubkeys", Vector(PublicKey, sizes["SYNC_COMMITTEE_SIZE"])), ("aggregate_pubkey", PublicKey))
    fields = [
        ("genesis_time", U64),
        ("genesis_validators_root", Root),
        ("slot", U64),
        ("fork", Fork),
        ("latest_block_header", BeaconBlockHeader),
        ("block_roots", roots),
        ("state_roots", roots),
        ("historical_roots", List(Root, sizes["HISTORICAL_ROOTS_LIMIT"])),
        ("eth1_data", Eth1Data),
        ("eth1_data_votes", List(Eth1Data, sizes["EPOCHS_PER_ETH1_VOTING_PERIOD"] * sizes["SLOTS_PER_EPOCH"])),
        ("eth1_deposit_index", U64),
        ("validators", List(Validator, registry)),
        ("balances", List(U64, registry)),
        ("randao_mixes", Vector(Bytes(32), sizes["EPOCHS_PER_HISTORICAL_VECTOR"])),
        ("slashings", Vector(U64, sizes["EPOCHS_PER_SLASHINGS_VECTOR"])),
        ("previous_epoch_participation", List(U8, registry)),
        ("current_epoch_participation", List(U8, registry)),
        ("justification_bits", Bits(4)),
        ("previous_justified_checkpoint", Checkpoint),
        ("current_justified_checkpoint", Checkpoint),
        ("finalized_checkpoint", Checkpoint),
        ("inactivity_scores", List(U64, registry)),
        ("current_sync_committee", committee),
        ("next_sync_committee", committee),
    ]
    if from_on(fork, "bellatrix"):
        fields.append(("latest_execution_payload_header", execution_payload_header(fork, sizes)))
    if from_on(fork, "capella"):
        fields += [
            ("next_withdrawal_index", U64),
            ("next_withdrawal_validator_index", U64),
            ("historical_summaries", List(HistoricalSummary, sizes["HISTORICAL_ROOTS_LIMIT"])),
        ]
    if from_on(fork, "electra"):
        fields += [
            ("deposit_requests_start_index", U64),
            ("deposit_balance_to_consume", U64),
            ("exit_balance_to_consume", U64),
            ("earliest_exit_epoch", U64),
            ("consolidation_balance_to_consume", U64),
            ("earliest_consolidation_epoch", U64),
            ("pending_deposits", List(PendingDeposit, sizes["PENDING_DEPOSITS_LIMIT"])),
            ("pending_partial_withdrawals", List(PendingPartialWithdrawal, sizes["PENDING_PARTIAL_WITHDRAWALS_LIMIT"])),
            ("pending_consolidations", List(PendingConsolidation, sizes["PENDING_CONSOLIDATIONS_LIMIT"])),
        ]
    if fork == "fulu":
        slots = (sizes["MIN_SEED_LOOKAHEAD"] + 1) * sizes["SLOTS_PER_EPOCH"]
        fields.append(("proposer_lookahead", Vector(U64, slots)))
    return Container(*fields)
