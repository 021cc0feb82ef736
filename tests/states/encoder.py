"""States for the tests, and their SSZ, JSON and record file, written by hand: nothing of the tool is used."""
import json
import struct
from itertools import accumulate

FAR = 2**64 - 1
FORKS = ("altair", "bellatrix", "capella", "deneb", "electra", "fulu")
SINCE = {fork: FORKS[k:] for k, fork in enumerate(FORKS)}
# slots an epoch, block roots, randao mixes, slashings, sync committee
SIZES = {"mainnet": (32, 8192, 65536, 8192, 512), "minimal": (8, 64, 64, 64, 32)}
# document 01's order
SETTINGS = {
    "mainnet": (32, 8192, 8192, 10**9, 32 * 10**9, 4, 1, 5, 64, 4, 4, 16, 50331648, 2, 4, 256, 16 * 10**9, 4, 65536),
    "minimal": (8, 64, 64, 10**9, 32 * 10**9, 4, 1, 5, 64, 4, 4, 16, 50331648, 2, 4, 256, 16 * 10**9, 2, 32),
}
BELLATRIX_PAIR = (16777216, 3)


def random_state(rng, preset, fork, validators, others):
    """A state with so many validators, and `others` entries in each other list."""
    _, roots, mixes, slashings, committee = SIZES[preset]
    u64 = lambda: rng.choice([0, 1, 32 * 10**9, FAR, rng.getrandbits(64)])
    many = lambda count, size: [rng.randbytes(size) for _ in range(count)]
    checkpoint = lambda: {"epoch": u64(), "root": rng.randbytes(32)}
    eth1 = lambda: {"deposit_root": rng.randbytes(32), "deposit_count": u64(), "block_hash": rng.randbytes(32)}
    sync = lambda: {"pubkeys": many(committee, 48), "aggregate_pubkey": rng.randbytes(48)}
    state = {
        "genesis_time": rng.getrandbits(33),
        "genesis_validators_root": rng.randbytes(32),
        "slot": rng.getrandbits(40),
        "fork": {"previous_version": rng.randbytes(4), "current_version": rng.randbytes(4), "epoch": u64()},
        "latest_block_header": {
            "slot": u64(),
            "proposer_index": u64(),
            "parent_root": rng.randbytes(32),
            "state_root": rng.randbytes(32),
            "body_root": rng.randbytes(32),
        },
        "block_roots": many(roots, 32),
        "state_roots": many(roots, 32),
        "historical_roots": many(others, 32),
        "eth1_data": eth1(),
        "eth1_data_votes": [eth1() for _ in range(others)],
        "eth1_deposit_index": u64(),
        "validators": [
            {
                "pubkey": rng.randbytes(48),
                "withdrawal_credentials": rng.randbytes(32),
                "effective_balance": u64(),
                "slashed": rng.random() < 0.5,
                "activation_eligibility_epoch": u64(),
                "activation_epoch": u64(),
                "exit_epoch": u64(),
                "withdrawable_epoch": u64(),
            }
            for _ in range(validators)
        ],
        "balances": [u64() for _ in range(validators)],
        "randao_mixes": many(mixes, 32),
        "slashings": [u64() for _ in range(slashings)],
        "previous_epoch_participation": [rng.randrange(256) for _ in range(validators)],
        "current_epoch_participation": [rng.randrange(256) for _ in range(validators)],
        "justification_bits": bytes([rng.randrange(16)]),
        "previous_justified_checkpoint": checkpoint(),
        "current_justified_checkpoint": checkpoint(),
        "finalized_checkpoint": checkpoint(),
        "inactivity_scores": [u64() for _ in range(validators)],
        "current_sync_committee": sync(),
        "next_sync_committee": sync(),
    }
    if fork in SINCE["bellatrix"]:
        state["latest_execution_payload_header"] = {
            "parent_hash": rng.randbytes(32),
            "fee_recipient": rng.randbytes(20),
            "state_root": rng.randbytes(32),
            "receipts_root": rng.randbytes(32),
            "logs_bloom": rng.randbytes(256),
            "prev_randao": rng.randbytes(32),
            "block_number": u64(),
            "gas_limit": u64(),
            "gas_used": u64(),
            "timestamp": u64(),
            "extra_data": rng.randbytes(rng.choice([0, 1, 32])),
            "base_fee_per_gas": rng.choice([0, 7, 2**256 - 1]),
            "block_hash": rng.randbytes(32),
            "transactions_root": rng.randbytes(32),
        }
        header = state["latest_execution_payload_header"]
        header.update({"withdrawals_root": rng.randbytes(32)} if fork in SINCE["capella"] else {})
        header.update({"blob_gas_used": u64(), "excess_blob_gas": u64()} if fork in SINCE["deneb"] else {})
    if fork in SINCE["capella"]:
        state["next_withdrawal_index"], state["next_withdrawal_validator_index"] = u64(), u64()
        summary = lambda: {"block_summary_root": rng.randbytes(32), "state_summary_root": rng.randbytes(32)}
        state["historical_summaries"] = [summary() for _ in range(others)]
    if fork in SINCE["electra"]:
        for name in AFTER_CAPELLA:
            state[name] = u64()
        state["pending_deposits"] = [random_deposit(rng, state["validators"], u64) for _ in range(2 * others)]
        partial = lambda: {"validator_index": u64(), "amount": u64(), "withdrawable_epoch": u64()}
        state["pending_partial_withdrawals"] = [partial() for _ in range(others)]
        state["pending_consolidations"] = [{"source_index": u64(), "target_index": u64()} for _ in range(others)]
    if fork == "fulu":
        state["proposer_lookahead"] = [u64() for _ in range(2 * SIZES[preset][0])]
    return state


AFTER_CAPELLA = """deposit_requests_start_index deposit_balance_to_consume exit_balance_to_consume earliest_exit_epoch
consolidation_balance_to_consume earliest_consolidation_epoch""".split()


def random_deposit(rng, validators, u64):
    """A deposit for a validator that is there, for one of two keys that nobody has, or for a key of its own."""
    key = rng.choice([v["pubkey"] for v in validators] + [b"A" * 48, b"B" * 48, rng.randbytes(48)])
    credentials = bytes([rng.choice([0, 1, 2, 3])]) + rng.randbytes(31)
    return {"pubkey": key, "withdrawal_credentials": credentials, "amount": u64(), "signature": rng.randbytes(96), "slot": u64()}


def words(*numbers):
    return struct.pack(f"<{len(numbers)}Q", *numbers)


def ssz(s, times=1):
    """The SSZ bytes: the fixed part with its offsets, then the lists, those with an entry a validator so many times over."""
    eth1 = lambda e: e["deposit_root"] + words(e["deposit_count"]) + e["block_hash"]
    checkpoint = lambda c: words(c["epoch"]) + c["root"]
    sync = lambda c: b"".join(c["pubkeys"]) + c["aggregate_pubkey"]
    tail = [
        b"".join(s["historical_roots"]),
        b"".join(map(eth1, s["eth1_data_votes"])),
        b"".join(
            v["pubkey"] + v["withdrawal_credentials"] + words(v["effective_balance"]) + bytes([v["slashed"]])
            + words(v["activation_eligibility_epoch"], v["activation_epoch"], v["exit_epoch"], v["withdrawable_epoch"])
            for v in s["validators"]
        ),
        words(*s["balances"]),
        bytes(s["previous_epoch_participation"]),
        bytes(s["current_epoch_participation"]),
        words(*s["inactivity_scores"]),
    ]
    tail[2:] = [part * times for part in tail[2:]]
    payload = s.get("latest_execution_payload_header")
    if payload:
        p = payload
        tail.append(
            p["parent_hash"] + p["fee_recipient"] + p["state_root"] + p["receipts_root"] + p["logs_bloom"] + p["prev_randao"]
            + words(p["block_number"], p["gas_limit"], p["gas_used"], p["timestamp"])
            + struct.pack("<I", 536 + 32 * ("withdrawals_root" in p) + 16 * ("blob_gas_used" in p))
            + p["base_fee_per_gas"].to_bytes(32, "little")
            + p["block_hash"] + p["transactions_root"] + p.get("withdrawals_root", b"")
            + (words(p["blob_gas_used"], p["excess_blob_gas"]) if "blob_gas_used" in p else b"") + p["extra_data"]
        )
    if "historical_summaries" in s:
        tail.append(b"".join(h["block_summary_root"] + h["state_summary_root"] for h in s["historical_summaries"]))
    if "pending_deposits" in s:
        deposit = lambda d: d["pubkey"] + d["withdrawal_credentials"] + words(d["amount"]) + d["signature"] + words(d["slot"])
        tail.append(b"".join(map(deposit, s["pending_deposits"])))
        tail.append(b"".join(words(w["validator_index"], w["amount"], w["withdrawable_epoch"]) for w in s["pending_partial_withdrawals"]))
        tail.append(b"".join(words(c["source_index"], c["target_index"]) for c in s["pending_consolidations"]))

    def head(offsets):
        o = [struct.pack("<I", offset) for offset in offsets]
        f, h = s["fork"], s["latest_block_header"]
        parts = [
            words(s["genesis_time"]), s["genesis_validators_root"], words(s["slot"]),
            f["previous_version"], f["current_version"], words(f["epoch"]),
            words(h["slot"], h["proposer_index"]), h["parent_root"], h["state_root"], h["body_root"],
            *s["block_roots"], *s["state_roots"], o[0], eth1(s["eth1_data"]), o[1], words(s["eth1_deposit_index"]), o[2], o[3],
            *s["randao_mixes"], words(*s["slashings"]), o[4], o[5], s["justification_bits"],
            checkpoint(s["previous_justified_checkpoint"]), checkpoint(s["current_justified_checkpoint"]),
            checkpoint(s["finalized_checkpoint"]), o[6], sync(s["current_sync_committee"]), sync(s["next_sync_committee"]),
        ]  # fmt: skip
        parts += o[7:8]
        if "historical_summaries" in s:
            parts += [words(s["next_withdrawal_index"], s["next_withdrawal_validator_index"]), o[8]]
        if "pending_deposits" in s:
            parts += [words(*(s[name] for name in AFTER_CAPELLA)), *o[9:12]]
        return b"".join(parts) + words(*s.get("proposer_lookahead", ()))

    fixed = len(head([0] * len(tail)))
    offsets = list(accumulate([fixed] + [len(part) for part in tail[:-1]]))
    return head(offsets) + b"".join(tail)


def text(s, version=None, **layout):
    """The JSON of the Beacon API; with a version, inside the object that a node answers."""

    def printed(value):
        if isinstance(value, bool):
            return value
        if isinstance(value, int):
            return str(value)
        if isinstance(value, bytes):
            return "0x" + value.hex()
        if isinstance(value, list):
            return [printed(v) for v in value]
        return {name: printed(v) for name, v in value.items()}

    data = printed(s)
    answer = {"version": version, "execution_optimistic": False, "finalized": True, "data": data} if version else data
    return json.dumps(answer, **layout).encode()


def record(s, settings):
    """The record file of version 2, as documents 01 and 02 lay it out."""
    n, roots, slashings = len(s["validators"]), len(s["block_roots"]), len(s["slashings"])
    at = 384 + 80 * n
    parts = [words(2, at + 32 * roots + 8 * slashings, n, roots, slashings, 80, 232, 384, at, at + 32 * roots), words(*settings)]
    parts.append(words(s["slot"], s["justification_bits"][0]))
    for name in "previous_justified_checkpoint", "current_justified_checkpoint", "finalized_checkpoint":
        parts += [words(s[name]["epoch"]), s[name]["root"]]
    exits = sorted(v["exit_epoch"] for v in s["validators"] if v["exit_epoch"] < 2**64 - 1)
    parts.append(words(exits[-1], exits.count(exits[-1])) if exits else words(0, 0))
    for i, v in enumerate(s["validators"]):
        parts.append(
            words(
                v["effective_balance"], v["slashed"], v["activation_eligibility_epoch"], v["activation_epoch"], v["exit_epoch"],
                v["withdrawable_epoch"], s["balances"][i], s["previous_epoch_participation"][i],
                s["current_epoch_participation"][i], s["inactivity_scores"][i],
            )
        )  # fmt: skip
    return b"".join(parts + s["block_roots"] + [words(*s["slashings"])])
