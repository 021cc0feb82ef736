"""Amounts as they are printed. The ledger's unit is the Gwei; 10^9 Gwei are an ETH."""
GWEI = 10**9
UNITS = "amounts are in Gwei; 1 ETH is 1000000000 Gwei"


def eth(gwei):
    """All nine places, with a minus sign for a loss."""
    whole, rest = divmod(abs(gwei), GWEI)
    return f"{'-' if gwei < 0 else ''}{whole}.{rest:09d}"


def signed(gwei):
    return f"+{gwei}" if gwei > 0 else str(gwei)
