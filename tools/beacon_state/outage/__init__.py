"""What an absence costs: a number of epochs tried from a record on, with some validators away."""
