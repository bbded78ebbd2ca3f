"""A plain model of what `store run` answers: one private store for each job at each node, told of grants and messages."""
