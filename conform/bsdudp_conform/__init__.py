"""A judge of UDP/IPv4 stacks: the command bsdudp-conform, and `bsdudp_conform.kit` for adapters in Python."""
