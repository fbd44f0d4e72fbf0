"""Adapters that come with the judge: bsdudp itself, and Linux."""
