#!/usr/bin/env python3
"""Plots the table that bsdudp-study prints: a mark for each measured share of datagrams that arrived, and a line for
the law."""
import argparse
import csv

# all lengths of a datagram
ALL = range(9217)


def main():
    parser = argparse.ArgumentParser(description=__doc__)
    parser.add_argument("table", metavar="TABLE", help="what bsdudp-study printed")
    parser.add_argument("picture", metavar="PICTURE", help="the file to be written, as study.png")
    said = parser.parse_args()
    import matplotlib

    matplotlib.use("Agg")
    import matplotlib.pyplot as plt

    with open(said.table, encoding="utf-8") as table:
        rows = list(csv.DictReader(table))
    figure, axes = plt.subplots(figsize=(8, 5))
    for number, loss in enumerate(sorted({row["loss"] for row in rows}, key=float)):
        of_loss = [row for row in rows if row["loss"] == loss]
        lengths = [int(row["bytes"]) for row in of_loss]

        def column(name):
            return [float(row[name]) for row in of_loss]

        color = f"C{number}"
        law = [(1 - float(loss)) ** ((length + 8 + 1479) // 1480) for length in ALL]
        axes.plot(ALL, law, color=color, label=f"loss {float(loss):.0%}: (1 - loss)^packets")
        axes.plot(lengths, column("ns3"), "s", color=color, fillstyle="none", markersize=11, label="ns-3's own stack")
        axes.plot(lengths, column("bsdudp"), "x", color=color, label="bsdudp")
    axes.set_xlabel("bytes of a datagram, at MTU 1500")
    axes.set_ylabel("share of the datagrams that came through")
    axes.set_ylim(0, 1.02)
    axes.legend(ncol=3, fontsize="small", loc="upper center", bbox_to_anchor=(0.5, 1.2))
    figure.savefig(said.picture, dpi=120, bbox_inches="tight")


main()
