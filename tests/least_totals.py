#!/usr/bin/env python3
"""Least totals, worked out from a text table in another way than the library does.

    least_totals.py TABLE DESTINATION WIDTH

For every site, the least weight, delay, jitter, charge and hops, and the greatest width, of all walks to the destination
over arcs of at least the width: shortest ways by a queue ordered by length, and the greatest width by trying each capacity.
Prints what `pathcomputer totals` prints.
"""
import heapq
import sys


def read(path):
    sites, arcs = 0, []
    for line in open(path, encoding="utf-8"):
        words = line.split("#")[0].split()
        if words[:1] == ["sites"]:
            sites = int(words[1])
        elif words[:1] == ["arc"]:
            arcs.append(tuple(map(int, words[1:])))
    return sites, arcs


def shortest(sites, arcs, destination, length):
    best = [None] * sites
    queue = [(0, destination)]
    while queue:
        so_far, site = heapq.heappop(queue)
        if best[site] is not None:
            continue
        best[site] = so_far
        for arc in arcs:
            if arc[1] == site and best[arc[0]] is None:
                heapq.heappush(queue, (so_far + length(arc), arc[0]))
    return best


def widest(sites, arcs, destination):
    best = [None] * sites
    for capacity in sorted({arc[6] for arc in arcs}):
        reached = shortest(sites, [a for a in arcs if a[6] >= capacity], destination, lambda a: 1)
        for site in range(sites):
            if reached[site] is not None:
                best[site] = capacity
    best[destination] = 255
    return best


def main():
    sites, arcs = read(sys.argv[1])
    destination, width = int(sys.argv[2]), int(sys.argv[3])
    usable = [arc for arc in arcs if arc[6] >= width]
    columns = [shortest(sites, usable, destination, lambda a, k=k: a[k]) for k in (2, 3, 4, 5)]
    columns.append(shortest(sites, usable, destination, lambda a: 1))
    columns.append(widest(sites, usable, destination))
    print("site  weight   delay  jitter  charge    hops   width")
    for site in range(sites):
        cells = ["-" if column[site] is None else str(column[site]) for column in columns]
        print(f"{site:>4}" + "".join(f" {cell:>7}" for cell in cells))
    reached = sum(total is not None for total in columns[0])
    print(f"{reached} of {sites} sites have a way to site {destination} at width {width}")


main()
