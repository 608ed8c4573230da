#!/usr/bin/env python3
"""Prints a market file with priorities, a tree, tenants and full rankings, for measurements.

usage: make_market.py AGENTS PLACES NODES
The same arguments print the same file. NODES is at most PLACES * (PLACES + 2).
"""
import random
import sys


def shuffled(count):
    numbers = list(range(1, count + 1))
    random.shuffle(numbers)
    return " ".join(map(str, numbers))


def nodes(places, count):
    """A root for each place, and below it children by took number."""
    roots = [(place, 0, 0) for place in range(1, places + 1)]
    children = [(place, place, took) for took in range(places + 1) for place in range(1, places + 1)]
    return (roots + children)[:count]


def market(agents, count, tree):
    places = range(1, count + 1)
    yield f"M {agents} {count}"
    yield f"C {count} 0 {count} {tree} {count} {agents}"
    for place in places:
        yield f"S {place} {random.randint(1, 200)}"
    for place in places:
        yield f"P {place} {shuffled(agents)}"
    for place, parent, took in nodes(count, tree):
        yield f"H {place} {parent} {took} {random.randint(1, agents)}"
    for place in places:
        yield f"T {place} {random.randint(1, agents)}"
    for agent in range(1, agents + 1):
        yield f"R {agent} {shuffled(count)}"


if __name__ == "__main__":
    random.seed(1)
    for line in market(*map(int, sys.argv[1:4])):
        print(line)
