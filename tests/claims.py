"""What the jobs of a model may lack, read from its bytes: tests/desk.py holds the desk's words against it.

It has a reading of its own of the records that matter, and words of its own. It doesn't know where a job stands: it may lack an
item of the first claim of any REQ or TRY that its class comes to.
"""
import operator
import re
import struct

CLASS, BLOCK, ENTITY, DO, REQ, TRY, WHILE = 5, 6, 7, 20, 25, 26, 27
# By the item's kind: what it asks for, and how much there is. By the relation: in words, and whether it holds.
THINGS = {0: ('of resource', 'free'), 1: ('of bin', 'there'), 2: ('at sync', 'waiting')}
RELATIONS = {
    1: ('below', operator.lt), 2: ('at most', operator.le), 3: ('equal to', operator.eq), 4: ('other than', operator.ne),
    5: ('at least', operator.ge), 6: ('above', operator.gt),
}


def records(model):
    at = 0
    while at < len(model):
        length, kind = struct.unpack_from('<HH', model, at)
        yield kind, model[at + 4:at + 2 + length]
        at += 2 + length


def number(body, at=0):
    return struct.unpack_from('<H', body, at)[0]


def claim(body, at):
    """The items of the claim that begins here, and where it ends."""
    end = at + 2 + 8 * number(body, at)
    return [struct.unpack_from('<BBHi', body, place) for place in range(at + 2, end, 8)], end


def branches(body):
    """Of each branch of a TRY its block and its claim."""
    at = 2
    for _ in range(number(body)):
        items, end = claim(body, at + 2)
        yield number(body, at), items
        at = end


def lacking(item, text):
    """Whether the text says this item, and so much there that it is lacking."""
    kind, relation, thing, amount = item
    if kind == 3:
        words, holds = RELATIONS[relation]
        found = re.fullmatch(r'variable %d %s %d \(now (-?\d+)\)' % (thing, words, amount), text)
        return bool(found) and not holds(int(found[1]), amount)
    asks, there = THINGS[kind]
    found = re.fullmatch(r'%d %s %d \((\d+) %s\)' % (amount, asks, thing, there), text)
    return bool(found) and int(found[1]) < amount


class Claims:
    """The first claims of a model, block by block, and the class of each job as far as it is known."""

    def __init__(self, model):
        self.bodies, self.classes, self.first, self.named = [], {}, [], []
        for kind, body in records(model):
            if kind == CLASS:
                self.bodies.append(number(body))
            elif kind == ENTITY:
                self.starts(len(self.classes) + 1, number(body))
            elif kind == BLOCK:
                self.first.append([])
                self.named.append([])
            else:
                self.reads(kind, body)

    def reads(self, kind, body):
        if kind == REQ:
            self.first[-1].append(claim(body, 0)[0])
        elif kind == TRY:
            offers = list(branches(body))
            self.first[-1].append(offers[0][1])
            self.named[-1] += [block for block, _ in offers]
        elif kind in (DO, WHILE):
            self.named[-1].append(number(body, 2 if kind == DO else 0))

    def starts(self, job, class_):
        self.classes[job] = class_

    def of_block(self, block):
        return self.first[block] + [items for below in self.named[block] for items in self.of_block(below)]

    def lacks(self, job, item, text):
        """Whether a job may lack an item of this number, from 1, as the text says."""
        return any(item <= len(items) and lacking(items[item - 1], text)
                   for items in self.of_block(self.bodies[self.classes[job]]))
