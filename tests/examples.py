"""The example models of a post house: examples/NAME.model, what each is in NAME.txt, what it prints in NAME.plan.

    python3 -B tests/examples.py            writes the models and the texts
    python3 -B tests/examples.py COMMAND ...    runs COMMAND on each and compares what it prints with NAME.plan
    python3 -B tests/examples.py --check    that the committed models and texts are those of this table
"""
import pathlib
import subprocess
import sys

from records import *

HERE = pathlib.Path(__file__).resolve().parent.parent / 'examples'


def two_jobs():
    """Two jobs and one suite. Both want the edit suite at once and keep it for three hours: the second waits, as item 1 of
    its claim, the suite, is lacking, and gets it when the first has given it back."""
    return (RES(1) + CLASS(0) + ENTITY(0) + ENTITY(0)
            + BLOCK() + REQ(getR(0)) + HOLD(literal(3)) + PUTR(0, 1))


def grade():
    """The grade that queued for a room. The theatre (resource 0) is taken by a screening until 4. The feature (process 2)
    wants theatre and colour desk (1) together and waits: its line ends in 1, as the theatre, item 1 of its claim, is
    lacking. A wedding (3) that wants only the desk is barred, and its line ends in -1, though the desk is free: it would
    take a part of what the feature waits for. The trailer (4) has the higher priority, so nobody in front of it bars it,
    and it gets the desk at once."""
    return (RES(1) + RES(1) + CLASS(0) + CLASS(1) + CLASS(2) + CLASS(3)
            + ENTITY(0, 0) + ENTITY(1, 1) + ENTITY(2, 2) + ENTITY(3, 3)
            + BLOCK() + REQ(getR(0)) + HOLD(literal(4)) + PUTR(0, 1)
            + BLOCK() + REQ(getR(0), getR(1)) + HOLD(literal(5)) + PUTR(1, 1) + PUTR(0, 1)
            + BLOCK() + REQ(getR(1)) + HOLD(literal(2)) + PUTR(1, 1)
            + BLOCK() + PRIO(literal(10)) + REQ(getR(1)) + HOLD(literal(2)) + PUTR(1, 1))


def crowded_day():
    """A crowded day. Ten jobs and three more over two suites (0), one theatre (1) and three decks (2): weddings take a
    suite and a deck, trailers whichever comes first of theatre or suite, the feature both rooms, twice; each writes
    when it is done (TRACE). Every fourth hour the desk starts another wedding. The trailers that come at 2 and at 3 are
    barred (-1): the feature waits for both rooms. Everybody else who waits lacks a room, item 1 of what it claims first."""
    wedding = REQ(getR(0), getR(2)) + HOLD(literal(3)) + PUTR(0, 1) + PUTR(2, 1) + TRACE(CLOCK)
    trailer = TRY(branch(4, getR(1)), branch(5, getR(0))) + TRACE(CLOCK)
    feature = PRIO(literal(5)) + DO(2, 7) + TRACE(CLOCK)
    return (RES(2) + RES(1) + RES(3) + CLASS(0) + CLASS(2) + CLASS(3) + CLASS(6)
            + ENTITY(0, 0)
            + b''.join(ENTITY(1, t) for t in (0, 0, 1, 1, 2))
            + b''.join(ENTITY(2, t) for t in (0, 1, 2, 3))
            + ENTITY(3, 1)
            + BLOCK() + DO(3, 1)
            + BLOCK() + HOLD(literal(4)) + START(1, 0)
            + BLOCK() + wedding
            + BLOCK() + trailer
            + BLOCK() + HOLD(literal(2)) + PUTR(1, 1)
            + BLOCK() + HOLD(literal(4)) + PUTR(0, 1)
            + BLOCK() + feature
            + BLOCK() + REQ(getR(0), getR(1)) + HOLD(literal(3)) + PUTR(0, 1) + PUTR(1, 1))


def runners():
    """Syncs as runners. Two runners report for work (BECOME) and wait; a session claims one (getS), sends it for tapes for
    two hours and lets it go (PUTS), upon which the runner goes home. A second session has to wait for a second runner."""
    return (SYNC() + CLASS(0) + CLASS(1)
            + ENTITY(1, 0) + ENTITY(0, 1) + ENTITY(1, 2) + ENTITY(0, 3)
            + BLOCK() + BECOME(0) + TRACE(CLOCK)
            + BLOCK() + REQ(getS(0)) + HOLD(literal(2)) + PUTS(0, 1))


def night_render():
    """A render queue by night. Frames stand in a bin; a render takes ten at a time as long as there are that many and the
    switch (variable 0) is on; at six the switch goes off, and whatever is left stays in the bin."""
    return (RES(1) + BIN(45) + VAR(1) + CLASS(0) + CLASS(2)
            + ENTITY(0, 0) + ENTITY(1, 6)
            + BLOCK() + WHILE(1, getB(0, 10), condition(0, 3, 1)) + TRACE(CLOCK)
            + BLOCK() + REQ(getR(0)) + HOLD(literal(2)) + PUTR(0, 1)
            + BLOCK() + SET(0, literal(0)))


def one_deck_too_many():
    """One that faults. The wedding claims one deck and gives back two: fault 24, and that step isn't made."""
    return (RES(3) + CLASS(0) + ENTITY(0)
            + BLOCK() + REQ(getR(0, 1)) + HOLD(literal(1)) + PUTR(0, 2))


def sampled_day():
    """A day with sampled times. A grade takes four to seven hours, not five (sampler 0, seed 1), and then the client talks
    for none to two hours more (sampler 1, seed 2). Three features want the one suite. Each draws its hours when it has the
    suite, writes them (TRACE) and keeps the suite so long. The first two draws from the seeds are 7 and 2, then come 5 and
    2, then 5 and 0: so 9, 7 and 5 hours. The seeds stand in the file, so the plan is the same each time."""
    return (RES(1) + SAMPLER(4, 7, 1) + SAMPLER(0, 2, 2) + CLASS(0)
            + ENTITY(0, 0) + ENTITY(0, 1) + ENTITY(0, 2)
            + BLOCK() + REQ(getR(0)) + LSET(0, ADD, draw(0), draw(1)) + TRACE(local(0)) + HOLD(local(0)) + PUTR(0, 1))


# A render farm: each hour the desk starts a trailer, which takes a licence for two hours; after twelve hours the house closes.
FARM = (BLOCK() + DO(12, 1) + CLOSE()
        + BLOCK() + START(1, 0) + HOLD(literal(1))
        + BLOCK() + REQ(getR(0, 1)) + HOLD(literal(2)) + PUTR(0, 1))


def trailers_all_day():
    """Trailers all day. The render farm has three licences (resource 0). Each hour from 0 to 11 the desk (process 1) starts a
    trailer, which takes one licence for two hours. So two of the three are taken all day: every trailer gets one at once
    and nobody waits. At 12 the house closes. Next to this read feature-among-trailers: the same day with one job more."""
    return RES(3) + CLASS(0) + CLASS(2) + ENTITY(0) + FARM


def feature_among_trailers():
    """A feature among the trailers. It is the day of trailers-all-day: three render licences (resource 0), and each hour a
    trailer that takes one for two hours. At 3 a feature (process 2) comes and needs all three at once, for three hours.
    Only one is free, so it waits: its line ends in 1, the licences, item 1 of its claim, are lacking. From then on no
    trailer takes a licence before it. The trailers that come at 3 and at 4 (processes 6 and 7) are barred, and their lines
    end in -1, though at 3 one licence is free and at 4 two are: the feature waits ahead of them for more of the same. So
    the licences come together, and at 4 the feature has its three. The trailers from 5 on lack a licence (1), since all
    are taken; those that wait want one each as they do, and equal claims don't bar one another. At 7 the feature gives
    back all three, and the trailers go on in the order in which they came. If amounts didn't count in barring, each of
    these trailers would get a licence when it comes, and the feature would still wait at 12, when the house closes."""
    return (RES(3) + CLASS(0) + CLASS(2) + CLASS(3) + ENTITY(0) + ENTITY(2, 3)
            + FARM + BLOCK() + REQ(getR(0, 3)) + HOLD(literal(3)) + PUTR(0, 3))


EXAMPLES = [two_jobs, grade, crowded_day, runners, night_render, one_deck_too_many, sampled_day, trailers_all_day,
            feature_among_trailers]


def files(example):
    name = example.__name__.replace('_', '-')
    text = '\n'.join(line.strip() for line in example.__doc__.split('\n')) + '\n'
    return HERE / (name + '.model'), example(), HERE / (name + '.txt'), text, HERE / (name + '.plan')


def main(words):
    failed = 0
    for example in EXAMPLES:
        model, data, about, text, plan = files(example)
        if not words:
            model.write_bytes(data)
            about.write_text(text)
        elif words == ['--check']:
            if model.read_bytes() != data or about.read_text() != text:
                failed += 1
                print('%s: the committed files are not those of the table' % model.name)
        else:
            told = subprocess.run(words, input=data, capture_output=True, check=False).stdout
            if told != plan.read_bytes():
                failed += 1
                print('%s: %s prints\n%s' % (model.name, words[-1], told.decode()))
    return failed


if __name__ == '__main__':
    sys.exit(1 if main(sys.argv[1:]) else 0)
