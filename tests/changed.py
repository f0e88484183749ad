"""Told apart: engines with one rule changed, and how many models, or texts, the driver needs until it sees a difference.

    python3 -B tests/changed.py              the engine unchanged, then each change of CHANGES
    python3 -B tests/changed.py --edits      every must-fail edit of the engine's sources, which the prover refuses
    python3 -B tests/changed.py WORD ...     those of both whose name has one of the words

On demand, not in the gate. Each engine is the source compiled as Rust (tests/native.py) with one text put in place of another,
and linked to the driver as a shared library. A change of a crate text_* is driven with texts, any other with models. A line is
the change, the models or texts needed and what differed. The exit status is 0 if the unchanged engine has no difference and each
changed one has, but for those that no call can show (UNSEEN).
"""
import os
import re
import subprocess
import sys
import threading

import edits as must_fail
import native

FOLDER = native.ROOT / 'target' / 'changed'
DRIVER = FOLDER / 'driver'
# So many models or texts at most, of the driver's first seed; so many seconds at most for one change.
MODELS = 200000
SECONDS = 900

# What several changes of barring take away, and what they put there: the amounts of a claim as they are written.
SMALLER = 'file_claim::smaller_amounts(s, of, by);'
SAME_THINGS = 'if part & whole {'
LEFT_OF_Q = 'let mut left = file_fields::u16_at(s, q);'
IS_CONDITION = 'if item::GET_S < kind {'
COMPARED = 'let compared = compare(s, q, b, &rest[..item::BYTES]);'
NAMED_AMOUNTS = (
    'let named = |at: usize| {\n'
    '            let items = (0..file_fields::u16_at(s, at) as usize).map(move |i| &s[at + 2 + item::BYTES * i..]);\n'
    '            items.filter(|i| file_fields::u8_at(i, 0) <= item::GET_S).map(|i| file_fields::u32_at(i, 4))\n        };\n'
    '        ')
# Where the checks 1 to 7, and 8 and 9, are told at a record: there, and at the record after.
JUDGED = 'judge(seen, x.kind, &s[at + 4..end])'
NAMED = 'name(n, own, x.kind, &s[at + 4..end])'
PLACE_AT = '.map_err(|refusal| Refused {\n            refusal,\n            place: at,'
PLACE_END = PLACE_AT.replace('at,', 'end,')

# A change: its name, its crates, the text that it takes away and the text that it puts there.
CHANGES = [
    # ---- the lists
    ('a notice before equals', 'row_lists', 'n, key + 1)', 'n, key)'),
    ('a waiter before equals', 'row_lists', 'word::KEY * (key + 1))', 'word::KEY * key)'),
    ('lowest priority first among events', 'row_lists', '(code::HIGHEST - rank)', 'rank'),
    ('lowest priority first among waiters', 'row_lists',
     'code::HIGHEST - row_work::word(w, p, process::PRIORITY)', 'row_work::word(w, p, process::PRIORITY)'),
    ('returns before the lowest priority', 'row_lists', 'code::OF_RETURNS', '2147475648'),
    ('a return added at once', 'act_putr_putb',
     'row_lists::return_resource(w, i as u64, n, giver);',
     'w[8 + i] = w[8 + i] + n;\n    row_lists::return_resource(w, i as u64, 0, giver);'),
    ('the last waiting slave taken first', 'row_slaves',
     'let place = row_lists::take_waiting(w, i);',
     'let last = 455 + 64 * i + w[104 + i] as usize;\n    w.swap(456 + 64 * i, last);\n'
     '    let place = row_lists::take_waiting(w, i);'),
    # ---- the walk, and who is barred
    ('the walk stops at the first that can\'t go', 'act_walk', 'left = left - 1;',
     'left = if went == 0 { 0 } else { left - 1 };'),
    ('a walk grants one', 'act_walk', 'left = left - 1;', 'left = if went == 1 { 0 } else { left - 1 };'),
    ('a walk bars nobody', 'act_walk', 'row_grant::branch(s, map, w, action, k)', 'row_grant::branch(s, map, w, action, 0)'),
    ('SET doesn\'t walk', 'act_set_become', 'let lines = act_walk::walk(s, map, w, out, at);', 'let lines = 0;'),
    ('nobody on the floor is barred', 'act_req_try_while',
     'row_grant::choice(s, map, w, a, ahead)', 'row_grant::choice(s, map, w, a, 0)'),
    ('lower priorities bar too', 'act_req_try_while',
     'let ahead = row_lists::place_in_front(w, p);', 'let ahead = w[6] as usize;'),
    ('equal priority doesn\'t bar', 'act_req_try_while',
     'let ahead = row_lists::place_in_front(w, p);',
     'let own = 4294967295 - row_work::word(w, p, 1);\n'
     '    let ahead = (0..w[6] as usize).filter(|k| w[136 + k] / 64 < own).count();'),
    ('an overlap bars', 'file_bars',
     '!names_nothing(x) & part\n',
     '!whole & (((x.resources & y.resources) | (x.bins & y.bins) | (x.syncs & y.syncs)) != 0)\n'),
    ('a claim of nothing is barred', 'file_bars', '!names_nothing(x) & part\n', 'part\n'),
    ('one branch that is covered bars', 'file_bars',
     'if !covered(s, map, from, to, n) {\n            return false;\n        }',
     'if covered(s, map, from, to, n) {\n            return true;\n        }',
     '    true\n}', '    false\n}'),
    ('a barred TRY takes its second branch', 'row_grant',
     'if barred(s, map, w, a, k) {\n        return Choice::Waits(Reason::Barred);',
     'if barred(s, map, w, a, k) {\n'
     '        let some_met = matches!(row_claim::first_met(s, map, w, a), Choice::Goes(_));\n'
     '        if some_met & (file_map::branches_from(map, a + 1) - file_map::branches_from(map, a) > 1) {\n'
     '            return Choice::Goes(1);\n        }\n'
     '        return Choice::Waits(Reason::Barred);',
     'if barred(s, map, w, a, k) {\n        return Branch::Stays;',
     'if barred(s, map, w, a, k) {\n'
     '        if file_map::branches_from(map, a + 1) - file_map::branches_from(map, a) > 1 {\n'
     '            return Branch::Goes(1);\n        }\n'
     '        return Branch::Stays;'),
    # ---- which amounts bar
    ('amounts are not looked at', 'file_bars', SMALLER, 'false;'),
    ('the same things bar, whatever the amounts', 'file_bars', SMALLER, '!names_nothing(x);'),
    ('equal amounts bar', 'file_claim', 'smaller: of < by,', 'smaller: of <= by,'),
    ('the larger amounts are barred', 'file_bars', SMALLER, 'file_claim::smaller_amounts(s, by, of);'),
    ('one larger amount still bars', 'file_claim', 'if compared.larger {', 'if false {'),
    ('one equal amount doesn\'t bar', 'file_claim', 'larger: by < of,', 'larger: by <= of,'),
    ('only the first item is compared', 'file_claim', LEFT_OF_Q, 'let mut left = file_fields::u16_at(s, q).min(1);'),
    ('the last item isn\'t compared', 'file_claim',
     LEFT_OF_Q, 'let mut left = file_fields::u16_at(s, q).max(1) - (1 < file_fields::u16_at(s, q)) as u32;'),
    ('items compared by position', 'file_claim',
     COMPARED, NAMED_AMOUNTS +
     'let pairs = || named(q).zip(named(b));\n'
     '        let compared = Compared {\n'
     '            larger: pairs().any(|(of, by)| by < of),\n'
     '            smaller: pairs().any(|(of, by)| of < by),\n        };'),
    ('the sums of amounts compared', 'file_claim',
     COMPARED, NAMED_AMOUNTS +
     'let (of, by) = (named(q).sum::<u32>(), named(b).sum::<u32>());\n'
     '        let compared = Compared { larger: by < of, smaller: of < by };'),
    ('amounts of resources don\'t count', 'file_claim', IS_CONDITION, 'if (item::GET_S < kind) | (kind == 0) {'),
    ('amounts of bins don\'t count', 'file_claim', IS_CONDITION, 'if (item::GET_S < kind) | (kind == 1) {'),
    ('amounts of syncs don\'t count', 'file_claim', IS_CONDITION, 'if (item::GET_S < kind) | (kind == 2) {'),
    ('the number of a condition is an amount', 'file_claim', IS_CONDITION, 'if item::GET_S + 1 < kind {'),
    ('a strict part needs smaller amounts', 'file_bars', SAME_THINGS, 'if part {'),
    ('a strict part of a larger amount doesn\'t bar', 'file_bars file_claim',
     'fn amount_of(', 'pub fn amount_of(',
     '!names_nothing(x) & part\n',
     'let (of, by) = (file_map::claim_at(map, n), file_map::claim_at(map, m));\n'
     '    let items = (0..file_fields::u16_at(s, of) as usize).map(|i| &s[of + 2 + 8 * i..]);\n'
     '    let larger = items.filter(|i| i[0] < 3).any(|i| {\n'
     '        let (kind, number) = (file_fields::u8_at(i, 0), file_fields::u16_at(i, 2));\n'
     '        file_claim::amount_of(s, by, kind, number) < file_claim::amount_of(s, of, kind, number)\n    });\n'
     '    !names_nothing(x) & part & !larger\n'),
    ('several ahead together bar a TRY', 'file_bars row_grant',
     'fn covered<', 'pub fn covered<',
     'let mut i = 0;\n    while i < k {\n        if bars_at(s, map, w, a, i) {\n            return true;\n        }\n'
     '        i += 1;\n    }\n    false',
     '(file_map::branches_from(map, a)..file_map::branches_from(map, a + 1)).all(|n| {\n'
     '        (0..k).any(|i| {\n'
     '            let by = action_at(map, w, row_lists::blocked_at(w, i));\n'
     '            let (from, to) = (file_map::branches_from(map, by), file_map::branches_from(map, by + 1));\n'
     '            file_bars::covered(s, map, from, to, n)\n        })\n    })'),
    ('one branch of who is ahead covers all', 'file_bars',
     'let mut n = file_map::branches_from(map, q);',
     'return (from..to).any(|m| (file_map::branches_from(map, q)..end).all(|n| covers(s, map, m, n)));\n'
     '    let mut n = file_map::branches_from(map, q);'),
    ('a TRY is covered by one rule', 'file_bars',
     'let mut n = file_map::branches_from(map, q);',
     'let same = |x: Named, y: Named| within(x, y) & within(y, x);\n'
     '    let by = |rule: bool| (file_map::branches_from(map, q)..end).all(|n| {\n'
     '        (from..to).any(|m| covers(s, map, m, n) & (same(named_at(map, m), named_at(map, n)) == rule))\n    });\n'
     '    return by(true) | by(false);\n'
     '    let mut n = file_map::branches_from(map, q);'),
    ('in a walk amounts don\'t count', 'file_bars row_grant',
     SAME_THINGS, 'if part & whole & s.is_empty() {\n        return false;\n    }\n    if part & whole {',
     'if barred(s, map, w, a, k) {\n        return Branch::', 'if barred(&[], map, w, a, k) {\n        return Branch::'),
    ('on the floor amounts don\'t count', 'file_bars row_grant',
     SAME_THINGS, 'if part & whole & s.is_empty() {\n        return false;\n    }\n    if part & whole {',
     'if barred(s, map, w, a, k) {\n        return Choice::', 'if barred(&[], map, w, a, k) {\n        return Choice::'),
    # ---- why a process waits
    ('the last lacking item', 'row_claim',
     'return Test::Lacks(many - left + 1);', 'last = many - left + 1;',
     'let mut left = many;', 'let mut left = many;\n    let mut last = 0;',
     'Test::Met\n}', 'if last == 0 { Test::Met } else { Test::Lacks(last) }\n}'),
    ('items counted from 0', 'row_claim', 'Test::Lacks(many - left + 1)', 'Test::Lacks(many - left)'),
    ('conditions not counted', 'row_claim',
     'let mut left = many;', 'let mut left = many;\n    let mut conditions = 0;',
     'Test::Lacks(many - left + 1)', 'Test::Lacks(many - left + 1 - conditions)',
     'rest = &rest[item::BYTES..];', 'conditions += (rest[0] == 3) as u32;\n        rest = &rest[item::BYTES..];'),
    ('lacking before barred', 'row_grant',
     'if barred(s, map, w, a, k) {\n        return Choice::Waits(Reason::Barred);\n    }\n    row_claim::first_met(s, map, w, a)',
     'let first = row_claim::first_met(s, map, w, a);\n'
     '    if matches!(first, Choice::Goes(_)) & barred(s, map, w, a, k) {\n'
     '        return Choice::Waits(Reason::Barred);\n    }\n    first'),
    ('the lacking item of the last branch', 'row_claim', 'if k == 0 {', 'if k + 1 == many {'),
    ('a WHILE that passes on says why', 'act_req_try_while',
     'let Choice::Waits(_) = chosen else {', 'let Choice::Waits(why) = chosen else {',
     'row_process::past(w, p);\n    Went { fault: 0, lines: 0 }',
     'act_floor::note(w, p, out, at, line::BLOCKED, said(why));\n'
     '    row_process::past(w, p);\n    Went { fault: 0, lines: 1 }'),
    ('a walk says again that one is blocked', 'act_walk',
     'let Branch::Goes(which) = chosen else {\n        return 0;',
     'let Branch::Goes(which) = chosen else {\n'
     '        note(w, out, at, line::BLOCKED, row_process::number_of(w, place), 1);\n        return 0;',
     'wrote = wrote + went;', 'wrote = wrote + 1;'),
    ('the value 0 of all that are blocked', 'act_req_try_while', 'let value = said(why);', 'let value = code::ZERO;'),
    # ---- actions
    ('PRIO without its floor', 'act_hold_prio_lset_trace', 'base_i32::greater(code::LOWEST, value.code)', 'value.code'),
    ('a DO has one round more', 'act_do_close', 'row_process::into(w, p, n, b);', 'row_process::into(w, p, n + 1, b);'),
    ('DO 0 enters its block', 'act_do_close', 'if n == 0 {', 'if n == 70000 {'),
    ('a HOLD of 0 keeps the floor', 'act_hold_prio_lset_trace',
     'act_floor::leave_floor(w);\n    row_lists::wake(w, clock + (value.code - code::ZERO) as u64, p);',
     'if value.code != code::ZERO {\n        act_floor::leave_floor(w);\n'
     '        row_lists::wake(w, clock + (value.code - code::ZERO) as u64, p);\n    }'),
    ('a WHILE is met once', 'act_block_end',
     'file_fields::u16_at(s, place + 2) == kind::WHILE', 'file_fields::u16_at(s, place + 2) == 99'),
    ('locals left where a process ended', 'row_begin_end',
     'fill(&mut row[process::NUMBER..process::HELD], 0);', 'fill(&mut row[process::NUMBER..process::LOCALS], 0);'),
    ('the highest free place', 'base_places', 'u64::trailing_zeros(', '63 - u64::leading_zeros('),
    ('PUTS frees the last first', 'act_puts_start', 'let r = places[k] as usize;', 'let r = places[n - 1 - k] as usize;'),
    ('START at the offset alone', 'act_puts_start', 'act_floor::clock_of(w) + base_wide::wide(', 'base_wide::wide('),
    # ---- faults and answers
    ('LIMIT before IDLE', 'run_limit', 'answer: halted(w),', 'answer: if steps == limit { Answer::Limit } else { halted(w) },'),
    ('IDLE before CLOSED', 'run_limit',
     'if w[row::CLOSED] != 0 {\n        return Answer::Closed;',
     'if (w[row::CLOSED] != 0) & !((w[row::FLOOR] == 0) & (w[row::EVENTS] == 0)) {\n        return Answer::Closed;'),
    ('a fault keeps the clock', 'act_step', 'put_back(w, clock, key, word)', 'put_back(w, key / 4294967296, key, word)'),
    ('a fault keeps the floor', 'act_step', 'set_floor(w, 0);', ''),
    ('27 before 24', 'act_puts_start', 'if !has_shares(body, w, p) {', 'if can_begin(w) & !has_shares(body, w, p) {'),
    ('29 before 24', 'act_putr_putb',
     'if row_process::held_of(w, p, i) < n {',
     'if (row_lists::returns(w) < 64) & (row_process::held_of(w, p, i) < n) {'),
    ('65 returns may wait', 'row_lists',
     'base_ordered::count_returns(&w[row::NOTICES..row::WAITING], n)',
     'base_ordered::count_returns(&w[row::NOTICES..row::WAITING], n).max(1) - 1'),
    ('63 may live', 'act_puts_start', 'living_count(w[row::LIVING]) < PLACES)', 'living_count(w[row::LIVING]) < PLACES - 1)'),
    ('number 2,147,483,647 is never given', 'act_puts_start',
     'last_of(w) < limit::LAST_NUMBER', 'last_of(w) < limit::LAST_NUMBER - 1'),
    ('a full bin is a fault', 'act_return', 'limit::FULL_BIN < bin_of(w, i) + n', 'limit::FULL_BIN <= bin_of(w, i) + n'),
    ('the time 2,000,000,000 is late', 'act_hold_prio_lset_trace',
     'code::ZERO + (limit::LATEST - clock) as u32', 'code::ZERO + (limit::LATEST - clock) as u32 - 1'),
    ('slaves may be left behind', 'row_process', ' & (row_work::word(w, p, process::SLAVES) == 0)', ''),
    ('30 one line too late', 'run_limit', 'if left < lines {', 'if left + 1 < lines {'),
    # ---- samplers and draws
    ('multiplier 16806', 'base_generator', 'MULTIPLIER: u64 = 16807;', 'MULTIPLIER: u64 = 16806;'),
    ('modulus 2147483648', 'base_generator', 'MODULUS: u64 = 2147483647;', 'MODULUS: u64 = 2147483648;'),
    ('a sampler has one value less', 'base_generator',
     'seed % base_wide::wide(values)', 'seed % (base_wide::wide(values).max(2) - 1)'),
    ('a draw by the old seed', 'act_value',
     'base_generator::drawn(lowest[k], values[k], new)', 'base_generator::drawn(lowest[k], values[k], old)'),
    ('draws from right to left', 'act_value',
     'let first = tree_at(bs, globals, locals, clock, lowest, values, seeds, k + 1);',
     'let mut aside = *seeds;\n'
     '    let shape = tree_at(bs, globals, locals, clock, lowest, values, &mut aside, k + 1);\n'
     '    if many == 2 {\n        aside = *seeds;\n'
     '        tree_at(bs, globals, locals, clock, lowest, values, seeds, shape.next);\n    }\n'
     '    let first = tree_at(bs, globals, locals, clock, lowest, values, seeds, k + 1);',
     'seeds, first.next,', '&mut aside, first.next,'),
    ('a lesser draws only the side that it answers', 'act_value',
     'let both = first.value.ok & second.value.ok;',
     'let both = first.value.ok & second.value.ok;\n'
     '    if (node.op == op::LESSER) & both & (first.value.code <= second.value.code) {\n        *seeds = before;\n    }',
     'let second = tree_at(', 'let before = *seeds;\n    let second = tree_at('),
    ('21 keeps the seeds', 'act_hold_prio_lset_trace',
     'if value.ok & (low <= value.code) & (value.code <= high) {',
     'if !value.ok | (low <= value.code) & (value.code <= high) {'),
    ('22 keeps the seeds', 'act_hold_prio_lset_trace', 'w, p, code::ZERO, latest)', 'w, p, 0, latest)'),
    ('23 keeps the seeds', 'act_hold_prio_lset_trace', 'w, p, code::ZERO, latest)', 'w, p, code::ZERO, HIGHEST)'),
    ('30 keeps the seeds', 'run_limit',
     'row_work::copy_words(&kept, w);',
     'let seeds = row_work::seeds_of(w);\n        row_work::copy_words(&kept, w);\n        row_work::keep_seeds(w, seeds);'),
    # ---- checks and the bound
    ('a SAMPLER behind a BLOCK', 'file_check_record', 'blocks == 0\n}', '(blocks == 0) | (group == 8)\n}'),
    ('a seventeenth SAMPLER', 'file_check_record', '8, 16, 12,', '8, 17, 12,'),
    ('a SAMPLER of a difference of 1,000,001', 'file_check_record', '<= limit::SPREAD', '<= limit::SPREAD + 1'),
    ('a draw of a sampler that isn\'t there', 'file_check_parts', '(op != op::DRAW) | (operand < n[group::SAMPLER])', 'true'),
    ('the place of the record after', 'file_check',
     'refusal: Refusal::Short,\n                place: at,',
     'refusal: Refusal::Short,\n                place: file_reader::next(s, at),',
     JUDGED + PLACE_AT, JUDGED + PLACE_END),
    ('8 and 9 at the place of the record after', 'file_check', NAMED + PLACE_AT, NAMED + PLACE_END),
    ('a branch may name a thing twice', 'file_check_tails', 'Tail::Branches => branches_twice(bs),', 'Tail::Branches => false,'),
    ('PUTR weighs 1', 'file_index', '[1, 1, 1, 1, 1, 2, 2, 1,', '[1, 1, 1, 1, 1, 1, 2, 1,'),
    ('a TRY weighs its last branch', 'file_weight', 'top = top.max(v);', 'top = v;'),
    ('OVER from 4,294,967,295 on', 'file_bound', 'if w < limit::OVER {', 'if w < limit::OVER - 1 {'),
    # ---- soundness
    ('a return of lower priority is sound', 'row_sound_lists', '(rank == code::OF_RETURNS)', '(rank <= code::OF_RETURNS)'),
    ('a time before the clock is sound', 'row_sound_lists',
     '(w[row::CLOCK] <= key / word::TIME)', '(w[row::CLOCK] <= w[row::CLOCK])'),
    ('seed 0 is sound', 'row_view', 'Rule::Seed => (1 <= x) & (x <= limit::SEED_WORD)', 'Rule::Seed => x <= limit::SEED_WORD'),
    ('seed 2147483647 is sound', 'row_view', '(x <= limit::SEED_WORD)', '(x <= limit::SEED_WORD + 1)'),
    ('a seed without a sampler is sound', 'row_view', '&w[row::SEEDS..row::WORDS]', '&w[row::SEEDS..row::SEEDS + samplers]'),
    ('two of one number are sound', 'row_sound_lists', '(alike(w, number) == 1)', '(1 <= alike(w, number))'),
]


# Must-fail edits that the prover refuses and no call of a C function can show, and why.
UNSEEN = {
    'run_row/length_told_at_1': 'the desk opens a run in a row of its length, and tests its own row itself',
    'run_row/no_room_told_as_21': 'the desk opens a run in a row of its length, and tests its own row itself',
    'run_row/opened_in_a_longer_row': 'the desk opens a run in a row of its length, and tests its own row itself',
    'base_places/flipped': 'whoever comes finds the place free',
    'row_sound_lists/nobody_listed': 'a place without a block has number 0, by another clause',
    'file_weight/block_weight_capped_lower': 'a class weighs one more than its body, and so is OVER all the same',
}


def edits():
    """The must-fail edits of the sources, each as its name, its crate and the texts in turn."""
    for crate in sorted(native.named('desk_c')):
        for edit in must_fail.edits_of(crate):
            if edit.file.startswith('src/'):
                yield ['%s/%s' % (crate, edit.name), crate] + edit.pairs


def changed(texts, crates, *pairs):
    """The sources with the change, each text taken from the one crate that has it; nothing where it touches no code."""
    after = {crate: texts[crate] for crate in crates.split()}
    for old, new in zip(pairs[::2], pairs[1::2]):
        found = [crate for crate, text in after.items() for _ in range(text.count(old))]
        assert len(found) == 1, '%d times in %s: %s' % (len(found), crates, old)
        after[found[0]] = after[found[0]].replace(old, new)
    same = all(native.module(text) == native.module(texts[crate]) for crate, text in after.items())
    return None if same else {**texts, **after}


def built(texts):
    return native.library(FOLDER / 'desk', texts, 'cdylib')


def driven(folder, kind):
    """The first lines of the driver on a difference of the library in this folder; nothing where there is none."""
    words = {'models': [], 'texts': ['texts']}[kind] + [str(MODELS)]
    run = subprocess.Popen([DRIVER / 'release' / 'driver', *words], stdout=subprocess.PIPE, stderr=subprocess.DEVNULL,
                           text=True, env={**os.environ, 'LD_LIBRARY_PATH': str(folder)})
    clock = threading.Timer(SECONDS, run.kill)
    clock.start()
    said = []
    for line in run.stdout:
        if said or line.startswith(('DIFFERENCE', 'CRASH')):
            said.append(line.strip())
        if line.startswith('CRASH') or len(said) > 1:
            run.kill()
            break
    status = run.wait()
    clock.cancel()
    return said or (['no end, status %d' % status] if status else [])


def told(name, kind, said):
    if not said:
        print('%-46s no difference in %d %s' % (name, MODELS, kind), flush=True)
        return
    number = re.search(r'at (?:model|text) (\d+)', said[0])
    what = said[1].removeprefix('what:').strip() if len(said) > 1 else said[0]
    print('%-46s %7s   %s' % (name, number[1] if number else '', what), flush=True)


def chosen(words):
    if not words:
        return CHANGES
    if words == ['--edits']:
        return edits()
    return [change for change in CHANGES + list(edits()) if any(word in change[0] for word in words)]


def main(words):
    texts = native.sources('desk_c')
    folder = built(texts)
    subprocess.run(['cargo', 'build', '--release', '--offline', '--quiet', '--target-dir', DRIVER],
                   cwd=native.ROOT / 'driver', env={**os.environ, 'DESK_LIB': str(folder)}, check=True)
    wrong = 0
    if not words:
        for kind in ('models', 'texts'):
            said = driven(folder, kind)
            told('unchanged', kind, said)
            wrong += bool(said)
    for name, crates, *pairs in chosen(words):
        after = changed(texts, crates, *pairs)
        if after is None:
            continue
        if name in UNSEEN:
            print('%-46s not to be seen: %s' % (name, UNSEEN[name]), flush=True)
            continue
        try:
            built(after)
        except subprocess.CalledProcessError:
            print('%-46s is no Rust' % name, flush=True)
            continue
        kind = 'texts' if crates.startswith('text_') else 'models'
        said = driven(folder, kind)
        told(name, kind, said)
        wrong += not said
    return wrong > 0


if __name__ == '__main__':
    sys.exit(main(sys.argv[1:]))
