# Of the older kit, unused: it wrote the Proof.antt files that stood before the port (docs/PORT.md).
"""The functions of crate bundle_capi that take the lent table, for walks.py. Run in the repository after any edit of one of them: python3 tools/walks_bundle.py [FUNCTION..]; then rt fmt."""
import sys, os
sys.path.insert(0, os.path.dirname(os.path.abspath(__file__)))
sys.dont_write_bytecode = True
from walks import *

C = 'bundle_capi'
Flock = Struct('Flock', 'flock_table', False, [('entries', 32), ('bytes', 32), ('undelivered', 32)])
Slot = Struct('Slot', 'flock_table', False, [('go', 'bool'), ('index', 64), ('number', 32)])
Totals = Struct('Totals', 'flock_table', False, [('number', 32), ('place', 64), ('entries', 32), ('bytes', 32), ('undelivered', 32)])
AppendAnswer = Struct('AppendAnswer', C, True, [('number', 32), ('place', 64), ('used', 64), ('long', 64)])
TableAnswer = Struct('TableAnswer', C, True, [('number', 32), ('place', 64), ('used', 64)])
Plan = Struct('Plan', 'bundle_edit', False, [('go', 'bool'), ('index', 64), ('size', 32), ('number', 32), ('place', 64), ('used', 64), ('long', 64)])
Changes = Struct('Changes', 'bundle_edit', False, [('kind', 32), ('number', 32), ('place', 64), ('used', 64), ('counts', 'array')])
usize, u32 = ('num', 64), ('num', 32)
callees = {
    'flock_table::slot_of': Callee('slot_of', 'flock_table', False, [usize, u32], ('struct', Slot), lambda r, a, w: f'{r} ≡ slotOf {a[0]} {a[1]}'),
    'flock_table::totals_of': Callee('totals_of', 'flock_table', False, [('struct', Flock)], ('struct', Totals), lambda r, a, w: f'{r} ≡ totalsOf {a[0]}'),
    'flock_table::no_totals': Callee('no_totals', 'flock_table', False, [u32], ('struct', Totals), lambda r, a, w: f'{r} ≡ noTotals {a[0]}'),
    'bundle_edit::enter': Callee('enter', 'bundle_edit', False, [('struct', Flock), u32], ('struct', Flock), lambda r, a, w: f'{r} ≡ plus {a[0]} (newRecord {a[1]})'),
    'bundle_edit::append': Callee('append', 'bundle_edit', False, [usize, ('mut',), usize, u32, ('shr',)], ('struct', Plan),
        lambda r, a, w: f'({r} ≡ appendPlan {a[0]} {a[1]} {a[2]} {a[3]} {a[4]}) × ({w} ≡ appended {a[0]} {a[1]} {a[2]} {a[3]} {a[4]})'),
    'bundle_edit::tables::rebuild': Callee('rebuild', 'bundle_edit', False, [usize, ('shr',)], ('struct', Changes), lambda r, a, w: f'{r} ≡ rebuildChanges {a[0]} {a[1]}', 'tables'),
    'bundle_edit::tables::change': Callee('change', 'bundle_edit', False, [('struct', Flock), ('struct', Changes), usize], ('struct', Flock), lambda r, a, w: f'{r} ≡ changed {a[1]} {a[2]} {a[0]}', 'tables'),
    'bundle_edit::delivery::lessen': Callee('lessen', 'bundle_edit', False, [('struct', Flock)], ('struct', Flock), lambda r, a, w: f'{r} ≡ minus {a[0]} oneUndelivered', 'delivery'),
    'bundle_edit::delivery::mark': Callee('mark', 'bundle_edit', False, [usize, ('mut',), usize, usize], ('struct', Plan),
        lambda r, a, w: f'({r} ≡ markPlan {a[0]} {a[1]} {a[2]} {a[3]}) × ({w} ≡ marked {a[0]} {a[1]} {a[2]} {a[3]})', 'delivery'),
    'bundle_edit::delivery::sweep': Callee('sweep', 'bundle_edit', False, [usize, ('mut',), usize], ('struct', Changes),
        lambda r, a, w: f'({r} ≡ sweepChanges {a[0]} {a[1]} {a[2]}) × ({w} ≡ swept {a[0]} {a[1]} {a[2]})', 'delivery'),
    f'{C}::mark_answer': Callee('mark_answer', C, True, [('struct', Plan)], ('struct', TableAnswer), lambda r, a, w: f'{r} ≡ markOf {a[0]}'),
    f'{C}::append_answer': Callee('append_answer', C, True, [('struct', Plan)], ('struct', AppendAnswer), lambda r, a, w: f'{r} ≡ appendOf {a[0]}'),
    f'{C}::outcome': Callee('outcome', C, True, [('struct', Changes)], ('struct', TableAnswer), lambda r, a, w: f'{r} ≡ outcomeOf {a[0]}'),
    f'{C}::update_all': Callee('update_all', C, True, [('mut', Flock), ('struct', Changes)], ('unit',), lambda r, a, w: f'{w} ≡ changedFrom {a[1]} 0 {a[0]}'),
}
SPEC = ['use Rattle·flock_table.specs.Table.{none, plus, minus, slotOf, totalsOf, noTotals, totalsAt}',
        'use Rattle·bundle_edit.specs.Append.{appendPlan, appended, newRecord, entered as entering}',
        'use Rattle·bundle_edit.specs.Changes.{changed, changedFrom, rebuildChanges}',
        'use Rattle·bundle_edit.specs.Delivery.{oneUndelivered, markPlan, marked, sweepChanges, swept}',
        f'use Rattle·{C}·specs.specs.Entries.{{appendOf, AppendEntered, outcomeOf, RebuildEntered, markOf, MarkEntered, SweepEntered}}',
        f'use Rattle·{C}·proofs.proofs.Updating.{{slot-index, append-index, mark-index, taken, left, changedFirst, first-length, first-next, first-all}}']
all_ = mir_of(C)
common = dict(crate=C, all=all_, callees=callees, table_size=12, none='none', stays=True)
def totals(p): return f'(totalsOf (getD table ({p} .index) none)) (noTotals ({p} .number))'
def more(p): return f'(set table ({p} .index) (plus (getD table ({p} .index) none) (newRecord ({p} .size)))) table'
def less(p): return f'(set table ({p} .index) (minus (getD table ({p} .index) none) oneUndelivered)) table'
functions = [
    Function(name='ospirnar_totals', params=[('table', 'shr', Flock), ('flock', 'num', 32)], result=('struct', Totals), plan_type='Slot', plan_text='slotOf (length table) flock',
        says=lambda p, r, t, b: f'{r} ≡ totalsAt {p} table',
        index='slot-index (length table) flock {r} {e} {yes}',
        proofs=dict(yes=lambda k: f'subst (λ (p : Slot). SaysAt p {k["r"]} table) {k["e"]} ({k["ans"]["flock_table::totals_of"][1]} ∙ taken ({k["p"]} .go) {totals(k["p"])} yes)',
                    no=lambda k: f'subst (λ (p : Slot). SaysAt p {k["r"]} table) {k["e"]} ({k["ans"]["flock_table::no_totals"][1]} ∙ left ({k["p"]} .go) {totals(k["p"])} no)'), **common),
    Function(name='ospirnar_append', params=[('table', 'mut', Flock), ('buffer', 'mut', None), ('used', 'num', 64), ('flock', 'num', 32), ('message', 'shr', None)], result=('struct', AppendAnswer),
        plan_type='Plan', plan_text='appendPlan (length table) buffer used flock message',
        says=lambda p, r, t, b: f'AppendEntered {p} table {t} buffer {b["buffer"]} used flock message {r}',
        index='append-index (length table) buffer used flock message {r} ({e} .0) {yes}',
        proofs=dict(yes=lambda k: f'subst (λ (p : Plan). SaysAt p {k["r"]} (set table ({k["p"]} .index) {k["s"]}) {k["last"][1]}) ({k["e"]} .0) ({k["ans"][C + "::append_answer"][1]}, (ap (λ (z : Flock). set table ({k["p"]} .index) z) {k["es"]} ∙ taken ({k["p"]} .go) {more(k["p"])} yes, {k["e"]} .1))',
                    no=lambda k: f'subst (λ (p : Plan). SaysAt p {k["r"]} table {k["last"][1]}) ({k["e"]} .0) ({k["ans"][C + "::append_answer"][1]}, (left ({k["p"]} .go) {more(k["p"])} no, {k["e"]} .1))'), **common),
    Loop(name='update_all', params=[('table', 'mut', Flock), ('c', 'struct', Changes)], result=('unit',),
        says=lambda p, r, t, b: f'{t} ≡ changedFrom c 0 table',
        upto_name='changedFirst', upto=lambda i: f'changedFirst c 0 {i} table', upto_length=lambda i: f'(first-length c 0 {i} table)',
        upto_next=lambda i, l, new: f'ap (λ (z : Flock). set (upTo {i}) {i} z) {new[1]} ∙ first-next c {i} table {l}', upto_all='first-all c 0 table', **common),
    Function(name='ospirnar_rebuild', params=[('table', 'mut', Flock), ('input', 'shr', None)], result=('struct', TableAnswer), plan_type='Changes', plan_text='rebuildChanges (length table) input',
        says=lambda p, r, t, b: f'RebuildEntered {p} table {t} {r}', index='',
        proofs=dict(end=lambda k: f'subst (λ (p : Changes). SaysAt p {k["r"]} {k["last"][0]}) {k["e"]} ({k["ans"][C + "::outcome"][1]}, {k["ans"][C + "::update_all"][1]})'), **dict(common, stays=False)),
    Function(name='ospirnar_mark', params=[('table', 'mut', Flock), ('buffer', 'mut', None), ('used', 'num', 64), ('entry', 'num', 64)], result=('struct', TableAnswer),
        plan_type='Plan', plan_text='markPlan (length table) buffer used entry',
        says=lambda p, r, t, b: f'MarkEntered {p} table {t} buffer {b["buffer"]} used entry {r}',
        index='mark-index (length table) buffer used entry {r} ({e} .0) {yes}',
        proofs=dict(yes=lambda k: f'subst (λ (p : Plan). SaysAt p {k["r"]} (set table ({k["p"]} .index) {k["s"]}) {k["last"][1]}) ({k["e"]} .0) ({k["ans"][C + "::mark_answer"][1]}, (ap (λ (z : Flock). set table ({k["p"]} .index) z) {k["es"]} ∙ taken ({k["p"]} .go) {less(k["p"])} yes, {k["e"]} .1))',
                    no=lambda k: f'subst (λ (p : Plan). SaysAt p {k["r"]} table {k["last"][1]}) ({k["e"]} .0) ({k["ans"][C + "::mark_answer"][1]}, (left ({k["p"]} .go) {less(k["p"])} no, {k["e"]} .1))'), **common),
    Function(name='ospirnar_sweep', params=[('table', 'mut', Flock), ('buffer', 'mut', None), ('used', 'num', 64)], result=('struct', TableAnswer), plan_type='Changes', plan_text='sweepChanges (length table) buffer used',
        says=lambda p, r, t, b: f'SweepEntered {p} table {t} buffer {b["buffer"]} used {r}', index='',
        proofs=dict(end=lambda k: f'subst (λ (p : Changes). SaysAt p {k["r"]} {k["last"][0]} {k["last"][1]}) ({k["e"]} .0) ({k["ans"][C + "::outcome"][1]}, ({k["ans"][C + "::update_all"][1]}, {k["e"]} .1))'), **dict(common, stays=False)),
]
if __name__ == '__main__':
    for f in functions:
        if len(sys.argv) < 2 or f.name in sys.argv[1:]: f.write(SPEC)
