#!/usr/bin/env bash
# Counts the places of the eight points of the design pass. Run at the top of a checkout: `counts.sh`.
# Each line printed is: the number of the count, how many, and what is counted. A count falls when its places are changed.
# Places that a name alone tells (a function, a type) are counted by name: a name still declared in its file counts.
set -u
export LC_ALL=C.UTF-8
src() { grep -rnE --include='*.rt' "$1" crates/*/src; }
say() { printf '%-4s%6d  %s\n' "$1" "$2" "$3"; }
# How many of the names on standard input (a file under crates/*/src, then names) are still declared there.
named() {
    local n=0 file names name
    while read -r file names; do
        for name in $names; do
            grep -qE "\b(fn|enum|struct|const) $name\b" "crates/${file%%/*}/src/${file#*/}" 2>/dev/null && n=$((n + 1))
        done
    done
    echo "$n"
}

# --- Point 1
say 1a "$(src 'enum (Found|Number|Standing|Pair|Verdict|Fits|LastField|Word|Line|Reading|Writing|FrameLine|Left|Starting|Answer|EventLine|Told|Taking|Last|How|Case|Operation) \{' | wc -l)" 'own enums of the shape of Option or Result, by their names'
say 1b "$(python3 - <<'P'
import re, glob
n = 0
for f in glob.glob('crates/*/src/**/*.rt', recursive=True):
    for m in re.finditer(r'\benum \w+(?:<[^>]*>)? \{\n(.*?)\n\}', open(f).read(), re.S):
        cases = re.findall(r'^    (\w+)\s*([({,]?)', m[1], re.M)
        n += any(k in '({' and k for _, k in cases) and (any(k == ',' for _, k in cases) or any(c in ('No', 'Refused', 'Broken', 'Malformed') for c, _ in cases))
print(n)
P
)" 'enums with a case that holds something and a case that holds nothing or a refusal, by their shape (Turn among them, which is none)'
say 1c "$(src '^ +(pub )?[a-z]+: bool,$' | grep -vc ': *mark: bool')" 'flags in structs (fields of type bool; the parameter mark stands on lines of the same form and is left out)'
say 1d "$(src '^ +pub (answer: (Starting|Answer|Taking|Reading)|case: Case|how: How|wrong: Found),' | wc -l)" 'fields that say, beside a value in the same struct, whether the value counts'
say 1e "$(named <<'N'
cutter/lib.rt line_values put_short too_long
events/lib.rt TOLD_VALUES left_values line_said put_told told_of told_values turn_values
files/lib.rt how_of
framescheduler/steps.rt found_by highest_task
lines/lib.rt Held
printer/lib.rt LineValues ToldValues put_refused store_outcome store_refused
printer/said.rt left_said line_said turn_said
reader/fields.rt count first_wrong read_field read_fields read_kind read_level value_in
reader/forms.rt kind_at last_at level_at
reader/rows.rt phase_said
reader/rules.rt Named
report/count.rt count_left count_tick count_turn
rewrite/main.rt text_of
scheduler/choose.rt Highest choose_turn find_able find_tops is_able turn_of
scheduler/parts.rt last_in last_task
scheduler/settle.rt drop_low
scheduler/sheets.rt kind_number level_height level_in
states/answer.rt put_head say_fits say_verdict
states/block.rt kind_of last_of level_of
states/frameanswer.rt put_box
states/line.rt Fields NO_NUMBER value
table/lib.rt THE_LINE mode_said mode_value number_of row_in
verdict/lib.rt refused verdicts_of
N
)" 'functions, constants and structs that turn a case into a number or back, that ask a case by its number, or that do by hand what Option has, by name'
say 1f "$(src 'height == 0|kind == [01]\b|what [!=]= [01]|how == [12]|kind != 0|LEVEL, k\) == 0|letter == b' | wc -l)" 'lines that ask a case by its number or letter'
say 1g "$(src 'if let Found::At\(field\) = |let Taking::Taken = |let Case::Read\(answer\) = |if let Standing::Broken|if let Pair::Equal|let Number::Value\(v\) = |let How::On = ' | wc -l)" 'lines that hand a refusal on by hand, where `?` would (let-else and if-let over the own enums)'
say 1h "$(src '\b(Found|Number|Standing|Pair|LastField|Taking|Starting|Writing|EventLine|Last|Case|How)::[A-Z]' | wc -l)" 'lines that name a case of an own enum of that shape'

# --- Point 2
say 2a "$(named <<'N'
cutter/lib.rt one_if
decimal/put.rt put_all put_byte
events/lib.rt line_said store_values
files/given.rt Given given_of take_table
fits/main.rt is_answered put_mode
frame/given.rt FrameGiven given_of take_table
frame/main.rt Night answer_all answer_piece is_answered next
framerun/lib.rt FrameAnswered FrameBegun FrameMany FrameRun
framescheduler/lib.rt answer_event answer_many fresh_state head_of release run_of start tick
framescheduler/steps.rt Reply Step answer_line answer_lines event_in mark_may_come run_turn turn_of
frameserving/lib.rt FrameServed answer_lines refused serve
frametable/lib.rt FrameLine FrameRead equal_frame_tasks frame_tasks_keep no_frame_table rows_in_use
lines/lib.rt BATCH smaller_of
night/main.rt Night answer_all answer_piece is_answered next
printer/lib.rt smaller_of store_all store_byte store_field store_last store_mode
printer/said.rt line_said
queues/lib.rt in_use
reader/fields.rt read_kind read_level
reader/forms.rt LineRead WordRead kind_at leading_word level_at read_line tick_line
reader/frame.rt FrameLineRead read_frame read_line refuse refuse_pair tick_line word_of
reader/lib.rt read_table refuse refuse_pair
reader/rows.rt round_up
reader/rules.rt word_of
report/count.rt job_counted one_if tick_counted unless_charged
report/main.rt BATCH count_all is_answered next
report/page.rt put_count put_field put_mode put_servers put_tasks
rewrite/main.rt is_answered
run/lib.rt Answered Begun Many Run
scheduler/advance.rt passes run_front
scheduler/choose.rt capacity_column in_force owner_column turn_of
scheduler/event.rt event_in mark_may_come
scheduler/lib.rt answer_event fresh_state release start tick
scheduler/many.rt Reply answer_line answer_lines answer_many find_lines find_many put_found
scheduler/parts.rt Step head_of last_in run_of
scheduler/settle.rt left_of
scheduler/sheets.rt kind_number level_height level_in put_server_cell put_task_cell server_cell server_sheet task_cell task_sheet
serving/lib.rt Served answer_lines refused serve
states/answer.rt put_budget put_head say_answer say_answered say_begun say_state say_tick
states/block.rt add_queue add_server add_task byte kind_of last_of level_of narrow no_frame no_state take_row
states/frame.rt add_queue add_task at_most_byte take_row
states/frameanswer.rt put_box say_answer say_answered say_begun say_state say_tick
states/main.rt take_all
states/part.rt first
states/said.rt put_queue shown
table/lib.rt ByMode equal_servers equal_tasks in_use no_table servers_keep tasks_keep
text/lib.rt Line Read Times
verdict/lib.rt RowVerdicts round_up
verdicts/main.rt is_answered
writer/lib.rt put_field put_servers put_tasks
N
)" 'functions, types and constants that have a twin, by name'
say 2b "$(python3 - <<'P'
import re, glob, collections
KW = set('fn let mut if else while for in loop match return break continue true false as pub crate enum struct const move ref self Self use mod usize u8 u16 u32 u64 bool str'.split())
g = collections.defaultdict(list)
for f in sorted(glob.glob('crates/*/src/**/*.rt', recursive=True)):
    raw = open(f).read()
    for m in re.finditer(r'^( *)(?:pub(?:\(crate\))? )?fn (\w+)', raw, re.M):
        t = re.sub(r'//[^\n]*', '', raw[m.start():m.start() + re.search(r'\n' + m[1] + r'\}\n', raw[m.start():]).end()])
        b = re.search(r'\n' + m[1] + r'\{\n', t)
        head, body = (t[:b.start()], t[b.end():]) if b else t.split('{\n', 1)
        t = re.split(r'\n *(?:requires|ensures)\b', head)[0] + ' { ' + body
        t = re.sub(r"b?'(?:[^'\\]|\\.)'", '#', re.sub(r'b?"(?:[^"\\]|\\.)*"', '#', t))
        n = {}; out = []
        toks = re.findall(r'\w+|[^\s\w]', t)
        for x in toks:
            if re.match(r'\d|[A-Z][A-Z0-9_]+$', x): out.append('#')
            elif x in ('u8', 'u16', 'u32', 'u64', 'usize'): out.append('INT')
            elif re.match(r'[A-Za-z_]', x) and x not in KW: out.append(n.setdefault(x, 'v%d' % len(n)))
            else: out.append(x)
        if m[2] != 'main' and len(toks) >= 16: g[re.sub(r',(?= [)}\]])', '', ' '.join(out))].append(m[2])
print(sum(len(v) for v in g.values() if len(v) > 1))
P
)" 'functions whose text is that of another one but for names, types, sizes and constants (found with no list of names)'
say 2c "$(src 'fn is_answered' | wc -l)" 'functions is_answered (states has one too, which is no twin: six and one)'

# --- Point 3
say 3a "$(src "^ *('[a-z]+: )?for [a-z]+ in [^{]*\.\." | wc -l)" 'loops over an index, `for i in A..B`'
say 3b "$(src '^ *while (i|at|many) < |^ *while 10 <= left|^ *loop \{' | wc -l)" 'loops that step an index or a place by hand (while, loop)'
say 3c "$(python3 - <<'P'
import re, glob
n = 0
for f in glob.glob('crates/*/src/**/*.rt', recursive=True):
    for m in re.finditer(r'^( *)for _ in [^\n]*\{\n(.*?)\n\1\}', open(f).read(), re.M | re.S): n += ' at +=' in m[2]
print(n)
P
)" 'loops over turns that carry a place `at`'
say 3d "$(src '^ +(i|at|n|many|count|first|put) [-+]= |^ +(at|len|k) = (e|f\.end\.at|at) \+ 1;|^ +k = put_|^ +at = store_' | wc -l)" 'lines that step an index, a place or a count by hand'

# --- Point 4
say 4a "$(named <<'N'
decimal/lib.rt is_same
files/given.rt is_failed is_refused
frametable/lib.rt rows_in_use
laws/lib.rt larger_of
lines/lib.rt smaller_of
printer/lib.rt smaller_of
queues/lib.rt in_use is_last ran_job
reader/forms.rt begins
scheduler/many.rt is_tick
scheduler/settle.rt is_n raises
scheduler/sheets.rt level_height
states/block.rt is_asked
states/part.rt first
states/said.rt shown
table/lib.rt in_use is_d2 is_differ is_kept is_low is_timed
N
)" 'functions that write equality, order, a test of a case, or the smaller of two by hand, by name'
say 4b "$(named <<'N'
cutter/lib.rt line_values one_if
decimal/lib.rt as_number
events/lib.rt left_values line_said told_of told_values turn_values
files/lib.rt how_of
framescheduler/lib.rt head_of run_of
framescheduler/steps.rt found_by last_of
printer/lib.rt line_at told_at
printer/said.rt left_said line_said turn_said
queues/lib.rt job_count
reader/fields.rt read_kind read_level value_in
reader/forms.rt kind_at last_at leading_word level_at
reader/frame.rt word_of
reader/rows.rt phase_said
reader/rules.rt word_of
report/count.rt one_if
rewrite/main.rt text_of
scheduler/choose.rt height_of
scheduler/parts.rt head_of last_in last_task run_of
scheduler/settle.rt counts_as
scheduler/sheets.rt kind_number level_in
states/block.rt byte kind_of last_of level_of narrow
states/frame.rt at_most_byte
states/line.rt value
table/lib.rt mode_said mode_value number_of
N
)" 'functions that convert by hand, by name'
say 4c "$(src 'fn (put|store)_[a-z]+' | grep -vE 'fn (put_byte|put_all|store_all|store_byte|store_values|put_found|put_told|put_tick|put_short|put_server_cell|put_task_cell|put_report)\b' | grep -vE 'crates/(cutter/src/lib|scheduler/src/sheets)\.rt' | wc -l)" 'functions that print by hand, put_ and store_ (not those that put bytes or cells)'
say 4d "$(named <<'N'
cutter/lib.rt hold no_line
events/lib.rt store_values
framescheduler/lib.rt fresh_state
frametable/lib.rt no_frame_table
printer/lib.rt store_all
scheduler/lib.rt fresh_state
scheduler/many.rt put_found
scheduler/sheets.rt put_server put_task
states/block.rt empty no_frame no_state no_times table_of
table/lib.rt no_table
N
)" 'functions that copy field by field or byte by byte, and values that a Default would give, by name'
say 4e "$(src 'derive\(Clone, Copy\)' | wc -l)" 'types that derive Clone and Copy and nothing else'

# --- Point 5
five() { python3 - "$1" <<'P'
import re, glob, sys, collections
FS = []
for f in sorted(glob.glob('crates/*/src/**/*.rt', recursive=True)):
    s = open(f).read()
    for m in re.finditer(r'^( *)(?:pub(?:\(crate\))? )?fn (\w+)', s, re.M):
        i = m.end()
        if s[i] == '<': i = s.index('(', s.index('>', i))
        d = 0; j = i
        while True:
            d += (s[j] == '(') - (s[j] == ')'); j += 1
            if d == 0: break
        head = s[j:]; sig = head.split('\n', 1)[0]
        b = re.search(r'\n' + m[1] + r'\{\n', head)
        contract = '' if sig.rstrip().endswith('{') or not b else head[len(sig):b.start()]
        req = ' × '.join(' '.join(r[1].split()) for r in re.findall(r'requires\s*(\w+\s*)?\{((?:[^{}]|\{[^{}]*\})*)\}', contract))
        ps = dict((n.replace('mut ', '').strip(), re.sub(r"&('a )?(mut )?", '&', t.strip())) for n, t in re.findall(r'((?:mut )?\w+): ([^,()\[\]]*(?:\[[^\]]*\])?)', s[i + 1:j - 1]))
        FS.append((f, m[2], req, ps))
FAM = [r'0 < tick\.0|tick\.0 ≤ 10000|tick_keeps tick\.0', r'table_keeps t ≡ true', r'row < t\.nservers', r'NightReady n', r'Lent bytes\.now room\.old', r'\b(from|at) ≤ length (text|s|input)\.now',
    r'found\.old ≡ none_found|take 32 found\.old ≡ replicate 32 0', r'SoundRun t h', r'frame\.now ≡ the_frame', r'SomeRun h|SomeTable h', r'\b(n|m|t\.ntasks|h\.ntasks|ntasks) ≤ 64', r'\b(n|t\.nservers|h\.nservers|nservers) ≤ 32',
    r'\b(i|server) < 32', r'\b(k|i|task) < 64', r'length lines\.now / 2 ≤ length told\.old / 9', r'AfterSome \(standing', r'\bat \+ .*≤ length (room|lines|told)\.(old|now)', r'length (found|seen)\.(now|old) ≡ 96']
SCH = {'servers': '&[u32; SERVER_CELLS]', 'tasks': '&[u32; TASK_CELLS]', 'used': '&[u32; SERVERS]', 'elapsed': '&[u32; SERVERS]', 'waiting': '&[u8; TASKS]', 'runs': '&[u32; TASKS]', 'found': '&[u8; FOUND_VALUES]', 'h': 'Head'}
if sys.argv[1] == 'facts': print(sum(1 for r in FAM if sum(bool(re.search(r, q)) for _, _, q, _ in FS) >= 3))
if sys.argv[1] == 'stated': print(sum(n for n in (sum(bool(re.search(r, q)) for _, _, q, _ in FS) for r in FAM) if n >= 3))
if sys.argv[1] == 'room': print(sum('at' in p and p.get('room') in ('&[u8]', '&[u64]') for _, _, _, p in FS))
if sys.argv[1] == 'text': print(sum(any(p.get(t) == '&[u8]' for t in ('text', 's', 'input')) and ('at' in p or 'from' in p) and 'room' not in p for _, _, _, p in FS))
if sys.argv[1] == 'run': print(sum('/scheduler/' in f and sum(p.get(k) == v for k, v in SCH.items()) >= 3 for f, _, _, p in FS))
if sys.argv[1] == 'queues': print(sum('runs' in p and 'u8; TASKS' in p.get('waiting', '') for _, _, _, p in FS))
if sys.argv[1] == 'report': print(sum('/report/' in f and all(k in p for k in ('servers', 'tasks', 'modes')) for f, _, _, p in FS))
if sys.argv[1] == 'pairs':
    c = collections.Counter()
    for _, _, _, p in FS:
        it = sorted(p.items())
        for a in range(len(it)):
            for b in range(a + 1, len(it)): c[it[a], it[b]] += 1
    print(sum(v >= 3 for v in c.values()))
P
}
say 5a "$(five facts)" 'facts that stand in the contracts of three or more functions'
say 5b "$(five stated)" 'how often one of those facts is stated'
say 5c "$(five room)" 'functions that take a room and a place in it'
say 5d "$(five text)" 'functions that take a text and a place in it'
say 5e "$(five run)" 'functions of crate scheduler that take three or more parts of a run (head, two sheets, used, elapsed, waiting, runs, found)'
say 5f "$(five queues)" 'functions that take waiting and runs apart'
say 5g "$(five report)" 'functions that take the report'"'"'s three arrays'
say 5h "$(five pairs)" 'pairs of parameters, by name and type, that three or more functions share'

# --- Point 6
say 6a "$(named <<'N'
decimal/put.rt put_number
events/lib.rt LINE_VALUES TOLD_VALUES
files/given.rt say_refused take_table
files/lib.rt Taken take_whole write_first
fits/main.rt is_answered
frame/given.rt take_table
frame/main.rt Night answer_all
framerun/lib.rt FrameState
frameserving/lib.rt answer_lines serve
frametable/lib.rt FrameTable equal_frame_tasks frame_tasks_keep
lines/lib.rt Cut Held Printed
night/main.rt Night answer_all
printer/lib.rt print_first put_refused store_field
queues/lib.rt counts_sound jobs_waiting last_sound
reader/fields.rt Fields
report/count.rt SERVER_COUNTS TASK_COUNTS count_discards count_rows count_ticks
report/main.rt count_all count_piece is_answered
report/page.rt put_page put_servers put_tasks
rewrite/main.rt is_answered
run/lib.rt FOUND_VALUES State
scheduler/advance.rt age
scheduler/choose.rt find_tops
scheduler/many.rt find_many
scheduler/settle.rt drop_low refill some_waits
scheduler/sheets.rt SERVER_CELLS TASK_CELLS
serving/lib.rt answer_lines serve
states/answer.rt put_budgets say_state say_written
states/block.rt Block
states/frameanswer.rt say_state
states/line.rt Fields
states/main.rt Feed close_line is_answered take_lines take_some
states/said.rt put_queues say_line
table/lib.rt Table equal_servers equal_tasks servers_keep task_fault task_stands tasks_keep
verdict/lib.rt Higher climb interference_in
verdicts/main.rt is_answered
writer/lib.rt write_table
N
)" 'structs, constants and functions with a length beside a buffer, parallel arrays, or an array and its count, by name'
say 6b "$(src '^ +(pub )?[a-z]+: \[[^]]*; [A-Z_]+\],$' | wc -l)" 'fields of structs that are arrays of a fixed size'
say 6c "$(src 'let mut [a-z]+ = \[[^]]*; [^]]*\];' | wc -l)" 'local buffers of a fixed size'
say 6d "$(src '\[\.\.[a-z]' | wc -l)" 'lines that cut a buffer to the length that is kept beside it'
say 6e "$(src '(servers|tasks|sheet|found|told|lines|modes)\[[A-Z_]+ \+ |_cell\((servers|tasks|sheet), ' | wc -l)" 'lines that reach a column or a row by a sum of places'

# --- Point 7
say 7a "$(named <<'N'
fits/main.rt is_answered
frame/main.rt answer_all is_answered next
framescheduler/steps.rt answer_lines
night/main.rt answer_all is_answered next
reader/fields.rt read_field read_fields
reader/forms.rt leading_word read_line
reader/frame.rt read_line
report/main.rt count_all is_answered next
rewrite/main.rt is_answered
scheduler/many.rt answer_lines find_lines
states/answer.rt say_answer
states/block.rt operation_in table_operation_in take_row
states/frame.rt take_row
states/frameanswer.rt say_answer
states/main.rt open_block say_answer take_all take_row take_some
verdicts/main.rt is_answered
N
)" 'functions that switch on which step to run, or that repeat a loop or a frame for another step, by name'
say 7b "$(src 'if is_line\(|^ +if [a-z:]*begins\(|if decimal::is_same\(w|letter == b|b"[nkl]+", [0-9]' | wc -l)" 'tests in chains of forms or words, each with its step'
say 7c "$(src 'match how \{|if (b\.)?framed|for _ in (0|files)' | wc -l)" 'switches by how a read ended or by the flag framed, and loops over turns'

# --- Point 8
eight() { python3 - "$1" <<'P'
import re, glob, sys, collections
PLAIN = re.compile(r'^(?:[()\s,]|refl|cc|tt|search rules|omega|arith|rw|sym|record \{ \w+ = |\}|absurd|λ( \w+)*\.)*$')
ONLY = re.compile(r'^(?:[()\s,∙←]|refl|cc|tt|search rules|omega|arith|rw|sym|record \{ \w+ = |\}|absurd|λ( \w+)*\.|let \w+ = c\.args in|[cal]\.[\w.\-]+|\b_\b|\d+)*$')
rows = []; lines = collections.Counter()
for f in glob.glob('crates/*/proofs/**/Answers.antt', recursive=True):
    L = open(f).read().split('\n'); i = 0
    for l in L:
        t = l.strip()
        if len(t) > 45 and not t.startswith(('use ', '--', 'pub ', 'unfolding')): lines[t] += 1
    while i < len(L):
        m = re.match(r'(?:abbrev )?pub ([^ ]+) : goal\.', L[i])
        i += 1
        if not m: continue
        body = []
        while i < len(L) and L[i].strip() and not re.match(r'abbrev |pub |--', L[i]): body.append(L[i].strip()); i += 1
        rows.append(re.sub(r'^(unfolding [^=]* )?' + re.escape(m[1]) + r'( \w+)* = ', '', ' '.join(body)))
if sys.argv[1] == 'all': print(len(rows))
if sys.argv[1] == 'plain': print(sum(bool(PLAIN.match(r)) for r in rows))
if sys.argv[1] == 'only': print(sum(bool(ONLY.match(r)) and not PLAIN.match(r) for r in rows))
if sys.argv[1] == 'repeated': print(sum(v >= 4 for v in lines.values()))
P
}
say 8a "$(eight all)" 'answers in all'
say 8b "$(eight plain)" 'answers of plain steps only (refl, cc, omega arith, search rules), which the check may find alone'
say 8c "$(eight only)" 'answers that only hand on what their case says (rw c.in-X.is, c.f.ensures), which the check may find alone'
say 8d "$(eight repeated)" 'steps of more than 45 signs that four or more lines of answers repeat'
say 8e "$(grep -nE '^pub (and_true|and_left|and_right|or_true_left|or_true_right|or_cases|or_false|true_or_false|is_false|le_or_lt) :' crates/laws/proofs/Choice.antt | wc -l)" 'lemmas of crate laws on tests that the library has under other names (std, lemmas/Bool, and others)'
say 8f "$(tests/uncited | grep -vE 'Cases\.antt|/promises/' | wc -l)" 'lemmas that nothing cites (files of cases and crate promises aside, whose theorems are read, not cited)'
say 8g "$(grep -rlE '^use (mathlib|native|lib|borrow)\.' crates/*/proofs | wc -l)" 'files of proofs that import inner parts of the library (mathlib, native, lib, borrow) where Common or Prelude pass the names on'
say 8h "$(grep -rhE '^use (mathlib|native|lib|borrow)\.' crates/*/proofs | wc -l)" 'such imports'
say 8i "$(grep -rnwE 'leb|ltb|eqb|get_or' crates/*/proofs | wc -l)" 'lines of proofs with the older words leb, ltb, eqb, get_or'
