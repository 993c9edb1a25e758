-- The directory of baseline/protocol.py in Murphi's language, written by hand from its tables: MESI with lines of one word, silent evictions of
-- copies, stores that wait at their line, and one bank; plain reads and writes of the pattern `readers` (PATTERN 0) or `turns` (PATTERN 1), with the
-- barrier as one event. Messages between two actors arrive in order: `way` has a queue for each pair. The home is actor CORES.
const
  CORES: 2;
  WORDS: 1;
  WAYS: 4;
  PATTERN: 0;
  PHASES: PATTERN = 0 ? 2 : 2 * CORES;
  MOST: 2 * WORDS + 2;                                  -- messages of a pair in flight
type
  core: 0 .. CORES - 1;
  actor: 0 .. CORES;
  word: 0 .. WORDS - 1;
  value: 0 .. PHASES * WORDS;
  place: 0 .. WORDS;
  phase: 0 .. PHASES;
  count: 0 .. CORES;
  letters: 0 .. MOST;
  letter: 0 .. MOST - 1;
  state: enum {I, S, E, M, IS_D, IS_DI, IM_AD, IM_A, SM_AD, SM_A, MI_A, EI_A, SI_A, II_A};
  homestate: enum {HI, HS, HX, HSD};
  kind: enum {none, read, own, own_has, put_m, put_e, put_back, put_clean, data, data_e, data_own, grant_own, fwd_read, fwd_own, inv, inv_ack, put_ack};
  message: record
    what: kind;
    w: word;
    c: core;
    v: value;
    needed: count;
  end;
var
  now: phase;
  at: array [core] of place;
  filled: array [core] of boolean;
  got_value: array [core] of value;
  line: array [core] of array [word] of state;
  has: array [core] of array [word] of value;
  waits: array [core] of array [word] of boolean;       -- a store waits at the line
  stored: array [core] of array [word] of value;
  needed: array [core] of array [word] of count;
  is_needed: array [core] of array [word] of boolean;
  got: array [core] of array [word] of count;
  entry: array [word] of homestate;
  owner: array [word] of core;
  listed: array [word] of array [core] of boolean;
  queued: array [word] of count;                        -- requests that wait at the home
  queue: array [word] of array [core] of core;
  asked: array [word] of array [core] of kind;
  memory: array [word] of value;
  last: array [word] of value;
  way: array [actor] of array [actor] of array [letter] of message;
  length: array [actor] of array [actor] of letters;

function stores(p: phase; c: core): boolean;
begin
  return PATTERN = 0 ? (p = 1 & c = 0) : (p % 2 = 0 & c = p / 2);
end;

function loads(p: phase; c: core): boolean;
begin
  return PATTERN = 0 ? p = 0 : p % 2 = 1;
end;

function busy(c: core): boolean;
begin
  return now < PHASES & (loads(now, c) | stores(now, c)) & at[c] < WORDS;
end;

function in_set(c: core): place;
var n: place;
begin
  n := 0;
  for w: word do
    if line[c][w] != I & line[c][w] != MI_A & line[c][w] != EI_A & line[c][w] != SI_A & line[c][w] != II_A then n := n + 1; end;
  end;
  return n;
end;

procedure send(source: actor; target: actor; what: kind; w: word; c: core; v: value; n: count);
var m: message;
begin
  m.what := what; m.w := w; m.c := c; m.v := v; m.needed := n;
  way[source][target][length[source][target]] := m;
  length[source][target] := length[source][target] + 1;
end;

procedure empty(source: actor; target: actor; l: letter);
begin
  way[source][target][l].what := none; way[source][target][l].w := 0; way[source][target][l].c := 0; way[source][target][l].v := 0; way[source][target][l].needed := 0;
end;

procedure forget(c: core; w: word);
begin
  line[c][w] := I; has[c][w] := 0; waits[c][w] := false; stored[c][w] := 0; needed[c][w] := 0; is_needed[c][w] := false; got[c][w] := 0;
end;

procedure make_stores(c: core; w: word);
begin
  has[c][w] := stored[c][w];
  waits[c][w] := false; stored[c][w] := 0; needed[c][w] := 0; is_needed[c][w] := false; got[c][w] := 0;
  line[c][w] := M;
end;

procedure fill(c: core; w: word; v: value; then_: state);
begin
  has[c][w] := v;
  filled[c] := true;
  got_value[c] := v;
  if then_ = I then forget(c, w); else line[c][w] := then_; end;
end;

procedure owned_reply(c: core; m: message; with_words: boolean);
begin
  if with_words then has[c][m.w] := m.v; end;
  if got[c][m.w] < m.needed then
    needed[c][m.w] := m.needed;
    is_needed[c][m.w] := true;
    if line[c][m.w] = IM_AD then line[c][m.w] := IM_A; else line[c][m.w] := SM_A; end;
  else
    make_stores(c, m.w);
  end;
end;

procedure at_core(c: core; m: message);
var s: state;
begin
  s := line[c][m.w];
  switch m.what
  case data:
    assert s = IS_D | s = IS_DI "data is awaited";
    if s = IS_D then fill(c, m.w, m.v, S); else fill(c, m.w, m.v, I); end;
  case data_e:
    assert s = IS_D | s = IS_DI "data-e is awaited";
    fill(c, m.w, m.v, E);
  case data_own:
    assert s = IM_AD | s = SM_AD "data-own is awaited";
    owned_reply(c, m, true);
  case grant_own:
    assert s = IM_AD | s = SM_AD "grant-own is awaited";
    owned_reply(c, m, false);
  case inv_ack:
    assert s = IM_AD | s = IM_A | s = SM_AD | s = SM_A "an acknowledgement is awaited";
    if is_needed[c][m.w] & got[c][m.w] + 1 = needed[c][m.w] then make_stores(c, m.w); else got[c][m.w] := got[c][m.w] + 1; end;
  case inv:
    send(c, m.c, inv_ack, m.w, 0, 0, 0);
    if s = S then forget(c, m.w);
    elsif s = IS_D then line[c][m.w] := IS_DI;
    elsif s = SM_AD then line[c][m.w] := IM_AD; has[c][m.w] := 0;
    else assert s = I | s = IS_DI | s = IM_AD | s = SI_A | s = II_A "an invalidation has its row"; end;
  case fwd_read:
    assert s = M | s = E | s = MI_A | s = EI_A "an owner is asked";
    send(c, m.c, data, m.w, 0, has[c][m.w], 0);
    if s = M | s = MI_A then send(c, CORES, put_back, m.w, c, has[c][m.w], 0); else send(c, CORES, put_clean, m.w, c, 0, 0); end;
    if s = M | s = E then line[c][m.w] := S; else line[c][m.w] := SI_A; has[c][m.w] := 0; end;
  case fwd_own:
    assert s = M | s = E | s = MI_A | s = EI_A "an owner is asked";
    send(c, m.c, data_own, m.w, 0, has[c][m.w], 0);
    if s = M | s = E then forget(c, m.w); else line[c][m.w] := II_A; has[c][m.w] := 0; end;
  case put_ack:
    assert s = MI_A | s = EI_A | s = SI_A | s = II_A "a put is awaited";
    forget(c, m.w);
  end;
end;

procedure own_by(w: word; c: core);
begin
  owner[w] := c;
  for d: core do listed[w][d] := false; end;
  entry[w] := HX;
end;

procedure rest(w: word);
begin
  if entry[w] = HS & !exists d: core do listed[w][d] end then entry[w] := HI; end;
  if entry[w] = HI then owner[w] := 0; for d: core do listed[w][d] := false; end; end;
end;

procedure wait_at_home(m: message);
begin
  queue[m.w][queued[m.w]] := m.c;
  asked[m.w][queued[m.w]] := m.what;
  queued[m.w] := queued[m.w] + 1;
end;

-- in X the line's words are the owner's: those of the home don't count, and stay as they were
procedure at_home(m: message);
var n: count;
begin
  switch m.what
  case read:
    switch entry[m.w]
    case HI: send(CORES, m.c, data_e, m.w, 0, memory[m.w], 0); own_by(m.w, m.c);
    case HS: send(CORES, m.c, data, m.w, 0, memory[m.w], 0); listed[m.w][m.c] := true;
    case HX:
      send(CORES, owner[m.w], fwd_read, m.w, m.c, 0, 0);
      listed[m.w][owner[m.w]] := true; listed[m.w][m.c] := true; owner[m.w] := 0; entry[m.w] := HSD;
    case HSD: wait_at_home(m);
    end;
  case own, own_has:
    if entry[m.w] = HSD then
      wait_at_home(m);
      return;
    elsif entry[m.w] = HX then
      send(CORES, owner[m.w], fwd_own, m.w, m.c, 0, 0);
    else
      n := 0;
      for d: core do if listed[m.w][d] & d != m.c then n := n + 1; end; end;
      if m.what = own_has & listed[m.w][m.c] then send(CORES, m.c, grant_own, m.w, 0, 0, n); else send(CORES, m.c, data_own, m.w, 0, memory[m.w], n); end;
      for d: core do if listed[m.w][d] & d != m.c then send(CORES, d, inv, m.w, m.c, 0, 0); end; end;
    end;
    own_by(m.w, m.c);
  case put_m, put_e:
    if entry[m.w] = HX & owner[m.w] = m.c then
      if m.what = put_m then memory[m.w] := m.v; end;
      entry[m.w] := HI;
    else
      listed[m.w][m.c] := false;
    end;
    send(CORES, m.c, put_ack, m.w, 0, 0, 0);
  case put_back:
    assert entry[m.w] = HSD "a read is open";
    memory[m.w] := m.v;
    entry[m.w] := HS;
  case put_clean:
    assert entry[m.w] = HSD "a read is open";
    entry[m.w] := HS;
  end;
  rest(m.w);
end;

procedure waiting(w: word);
var m: message; n: count; first: core;
begin
  if queued[w] > 0 & entry[w] != HSD then
    n := queued[w];
    queued[w] := 0;
    m.w := w; m.v := 0; m.needed := 0;
    for i: core do
      if i < n then
        m.c := queue[w][i];
        m.what := asked[w][i];
        queue[w][i] := 0;
        asked[w][i] := none;
        at_home(m);
      end;
    end;
  end;
end;

startstate
begin
  now := 0;
  for c: core do
    at[c] := 0; filled[c] := false; got_value[c] := 0;
    for w: word do forget(c, w); end;
  end;
  for w: word do
    entry[w] := HI; owner[w] := 0; queued[w] := 0; memory[w] := 0; last[w] := 0;
    for c: core do listed[w][c] := false; queue[w][c] := 0; asked[w][c] := none; end;
  end;
  for a: actor do for b: actor do length[a][b] := 0; for l: letter do empty(a, b, l); end; end; end;
end;

ruleset c: core; w: word do

  rule "load" busy(c) & at[c] = w & loads(now, c) & !filled[c] & (line[c][w] = S | line[c][w] = E | line[c][w] = M) ==>
  begin
    assert has[c][w] = last[w] "a load reads the last value";
    at[c] := at[c] + 1;
  end;

  rule "load that has come" busy(c) & at[c] = w & filled[c] ==>
  begin
    assert got_value[c] = last[w] "a load reads the last value";
    filled[c] := false;
    got_value[c] := 0;
    at[c] := at[c] + 1;
  end;

  rule "ask" busy(c) & at[c] = w & loads(now, c) & !filled[c] & line[c][w] = I & in_set(c) < WAYS ==>
  begin
    send(c, CORES, read, w, c, 0, 0);
    line[c][w] := IS_D;
  end;

  rule "store" busy(c) & at[c] = w & stores(now, c) & (line[c][w] = E | line[c][w] = M | line[c][w] = S | line[c][w] = I & in_set(c) < WAYS) ==>
  begin
    last[w] := now * WORDS + w + 1;
    if line[c][w] = E | line[c][w] = M then
      has[c][w] := last[w];
      line[c][w] := M;
    else
      waits[c][w] := true;
      stored[c][w] := last[w];
      if line[c][w] = S then send(c, CORES, own_has, w, c, 0, 0); line[c][w] := SM_AD; else send(c, CORES, own, w, c, 0, 0); line[c][w] := IM_AD; end;
    end;
    at[c] := at[c] + 1;
  end;

  rule "evict" busy(c) & !filled[c] & line[c][at[c]] = I & in_set(c) >= WAYS & (line[c][w] = S | line[c][w] = E | line[c][w] = M) ==>
  begin
    if line[c][w] = S then forget(c, w);
    elsif line[c][w] = E then send(c, CORES, put_e, w, c, 0, 0); line[c][w] := EI_A;
    else send(c, CORES, put_m, w, c, has[c][w], 0); line[c][w] := MI_A; end;
  end;
end;

ruleset a: actor; b: actor do
  rule "message" length[a][b] > 0 ==>
  var m: message;
  begin
    m := way[a][b][0];
    for l: letter do
      if l + 1 < length[a][b] then way[a][b][l] := way[a][b][l + 1]; end;
    end;
    length[a][b] := length[a][b] - 1;
    empty(a, b, length[a][b]);
    if b = CORES then at_home(m); waiting(m.w); else at_core(b, m); end;
  end;
end;

rule "barrier" now < PHASES & forall c: core do !busy(c) & !filled[c] & forall w: word do !waits[c][w] end end ==>
begin
  now := now + 1;
  for c: core do at[c] := 0; end;
end;
