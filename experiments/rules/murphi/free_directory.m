-- The directory of directory.m with free programs, as in free.m: in each phase a word is used by one core alone, or read by all, as is drawn at the
-- barrier (DISCIPLINE 1); or each core uses each word whenever it likes, and there are no phases (DISCIPLINE 0), as a directory allows it. Stores that
-- wait at a line are one value, since they are of the whole word. With the discipline each load is held against the last store that has retired.
const
  CORES: 2;
  WORDS: 1;
  WAYS: 4;
  DISCIPLINE: 1;
  VALUES: 2;
  ALL: CORES;
  MODES: CORES + 1;
  CODES: DISCIPLINE = 0 ? 1 : (WORDS = 1 ? MODES : (WORDS = 2 ? MODES * MODES : MODES * MODES * MODES));
  MOST: 3 * WORDS + 3;                                  -- messages of a pair in flight
type
  core: 0 .. CORES - 1;
  actor: 0 .. CORES;
  word: 0 .. WORDS - 1;
  value: 0 .. VALUES - 1;
  place: 0 .. WORDS;
  mode_of: 0 .. CORES;
  code: 0 .. CODES - 1;
  count: 0 .. CORES;
  letters: 0 .. MOST;
  letter: 0 .. MOST - 1;
  state: enum {I, S, E, M, IS_D, IS_DI, IM_AD, IM_A, SM_AD, SM_A, MI_A, EI_A, SI_A, II_A};
  homestate: enum {HI, HS, HX, HSD};
  kind: enum {none, read, own, own_has, put_m, put_e, put_back, put_clean, data, data_e, data_own, grant_own, fwd_read, fwd_own, inv, inv_ack, put_ack};
  message: record
    what: kind;
    w: word;
    c: core;
    v: value;
    needed: count;
  end;
var
  mode: array [word] of mode_of;
  wanted: array [core] of word;
  is_waiting: array [core] of boolean;                  -- for a load
  later: array [core] of array [word] of kind;          -- a forward that waits at a line, and who asked
  later_c: array [core] of array [word] of core;
  filled: array [core] of boolean;
  got_value: array [core] of value;
  line: array [core] of array [word] of state;
  has: array [core] of array [word] of value;
  waits: array [core] of array [word] of boolean;       -- a store waits at the line
  stored: array [core] of array [word] of value;
  needed: array [core] of array [word] of count;
  is_needed: array [core] of array [word] of boolean;
  got: array [core] of array [word] of count;
  entry: array [word] of homestate;
  owner: array [word] of core;
  listed: array [word] of array [core] of boolean;
  queued: array [word] of count;                        -- requests that wait at the home
  queue: array [word] of array [core] of core;
  asked: array [word] of array [core] of kind;
  memory: array [word] of value;
  last: array [word] of value;
  way: array [actor] of array [actor] of array [letter] of message;
  length: array [actor] of array [actor] of letters;

function may_load(c: core; w: word): boolean;
begin
  return DISCIPLINE = 0 | mode[w] = c | mode[w] = ALL;
end;

function may_store(c: core; w: word): boolean;
begin
  return DISCIPLINE = 0 | mode[w] = c;
end;

function in_set(c: core): place;
var n: place;
begin
  n := 0;
  for w: word do
    if line[c][w] != I & line[c][w] != MI_A & line[c][w] != EI_A & line[c][w] != SI_A & line[c][w] != II_A then n := n + 1; end;
  end;
  return n;
end;

procedure send(source: actor; target: actor; what: kind; w: word; c: core; v: value; n: count);
var m: message;
begin
  m.what := what; m.w := w; m.c := c; m.v := v; m.needed := n;
  way[source][target][length[source][target]] := m;
  length[source][target] := length[source][target] + 1;
end;

procedure empty(source: actor; target: actor; l: letter);
begin
  way[source][target][l].what := none; way[source][target][l].w := 0; way[source][target][l].c := 0; way[source][target][l].v := 0; way[source][target][l].needed := 0;
end;

procedure forget(c: core; w: word);
begin
  line[c][w] := I; has[c][w] := 0; waits[c][w] := false; stored[c][w] := 0; needed[c][w] := 0; is_needed[c][w] := false; got[c][w] := 0;
end;

procedure make_stores(c: core; w: word);
begin
  has[c][w] := stored[c][w];
  waits[c][w] := false; stored[c][w] := 0; needed[c][w] := 0; is_needed[c][w] := false; got[c][w] := 0;
  line[c][w] := M;
end;

procedure fill(c: core; w: word; v: value; then_: state);
begin
  has[c][w] := v;
  filled[c] := true;
  got_value[c] := v;
  if then_ = I then forget(c, w); else line[c][w] := then_; end;
end;

procedure owned_reply(c: core; m: message; with_words: boolean);
begin
  if with_words then has[c][m.w] := m.v; end;
  if got[c][m.w] < m.needed then
    needed[c][m.w] := m.needed;
    is_needed[c][m.w] := true;
    if line[c][m.w] = IM_AD then line[c][m.w] := IM_A; else line[c][m.w] := SM_A; end;
  else
    make_stores(c, m.w);
  end;
end;

procedure wait_at_line(c: core; m: message);
begin
  assert later[c][m.w] = none "one forward waits";
  later[c][m.w] := m.what;
  later_c[c][m.w] := m.c;
end;

procedure at_core(c: core; m: message);
var s: state;
begin
  s := line[c][m.w];
  switch m.what
  case data:
    assert s = IS_D | s = IS_DI "data is awaited";
    if s = IS_D then fill(c, m.w, m.v, S); else fill(c, m.w, m.v, I); end;
  case data_e:
    assert s = IS_D | s = IS_DI "data-e is awaited";
    fill(c, m.w, m.v, E);
  case data_own:
    assert s = IM_AD | s = SM_AD "data-own is awaited";
    owned_reply(c, m, true);
  case grant_own:
    assert s = IM_AD | s = SM_AD "grant-own is awaited";
    owned_reply(c, m, false);
  case inv_ack:
    assert s = IM_AD | s = IM_A | s = SM_AD | s = SM_A "an acknowledgement is awaited";
    if is_needed[c][m.w] & got[c][m.w] + 1 = needed[c][m.w] then make_stores(c, m.w); else got[c][m.w] := got[c][m.w] + 1; end;
  case inv:
    send(c, m.c, inv_ack, m.w, 0, 0, 0);
    if s = S then forget(c, m.w);
    elsif s = IS_D then line[c][m.w] := IS_DI;
    elsif s = SM_AD then line[c][m.w] := IM_AD; has[c][m.w] := 0;
    else assert s = I | s = IS_DI | s = IM_AD | s = SI_A | s = II_A "an invalidation has its row"; end;
  case fwd_read:
    if s = IM_AD | s = IM_A | s = SM_A then
      wait_at_line(c, m);
      return;
    end;
    assert s = M | s = E | s = MI_A | s = EI_A "an owner is asked";
    send(c, m.c, data, m.w, 0, has[c][m.w], 0);
    if s = M | s = MI_A then send(c, CORES, put_back, m.w, c, has[c][m.w], 0); else send(c, CORES, put_clean, m.w, c, 0, 0); end;
    if s = M | s = E then line[c][m.w] := S; else line[c][m.w] := SI_A; has[c][m.w] := 0; end;
  case fwd_own:
    if s = IM_AD | s = IM_A | s = SM_A then
      wait_at_line(c, m);
      return;
    end;
    assert s = M | s = E | s = MI_A | s = EI_A "an owner is asked";
    send(c, m.c, data_own, m.w, 0, has[c][m.w], 0);
    if s = M | s = E then forget(c, m.w); else line[c][m.w] := II_A; has[c][m.w] := 0; end;
  case put_ack:
    assert s = MI_A | s = EI_A | s = SI_A | s = II_A "a put is awaited";
    forget(c, m.w);
  end;
end;

procedure after(c: core; w: word);
var m: message;
begin
  if later[c][w] != none & (line[c][w] = S | line[c][w] = E | line[c][w] = M) then
    m.what := later[c][w]; m.w := w; m.c := later_c[c][w]; m.v := 0; m.needed := 0;
    later[c][w] := none; later_c[c][w] := 0;
    at_core(c, m);
  end;
end;

procedure own_by(w: word; c: core);
begin
  owner[w] := c;
  for d: core do listed[w][d] := false; end;
  entry[w] := HX;
end;

procedure rest(w: word);
begin
  if entry[w] = HS & !exists d: core do listed[w][d] end then entry[w] := HI; end;
  if entry[w] = HI then owner[w] := 0; for d: core do listed[w][d] := false; end; end;
end;

procedure wait_at_home(m: message);
begin
  queue[m.w][queued[m.w]] := m.c;
  asked[m.w][queued[m.w]] := m.what;
  queued[m.w] := queued[m.w] + 1;
end;

-- in X the line's words are the owner's: those of the home don't count, and stay as they were
procedure at_home(m: message);
var n: count;
begin
  switch m.what
  case read:
    switch entry[m.w]
    case HI: send(CORES, m.c, data_e, m.w, 0, memory[m.w], 0); own_by(m.w, m.c);
    case HS: send(CORES, m.c, data, m.w, 0, memory[m.w], 0); listed[m.w][m.c] := true;
    case HX:
      send(CORES, owner[m.w], fwd_read, m.w, m.c, 0, 0);
      listed[m.w][owner[m.w]] := true; listed[m.w][m.c] := true; owner[m.w] := 0; entry[m.w] := HSD;
    case HSD: wait_at_home(m);
    end;
  case own, own_has:
    if entry[m.w] = HSD then
      wait_at_home(m);
      return;
    elsif entry[m.w] = HX then
      send(CORES, owner[m.w], fwd_own, m.w, m.c, 0, 0);
    else
      n := 0;
      for d: core do if listed[m.w][d] & d != m.c then n := n + 1; end; end;
      if m.what = own_has & listed[m.w][m.c] then send(CORES, m.c, grant_own, m.w, 0, 0, n); else send(CORES, m.c, data_own, m.w, 0, memory[m.w], n); end;
      for d: core do if listed[m.w][d] & d != m.c then send(CORES, d, inv, m.w, m.c, 0, 0); end; end;
    end;
    own_by(m.w, m.c);
  case put_m, put_e:
    if entry[m.w] = HX & owner[m.w] = m.c then
      if m.what = put_m then memory[m.w] := m.v; end;
      entry[m.w] := HI;
    else
      listed[m.w][m.c] := false;
    end;
    send(CORES, m.c, put_ack, m.w, 0, 0, 0);
  case put_back:
    assert entry[m.w] = HSD "a read is open";
    memory[m.w] := m.v;
    entry[m.w] := HS;
  case put_clean:
    assert entry[m.w] = HSD "a read is open";
    entry[m.w] := HS;
  end;
  rest(m.w);
end;

procedure waiting(w: word);
var m: message; n: count; first: core;
begin
  if queued[w] > 0 & entry[w] != HSD then
    n := queued[w];
    queued[w] := 0;
    m.w := w; m.v := 0; m.needed := 0;
    for i: core do
      if i < n then
        m.c := queue[w][i];
        m.what := asked[w][i];
        queue[w][i] := 0;
        asked[w][i] := none;
        at_home(m);
      end;
    end;
  end;
end;

startstate
begin
  for c: core do
    wanted[c] := 0; is_waiting[c] := false; filled[c] := false; got_value[c] := 0;
    for w: word do forget(c, w); later[c][w] := none; later_c[c][w] := 0; end;
  end;
  for w: word do
    mode[w] := ALL; entry[w] := HI; owner[w] := 0; queued[w] := 0; memory[w] := 0; last[w] := 0;
    for c: core do listed[w][c] := false; queue[w][c] := 0; asked[w][c] := none; end;
  end;
  for a: actor do for b: actor do length[a][b] := 0; for l: letter do empty(a, b, l); end; end; end;
end;

ruleset c: core; w: word do

  rule "load" !is_waiting[c] & may_load(c, w) & (line[c][w] = S | line[c][w] = E | line[c][w] = M | line[c][w] = SM_AD | line[c][w] = SM_A | line[c][w] = IM_AD | line[c][w] = IM_A) ==>
  begin
    if DISCIPLINE = 1 then
      assert (waits[c][w] ? stored[c][w] : has[c][w]) = last[w] "a load reads the last value";
    end;
  end;

  rule "load that has come" is_waiting[c] & filled[c] & wanted[c] = w ==>
  begin
    if DISCIPLINE = 1 then assert got_value[c] = last[w] "a load reads the last value"; end;
    filled[c] := false; got_value[c] := 0; is_waiting[c] := false; wanted[c] := 0;
  end;

  rule "ask" !is_waiting[c] & may_load(c, w) & line[c][w] = I & in_set(c) < WAYS ==>
  begin
    send(c, CORES, read, w, c, 0, 0);
    line[c][w] := IS_D;
    is_waiting[c] := true; wanted[c] := w;
  end;

  rule "store" !is_waiting[c] & may_store(c, w) & (line[c][w] = E | line[c][w] = M | line[c][w] = S | waits[c][w] | line[c][w] = I & in_set(c) < WAYS) ==>
  begin
    last[w] := (last[w] + 1) % VALUES;
    if line[c][w] = E | line[c][w] = M then
      has[c][w] := last[w];
      line[c][w] := M;
    elsif waits[c][w] then
      stored[c][w] := last[w];
    else
      waits[c][w] := true;
      stored[c][w] := last[w];
      if line[c][w] = S then send(c, CORES, own_has, w, c, 0, 0); line[c][w] := SM_AD; else send(c, CORES, own, w, c, 0, 0); line[c][w] := IM_AD; end;
    end;
  end;

  rule "evict" !is_waiting[c] & in_set(c) >= WAYS & (exists u: word do line[c][u] = I & may_load(c, u) end) & (line[c][w] = S | line[c][w] = E | line[c][w] = M) ==>
  begin
    if line[c][w] = S then forget(c, w);
    elsif line[c][w] = E then send(c, CORES, put_e, w, c, 0, 0); line[c][w] := EI_A;
    else send(c, CORES, put_m, w, c, has[c][w], 0); line[c][w] := MI_A; end;
  end;
end;

ruleset a: actor; b: actor do
  rule "message" length[a][b] > 0 ==>
  var m: message;
  begin
    m := way[a][b][0];
    for l: letter do
      if l + 1 < length[a][b] then way[a][b][l] := way[a][b][l + 1]; end;
    end;
    length[a][b] := length[a][b] - 1;
    empty(a, b, length[a][b]);
    if b = CORES then at_home(m); waiting(m.w); else at_core(b, m); after(b, m.w); end;
  end;
end;

ruleset k: code do
  rule "barrier" DISCIPLINE = 1 & forall c: core do !is_waiting[c] & forall w: word do !waits[c][w] end end ==>
  begin
    for w: word do
      mode[w] := (w = 0) ? (k % MODES) : ((w = 1) ? ((k / MODES) % MODES) : ((k / (MODES * MODES)) % MODES));
    end;
  end;
end;
