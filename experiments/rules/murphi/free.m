-- This protocol with free programs, in Murphi's language: in each phase every word is used by one core alone, or read by all, or guarded by the lock,
-- as is drawn at the barrier; a core that may use a word does so as often as it likes. So all states of all accepted programs of this size are
-- searched, of any length, with the barrier as one event. Each word is a region of its own. Values count from 0 and wrap, so that an old value
-- differs from the next. CHANGE takes a rule out; 0 takes none.
const
  CORES: 2;
  WORDS: 1;
  WAYS: 4;
  LOCKED: 1;                                            -- whether words may be guarded by the lock
  CHANGE: 0;
  VALUES: 2;
  MARK: 1; COPY_ANSWERS: 2; FILLED_OUT: 3; TOUCHED_GO: 4; UNWRITTEN_GO: 5; OWN_AGAIN: 6; EVICT_EARLY: 7; ALL_GUARDED_GO: 8; NOT_TAKEN: 9; SECOND: 10;
  LAST_FIRST: 11; BESIDE_LEAVING: 12; NEITHER: 14; NO_DROP: 15; LATE_TAKEN: 16; FORWARD_DROPS: 17; NOT_NOTED: 18; UNMARKED: 19;
  ALL: CORES;
  GUARDED: CORES + 1;
  MODES: CORES + 1 + LOCKED;
  CODES: WORDS = 1 ? MODES : (WORDS = 2 ? MODES * MODES : MODES * MODES * MODES);
type
  core: 0 .. CORES - 1;
  word: 0 .. WORDS - 1;
  value: 0 .. VALUES - 1;
  place: 0 .. WORDS;
  mode_of: 0 .. CORES + 1;
  code: 0 .. CODES - 1;
  queued_count: 0 .. CORES;
  letter: enum {I, V, M, R, P, L};
  waits: enum {none, reading, filled, locking};
  notes: array [word] of boolean;
var
  mode: array [word] of mode_of;
  wait: array [core] of waits;
  wanted: array [core] of word;
  entry: array [core] of array [word] of letter;
  has: array [core] of array [word] of value;
  owned: array [word] of boolean;
  owner: array [word] of core;
  home: array [word] of value;
  last: array [word] of value;
  readReq: array [word] of array [core] of boolean;
  readFwd: array [core] of array [word] of array [core] of boolean;
  dataReply: array [core] of array [word] of boolean;
  replied: array [core] of array [word] of value;
  regReq: array [word] of array [core] of boolean;
  regFwd: array [core] of array [word] of array [core] of boolean;
  regAck: array [core] of array [word] of boolean;
  writeBack: array [word] of array [core] of boolean;
  written: array [word] of array [core] of value;
  wbAck: array [core] of array [word] of boolean;
  holds: array [core] of boolean;                       -- the lock, its queue, and the signatures of this phase
  is_held: boolean;
  holder: core;
  queued: queued_count;
  queue: array [core] of core;
  kept: notes;
  own: array [core] of notes;
  acquire: array [core] of boolean;
  grant: array [core] of boolean;
  granted: array [core] of notes;
  release: array [core] of boolean;
  released: array [core] of notes;
  released_now: array [core] of boolean;                -- whether it is of this phase

function may_load(c: core; w: word): boolean;
begin
  return mode[w] = c | mode[w] = ALL | mode[w] = GUARDED & holds[c];
end;

function may_store(c: core; w: word): boolean;
begin
  return mode[w] = c | mode[w] = GUARDED & holds[c];
end;

function ready(c: core; w: word): boolean;
begin
  return wait[c] = none | wait[c] = filled & wanted[c] = w;
end;

function entries(c: core): place;
var n: place;
begin
  n := 0;
  for w: word do
    if entry[c][w] != I & !(CHANGE = BESIDE_LEAVING & entry[c][w] = L) then n := n + 1; end;
  end;
  return n;
end;

function room(c: core): boolean;
begin
  return entries(c) < WAYS;
end;

function is_full_for(c: core): boolean;
begin
  return CHANGE = EVICT_EARLY | entries(c) >= WAYS & exists u: word do entry[c][u] = I & may_load(c, u) end;
end;

procedure forget(c: core; w: word);
begin
  entry[c][w] := I;
  has[c][w] := 0;
end;

procedure send_home(c: core; w: word; v: value);
begin
  assert !dataReply[c][w] "one answer";
  dataReply[c][w] := true;
  replied[c][w] := v;
end;

procedure clear_notes(var n: notes);
begin
  for w: word do n[w] := false; end;
end;

procedure send_grant(c: core);
begin
  is_held := true;
  holder := c;
  grant[c] := true;
  granted[c] := kept;
end;

startstate
begin
  for c: core do
    wait[c] := none; wanted[c] := 0; holds[c] := false; queue[c] := 0;
    clear_notes(own[c]); clear_notes(granted[c]); clear_notes(released[c]);
    acquire[c] := false; grant[c] := false; release[c] := false; released_now[c] := false;
    for w: word do
      forget(c, w);
      readReq[w][c] := false; dataReply[c][w] := false; replied[c][w] := 0;
      regReq[w][c] := false; regAck[c][w] := false;
      writeBack[w][c] := false; written[w][c] := 0; wbAck[c][w] := false;
      for d: core do readFwd[d][w][c] := false; regFwd[d][w][c] := false; end;
    end;
  end;
  for w: word do mode[w] := ALL; owned[w] := false; owner[w] := 0; home[w] := 0; last[w] := 0; end;
  is_held := false; holder := 0; queued := 0; clear_notes(kept);
end;

ruleset c: core; w: word do

  rule "load" ready(c, w) & may_load(c, w) & entry[c][w] != I & entry[c][w] != L ==>
  begin
    assert has[c][w] = last[w] "a load reads the last value";
    if entry[c][w] = V & mode[w] != GUARDED & CHANGE != MARK then entry[c][w] := M; end;
    wait[c] := none; wanted[c] := 0;
  end;

  rule "ask" wait[c] = none & may_load(c, w) & entry[c][w] = I & room(c) ==>
  begin
    readReq[w][c] := true;
    wait[c] := reading; wanted[c] := w;
  end;

  rule "store" ready(c, w) & may_store(c, w) & entry[c][w] != L & (entry[c][w] != I | room(c)) ==>
  begin
    if entry[c][w] != P & (entry[c][w] != R | CHANGE = OWN_AGAIN) then
      entry[c][w] := P;
      regReq[w][c] := true;
    end;
    last[w] := (last[w] + 1) % VALUES;
    has[c][w] := last[w];
    if mode[w] = GUARDED & CHANGE != NOT_NOTED then own[c][w] := true; end;
    wait[c] := none; wanted[c] := 0;
  end;

  rule "evict" wait[c] = none & is_full_for(c) & (entry[c][w] = V | entry[c][w] = M | entry[c][w] = R) ==>
  begin
    if entry[c][w] = R then
      entry[c][w] := L;
      writeBack[w][c] := true;
      written[w][c] := has[c][w];
    else
      forget(c, w);
    end;
  end;

  rule "read at home" readReq[w][c] ==>
  begin
    readReq[w][c] := false;
    if owned[w] then readFwd[owner[w]][w][c] := true; else send_home(c, w, home[w]); end;
  end;

  rule "reply" dataReply[c][w] ==>
  begin
    dataReply[c][w] := false;
    assert wait[c] = reading & wanted[c] = w & entry[c][w] = I "an answer is awaited";
    entry[c][w] := V;
    has[c][w] := replied[c][w];
    replied[c][w] := 0;
    if CHANGE = FILLED_OUT then wait[c] := none; wanted[c] := 0; else wait[c] := filled; end;
  end;

  rule "registration" regReq[w][c] ==>
  begin
    regReq[w][c] := false;
    if owned[w] & owner[w] != c then regFwd[owner[w]][w][c] := true; else regAck[c][w] := true; end;
    owned[w] := true;
    owner[w] := c;
    home[w] := 0;
  end;

  rule "acknowledgement" regAck[c][w] ==>
  begin
    regAck[c][w] := false;
    if entry[c][w] = P then entry[c][w] := R; end;
  end;

  rule "write-back" writeBack[w][c] ==>
  begin
    writeBack[w][c] := false;
    wbAck[c][w] := true;
    if owned[w] & (owner[w] = c | CHANGE = LATE_TAKEN) then
      owned[w] := false;
      owner[w] := 0;
      home[w] := written[w][c];
    end;
    written[w][c] := 0;
  end;

  rule "given back" wbAck[c][w] ==>
  begin
    wbAck[c][w] := false;
    if entry[c][w] = L then forget(c, w); end;
  end;
end;

ruleset d: core; w: word; c: core do

  rule "forwarded read" readFwd[d][w][c] ==>
  begin
    readFwd[d][w][c] := false;
    if entry[d][w] = R | entry[d][w] = P | entry[d][w] = L | CHANGE = COPY_ANSWERS & entry[d][w] != I then
      send_home(c, w, has[d][w]);
    else
      readReq[w][c] := true;
    end;
  end;

  rule "forwarded registration" regFwd[d][w][c] ==>
  begin
    regFwd[d][w][c] := false;
    if entry[d][w] = R | CHANGE = FORWARD_DROPS & entry[d][w] = L then forget(d, w); end;
    regAck[c][w] := true;
  end;
end;

ruleset c: core do

  rule "acquire" LOCKED = 1 & wait[c] = none & !holds[c] & exists w: word do mode[w] = GUARDED end ==>
  begin
    acquire[c] := true;
    wait[c] := locking;
  end;

  rule "acquire at home" acquire[c] ==>
  begin
    acquire[c] := false;
    if !is_held then
      send_grant(c);
    elsif CHANGE = LAST_FIRST then
      for i: core do
        if i < queued then queue[queued - i] := queue[queued - i - 1]; end;
      end;
      queue[0] := c;
      queued := queued + 1;
    else
      queue[queued] := c;
      queued := queued + 1;
    end;
  end;

  rule "grant" grant[c] ==>
  begin
    grant[c] := false;
    assert wait[c] = locking & !exists d: core do holds[d] end "one holder";
    for w: word do
      if mode[w] = GUARDED & (granted[c][w] | CHANGE = ALL_GUARDED_GO) & (entry[c][w] = V | entry[c][w] = M) then forget(c, w); end;
    end;
    if CHANGE != NOT_TAKEN & CHANGE != NEITHER then own[c] := granted[c]; end;
    clear_notes(granted[c]);
    holds[c] := true;
    wait[c] := none;
  end;

  rule "release" holds[c] & wait[c] = none & !exists w: word do entry[c][w] = P end ==>
  begin
    assert !release[c] "one release";
    release[c] := true;
    released[c] := own[c];
    released_now[c] := true;
    holds[c] := false;
  end;

  rule "release at home" release[c] ==>
  var next: core;
  begin
    release[c] := false;
    for w: word do
      if released_now[c] then
        kept[w] := released[c][w] | kept[w] & CHANGE != SECOND & CHANGE != NEITHER;
      end;
    end;
    clear_notes(released[c]);
    released_now[c] := false;
    if queued > 0 then
      next := queue[0];
      for i: core do
        if i + 1 < queued then queue[i] := queue[i + 1]; end;
      end;
      queued := queued - 1;
      queue[queued] := 0;
      send_grant(next);
    else
      is_held := false;
      holder := 0;
    end;
  end;
end;

ruleset k: code do
  rule "barrier" forall c: core do wait[c] = none & !holds[c] & forall w: word do entry[c][w] != P end end ==>
  begin
    for c: core do
      for w: word do
        if (entry[c][w] = V & (mode[w] != ALL | CHANGE = UNWRITTEN_GO) | entry[c][w] = M & mode[w] != ALL & CHANGE = TOUCHED_GO) & CHANGE != NO_DROP then
          forget(c, w);
        end;
        if entry[c][w] = M & CHANGE != UNMARKED then entry[c][w] := V; end;
      end;
      clear_notes(own[c]);
      clear_notes(released[c]);
      released_now[c] := false;
    end;
    clear_notes(kept);
    for w: word do
      mode[w] := (w = 0) ? (k % MODES) : ((w = 1) ? ((k / MODES) % MODES) : ((k / (MODES * MODES)) % MODES));
    end;
  end;
end;
