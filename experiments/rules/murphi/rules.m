-- This protocol in Murphi's language, written by hand from the tables of docs/PROTOCOL.md: plain reads and writes of the pattern `readers`
-- (PATTERN 0) or `turns` (PATTERN 1), with the barrier as one event. A message is a bit or a value for each kind, word and core, since no two are
-- alike: they have no order. `last` is the memory to which each store is applied as it retires; each load is held against it.
const
  CORES: 2;
  WORDS: 1;
  WAYS: 4;
  PATTERN: 0;
  PHASES: PATTERN = 0 ? 2 : 2 * CORES;
type
  core: 0 .. CORES - 1;
  word: 0 .. WORDS - 1;
  value: 0 .. PHASES * WORDS;
  place: 0 .. WORDS;
  phase: 0 .. PHASES;
  letter: enum {I, V, M, R, P, L};
  waits: enum {none, reading, filled};
var
  now: phase;
  at: array [core] of place;                            -- the next access of a core's task
  wait: array [core] of waits;
  entry: array [core] of array [word] of letter;
  has: array [core] of array [word] of value;
  owned: array [word] of boolean;                       -- at home: whether a core is the owner
  owner: array [word] of core;
  home: array [word] of value;
  last: array [word] of value;
  readReq: array [word] of array [core] of boolean;
  readFwd: array [core] of array [word] of array [core] of boolean;
  dataReply: array [core] of array [word] of boolean;
  replied: array [core] of array [word] of value;
  regReq: array [word] of array [core] of boolean;
  regFwd: array [core] of array [word] of array [core] of boolean;
  regAck: array [core] of array [word] of boolean;
  writeBack: array [word] of array [core] of boolean;
  written: array [word] of array [core] of value;
  wbAck: array [core] of array [word] of boolean;

function stores(p: phase; c: core): boolean;
begin
  return PATTERN = 0 ? (p = 1 & c = 0) : (p % 2 = 0 & c = p / 2);
end;

function loads(p: phase; c: core): boolean;
begin
  return PATTERN = 0 ? p = 0 : p % 2 = 1;
end;

function writes(p: phase): boolean;
begin
  return PATTERN = 0 ? p = 1 : p % 2 = 0;
end;

function busy(c: core): boolean;
begin
  return now < PHASES & (loads(now, c) | stores(now, c)) & at[c] < WORDS;
end;

function entries(c: core): place;
var n: place;
begin
  n := 0;
  for w: word do
    if entry[c][w] != I then n := n + 1; end;
  end;
  return n;
end;

function pends(c: core): boolean;
begin
  return exists w: word do entry[c][w] = P end;
end;

procedure forget(c: core; w: word);
begin
  entry[c][w] := I;
  has[c][w] := 0;
end;

procedure send_home(c: core; w: word; v: value);
begin
  assert !dataReply[c][w] "one answer";
  dataReply[c][w] := true;
  replied[c][w] := v;
end;

startstate
begin
  now := 0;
  for c: core do
    at[c] := 0; wait[c] := none;
    for w: word do
      forget(c, w);
      readReq[w][c] := false; dataReply[c][w] := false; replied[c][w] := 0;
      regReq[w][c] := false; regAck[c][w] := false;
      writeBack[w][c] := false; written[w][c] := 0; wbAck[c][w] := false;
      for d: core do readFwd[d][w][c] := false; regFwd[d][w][c] := false; end;
    end;
  end;
  for w: word do owned[w] := false; owner[w] := 0; home[w] := 0; last[w] := 0; end;
end;

ruleset c: core; w: word do

  rule "load" busy(c) & at[c] = w & loads(now, c) & wait[c] != reading & entry[c][w] != I & entry[c][w] != L ==>
  begin
    assert has[c][w] = last[w] "a load reads the last value";
    if entry[c][w] = V then entry[c][w] := M; end;
    at[c] := at[c] + 1;
    wait[c] := none;
  end;

  rule "ask" busy(c) & at[c] = w & loads(now, c) & wait[c] = none & entry[c][w] = I & entries(c) < WAYS ==>
  begin
    readReq[w][c] := true;
    wait[c] := reading;
  end;

  rule "store" busy(c) & at[c] = w & stores(now, c) & entry[c][w] != L & (entry[c][w] != I | entries(c) < WAYS) ==>
  begin
    if entry[c][w] != R & entry[c][w] != P then
      entry[c][w] := P;
      regReq[w][c] := true;
    end;
    has[c][w] := now * WORDS + w + 1;
    last[w] := has[c][w];
    at[c] := at[c] + 1;
  end;

  rule "evict" busy(c) & wait[c] = none & entry[c][at[c]] = I & entries(c) >= WAYS & (entry[c][w] = V | entry[c][w] = M | entry[c][w] = R) ==>
  begin
    if entry[c][w] = R then
      entry[c][w] := L;
      writeBack[w][c] := true;
      written[w][c] := has[c][w];
    else
      forget(c, w);
    end;
  end;

  rule "read at home" readReq[w][c] ==>
  begin
    readReq[w][c] := false;
    if owned[w] then readFwd[owner[w]][w][c] := true; else send_home(c, w, home[w]); end;
  end;

  rule "reply" dataReply[c][w] ==>
  begin
    dataReply[c][w] := false;
    assert wait[c] = reading & entry[c][w] = I & entries(c) < WAYS "an answer is awaited";
    entry[c][w] := V;
    has[c][w] := replied[c][w];
    replied[c][w] := 0;
    wait[c] := filled;
  end;

  rule "registration" regReq[w][c] ==>
  begin
    regReq[w][c] := false;
    if owned[w] & owner[w] != c then regFwd[owner[w]][w][c] := true; else regAck[c][w] := true; end;
    owned[w] := true;
    owner[w] := c;
    home[w] := 0;
  end;

  rule "acknowledgement" regAck[c][w] ==>
  begin
    regAck[c][w] := false;
    assert entry[c][w] = P "an acknowledgement is awaited";
    entry[c][w] := R;
  end;

  rule "write-back" writeBack[w][c] ==>
  begin
    writeBack[w][c] := false;
    wbAck[c][w] := true;
    if owned[w] & owner[w] = c then
      owned[w] := false;
      owner[w] := 0;
      home[w] := written[w][c];
    end;
    written[w][c] := 0;
  end;

  rule "given back" wbAck[c][w] ==>
  begin
    wbAck[c][w] := false;
    assert entry[c][w] = L "a word is leaving";
    forget(c, w);
  end;
end;

ruleset d: core; w: word; c: core do

  rule "forwarded read" readFwd[d][w][c] ==>
  begin
    readFwd[d][w][c] := false;
    if entry[d][w] = R | entry[d][w] = P | entry[d][w] = L then send_home(c, w, has[d][w]); else readReq[w][c] := true; end;
  end;

  rule "forwarded registration" regFwd[d][w][c] ==>
  begin
    regFwd[d][w][c] := false;
    assert entry[d][w] != P "no pending entry is forwarded to";
    if entry[d][w] = R then forget(d, w); end;
    regAck[c][w] := true;
  end;
end;

rule "barrier" now < PHASES & forall c: core do !busy(c) & !pends(c) end ==>
begin
  if now + 1 < PHASES then
    for c: core do
      for w: word do
        if entry[c][w] = V & writes(now) then forget(c, w); end;
        if entry[c][w] = M then entry[c][w] := V; end;
      end;
    end;
  end;
  now := now + 1;
  for c: core do at[c] := 0; end;
end;
