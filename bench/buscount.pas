{ The trace program in plain Free Pascal, with no proof: a yardstick of bench/run.sh. }
program buscount;

{$mode objfpc}

const
  N = 4;
  L = 8;
  P = 4;
  FetchPrice = 4;
  WriteBackPrice = 4;
  M = 64;
  Width = 80;
  Limit = 1000000;

type
  TWords = array [0 .. P - 1] of longword;

var
  blocks, counters, marks: array [0 .. N - 1, 0 .. L - 1] of longword;
  words: array [0 .. N - 1, 0 .. L - 1] of TWords;
  memory: array [0 .. M - 1] of TWords;
  requests, fetches, writeBacks, updates, number: longword;
  line: array [0 .. Width] of byte;
  length: integer;

function Holds(i, b: longword): boolean; inline;
begin
  Holds := (blocks[i, b mod L] = b) and (counters[i, b mod L] <> 0);
end;

procedure Save(i, k: longword); inline;
begin
  memory[blocks[i, k]] := words[i, k];
  marks[i, k] := 0;
end;

procedure WriteBackMarked(i, k: longword); inline;
begin
  if marks[i, k] <> 0 then
  begin
    Save(i, k);
    writeBacks := writeBacks + WriteBackPrice;
  end;
end;

procedure Empty(i, k: longword); inline;
begin
  blocks[i, k] := 0;
  counters[i, k] := 0;
  marks[i, k] := 0;
  FillChar(words[i, k], SizeOf(TWords), 0);
end;

procedure Obtain(i, b: longword);
var
  j, k: longword;
begin
  k := b mod L;
  if Holds(i, b) then exit;
  WriteBackMarked(i, k);
  for j := 0 to N - 1 do
    if (j <> i) and Holds(j, b) and (marks[j, k] <> 0) then Save(j, k);
  blocks[i, k] := b;
  counters[i, k] := FetchPrice;
  marks[i, k] := 0;
  words[i, k] := memory[b];
  fetches := fetches + FetchPrice;
end;

procedure Put(i, b, o, x: longword);
var
  j, k, payer: longword;
begin
  k := b mod L;
  payer := N;
  for j := 0 to N - 1 do
    if (j <> i) and Holds(j, b) then
      if payer = N then
        payer := j
      else if counters[j, k] < counters[payer, k] then
        payer := j;
  counters[i, k] := FetchPrice;
  if payer = N then
  begin
    words[i, k][o] := x;
    marks[i, k] := 1;
    exit;
  end;
  for j := 0 to N - 1 do
    if Holds(j, b) then words[j, k][o] := x;
  memory[b][o] := x;
  updates := updates + 1;
  counters[payer, k] := counters[payer, k] - 1;
  if counters[payer, k] = 0 then Empty(payer, k);
end;

procedure Clear(i: longword);
var
  k: longword;
begin
  for k := 0 to L - 1 do
  begin
    WriteBackMarked(i, k);
    Empty(i, k);
  end;
end;

function HexValue(c: byte): longword; inline;
begin
  case c of
    48 .. 57: HexValue := c - 48;
    65 .. 70: HexValue := c - 55;
    97 .. 102: HexValue := c - 87;
  else
    HexValue := 16;
  end;
end;

{ Apart from reads and writes, since a clear names no variable. }
function TakeClear(i: longword): longword;
begin
  if i >= N then exit(3);
  if requests >= Limit then exit(22);
  Clear(i);
  requests := requests + 1;
  TakeClear := 0;
end;

{ One line without its newline; the refusal number, 0 for none. }
function Take: longword;
var
  at, digits: integer;
  address, i, v: longword;
begin
  if (length < 1) or (length > Width) or (line[0] < 48) or (line[0] > 57) then exit(6);
  at := 1;
  while (at < length) and ((line[at] = 32) or (line[at] = 9)) do at := at + 1;
  if at = 1 then exit(6);
  digits := 0;
  address := 0;
  while (at < length) and (HexValue(line[at]) < 16) do
  begin
    digits := digits + 1;
    if digits > 8 then exit(6);
    address := (address shl 4) or HexValue(line[at]);
    at := at + 1;
  end;
  if digits = 0 then exit(6);
  if (at < length) and (line[at] <> 32) and (line[at] <> 9) and (line[at] <> 13) then exit(6);
  if line[0] > 50 then
  begin
    if line[0] <> 52 then exit(7);
    exit(TakeClear(address shr 24));
  end;
  i := address shr 24;
  v := (address and $ffffff) div 4;
  if i >= N then exit(3);
  if v >= M * P then exit(4);
  if requests >= Limit then exit(22);
  Obtain(i, v div P);
  if line[0] = 49 then Put(i, v div P, v mod P, number);
  requests := requests + 1;
  Take := 0;
end;

var
  buffer: array [0 .. 65535] of byte;
  input_file: file;
  got, k: longint;
  refusal: longword;
begin
  Assign(input_file, '/dev/stdin');
  Reset(input_file, 1);
  number := 1;
  length := 0;
  refusal := 0;
  repeat
    BlockRead(input_file, buffer, SizeOf(buffer), got);
    k := 0;
    while (k < got) and (refusal = 0) do
    begin
      if buffer[k] = 10 then
      begin
        refusal := Take;
        length := 0;
        if refusal = 0 then number := number + 1;
      end
      else if length <= Width then
      begin
        line[length] := buffer[k];
        length := length + 1;
      end;
      k := k + 1;
    end;
  until (got = 0) or (refusal <> 0);
  if (refusal = 0) and (length > 0) then refusal := Take;
  if refusal = 0 then number := 0;
  WriteLn('requests ', requests);
  WriteLn('fetch ', fetches);
  WriteLn('write-back ', writeBacks);
  WriteLn('update ', updates);
  WriteLn('total ', fetches + writeBacks + updates);
  WriteLn('ended ', refusal, ' ', number);
end.
