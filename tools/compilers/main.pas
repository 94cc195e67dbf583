{ A table, a variable, calls to another object. }
unit main;

interface

function answer: longint; cdecl; public name 'answer';

implementation

function twice(x: longint): longint; cdecl; external name 'twice';

var
  from_start: longint; external name 'shared';
  total: longint = 32;

const
  rows: array[0..3] of longint = (3, 4, 5, 6);

function answer: longint; cdecl;
var
  k: longint;
begin
  for k := 0 to 3 do
    total := total + rows[k];
  answer := twice(total) - from_start - 32;
end;

end.
