(* A table, variables, a call to another object. *)
IMPLEMENTATION MODULE main;
FROM start IMPORT twice;
VAR
  total, k : INTEGER;
  rows : ARRAY [0..3] OF INTEGER;

PROCEDURE answer () : INTEGER;
BEGIN
  total := 32;
  FOR k := 0 TO 3 DO rows[k] := k + 3 END;
  FOR k := 0 TO 3 DO total := total + rows[k] END;
  RETURN twice (total) - 58
END answer;

END main.
