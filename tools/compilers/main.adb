--  A table, a variable, calls to another object.
package body Main is
   function Twice (X : Integer_32) return Integer_32 with Import, Convention => C, External_Name => "twice";
   From_Start : Integer_32 with Import, Convention => C, External_Name => "shared";

   type Table is array (Integer_32 range 0 .. 3) of Integer_32;
   Rows  : constant Table := (3, 4, 5, 6);
   Total : Integer_32 := 32;

   function Answer return Integer_32 is
   begin
      for K in Rows'Range loop
         Total := Total + Rows (K);
      end loop;
      return Twice (Total) - From_Start - 32;
   end Answer;
end Main;
