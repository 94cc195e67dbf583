with Interfaces; use Interfaces;

package Main is
   pragma Preelaborate;
   function Answer return Integer_32 with Export, Convention => C, External_Name => "answer";
end Main;
