--  Audits a trace from Ada.
with Ada.Text_IO;
with Interfaces;   use Interfaces;
with Interfaces.C; use Interfaces.C;

procedure Verdict is
   type Bytes is array (size_t range <>) of aliased Unsigned_8 with Convention => C;

   type Found is record
      Row, Rule, Plan_Code, Trace_Code, Number : Unsigned_32 := 0;
   end record with Convention => C;

   function Msrp_Audit
     (Plan  : access constant Unsigned_8; Plan_Length  : size_t;
      Trace : access constant Unsigned_8; Trace_Length : size_t;
      What  : access Found) return Unsigned_32
     with Import, Convention => C, External_Name => "msrp_audit";

   function Text (Lines : String) return Bytes is
      Made : Bytes (1 .. Lines'Length);
   begin
      for At_Place in Lines'Range loop
         Made (size_t (At_Place - Lines'First + 1)) :=
           (if Lines (At_Place) = '|' then 10 else Character'Pos (Lines (At_Place)));
      end loop;
      return Made;
   end Text;

   Plan  : aliased constant Bytes := Text ("msrp,1|cores,1|ticks,2|task,a,0,2,2,0|op,run,1|");
   Trace : aliased constant Bytes := Text ("msrp-trace,1,1,2|0,0,run,a,0,-|1,0,run,a,0,-|");
   What   : aliased Found;
   Status : Unsigned_32;
begin
   Status := Msrp_Audit (Plan (1)'Access, Plan'Length, Trace (1)'Access, Trace'Length, What'Access);
   Ada.Text_IO.Put_Line ("status" & Status'Image & ", row" & What.Row'Image & " breaks A" & What.Rule'Image (2 .. 2));
end Verdict;
