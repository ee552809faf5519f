--  A client calls a server, whose service adds to a shared total: two tasks, and an entry.
with Ada.Command_Line;
with Ada.Text_IO;

procedure Rendezvous is
   Total : Integer := 0;

   task Server is
      entry Add (Number : in Integer; Sum : out Integer);
   end Server;

   task body Server is
   begin
      loop
         select
            accept Add (Number : in Integer; Sum : out Integer) do
               Total := Total + Number;
               Sum := Total;
            end Add;
         or
            terminate;
         end select;
      end loop;
   end Server;

   Count : constant Integer := Integer'Value (Ada.Command_Line.Argument (1));
   Last  : Integer := 0;
begin
   for I in 1 .. Count loop
      Server.Add (I mod 10, Last);
   end loop;
   Ada.Text_IO.Put_Line (Integer'Image (Last));
end Rendezvous;
