procedure Ground (X : in Integer) is
begin
   pragma Assert (2 < 3);
   pragma Assert (3 < 2);
   pragma Assert (X = 5);
end Ground;
